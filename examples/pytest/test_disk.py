"""Three things that a disk does not let a test do: stop at a moment, go on otherwise, and be cut off after each write."""

import pytest

import bfqclient

A, B = b"A" * bfqclient.SECTOR, b"B" * bfqclient.SECTOR
# Where the writer of the last test keeps its data, and where its journal: a copy, and the record that says that the copy is whole.
DATA, COPY, RECORD = 100, 0, 1
WHOLE = b"!" * bfqclient.SECTOR


def test_a_moment(host):
    """Held late, the host goes back to the very step that stored sector 100. Its client notices nothing."""
    with host.session() as session:
        session.write(100, A)
        session.write(100, B)
        step = host.until("stored sector 100")
        assert host.look("sector 100") == "sector 100 overlay 42"
        host.operator.undo()
        assert host.look("sector 100") == "sector 100 overlay 41"
        with pytest.raises(bfqclient.NotYet):
            host.operator.tick()
        _, cursor, length, _ = host.look("line").split()
        assert step.place == int(cursor) + 1
        host.operator.redo(int(length) - int(cursor))
        host.operator.release()
        assert session.read(100, 1) == B


def test_another_future(host):
    """The second write is undone, and never comes: the first one stands."""
    with host.session() as session:
        session.write(100, A)
        session.write(100, B)
        host.operator.hold()
        # Submit, dispatch, finish and reap.
        host.operator.undo(4)
        host.operator.release()
        assert session.read(100, 1) == A


def update(session, data):
    """Writes the data so that a crash leaves the old or the new: first a copy, then its record, then the data itself."""
    for sector, held in ((COPY, data), (RECORD, WHOLE), (DATA, data), (RECORD, bytes(bfqclient.SECTOR))):
        session.write(sector, held)


def recovered(disk):
    """The data, as the writer finds it on a disk: from the copy, if its record is there."""
    copy, record, data = (disk[at * bfqclient.SECTOR:(at + 1) * bfqclient.SECTOR] for at in (COPY, RECORD, DATA))
    return copy if record == WHOLE else data


def test_each_crash(host, image):
    """Whatever write a crash comes after, the data is the old or the new: the new from the record on."""
    with host.session() as session:
        session.write(DATA, A)
        update(session, B)
    disks = [state.over(image.read_bytes()) for state in host.states("stored")]
    assert [recovered(disk)[:1] for disk in disks] == [b"A", b"A", b"B", b"B", b"B"]
