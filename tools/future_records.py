"""A record from which a search begins: `bfqhost replay` stands before one of its entries, and writes have their bytes from its file."""

import array
import os
import stat

import grammar
from host import BadInput, Host, told_with
from image import SECTOR
from recorded import MOST_BYTES, options_of
from shown import SEATS

TO, HISTORY = "--to", "--history"
# The options of replay that go with a search.
TAKEN = (TO, HISTORY, "--payload", "--image")
MOST_CALLS = "16777216"
# What stands before the number of an entry from which a write has its bytes.
SIGN = "#"
# A frame is the length of its body, and the body: who calls, the kind of the call, and of these kinds the session, the first sector, how
# many there are, and the bytes of a write.
LENGTH, DATA = 4, 20
KINDS = {2: "read", 3: "write", 6: "discard"}


class Record:
    """A record up to an entry."""

    def __init__(self, path, program, options, image):
        self.name, self.path = path, os.path.abspath(path)
        given = values_of(options)
        with told_with(path):
            # It is read more than once.
            if not stat.S_ISREG(os.stat(path).st_mode):
                raise BadInput(f"{path}: no record: it is no file")
        # Those of the host whose run it is, the number of sectors last.
        self.options = options_of(path)
        if image is not None and image.length // SECTOR != int(self.options[-1]):
            raise BadInput(f"{image.path}: {image.length // SECTOR} sectors, and the host of {path} had {self.options[-1]}")
        self.bounds = bounds_of(path)
        behind = len(self.bounds)
        to = entry_of(given.get(TO, str(behind)))
        self.entries = queued_in(path, program, to)
        if TO in given and to >= behind:
            raise BadInput(f"{TO} {to}: {path} has {behind - 1} entries")
        # How many entries are made.
        self.count = max(to - 1, 0)
        # What replay is told if nobody says otherwise. A host that still serves makes its record longer, and all must begin at one place.
        usual = {HISTORY: MOST_CALLS, TO: str(behind)}
        self.usual = [word for name, value in usual.items() if name not in given for word in (name, value)]

    def body(self, entry):
        """The body of the frame of an entry, counted from 1."""
        begin, end = self.bounds[entry - 1] + LENGTH, self.bounds[entry]
        with told_with(self.path), open(self.path, "rb") as file:
            return os.pread(file.fileno(), end - begin, begin)

    def act(self, serial):
        """What the bio of a serial does, as `act_of` tells it of a line. Bytes that are not alike are told by the entry that has them."""
        entry = self.entries[serial]
        body = self.body(entry)
        data = body[DATA:]
        source = [] if not data else [str(data[0])] if data == data[:1] * len(data) else [f"{SIGN}{entry}"]
        return (KINDS[body[1]], str(int.from_bytes(body[10:18], "big")), str(int.from_bytes(body[18:DATA], "big")), *source)

    def blocks(self, source):
        """The blocks of a write whose bytes are told by its entry."""
        data = self.body(int(source.removeprefix(SIGN)))[DATA:]
        return [data[at:at + SECTOR] for at in range(0, len(data), SECTOR)]

    def places_of(self, wanted):
        """Where these blocks stand, each the first time: an entry as `#ENTRY.`, and the sector of its write."""
        places = {}
        for entry in range(1, self.count + 1) if wanted else ():
            body = self.body(entry)
            if body[0] < SEATS and KINDS.get(body[1]) == "write":
                for sector, block in enumerate(self.blocks(f"{SIGN}{entry}")):
                    if block in wanted:
                        places.setdefault(block, (f"{SIGN}{entry}.", sector))
        return places


def values_of(options):
    """The options of replay that are given, with their values. All else the record says, or goes with no search."""
    found, words = {}, iter(options)
    for word in words:
        name, sign, value = word.partition("=")
        if name not in TAKEN:
            raise BadInput(f"with --record the options behind -- are {', '.join(TAKEN)}: {word!r}")
        found[name] = value if sign else next(words, "")
    return found


def entry_of(word):
    """The number of an entry."""
    if why := grammar.why_no_number("ENTRY", word):
        raise BadInput(f"{TO}: {why}")
    return int(word)


def queued_in(path, program, to):
    """The entry of each bio that was queued before an entry, by its serial. All entries are judged by the program."""
    found = {}
    with Host(program, ["--list", TO, str(to)], path) as host:
        for row in host.stdout:
            call, _, answer = row.decode(errors="replace").rstrip("\n").rpartition(" -> ")
            if answer.startswith("queued "):
                found[answer.split(" ")[1]] = int(call.partition(" ")[0])
        host.process.wait()
        host.listener.join()
        if host.said.startswith("record: "):
            why = host.said.removeprefix("record: ")
            # What was cut may be what matters, so nobody begins behind it unawares.
            cut = f": `head -c {bounds_of(path)[-1]}` leaves out what was cut" if why.startswith("torn ") else ""
            raise BadInput(f"{path}: {why}{cut}")
    return found


def bounds_of(path):
    """Where each entry begins, and where the last one ends that is whole."""
    bounds = array.array("Q")
    with told_with(path), open(path, "rb") as file:
        size = os.fstat(file.fileno()).st_size
        at = len(file.readline(MOST_BYTES))
        while at <= size:
            bounds.append(at)
            file.seek(at)
            length = file.read(LENGTH)
            # Bytes of a length that is not whole are the last ones.
            at = at + LENGTH + int.from_bytes(length, "big") if len(length) == LENGTH else size + 1
    return bounds
