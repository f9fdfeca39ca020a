"""Runs of the built program whose input stays open: what was answered is out before the host waits for more.

The expected texts come from the rules: each accepted step has a serial, counted from 1, which is the name of the session, the
bio or the issue that it makes; a read of standard input takes at most 4,096 bytes; and before each read all that was printed
is written.
"""

import contextlib
import functools
import os
import resource
import select
import signal
import socket
import subprocess
import tempfile
import termios
import time

from bad_input import BAD_LINE, DONE, LONG_PIECE, LONG_TEXT, READ_FAULT, WRITE_FAULT, Skipped

SECONDS = 20
LINES = 1_000
# What the query `line` prints before the first step.
NO_STEPS = b"line 0 0 0\n"
# How many bytes the buffer of the output holds.
BUFFER = 65_536
# How many bytes a limited output takes.
LIMIT = 5_000
# What the terminal takes as the end of the input, at the start of a line.
END_OF_INPUT = b"\x04"


class Wrong(Exception):
    """An answer did not come, or another one did, or the run ended otherwise."""


def dialogue(count):
    """So many lines with their answers: a client that reads sector 5 again and again. Each line is an accepted step."""
    yield b"attach 0 0 4\n", b"attached 1\n"
    for at in range(count - 1):
        # Four steps for each read, the first of which has this serial.
        first = 2 + at // 4 * 4
        yield [(b"read 0 1 5 1\n", b"queued %d\n" % first),
               (b"dispatch\n", b"issued 0 %d fetch 5 1\n" % (first + 1)),
               (b"finish 0 %d fill 7\n" % (first + 1), b"finished 1\n"),
               (b"reap 0 1\n", b"completed %d read 07\n" % first)][at % 4]


def difference(got, wanted):
    """Where a text first differs from the wanted one, with some bytes of both from there on."""
    same = len(os.path.commonprefix([got, wanted]))
    return f"after {same} bytes as wanted stands {got[same:same + 60]!r} and not {wanted[same:same + 60]!r}"


def read_piece(descriptor):
    """What one read gives, within some seconds; at the end no bytes."""
    if not select.select([descriptor], [], [], SECONDS)[0]:
        raise Wrong(f"nothing comes within {SECONDS} seconds")
    return os.read(descriptor, 2 * BUFFER)


def expect(descriptor, wanted):
    """Reads just these bytes, each piece within some seconds."""
    got = b""
    while got != wanted:
        try:
            piece = read_piece(descriptor)
        except Wrong as silence:
            raise Wrong(f"{silence}; {difference(got, wanted)}") from None
        got += piece
        if not piece or not wanted.startswith(got):
            raise Wrong(difference(got, wanted))


def ended(host, wanted):
    """Waits for the end of the run: it has this status, and nothing more was written."""
    try:
        status = host.wait(timeout=SECONDS)
    except subprocess.TimeoutExpired:
        raise Wrong(f"no end within {SECONDS} seconds") from None
    if status != wanted:
        raise Wrong(f"the status is {status} and not {wanted}")
    for output in (host.stdout, host.stderr):
        if output and not output.closed and (left := output.read()):
            raise Wrong(f"at the end stands {left[:60]!r} besides")


def heed_interrupts():
    """Who runs the tests may ignore interrupts, as a shell has it that runs them in the background, and so would the program."""
    signal.signal(signal.SIGINT, signal.SIG_DFL)


def limit_output():
    """The system takes so many bytes for a file, and then fails a write in place of ending the program by a signal."""
    signal.signal(signal.SIGXFSZ, signal.SIG_IGN)
    resource.setrlimit(resource.RLIMIT_FSIZE, (LIMIT, LIMIT))


def one_by_one(start):
    """A line is written only when the one before is answered."""
    with start() as host:
        for line, answer in dialogue(LINES):
            host.stdin.write(line)
            expect(host.stdout.fileno(), answer)
        host.stdin.close()
        ended(host, DONE)


def in_parts(start):
    """A line is answered when it is whole, though the next has begun; the last one at the end of the input."""
    with start() as host:
        for part, answer in [(b"hold\nre", b"moved 0 0\n"), (b"lease\n\n# a comment", b"done\n"), (b"\nline\nli", NO_STEPS)]:
            host.stdin.write(part)
            expect(host.stdout.fileno(), answer)
        host.stdin.write(b"ne")
        host.stdin.close()
        expect(host.stdout.fileno(), NO_STEPS)
        ended(host, DONE)


def whole_pieces(start):
    """Lines of as many bytes as one read takes are answered before more is written, and so are those of two reads, and of one
    and a part."""
    for lines in (819 * [b"line\n"] + [b"\n"], 1_638 * [b"line\n"] + 2 * [b"\n"], 1_000 * [b"line\n"]):
        with start() as host:
            host.stdin.write(b"".join(lines))
            expect(host.stdout.fileno(), lines.count(b"line\n") * NO_STEPS)
            host.stdin.write(b"line\n")
            expect(host.stdout.fileno(), NO_STEPS)
            host.stdin.close()
            ended(host, DONE)


def kept_apart():
    """Two ends of a socket of which each read gives one write."""
    try:
        return socket.socketpair(socket.AF_UNIX, socket.SOCK_SEQPACKET)
    except OSError as lacking:
        raise Skipped(f"no socket that keeps writes apart can be had here: {lacking}") from None


def of_a_full_buffer(start):
    """Of a piece that prints more than the buffer holds, the lines that fit are written first."""
    longest = max(len(line) for line in LONG_TEXT.splitlines(keepends=True))
    ours, its = kept_apart()
    with ours, its, tempfile.TemporaryFile() as script:
        script.write(LONG_PIECE)
        script.seek(0)
        with start(stdin=script, stdout=its) as host:
            its.close()
            first = read_piece(ours.fileno())
            if not BUFFER - longest < len(first) <= BUFFER:
                raise Wrong(f"the first write has {len(first)} bytes")
            text = first + read_piece(ours.fileno())
            if text != LONG_TEXT:
                raise Wrong(difference(text, LONG_TEXT))
            ended(host, DONE)


def from_a_file(start):
    """Of a script from a file the answers come in one write for each piece of 4,096 bytes: writes to such a socket stay apart."""
    ours, its = kept_apart()
    with ours, its, tempfile.TemporaryFile() as script:
        script.write(1_000 * b"line\n")
        script.seek(0)
        with start(stdin=script, stdout=its) as host:
            its.close()
            # The first piece has 819 lines and one byte of the next.
            for lines in (819, 181):
                if (got := read_piece(ours.fileno())) != lines * NO_STEPS:
                    raise Wrong(difference(got, lines * NO_STEPS))
            ended(host, DONE)
            if left := read_piece(ours.fileno()):
                raise Wrong(f"at the end stands {left[:60]!r} besides")


def at_a_bad_line(start):
    """A bad line ends the run while the input stays open, after the answers of the lines before it; so does a line's byte 257."""
    for lines in (b"hold\nhold 1\nhold\n", b"hold\n#" + 256 * b"x"):
        with start() as host:
            host.stdin.write(lines)
            expect(host.stdout.fileno(), b"moved 0 0\nbad line 2\n")
            ended(host, BAD_LINE)


def at_a_read_fault(start):
    """A read that fails after some lines: those that were whole are answered, and what had begun is not run."""
    ours, its = socket.socketpair()
    with ours, its, start(stdin=its) as host:
        ours.sendall(b"hold\nrelease\nhold")
        expect(host.stdout.fileno(), b"moved 0 0\ndone\n")
        # A socket fails a read when its other end is closed with something unread there.
        its.send(b"unread")
        ours.close()
        ended(host, READ_FAULT)


def at_an_input_that_does_not_wait(start):
    """A read that would have to wait, where the input is set not to, is a fault like any other: it is not made again."""
    ours, its = socket.socketpair()
    with ours, its:
        its.setblocking(False)
        ours.sendall(b"hold\nrel")
        with start(stdin=its) as host:
            expect(host.stdout.fileno(), b"moved 0 0\n")
            ended(host, READ_FAULT)


def at_an_interrupt(start):
    """An interrupt while the host waits loses nothing that was answered."""
    pairs = [*dialogue(41)]
    text = b"".join(answer for _, answer in pairs)
    with tempfile.TemporaryFile() as file, start(stdout=file) as host:
        host.stdin.write(b"".join(line for line, _ in pairs))
        limit = time.monotonic() + SECONDS
        while os.fstat(file.fileno()).st_size < len(text) and time.monotonic() < limit:
            time.sleep(0.01)
        host.send_signal(signal.SIGINT)
        ended(host, -signal.SIGINT)
        if (written := os.pread(file.fileno(), 65_536, 0)) != text:
            raise Wrong(difference(written, text))


def at_a_full_output(start):
    """A flush that fails ends the run while the input stays open."""
    with open("/dev/full", "wb") as full, start(stdout=full) as host:
        host.stdin.write(b"hold\n")
        ended(host, WRITE_FAULT)


def at_no_output(start):
    """Without a standard output a line that prints something ends the run."""
    with start(stdout=None, preexec_fn=functools.partial(os.close, 1)) as host:
        host.stdin.write(b"# nothing\n\nhold\n")
        ended(host, WRITE_FAULT)


def at_a_limited_output(start):
    """An output that takes some bytes and no more has just these of the text."""
    with tempfile.TemporaryFile() as file, start(stdout=file, preexec_fn=limit_output) as host:
        host.stdin.write(1_000 * b"line\n")
        ended(host, WRITE_FAULT)
        if (written := os.pread(file.fileno(), 65_536, 0)) != (1_000 * NO_STEPS)[:LIMIT]:
            raise Wrong(difference(written, (1_000 * NO_STEPS)[:LIMIT]))


def at_a_closed_output(start):
    """When nobody reads the answers any more, the run ends while its input stays open."""
    with start() as host:
        host.stdin.write(b"hold\n")
        expect(host.stdout.fileno(), b"moved 0 0\n")
        host.stdout.close()
        host.stdin.write(b"release\n")
        ended(host, WRITE_FAULT)


def on_a_terminal(start):
    """On a terminal, which gives the host a line when it is whole, each answer comes after its line."""
    with contextlib.ExitStack() as stack:
        try:
            ours, its = os.openpty()
            stack.callback(os.close, its)
            stack.callback(os.close, ours)
            # Without the echo of what is typed, and without a carriage return before each newline.
            modes = termios.tcgetattr(its)
            modes[1] &= ~termios.OPOST
            modes[3] &= ~termios.ECHO
            termios.tcsetattr(its, termios.TCSANOW, modes)
        except (OSError, termios.error) as lacking:
            raise Skipped(f"no terminal can be had here: {lacking}") from None
        host = stack.enter_context(start(stdin=its, stdout=its))
        for line, answer in dialogue(9):
            os.write(ours, line)
            expect(ours, answer)
        os.write(ours, END_OF_INPUT)
        ended(host, DONE)


RUNS = [one_by_one, in_parts, whole_pieces, from_a_file, of_a_full_buffer, at_a_bad_line, at_a_read_fault,
        at_an_input_that_does_not_wait, at_an_interrupt, at_a_full_output, at_no_output, at_a_limited_output, at_a_closed_output,
        on_a_terminal]


def dialogues(program):
    """The name of each run with what was wrong with it, and what is skipped, a text for each."""
    @contextlib.contextmanager
    def start(**given):
        usual = {"stdin": subprocess.PIPE, "stdout": subprocess.PIPE, "stderr": subprocess.PIPE, "preexec_fn": heed_interrupts}
        with subprocess.Popen([program, "sim"], bufsize=0, **{**usual, **given}) as host:
            try:
                yield host
            finally:
                host.kill()

    done, skipped = [], []
    for run in RUNS:
        name = f"dialogue: {run.__name__.replace('_', ' ')}"
        try:
            run(start)
            done.append((name, []))
        except Skipped as lacking:
            skipped.append(f"{name}: {lacking}")
        except (Wrong, OSError, subprocess.SubprocessError) as fault:
            done.append((name, [str(fault)]))
    return done, skipped
