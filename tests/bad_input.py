"""The table of bad input, and of good input beside it.

Each case has the words of a run of `bfqhost`, its standard input, and what it must write to standard output and to
standard error, with its exit status. `./test` runs them. The expected texts come from the rules of scripts, words and
limits, and not from the program's own output.
"""

from dataclasses import dataclass
from pathlib import Path
from typing import Optional

# The version of this checkout, with its line end.
VERSION = Path(__file__).resolve().parents[1].joinpath("VERSION").read_bytes()

SIM = ["sim", "--scheduler", "none"]
# Under bfq a request in an empty queue activates its session: 1,024 sectors at weight 40 take 1,024 * 2^22 / 40.
BFQ_SCRIPT = b"group 0 100\nattach 0 1 4\nread 0 2 0 8\nentity 0\nvtime 1\nvtime 2\nentity 18\ndrop 1\nweight 1 7\n"
BFQ_TEXT = (b"group 1\nattached 2\nqueued 3\nentity 0 active 0 107374182 40 1024 0\nvtime 1 0\nvtime 2 none\nentity 18 none\n"
            b"refused 11\ndone\n")

# Statuses of `bfqhost sim`.
DONE = 0
BAD_LINE = 2
READ_FAULT = 3
WRITE_FAULT = 4
BAD_WORDS = 6

REFUSED = b"words: refused\n"

U32_PAST = 2**32
U64_MOST = 2**64 - 1
U64_PAST = 2**64


@dataclass
class Case:
    """One run. Where `has` is there, standard output is only asked to contain these texts."""

    name: str
    words: list
    stdin: bytes = b""
    stdout: bytes = b""
    stderr: bytes = b""
    status: int = DONE
    has: Optional[list] = None
    # Standard input is a directory, so that the first read fails.
    reads_directory: bool = False
    # Standard output is /dev/full, so that each write fails.
    writes_to_full: bool = False


class Skipped(Exception):
    """What a run needs cannot be had here."""


def bad_line(name, line):
    """A bad line between two good ones: the one before is answered, and the one after is not read."""
    script = b"attach 0 0 4\n" + line + b"\nattach 1 0 4\n"
    return Case(f"bad line: {name}", SIM, script, b"attached 1\nbad line 2\n", b"", BAD_LINE)


BAD_LINES = [
    bad_line(name, line)
    for name, line in [
        ("unknown word", b"submit 0 1 0 1"),
        ("a line that is not there yet", b"flush 0 1"),
        ("a discard with a byte", b"discard 0 1 0 1 0"),
        ("a discard of no count", b"discard 0 1 0"),
        ("count of a discard past u16", b"discard 0 1 0 65536"),
        ("capital letter", b"Dispatch"),
        ("part of a word", b"dispatc"),
        ("a word and more", b"dispatched"),
        ("two spaces", b"attach 1  0 4"),
        ("space before the first word", b" dispatch"),
        ("space after the last word", b"dispatch "),
        ("one space", b" "),
        ("space before a comment", b" # here"),
        ("tab", b"attach 1\t0 4"),
        ("tab after the last word", b"dispatch\t"),
        ("carriage return", b"dispatch\r"),
        ("byte 0", b"dispatch\0"),
        ("byte above 127", b"dispatch\xff"),
        ("comment of 257 bytes", b"#" + 256 * b"x"),
        ("comment of 10,000 bytes", b"#" + 9_999 * b"x"),
        ("257 bytes", 257 * b"x"),
        ("a number that fills the line", b"undo " + 251 * b"1"),
        # Numbers.
        ("plus sign", b"undo +1"),
        ("minus sign", b"undo -1"),
        ("minus zero", b"undo -0"),
        ("leading zero", b"undo 01"),
        ("two zeros", b"undo 00"),
        ("hexadecimal number", b"undo 0x1"),
        ("digits with a separator", b"undo 1_000"),
        ("a number with a point", b"undo 1.0"),
        ("no digit", b"undo x"),
        ("a digit and a letter", b"undo 1x"),
        ("seat past u8", b"attach 256 0 4"),
        ("group past u8", b"attach 0 256 4"),
        ("priority past u8", b"attach 0 0 256"),
        ("byte past u8", b"write 0 1 0 1 256"),
        ("tag past u8", b"finish 256 1 stored"),
        ("fill past u8", b"finish 0 1 fill 256"),
        # A sector of a payload, which is not there.
        ("no number of a sector", b"write 0 1 0 1 @"),
        ("a leading zero of a sector", b"write 0 1 0 1 @01"),
        ("a plus sign of a sector", b"write 0 1 0 1 @+1"),
        ("a sector past u64", b"write 0 1 0 1 @%d" % U64_PAST),
        ("two signs of a sector", b"write 0 1 0 1 @@1"),
        ("a sign behind a sector", b"write 0 1 0 1 1@"),
        ("a sector of a payload and a byte", b"write 0 1 0 1 @1 1"),
        ("a byte and a sector of a payload", b"write 0 1 0 1 1 @1"),
        ("a sector of a payload in the place of the count", b"write 0 1 0 @1"),
        ("a read with a sector of a payload", b"read 0 1 0 1 @1"),
        ("a discard with a sector of a payload", b"discard 0 1 0 1 @1"),
        ("count past u16", b"read 0 1 0 65536"),
        ("undo past u32", b"undo %d" % U32_PAST),
        ("redo past u32", b"redo %d" % U32_PAST),
        ("session past u64", b"reap 0 %d" % U64_PAST),
        ("start past u64", b"read 0 1 %d 1" % U64_PAST),
        ("issue past u64", b"finish 0 %d stored" % U64_PAST),
        ("sector past u64", b"sector %d" % U64_PAST),
        ("seat of queue past u8", b"queue 256"),
        ("a number of 100 digits", b"sector " + 100 * b"9"),
        # Looks.
        ("show alone", b"show"),
        ("show and a space", b"show "),
        ("show of another word", b"show seats 0"),
        ("show of a number", b"show 0"),
        ("show with no space", b"showhost"),
        ("show of two spaces", b"show  host"),
        ("show in a capital letter", b"show Host"),
        ("show seat of no seat", b"show seat"),
        ("show seat past u8", b"show seat 256"),
        ("show seat of two numbers", b"show seat 0 1"),
        ("show outbox past u8", b"show outbox 256"),
        ("show queue past u8", b"show queue 256"),
        ("show tree past u8", b"show tree 256"),
        ("show tree with a leading zero", b"show tree 00"),
        ("show stored past u64", b"show stored %d" % U64_PAST),
        ("show stored with a sign", b"show stored +0"),
        ("show step past u32", b"show step %d" % U32_PAST),
        ("show step of no number", b"show step"),
        ("show host and a number", b"show host 0"),
        ("show state and a number", b"show state 0"),
        ("show state and a letter", b"show states"),
        ("show state cut", b"show stat"),
        ("show flight and a space", b"show flight "),
        ("show requeued and a seat", b"show requeued 0"),
        ("show service and a seat", b"show service 0"),
        # Too few words, and too many.
        ("attach of two words", b"attach 1 0"),
        ("attach of four words", b"attach 1 0 4 0"),
        # Classes.
        ("attach with a class by another name", b"attach 0 0 4 real"),
        ("attach with a class in capitals", b"attach 0 0 4 RT"),
        ("attach with a class and a word", b"attach 0 0 4 rt x"),
        ("attach with two classes", b"attach 0 0 4 rt idle"),
        ("attach with a class in the place of the priority", b"attach 0 0 rt"),
        ("attach with a part of a class", b"attach 0 0 4 idl"),
        ("attach with a class and more", b"attach 0 0 4 bes"),
        ("attach with a class and a space", b"attach 0 0 4 rt "),
        ("attach with two spaces before a class", b"attach 0 0 4  be"),
        ("attach with no class but its space", b"attach 1 0 4 "),
        ("attach with a class by its number", b"attach 0 0 4 1"),
        ("attach with a class that is none", b"attach 0 0 4 none"),
        ("vtime of an unknown class", b"vtime 0 xx"),
        ("vtime of a class in capitals", b"vtime 0 IDLE"),
        ("vtime of a class and no group", b"vtime rt"),
        ("vtime of a class before its group", b"vtime rt 0"),
        ("vtime of two classes", b"vtime 0 rt be"),
        ("vtime of a class past u8", b"vtime 256 rt"),
        ("class with no number", b"class"),
        ("class and a space", b"class "),
        ("class past u8", b"class 256"),
        ("class with a leading zero", b"class 01"),
        ("class of two numbers", b"class 0 1"),
        ("class with a class", b"class 0 rt"),
        ("class in a capital letter", b"Class 0"),
        ("classes", b"classes 0"),
        ("read of three words", b"read 0 1 0"),
        ("read of five words", b"read 0 1 0 1 65"),
        ("write with no byte", b"write 0 1 0 1"),
        ("write of six words", b"write 0 1 0 1 65 0"),
        ("reap of one word", b"reap 0"),
        ("reap of three words", b"reap 0 1 2"),
        ("leave with no seat", b"leave"),
        ("leave of two words", b"leave 0 1"),
        ("seat of leave past u8", b"leave 256"),
        ("leave and a reason", b"leave 0 ended"),
        ("work with no issue", b"work 0"),
        ("work of three words", b"work 0 1 2"),
        ("work with an outcome", b"work 0 1 stored"),
        ("tag of work past u8", b"work 256 1"),
        ("issue of work past u64", b"work 0 %d" % U64_PAST),
        ("requeue with no issue", b"requeue 0"),
        ("requeue of three words", b"requeue 0 1 2"),
        ("requeue with an outcome", b"requeue 0 1 fault"),
        ("tag of requeue past u8", b"requeue 256 1"),
        ("issue of requeue past u64", b"requeue 0 %d" % U64_PAST),
        ("freeze and a number", b"freeze 1"),
        ("thaw and a space", b"thaw "),
        ("part of thaw", b"tha"),
        ("tick and a number", b"tick 1"),
        ("ticks", b"ticks"),
        ("switch with no scheduler", b"switch"),
        ("switch and a space", b"switch "),
        ("switch to another scheduler", b"switch cfq"),
        ("switch to a number", b"switch 0"),
        ("switch to a capital letter", b"switch BFQ"),
        ("switch with two spaces", b"switch  none"),
        ("switch to two schedulers", b"switch none bfq"),
        ("switch and a space at the end", b"switch bfq "),
        ("switch and its scheduler in one word", b"switchnone"),
        ("dispatch of one word", b"dispatch 0"),
        ("finish with no outcome", b"finish 0 1"),
        ("finish with an unknown outcome", b"finish 0 1 lost"),
        ("finish stored of one word", b"finish 0 1 stored 0"),
        ("finish fill with no byte", b"finish 0 1 fill"),
        ("finish fill of two words", b"finish 0 1 fill 0 0"),
        ("finish short of one word", b"finish 0 1 short 0"),
        ("finish fault of one word", b"finish 0 1 fault 0"),
        ("hold of one word", b"hold 1"),
        ("release of one word", b"release 1"),
        ("undo of no word", b"undo"),
        ("undo of two words", b"undo 1 1"),
        ("redo of no word", b"redo"),
        ("redo of two words", b"redo 1 1"),
        ("sector of no word", b"sector"),
        ("sector of two words", b"sector 0 1"),
        ("queue of no word", b"queue"),
        ("queue of two words", b"queue 0 0"),
        ("line of one word", b"line 0"),
    ]
] + [
    Case("bad line: the first, under bfq", ["sim"], b"attach 0 0\n", b"bad line 1\n", b"", BAD_LINE),
    Case("bad line: no line after it runs, under bfq", ["sim"], b"# one\n\nhold\nhold 1\nhold\n", b"moved 0 0\nbad line 4\n",
         b"", BAD_LINE),
    Case("bad line: the first", SIM, b"hold 0\n", b"bad line 1\n", b"", BAD_LINE),
    Case("bad line: the last, with no newline", SIM, b"hold\nhol", b"moved 0 0\nbad line 2\n", b"", BAD_LINE),
    Case("bad line: empty lines and comments count", SIM, b"\n# one\n\nhold\nline\n# two\nholds\nline\n",
         b"moved 0 0\nline 0 0 0\nbad line 7\n", b"", BAD_LINE),
    Case("bad line: refused calls before it are answered", SIM, b"dispatch\nreap 16 1\nrelease\nundo 1\n-\n",
         b"refused 17\nrefused 1\nrefused 28\nrefused 28\nbad line 5\n", b"", BAD_LINE),
    Case("bad line: the one after 1,048,576 lines", SIM, 1_048_577 * b"\n", b"bad line 1048577\n", b"", BAD_LINE),
]

# The input is read in pieces of at most 4,096 bytes, which are 512 lines of 8.
QUEUE = b"queue 0\n"
NO_QUEUE = b"queue none\n"
BAD_LINES += [
    Case("bad line: after 400 lines of its piece", SIM, 400 * QUEUE + b"queue\n" + 9 * QUEUE, 400 * NO_QUEUE + b"bad line 401\n",
         b"", BAD_LINE),
    Case("bad line: the first of the second piece", SIM, 512 * QUEUE + b"queue\n" + 9 * QUEUE, 512 * NO_QUEUE + b"bad line 513\n",
         b"", BAD_LINE),
    Case("bad line: across two pieces", SIM, 511 * QUEUE + b"queue 0 and more\n" + 9 * QUEUE, 511 * NO_QUEUE + b"bad line 512\n",
         b"", BAD_LINE),
    Case("bad line: byte 257 is the first of a piece", SIM, 480 * QUEUE + b"#" + 256 * b"x", 480 * NO_QUEUE + b"bad line 481\n",
         b"", BAD_LINE),
]

# Lines that are nearly good. The name of each is the line.
BAD_LINES += [bad_line(repr(line)[2:-1], line) for line in [
    b"hold ", b" hold", b"Hold", b"hold\r", b"hol", b"holds", b"undo ", b"undo  1", b"undo\t1", b"undo 1 ",
    b"undo 1 2", b"undo 1\xff", b"sector 99999999999999999999999", b"queued 0", b"group", b"group 0", b"group 0 1 2",
    b"group 256 1", b"group 0 65536", b"group 0 01", b"group 0  1", b"groups 0 1", b"drop", b"drop 256", b"drop 0 0",
    b"dropped 0", b"weight 0", b"weight 256 1", b"weight 0 65536", b"weight 0 1 2", b"weights 0 1", b"vtime",
    b"vtime 256", b"vtime 0 0", b"vtime +0", b"vtimes 0", b"entity", b"entity 256", b"entity 0 0", b"entity 00",
    b"Entity 0", b"attach 256 0 0", b"attach 0 256 0", b"attach 0 0", b"attach 0 0 0 0", b"read 0 0 0 65536",
    b"read 0 0 0", b"write 0 0 0 1", b"write 0 0 0 1 256", b"write 0 0 0 1 2 3", b"leaves 0", b"work", b"works 0 1",
    b"requeue 0 1 stored", b"freezes", b"Thaw", b"switch Bfq", b"switch none ", b"switch bfq none", b"switch\tbfq",
    b"switchbfq", b"finish 0 1 2", b"finish 0 1  stored", b"finish 0 1 stored ", b"finish 0 1 fill ",
    b"finish 0 1 fill 1 2", b"finish 0 1 filled", b"finish stored", b"finish",
]]

# A piece of less than 4,096 bytes that prints more than the 65,536 bytes of the buffer of the output: 32 reads, none of which
# is adjacent to another, and 450 looks at their queue.
LONG_PIECE = b"attach 0 0 4\n" + b"".join(b"read 0 1 %d 1\n" % (2 * place) for place in range(32)) + 450 * QUEUE
LONG_TEXT = (b"attached 1\n" + b"".join(b"queued %d\n" % (2 + place) for place in range(32))
             + 450 * (b"queue" + b"".join(b" %d+1x1" % (2 * place) for place in range(32)) + b"\n"))

GOOD_LINES = [
    Case("good: no input", SIM),
    Case("good: one newline", SIM, b"\n"),
    Case("good: 1,048,576 lines", SIM, 1_048_576 * b"\n"),
    Case("good: comment of 256 bytes", SIM, b"#" + 255 * b"x" + b"\nline\n", b"line 0 0 0\n"),
    Case("good: any byte in a comment", SIM, b"#\0\t\r\xff  \nline\n", b"line 0 0 0\n"),
    Case("good: the newline of a comment of 256 bytes is the first byte of a piece", SIM,
         480 * QUEUE + b"#" + 255 * b"x" + b"\n" + QUEUE, 481 * NO_QUEUE),
    Case("good: lines of just one piece", SIM, 512 * QUEUE, 512 * NO_QUEUE),
    Case("good: just one piece, and no newline at its end", SIM, b"\n" + 511 * QUEUE + b"queue 0", 512 * NO_QUEUE),
    Case("good: more text of one piece than the buffer holds", SIM, LONG_PIECE, LONG_TEXT),
    Case("good: last line without newline", SIM, b"hold\nline", b"moved 0 0\nline 0 0 0\n"),
    Case("good: last comment without newline", SIM, b"line\n#", b"line 0 0 0\n"),
    Case("good: attach", SIM, b"attach 0 0 4\n", b"attached 1\n"),
    Case("good: each class, and none", SIM,
         b"attach 0 0 4 rt\nattach 1 0 4 be\nattach 2 0 4 idle\nattach 3 0 4\nattach 16 0 4 rt\nattach 0 0 4 be\nattach 4 1 4 idle\n"
         b"attach 4 0 8 rt\nclass 0\nclass 1\nclass 2\nclass 3\nclass 4\nclass 15\nclass 16\nclass 17\nclass 255\n",
         b"attached 1\nattached 2\nattached 3\nattached 4\nrefused 1\nrefused 2\nrefused 5\nrefused 8\nclass 0 rt\nclass 1 be\n"
         b"class 2 idle\nclass 3 be\nclass 4 none\nclass 15 none\nclass 16 none\nclass 17 none\nclass 255 none\n"),
    Case("good: the virtual time of each class", ["sim", "--first-vtime", "7"],
         b"vtime 0\nvtime 0 rt\nvtime 0 be\nvtime 0 idle\nvtime 1\nvtime 1 rt\nvtime 255 be\nvtime 32 idle\ngroup 0 1\nvtime 1 idle\n"
         b"class 17\n",
         b"vtime 0 7\nvtime 0 rt 7\nvtime 0 be 7\nvtime 0 idle 7\nvtime 1 none\nvtime 1 rt none\nvtime 255 be none\nvtime 32 idle none\n"
         b"group 1\nvtime 1 idle 7\nclass 17 be\n"),
    Case("good: classes while held", SIM,
         b"attach 0 0 4 idle\nhold\nclass 0\nvtime 0 idle\nundo 1\nclass 0\nattach 1 0 4 rt\nline\n",
         b"attached 1\nmoved 1 1\nclass 0 idle\nvtime 0 idle 0\nmoved 0 1\nclass 0 none\nnotyet 41\nline 0 1 1\n"),
    Case("good: no scheduler is bfq", ["sim"], BFQ_SCRIPT, BFQ_TEXT),
    Case("good: scheduler bfq", ["sim", "--scheduler", "bfq"], BFQ_SCRIPT, BFQ_TEXT),
    Case("good: scheduler none knows entities and activates none", SIM, BFQ_SCRIPT,
         b"group 1\nattached 2\nqueued 3\nentity 0 idle 0 0 40 1024 0\nvtime 1 0\nvtime 2 none\nentity 18 none\nrefused 11\ndone\n"),
    Case("good: queue", SIM, b"queue 0\nattach 0 0 4\nqueue 0\nread 0 1 100 8\nread 0 1 36 4\nqueue 0\nqueue 1\nqueue 16\n",
         b"queue none\nattached 1\nqueue\nqueued 2\nqueued 3\nqueue 100+8x1 36+4x1\nqueue none\nqueue none\n"),
    Case("good: steps that change how the host runs", SIM,
         b"thaw\nfreeze\nfreeze\nswitch none\nswitch bfq\ntick\nthaw\nswitch none\nline\n",
         b"refused 23\ndone\nrefused 22\nrefused 25\ndone\nrefused 26\ndone\nrefused 23\nline 3 3 3\n"),
    Case("good: leave and requeue, with the greatest numbers", SIM,
         b"leave 0\nattach 0 0 4\nleave 0\nleave 0\nleave 16\nleave 255\nrequeue 3 1\nrequeue 4 1\nrequeue 255 %d\n" % U64_MOST,
         b"refused 3\nattached 1\nleft\nrefused 3\nrefused 1\nrefused 1\nrefused 20\nrefused 19\nrefused 19\n"),
    Case("good: greatest numbers of each type", SIM,
         b"attach 0 0 4\nattach 255 255 255\nread 0 1 %d 65535\nreap 0 %d\nfinish 255 %d fill 255\nundo %d\nsector %d\n"
         % (U64_MOST, U64_MOST, U64_MOST, U32_PAST - 1, U64_MOST),
         b"attached 1\nrefused 1\nrefused 12\nrefused 4\nrefused 19\nrefused 28\nsector %d none\n" % U64_MOST),
]


def refused(name, words):
    return Case(f"words: {name}", words, b"", b"", REFUSED, BAD_WORDS)


BAD_WORDS_CASES = [
    refused("none", []),
    refused("options with no command", SIM[1:]),
    refused("unknown command", ["run"] + SIM[1:]),
    refused("unknown scheduler", ["sim", "--scheduler", "kyber"]),
    refused("scheduler in capitals", ["sim", "--scheduler", "NONE"]),
    refused("scheduler with no value", ["sim", "--scheduler"]),
    refused("scheduler with an empty value", ["sim", "--scheduler="]),
    refused("scheduler twice", SIM + ["--scheduler", "none"]),
    refused("tags twice", SIM + ["--tags", "4", "--tags", "4"]),
    refused("tags twice, once with an equals sign", SIM + ["--tags", "4", "--tags=4"]),
    refused("tags with no value", SIM + ["--tags"]),
    refused("tags with an option for a value", ["sim", "--tags", "--scheduler", "none"]),
    refused("unknown option", SIM + ["--wide", "1"]),
    refused("option in capitals", SIM + ["--TAGS", "4"]),
    refused("part of an option", SIM + ["--tag", "4"]),
    refused("option with one dash", SIM + ["-tags", "4"]),
    refused("image with no file", SIM + ["--image"]),
    refused("two images", SIM + ["--image", "x", "--image", "x"]),
    refused("two payloads", SIM + ["--payload", "x", "--payload", "x"]),
    refused("number of sectors beside an image", SIM + ["--image", "x", "--sectors", "y"]),
    refused("a word that is no option", SIM + ["fast"]),
    refused("an empty word", SIM + [""]),
    refused("words before a fault of the configuration", SIM + ["--nr-requests", "0", "--sectors", "x"]),
] + [
    refused(f"{option} {name}", SIM + [f"{option}={value}"])
    for option in ["--nr-requests", "--tags", "--first-budget", "--max-budget", "--timeout", "--history", "--first-vtime", "--sectors"]
    for name, value in [("with a sign", "+4"), ("with a leading zero", "04"), ("past u64", str(U64_PAST))]
] + [
    refused(f"tags {name}", SIM + [f"--tags={value}"])
    for name, value in [
        ("of no digit", ""),
        ("negative", "-4"),
        ("of two zeros", "00"),
        ("of 100 digits", 100 * "9"),
        ("in hexadecimal", "0x4"),
        ("with a separator", "1_0"),
        ("with a space", " 4"),
        ("with a letter", "4k"),
    ]
]

# Words that are nearly good, joined by single spaces; two spaces, or one at the end, have the empty word beside them.
BAD_WORDS_CASES += [refused(repr(line)[1:-1], line.split(" ")) for line in [
    "", "help", "--scheduler none sim", "--version sim", "--version --version", "--version=1", "-V", "--versio", "sim --scheduler ", "sim --scheduler Bfq",
    "sim --scheduler bfq2", "sim --scheduler plain", "sim --scheduler mq-deadline", "sim --tags 4 --scheduler=x",
    "sim bfq", "sim --scheduler None", "sim --scheduler none none", "sim --scheduler none sim",
    "sim --scheduler none help", "sim --scheduler bfq --scheduler none", "sim --scheduler none --tags=4 --tags=5",
    "sim --scheduler none --sectors 1 --sectors 1", "sim --scheduler none --tags --sectors 4",
    "sim --scheduler none --tags 4 5", "sim --scheduler none --tags ", "sim --scheduler none --tags 05",
    "sim --scheduler none --tags 00", "sim --scheduler none --tags +5", "sim --scheduler none --tags -5",
    "sim --scheduler none --tags=-5", "sim --scheduler none --tags x", "sim --scheduler none --tags 4x",
    "sim --scheduler none --tags 0x4", "sim --scheduler none --tags 4,5", "sim --scheduler none --tags=4=5",
    "sim --scheduler none --tags 18446744073709551616", "sim --scheduler none --nr-requests 05",
    "sim --scheduler none --first-budget x", "sim --scheduler none --max-budget +5",
    "sim --scheduler none --timeout 18446744073709551616", "sim --scheduler none --history x",
    "sim --scheduler none --first-vtime 05", "sim --scheduler none --sectors +5", "sim --image --sectors 4",
    "sim --image a --image b", "sim --image a b", "sim --image a --sectors x", "sim --scheduler none --Tags 4",
    "sim --scheduler none -t 4", "sim --scheduler none --version", "sim --scheduler none --help=x",
    "sim --scheduler none -", "sim --scheduler none --", "sim --scheduler none -- --tags 4",
]]


def fault(field, *words):
    return Case(f"config: {field}: {' '.join(words)}", SIM + list(words), b"", b"", b"config: %s\n" % field.encode(), BAD_WORDS)


CONFIG_CASES = [
    fault("nr_requests", "--nr-requests", "0"),
    fault("nr_requests", "--nr-requests", "257"),
    fault("nr_requests", "--nr-requests", str(U64_MOST)),
    fault("tags", "--tags", "0"),
    fault("tags", "--tags", "65"),
    fault("tags", "--tags=256"),
    fault("max_budget", "--max-budget", "255"),
    fault("max_budget", "--max-budget", "65537"),
    fault("first_budget", "--first-budget", "255"),
    fault("first_budget", "--first-budget", "4097"),
    # The default of the first budget is above this greatest one.
    fault("first_budget", "--max-budget", "512"),
    fault("timeout", "--timeout", "0"),
    fault("timeout", "--timeout", "1001"),
    fault("history_max", "--history", "0"),
    fault("history_max", "--history", "16777217"),
    fault("first_vtime", "--first-vtime", str(2**62 + 1)),
    fault("first_vtime", "--first-vtime", str(U64_MOST)),
    fault("sectors", "--sectors", "65537"),
    fault("sectors", "--sectors", str(U64_MOST)),
    # The first field in the order is named, whatever the order of the words.
    fault("nr_requests", "--tags", "0", "--nr-requests", "0"),
    fault("tags", "--max-budget", "1", "--tags", "0"),
    fault("max_budget", "--first-budget", "0", "--max-budget", "0"),
    fault("first_budget", "--timeout", "0", "--first-budget", "0"),
    fault("timeout", "--history", "0", "--timeout", "0"),
    fault("history_max", "--first-vtime", str(U64_MOST), "--history", "0"),
    fault("first_vtime", "--sectors", "65537", "--first-vtime", str(U64_MOST)),
]

GOOD_WORDS = [
    Case("good words: equals sign", ["sim", "--tags=4", "--scheduler=none"], b"line\n", b"line 0 0 0\n"),
    Case("good words: any order", ["sim", "--tags", "4", "--scheduler", "none"], b"line\n", b"line 0 0 0\n"),
    Case("good words: least numbers",
         SIM + ["--nr-requests", "1", "--tags", "1", "--first-budget", "256", "--max-budget", "256", "--timeout", "1",
                "--history", "1", "--first-vtime", "0", "--sectors", "0"],
         b"attach 0 0 4\nread 0 1 0 1\nattach 1 0 4\n", b"attached 1\nrefused 14\nrefused 33\n"),
    Case("good words: greatest numbers",
         SIM + ["--nr-requests", "256", "--tags", "64", "--first-budget", "65536", "--max-budget", "65536", "--timeout", "1000",
                "--history", "16777216", "--first-vtime", str(2**62), "--sectors", "65536"],
         b"attach 0 0 4\nread 0 1 65535 1\nread 0 1 65535 2\n", b"attached 1\nqueued 2\nrefused 14\n"),
    Case("good words: the history's limit holds", SIM + ["--history", "2"], b"attach 0 0 4\nattach 1 0 4\nhold\n",
         b"attached 1\nattached 2\nrefused 33\n"),
    Case("good words: the number of tags holds", SIM + ["--tags=1"], b"finish 0 1 stored\nfinish 1 1 stored\n",
         b"refused 20\nrefused 19\n"),
    Case("good words: the number of requests holds", SIM + ["--nr-requests=1"], b"attach 0 0 4\nread 0 1 0 8\nread 0 1 100 8\n",
         b"attached 1\nqueued 2\nnotyet 43\n"),
    Case("version", ["--version"], stdout=b"bfqhost " + VERSION),
    Case("help", ["--help"], has=[b"bfqhost sim [OPTION]", b"bfq or none (bfq)"]),
    Case("help names each option", ["--help"], has=[
        b"--scheduler", b"--nr-requests", b"--tags", b"--first-budget", b"--max-budget", b"--timeout", b"--history",
        b"--first-vtime", b"--sectors", b"--image", b"--no-inspect", b"--help", b"--version", b"the scheduler: bfq or none (bfq)",
    ]),
    Case("help names each step", ["--help"], has=[
        b"attach SEAT", b"read SEAT", b"write SEAT", b"reap SEAT", b"leave SEAT", b"dispatch", b"finish TAG", b"work TAG",
        b"requeue TAG", b"group PARENT", b"drop GROUP", b"weight GROUP", b"freeze", b"thaw", b"switch none|bfq", b"tick",
    ]),
]

# What was printed is written before the next read and at the end, and before that only where the buffer is full.
FAULTS = [
    Case("read fault", SIM, b"", b"", b"", READ_FAULT, reads_directory=True),
    Case("read fault with a full output: nothing was to be written", SIM, b"", b"", b"", READ_FAULT, reads_directory=True,
         writes_to_full=True),
    Case("no fault with a full output: no line", SIM, writes_to_full=True),
    Case("no fault with a full output: lines that print nothing", SIM, b"# one\n\n", writes_to_full=True),
] + [
    Case(f"write fault: {name}", words, stdin, b"", b"", WRITE_FAULT, writes_to_full=True)
    for name, words, stdin in [
        ("one line, before the read that finds the end", SIM, b"line\n"),
        ("one line with no newline, at the end", SIM, b"line"),
        ("one piece, before the next read", SIM, 800 * b"line\n"),
        ("in a piece, where the buffer is full", SIM, LONG_PIECE),
        ("in the first of many pieces", SIM, 100_000 * b"line\n"),
        ("at a bad line", SIM, b"lines\n"),
        ("at a bad line after good ones", SIM, b"line\nline\nlines\n"),
        ("before a bad line, where the buffer is full", SIM, LONG_PIECE + b"lines\n"),
        ("at the help", ["--help"], b""),
        ("at the version", ["--version"], b""),
    ]
]

CASES = BAD_LINES + GOOD_LINES + BAD_WORDS_CASES + CONFIG_CASES + GOOD_WORDS + FAULTS
