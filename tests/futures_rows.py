"""Runs of tools/futures whose whole output is known: bad input, bounds, checks that cannot be run, programs that do otherwise.

The numbers of states and edges are worked out by hand, as told beside them.
"""

from bad_input import DONE
from tools import BAD_INPUT, NOT_WANTED, NO_PROGRAM, Run

CUT = 5
NONE = ("--scheduler", "none")


def apart(count, line="write {} 1 {}"):
    """A client with so many writes, or discards, that do not touch."""
    return "seat 0\n" + "".join(f"{line.format(10 * at, at + 1)}\n" for at in range(count))


def futures(name, words, clients="seat 0\n", stdout="", stderr="", status=DONE, files=None, **more):
    return Run(f"futures: {name}", ["futures", "clients", *words], {"clients": clients, **(files or {})}, stdout=stdout, stderr=stderr,
               status=status, **more)


def bad(name, clients, number, why):
    return futures(name, ["--into", "out"], clients, stderr=f"clients: bad line {number}: {why}\n", status=BAD_INPUT)


ROWS = [
    bad("an empty file", "", 1, "there is no `seat SEAT`, with which a client begins"),
    bad("no seat", "# none\n\n", 1, "there is no `seat SEAT`, with which a client begins"),
    bad("a call of nobody", "\nreap\n", 2, "no `seat SEAT` stands before it"),
    bad("a seat twice", "seat 3\nseat 0\nseat 3\n", 3, "seat 3 has a client already"),
    bad("a seat past the last", "seat 16\n", 1, "SEAT is at most 15: '16'"),
    bad("a seat past its type", "seat 256\n", 1, "SEAT is at most 255: '256'"),
    bad("nothing owed", "seat 0\nread 0 1\nreap\nreap\n", 4, "no result is owed here"),
    bad("nothing owed after a sync", "seat 0\nread 0 1\nread 9 1\nsync\nreap\n", 5, "no result is owed here"),
    bad("no sector", "seat 0\nread 0 0\n", 2, "COUNT is 1 to 64: '0'"),
    bad("too many sectors", "seat 0\nwrite 0 65 1\n", 2, "COUNT is 1 to 64: '65'"),
    bad("no sector to discard", "seat 0\ndiscard 0 0\n", 2, "COUNT is 1 to 64: '0'"),
    bad("too many sectors to discard", "seat 0\ndiscard 0 64\ndiscard 0 65\n", 3, "COUNT is 1 to 64: '65'"),
    bad("a discard past the end", "seat 0\ndiscard 65535 1\ndiscard 65535 2\n", 3, "past the end of the device: sector 65536"),
    bad("a discard with a byte", "seat 0\ndiscard 0 1 0\n", 2, "a word too many: '0'"),
    bad("past the end", "seat 0\nwrite 65535 1 1\nwrite 65535 2 1\n", 3, "past the end of the device: sector 65536"),
    bad("past all numbers", "seat 0\nread 18446744073709551615 2\n", 2, "past the end of the device: sector 18446744073709551616"),
    bad("too many owed", "seat 0\n" + 33 * "read 0 1\n", 34, "a client is owed at most 32 results: reap one first"),
    bad("no byte", "seat 0\nwrite 0 1\n", 2, "too few words: after '1' comes @SECTOR or BYTE"),
    bad("a sector of no payload", "seat 0\nwrite 0 1 @0\n", 2, "there is no payload: --payload FILE names one"),
    bad("no sector of a payload", "seat 0\nwrite 0 1 @\n", 2, "SECTOR is no number: ''"),
    bad("an unknown word", "seat 0\nleave 0\n", 2, "an unknown word: 'leave'"),
    bad("two spaces", "seat  0\n", 1, "a space too many: two in a row"),
    futures("32 owed", ["--states", "1"], "seat 0\n" + 32 * "read 0 1\n", "states 1 edges 1 contents 1 steps 0: cut by states\n",
            status=CUT),
    futures("a payload that is not there", ["--payload", "none"], "seat 0\n", stderr="none: No such file or directory\n", status=BAD_INPUT),
    futures("a payload that is a folder", ["--payload", "."], "seat 0\n", stderr=".: no regular file\n", status=BAD_INPUT),
    futures("past the end of a payload", ["--payload", "bytes"], "seat 0\nwrite 0 1 @1\nwrite 0 2 @1\n", files={"bytes": 1535 * "A"},
            stderr="clients: bad line 3: the payload has 1535 bytes, and not so many from @1 on as COUNT sectors have\n", status=BAD_INPUT),
    futures("past the end of an image", ["--image", "image"], "seat 0\nread 2 1\n", files={"image": 1024 * "A"},
            stderr="clients: bad line 2: past the end of the device: sector 2\n", status=BAD_INPUT),
    Run("futures: no clients", ["futures", "none"], stderr="none: No such file or directory\n", status=BAD_INPUT),
    futures("no script", ["--script", "none"], stderr="none: No such file or directory\n", status=BAD_INPUT),
    futures("a bad line of the script", ["--script", "script"], files={"script": "attach 0 0 4\nReap\n"},
            stderr="script: bad line 2: a capital letter: 'Reap'\n", status=BAD_INPUT),
    futures("a script that ends held", ["--script", "script"], files={"script": "attach 0 0 4\nhold\n# so\n"},
            stderr="script: bad line 2: the script ends here, and the host is held, so that it takes no step\n", status=BAD_INPUT),
    futures("a script with refusals", ["--script", "script"], files={"script": "dispatch\nreap 0 1\ndispatch\n"},
            stdout="states 1 edges 0 contents 1 steps 0: complete\n"
            "the script met 2 x refused 17 (NothingQueued), 1 x refused 3 (NoSession)\n"),
    futures("a client that has left", ["--script", "script"], files={"script": "attach 0 0 4\nread 0 1 0 1\ndispatch\nleave 0\n"},
            stderr="clients: bad line 1: whoever sat at seat 0 has left, and is not gone yet\n", status=BAD_INPUT),
    Run("futures: standard input twice", ["futures", "-", "--script", "-"], stderr="-: standard input is either CLIENTS or the script\n",
        status=BAD_INPUT),
    Run("futures: clients of standard input", ["futures", "-"], stdin=b"seat 0\nreap\n", stderr="-: bad line 2: no result is owed here\n",
        status=BAD_INPUT),
    futures("no image", ["--image", "none"], stderr="none: No such file or directory\n", status=BAD_INPUT),
    futures("a folder for an image", ["--image", "."], stderr=".: neither a file nor a block device\n", status=BAD_INPUT),
    futures("a check without an image", ["--check", "true"], stderr="--check needs --image IMAGE\n", status=BAD_INPUT),
    futures("jobs without a check", ["--jobs", "2"], stderr="--jobs needs --check COMMAND\n", status=BAD_INPUT),
    futures("a jobs file without a check", ["--into", "out", "--jobs-file", "jobs"],
            stderr="--jobs-file needs --check COMMAND and --into DIR\n", status=BAD_INPUT),
    futures("a jobs file without a folder", ["--image", "clients", "--check", "true", "--jobs-file", "jobs"],
            stderr="--jobs-file needs --check COMMAND and --into DIR\n", status=BAD_INPUT),
    *(futures(name, ["--image", "clients", "--check", check, "--into", "out", "--jobs-file", *words], stderr=f"{why}\n", status=BAD_INPUT)
      for name, check, words, why in (
          ("jobs and a jobs file", "true", ["jobs", "--jobs", "2"], "--jobs and --jobs-file do not go together"),
          ("a jobs file that is there", "true", ["clients"], "clients: File exists"),
          ("a jobs file in no folder", "true", ["none/jobs"], "none/jobs: No such file or directory"),
          ("a jobs file and two lines", "sh -c 'true\nfalse'", ["jobs"], "--jobs-file: COMMAND and DIR stand on one line"))),
    futures("a jobs file of a search that is cut", ["--image", "image", "--check", "true", "--into", "out", "--jobs-file", "jobs", "--states",
                                                    "1"], "seat 0\nread 0 1\n", "states 1 edges 1 contents 1 steps 0: cut by states\n1 checks written\n",
            files={"image": 1024 * "A"}, status=CUT),
    futures("an empty check", ["--image", "clients", "--check", " "], stderr="--check: there is no command\n", status=BAD_INPUT),
    futures("a quote too few", ["--image", "clients", "--check", "'"], stderr="--check: ': No closing quotation\n", status=BAD_INPUT),
    futures("lag and wait", ["--lag", "1", "--wait"], stderr="--lag and --wait do not go together\n", status=BAD_INPUT),
    futures("a weight of 0", ["--lag", "0"], stderr="--lag: a weight is 1 to 1000: '0'\n", status=BAD_INPUT),
    futures("no weight", ["--lag", ""], stderr="--lag: a weight is 1 to 1000: ''\n", status=BAD_INPUT),
    futures("two weights of one client", ["--lag", "1,2"], stderr="--lag has 2 weights, and there are 1 clients\n", status=BAD_INPUT),
    futures("a file for a folder", ["--into", "clients"], stderr="clients: File exists\n", status=BAD_INPUT),
    futures("a folder with files", ["--into", "."], stderr=".: Directory not empty\n", status=BAD_INPUT),
    futures("no program", ["--program", "./none"], stderr="FOLDER/none does not start: No such file or directory\n", status=NO_PROGRAM),
    futures("bad options of sim", ["--", "--tags", "0"], status=NO_PROGRAM,
            stderr="PROGRAM has ended with status 6 before it answered 'show seat 0': config: tags\n"),
    futures("a full history", ["--", "--history", "3"], "seat 0\nread 0 1\n", status=NO_PROGRAM,
            stderr="the search cannot go on: 'undo 1' is answered refused 33 (HistoryFull)\n"),
    # 2^62, past which the finish of the first request would be.
    futures("times that end", ["--", "--first-vtime", "4611686018427387904"], "seat 0\nread 0 1\n", status=NO_PROGRAM,
            stderr="the search cannot go on: 'read 0 1 0 1' is answered refused 27 (VtimeFull)\n"),
    # Of s called, i sent and j stored writes these have s + i + j <= 3: 1, 1, 1, 1, 1, 1, 1. Those of fewer steps have 1, 2, 2 and 2 moves.
    futures("at most 3 steps", ["--all-states", "--steps", "3", "--", *NONE], apart(4),
            "states 7 edges 7 contents 2 steps 3: cut by steps\n", status=CUT),
    # By the arithmetic of tests/futures.py 26 states, of which 11 may call, 11 dispatch, and 3 + 8 + 12 times a request may be completed.
    # None has more steps.
    futures("as many steps as there are", ["--all-states", "--steps", "9", "--", *NONE, "--tags", "8"], apart(3),
            "states 26 edges 45 contents 8 steps 9: complete\n"),
    # Three wait, and the third one sees two go by. Of s called and i sent writes each of the s - i that wait came when 0 to i were sent, in
    # this order: C(s, i) states, so 1 + 2 + 4 + 8. Those of s below 3 may call, and all but one of each s dispatch: 7 + 11.
    futures("the longest wait", ["--wait", "--", *NONE], apart(3),
            "states 15 edges 18 contents 8 steps 6: complete\nthe longest wait is 2 dispatches\n    attach 0 0 4 -> attached 1\n"
            "    write 0 1 0 1 1 -> queued 2\n    write 0 1 10 1 2 -> queued 3\n    write 0 1 20 1 3 -> queued 4\n"
            "    dispatch -> issued 0 5 store 0 1\n    dispatch -> issued 1 6 store 10 1\n"),
    futures("nobody waits", ["--wait"], "seat 0\n", "states 1 edges 0 contents 1 steps 0: complete\nthe longest wait is 0 dispatches\n"),
    futures("a check that is not there", ["--image", "image", "--check", "./none"], files={"image": 1024 * "A"}, status=NO_PROGRAM,
            stdout="", stderr="./none does not run: it is not there, or is no program\n"),
    futures("a check that cannot be run", ["--image", "image", "--check", "sh -c 'exit 126'"], files={"image": 1024 * "A"},
            stdout="states 1 edges 0 contents 1 steps 0: complete\n0 contents checked: 0 fail\n",
            stderr="sh has ended with status 126, which judges nothing\n", status=NO_PROGRAM),
    # The first content is that of the image, which fails; the second is killed.
    futures("a check that is killed", ["--image", "image", "--jobs", "1", "--check", "sh -c 'grep -q B $0 && kill -9 $$; exit 7'"],
            "seat 0\nwrite 0 1 66\n", files={"image": 1024 * "A"}, status=NO_PROGRAM,
            stdout="states 3 edges 2 contents 2 steps 2: complete\nfailure 1: 0 steps, status 7\n    attach 0 0 4 -> attached 1\n"
            "1 contents checked: 1 fail\n", stderr="sh was killed by signal 9, which judges nothing\n"),
    # Programs that do otherwise another time: each host is asked the opening anew, and a failure is played by one of its own, the fourth.
    futures("a program of two minds", ["--script", "script"], files={"script": "attach 0 0 4\nentity 0\n"}, status=NO_PROGRAM,
            program="#!/bin/sh\n[ -e again ] && set -- \"$@\" --first-budget 512\ntouch again\nexec PROGRAM \"$@\"\n",
            stderr="PROGRAM answers 'entity 0' with 'entity 0 idle 0 0 40 1024 0' once, and with 'entity 0 idle 0 0 40 512 0' another "
            "time\n"),
    futures("a program that stores otherwise", ["--image", "image", "--check", "sh -c '! grep -q B $0'"], "seat 0\nwrite 0 1 66\n",
            files={"image": 1024 * "A"}, status=NO_PROGRAM,
            program="#!/bin/sh\necho >> runs\nexec 3<&0\n[ $(wc -l < runs) != 4 ] && exec PROGRAM \"$@\"\n"
            "sed -u 's/ 66$/ 67/' <&3 | PROGRAM \"$@\"\n",
            stdout="states 3 edges 2 contents 2 steps 2: complete\n2 contents checked: 1 fail\n",
            stderr="PROGRAM does not store what the search has found, if it is asked 'finish 0 3 stored' at last\n"),
    # A sector that is discarded is zeros: so one content has a byte that is no A, and the other one has none.
    futures("a discard over an image", ["--image", "image", "--check", "sh -c '[ $(tr -d A < $0 | wc -c) = 0 ]'"],
            "seat 0\ndiscard 0 1\n", files={"image": 1024 * "A"}, status=NOT_WANTED,
            stdout="states 3 edges 2 contents 2 steps 2: complete\nfailure 1: 3 steps, status 1\n    attach 0 0 4 -> attached 1\n"
            "    discard 0 1 0 1 -> queued 2\n    dispatch -> issued 0 3 discard 0 1\n    finish 0 3 stored -> finished 1\n"
            "2 contents checked: 1 fail\n"),
    futures("a discard of zeros", ["--image", "image"], "seat 0\ndiscard 0 1\n",
            "states 3 edges 2 contents 1 steps 2: complete\n", files={"image": bytes(1024)}),
    # What the image has already is no other content. There is one move each time: a write, its dispatch, completion and reap, and another
    # write with its dispatch, for whose completion nothing waits.
    futures("what stands there already", ["--image", "image"], "seat 0\nwrite 0 1 65\nsync\nwrite 1 1 66\n",
            "states 7 edges 6 contents 2 steps 6: complete\n", files={"image": 1024 * "A"}),
]
