#!/usr/bin/env python3
"""Judges an image as the writer of writer.clients finds it after a crash: status 0 if no byte of a transaction is lost, else 1.

    recover.py IMAGE
"""

import sys

SECTOR = 512
RECORD, JOURNAL, HOME = 0, (8, 9), (16, 17)
# Of each transaction its record, and the byte of its sectors.
BYTES = {1: 11, 2: 22}


def main():
    with open(sys.argv[1], "rb") as image:
        data = image.read()
    record = data[RECORD * SECTOR]
    journal, home = (tuple(data[sector * SECTOR] for sector in place) for place in (JOURNAL, HOME))
    if record in BYTES:
        # Both sectors go home from the journal.
        is_good = journal == 2 * (BYTES[record],)
    else:
        is_good = record == 0 and home in [2 * (byte,) for byte in (0, *BYTES.values())]
    print(f"record {record}, journal {journal}, home {home}: {'good' if is_good else 'BAD'}")
    return 0 if is_good else 1


if __name__ == "__main__":
    sys.exit(main())
