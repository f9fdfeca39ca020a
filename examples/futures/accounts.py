#!/usr/bin/env python3
"""accounts.py IMAGE: whether a database that a crash left in an image is whole, and no money is lost.

`layout` in the folder of the trace tells where in the image the database and its journal stand. sqlite takes back what the journal says,
as it does when a program opens the database. Then the database must be sound, and the two accounts must have 200 together, before the
transfer of 30 or after it.
"""

import os
import sqlite3
import sys
import tempfile

SECTOR = 512
LAYOUT = os.path.join(os.path.dirname(os.path.abspath(__file__)), "transfer", "layout")
TOGETHER, BEFORE, AFTER = 200, 100, 70


def files_of(image, folder):
    """Writes the files of an image into a folder. Gives the path of the first."""
    paths = []
    with open(LAYOUT, encoding="utf-8") as layout, open(image, "rb") as disk:
        for row in layout:
            first, sectors, name = row.rstrip("\n").split(" ", 2)
            paths.append(os.path.join(folder, os.path.basename(name)))
            disk.seek(int(first) * SECTOR)
            with open(paths[-1], "wb") as file:
                file.write(disk.read(int(sectors) * SECTOR))
    return paths[0]


def why_bad(path):
    """What is wrong with a database, or nothing."""
    database = sqlite3.connect(path)
    try:
        (sound,), (money, least) = database.execute("pragma integrity_check").fetchone(), database.execute(
            "select sum(n), min(n) from t where id < 3").fetchone()
    except sqlite3.DatabaseError as fault:
        return str(fault)
    finally:
        database.close()
    if sound != "ok":
        return sound
    return "" if money == TOGETHER and least in (BEFORE, AFTER) else f"the accounts have {money} together, and one has {least}"


def main():
    with tempfile.TemporaryDirectory() as folder:
        why = why_bad(files_of(sys.argv[1], folder))
    print(why or "sound", flush=True)
    return 1 if why else 0


if __name__ == "__main__":
    sys.exit(main())
