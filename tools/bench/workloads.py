#!/usr/bin/env python3
"""The workloads of the bench: logs with their questions, and sealed indexes.

    workloads.py FOLDER        writes them all into the folder

A log is a file of lines `e NAME SLOT`, and its questions are a file of lines `q TEXT` beside it. An index is a file of bytes as
`docs/sealed.md` lays them out. All are the same at each run.
"""
import array
import pathlib
import random
import struct
import sys

ENTRIES = 4096

EVEN = [
    "n20 ; n40",
    "((n07 | n19) ; (n31 | n43)) !> (n55 | n62)",
    "((n07 & n19) > n31) | (n43 !< (n55 ; n62))",
]

REV = [
    "[rev ; rev] !> (alarm | cut)",
    "(([rev ; rev]) > alarm) & (cut !< ([rev ; rev]))",
    "(([rev ; rev]) !> cut) ; (alarm < ([rev ; rev]))",
]

INDEX = [
    "n1",
    "(n1 ; n2) > n3 !> n4",
    "((n1 | n2 | n3) & (n4 | n5)) > (n6 ; n7)",
    "(n1 | n2 | n3 | n4 | n5 | n6 | n7 | n8) ; (n9 | n10 | n11 | n12 | n13 | n14 | n15 | n16)",
]

ABSENT = "stone"


def even():
    """64 names, each 64 times."""
    names = [f"n{i:02}" for i in range(64)] * 64
    random.Random(1).shuffle(names)
    return [(name, slot) for slot, name in enumerate(names)]


def rev():
    """512 reversals of some slots each, 512 alarms, 256 cuts, and nine names besides."""
    rng = random.Random(2)
    width = 16
    entries = []
    for i in range(512):
        begin = width * i
        entries.append(("[rev", begin + rng.randrange(0, 4)))
        entries.append(("rev]", begin + rng.randrange(5, 12)))
        entries.append(("alarm", begin + rng.randrange(0, width)))
        if i % 2 == 0:
            entries.append(("cut", begin + rng.randrange(0, 2 * width)))
    for i in range(ENTRIES - len(entries)):
        entries.append((f"note{i % 9}", rng.randrange(0, 512 * width)))
    rows = sorted(set(entries), key=lambda e: (e[1], e[0]))
    return rows[:ENTRIES]


def index(total, names=4096):
    """The bytes of an index: each slot under one of the names."""
    rng = random.Random(3)
    slots = {f"n{i}": array.array("I") for i in range(names)}
    order = list(slots)
    for slot in range(total):
        slots[order[rng.randrange(names)]].append(slot)
    if sys.byteorder == "big":
        for row in slots.values():
            row.byteswap()
    rows = sorted((name.encode(), row) for name, row in slots.items() if row)
    out = [b"SLX", struct.pack("<HHII", 1, len(rows), total, total)]
    earlier = 0
    for name, row in rows:
        out.append(name.ljust(16, b"\0") + struct.pack("<II", earlier, len(row)))
        earlier += len(row)
    out.extend(row.tobytes() for _, row in rows)
    return b"".join(out)


def write(folder):
    folder.mkdir(parents=True, exist_ok=True)
    for name, rows, questions in [("even", even(), EVEN), ("rev", rev(), REV)]:
        for size in [256, 1024, ENTRIES]:
            lines = [f"e {name} {slot}\n" for name, slot in rows[:size]]
            lines += [f"q {text}\n" for text in questions + [ABSENT]]
            (folder / f"{name}-{size}.log").write_text("".join(lines))
    lines = [f"q {text}\n" for text in INDEX + [ABSENT]]
    (folder / "index.questions").write_text("".join(lines))
    (folder / "index.names").write_text("".join(f"q {name}\n" for name in sorted(f"n{i}" for i in range(4096))))
    for size in [100_000, 1_000_000]:
        (folder / f"index-{size}.slx").write_bytes(index(size))


if __name__ == "__main__":
    write(pathlib.Path(sys.argv[1]))
