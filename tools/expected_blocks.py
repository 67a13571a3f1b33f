#!/usr/bin/env python3
"""What the program read_blocks must print, from the documents' text alone: a picture as a string of bits, and the place
of each sample by document 01's section 'Where a sample lies' and by document 02's edge rules. It shares no code with
the program. Bytes past the answer stay as they were, aa.

    tools/expected_blocks.py > crates/read_blocks/stdout
"""
from math import ceil

NROWS, NCOLS, BANDS, NPPBH, NPPBV = 3, 5, 2, 4, 2
NBPR, NBPC = ceil(NCOLS / NPPBH), ceil(NROWS / NPPBV)


def image():
    x, data = 7, []
    for _ in range(512):
        x = (x % 65536 * 75 + 74) % 65537
        data.append(x % 256)
    return data


def order(mode, rows, columns):
    """The samples (band, row, column) of a block in the order of the mode."""
    if mode in "BS":
        return [(b, r, c) for b in range(BANDS) for r in range(rows) for c in range(columns)]
    if mode == "P":
        return [(b, r, c) for r in range(rows) for c in range(columns) for b in range(BANDS)]
    return [(b, r, c) for r in range(rows) for b in range(BANDS) for c in range(columns)]


def first_bits(rule, mode, nbpp, row, column, rows, columns):
    """The first bit of each actual sample of a block."""
    s, t, index = ceil(nbpp / 8), ceil(NPPBH * NPPBV * nbpp / 8), row * NBPR + column
    if nbpp % 8 == 0:
        if mode == "S":
            return {(b, r, c): 8 * ((b * NBPR * NBPC + index) * t + (r * NPPBH + c) * s)
                    for b in range(BANDS) for r in range(rows) for c in range(columns)}
        at = {sample: n for n, sample in enumerate(order(mode, NPPBV, NPPBH))}
        return {k: 8 * (index * BANDS * t + s * n) for k, n in at.items() if k[1] < rows and k[2] < columns}
    # Tight: the actual samples stand in the order of the mode. Full: the nominal block does.
    stand = order(mode, rows, columns) if rule == "tight" else order(mode, NPPBV, NPPBH)
    places, run = {}, len(stand) // BANDS
    for n, sample in enumerate(stand):
        i = n // run
        start = (i * NBPR * NBPC + index) * t if mode == "S" else index * BANDS * t + i * t
        places[sample] = 8 * start + n % run * nbpp
    return places


def samples(rule, mode, nbpp, row, column, bands):
    """The answer's rows, columns and bytes for listed bands of a block."""
    rows, columns = min(NPPBV, NROWS - row * NPPBV), min(NPPBH, NCOLS - column * NPPBH)
    places = first_bits(rule, mode, nbpp, row, column, rows, columns)
    out = ""
    for b in bands:
        for r in range(rows):
            for c in range(columns):
                p = places[(b, r, c)]
                out += format(int(bits[p:p + nbpp], 2), f"0{2 * ceil(nbpp / 8)}x")
    return rows, columns, out


def line(*parts):
    print(" ".join(str(part) for part in parts))


def blocks(rule):
    for nbpp in (1, 4, 8, 11, 12, 16, 24, 31, 32, 40, 64):
        for mode in "BPRS":
            for row in range(NBPC):
                for column in range(NBPR):
                    rows, columns, out = samples(rule, mode, nbpp, row, column, range(BANDS))
                    line(rule, mode, nbpp, row, column, 0, BANDS, rows, columns, out.ljust(260, "a"))


def asked(rule):
    """The lower right block in P has one sample a band. Numbers are those of document 01's questions."""
    rows, columns, three = samples(rule, "P", 12, 1, 1, [1, 0, 1])
    line(rule, "empty list", 0, 0, rows, columns, "a" * 18)
    line(rule, "bands 1 0 1", 0, 3, rows, columns, three.ljust(18, "a"))
    for label, number in (("one byte of output too few", 9), ("band 2", 8), ("level 1", 5), ("block row 2", 6),
                          ("width 17", 2)):
        line(rule, label, number, 0, 0, 0, "a" * 10)
    # At 8 bits the last actual sample is byte 49; at 12 bits the last run ends with byte 95.
    for size, nbpp, number in ((49, 8, 7), (50, 8, 0), (95, 12, 7), (96, 12, 0)):
        rows, columns, both = samples(rule, "P", nbpp, 1, 1, [0, 1])
        answer = (number, 0, 0, 0, "a" * 10) if number else (0, 2, rows, columns, both.ljust(10, "a"))
        line(rule, size, "bytes", *answer)


def wholes(rule):
    """A nominal block at 12 bits is 24 bytes; S gives an empty part, and so does a refusal."""
    for mode, row, column, index in (("B", 0, 1, 1), ("P", 1, 1, 3), ("R", 1, 0, 2)):
        line(rule, "whole", mode, 12, row, column, 0, "".join(f"{x:02x}" for x in image()[24 * index:24 * index + 24]))
    line(rule, "whole", "S", 12, 1, 1, 0, "")
    line(rule, "whole", "B", 12, 0, 2, 6, "")


bits = "".join(format(x, "08b") for x in image())
for rule in ("tight", "full"):
    blocks(rule)
    asked(rule)
    wholes(rule)
