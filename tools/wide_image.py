#!/usr/bin/env python3
"""Makes the image of crates/gdal_images whose block is wider than 8,192 columns, and prints its lines of stdout.

    tools/wide_image.py crates/gdal_images/data >> crates/gdal_images/stdout

It needs no GDAL: the headers are those that GDAL wrote for 8.ntf, with the fields below changed. The image has 2 rows,
9,000 columns and 2 bands of 8 bits, seeded random numbers, in one block, with NPPBH 0000 and NBPR 0001. In IMODE B the
samples of one block stand band by band, row by row. The samples that are printed are those that were drawn.
"""
import sys
from pathlib import Path

sys.dont_write_bytecode = True
from gdal_images import BANDS, numbers, show

ROWS, COLUMNS, SHOWN = 2, 9000, 8
HEADER, SUBHEADER, LENGTH = 404, 452, BANDS * ROWS * COLUMNS
# fields of the file header and of the image subheader: offset, bytes and value
FILE = {"CLEVEL": (9, 2, 6), "FL": (342, 12, HEADER + SUBHEADER + LENGTH), "LI001": (369, 10, LENGTH)}
IMAGE = {"NROWS": (333, 8, ROWS), "NCOLS": (341, 8, COLUMNS), "NBPR": (404, 4, 1), "NBPC": (408, 4, 1),
         "NPPBH": (412, 4, 0), "NPPBV": (416, 4, ROWS)}


def changed(header, fields):
    for at, size, value in fields.values():
        assert header[at:at + size].isdigit(), "no number stands there"
        header = header[:at] + b"%0*d" % (size, value) + header[at + size:]
    return header


def main():
    images = Path(sys.argv[1])
    model = (images / "8.ntf").read_bytes()
    draw = numbers(9000)
    samples = bytes(next(draw) % 256 for _ in range(LENGTH))
    headers = changed(model[:HEADER], FILE) + changed(model[HEADER:HEADER + SUBHEADER], IMAGE)
    (images / "wide.ntf").write_bytes(headers + samples)
    sample = lambda b, r, c: f"{samples[(b * ROWS + r) * COLUMNS + c]:02x}"
    print(f"wide.ntf 0 {LENGTH} ")
    print(f"NPPBH {COLUMNS} ")
    for row in range(ROWS):
        for column in (0, 8192 - SHOWN // 2, COLUMNS - SHOWN):
            show(f"row {row} column {column} ", sample, row, column, 1, SHOWN, SHOWN * BANDS)


if __name__ == "__main__":
    main()
