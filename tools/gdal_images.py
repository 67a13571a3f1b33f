#!/usr/bin/env python3
"""Makes the NITF images of crates/gdal_images with GDAL, and prints what the program must print.

    tools/gdal_images.py crates/gdal_images/data > crates/gdal_images/stdout

Needs gdal_translate (Debian's gdal-bin; the images that are kept came from GDAL 3.6.2). Each image has 13 rows, 19
columns, 2 bands, blocks of 4 rows and 8 columns, IC NC and IMODE B; the samples are seeded random numbers of 8, 16, 32
and 64 bits. The samples that are printed are those that GDAL reads out of its own images, as raw files. The other
images and their lines, the last ones of stdout, come from tools/wide_image.py and then tools/packed_images.py.
"""
import struct
import subprocess
import sys
import tempfile
from pathlib import Path

ROWS, COLUMNS, BANDS, BLOCK_ROWS, BLOCK_COLUMNS = 13, 19, 2, 4, 8
# bits: ENVI's number of the type, and how Python packs it
TYPES = {8: (1, "B"), 16: (12, "H"), 32: (13, "I"), 64: (5, "d")}


def numbers(seed):
    x = seed
    while True:
        x = (x * 6364136223846793005 + 1442695040888963407) % 2**64
        yield x >> 11


def source(bits):
    """Samples of one width, band by band, little end first."""
    form = "<" + TYPES[bits][1]
    draw = numbers(2026)
    values = [next(draw) for _ in range(BANDS * ROWS * COLUMNS)]
    return b"".join(struct.pack(form, v / 2**43 - 512 if bits == 64 else v % 2**bits) for v in values)


def translate(*words):
    subprocess.run(["gdal_translate", "-q", *map(str, words)], check=True)


def write_image(bits, folder, target):
    raw = folder / f"{bits}.raw"
    raw.write_bytes(source(bits))
    raw.with_suffix(".hdr").write_text(
        f"ENVI\nsamples = {COLUMNS}\nlines = {ROWS}\nbands = {BANDS}\nheader offset = 0\nfile type = ENVI Standard\n"
        f"data type = {TYPES[bits][0]}\ninterleave = bsq\nbyte order = 0\n")
    translate("-of", "NITF", "-co", "IC=NC", "-co", f"BLOCKXSIZE={BLOCK_COLUMNS}", "-co", f"BLOCKYSIZE={BLOCK_ROWS}", raw, target)


def read_image(bits, folder, image):
    """What GDAL reads: samples in big-endian bytes, indexed by band, row and column."""
    raw = folder / f"{bits}.read"
    translate("-of", "ENVI", "-co", "INTERLEAVE=BSQ", image, raw)
    data, size = raw.read_bytes(), bits // 8
    assert data == source(bits), "GDAL reads other samples than it was given"
    at = lambda b, r, c: ((b * ROWS + r) * COLUMNS + c) * size
    return lambda b, r, c: data[at(b, r, c):at(b, r, c) + size][::-1].hex()


def show(label, sample, top, left, rows, columns, room):
    text = "".join(sample(b, r, c) for b in range(BANDS) for r in range(top, top + rows) for c in range(left, left + columns))
    print(f"{label}0 {BANDS} {rows} {columns} {text.ljust(2 * room, '0')}")


def show_image(bits, sample):
    down, across = -(-ROWS // BLOCK_ROWS), -(-COLUMNS // BLOCK_COLUMNS)
    print(f"{bits}.ntf 0 {down * across * BANDS * BLOCK_ROWS * BLOCK_COLUMNS * bits // 8} ")
    for row in range(down):
        for column in range(across):
            top, left = row * BLOCK_ROWS, column * BLOCK_COLUMNS
            rows, columns = min(BLOCK_ROWS, ROWS - top), min(BLOCK_COLUMNS, COLUMNS - left)
            show(f"block {row} {column} ", sample, top, left, rows, columns, 512)
    for row in range(ROWS):
        show(f"row {row} ", sample, row, 0, 1, COLUMNS, 304)


def main():
    images = Path(sys.argv[1])
    images.mkdir(parents=True, exist_ok=True)
    with tempfile.TemporaryDirectory() as name:
        for bits in TYPES:
            write_image(bits, Path(name), images / f"{bits}.ntf")
            show_image(bits, read_image(bits, Path(name), images / f"{bits}.ntf"))


if __name__ == "__main__":
    main()
