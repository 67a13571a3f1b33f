#!/usr/bin/env python3
"""Makes the images of crates/gdal_images with samples of 12 and of 4 bits, and prints their lines of stdout.

    tools/packed_images.py crates/gdal_images/data >> crates/gdal_images/stdout

GDAL reads such images and does not write them: the headers are those that it wrote for 8.ntf, with the fields below
changed, and the samples, seeded random numbers, are laid here under the edge rule full. In IMODE B the nominal blocks
stand one after the other, each band by band, row by row, with zeros outside the picture. GDAL reads only blocks whose
rows are whole bytes, as these are. The samples that are printed are those that GDAL reads (gdal_translate of GDAL
3.6.2).
"""
import sys
import tempfile
from pathlib import Path

sys.dont_write_bytecode = True
from gdal_images import BANDS, BLOCK_COLUMNS, BLOCK_ROWS, COLUMNS, ROWS, numbers, show_image, translate
from wide_image import HEADER, SUBHEADER, changed


def drawn(bits):
    """The samples, by band, row and column."""
    draw = numbers(bits)
    return {(b, r, c): next(draw) % 2**bits for b in range(BANDS) for r in range(ROWS) for c in range(COLUMNS)}


def laid(bits, samples):
    """The image's bytes."""
    line = "".join(format(samples.get((b, top + r, left + c), 0), f"0{bits}b")
                   for top in range(0, ROWS, BLOCK_ROWS) for left in range(0, COLUMNS, BLOCK_COLUMNS)
                   for b in range(BANDS) for r in range(BLOCK_ROWS) for c in range(BLOCK_COLUMNS))
    return int(line, 2).to_bytes(len(line) // 8, "big")


def write_image(bits, samples, model, target):
    image = laid(bits, samples)
    # offset, bytes and value
    file = {"FL": (342, 12, HEADER + SUBHEADER + len(image)), "LI001": (369, 10, len(image))}
    subheader = {"ABPP": (368, 2, bits), "NBPP": (420, 2, bits)}
    headers = changed(model[:HEADER], file) + changed(model[HEADER:HEADER + SUBHEADER], subheader)
    target.write_bytes(headers + image)


def read_image(bits, samples, folder, image):
    """What GDAL reads: samples in big-endian bytes, indexed by band, row and column."""
    raw, size = folder / f"{bits}.read", -(-bits // 8)
    translate("-of", "ENVI", "-co", "INTERLEAVE=BSQ", image, raw)
    data = raw.read_bytes()
    read = {}
    for k, place in enumerate(samples):
        value = int.from_bytes(data[k * size:k * size + size], "little")
        # GDAL 3.6 turns the three nibbles of every 12-bit sample round: ABC (hex) is read as CAB.
        read[place] = value % 256 * 16 + value // 256 if bits == 12 else value
    assert read == samples, "GDAL reads other samples than were laid"
    return lambda b, r, c: f"{read[b, r, c]:0{2 * size}x}"


def main():
    images = Path(sys.argv[1])
    model = (images / "8.ntf").read_bytes()
    with tempfile.TemporaryDirectory() as name:
        for bits in (12, 4):
            samples, target = drawn(bits), images / f"{bits}.ntf"
            write_image(bits, samples, model, target)
            show_image(bits, read_image(bits, samples, Path(name), target))


main()
