#!/usr/bin/env python3
"""What the program subheader_bytes must print, from the fields and the numbers of documents 01 and 02 alone. It shares
no code with the program; the sets of parts are the same.

    tools/expected_subheader.py > crates/subheader_bytes/stdout
"""
# The parts: each field's name and bytes.
PARTS = ((("NROWS", 8), ("NCOLS", 8), ("PVTYPE", 3), ("IREP", 8), ("ICAT", 8), ("ABPP", 2), ("PJUST", 1)),
         (("IC", 2),),
         (("IMODE", 1), ("NBPR", 4), ("NBPC", 4), ("NPPBH", 4), ("NPPBV", 4), ("NBPP", 2)))
NUMERIC = ("NROWS", "NCOLS", "ABPP", "NBPR", "NBPC", "NPPBH", "NPPBV", "NBPP")
NAMED = {"PVTYPE": (b"INT", b"SI ", b"R  ", b"C  ", b"B  "), "PJUST": (b"R", b"L"), "IC": (b"NC", b"NM"),
         "IMODE": (b"B", b"P", b"R", b"S")}
WIDTHS = {*range(1, 17), *range(24, 33), 40, 48, 56, 64}

# Sets: NROWS to PJUST; IC; IMODE, NBPR, NBPC, NPPBH, NPPBV, NBPP; and the count of bands.
SETS = (
    # 13 x 19 in blocks of 4 x 8
    (b"00000013" b"00000019" b"INT" b"MONO    " b"VIS     " b"08" b"R", b"NC",
     b"B" b"0003" b"0004" b"0008" b"0004" b"08", 2),
    # one block, both sides zero
    (b"00008200" b"00009000" b"SI " b"MONO    " b"SAR     " b"11" b"L", b"NM",
     b"S" b"0001" b"0001" b"0000" b"0000" b"16", 3),
    # a zero with two blocks across
    (b"00000100" b"00000200" b"R  " b"NODISPLY" b"MS      " b"32" b"R", b"NC",
     b"P" b"0002" b"0001" b"0000" b"0100" b"32", 1),
    # a side above 8,192 in digits
    (b"00000001" b"00009999" b"B  " b"MONO    " b"VIS     " b"01" b"R", b"NM",
     b"R" b"0001" b"0001" b"9999" b"0001" b"01", 99999),
    # an image of 4,294,967,294 bytes
    (b"00131075" b"00262138" b"C  " b"MONO    " b"IR      " b"00" b"L", b"NC",
     b"P" b"0001" b"0001" b"0000" b"0000" b"01", 1),
    # no PVTYPE, and no rows
    (b"00000000" b"00000007" b" R " b"MONO    " b"VIS     " b"32" b"R", b"NC",
     b"S" b"0001" b"0001" b"0007" b"0001" b"32", 4),
)


def read(parts, bands):
    """The number that the reader answers."""
    if [len(part) for part in parts] != [38, 2, 19]:
        return 23
    fields = {}
    for part, names in zip(parts, PARTS):
        at = 0
        for name, size in names:
            fields[name] = part[at:at + size]
            at += size
    if any(not 0x30 <= x <= 0x39 for name in NUMERIC for x in fields[name]):
        return 23
    if any(fields[name] not in values for name, values in NAMED.items()):
        return 24
    numbers = {name: int(fields[name]) for name in NUMERIC}
    if numbers["NPPBH"] == 0 and numbers["NBPR"] == 1:
        numbers["NPPBH"] = numbers["NCOLS"]
    if numbers["NPPBV"] == 0 and numbers["NBPC"] == 1:
        numbers["NPPBV"] = numbers["NROWS"]
    return grid_number(bands=bands, **{name.lower(): n for name, n in numbers.items()})


def grid_number(nrows, ncols, abpp, nbpr, nbpc, nppbh, nppbv, nbpp, bands):
    """Questions 1 to 4. ABPP is not looked at."""
    if not (1 <= nrows <= 99999999 and 1 <= ncols <= 99999999 and 1 <= bands <= 99999):
        return 1
    if not (1 <= nppbh <= 8192 or nppbh == ncols) or not (1 <= nppbv <= 8192 or nppbv == nrows):
        return 1
    if nbpp not in WIDTHS:
        return 2
    if nbpr != -(-ncols // nppbh) or nbpc != -(-nrows // nppbv) or nbpr > 9999 or nbpc > 9999:
        return 3
    if nbpr * nbpc * bands * -(-nppbh * nppbv * nbpp // 8) > 4294967294:
        return 4
    return 0


def with_part(parts, k, part):
    return [*parts[:k], part, *parts[k + 1:]]


def runs(numbers):
    """The numbers of 0, 1, 2 .., each run of equal ones with its first and its last."""
    out, first = [], 0
    for i, number in enumerate(numbers):
        if i + 1 == len(numbers) or numbers[i + 1] != number:
            out.append(f"{first} {number}" if first == i else f"{first}-{i} {number}")
            first = i + 1
    return ", ".join(out)


def show(parts, bands):
    print(f"{b''.join(parts).decode()} {bands}: {read(parts, bands)}")
    for k, part in enumerate(parts):
        for i in range(len(part)):
            answers = [read(with_part(parts, k, part[:i] + bytes([x]) + part[i + 1:]), bands) for x in range(256)]
            print(f"{k + 1} {i}: {runs(answers)}")
    # A part that is too long has the next part's first byte at its end; after the third stands a 0.
    after = [parts[1][:1], parts[2][:1], b"0"]
    for k, part in enumerate(parts):
        for other in (part[:-1], part + after[k]):
            print(f"{k + 1} of {len(other)} bytes: {read(with_part(parts, k, other), bands)}")


for first, second, third, bands in SETS:
    show([first, second, third], bands)
