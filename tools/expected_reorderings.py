#!/usr/bin/env python3
"""What the program reorder_cases must print, from the worked example in the module comment of the original's interleave.rs
(2 rows, 2 columns, bands R, G, B): the four orders are written out, not computed.

    tools/expected_reorderings.py > crates/reorder_cases/stdout
"""
B = "R00 R01 R10 R11 G00 G01 G10 G11 B00 B01 B10 B11".split()
P = "R00 G00 B00 R01 G01 B01 R10 G10 B10 R11 G11 B11".split()
R = "R00 R01 G00 G01 B00 B01 R10 R11 G10 G11 B10 B11".split()
ORDERS = {"B": B, "P": P, "R": R, "S": B}


def data(names, size):
    return "".join(f"{16 * B.index(name) + j:02x}" for name in names for j in range(size))


def line(label, mode, size, number, bands, out, length):
    print(f"{label} {mode} {size} {number} {bands} {len(out) // 2} {out.ljust(2 * length, 'a')}".replace("  ", " "))


for size in range(1, 9):
    for mode, names in ORDERS.items():
        line("to", mode, size, 0, 3, data(B, size), 98)
        line("from", mode, size, 0, 3, data(names, size), 98)
bands = [B[0:4], B[4:8], B[8:12]]
for size, chosen in ((2, []), (2, [0, 1, 2]), (2, [2, 0]), (3, [1, 1, 1, 1])):
    line("listed", "P", size, 0, len(chosen), data([x for b in chosen for x in bands[b]], size), 130)
line("listed", "P", 2, 8, 0, "", 130)
line("listed", "P", 2, 9, 0, "", 15)
line("no bands", "P", 8, 0, 0, "", 2)
line("no columns", "R", 1, 0, 4294967295, "", 2)
line("wraps", "R", 1, 4, 0, "", 2)
line("nine bytes", "B", 9, 2, 0, "", 2)
