#!/usr/bin/env python3
"""Writes src/tables.rt and the files of src/tables. Run it as: python3 docs/tables.py, and then rt fmt

The proofs check each entry against the definitions in specs/, so nothing rests on this script.
"""

import pathlib

MODULUS = 0x11D  # x^8 + x^4 + x^3 + x^2 + 1
CHECKS = 16
LENGTH = 148
DATA = LENGTH - CHECKS


def product(a, b):
    p = 0
    for i in range(8):
        if b >> i & 1:
            p ^= a << i
    for i in range(14, 7, -1):
        if p >> i & 1:
            p ^= MODULUS << (i - 8)
    return p


def power(a, n):
    result = 1
    for _ in range(n):
        result = product(a, result)
    return result


def inverse(a):
    return power(a, 254)


def solved(matrix):
    """The inverse of a square matrix over the field."""
    n = len(matrix)
    rows = [row[:] + [int(i == k) for k in range(n)] for i, row in enumerate(matrix)]
    for i in range(n):
        pivot = next(r for r in range(i, n) if rows[r][i])
        rows[i], rows[pivot] = rows[pivot], rows[i]
        scale = inverse(rows[i][i])
        rows[i] = [product(scale, x) for x in rows[i]]
        for r in range(n):
            if r != i:
                factor = rows[r][i]
                rows[r] = [x ^ product(factor, y) for x, y in zip(rows[r], rows[i])]
    return [row[n:] for row in rows]


def points(k):
    """The powers 0 to 15 of the point of place k."""
    return [power(power(2, LENGTH - 1 - k), j) for j in range(CHECKS)]


def check_rows():
    """Row j has the check bytes whose sum j is 1 and whose other sums are 0."""
    sums = [points(DATA + i) for i in range(CHECKS)]  # sums[i][j]
    return solved(sums)  # row j, column i: inverse of the matrix that takes checks to sums


def row(values):
    return "[" + ", ".join(str(v) for v in values) + "]"


def write(name, text):
    path = pathlib.Path(__file__).parent.parent / "src" / name
    path.write_text(text)


def nested_table(name, comment, blocks):
    lines = "".join("    [" + ", ".join(row(values) for values in rows) + "],\n" for rows in blocks)
    return f"/// {comment}\npub(crate) static {name}: [[[u8; 16]; {len(blocks[0])}]; {len(blocks)}] = [\n{lines}];\n"


def power_at(k, i):
    """Power i of the point of place k, and 0 past the last place."""
    return points(k)[i] if k < LENGTH else 0


def table(name, comment, rows):
    lines = "".join(f"    {row(values)},\n" for values in rows)
    return f"/// {comment}\npub(crate) static {name}: [[u8; 16]; {len(rows)}] = [\n{lines}];\n"


inverses = [inverse(a) for a in range(256)]
lines = "".join("    " + ", ".join(str(v) for v in inverses[start : start + 16]) + ",\n" for start in range(0, 256, 16))
write(
    "tables.rt",
    "//! Tables of the field and of the code, as docs/tables.py writes them.\n\n"
    "pub(crate) mod high;\npub(crate) mod low;\npub(crate) mod rows;\n\n"
    "/// The inverse of each byte; 0 has none.\n"
    f"pub(crate) static INVERSES: [u8; 256] = [\n{lines}];\n",
)
write(
    "tables/low.rt",
    "//! Products by the low half of a byte, as docs/tables.py writes them.\n\n"
    + table("LOW_PRODUCTS", "Row a has the products of a and 0 to 15.", [[product(a, n) for n in range(16)] for a in range(256)]),
)
write(
    "tables/high.rt",
    "//! Products by the high half of a byte, as docs/tables.py writes them.\n\n"
    + table("HIGH_PRODUCTS", "Row a has the products of a and 0, 16, 32, .. 240.", [[product(a, 16 * n) for n in range(16)] for a in range(256)]),
)
write(
    "tables/rows.rt",
    "//! The rows that syndromes and checks are summed from, as docs/tables.py writes them.\n\n"
    + table("POINT_POWERS", "Row k has the powers 0 to 15 of the point of place k.", [points(k) for k in range(LENGTH)])
    + "\n"
    + nested_table(
        "BLOCK_POWERS",
        "Row i of block b has power i of the points of the places 16 b to 16 b + 15.",
        [[[power_at(16 * b + j, i) for j in range(16)] for i in range(9)] for b in range(10)],
    )
    + "\n"
    + table("CHECKS", "Row j has the check bytes of a word whose sum j alone is 1.", check_rows()),
)
