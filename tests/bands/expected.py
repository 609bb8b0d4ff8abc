#!/usr/bin/env python3
"""The lists that the band program must print, worked out from EN 13757-4:2019, Table 21, apart from the Rattle code.

    expected.py BAND      prints the list of band A, B, C or D

ROWS has the table's rows as they are printed there, in megahertz: sub-band, index, first centre, step, channels.
"""
import sys
from decimal import Decimal

ROWS = [
    ("A", 1, "169.40625", "0.0125", range(0, 6)),
    ("A", 2, "169.40625", "0.0125", range(0, 6)),
    ("A", 3, "169.40625", "0.0125", range(0, 6)),
    ("A", 4, "169.4375", "0", range(0, 1)),
    ("B", 5, "169.48125", "0", range(0, 1)),
    ("B", 6, "169.48125", "0", range(0, 1)),
    ("C", 7, "169.49375", "0.0125", range(0, 8)),
    ("C", 8, "169.49375", "0.0125", range(0, 8)),
    ("C", 9, "169.49375", "0.0125", range(0, 8)),
    ("D", 10, "169.59375", "0.0125", range(0, 18)),
    ("D", 11, "169.59375", "0.0125", range(0, 18)),
    ("D", 12, "169.59375", "0.0125", range(0, 18)),
    ("D", 13, "169.625", "0.05", range(0, 4)),
]


def listing(band):
    lines = ["index channel hz"]
    for letter, index, first, step, channels in ROWS:
        if letter == band:
            for n in channels:
                hz = (Decimal(first) + n * Decimal(step)) * 1000000
                if hz != int(hz):
                    raise SystemExit(f"index {index}, channel {n}: {hz} Hz is not whole")
                lines.append(f"{index} {n} {int(hz)}")
    return "\n".join(lines) + "\n"


if __name__ == "__main__":
    sys.stdout.write(listing(sys.argv[1]))
