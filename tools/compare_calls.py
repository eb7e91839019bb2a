#!/usr/bin/env python3
"""Holds the calls that play a block against each other: the call in cents and both previews against the block call of the same library, and
the block call of each library against the first one's. Needs cc; takes half a minute.

A library is target/c/libnetthimble.so after tools/build_library; all have the record of include/netthimble.h. In one process all calls of
all libraries take turns, and a ratio is of two times of one turn, so that the host's pace doesn't matter; the median over the turns counts.
Where a process's memory and code lie shifts some ratios by a tenth: so this is done in several processes, and what is printed is the median
over them, with the quartiles.
"""
import statistics
import tempfile

from shared import options
from shared.comparing import compiled, head, lines, present, row, spread

PROCESSES, TURNS, MOST = 12, 15, 4


def measured(libraries):
    """For each row and library the times and ratios of the processes."""
    rows = {}
    with tempfile.TemporaryDirectory() as folder:
        program = compiled("compare_calls", folder, "-ldl")
        for _ in range(PROCESSES):
            for line in lines([program, TURNS, *libraries]):
                name, which, *values = line.split(";")
                rows.setdefault((name, int(which)), []).append([float(value) for value in values])
    return rows


def main(libraries):
    rows = measured(present(libraries))
    head("block, channels", "library", "block, ns", "by the first library", "in cents", "preview", "preview in cents")
    for (name, which), values in rows.items():
        ns, *of_calls = zip(*values)
        row(name, which + 1, f"{statistics.median(ns):.0f}", *map(spread, of_calls))


if __name__ == "__main__":
    words = options(__doc__)
    words.add_argument("libraries", metavar="LIBRARY.so", nargs="+", help=f"up to {MOST}")
    given = words.parse_args().libraries
    if len(given) > MOST:
        words.error(f"at most {MOST} libraries")
    main(given)
