#!/usr/bin/env python3
"""What the gate's parts are: reads what `bash .ci/run` (or `rt ci`) printed, and prints a row for each crate: its functions and its edits, and the
seconds of proving it, where the log has what `tools/prove` printed. Both in one log: { rt ci; tools/prove NAME..; } > LOG 2>&1
--write puts what is known into tools/costs.tsv, by whose seconds tools/prove estimates.
"""
import argparse
import re

from shared import TOP, options

TABLE = TOP / "tools/costs.tsv"
COLUMNS = ("functions", "seconds", "edits")


def read(log):
    """The functions, seconds and edits of each crate that the log tells of."""
    found, crate = {}, ""
    for line in log.splitlines():
        if m := re.match(r"== (\w+)(: its tests)?$", line):
            crate = "" if m[2] else m[1]
        elif (m := re.match(r"logic=proved .*\bfunctions=(\d+)", line)) and crate:
            found.setdefault(crate, {})["functions"] = int(m[1])
        elif m := re.match(r"(\w+) proved \((\d+) s\)", line):
            found.setdefault(m[1], {})["seconds"] = int(m[2])
        elif m := re.match(r"rt: must-fail (\w+)/\S+: refused", line):
            own = found.setdefault(m[1], {})
            own["edits"] = own.get("edits", 0) + 1
    return found


def show(found):
    print(f"{'crate':25}{'functions':>10}{'seconds':>9}{'edits':>7}")
    rows = sorted(found.items(), key=lambda row: (-row[1].get("seconds", 0), row[0]))
    rows.append(("all", {column: sum(own.get(column, 0) for own in found.values()) for column in COLUMNS}))
    for name, own in rows:
        functions, seconds, edits = (own.get(column, "-") for column in COLUMNS)
        print(f"{name:25}{functions:>10}{seconds:>9}{edits:>7}")


def crates():
    """The names of crates.txt, in its order."""
    lines = [line.split("#")[0].partition(":") for line in (TOP / "crates.txt").read_text().splitlines()]
    return [name.split()[0] for name, colon, _ in lines if colon]


def write(found):
    """The table anew: its crates and those that are new in crates.txt, with what is known, what the table had, or 0."""
    had, names = {}, crates()
    for line in TABLE.read_text().splitlines()[1:]:
        name, *numbers = line.split("\t")
        had[name] = dict(zip(COLUMNS, map(int, numbers)))
    rows = ["\t".join(("name", *COLUMNS))]
    for name in [*(name for name in had if name in names), *(name for name in names if name not in had)]:
        own = {**had.get(name, {}), **found.get(name, {})}
        rows.append("\t".join([name, *(str(own.get(column, 0)) for column in COLUMNS)]))
    TABLE.write_text("\n".join(rows) + "\n")


if __name__ == "__main__":
    words = options(__doc__)
    words.add_argument("log", metavar="LOG", type=argparse.FileType())
    words.add_argument("--write", action="store_true")
    given = words.parse_args()
    found = read(given.log.read())
    show(found)
    if given.write:
        write(found)
