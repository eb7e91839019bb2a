#!/usr/bin/env python3
"""Runs each script of docs/DIFFERENCES.md through the oracle and compares the answers shown there. A script is an indented block that begins with
`R`; its answers follow `> `, and `> ..` leaves the rest out.
"""
import re
import shlex
import sys
from pathlib import Path

sys.path.insert(0, str(Path(__file__).resolve().parent.parent / "tools"))
from shared import ORACLE, TOP, command_of, options, run


def differs(command, script):
    lines = [line[4:] for line in script.splitlines()]
    sent = [line for line in lines if not line.startswith("> ")]
    shown = [line[2:] for line in lines if line.startswith("> ")]
    given = run(command, ("\n".join(sent) + "\n").encode()).stdout.decode().splitlines()
    if shown[-1] == "..":
        shown, given = shown[:-1], given[: len(shown) - 1]
    return shown != given


def main(command):
    scripts = re.findall(r"(?m)^(?:    .*\n)+", (TOP / "docs/DIFFERENCES.md").read_text())
    scripts = [script for script in scripts if script.startswith("    R ")]
    wrong = [script for script in scripts if differs(command, script)]
    for script in wrong:
        print("differs:\n" + script)
    print(f"{len(scripts)} scripts, {len(wrong)} differ")
    return 1 if wrong or not scripts else 0


if __name__ == "__main__":
    words = options(__doc__)
    words.add_argument("command", metavar="CMD", nargs="?", default=shlex.quote(str(ORACLE)), help="target/oracle/replay where it is left out")
    sys.exit(main(command_of(words.parse_args().command)))
