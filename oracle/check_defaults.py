#!/usr/bin/env python3
"""Random scripts without tolerances, and the same with the defaults spelled out on each `R` and `Q` line, must answer alike.
"""
import shlex
import subprocess
import sys
from pathlib import Path

sys.path.insert(0, str(Path(__file__).resolve().parent.parent / "tools"))
from scripts import Generator
from tolerances import DEFAULTS, takes_own, with_own, words_of

from shared import ORACLE, command_of, options

BATCH = 2000


def spelled_out(unit):
    """The unit with the defaults on its first line, where that is an `R` or a `Q` which may have tolerances."""
    head, *rest = unit.split("\n")
    return "\n".join([with_own(head, words_of(*DEFAULTS)), *rest]) if takes_own(unit) else unit


def answers(command, scripts):
    lines = [line for number, units in enumerate(scripts) for line in (units[0], f"# @{number}", *units[1:])]
    done = subprocess.run(command, input=("\n".join(lines) + "\n").encode(), stdout=subprocess.PIPE, check=True)
    return (b"\n" + done.stdout).split(b"\n# @")[1:]


def main(command, seed, count):
    generator, lines, differences = Generator(seed, tolerances=False), 0, 0
    for first in range(0, count, BATCH):
        scripts = [generator.script() for _ in range(min(BATCH, count - first))]
        other = [[spelled_out(unit) for unit in units] for units in scripts]
        lines += sum(takes_own(unit) for units in scripts for unit in units)
        one, two = answers(command, scripts), answers(command, other)
        differences += abs(len(one) - len(two)) + sum(a != b for a, b in zip(one, two))
    print(f"{count} scripts, {lines} lines with the defaults spelled out, {differences} differences")
    return 1 if differences else 0


if __name__ == "__main__":
    words = options(__doc__)
    words.add_argument("command", metavar="CMD", nargs="?", default=shlex.quote(str(ORACLE)), help="target/oracle/replay where it is left out")
    words.add_argument("--seed", type=int, default=1)
    words.add_argument("--scripts", type=int, default=20000)
    given = words.parse_args()
    sys.exit(main(command_of(given.command), given.seed, given.scripts))
