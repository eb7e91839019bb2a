#!/usr/bin/env python3
"""Tries the differential run: each fault in oracle/edits is built into a copy of the oracle and must be found. Prints a line for each: found or
MISSED, and the lines of the smallest script. Exit status 1 where one is missed.
"""
import subprocess
import sys
from pathlib import Path

sys.path.insert(0, str(Path(__file__).resolve().parent.parent / "tools"))
from faults import is_found, parser, try_each

from shared import TOP

RECORDED = TOP / "crates/replay"


def answers(output):
    """What each recorded script answers, by its name."""
    parts = ("\n" + output).split("\n# ")[1:]
    return {part.split("\n")[0]: part for part in parts}


def recorded(subject):
    """Names of the recorded scripts which the subject answers otherwise."""
    scripts = (RECORDED / "stdin").read_bytes()
    given = answers(subprocess.run([subject], input=scripts, stdout=subprocess.PIPE, stderr=subprocess.DEVNULL).stdout.decode())
    return [name for name, part in answers((RECORDED / "stdout").read_text()).items() if given.get(name) != part]


def differential(subject, scripts):
    """Whether a run finds the fault, and what it says of it."""
    run = [TOP / "oracle/differential.py", "--subject", subject, "--scripts", str(scripts)]
    done = subprocess.run(run, capture_output=True, text=True)
    lines = done.stdout.splitlines()
    script = [line for line in lines[1:-1] if not line.startswith("answer line")]
    return is_found(done), f"{lines[-1] if lines else done.stderr[-300:]}; {len(script)} lines"


def tried(subject, given):
    if not given.recorded:
        return differential(subject, given.scripts)
    names = recorded(subject)
    return bool(names), f"{len(names)}: {'; '.join(names)[:100]}"


if __name__ == "__main__":
    words = parser(__doc__)
    words.add_argument("--scripts", type=int, default=20000)
    words.add_argument("--recorded", action="store_true", help="the faults must show in the recorded answers instead; prints the scripts where they do")
    sys.exit(try_each("oracle/edits", words.parse_args(), tried))
