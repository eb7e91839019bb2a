#!/usr/bin/env python3
"""Tries the run of the tape: each fault in oracle/tape-edits, one of the tape (oracle/rust/replay/tape.rs) or of the original, is built into a copy of
the oracle, and `replay tape` must find it. Prints a line for each: found or MISSED, how many lists differ, how many calls the smallest has, and
what differs there. Exit status 1 where one is missed, or none is tried.
"""
import subprocess
import sys
from pathlib import Path

sys.path.insert(0, str(Path(__file__).resolve().parent.parent / "tools"))
from faults import is_found, parser, try_each


def tried(subject, given):
    """Whether the run finds the fault, and what it says of it."""
    done = subprocess.run([subject, "tape", str(given.seed), str(given.lists)], capture_output=True, text=True)
    lines = done.stdout.splitlines() or [done.stderr[-300:]]
    calls = [line for line in lines[1:-2] if not line.startswith("W ")]
    return is_found(done), f"{lines[-1].split(', ')[-1]}; {len(calls)} calls, {''.join(lines[-2:-1])}"


if __name__ == "__main__":
    words = parser(__doc__)
    words.add_argument("--seed", type=int, default=1)
    words.add_argument("--lists", type=int, default=20000)
    sys.exit(try_each("oracle/tape-edits", words.parse_args(), tried))
