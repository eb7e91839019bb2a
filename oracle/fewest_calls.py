#!/usr/bin/env python3
"""For docs/DIFFERENCES.md, B18: the fewest calls with which a loop-on message behind an exact fit is heard, the player not having ended, at a whole
rate. Prints the calls: C clip, S start, B block, 0 and 1 loop off and on. Searched breadth first over the aligned block's position in binary64,
which Python's floats are; what is found is the least for this model, and the scripts of B18 are run on both sides (oracle/check_differences.py).
"""
import math
import sys
from collections import deque
from pathlib import Path

sys.path.insert(0, str(Path(__file__).resolve().parent.parent / "tools"))
from shared import options


def block(rate, length, p, position, looped):
    """The tape's p, the position, ended and an exact fit after a block."""
    seconds, duration, wrap = 1.0 / rate * 128.0, length / rate, None
    for i in range(128):
        if p >= length and looped:
            p, wrap = 0, i
        p += 1
    if wrap is None:
        position += seconds
    else:
        position = math.fmod((128 - wrap) / rate, duration)
        p = 0 if p == length else p
    return p, position, not looped and position >= duration, not looped and p == length


def fewest(rate, length, most):
    """The calls, or None."""
    begin = (0, 0.0, False, False)
    seen, queue = {begin}, deque([(begin, "CS")])
    while queue:
        (p, position, looped, fit), calls = queue.popleft()
        if fit and looped:
            return calls + "B"
        for call in "B01" if len(calls) < most - 1 else "":
            if call == "B" and fit:
                continue
            state, ended = (p, position, call == "1", fit), False
            if call == "B":
                *after, ended, now_fits = block(rate, length, p, position, looped)
                state = (*after, looped, now_fits)
            if not ended and state not in seen:
                seen.add(state)
                queue.append((state, calls + call))
    return None


def main(rate, length, most):
    found = fewest(rate, length, most)
    print(f"{rate} {length}: {len(found)} calls, {found}" if found else f"{rate} {length}: none found")


if __name__ == "__main__":
    words = options(__doc__)
    words.add_argument("rate", metavar="RATE", type=int)
    words.add_argument("length", metavar="LENGTH", type=int)
    words.add_argument("most", metavar="MOST", nargs="?", type=int, default=200, help="how many calls are tried at most")
    main(**vars(words.parse_args()))
