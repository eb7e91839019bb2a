"""A call for bats at 768,000 frames a second, asked for at known samples of a long session: where it begins by the default tolerances, and
with a near tolerance of 2^-40 (docs/LIBRARY.md). First: tools/build_library
A script elsewhere adds the folder `python` of this repository to PYTHONPATH instead of the first two lines below."""
import math
import sys
from pathlib import Path

TOP = Path(__file__).resolve().parents[2]
sys.path.insert(0, str(TOP / "python"))
import netthimble  # noqa: E402

RATE = 768_000
call = netthimble.Clip(RATE, [[math.cos(2 * math.pi * 80_000 * n / RATE) for n in range(1536)]])  # 2 ms at 80 kHz


def begins(sample, tolerances):
    """The first sample of the output that is heard where the call is asked for at this one."""
    player = netthimble.Player(RATE, tolerances=tolerances)
    player.set_clip(call)
    player.start(sample / RATE)
    first = 128 * (sample // 128 - 1)
    heard = [x for time in (first, first + 128) for x in player.block(time / RATE).samples[0]]
    return first + next(i for i, x in enumerate(heard) if x)


tight = netthimble.Tolerances(near=2.0**-40)
for seconds in (60, 100, 600, 3600):
    sample = RATE * seconds + 50
    print(f"{seconds:4} s, asked for at sample {sample}: begins at {begins(sample, netthimble.Tolerances())}, with 2^-40 at {begins(sample, tight)}")
