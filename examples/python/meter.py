"""A level meter one block ahead: before each block of the shipped tone is played, the peak and the root of the mean square of each channel
of the coming block, in decibels below 1.0 as full scale. First: tools/build_library
A script elsewhere adds the folder `python` of this repository to PYTHONPATH instead of the first two lines below."""
import math
import sys
from pathlib import Path

TOP = Path(__file__).resolve().parents[2]
sys.path.insert(0, str(TOP / "python"))
import netthimble  # noqa: E402


def decibels(level):
    return 20 * math.log10(level) if level > 0 else -math.inf


def levels(samples):
    """The peak of a channel and the root of its mean square, in decibels."""
    mean = math.fsum(x * x for x in samples) / len(samples)
    return decibels(max(abs(x) for x in samples)), decibels(math.sqrt(mean))


clip = netthimble.load(TOP / "examples/tone/clip.bin")
player = netthimble.Player(clip.sample_rate)
player.set_clip(clip)
player.start()
for n in range(4):  # the tone has 300 frames: two blocks are full, the third is part silence, and the fourth is silence
    time = netthimble.FRAMES * n / clip.sample_rate
    coming = player.preview(time)
    meters = (f"channel {c} peak {peak:7.2f} dB, rms {rms:7.2f} dB" for c, (peak, rms) in enumerate(map(levels, coming.samples)))
    print(f"block {n}: " + "; ".join(meters) + (", ends" if coming.ended else ""))
    block = player.block(time)  # the sound device plays what the meter showed
    assert (block.bits, block.ended, block.position) == (coming.bits, coming.ended, coming.position)
