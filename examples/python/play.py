"""Plays the shipped tone, or the clip file that is named, block by block and prints where each block ended. First: tools/build_library
A script elsewhere adds the folder `python` of this repository to PYTHONPATH instead of the first two lines below."""
import argparse
import sys
from pathlib import Path

TOP = Path(__file__).resolve().parents[2]
sys.path.insert(0, str(TOP / "python"))
words = argparse.ArgumentParser(description=__doc__)
words.add_argument("file", metavar="clip.bin", nargs="?", default=TOP / "examples/tone/clip.bin", help="a clip file; the shipped tone, if it is left out")
file = words.parse_args().file
import netthimble  # noqa: E402

try:
    clip = netthimble.load(file)
except (OSError, netthimble.Refused) as wrong:
    sys.exit(f"play.py: {wrong}")
if clip.onset:
    print(f"the sound begins at frame {clip.onset}")
player = netthimble.Player(clip.sample_rate)
player.set_clip(clip)
player.start()  # at 0 seconds, from the clip's first frame
player.loop = True
for n in range(5):
    block = player.block(netthimble.FRAMES * n / clip.sample_rate)
    # block.samples[0] is what channel 0 plays: 128 floats, to be handed to the sound device
    print(f"block {n}: first sample {block.samples[0][0]:+.6f}, then at {block.position * clip.sample_rate:.3f} frames of {clip.frames}")
try:
    player.start()
except netthimble.Refused as refused:
    print(refused)
