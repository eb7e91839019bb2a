"""Netthimble for Python: plays a clip in blocks of 128 frames, with the proved library (docs/LIBRARY.md).

    clip = netthimble.Clip(48000, [[0.0, 0.5, 0.25, -0.5]])    # a row of floats for each channel
    player = netthimble.Player(clip.sample_rate)
    player.set_clip(clip)
    player.start()
    player.loop = True
    block = player.block(0.0)      # block.samples[0] is an array of 128 floats
    block.position, block.ended    # seconds of the clip; whether the player has ended
    player.block(0.01, cents=-50)  # the next block, a quarter tone lower
    player.preview(0.02)           # what the block at 0.02 would be; the player stays
    netthimble.staircase(60, 42, 4, 30).levels  # a two-down one-up staircase, tried on a simulated listener
    netthimble.Counter(clip).block()  # the first block by counting frames, at the clip's own rate

A wrong type is a TypeError that names the argument. A value that the library refuses raises Refused, a ValueError with the number of the
table (docs/REFERENCE.md, 'Refusals'), and changes nothing.
The library is target/c/libnetthimble.so of this repository, or the file that the environment variable NETTHIMBLE_LIBRARY names."""
from .binding import FRAMES, NEVER
from .clips import Clip, load, load_old
from .counting import CountedBlock, Counter
from .errors import WORDS, Refused
from .mending import Mended, mend
from .players import Block, Player, factor
from .staircase import Track, staircase
from .tolerances import Tolerances

__version__ = "1.3.0"
__all__ = [
    "FRAMES", "NEVER", "WORDS", "Block", "Clip", "CountedBlock", "Counter", "Mended", "Player",
    "Refused", "Tolerances", "Track", "factor", "load", "load_old", "mend", "staircase",
]  # fmt: skip
