#!/usr/bin/env python3
"""Makes a clip file from a WAV file of 16, 24 or 32 bits: frames FIRST to FIRST + COUNT of it, or all. A clip has 1 to 32 channels, a rate of 3,000 to
768,000 and at most 65,536 bytes, or some 16,000 samples in all.
"""
import struct
import sys
from pathlib import Path

from shared import TOP, options

sys.path.insert(0, str(TOP / "python/netthimble"))
import wav  # by itself, without the library


def parser():
    words = options(__doc__)
    words.usage = "tools/wav_to_clip.py [--onset FRAME | --old] sound.wav clip.bin [FIRST [COUNT]]"
    words.add_argument("sound", metavar="sound.wav")
    words.add_argument("clip", metavar="clip.bin")
    words.add_argument("first", metavar="FIRST", nargs="?", type=int, default=0)
    words.add_argument("count", metavar="COUNT", nargs="?", type=int)
    words.add_argument("--onset", metavar="FRAME", type=int, help="the frame that the sound begins at, counted in the clip; 0 if it is left out")
    words.add_argument("--old", action="store_true", help="the old header, which has no onset, for readers that know no other")
    return words


def length(channels, frames, is_old):
    """The bytes of the file."""
    return (12 if is_old else 16) + 4 * channels * (frames + 1)


def clip(rate, rows, onset=None):
    """The file's bytes: header length, channels, frames, rate, the onset (None: the old header, which has none), an offset for each channel,
    then the frames of each channel as f32."""
    channels, frames = len(rows), len(rows[0])
    onsets = [] if onset is None else [onset]
    header = 12 + 4 * len(onsets) + 4 * channels
    offsets = [header + 4 * frames * c for c in range(channels)]
    head = struct.pack(f"<HHIf{len(onsets) + channels}I", header, channels, frames, rate, *onsets, *offsets)
    return head + b"".join(struct.pack(f"<{frames}f", *row) for row in rows)


def main(given):
    try:
        rate, rows = wav.read(given.sound, given.first, given.count)
    except (OSError, ValueError) as wrong:
        sys.exit(str(wrong))
    channels, frames = len(rows), len(rows[0])
    size = length(channels, frames, given.old)
    if size > 65536 or not frames or not 1 <= channels <= 32 or not 3000 <= rate <= 768000:
        has = f"{channels} channels, {frames} frames, {rate} a second, {size} bytes"
        sys.exit(f"{given.sound}: not a clip: {has} (1 to 32, 1 or more, 3,000 to 768,000, at most 65,536)")
    if given.old and given.onset is not None:
        sys.exit("--old: this header has no onset")
    onset = given.onset or 0
    if not 0 <= onset < frames:
        sys.exit(f"{given.sound}: the onset {onset} is none of the {frames} frames, which are counted from 0")
    made = clip(rate, rows, None if given.old else onset)
    try:
        Path(given.clip).write_bytes(made)
    except OSError as wrong:
        sys.exit(str(wrong))
    print(f"{given.clip}: {channels} channels, {frames} frames, {rate} a second" + ("" if given.old else f", onset {onset}"))


if __name__ == "__main__":
    main(parser().parse_intermixed_args())
