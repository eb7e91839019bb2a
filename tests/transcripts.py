"""Clips, lines, and what `trial` prints for them: for the tests that hold a program, the library or the package to them.

The expected text is written here from docs/REFERENCE.md, 'Clip file', 'trial', 'Refusals' and 'The loop switch', not taken from the program. A test
writes `import transcripts`: CASES are name, clip file (None: there is none; FOLDER: a folder has its name), lines and what is printed;
REPLAYED are lines of tests/c/replay.c and what it prints; `random_run` makes a clip file and lines.
"""
import struct
import tempfile
from pathlib import Path

from shared import TOP, run
from shared.bits import bits32
from shared.bits import x64 as f64

NEVER = "7FEFFFFFFFFFFFFF"
ZERO = "0000000000000000"
MINUS_ONE, NAN, INFINITY = (f64(float(x)) for x in ("-1", "nan", "inf"))
ONE, TWO, THREE = 0x3F800000, 0x40000000, 0x40400000
START = f"S {ZERO} {ZERO} {NEVER}\n"


def clip(words, channels=1, rate=0x473B8000, onset=None, **changed):
    """A clip file's bytes, with the new header where there is an onset; `changed` puts another number in a place of the header."""
    frames = len(words) // channels if channels else changed.get("frames", 1)
    onsets = [] if onset is None else [onset]
    length = 12 + 4 * len(onsets) + 4 * channels
    head = {"header": length, "channels": channels, "frames": frames, "rate": rate}
    head.update({k: v for k, v in changed.items() if k in head})
    offsets = [length + 4 * frames * c + changed.get("shift", 0) for c in range(channels)]
    start = struct.pack("<HHII", *head.values()) + struct.pack(f"<{len(onsets) + channels}I", *onsets, *offsets)
    return start + struct.pack(f"<{len(words)}I", *words)


def runs(channel, words):
    """A line for each run of equal bits: channel, first index, count, bits."""
    lines, first = [], 0
    for i in range(1, len(words) + 1):
        if i == len(words) or words[i] != words[first]:
            lines.append(f"{channel} {first} {i - first} {words[first]:08X}\n")
            first = i
    return "".join(lines)


def block(number, keep, ended, channels):
    """The text of a block whose channels have these words."""
    return f"B {number} {keep} {ended} {len(channels)}\n" + "".join(runs(c, w) for c, w in enumerate(channels))


def looped(frames, count):
    """The text of the first blocks of a looped clip, by each channel's frames: sample i of block n is frame (128n + i) mod L."""
    return "".join(block(n, 1, 0, [[row[(128 * n + i) % len(row)] for i in range(128)] for row in frames]) for n in range(count))


def taped(frames, lines):
    """The text of the blocks of a clip of one channel, by the tape (docs/REFERENCE.md, 'The loop switch'). Not for an exact fit, after which
    either block may end it."""
    p, on, ended, number, text = 0, False, False, 0, ""
    for line in lines:
        if line[0] == "L":
            on = line == "L 1"
        if line != "B":
            continue
        begun, played, wrapped = not ended, [], False
        while begun and len(played) < 128:
            if p >= len(frames) and on:
                p, wrapped = 0, True
            played.append(frames[p] if p < len(frames) else 0)
            p += 1
        ended = ended or not on and p > len(frames)
        p = 0 if p == len(frames) and wrapped else p
        text += block(number, int(begun), int(ended), [played or SILENCE[0]])
        number += 1
    return text


def switched(count, turns):
    """A case of a clip of so many frames and lines that commas part."""
    frames, lines = list(range(1, count + 1)), START + turns.replace(",", "\n") + "\n"
    return (f"switched, {count} frames, {turns}", clip(frames), lines, taped(frames, lines.splitlines()))


def shipped(name, header, file="lines"):
    """A case of the shipped clip of one channel whose header is so long, and of a file of lines beside it."""
    folder = TOP / "examples" / name
    data, lines = (folder / "clip.bin").read_bytes(), (folder / file).read_text()
    frames = struct.unpack(f"<{(len(data) - header) // 4}I", data[header:])
    return (f"the shipped {name}, {file}", data, lines, taped(frames, lines.splitlines()))


SILENCE = [[0] * 128]
LOOP = [[(ONE, TWO, THREE)[(128 * n + i) % 3] for i in range(128)] for n in range(3)]
PLAIN = [ONE, TWO, THREE] + [0] * 125
LONG = list(range(1, 301))
FOLDER = "folder"

CASES = [
    # the example (docs/REFERENCE.md, 'trial')
    ("example", clip([ONE]), START + "B\nB\n", "B 0 1 1 1\n0 0 1 3F800000\n0 1 127 00000000\nB 1 0 1 1\n0 0 128 00000000\n"),
    # the rule
    ("looped", clip([ONE, TWO, THREE]), START + "L 1\nB\nB\nB\n", "".join(block(n, 1, 0, [LOOP[n]]) for n in range(3))),
    ("once", clip([ONE, TWO, THREE]), "L 1\nL 0\n" + START + "B\nB\n", block(0, 1, 1, [PLAIN]) + block(1, 0, 1, SILENCE)),
    # switched: within the clip, after a wrap, after the end, at its end without a wrap, and there with one
    switched(300, "L 1,B,L 0,B,L 1,B,L 0,B,B"),
    switched(200, "L 1,B,B,L 0,B,B,L 1,B"),
    switched(100, "B,L 1,B,L 0,B"),
    switched(128, "L 1,B,L 0,B,B"),
    switched(64, "L 1,B,L 0,B,B"),
    # an exact fit: with 128 frames that block ends it (docs/REFERENCE.md, 'Known frames')
    ("128 frames", clip(LONG[:128]), START + "B\nL 0\nB\n", block(0, 1, 1, [LONG[:128]]) + block(1, 0, 1, SILENCE)),
    ("300 frames", clip(LONG), START + "B\nB\nB\nB\n",
     block(0, 1, 0, [LONG[:128]]) + block(1, 1, 0, [LONG[128:256]]) + block(2, 1, 1, [LONG[256:] + [0] * 84]) + block(3, 0, 1, SILENCE)),
    ("two channels", clip([ONE, TWO, THREE, TWO], 2), START + "L 1\nB\n", block(0, 1, 0, [[ONE, TWO] * 64, [THREE, TWO] * 64])),
    ("no start", clip([ONE]), "B\n", block(0, 0, 0, SILENCE)),
    ("stop at 0", clip([ONE]), START + f"T {ZERO}\nB\n", block(0, 1, 1, [[0] * 128])),
    # refusals that a line can reach: 9, 10, 11 (13 only after 2^30 seconds; 8, 12, 14 and 1 never)
    ("9", clip([ONE]), f"S {MINUS_ONE} {ZERO} {ZERO}\nS {ZERO} {NAN} {ZERO}\nS {ZERO} {ZERO} {INFINITY}\nT {MINUS_ONE}\nP {INFINITY}\nE FFF8000000000001\n",
     "X 9\n" * 6),
    ("10", clip([ONE]), START + START, "X 10\n"),
    ("11", clip([ONE]), f"T {ZERO}\n", "X 11\n"),
    ("9 before 10 and 11", clip([ONE]), f"T {f64(-1.0)}\n" + START + f"S {f64(-1.0)} {ZERO} {ZERO}\n", "X 9\nX 9\n"),
    ("minus zero is no refusal", clip([ONE]), f"S {f64(-0.0)} {ZERO} {NEVER}\nP {f64(-3.0)}\nE {f64(9.0)}\n", ""),
    # unknown lines, of which nothing after is lost
    ("unknown", clip([ONE]), "\nb\nB \n B\nBB\nL 2\nL  1\nL\nS\nT 000000000000000\nT 00000000000000000\nT 000000000000000a\nP\nX 9\n", "X 0\n" * 14),
    ("carriage return", clip([ONE]), "B\r\nB\n", "X 0\n" + block(0, 0, 0, SILENCE)),
    ("a long line", clip([ONE]), "B" * 100000 + "\nB\n", "X 0\n" + block(0, 0, 0, SILENCE)),
    ("bytes over 127", clip([ONE]), b"\xff\xfe\n\xc3\xa4\nB\n", "X 0\nX 0\n" + block(0, 0, 0, SILENCE)),
    ("no last line feed", clip([ONE]), "B\nB", block(0, 0, 0, SILENCE) + block(1, 0, 0, SILENCE)),
    # more than a read takes (65,536 bytes), and more than is written at a time (600,000): lines lie across the ends
    ("lines across reads", clip([ONE]), f"T {ZERO}\n" * 8000, "X 11\n" * 8000),
    ("a long line across reads", clip([ONE]), "B\n" * 32000 + "B" * 70000 + f"\nT {ZERO}\nB\n",
     "".join(block(n, 0, 0, SILENCE) for n in range(32000)) + "X 0\nX 11\n" + block(32000, 0, 0, SILENCE)),
    ("more than is written at a time", clip(LONG), START + "L 1\n" + "B\n" * 1000,
     "".join(block(n, 1, 0, [[LONG[(128 * n + i) % 300] for i in range(128)]]) for n in range(1000))),
    ("one byte at a time", clip([ONE]), [bytes([b]) for b in f"{START}B\nQ\nB".encode()],
     block(0, 1, 1, [[ONE] + [0] * 127]) + "X 0\n" + block(1, 0, 1, SILENCE)),
    ("no lines", clip([ONE]), "", ""),
    # clips that are refused: 15, then 1, then 2
    ("no clip", None, "B\n", "X 15\n"),
    ("a folder", FOLDER, "B\n", "X 15\n"),
    ("empty clip", b"", "B\n", "X 15\n"),
    ("one byte short", clip([ONE])[:-1], "B\n", "X 15\n"),
    ("one byte long", clip([ONE]) + b"\0", "B\n", "X 15\n"),
    ("header length", clip([ONE], header=20), "B\n", "X 15\n"),
    ("offset", clip([ONE], shift=1), "B\n", "X 15\n"),
    ("no frames", clip([], 1), "B\n", "X 15\n"),
    ("frames differ", clip([ONE], frames=2), "B\n", "X 15\n"),
    ("over 65,536 bytes", clip([ONE] * 16381), "B\n", "X 15\n"),
    ("as long as may be", clip([ONE] * 16380), "B\n", block(0, 0, 0, SILENCE)),
    ("33 channels", clip([ONE] * 33, 33), "B\n", "X 1\n"),
    ("33 channels before the rate", clip([ONE] * 33, 33, rate=0), "B\n", "X 1\n"),
    ("rate 2,999", clip([ONE], rate=0x453B7000), "B\n", "X 2\n"),
    ("rate NaN", clip([ONE], rate=0x7FC00000), "B\n", "X 2\n"),
    ("15 before 2", clip([ONE], rate=0) + b"\0", "B\n", "X 15\n"),
    ("rate 768,000", clip([ONE], rate=0x493B8000), "B\n", block(0, 0, 0, SILENCE)),
    ("no channels", clip([], 0), "B\n", "X 1\n"),
    # the new header: the onset moves no sample
    ("onset 0", clip([ONE], onset=0), START + "B\nB\n", "B 0 1 1 1\n0 0 1 3F800000\n0 1 127 00000000\nB 1 0 1 1\n0 0 128 00000000\n"),
    ("onset, looped", clip([ONE, TWO, THREE], onset=2), START + "L 1\nB\nB\nB\n", looped([[ONE, TWO, THREE]], 3)),
    ("onset, 300 frames", clip(LONG, onset=299), START + "B\nB\nB\nB\n",
     block(0, 1, 0, [LONG[:128]]) + block(1, 1, 0, [LONG[128:256]]) + block(2, 1, 1, [LONG[256:] + [0] * 84]) + block(3, 0, 1, SILENCE)),
    ("onset, two channels", clip([ONE, TWO, THREE, TWO], 2, onset=1), START + "L 1\nB\n", looped([[ONE, TWO], [THREE, TWO]], 1)),
    ("onset, 32 channels", clip([ONE, TWO] * 32, 32, onset=1), START + "L 1\nB\n", looped([[ONE, TWO]] * 32, 1)),
    ("onset, as long as may be", clip([ONE] * 16379, onset=16378), "B\n", block(0, 0, 0, SILENCE)),
    # its refusals: 15, then 1, then 2, then 17
    ("onset, one byte short", clip([ONE], onset=0)[:-1], "B\n", "X 15\n"),
    ("onset, one byte long", clip([ONE], onset=0) + b"\0", "B\n", "X 15\n"),
    ("onset, the old header's length", clip([ONE], onset=0, header=16), "B\n", "X 15\n"),
    ("the new header's length without an onset", clip([ONE], header=20), "B\n", "X 15\n"),
    ("onset, offsets by the old header's length", clip([ONE], onset=0, shift=-4), "B\n", "X 15\n"),
    ("onset after the offset", clip([ONE] * 21, onset=0)[:12] + struct.pack("<23I", 20, 0, *[ONE] * 21), "B\n", "X 15\n"),
    ("onset, no frames", clip([], 1, onset=0), "B\n", "X 15\n"),
    ("onset, frames differ", clip([ONE], onset=0, frames=2), "B\n", "X 15\n"),
    ("onset, over 65,536 bytes", clip([ONE] * 16380, onset=0), "B\n", "X 15\n"),
    ("onset, no channels", clip([], 0, onset=0), "B\n", "X 1\n"),
    ("onset, 33 channels", clip([ONE] * 33, 33, onset=0), "B\n", "X 1\n"),
    ("onset, rate 2,999", clip([ONE], rate=0x453B7000, onset=0), "B\n", "X 2\n"),
    ("onset of the frame count", clip([ONE, TWO], onset=2), "B\n", "X 17\n"),
    ("onset of 2^32 - 1", clip([ONE, TWO], onset=2**32 - 1), "B\n", "X 17\n"),
    ("15 before 17", clip([ONE], onset=1) + b"\0", "B\n", "X 15\n"),
    ("15 before 1, 2 and 17", clip([ONE] * 33, 33, rate=0, onset=1) + b"\0", "B\n", "X 15\n"),
    ("1 before 2 and 17", clip([ONE] * 33, 33, rate=0, onset=1), "B\n", "X 1\n"),
    ("no channels before 2 and 17", clip([], 0, rate=0, onset=1), "B\n", "X 1\n"),
    ("2 before 17", clip([ONE], rate=0, onset=1), "B\n", "X 2\n"),
    # the clips that are shipped, with either header
    shipped("tone", 16),
    shipped("tone", 16, "switched"),
    shipped("onset", 20),
]

# Tolerances in the lines of tests/c/replay.c: near, near zero and the relabel distance behind a player's rate, and behind a conversion's two. They are
# made before all else: 18, then the rate or the shape. 48,000.5 is 0.5 from 48,000, and 3EFFFFFF is the number below 0.5.
FRESH = "Z" + " 7FEFFFFFFFFFFFFF" * 2 + " 0000000000000000 7FEFFFFFFFFFFFFF 0" + " 0000000000000000" * 3 + " 0 0 0000000000000000 0 0 0 0 none"
FRAMES = "W 3F800000 40000000 7F800001"
RESAMPLED = "Q 1 4 473B8080\n0 0 1 3F800000\n0 1 1 3FFFFFA8\n0 2 1 7FC00000\n0 3 1 7F800001"
REPLAYED = [
    ("R 473B8000 3E50000000000000 3E50000000000000 3DCCCCCD\nZ", FRESH),
    ("R 473B8000 3FF0000000000001 0000000000000000 00000000\nZ", "X 18\nX 0"),
    ("R 473B8000 0000000000000000 BFF0000000000000 00000000\nZ", "X 18\nX 0"),
    ("R 473B8000\nR 00000000 0000000000000000 0000000000000000 7FC00000\nZ", "X 18\nX 0"),
    ("R 00000000 8000000000000000 3FF0000000000000 3F800000\nZ", "X 2\nX 0"),
    ("R 473B8000 8000000000000000 3FF0000000000000 3F800000\nR 473B8000 8000000000000000 3FF0000000000000\nZ", "X 0\n" + FRESH),
    ("R 473B8000\nR 473B8000 8000000000000000 3FF0000000000000 3F80000\nZ", "X 0\n" + FRESH),
    (f"Q 1 3 473B8000 473B8080 0000000000000000 0000000000000000 3F000000\n{FRAMES}", "Q 1 3 473B8080\n0 0 1 3F800000\n0 1 1 40000000\n0 2 1 7F800001"),
    (f"Q 1 3 473B8000 473B8080 0000000000000000 0000000000000000 3EFFFFFF\n{FRAMES}", RESAMPLED),
    (f"Q 1 3 473B8000 473B8080\n{FRAMES}", RESAMPLED),
    (f"Q 0 3 473B8000 00000000 3FF0000000000001 0000000000000000 3F000000\n{FRAMES}", "X 18\nX 0"),
    (f"Q 0 3 473B8000 00000000 3FF0000000000000 0000000000000000 3F000000\n{FRAMES}", "X 1\nX 0"),
    (f"Q 1 3 473B8000 00000000 3FF0000000000000 0000000000000000 3F000000\n{FRAMES}", "X 2"),
    (f"Q 0 3 473B8000 00000000 3FF0000000000001 0000000000000000\n{FRAMES}", "X 0\nX 0"),
]


def given(lines):
    """The bytes of a case's lines, all at once."""
    return b"".join(lines) if isinstance(lines, list) else lines if isinstance(lines, bytes) else lines.encode()


def played(program, clip, lines):
    with tempfile.TemporaryDirectory() as folder:
        if clip is not None:
            Path(folder, "clip.bin").write_bytes(clip)
        return run([program] if isinstance(program, Path) else program, lines, folder).stdout


def random_run(r):
    """A clip of 1 to 3 channels, with either header, and lines that start it, move its loop points and play blocks."""
    channels, frames = r.randint(1, 3), r.choice([1, 2, 127, 128, 129, 200, 300, 700])
    rate = bits32(r.choice([8000.0, 44100.0, 48000.0, 96000.0]))
    data = clip([r.getrandbits(32) for _ in range(channels * frames)], channels, rate, r.choice([None, r.randrange(frames)]))
    seconds = frames / 48000.0
    lines = [f"S {f64(r.choice([0.0, 0.0, 0.001, seconds]))} {f64(r.choice([0.0, 0.0, seconds / 3]))} {r.choice([NEVER, f64(seconds * 2)])}"]
    for _ in range(r.randint(5, 20)):
        at = f64(r.choice([-1.0, 0.0, r.random() * seconds, seconds, 9.0, float("nan")]))
        lines.append(r.choice(["B"] * 6 + ["L 1", "L 0", f"P {at}", f"E {at}", f"T {at}", "S", "B "]))
    return data, ("\n".join(lines) + "\n").encode()
