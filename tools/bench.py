#!/usr/bin/env python3
"""Measures ours beside the Rust original, in alternating rounds, both built for release: blocks, copies and conversions (1, 2 and 8 channels) of a
million frames through the C library, and `trial` on 100,000 blocks. memcpy is the limit. A block in cents, a preview and a counting player's
block are held against the block call too, and blocks outside a ramp and within it against those of a player without one. Needs rt, cc, rustc
and the Rust original (oracle/README.md).
"""
import statistics
import struct
import tempfile
import time
from pathlib import Path

from shared import TOP, must, options, program
from shared.bits import bits32, x64
from shared.comparing import aligned, compiled, head, lines, ratios, row

FRAMES, BLOCKS, RATE = 1000, 100_000, 48_000
START = "S 0000000000000000 0000000000000000 7FEFFFFFFFFFFFFF\nL 1\n"
IN_LOOPS = ("player_blocks", "write_aligned", "write_sub_sample", "write_channel")
# what is held against the block call: a title, the ending of its names, and the ending of the block call's
CALLS = [
    ("in cents", "-cents", "-c"),
    ("a preview, of saved players", "-preview", "-shown"),
    ("a preview, before each block", "-ahead", "-twin"),
    ("a counting player's block", "-count", "-c"),
    ("outside both ramps", "-outside", "-none"),
    ("inside a ramp", "-inside", "-none"),
]
APART = tuple(ending for _, *endings in CALLS for ending in endings if ending not in ("-cents", "-c"))


def times(command):
    return {name: float(ns) for name, ns in map(str.split, lines(command))}


def seconds(command, file, folder):
    """The time of a program on these lines; what it prints is dropped."""
    with open(file, "rb") as text:
        began = time.monotonic()
        must(command, folder, stdin=text)
        return 1e9 * (time.monotonic() - began)


def trial_inputs(folder):
    """A looped clip of 1,000 frames, and 100,000 blocks in trial's lines and in the oracle's."""
    words, rate = [bits32(i) for i in range(FRAMES)], bits32(RATE)
    header = struct.pack("<HHIII", 16, 1, FRAMES, rate, 16)
    Path(folder, "clip.bin").write_bytes(header + struct.pack(f"<{FRAMES}I", *words))
    ours, rust = Path(folder, "trial.lines"), Path(folder, "replay.lines")
    ours.write_text(START + "B\n" * BLOCKS)
    frames = ["W " + " ".join(f"{w:08X}" for w in words[i : i + 125]) + "\n" for i in range(0, FRAMES, 125)]
    blocks = [f"B {x64(128 * n / RATE)} 3F800000 3FF0000000000000\n" for n in range(BLOCKS)]
    rust.write_text(f"R {rate:08X}\nC 1 {FRAMES} {rate:08X}\n" + "".join(frames) + START + "".join(blocks))
    return ours, rust


def measured(rounds):
    """The times of each round, ours and the Rust's, by their names."""
    subject, oracle = TOP / "oracle/subject", TOP / "target/oracle/replay"
    ours, rust = [], []
    with tempfile.TemporaryDirectory() as folder:
        loop = aligned(TOP / "crates/player_c/out/libplayer_c.a", folder, *IN_LOOPS)
        bench = compiled("bench", folder, TOP / "target/c/libnetthimble.a", loop)
        our_lines, rust_lines = trial_inputs(folder)
        for _ in range(rounds):
            ours.append(times([bench]))
            ours[-1]["trial-100000"] = seconds([subject, program("trial")], our_lines, folder)
            rust.append(times([oracle, "bench"]))
            rust[-1]["trial-100000"] = seconds([oracle], rust_lines, folder)
    return ours, rust


def show(ours, rust):
    def column(side, name):
        return [times[name] for times in side]

    head("run", "ours, ns", "Rust, ns", "ratio in a round")
    for name in (name for name in ours[0] if not name.endswith(APART)):
        a, other = column(ours, name), name.removesuffix("-c").removesuffix("-cents")
        if other not in rust[0]:
            row(name, f"{statistics.median(a):,.0f}", "", "")
            continue
        b = column(rust, other)
        row(name, f"{statistics.median(a):,.0f}", f"{statistics.median(b):,.0f}", ratios(a, b))
    for title, ending, plain in CALLS:
        print()
        head(title, "block call, ns", "ns", "ratio in a round")
        for name in (name for name in ours[0] if name.endswith(ending)):
            a, b = column(ours, name), column(ours, name.removesuffix(ending) + plain)
            row(name.removesuffix(ending), f"{statistics.median(b):,.0f}", f"{statistics.median(a):,.0f}", ratios(a, b))


def main(rounds):
    must([TOP / "tools/build_library"])
    must([TOP / "tools/prove", "-q", "player_c", "trial"])
    must([TOP / "oracle/build.py"])
    show(*measured(rounds))


if __name__ == "__main__":
    words = options(__doc__)
    words.add_argument("rounds", metavar="ROUNDS", nargs="?", type=int, default=11)
    main(words.parse_args().rounds)
