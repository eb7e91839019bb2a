#!/usr/bin/env python3
"""Draws what `trial` printed, read from standard input, as an SVG picture: each channel's samples over the sample number.

  ./trial examples/tone | tools/plot_trial.py > tone.svg
"""
import struct
import sys

from shared import options

WIDTH, HEIGHT, MARGIN = 900, 160, 24


def read(lines):
    """For each block its channels' 128 samples, and the refusals."""
    blocks, refused = [], []
    for line in lines:
        word = line.split()
        if not word:
            continue
        if word[0] == "B":
            blocks.append({})
        elif word[0] == "X":
            refused.append(line.strip())
        else:
            channel, first, count = map(int, word[:3])
            value = struct.unpack(">f", bytes.fromhex(word[3]))[0]
            samples = blocks[-1].setdefault(channel, [0.0] * 128)
            samples[first : first + count] = [value] * count
    return blocks, refused


def picture(blocks):
    channels = max((max(b) for b in blocks if b), default=0) + 1
    total = max(1, 128 * len(blocks))
    out = [f'<svg xmlns="http://www.w3.org/2000/svg" viewBox="0 0 {WIDTH} {channels * HEIGHT + MARGIN}" font-family="sans-serif" font-size="11">']
    out.append(f'<rect width="{WIDTH}" height="{channels * HEIGHT + MARGIN}" fill="white"/>')
    for c in range(channels):
        values = [v for b in blocks for v in b.get(c, [0.0] * 128)]
        top = max([abs(v) for v in values if v == v and abs(v) < 1e30] + [1e-9])
        middle = c * HEIGHT + HEIGHT / 2
        x = [MARGIN + (WIDTH - 2 * MARGIN) * i / total for i in range(total + 1)]
        for n in range(len(blocks) + 1):
            out.append(f'<line x1="{x[128 * n]:.1f}" y1="{c * HEIGHT + 8}" x2="{x[128 * n]:.1f}" y2="{(c + 1) * HEIGHT - 8}" stroke="#ccc"/>')
        points = " ".join(f"{x[i]:.1f},{middle - 0.42 * HEIGHT * v / top:.1f}" for i, v in enumerate(values))
        out.append(f'<polyline points="{points}" fill="none" stroke="#1f5fa8" stroke-width="1.2"/>')
        out.append(f'<text x="{MARGIN}" y="{c * HEIGHT + 16}">channel {c}, {top:g} at the most</text>')
    out.append(f'<text x="{MARGIN}" y="{channels * HEIGHT + 14}">{len(blocks)} blocks of 128 samples</text>')
    return "\n".join(out + ["</svg>"])


if __name__ == "__main__":
    options(__doc__).parse_args()
    try:
        found, refusals = read(sys.stdin)
    except (ValueError, IndexError, struct.error):
        sys.exit("plot_trial: standard input is not what trial prints")
    for line in refusals:
        print(f"refused: {line}", file=sys.stderr)
    if not found:
        sys.exit("plot_trial: nothing to draw: trial printed no block")
    print(picture(found))
