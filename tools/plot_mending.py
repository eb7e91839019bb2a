#!/usr/bin/env python3
"""Draws what is heard of a clip of two channels whose file was cut, before it was cut and after it is mended, as an SVG picture. Each frame has the
colour of the channel that it was in. The library mends it (tools/build_library).

  tools/plot_mending.py > docs/mending.svg
"""
import math
import sys

from shared import TOP, options

WIDTH, HEIGHT, MARGIN, TITLE = 900, 110, 24, 22
FRAMES, LEFT, RATE = 240, 160, 48000  # the frames of each channel, and those that the cut file still holds for each
COLOURS = ("#1f5fa8", "#c8641e")


def channels():
    """A tone that swells in the first channel, and one that dies away in the second."""
    first = [0.9 * i / FRAMES * math.sin(2 * math.pi * i / 24) for i in range(FRAMES)]
    second = [0.9 * math.exp(-i / 60) * math.sin(2 * math.pi * i / 10) for i in range(FRAMES)]
    return first, second


def runs(colours):
    """The first frame and the end of each run of one colour."""
    starts = [i for i in range(len(colours)) if i == 0 or colours[i] != colours[i - 1]]
    return zip(starts, [*starts[1:], len(colours)])


def row(top, name, values, owners):
    """A channel: its name, a frame, and its samples in the colours of the channels that they come from."""
    step, middle = (WIDTH - 2 * MARGIN) / FRAMES, top + HEIGHT / 2
    out = [f'<text x="{MARGIN}" y="{top + 12}">{name}</text>']
    out.append(f'<line x1="{MARGIN}" y1="{middle}" x2="{MARGIN + step * len(values):.1f}" y2="{middle}" stroke="#ccc"/>')
    for start, end in runs(owners):
        points = " ".join(f"{MARGIN + step * i:.1f},{middle - 0.4 * HEIGHT * values[i]:.1f}" for i in range(start, min(end + 1, len(values))))
        out.append(f'<polyline points="{points}" fill="none" stroke="{COLOURS[owners[start]]}" stroke-width="1.2"/>')
        if start:
            x = MARGIN + step * start
            out.append(f'<line x1="{x:.1f}" y1="{top + 4}" x2="{x:.1f}" y2="{top + HEIGHT - 4}" stroke="#888" stroke-dasharray="3 3"/>')
    return out


def picture(mend, load, clip):
    """The clip of two channels, and what is left of it without its last frames."""
    first, second = channels()
    whole = clip(RATE, [first, second])
    cut = whole.to_bytes()[: -4 * 2 * (FRAMES - LEFT)]
    mended = load(mend(cut).data)
    owners = [0] * FRAMES + [1] * FRAMES  # of the frames as they stand in the file
    height = 2 * TITLE + 4 * HEIGHT + MARGIN
    out = [f'<svg xmlns="http://www.w3.org/2000/svg" viewBox="0 0 {WIDTH} {height}" font-family="sans-serif" font-size="11">']
    out.append(f'<rect width="{WIDTH}" height="{height}" fill="white"/>')
    for n, (title, sound) in enumerate(((f"before it was cut: {FRAMES} frames", whole), (f"cut and mended: {mended.frames} frames", mended))):
        top = n * (TITLE + 2 * HEIGHT)
        out.append(f'<text x="{MARGIN}" y="{top + 15}" font-weight="bold">{title}</text>')
        for c in range(2):
            own = owners[sound.frames * c : sound.frames * (c + 1)]
            out += row(top + TITLE + c * HEIGHT, f"channel {c}", sound.samples(c), own)
    said = f"The second channel begins with frames {LEFT} to {FRAMES - 1} of the first; its own sound comes {FRAMES - LEFT} frames late."
    out.append(f'<text x="{MARGIN}" y="{height - 10}">{said}</text>')
    return "\n".join(out + ["</svg>"])


def main():
    sys.path.insert(0, str(TOP / "python"))
    import netthimble

    print(picture(netthimble.mend, netthimble.load, netthimble.Clip))


if __name__ == "__main__":
    options(__doc__).parse_args()
    main()
