#!/usr/bin/env python3
"""Draws what `staircase` printed, read from standard input, as an SVG picture: the level over the trials, a filled mark where the listener
heard and an open one where not, a ring round each reversal, the threshold, and the mean of the levels at the reversals.

  ./staircase 60 42 4 60 20 | tools/plot_staircase.py > staircase.svg
"""
import math
import sys

from shared import options

WIDTH, HEIGHT, TRIAL = 900, 420, 7  # at least so wide; a trial has at least so much
LEFT, RIGHT, TOP, BOTTOM = 64, 24, 64, 52
BLUE, RED, GREEN, GREY = "#1f5fa8", "#c0392b", "#2e7d32", "#ccc"


def read(lines):
    """The numbers that it was asked for with, each trial's level and reply, and the number of reversals; or the line of a refusal."""
    words = [line.split() for line in lines]
    if words and words[0][:1] == ["X"]:
        sys.exit(f"plot_staircase: refused: {' '.join(words[0])}")
    asked = {name: int(value) for name, value in zip(words[0][0::2], words[0][1::2])}
    trials = [(int(number), int(level), {"heard": True, "unheard": False}[reply]) for number, level, reply in words[1:-1]]
    if [number for number, _, _ in trials] != list(range(asked["trials"])) or words[-1][0] != "reversals":
        raise ValueError
    return asked, [level for _, level, _ in trials], [heard for _, _, heard in trials], int(words[-1][1])


def turning(levels):
    """The trials at which the levels turn: the last trial of each level after which the direction changes."""
    found, last = [], 0
    for k in range(1, len(levels)):
        way = (levels[k] > levels[k - 1]) - (levels[k] < levels[k - 1])
        if way and last and way != last:
            found.append(k - 1)
        last = way or last
    return found


def steps_of(span, most):
    """A round step, 1, 2 or 5 times a power of ten, of which at most so many fit the span."""
    step = 10 ** math.floor(math.log10(max(span, 1) / most)) if span > most else 1
    return int(next(step * m for m in (1, 2, 5, 10) if span / (step * m) <= most))


class Axes:
    """Where trials and levels lie in the picture."""

    def __init__(self, levels, threshold):
        low, high = min(*levels, threshold), max(*levels, threshold)
        self.by = steps_of(high - low + 2, 8)
        self.low, self.high = (low - 1) // self.by * self.by, -(-(high + 1) // self.by) * self.by
        self.count = len(levels)
        self.right = max(WIDTH, LEFT + RIGHT + TRIAL * self.count) - RIGHT

    def x(self, trial):
        return LEFT + (self.right - LEFT) * (trial + 0.5) / self.count

    def y(self, level):
        return TOP + (HEIGHT - TOP - BOTTOM) * (self.high - level) / (self.high - self.low)

    def drawn(self):
        out = []
        for level in range(max(self.low, 0), min(self.high, 120) + 1, self.by):
            y = self.y(level)
            out.append(f'<line x1="{LEFT}" y1="{y:.1f}" x2="{self.right}" y2="{y:.1f}" stroke="{GREY}" stroke-width="0.5"/>')
            out.append(f'<text x="{LEFT - 8}" y="{y + 4:.1f}" text-anchor="end">{level}</text>')
        for trial in range(0, self.count, steps_of(self.count, (self.right - LEFT) // 60)):
            x = self.x(trial)
            out.append(f'<line x1="{x:.1f}" y1="{HEIGHT - BOTTOM}" x2="{x:.1f}" y2="{HEIGHT - BOTTOM + 5}" stroke="black"/>')
            out.append(f'<text x="{x:.1f}" y="{HEIGHT - BOTTOM + 18}" text-anchor="middle">{trial}</text>')
        bottom, middle = HEIGHT - BOTTOM, TOP + (HEIGHT - TOP - BOTTOM) / 2
        out.append(f'<path d="M{LEFT},{TOP} V{bottom} H{self.right}" fill="none" stroke="black"/>')
        out.append(f'<text x="{(LEFT + self.right) / 2}" y="{HEIGHT - 12}" text-anchor="middle">trial</text>')
        out.append(f'<text x="18" y="{middle}" text-anchor="middle" transform="rotate(-90 18 {middle})">level (dB)</text>')
        return out


def line_across(y, colour, dashes, start, end):
    return f'<line x1="{start}" y1="{y:.1f}" x2="{end}" y2="{y:.1f}" stroke="{colour}" stroke-width="1.5" stroke-dasharray="{dashes}"/>'


def legend(asked, mean):
    """What the marks and lines stand for, above the picture."""
    y, out = 46, []
    entries = [
        (f'<circle cx="7" cy="{y - 4}" r="4" fill="{BLUE}" stroke="{BLUE}"/>', "heard"),
        (f'<circle cx="7" cy="{y - 4}" r="4" fill="white" stroke="{BLUE}" stroke-width="1.5"/>', "unheard"),
        (f'<circle cx="7" cy="{y - 4}" r="7" fill="none" stroke="{RED}" stroke-width="1.5"/>', "reversal"),
        (line_across(y - 4, GREEN, "6 4", -4, 18), f"threshold, {asked['threshold']} dB"),
    ]
    if mean is not None:
        entries.append((line_across(y - 4, RED, "2 3", -4, 18), f"mean of the levels at reversals, {mean:.1f} dB"))
    x = LEFT
    for mark, words in entries:
        out.append(f'<g transform="translate({x} 0)">{mark}<text x="24" y="{y}">{words}</text></g>')
        x += 52 + 6.4 * len(words)
    return out


def picture(asked, levels, heard, reversals):
    axes, turns = Axes(levels, asked["threshold"]), turning(levels)
    mean = sum(levels[k] for k in turns) / len(turns) if turns else None
    radius, width = min(4.0, 0.35 * (axes.x(1) - axes.x(0))), axes.right + RIGHT
    out = [f'<svg xmlns="http://www.w3.org/2000/svg" viewBox="0 0 {width} {HEIGHT}" font-family="sans-serif" font-size="12">']
    out.append(f'<rect width="{width}" height="{HEIGHT}" fill="white"/>')
    title = f"Two-down one-up, from {asked['start']} dB in steps of {asked['step']} dB: {len(levels)} trials, {reversals} reversals"
    out.append(f'<text x="{LEFT}" y="22" font-size="14">{title}</text>')
    out += legend(asked, mean) + axes.drawn()
    out.append(line_across(axes.y(asked["threshold"]), GREEN, "6 4", LEFT, axes.right))
    if mean is not None:
        out.append(line_across(axes.y(mean), RED, "2 3", LEFT, axes.right))
    points = " ".join(f"{axes.x(k):.1f},{axes.y(level):.1f}" for k, level in enumerate(levels))
    out.append(f'<polyline points="{points}" fill="none" stroke="{BLUE}" stroke-width="1"/>')
    for k, level in enumerate(levels):
        fill = BLUE if heard[k] else "white"
        out.append(f'<circle cx="{axes.x(k):.1f}" cy="{axes.y(level):.1f}" r="{radius:.1f}" fill="{fill}" stroke="{BLUE}" stroke-width="1.2"/>')
    for k in turns:
        out.append(f'<circle cx="{axes.x(k):.1f}" cy="{axes.y(levels[k]):.1f}" r="{radius + 3:.1f}" fill="none" stroke="{RED}" stroke-width="1.5"/>')
    return "\n".join(out + ["</svg>"])


if __name__ == "__main__":
    options(__doc__).parse_args()
    try:
        given = read(sys.stdin)
    except (ValueError, IndexError, KeyError):
        sys.exit("plot_staircase: standard input is not what staircase prints")
    print(picture(*given))
