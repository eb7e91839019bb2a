"""A tone of 440 Hz with linear ramps at its onset and at its stop, drawn as an SVG picture: the samples, the level of each sample, and where
the start and the stop are. A second row has the same tone with a stop that is told too late, which clicks. First: tools/build_library
A script elsewhere adds the folder `python` of this repository to PYTHONPATH instead of the first two lines below."""
import argparse
import math
import sys
from pathlib import Path

TOP = Path(__file__).resolve().parents[2]
sys.path.insert(0, str(TOP / "python"))
words = argparse.ArgumentParser(description=__doc__)
words.add_argument("file", metavar="ramp.svg", nargs="?", default="ramp.svg", help="the picture; ramp.svg, if it is left out")
file = words.parse_args().file
import netthimble  # noqa: E402

RATE, RAMP, START, BLOCKS = 48_000, 480, 0.004, 20
STOP = START + 1968.5 / RATE  # half a sample behind number 1968, so that no rounding makes it 1967
WIDTH, HEIGHT, MARGIN = 900, 200, 30


def played(frames, told):
    """The samples of a clip that is looped, from START on, and the player; its stop is told before block number `told`."""
    player = netthimble.Player(RATE, ramp=RAMP)
    player.set_clip(netthimble.Clip(RATE, [frames]))
    player.start(START)
    player.loop = True
    heard = []
    for n in range(BLOCKS):
        if n == told:
            player.stop(STOP)
        heard.extend(player.block(netthimble.FRAMES * n / RATE).samples[0])
    return heard, player


def row(number, title, samples, levels):
    """A row of the picture: the samples in blue, their level above and below them, and lines at the start and at the stop."""
    middle, scale, step = HEIGHT * (number + 0.5), 0.38 * HEIGHT, (WIDTH - 2 * MARGIN) / len(samples)

    def line(values, colour, width):
        bends = [i for i in range(len(values)) if not 0 < i < len(values) - 1 or abs(values[i - 1] + values[i + 1] - 2 * values[i]) > 1e-5]
        points = " ".join(f"{MARGIN + step * i:.1f},{middle - scale * values[i]:.1f}" for i in bends)
        return f'<polyline points="{points}" fill="none" stroke="{colour}" stroke-width="{width}"/>'

    def mark(seconds, name):
        x, top = MARGIN + step * seconds * RATE, middle - 0.44 * HEIGHT
        return (f'<line x1="{x:.1f}" y1="{top:.1f}" x2="{x:.1f}" y2="{middle + 0.44 * HEIGHT:.1f}" stroke="#999" stroke-dasharray="4 3"/>'
                f'<text x="{x + 4:.1f}" y="{middle + 0.43 * HEIGHT:.1f}">{name} {1000 * seconds:.1f} ms</text>')

    return [line(levels, "#d08020", 1), line([-level for level in levels], "#d08020", 1), line(samples, "#1f5fa8", 1.2), mark(START, "start"),
            mark(STOP, "stop"), f'<text x="{MARGIN}" y="{middle - 0.44 * HEIGHT - 2:.1f}">{title}</text>']


tone = [math.sin(2 * math.pi * 440 * n / RATE) for n in range(1200)]  # eleven whole periods
picture = [f'<svg xmlns="http://www.w3.org/2000/svg" viewBox="0 0 {WIDTH} {2 * HEIGHT}" font-family="sans-serif" font-size="11">',
           f'<rect width="{WIDTH}" height="{2 * HEIGHT}" fill="white"/>']
last = int(STOP * RATE) // netthimble.FRAMES
for number, told in enumerate((0, last - 1)):
    samples, player = played(tone, told)
    levels, _ = played([1.0], told)  # a clip that is 1 throughout shows the level
    when = "before the first block" if told == 0 else f"{1000 * (STOP - netthimble.FRAMES * told / RATE):.1f} ms before it"
    picture += row(number, f"a ramp of {RAMP} frames, the stop told {when}", samples, levels)
    steps = max(abs(b - a) for a, b in zip(levels, levels[1:]))
    sounds = [i for i, x in enumerate(levels) if x]
    print(f"stop told {when}: W is {player.stop_sample}, samples {sounds[0]} to {sounds[-1]} sound, the largest step of the level is {steps * RAMP:.2f}/{RAMP}")
Path(file).write_text("\n".join(picture + ["</svg>"]) + "\n", encoding="utf-8")
