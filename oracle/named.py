"""Scripts chosen by hand, at least one for each rule of docs/REFERENCE.md. `named()` gives (name, units), `in_cents()` those with calls in cents,
`previews()` those with previews and `conversions()` those of conversion.

Where a name begins with `panic: ` the original panics (docs/REFERENCE.md, 'Scope and judges'); these are not recorded.
"""
import math

from scripts import MAX, TWO_64, previewed, words_text, xi32

from shared.bits import x32, x64

RATE = 48000.0
DT = 1 / RATE
D = DT * 128
INF, NAN = x64(math.inf), "7FF8000000000000"
UP, DOWN = (lambda x: math.nextafter(x, math.inf)), (lambda x: math.nextafter(x, -math.inf))


def R(rate=RATE):
    return f"R {x32(rate)}"


def hexes(values):
    """Words from numbers, or from texts of 8 hex digits as they are."""
    return "".join(" " + (v if isinstance(v, str) else x32(v)) for v in values)


def C(*channels, rate=RATE):
    return f"C {len(channels)} {len(channels[0])} {x32(rate)}" + words_text("".join(map(hexes, channels)))


def ramp(n, first=1.0):
    return [first + i for i in range(n)]


def S(when=0.0, offset=0.0, duration=MAX):
    return f"S {x64(when)} {x64(offset)} {x64(duration)}"


def T(when):
    return f"T {x64(when)}"


def P(at):
    return f"P {x64(at)}"


def E(at):
    return f"E {x64(at)}"


def B(time=0.0, rate=1.0, factor=1.0, *lengths):
    return " ".join(["B", x64(time), x32(rate), x64(factor), *map(str, lengths)])


def cents(time=0.0, rate=1.0, cents=0, *lengths):
    return " ".join(["D", x64(time), x32(rate), xi32(cents), *map(str, lengths)])


def M(*values):
    """The preview of a block; below in cents."""
    return previewed(B(*values))


def N(*values):
    return previewed(cents(*values))


def looked(*played):
    """Each block with its preview before it, and the player before and after each."""
    return [unit for block in played for unit in ("Z", previewed(block), "Z", block, "Z")]


def blocks(count, rate=1.0, factor=1.0, first=0, output=RATE):
    return [B(128 * n / output, rate, factor) for n in range(first, first + count)]


def words(head, *values):
    return head + words_text(hexes(values))


def limits():
    yield "fresh player", [R(), "Z"]
    for rate in (3000.0, 768000.0):
        yield f"output rate {rate:.0f}", [R(rate), C([1.0], rate=rate), S(), *blocks(2, output=rate), "Z"]
    low, high = x32(2999.999755859375), x32(768000.0625)
    for bits in (low, high, "7FC00000", "7F800000", "C73B8000", "00000000"):
        yield f"output rate {bits} refused", [R(), "# then", f"R {bits}", "Z", S(), B(), "C 1 1 473B8000"]
    yield "clip shapes refused", [R(), "C 0 1 473B8000", "C 33 1 473B8000", "C 1 16777217 473B8000", "C 0 0 00000000",
                                  "C 1 0 473B8000", "Z", C([2.0]), S(), B(), "Z"]
    yield "clip rates refused", [R(), *(words(f"C 1 1 {bits}", 1.0) for bits in (low, high, "7FC00000")), "Z"]
    yield "clip: 2 before 10 before 12", [R(), "C 1 0 00000000", "C 1 0 473B8000", C([1.0]), "C 1 0 00000000",
                                          "C 1 0 473B8000", C([2.0]), S(), B()]
    yield "32 channels", [R(), C(*[[float(c), c + 0.5] for c in range(32)]), S(), B(), "Z"]


def messages():
    for i, place in enumerate(("when", "offset", "duration")):
        for bits in (INF, NAN, x64(-1.0), x64(-5e-324)):
            values = [x64(0.0)] * 3
            values[i] = bits
            yield f"start {place} {bits} refused", [R(), "S " + " ".join(values), "Z"]
    yield "start at -0", [R(), C(ramp(3)), S(-0.0, -0.0, MAX), "Z", B(), "Z"]
    yield "start twice, 9 before 10", [R(), S(), S(), f"S {NAN} {x64(0.0)} {x64(0.0)}", "Z"]
    yield "start at f64::MAX sets the mark", [R(), C([1.0]), S(MAX), "Z", S(), B(), T(0.0), B(D), "Z"]
    yield "stop before a start, 9 before 11", [R(), T(0.0), T(-1.0), f"T {INF}", S(), T(-0.0), T(1.0), "Z"]
    yield "stop moved", [R(), C(ramp(300)), S(), T(D), T(2 * D), *blocks(3), "Z"]
    yield "loop points refused", [R(), f"P {INF}", f"P {NAN}", f"E {INF}", f"E {NAN}", "Z"]
    yield "loop points negative before a clip", [R(), P(-1.0), E(-2.0), "Z", C(ramp(4)), "Z"]
    yield "loop points, duration 1", [R(3000.0), C([0.0] * 3000, rate=3000.0), E(0.0), "Z", E(-1.0), "Z", E(1.5), "Z", E(1.0), "Z",
                                      E(0.5), "Z", P(-1.0), "Z", P(2.0), "Z", P(1.0), "Z", P(-0.0), "Z", E(-0.0), "Z"]
    yield "any message clamps the loop points", [R(), P(1.0), E(1.0), C(ramp(4)), "Z", P(2.0), "L 1", "Z", E(5e-324), S(), "Z"]


def order_of_steps():
    yield "clip, start 0, stop 0: zeros, ended, true", [R(), C(ramp(3)), S(), T(0.0), B(), "Z", B(D), "Z"]
    yield "clip, no start: silence, false, not ended", [R(), C(ramp(3)), B(), "Z", S(), B(D), "Z"]
    yield "start without a clip ends", [R(), S(), B(), "Z", C(ramp(3)), B(D), "Z"]
    yield "start at f64::MAX without a clip", [R(), S(MAX), B(), "Z", C([1.0]), B(D), "Z"]
    yield "nothing at all", [R(), B(), B(1.0), "Z"]
    yield "start at the block's end waits", [R(), C(ramp(3), ramp(3)), S(D), B(), "Z", B(D), "Z"]
    yield "start one ulp before the block's end", [R(), C(ramp(3)), S(DOWN(D)), B(), "Z", B(D), "Z"]
    yield "start after sample 127 moves to the next block", [R(), C(ramp(3)), S(127.5 * DT), B(), "Z", B(D), "Z"]
    yield "stop before the start ends", [R(), C(ramp(3)), S(1.0), T(D), B(), "Z", B(D), "Z"]
    yield "stop after the block, start after it", [R(), C(ramp(3)), S(1.0), T(UP(D)), B(), "Z"]
    yield "stop without a clip, start at f64::MAX", [R(), S(MAX), T(0.0), B(), "Z"]
    yield "ended: only the last time changes", [R(), C([1.0]), S(), B(), "Z", B(1.0), "Z", "L 1", P(1.0), B(2.0), "Z", B(2.0), "Z"]
    yield "start in the past", [R(), C(ramp(200)), S(0.5), *blocks(3, first=1000), "Z"]
    yield "a started player keeps its start", [R(), C(ramp(300)), S(), B(), B(10.0), "Z", B(20.0), "Z"]


def aligned():
    for n in (1, 2, 3, 64, 127, 128, 129, 255, 256, 257):
        for loop in (0, 1):
            count = 3 if n < 200 else 4
            yield f"aligned, L = {n}, loop {loop}", [R(), C(ramp(n)), S(), f"L {loop}", *blocks(count), "Z"]
    yield "aligned, two channels", [R(), C(ramp(130), ramp(130, 1000.0)), S(), "L 1", *blocks(2), "Z"]
    yield "copied frames keep their bits", [R(), C(["7FC00001", "FFC12345", "7F800001", "FFBFFFFF", "7F800000", "FF800000", "80000000", "00000001"]),
                                            S(), "L 1", B(), "Z"]
    yield "copied block keeps its bits", [R(), C(["7F800001"] * 64 + ["FFFFFFFF"] * 70), S(), B(), "Z"]
    yield "loop off midway", [R(), C(ramp(100)), S(), "L 1", B(), "L 0", B(D), "Z", B(2 * D)]
    yield "loop on midway", [R(), C(ramp(200)), S(), B(), "L 1", B(D), "Z", B(2 * D), "Z"]
    yield "loop off after an exact fit", [R(), C(ramp(128)), S(), "L 1", B(), "Z", B(D), "Z", B(2 * D), "Z", "L 0", B(3 * D), "Z"]
    yield "exact fit wraps to 0", [R(), C(ramp(64)), S(), "L 1", *blocks(3), "Z"]
    yield "L = 128, loop, four blocks", [R(), C([1.0] * 64 + [2.0] * 64), S(), "L 1", *(u for b in blocks(4) for u in (b, "Z"))]
    yield "L = 384, loop, exact fit", [R(), C([1.0] * 384), S(), "L 1", *(u for b in blocks(5) for u in (b, "Z"))]
    yield "L = 256 at 44,100, once", [R(44100.0), C([1.0] * 256, rate=44100.0), S(), *(u for b in blocks(4, output=44100.0) for u in (b, "Z"))]
    steps = [float(1 + (i + 1) // 32) for i in range(384)]
    yield "first frame is rounded, at 3,007", [R(3007.0), C(steps, rate=3007.0), S(), *blocks(3, output=3007.0), "Z"]
    yield "L = 640, once: the sum of five blocks is below the duration", [R(), C([1.0] * 640), S(), *blocks(7), "Z"]
    yield "many blocks of L = 5", [R(), C([1.0] * 5), S(), "L 1", *blocks(60), "Z"]
    yield "many blocks of L = 129 at 44,100", [R(44100.0), C([1.0] * 128 + [2.0], rate=44100.0), S(), "L 1", *blocks(60, output=44100.0), "Z"]
    yield "jumping clock", [R(), C(ramp(140)), S(), "L 1", B(0.0), B(5.0), B(UP(5.0)), "Z"]
    for name, change in (("rate", B(D, 0.5)), ("factor", B(D, 1.0, 2.0))):
        yield f"aligned ends by another {name}", [R(), C(ramp(300)), S(), B(), change, "Z", B(2 * D), "Z"]
    yield "rate 2 times factor 1/2 is aligned", [R(), C(ramp(3)), S(), B(0.0, 2.0, 0.5), "Z"]
    yield "rate 2^-64 times factor 2^64 is aligned", [R(), C(ramp(3)), S(), B(0.0, 2.0**-64, TWO_64), "Z"]
    yield "product one ulp above 1 is not aligned", [R(), C(ramp(3)), S(), B(0.0, 1.0, UP(1.0)), "Z"]
    yield "clip rate one step away is not aligned", [R(), C(ramp(3), rate=48000.00390625), S(), B(), "Z"]
    yield "moved loop start", [R(), C(ramp(4)), S(), "L 1", P(DT), B(), "Z"]
    yield "moved loop end", [R(), C(ramp(4)), S(), "L 1", E(3 / RATE), B(), "Z"]
    yield "moved loop points, loop off", [R(), C(ramp(4)), S(), P(DT), B(), "Z"]
    yield "loop start 0 put back", [R(), C(ramp(200)), S(), P(DT), P(0.0), B(), "Z"]
    yield "offset other than 0 is not aligned", [R(), C(ramp(4)), S(0.0, DT), B(), "Z"]
    yield "duration inside the block", [R(), C(ramp(200)), S(0.0, 0.0, 100 / RATE), B(), "Z", B(D), "Z"]
    yield "duration of exactly a block", [R(), C(ramp(200)), S(0.0, 0.0, D), B(), "Z", B(D), "Z"]
    yield "duration one ulp under a block", [R(), C(ramp(200)), S(0.0, 0.0, DOWN(D)), B(), "Z"]
    yield "duration is held against the position", [R(), C(ramp(128)), S(0.0, 0.0, 2.5 * D), "L 1", *(u for b in blocks(4) for u in (b, "Z"))]
    yield "stop inside the block", [R(), C(ramp(200)), S(), T(50 * DT), B(), "Z", B(D), "Z"]
    yield "stop between two samples", [R(), C(ramp(200)), S(), T(50.5 * DT), B(), "Z"]
    yield "stop at the block's end", [R(), C(ramp(200)), S(), T(D), B(), "Z", B(D), "Z"]
    yield "stop one ulp after the block's end", [R(), C(ramp(200)), S(), T(UP(D)), B(), "Z", B(D), "Z"]
    yield "stop while looping", [R(), C(ramp(3)), S(), "L 1", T(D + 5 * DT), *blocks(3), "Z"]
    yield "stop in the past", [R(), C(ramp(200)), S(), B(), T(0.0), B(D), "Z"]
    yield "overlapping blocks, negative position, L = 128", overlap(128, [B(0.0, -1.0)], 2)
    yield "panic: overlapping blocks, negative position, L = 127, loop", overlap(127, [B(0.0, -1.0)], 1)
    yield "panic: overlapping blocks, negative position, L = 127, loop off", overlap(127, [B(0.0, -1.0), "L 0"], 1)
    yield "panic: overlapping blocks, 2^64 frames, loop off", overlap(3, [B(0.0, 3e38), "L 0"], 1)
    yield "overlapping blocks, 2^64 frames, loop", overlap(3, [B(0.0, 3e38)], 1)
    yield "overlapping blocks, past the clip, loop off", overlap(3, [B(0.0, 1e6), "L 0"], 1)
    yield "overlapping blocks, rate 0", overlap(200, [B(0.0, 0.0)], 3)


def overlap(frames, before, count):
    """Starts on the last sample of block 0; the next block is at the start time, so it is aligned."""
    start = 127 * DT
    after = [B(start + n * D) for n in range(count)]
    return [R(), C(ramp(frames)), S(start), "L 1", *before, "Z", *after, "Z"]


def sub_sample():
    for rate in (0.5, 2.0, -1.0, 0.0, -0.0, 0.3, 1e-30, 1e-45, 1e38, -1e38, 128.0, 1.00000011920929):
        for loop in (0, 1):
            yield f"rate {rate}, loop {loop}", [R(), C(ramp(5)), S(0.0, 2 / RATE), f"L {loop}", B(0.0, rate), B(D, rate), "Z"]
    for factor in (TWO_64, 1 / TWO_64, 2 ** (1 / 12), UP(1.0)):
        yield f"factor {x64(factor)}", [R(), C(ramp(40)), S(), "L 1", B(0.0, 1.0, factor), B(D, -1.0, factor), "Z"]
    for clip_rate in (24000.0, 44100.0, 96000.0, 3000.0, 768000.0):
        for loop in (0, 1):
            yield f"clip at {clip_rate:.0f}, loop {loop}", [R(), C(ramp(20), rate=clip_rate), S(), f"L {loop}", B(), "Z"]
    yield "two channels, rate 0.3", [R(), C(ramp(4), [9.0, 7.0, 5.0, 3.0]), S(), "L 1", B(0.0, 0.3), "Z"]
    # the start
    yield "start on a sample", [R(), C(ramp(6)), S(5 * DT), B(), "Z"]
    yield "start between two samples", [R(), C(ramp(6)), S(5.25 * DT), B(), "Z"]
    yield "start between two samples, rate -1", [R(), C(ramp(6)), S(5.25 * DT, 4 / RATE), B(0.0, -1.0), "Z"]
    yield "start between two samples, offset below 0", [R(), C(ramp(6)), S(5.25 * DT), B(0.0, -1.0), "Z"]
    yield "start near a sample, above", [R(), C(ramp(6)), S(100 * DT * (1 + 2.0**-27)), B(), "Z"]
    yield "start near a sample, below", [R(), C(ramp(6)), S(100 * DT * (1 - 2.0**-27)), B(), "Z"]
    yield "start not near a sample", [R(), C(ramp(6)), S(100 * DT * (1 + 2.0**-25)), B(), "Z"]
    yield "start at sample 127", [R(), C(ramp(6)), S(127 * DT), B(), B(D), "Z"]
    yield "start between samples, elapsed", [R(), C(ramp(6)), S(5.5 * DT, 0.0, 2 / RATE), B(0.0, 2.0), "Z"]
    yield "near start at a late time", [R(), C(ramp(6)), S(2.0**20 + 100 * DT), B(2.0**20), "Z"]
    yield "offset past the end, once", [R(), C(ramp(6)), S(0.0, 1.0), B(), "Z"]
    yield "offset past the end, loop", [R(), C(ramp(6)), S(0.0, 1.0), "L 1", B(), "Z"]
    yield "offset past the end, rate -1", [R(), C(ramp(6)), S(0.0, 1.0), B(0.0, -1.0), "Z"]
    yield "offset -0, rate -1", [R(), C(ramp(6)), S(0.0, -0.0), "L 1", B(0.0, -1.0), "Z"]
    yield "offset f64::MAX", [R(), C(ramp(6)), S(0.0, MAX), "L 1", B(), "Z"]
    # the loop
    inner = [P(2 / RATE), E(5 / RATE)]
    yield "loop inside, entered from before", [R(), C(ramp(8)), S(), "L 1", *inner, B(), "Z"]
    yield "loop inside, entered from before, rate 0.7", [R(), C(ramp(8)), S(), "L 1", *inner, B(0.0, 0.7), "Z"]
    yield "loop inside, offset past its end", [R(), C(ramp(8)), S(0.0, 7 / RATE), "L 1", *inner, B(), "Z"]
    yield "loop inside, offset past its end, rate -1", [R(), C(ramp(8)), S(0.0, 7 / RATE), "L 1", *inner, B(0.0, -1.0), "Z"]
    yield "loop inside, offset before it, rate -1", [R(), C(ramp(8)), S(0.0, 1 / RATE), "L 1", *inner, B(0.0, -1.0), "Z"]
    yield "loop inside, offset at its end", [R(), C(ramp(8)), S(0.0, 5 / RATE), "L 1", *inner, B(), "Z"]
    yield "loop inside, offset at its end, rate -0.5", [R(), C(ramp(8)), S(0.0, 5 / RATE), "L 1", *inner, B(0.0, -0.5), "Z"]
    yield "loop inside, rate 1000", [R(), C(ramp(8)), S(), "L 1", *inner, B(0.0, 1000.0), "Z"]
    yield "loop inside, rate 0 before it", [R(), C(ramp(8)), S(), "L 1", *inner, B(0.0, 0.0), "Z", B(D, 1.0), "Z"]
    yield "loop moved while playing", [R(), C(ramp(200)), S(), "L 1", B(), P(2 / RATE), E(5 / RATE), B(D), "Z", P(0.0), E(0.0), B(2 * D), "Z"]
    yield "loop inverted", [R(), C(ramp(8)), S(), "L 1", P(5 / RATE), E(2 / RATE), B(), "Z"]
    yield "loop empty", [R(), C(ramp(8)), S(), "L 1", P(5 / RATE), E(5 / RATE), B(), "Z"]
    yield "loop start at the end", [R(), C(ramp(8)), S(), "L 1", P(1.0), B(), "Z"]
    yield "loop shorter than a sample", [R(), C(ramp(8)), S(0.0, 2 / RATE), "L 1", P(2 / RATE), E(2.3 / RATE), B(), "Z"]
    yield "loop between frames", [R(), C(ramp(8)), S(), "L 1", P(1.5 / RATE), E(6.25 / RATE), B(), "Z"]
    yield "near the loop end", [R(), C(ramp(300)), S(0.0, 296 / RATE * (1 - 2.0**-27)), "L 1", P(290 / RATE), E(296 / RATE), B(), "Z"]
    yield "not near the loop end", [R(), C(ramp(300)), S(0.0, 296 / RATE * (1 - 2.0**-25)), "L 1", P(290 / RATE), E(296 / RATE), B(), "Z"]
    yield "near the loop start", [R(), C(ramp(300)), S(0.0, 296 / RATE * (1 - 2.0**-27)), "L 1", P(296 / RATE), E(299 / RATE), B(), "Z"]
    near = 200 / RATE
    yield "near both loop points", [R(), C(ramp(300)), S(0.0, near), "L 1", P(near), E(near * (1 + 2.0**-27)), B(), "Z"]
    yield "entered is kept by aligned blocks", [R(), C(ramp(8)), S(), "L 1", B(0.0, 0.5), "Z", "L 0", B(D), "Z"]
    yield "entered is cleared by a sub-sample block, loop off", [R(), C(ramp(300)), S(), "L 1", B(0.0, 0.5),
                                                                 "L 0", B(D, 0.5), "Z", "L 1", P(200 / RATE), B(2 * D, 0.5), "Z"]
    yield "remainder equal to its divisor", [R(), C(ramp(8)), S(), "L 1", B(0.0, -1.0), "Z"]
    yield "remainder at 44,100", [R(44100.0), C(ramp(7), rate=44100.0), S(), "L 1", B(0.0, -1.0), "Z"]
    # duration and stop
    yield "duration 0", [R(), C(ramp(8)), S(0.0, 0.0, 0.0), B(), "Z"]
    yield "duration 3 frames", [R(), C(ramp(8)), S(0.0, 0.0, 3 / RATE), B(), "Z"]
    yield "duration 3.5 frames at rate 2", [R(), C(ramp(20)), S(0.0, 0.0, 3.5 / RATE), B(0.0, 2.0), "Z"]
    yield "duration at rate -1", [R(), C(ramp(8)), S(0.0, 7 / RATE, 3 / RATE), B(0.0, -1.0), "Z"]
    yield "duration longer than the clip, loop", [R(), C(ramp(8)), S(0.0, 0.0, 200 / RATE), "L 1", *blocks(3, 0.9), "Z"]
    yield "duration near the elapsed time", [R(), C(ramp(8)), S(0.0, 0.0, 5 / RATE * (1 + 2.0**-27)), B(), "Z"]
    yield "stop inside, rate 0.5", [R(), C(ramp(100)), S(), T(40 * DT), B(0.0, 0.5), "Z"]
    yield "stop before the start, same block", [R(), C(ramp(8)), S(50 * DT), T(20 * DT), B(), "Z"]
    yield "ends forwards at rate 3", [R(), C(ramp(8)), S(), B(0.0, 3.0), "Z", B(D, 3.0), "Z"]
    yield "ends backwards", [R(), C(ramp(8)), S(0.0, 7 / RATE), B(0.0, -1.0), "Z", B(D, -1.0)]
    yield "backwards, not yet below 0", [R(), C(ramp(30)), S(0.0, 20 / RATE), B(0.0, -0.125), "Z", B(D, -0.125), "Z"]
    yield "rate 0 does not end", [R(), C(ramp(8)), S(), B(0.0, 0.0), B(D, 0.0), "Z"]
    yield "past the end at rate 0, once", [R(), C(ramp(8)), S(0.0, 1.0), B(0.0, 0.0), "Z"]
    yield "past the end and back", [R(), C(ramp(8)), S(0.0, 1.0), B(0.0, 0.0), B(D, -1.0), "Z"]
    # the sample after the last
    yield "after the last: extrapolated", [R(), C([1.0, 4.0]), S(), B(0.0, 0.25), "Z"]
    yield "after the last: one frame", [R(), C([8.0]), S(), B(0.0, 0.25), "Z"]
    yield "after the last: k near 1", [R(44100.0), C(ramp(7), rate=44100.0), S(0.0, DOWN(7 / 44100.0)), B(0.0, 0.5), "Z"]
    yield "after the last: loop, whole start", [R(), C([1.0, 5.0, 9.0]), S(), "L 1", P(1 / RATE), B(0.0, 0.25), "Z"]
    yield "after the last: loop, start between frames", [R(), C([1.0, 5.0, 9.0]), S(), "L 1", P(0.5 / RATE), B(0.0, 0.25), "Z"]
    yield "after the last: loop backwards", [R(), C([1.0, 5.0, 9.0, 2.0]), S(0.0, 3 / RATE), "L 1", P(1 / RATE), B(0.0, -0.25), "Z"]
    yield "after the last: loop backwards, end inside", [R(), C([1.0, 5.0, 9.0, 2.0]), S(0.0, 1.0), "L 1", E(1.5 / RATE), B(0.0, -0.25), "Z"]
    yield "after the last: the output's rate, clamped", [R(), C([1.0, 3.0], rate=24000.0), S(), "L 1", P(1 / 24000.0), B(), "Z"]
    yield "after the last: the output's rate, lower", [R(), C(ramp(9), rate=96000.0), S(), "L 1", P(4 / 96000.0), B(0.0, 0.1), "Z"]
    yield "frame number past the clip", [R(), C(ramp(5)), S(0.0, DOWN(5 / RATE)), B(0.0, 0.0), "Z"]
    # the values
    odd = [0.1, -0.1, 0.7, -0.7, 0.3, -0.3]
    yield "the fused step", [R(), C(odd), S(), "L 1", B(0.0, 0.5), B(D, 0.5), "Z"]
    yield "the fused step at 44,100", [R(44100.0), C(odd, rate=44100.0), S(), "L 1", B(0.0, 0.5), B(1 / 44100.0 * 128, 0.5), "Z"]
    yield "narrowing", [R(), C(["3F800000", "3F800001", "3F800002", "00000001", "00000002", "7F7FFFFF", "7F7FFFFE", "80000001"]), S(), "L 1", B(0.0, 0.25)]
    yield "an infinite neighbour", [R(), C([1.0, "7F800000", 1.0, "FF800000"]), S(), "L 1", B(0.0, 0.5), B(D, 1.0), "Z"]
    yield "calculated NaNs", [R(), C(["7F800001", 1.0, "FFC12345", "7F800000", "FF800000"]), S(), "L 1", B(0.0, 0.5)]
    yield "minus zero", [R(), C(["80000000", "80000000", 0.0, "80000000"]), S(), "L 1", B(0.0, 0.5), B(D, -0.5)]
    yield "extrapolation overflows to infinity", [R(), C(["FF7FFFFF", "7F7FFFFF"]), S(), B(0.0, 0.25)]
    # near zero
    yield "near zero sticks", [R(), C(ramp(8)), S(), B(0.0, 0.0007), "Z", B(D, 0.0007), "Z"]
    yield "not near zero", [R(), C(ramp(8)), S(), B(0.0, 0.0008), "Z"]
    yield "near zero sticks, 768,000", [R(768000.0), C(ramp(8), rate=768000.0), S(), B(0.0, 0.011), "Z", B(1 / 768000.0 * 128, 0.012), "Z"]
    yield "below 0, not near", [R(), C(ramp(8)), S(0.0, 1 / RATE), B(0.0, -0.75), "Z"]


def block_rows():
    top = 2.0**30
    yield "block 8: output lengths", [R(), *(B(0.0, 1.0, 1.0, n) for n in (0, 128, 4095, 4097)), B(0.0, 1.0, 1.0, 4096), "Z"]
    yield "block 1: sample lengths", [R(), B(0.0, 1.0, 1.0, 4096, 1), B(0.0, 1.0, 1.0, 4096, 0), C(ramp(3), ramp(3)), S(),
                                      *(B(D, 1.0, 1.0, 4096, n) for n in (0, 3, 5, 7, 6)), "Z"]
    yield "block 13: times", [R(), f"B {NAN} 3F800000 {x64(1.0)}", f"B {INF} 3F800000 {x64(1.0)}", B(-5e-324), B(UP(top)), "Z", B(-0.0), "Z",
                              B(0.0), B(5e-324), B(5e-324), B(top), B(top), "Z"]
    yield "block 14: rates and factors", [R(), *(f"B {x64(0.0)} {bits} {x64(1.0)}" for bits in ("7F800000", "FF800000", "7FC00000")),
                                          f"B {x64(0.0)} 3F800000 {NAN}", f"B {x64(0.0)} 3F800000 {INF}", B(0.0, 1.0, 0.0), B(0.0, 1.0, -1.0),
                                          B(0.0, 1.0, UP(TWO_64)), B(0.0, 1.0, DOWN(1 / TWO_64)), B(0.0, 1.0, TWO_64), B(D, 1.0, 1 / TWO_64), "Z"]
    bad = f"B {NAN} 7F800000 {NAN}"
    yield "block: 8, 13, 14, 1 in this order", [R(), C([1.0]), S(), bad + " 7 9", bad + " 4096 9", f"B {x64(0.0)} 7F800000 {NAN} 4096 9",
                                                B(0.0, 1.0, 1.0, 4096, 9), B(0.0, 1.0, 1.0, 4096, 1), "Z"]
    yield "a refused block leaves the last time", [R(), B(1.0), B(2.0, 1.0, 0.0), B(1.5), "Z"]


def buffers():
    four = [*ramp(4), *ramp(4, 11.0)]
    for offset, size in ((0, 4), (3, 3), (4, 3), (9, 3), (1, 2), (0, 0), (10**19 - 1, 2), (2**32, 1)):
        yield f"copy out at {offset}, {size}", [R(), words(f"KF 2 4 1 {offset} {size}", *four)]
        yield f"copy in at {offset}, {size}", [R(), words(f"KT 2 4 1 {offset} {size}", *four, *ramp(size, 21.0))]
    yield "copies refused", [R(), "KF 0 4 0 0 1", "KF 33 4 0 0 1", "KF 1 16777217 0 0 1", words("KF 2 4 2 0 1", *four), words("KT 2 4 2 0 1", *four, 1.0),
                             "KT 0 0 0 0 0", "KF 1 0 1 0 0"]
    yield "copies of an empty buffer", [R(), "KF 1 0 0 0 3", words("KT 1 0 0 0 2", 1.0, 2.0), "KF 1 0 0 0 0"]
    yield "copies keep bits", [R(), words("KF 1 3 0 0 3", "7F800001", "FFFFFFFF", "80000000"), words("KT 1 2 0 1 1", "7F800001", "DEADBEEF", "FFBFFFFF")]
    r, other = x32(RATE), x32(44100.0)
    yield "extend", [R(), words(f"J 2 2 {r} 2 1 {r}", 1.0, 2.0, 11.0, 12.0, 3.0, 13.0), f"J 1 0 {r} 1 0 {r}", words(f"J 1 0 {r} 1 1 {r}", "7F800001"),
                     words(f"J 1 1 {r} 1 0 {r}", 5.0)]
    yield "extend refused", [R(), f"J 0 0 {r} 1 0 {r}", f"J 1 0 {r} 33 0 {r}", f"J 1 0 00000000 1 0 {r}", f"J 1 0 {r} 1 0 7FC00000", f"J 1 0 {r} 1 0 {other}",
                             f"J 1 0 {r} 2 0 {r}", f"J 2 0 {r} 1 0 00000000"]
    yield "split", [R(), *(words(f"V 2 3 {r} {s}", *ramp(3), *ramp(3, 11.0)) for s in (0, 1, 3)), f"V 1 0 {r} 0"]
    yield "split refused", [R(), "V 1 0 00000000 9", f"V 1 0 {r} 1", words(f"V 1 2 {r} 3", 1.0, 2.0), f"V 0 2 {r} 0"]
    yield "convert 24,000 to 48,000", [R(), words(f"Q 1 2 {x32(24000.0)} {r}", 0.0, 3.0)]
    yield "convert relabels within 0.1", [R(), words(f"Q 1 2 {r} {x32(48000.09375)}", "7F800001", 3.0), words(f"Q 1 2 {r} {x32(47999.90625)}", 1.0, 2.0)]
    yield "convert beyond 0.1", [R(), words(f"Q 1 2 {r} {x32(48000.1015625)}", 1.0, 3.0)]
    yield "convert an empty buffer", [R(), f"Q 2 0 {r} {other}"]
    yield "convert to one frame", [R(), words(f"Q 1 1 {r} {other}", 1.0), words(f"Q 1 2 {r} {x32(24000.0)}", 1.0, 2.0)]
    yield "convert one frame up", [R(), words(f"Q 1 1 {x32(24000.0)} {r}", 7.0)]
    yield "convert rates refused", [R(), f"Q 1 0 00000000 {r}", f"Q 1 0 {r} 00000000", f"Q 1 0 {r} 7FC00000", f"Q 33 0 {r} {r}"]
    yield "convert 147 frames gives 161", [R(), words(f"Q 1 147 {other} {r}", *ramp(147))]
    yield "convert 21 frames of 7,000 to 9,000 gives 28", [R(), words(f"Q 1 21 {x32(7000.0)} {x32(9000.0)}", *ramp(21))]
    yield "convert down, two channels", [R(), words(f"Q 2 5 {r} {x32(32000.0)}", *ramp(5), 0.1, 0.7, 0.3, 0.9, 0.2)]
    yield "convert special values", [R(), words(f"Q 1 5 {x32(32000.0)} {r}", "7F800001", "7F800000", "FF800000", "80000000", "7F7FFFFF")]
    yield "convert 48,000 to 44,100", [R(), words(f"Q 1 20 {r} {other}", *(0.1 * (-1) ** i * i for i in range(20)))]


def text():
    yield "unknown lines", [R(), "", "y", "Z Z", " Z", "Z ", "L 2", "L", "l 1", "S", S() + " 0000000000000000", "T 0", "B", "B 0 0 0", "E 3ff0000000000000",
                            "L  1", "R", "R 473b8000", "R 473B80000", B() + " 4096 0 0", B() + " 65537", B() + " x", B() + " 4096 536870913", "W 00000000",
                            "KF 1 1 0 0", "KF 1 1 0 0 16777217", "KF 1 1 0 0 10000000000000000000", "V 1 1 473B8000 -1", "C 1 +1 473B8000", "#echo", "#", "Z"]
    yield "words given up", [R(), "C 1 3 473B8000", "W 3F800000 40000000", "Z", "C 1 2 473B8000", "W 3F800000 40000000 40400000", "C 1 1 473B8000",
                             "W", "C 1 1 473B8000", "W 3F80000g", "C 1 1 473B8000", "# text", "C 01 002 473B8000", "W 3F800000", "W 40000000", "Z"]
    yield "words given up by a fresh player", [R(), "C 1 2 473B8000", "W 3F800000", R(44100.0), "Z"]


def named():
    for part in (limits, messages, order_of_steps, aligned, sub_sample, block_rows, buffers, text):
        yield from part()


def in_cents():
    clip = [C(ramp(300)), S()]
    yield "cents 0 stays aligned", [R(), *clip, "L 1", *(u for n in range(4) for u in (cents(n * D), "Z"))]
    yield "cents 0 beside factor 1", [R(), *clip, B(), cents(D), "Z", B(2 * D), "Z"]
    yield "cents 0 at rate 0.5", [R(), *clip, cents(0.0, 0.5), "Z", B(D, 0.5, 1.0), "Z"]
    yield "cents end aligned blocks", [R(), *clip, cents(), cents(D, 1.0, 1), "Z", cents(2 * D), "Z"]
    for c in (1, -1, 700, -700, 1199, -1199, 1200, -1200, 1201, -1201, 2400, -2400, 11999, -11999, 12000, -12000):
        yield f"cents {c}", [R(), C(ramp(40)), S(), "L 1", cents(0.0, 1.0, c), "Z", cents(D, -0.25, c), "Z"]
    every = [(n, n + 1200 * (7 * n % 20 - 10)) for n in range(1200)]
    yield "cents: every entry, every octave", [R(), C([1.0] * 16), S(0.0, 0.5 / RATE), *(cents(n * D, 2.0**-20, c) for n, c in every), "Z"]
    yield "cents -1200 is factor 1/2", [R(), *clip, cents(0.0, 1.0, -1200), "Z", B(D, 1.0, 0.5), "Z"]
    yield "cents 2400 is factor 4", [R(), *clip, cents(0.0, 0.5, 2400), "Z", B(D, 0.5, 4.0), "Z"]
    for e in (1, -1, 10, -10):
        yield f"cents {1200 * e} undone by the rate is aligned", [R(), *clip, cents(0.0, 2.0**-e, 1200 * e), "Z"]
    yield "cents 1 with the rate of cents -1 is not aligned", [R(), *clip, cents(0.0, 2 ** (-1 / 1200), 1), "Z"]
    bad = (12001, -12001, 13200, -13200, 24000, -24000, 2**31 - 1, -(2**31))
    yield "cents 16: outside -12,000 to 12,000", [R(), *clip, *(cents(0.0, 1.0, c) for c in bad), "Z", cents(0.0, 1.0, 12000), cents(D, 1.0, -12000), "Z"]
    yield "cents 8: output lengths", [R(), *(cents(0.0, 1.0, 0, n) for n in (0, 128, 4095, 4097)), cents(0.0, 1.0, 0, 4096), "Z"]
    yield "cents 1: sample lengths", [R(), cents(0.0, 1.0, 0, 4096, 1), cents(0.0, 1.0, 0, 4096, 0), C(ramp(3), ramp(3)), S(),
                                      *(cents(D, 1.0, 1, 4096, n) for n in (0, 3, 5, 7, 6)), "Z"]
    top = 2.0**30
    yield "cents 13: times", [R(), f"D {NAN} 3F800000 00000000", f"D {INF} 3F800000 00000000", cents(-5e-324), cents(UP(top)), "Z", cents(-0.0), "Z",
                              cents(0.0), B(0.0), cents(5e-324), B(5e-324), cents(top), cents(top), "Z"]
    yield "cents 14: rates", [R(), *(f"D {x64(0.0)} {bits} 00000000" for bits in ("7F800000", "FF800000", "7FC00000")), "Z"]
    wrong = f"D {NAN} 7F800000 {xi32(12001)}"
    yield "cents: 8, 13, 16, 14, 1 in this order", [R(), C([1.0]), S(), wrong + " 7 9", wrong + " 4096 9", f"D {x64(0.0)} 7F800000 {xi32(12001)} 4096 9",
                                                   f"D {x64(0.0)} 7F800000 {xi32(12000)} 4096 9",
                                                   cents(0.0, 1.0, 12000, 4096, 9), cents(0.0, 1.0, 12000, 4096, 1), "Z"]
    yield "cents: 8 before each", [R(), C([1.0]), S(), f"D {NAN} 3F800000 00000000 7", cents(0.0, 1.0, 12001, 7), f"D {x64(0.0)} 7F800000 00000000 7",
                                   cents(0.0, 1.0, 0, 7, 9), "Z"]
    yield "cents: 13 before each", [R(), C([1.0]), S(), cents(-1.0, 1.0, 12001), f"D {NAN} 7F800000 00000000", cents(-1.0, 1.0, 0, 4096, 9), "Z"]
    yield "cents: 16 before 14, 16 before 1", [R(), C([1.0]), S(), f"D {x64(0.0)} 7F800000 {xi32(-12001)}", cents(0.0, 1.0, -12001, 4096, 9), "Z"]
    yield "cents: a refused block changes nothing", [R(), *clip, "L 1", B(0.0, 0.7), "Z", cents(D, 1.0, 12001), "Z", cents(D, 1.0, 1, 128), "Z",
                                                    cents(0.0, 1.0, 1), "Z", f"D {x64(D)} 7FC00000 00000001", "Z",
                                                    cents(D, 1.0, 1, 4096, 9), "Z", cents(D, 1.0, 1), "Z"]
    yield "cents: a refused block leaves the last time", [R(), cents(1.0), cents(2.0, 1.0, 12001), cents(1.5), "Z"]
    yield "cents without a player", [R(), "# then", "R 00000000", cents(), cents(0.0, 1.0, 12001)]
    yield "cents: no clip, no start, ended", [R(), cents(), "Z", S(MAX), cents(D, 1.0, -1), "Z",
                                              C([1.0]), T(0.0), cents(1.0, 1.0, 5), "Z", cents(2.0, 1.0, 7), "Z"]
    yield "cents: backwards, two channels", [R(), C(ramp(9), ramp(9, 100.0)), S(0.0, 8 / RATE), "L 1", cents(0.0, -1.0, -1), "Z", cents(D, -1.0, 1199), "Z"]
    yield "cents: 44,100 to 48,000", [R(), C(ramp(200), rate=44100.0), S(), cents(0.0, 1.0, -147), "Z", cents(D, 1.0, -147), "Z"]
    yield "cents: stop and duration", [R(), C(ramp(300)), S(0.0, 0.0, 100 / RATE), T(90 * DT), cents(0.0, 1.0, 350), "Z"]
    yield "unknown lines in cents", [R(), "D", "D 0 0 0", "d" + cents()[1:], cents() + " 4096 0 0", cents() + " 65537",
                                     cents() + " x", cents() + " 4096 536870913",
                                     cents()[:-1], cents() + "0", cents() + " ", " " + cents(),
                                     f"D {x64(0.0)} 3F800000 {x64(1.0)}", f"D {x64(0.0)} 3F800000 fffffff0",
                                     f"D {x64(0.0)} 3F800000 -0000001", f"D {x64(0.0)} {x64(1.0)} 00000000", f"D  {x64(0.0)} 3F800000 00000000", "Z"]
    yield "words given up by a block in cents", [R(), "C 1 2 473B8000", "W 3F800000", cents(), "Z"]


def previews():
    for part in (previews_and_blocks, previews_alone, previews_refused):
        yield from part()


def previews_and_blocks():
    """Of the same arguments: the same answer."""
    clip = [C(ramp(300)), S()]
    for loop in (0, 1):
        yield f"preview, then the block, aligned, loop {loop}", [R(), *clip, f"L {loop}", *looked(*blocks(4))]
        yield f"preview, then the block, rate 0.7, loop {loop}", [R(), *clip, f"L {loop}", *looked(*blocks(3, 0.7))]
        yield f"preview, then the block, rate -1, loop {loop}", [R(), C(ramp(200)), S(0.0, 150 / RATE), f"L {loop}", *looked(*blocks(3, -1.0))]
    yield "preview, then the block, factor 1.25, two channels", [R(), C(ramp(50), ramp(50, 100.0)), S(), "L 1", *looked(*blocks(2, 1.0, 1.25))]
    for c in (0, 1, -1, 700, 1200, 12000, -12000):
        yield f"preview, then the block, cents {c}", [R(), *clip, "L 1", *looked(cents(0.0, 1.0, c), cents(D, 1.0, c))]
    yield "preview, then the block, 32 channels", [R(), C(*[[float(c), c + 0.5] for c in range(32)]), S(), *looked(B())]
    yield "preview, then the block, 44,100 to 48,000", [R(), C(ramp(200), rate=44100.0), S(), *looked(*blocks(2))]
    yield "preview keeps the bits of copied frames", [R(), C(["7FC00001", "FFC12345", "7F800001", "FFBFFFFF", "80000000", "00000001"]), S(), "L 1",
                                                      *looked(B())]
    yield "preview of calculated NaNs", [R(), C(["7F800001", 1.0, "FFC12345", "7F800000", "FF800000"]), S(), "L 1", *looked(B(0.0, 0.5))]
    yield "previews between a looped clip's blocks", [R(), C(ramp(100)), S(), "L 1", M(), B(), M(D, 0.5), M(D), B(D), "Z", M(2 * D, -1.0), N(2 * D, 1.0, -1200),
                                                      B(2 * D), "Z", N(3 * D), M(9.0), B(3 * D), "Z"]
    yield "previews of a looped part, in a row", [R(), C(ramp(8)), S(), "L 1", P(2 / RATE), E(5 / RATE), M(), M(0.0, 0.7), M(0.0, -1.0), M(), "Z", B(0.0, 0.7),
                                                  "Z", M(D, 0.7), M(D, 0.7), N(D, 0.7, 0), "Z", B(D, 0.7), "Z"]


def previews_alone():
    """What a block would leave, a preview does not: the player's record stays."""
    clip = [C(ramp(300)), S()]
    yield "preview before a clip and a start: silent", [R(), M(), N(), "Z", C(ramp(3)), M(), N(0.0, 1.0, 5), "Z", S(), *looked(B())]
    yield "preview before a start, clip there", [R(), C(ramp(3), ramp(3)), M(), M(1.0), "Z", S(D), M(), "Z", M(D), "Z", *looked(B(), B(D))]
    yield "preview would end: start without a clip", [R(), S(), M(), "Z", C(ramp(3)), M(), "Z", B(), "Z"]
    yield "preview would end: the clip's end", [R(), C(ramp(100)), S(), M(), "Z", M(), "L 1", "Z", B(), "Z", B(D), "Z"]
    yield "preview would end: a stop", [R(), *clip, T(50 * DT), M(), "Z", T(1.0), B(), "Z", T(0.0), M(D), "Z", T(2.0), B(D), "Z"]
    yield "preview would end: a stop before the start", [R(), C(ramp(3)), S(1.0), T(D), M(), "Z", T(2.0), B(), "Z", B(1.0), "Z"]
    yield "preview would end: the duration", [R(), C(ramp(300)), S(0.0, 0.0, 100 / RATE), M(0.0, 0.5), M(0.0, 2.0), "Z", *looked(B(0.0, 0.25), B(D, 0.25))]
    yield "preview after the end", [R(), C(ramp(3)), S(), B(), "Z", M(D), M(0.0), "L 1", M(1.0), N(1.0, 1.0, 100), "Z", B(1.0), "Z", M(1.0), M(2.0), "Z"]
    yield "preview would start: in the past", [R(), C(ramp(300)), S(0.5), M(2.0), "Z", M(1.0), "Z", *looked(B(0.5)), "Z"]
    yield "preview would start: between two samples", [R(), C(ramp(6)), S(5.25 * DT), M(), "Z", M(DT), "Z", *looked(B())]
    yield "preview would start: after sample 127", [R(), C(ramp(3)), S(127.5 * DT), *looked(B(), B(D))]
    yield "preview would clamp the offset", [R(), C(ramp(6)), S(0.0, 1.0), "L 1", P(2 / RATE), E(4 / RATE), M(0.0, -1.0), "Z", M(), "Z", *looked(B(0.0, 0.5))]
    yield "preview would enter the loop", [R(), C(ramp(200)), S(), "L 1", P(2 / RATE), E(5 / RATE), M(), "Z", P(100 / RATE), E(110 / RATE),
                                           *looked(B(0.0, 0.5))]
    yield "preview would leave the loop", [R(), C(ramp(8)), S(), "L 1", B(0.0, 0.5), "Z", "L 0", M(D, 0.5), "Z", "L 1", *looked(B(D, 0.5))]
    yield "preview of another speed leaves blocks aligned", [R(), *clip, B(), M(D, 0.5), N(D, 1.0, 1), "Z", B(D), "Z"]
    yield "preview of another speed leaves blocks as they are", [R(), *clip, B(0.0, 0.5), M(D), "Z", B(D, 0.5), "Z"]
    yield "preview's time is not the last block's", [R(), *clip, "L 1", M(5.0), M(1.0), M(1.0), "Z", B(), "Z", M(5.0), N(4.0), B(D), "Z", M(2 * D), B(2 * D),
                                                     "Z"]
    start = 127 * DT
    yield "preview of overlapping blocks, negative position, L = 128", [R(), C(ramp(128)), S(start), "L 1", B(0.0, -1.0), *looked(B(start), B(start + D))]
    yield "panic: preview of overlapping blocks, negative position, L = 127", [R(), C(ramp(127)), S(start), "L 1", B(0.0, -1.0), "Z", M(start)]


def previews_refused():
    """Refusals are the block's own, and leave the player too."""
    clip, top = [C(ramp(300)), S()], 2.0**30
    yield "preview 8: output lengths", [R(), *(M(0.0, 1.0, 1.0, n) for n in (0, 128, 4095, 4097, 65536)), M(0.0, 1.0, 1.0, 4096),
                                        *(N(0.0, 1.0, 0, n) for n in (0, 4097)), "Z"]
    yield "preview 1: sample lengths", [R(), M(0.0, 1.0, 1.0, 4096, 1), M(0.0, 1.0, 1.0, 4096, 0), C(ramp(3), ramp(3)), S(),
                                        *(M(D, 1.0, 1.0, 4096, n) for n in (0, 3, 5, 7, 6)), *(N(D, 1.0, 1, 4096, n) for n in (0, 7, 6)), "Z"]
    yield "preview 13: times", [R(), f"M {NAN} 3F800000 {x64(1.0)}", f"M {INF} 3F800000 {x64(1.0)}", M(-5e-324), M(UP(top)), f"N {NAN} 3F800000 00000000",
                                N(-1.0), "Z", M(-0.0), M(top), N(top), "Z", B(-0.0), M(0.0), M(5e-324), "Z"]
    yield "preview 13: at the last block's time", [R(), *clip, M(), B(), M(), N(), "Z", M(UP(0.0)), B(D), M(D), M(0.0), N(D, 1.0, 1), N(UP(D), 1.0, 1), "Z",
                                                   B(2 * D), "Z"]
    odd = [f"{x64(0.0)} {bits}" for bits in ("7F800000", "FF800000", "7FC00000")]
    yield "preview 14: rates and factors", [R(), *(u for rate in odd for u in (f"M {rate} {x64(1.0)}", f"N {rate} 00000000")),
                                            f"M {x64(0.0)} 3F800000 {NAN}", f"M {x64(0.0)} 3F800000 {INF}", M(0.0, 1.0, 0.0), M(0.0, 1.0, -1.0),
                                            M(0.0, 1.0, UP(TWO_64)), M(0.0, 1.0, DOWN(1 / TWO_64)), M(0.0, 1.0, TWO_64), M(0.0, 1.0, 1 / TWO_64), "Z"]
    bad = (12001, -12001, 13200, -13200, 2**31 - 1, -(2**31))
    yield "preview 16: outside -12,000 to 12,000", [R(), *(N(0.0, 1.0, c) for c in bad), *clip, *(N(0.0, 1.0, c) for c in bad), N(0.0, 1.0, 12000),
                                                    N(0.0, 1.0, -12000), "Z"]
    wrong = f"M {NAN} 7F800000 {NAN}"
    yield "preview: 8, 13, 14, 1 in this order", [R(), C([1.0]), S(), wrong + " 7 9", wrong + " 4096 9", f"M {x64(0.0)} 7F800000 {NAN} 4096 9",
                                                  M(0.0, 1.0, 1.0, 4096, 9), M(0.0, 1.0, 1.0, 4096, 1), "Z"]
    wrong = f"N {NAN} 7F800000 {xi32(12001)}"
    yield "preview: 8, 13, 16, 14, 1 in this order", [R(), C([1.0]), S(), wrong + " 7 9", wrong + " 4096 9", f"N {x64(0.0)} 7F800000 {xi32(12001)} 4096 9",
                                                      f"N {x64(0.0)} 7F800000 {xi32(12000)} 4096 9", N(0.0, 1.0, 12000, 4096, 9), N(0.0, 1.0, 12000, 4096, 1),
                                                      "Z"]
    yield "preview refused while playing", [R(), *clip, "L 1", B(0.0, 0.7), "Z", M(D, 1.0, 1.0, 128), M(0.0), M(D, 1.0, 0.0), N(D, 1.0, 12001),
                                            M(D, 1.0, 1.0, 4096, 9), "Z", *looked(B(D, 0.7))]
    yield "preview without a player", [R(), "# then", "R 00000000", M(), N(), N(0.0, 1.0, 12001)]
    yield "unknown lines of previews", [R(), "M", "N", "M 0 0 0", "m" + M()[1:], "n" + N()[1:], M() + " 4096 0 0", N() + " 65537", M() + " x",
                                        M() + " 4096 536870913", N()[:-1], N() + "0", M() + " ", " " + M(), f"M {x64(0.0)} 3F800000 00000000",
                                        f"N {x64(0.0)} 3F800000 {x64(1.0)}", f"M  {x64(0.0)} 3F800000 {x64(1.0)}", "MN", "Z"]
    yield "words given up by a preview", [R(), "C 1 2 473B8000", "W 3F800000", M(), "C 1 2 473B8000", "W 3F800000", N(), "Z"]


ODD = ("7F800001", "FFC12345", "7FFFFFFF", "7F800000", "FF800000", "80000000", "00000000", "80000001", "7F7FFFFF")


def Q(rate, other, *channels):
    """The conversion of channels from one rate to another."""
    return words(f"Q {len(channels)} {len(channels[0])} {x32(rate)} {x32(other)}", *(word for channel in channels for word in channel))


def conversions():
    for part in (converted_to_one, converted_past_the_last, converted_between):
        yield from part()


def converted_to_one():
    """A result of one frame is read at 0."""
    for n in (1, 2, 3, 16):
        yield f"convert {n} frames to one", [R(), Q(RATE, RATE / n if n > 1 else 44100.0, ramp(n, 5.0)), Q(RATE, 3000.0, ramp(n, -7.0))]
    yield "convert one unusual frame to one", [R(), *(Q(RATE, 24000.0, [word]) for word in ODD)]
    yield "convert two frames, unusual ones, to one", [R(), *(Q(RATE, 24000.0, [word, 1.0]) for word in ODD), *(Q(RATE, 24000.0, [1.0, word]) for word in ODD)]
    yield "convert to one frame, and one rate further to two", [R(), Q(RATE, 24000.0, ramp(2)), Q(RATE, 24000.001953125, ramp(2))]
    yield "convert one frame up", [R(), *(Q(24000.0, RATE, [word]) for word in (3.0, *ODD)), Q(44100.0, RATE, [7.0]), Q(3000.0, 768000.0, ["7F800001"])]
    yield "convert 2 and 32 channels to one frame", [R(), Q(RATE, 24000.0, ramp(2), [9.0, "7F800001"]),
                                                     Q(RATE, 16000.0, *(ramp(3, 10.0 * c) for c in range(32)))]
    yield "convert 768,000 to 3,000", [R(), *(Q(768000.0, 3000.0, ramp(n)) for n in (1, 2, 255, 256, 257, 258))]


def converted_past_the_last():
    """At N - 1 the weights apply; above it the last frame's bits are held."""
    yield "convert 0, 3, twice and back", [R(), Q(24000.0, RATE, [0.0, 3.0]), Q(RATE, 24000.0, [0.0, 1.5, 3.0, 3.0]), Q(24000.0, RATE, [0.0, 3.0], [3.0, -3.0])]
    yield "convert: unusual last frames, read at N - 1 and above", [R(), *(Q(24000.0, RATE, [1.0, word]) for word in ODD)]
    yield "convert: unusual last frames, read at N - 1 alone", [R(), *(Q(RATE, 24000.0, [1.0, 2.0, word]) for word in ODD)]
    yield "convert: unusual last frames, read above N - 1 alone", [R(), *(Q(RATE, 32000.0, [1.0, 2.0, 3.0, 4.0, word]) for word in ODD)]
    for name, rate in (("just above", 48000.00390625), ("just below", 47999.99609375)):
        yield f"convert: read {name} N - 1", [R(), *(Q(rate, 24000.0, [1.0, 2.0, word]) for word in (3.0, *ODD))]
    for name, rate in (("just above", 47999.99609375), ("just below", 48000.00390625)):
        yield f"convert: read {name} N - 1, up", [R(), *(Q(24000.0, rate, [1.0, word]) for word in (3.0, *ODD))]
    for rate, other, n in ((3000.0, 44100.0, 11), (3000.0, 22050.0, 21), (9000.0, 7000.0, 28), (9000.0, 7000.0, 55)):
        yield f"convert: the product first, {n} frames, {rate:.0f} to {other:.0f}", [R(),
                                                                                     *(Q(rate, other, [*ramp(n - 1), word]) for word in (100.0, "7F800001"))]
    yield "convert: the last frame is held for long", [R(), *(Q(3000.0, 768000.0, [0.0, word]) for word in (1.0, "7F800001"))]
    yield "convert: a position of N", [R(), Q(44100.0, RATE, [*ramp(146), "FFC12345"])]


def converted_between():
    """The frames between, each step rounded."""
    yield "convert 8,000 to 48,000", [R(), Q(8000.0, RATE, ramp(5)), Q(8000.0, RATE, [0.1, -0.7, 0.3, 0.9, "FFC00001"], [1.0, 0.0, -1.0, 0.0, 1.0])]
    yield "convert 48,000 to 8,000", [R(), *(Q(RATE, 8000.0, ramp(n)) for n in (5, 6, 7, 12, 13))]
    wave = [0.1 * (-1) ** i * i for i in range(20)]
    yield "convert 44,100 to 48,000 and back", [R(), Q(44100.0, RATE, wave), Q(RATE, 44100.0, wave),
                                                Q(RATE, 44100.0, ramp(160)), Q(44100.0, RATE, wave, ramp(20))]
    yield "convert at rates with fractions", [R(), Q(44100.50390625, 48000.25, ramp(9)), Q(3000.000244140625, 3000.125, ramp(9)),
                                              Q(96000.7578125, 4096.5, ramp(50)),
                                              Q(3000.000244140625, 767999.9375, ramp(2))]
    yield "convert just beyond 0.1, up and down", [R(), Q(RATE, 48000.1015625, ramp(30)), Q(RATE, 47999.8984375, ramp(30)),
                                                   Q(3000.0, 3000.1000976562, ramp(30)),
                                                  Q(3000.0, 3000.0998535156, ramp(3))]
    yield "convert unusual frames", [R(), Q(24000.0, RATE, ODD), Q(32000.0, RATE, ODD), Q(RATE, 44100.0, ODD, ODD[::-1])]
    yield "convert: each step rounded", [R(),
                                         *(Q(32000.0, RATE, [x32(a), x32(b), 0.0])
                                           for a, b in ((0.1, 0.7), (1.0000001, -1.0000002), (3e38, 3.3e38), (1e-45, 3e-45)))]
    yield "convert 32 channels", [R(), Q(24000.0, RATE, *([float(c), c + 1.0] for c in range(32)))]
    yield "convert, refused", [R(), words(f"Q 1 1 {x32(RATE)} 7F800000", 1.0), words(f"Q 1 1 7FC00000 {x32(RATE)}", 1.0),
                               words(f"Q 1 2 {x32(2999.0)} {x32(768001.0)}", 1.0, 2.0),
                               f"Q 0 2 {x32(RATE)} {x32(24000.0)}", f"Q 1 16777217 {x32(RATE)} {x32(3000.0)}", Q(RATE, 24000.0, ramp(2))]
