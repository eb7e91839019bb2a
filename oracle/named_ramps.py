"""Scripts chosen by hand for docs/REFERENCE.md, 'Ramps': `ramps()` gives (name, units)."""
from named import B, C, D, DOWN, DT, E, INF, M, N, NAN, P, R, RATE, S, T, UP, blocks, cents, looked, overlap, ramp
from scripts import MAX, words_text
from tolerances import words_of

from shared.bits import x32, x64

ODD = ["7F800001", "FFC12345", "7FC00000", "7F800000", "FF800000", "80000000", "00000000", "80000001", "007FFFFF", "00800001", "7F7FFFFF", "BF800000"]
LATE = 2.0**20
LONGEST = 48000


def RR(length, rate=RATE):
    """A player with a ramp of so many frames."""
    return f"{R(rate)} {length}"


def shown(*units):
    """Each unit with the ramp behind it."""
    return [each for unit in units for each in (unit, "Y")]


def ones(count=300, value=1.0):
    return C([value] * count)


def looped(length, *units, clip=None, when=0.0):
    """A player with a ramp, whose clip is looped."""
    return [RR(length), clip or ones(5), S(when), "L 1", *shown(*units), "Z"]


def ramps():
    for part in (known, lengths, factors, numbers_at_the_stop, told_early_and_late, counted, clocks, starts, starts_near, other_speeds, previewed_too):
        yield from part()
    yield from made()
    yield from unknown()


def known():
    yield "ramp: R 300, a start at sample 100, blocks at 0 and 1e-9", looped(300, B(), B(1e-9), clip=ones(), when=100 * DT)
    yield "ramp: R 4, a stop at 128 samples, 125 is multiplied and 124 not", looped(4, T(128 / RATE), B(), clip=C(["7F800001"] * 128))
    yield "ramp: R 4, W 6: sample 3 is 0.75", [RR(4), ones(), S(), T(6 / RATE), B(), "Y", "Z"]
    late = [ones(), S(LATE + 0.0005), T(LATE + 0.002)]
    yield "ramp: W is worked out from the start as it is snapped", [RR(4), *late, *shown(B(LATE)), "Z"]
    yield "ramp: W is worked out at a stop that comes later", [RR(4), *late[:2], *shown(B(LATE), late[2], B(LATE + D)), "Z"]


def lengths():
    for length in (0, 1, 2, 3, 7, 127, 128, 129, 255, 256, 1000):
        yield f"ramp: R {length}, no stop", looped(length, *blocks(3))
        yield f"ramp: R {length}, a stop at 200 samples", looped(length, T(200 / RATE), *blocks(3))
        yield f"ramp: R {length}, a stop at 200 samples, odd frames", looped(length, T(200 / RATE), *blocks(3), clip=C(ODD))
    # of each block two frames are heard, so that the answer is short
    wide = C(["7F800001"] + [0.0] * 126 + ["7F800001"])
    yield "ramp: R 48,000, up to its end", looped(LONGEST, clip=wide)[:-1] + [*blocks(377), "Y", "Z"]
    yield "ramp: R 48,000, down from its beginning", looped(LONGEST, T(2 * LONGEST / RATE), clip=wide) + [*blocks(2), B(1.0), B(1.5), B(1.9), "Y"]
    yield "ramp: R 1,000, up and down", looped(1000, clip=wide)[:-1] + [T(2128 / RATE), *blocks(18), "Y", "Z"]
    yield "ramp: R 48,000, a stop at 300 samples", looped(LONGEST, T(300 / RATE), *blocks(3))
    yield "ramp: R 127 and W 128", looped(127, T(128 / RATE), *blocks(2))
    yield "ramp: two channels and a long clip", [RR(129), C(ramp(400), ramp(400, 1000.0)), S(), T(300 / RATE), *shown(*blocks(3)), "Z"]
    yield "ramp: 32 channels", [RR(3), C(*[[float(c + 1), c + 1.5] for c in range(32)]), S(), "L 1", T(9 / RATE), B(), "Y", "Z"]


def factors():
    for value in (-1.0, 0.1, 3.0, "7F7FFFFF", "00000001", "807FFFFF", "7F800000", "FF800000", "FFC12345", "80000000"):
        yield f"ramp: R 3, W 9, of {value}", looped(3, T(9 / RATE), B(), clip=ones(12, value))
    for length in (3, 5, 11, 49, 100):
        yield f"ramp: R {length}, j/R is rounded once", looped(length, T(2.5 * length / RATE), *blocks(3), clip=C([x / 7 for x in ramp(60)]))
    yield "ramp: the sub-sample block's bits, then the factor", looped(6, T(80 / RATE), B(0.0, 0.3), clip=C([0.1, -0.7, 0.3, 0.9]))
    yield "ramp: an infinity beside 0 is a NaN already", looped(6, T(80 / RATE), B(0.0, 0.3), clip=C(["7F800000", 0.5, 0.25]))


def numbers_at_the_stop():
    for number in (0, 1, 2, 5, 6, 7, 8, 9, 126, 127, 128, 129, 255, 256, 257):
        for part in (0.0, 0.5, 0.999):
            yield f"ramp: R 4, a stop at {number + part} samples", looped(4, T((number + part) / RATE), *blocks(3))
    for stop in (1e300, DOWN(MAX), 2.0**52 / RATE, UP(2.0**52 / RATE), DOWN(2.0**52 / RATE), 1e11, 2.0**53, MAX):
        yield f"ramp: R 4, a stop at {x64(stop)}", looped(4, T(stop), *blocks(2))
        yield f"ramp: R 4, a stop at {x64(stop)}, later", looped(4, B(), T(stop), B(D))
    for rate in (3000.0, 44100.5, 768000.0):
        units = [RR(5, rate), C([1.0] * 300, rate=rate), S(), "L 1", T(150 / rate), *shown(*blocks(2, output=rate)), "Z"]
        yield f"ramp: W at {rate}", units
    for start in (0.1, 1.0, 1000.1, LATE, 2.0**29 + 0.3):
        yield f"ramp: W of a stop 100 samples behind {x64(start)}", [RR(7), ones(), S(start), "L 1", T(start + 100 / RATE), *shown(B(start)), "Z"]


def told_early_and_late():
    yield "ramp: a stop before the start", looped(4, T(20 * DT), *blocks(2), when=50 * DT)
    yield "ramp: a stop at the start", looped(4, T(0.0), *blocks(2))
    yield "ramp: a stop in the past of the start, then a later one", looped(4, T(20 * DT), T(200 * DT), *blocks(3), when=50 * DT)
    yield "ramp: a stop after the start", looped(50, B(), T(250 / RATE), *blocks(3, first=1))
    yield "ramp: a stop so late that the ramp has begun", looped(200, B(), B(D), T(300 / RATE), *blocks(2, first=2))
    yield "ramp: a stop within the rising ramp", looped(1000, B(), T(200 / RATE), *blocks(2, first=1))
    yield "ramp: a stop in the past", looped(4, B(), T(60 / RATE), B(D))
    yield "ramp: a stop before the start, told later", [RR(4), ones(), S(50 * DT), "L 1", B(), T(20 * DT), B(D), "Y", "Z"]
    yield "ramp: a second stop, later", looped(100, B(), T(200 / RATE), B(D), T(600 / RATE), *blocks(4, first=2))
    yield "ramp: a second stop, earlier", looped(100, B(), T(600 / RATE), B(D), T(300 / RATE), *blocks(3, first=2))
    yield "ramp: a second stop is none", looped(100, T(200 / RATE), B(), T(MAX), *blocks(3, first=1))
    yield "ramp: stops that are refused", looped(100, T(-1.0), f"T {NAN}", B(), T(200 / RATE), T(-1.0), f"T {INF}", B(D))
    yield "ramp: a stop before a start", [RR(4), ones(), *shown(T(0.0), S(), B()), "Z"]
    yield "ramp: a stop after the end", looped(4, T(100 / RATE), *blocks(2), T(1.0), B(2 * D))
    others = ["L 0", P(DT), E(3 * DT), S(), "C 1 1 473B8000", "W 3F800000"]
    yield "ramp: other messages leave it", looped(100, B(), *others, T(300 / RATE), B(D), "L 1", B(2 * D))


def counted():
    yield "ramp: silent blocks count nothing", [RR(4), *shown(B(), S(4 * D), B(D)), ones(), *shown(B(2 * D), B(3 * D), B(4 * D), B(5 * D)), "Z"]
    refused = B(0.0), B(D, 1.0, 0.0), B(D, 1.0, 1.0, 128), B(D, 1.0, 1.0, 4096, 1), cents(D, 1.0, 12001)
    yield "ramp: refused blocks count nothing", looped(200, B(), *refused, B(D))
    yield "ramp: the whole of the block that ends it counts", looped(4, T(60 / RATE), B(), B(D), B(2 * D))
    yield "ramp: a clip that runs out", [RR(200), ones(), S(), *shown(*blocks(5)), "Z"]
    yield "ramp: idle samples behind the duration count", [RR(200), ones(), S(0.0, 0.0, 100 / RATE), "L 1", *shown(*blocks(3)), "Z"]
    yield "ramp: a duration of 0 never starts", [RR(4), ones(), S(0.0, 0.0, 0.0), *shown(*blocks(2)), "Z"]
    yield "ramp: aligned again in mid-play", [RR(200), *overlap(300, [B(0.0, 1.0)], 3)[1:], "Y"]
    yield "ramp: aligned, sub-sample, and aligned no more", looped(300, B(), B(D, 0.5), B(2 * D), B(3 * D, -1.0))
    yield "ramp: loop off and on", looped(400, B(), "L 0", B(D), "L 1", B(2 * D), B(3 * D), clip=ones(500))


def clocks():
    yield "ramp: the clock jumps past the stop", looped(50, T(2.0), B(), B(1.0), B(2.0), B(3.0))
    for length in (0, 1, 200):
        yield f"ramp: R {length}, the clock stands nearly still", looped(length, T(2 * D), B(), B(1e-9), B(2e-9), B(3e-9), B(D), B(2 * D), clip=C([*ODD, 1.0]))
    yield "ramp: the clock jumps within the ramp", looped(1000, T(0.5), B(), B(0.1), B(0.2), B(0.4), B(0.497), B(0.499))
    yield "ramp: from 1,000 seconds", [RR(200), ones(), S(1000.0), "L 1", T(1000.01), *shown(*(B(1000.0 + n * D) for n in range(5))), "Z"]


def starts():
    for sample in (1, 50, 126, 127):
        yield f"ramp: a start at sample {sample}", looped(100, T((sample + 150) * DT), *blocks(3), when=sample * DT)
    for sample in (0.5, 50.25, 126.75):
        yield f"ramp: a start between samples, {sample}", looped(100, T((sample + 150.25) * DT), *blocks(3), when=sample * DT)
    yield "ramp: a start behind sample 127", looped(10, T(200 / RATE), *blocks(3), when=127.5 * DT)
    yield "ramp: a start at the block's end", looped(10, T(200 / RATE), *blocks(3), when=D)
    yield "ramp: a start in the past", looped(100, T(0.51), *(B(0.5 + n * D) for n in range(4)), when=0.25)
    yield "ramp: a start in the past, a stop between", looped(100, T(0.4), *(B(0.5 + n * D) for n in range(2)), when=0.25)
    yield "ramp: an offset", [RR(100), C(ramp(300)), S(0.0, 20 / RATE), "L 1", T(220 / RATE), *shown(*blocks(3)), "Z"]


def starts_near():
    for near in (0.0, 2.0**-8, 1.0):
        fresh = f"{R()} {words_of(near, 0.0, 0.1)} 100"
        yield f"ramp: a start near a sample, tolerance {x64(near)}", [fresh, ones(), S(100.25 * DT), "L 1", T(230.5 * DT), *shown(*blocks(3)), "Z"]
    for start in (100 * DT * (1 + 2.0**-28), 100 * DT * (1 - 2.0**-28)):
        yield f"ramp: a start just beside a sample, {x64(start)}", looped(100, T(200.75 * DT), *blocks(3), when=start)
    yield "ramp: with tolerances, then without, then none", [f"{R()} {words_of(0.0, 0.0, 0.0)} 5", ones(), S(), *shown(B()), RR(7), ones(), S(), *shown(B()),
                                                             R(), ones(), S(), *shown(B()), f"{R()} {words_of()}", "Y"]


def other_speeds():
    for rate in (0.5, 2.0, -1.0, 0.0, 0.3):
        yield f"ramp: at rate {rate}", [RR(100), C(ramp(40)), S(0.0, 10 / RATE), "L 1", T(200.5 / RATE), *shown(*blocks(3, rate)), "Z"]
    yield "ramp: in cents", [RR(100), C(ramp(40)), S(), "L 1", T(200.5 / RATE), *shown(cents(0.0, 1.0, 700), cents(D, 1.0, 0), cents(2 * D, 1.0, -1200)), "Z"]
    yield "ramp: of a clip at another rate", [RR(100), C(ramp(40), rate=44100.0), S(), "L 1", T(200.5 / RATE), *shown(*blocks(3)), "Z"]


def previewed_too():
    """A preview has the ramp, and counts nothing."""
    units = [ones(), S(50 * DT), "L 1", T(300 / RATE)]
    yield "ramp: previews and blocks", [RR(100), *units, *(each for unit in looked(*blocks(4)) for each in ((unit, "Y") if unit != "Z" else ("Y",)))]
    yield "ramp: previews alone", [RR(100), *units, *shown(M(), M(), N(0.0, 1.0, 700), M(D), M(2 * D), M(300.0), B(), M(D), M(2 * D)), "Z"]
    late = [ones(), S(LATE + 0.0005), T(LATE + 0.002)]
    yield "ramp: a preview of the block that starts it works out W for itself", [RR(4), *late, M(LATE), "Y", "Z", B(LATE), "Y"]
    yield "ramp: refused previews", looped(100, B(), M(0.0), M(D, 1.0, 0.0), N(D, 1.0, 12001), M(D, 1.0, 1.0, 128), M(D, 1.0, 1.0, 4096, 1), M(D), B(D))


def made():
    """A player with a ramp: 18, 2, 19."""
    good, bad = words_of(), words_of(2.0)
    for word in ("0", "00", "48000", "0000000000000048000", "48001", "0000000000000048001", "9007199254740993", "9999999999999999999"):
        yield f"ramp of {word}", [R(), f"{R()} {word}", "Y", "Z", ones(3), S(), B(), "Y", f"{R()} {good} {word}", "Y"]
    yield "ramp: 18 before 2 before 19", [line for rate in (RATE, 0.0) for own in ("", f" {good}", f" {bad}") for length in (48000, 48001)
                                          for line in (R(), f"R {x32(rate)}{own} {length}", "Y", "Z")]
    yield "ramp refused: there is none", [RR(5), ones(), S(), B(), RR(48001), "Y", "Z", B(D), S(), "C 1 1 473B8000", M(D), RR(3), "Y"]
    yield "ramp: words given up by a player with a ramp", [R(), "C 1 2 473B8000", "W 3F800000", RR(5), "W 3F800000", "Y"]
    yield "ramp: a fresh player's", [RR(5), "Y", ones(3), "Y", S(), "Y", T(1.0), "Y", "L 1", "Y"]


def unknown():
    good = words_of(0.25, 2.0**-10, 0.5)
    bad = ["-1", "+1", "1.5", "", "x", "5 5", "10000000000000000000", "0x5", " 5", "5 "]
    clip = [ones(3), S()]
    yield "unknown lines of players with ramps", [RR(5), *clip, *(f"{R()} {word}" for word in bad), "Y", B(), "Y"]
    yield "unknown lines of players with tolerances and ramps", [RR(5), *clip, *(f"{R()} {good} {word}" for word in bad), f"{R()} 5 {good}", "Y", B(), "Y"]
    yield "unknown lines that show a ramp", [RR(5), *clip, "Y ", " Y", "Y 5", "y", "YY", "Y Y", "Z Y", "Y", B(), "Y"]
    yield "words given up by a line that shows a ramp", [RR(5), "C 1 2 473B8000", "W 3F800000", "Y", "W 3F800000", "Y" + words_text(" 3F800000")]
