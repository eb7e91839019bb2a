#!/usr/bin/env python3
"""Makes the vectors of crates/rounding_vectors again: operands from a fixed seed, answers from the processor through C. Needs cc; writes
crates/rounding_vectors/stdin and stdout.
"""
import random
import tempfile

from shared import TOP, options, run
from shared.bits import bits32, float64, single
from shared.bits import bits64 as bits
from shared.comparing import compiled

CRATE = TOP / "crates/rounding_vectors"
NAMES = ["fma", "narrow", "floor", "ceil", "round_away", "truncate", "widen", "near", "rem_euclid", "float_eq", "fma_narrow"]


rnd = random.Random(20261115)


SIGN = 1 << 63
SPECIAL = [0, 1, 2, 0xFFFFFFFFFFFFF, 0x10000000000000, 0x10000000000001, 0x7FEFFFFFFFFFFFFF, 0x7FF0000000000000, 0x7FF8000000000000, 0x7FF0000000000001]
SPECIAL += [bits(x) for x in (0.5, 0.49999999999999994, 1.0, 1.5, 2.5, 2.0**52 - 0.5, 2.0**52, 2.0**53 - 1, 2.0**53)]
SPECIAL += [bits(x) for x in (2.0**63, 2.0**64, 2.0**64 - 2048, 2.0**-26, 2.0**1023)]
SPECIAL += [b ^ SIGN for b in SPECIAL]
SPECIAL32 = [0, 1, 0x7FFFFF, 0x800000, 0x7F7FFFFF, 0x7F800000, 0x7FC00000, 0x7F800001, bits32(0.1), bits32(1.0), bits32(48000.0)]
SPECIAL32 += [b ^ (1 << 31) for b in SPECIAL32]


def double(low, high):
    """A random f64 pattern with its exponent's field from low to high."""
    return rnd.getrandbits(1) << 63 | rnd.randint(low, high) << 52 | rnd.getrandbits(52)


def any64():
    return rnd.choice([lambda: rnd.choice(SPECIAL), lambda: double(0, 2046), lambda: double(990, 1060), lambda: double(0, 2)])()


def any32():
    return rnd.choice([lambda: rnd.choice(SPECIAL32), lambda: rnd.getrandbits(32), lambda: bits32(rnd.uniform(-50000, 50000))])()


def fma_operands():
    kind = rnd.randrange(6)
    if kind == 0:
        return any64(), any64(), any64()
    if kind == 1:  # the interpolation's: a frame and a fraction
        return double(1000, 1023), double(1000, 1023), double(1000, 1023)
    if kind == 2:  # c close to -(a * b)
        a, b = double(900, 1100), double(900, 1100)
        return a, b, (bits(-(float64(a) * float64(b))) + rnd.randint(-2, 2)) % 2**64
    if kind == 3:  # a subnormal result
        a = double(1, 1000)
        field = a >> 52 & 2047
        return a, double(max(1, 950 - field), max(2, 1026 - field)), rnd.choice([0, double(0, 0), double(0, 0) >> 30, double(0, 4)])
    if kind == 4:  # close to the overflow
        a = double(1030, 2040)
        field = a >> 52 & 2047
        return a, double(3068 - field, 3071 - field), double(1990, 2046)
    # far apart, and halves: few digits
    a, b, c = (rnd.getrandbits(1) << 63 | rnd.randint(900, 1150) << 52 | rnd.getrandbits(3) << 49 for _ in range(3))
    return a, b, c | rnd.choice([0, 1])


def narrow_operand():
    kind = rnd.randrange(5)
    if kind == 0:
        return any64()
    if kind == 1:  # in f32's range
        return double(1023 - 150, 1023 + 128)
    if kind == 2:  # a tie between two normal f32, or a step beside it
        tie = (rnd.getrandbits(1) << 63 | rnd.randint(1023 - 126, 1023 + 127) << 52 | rnd.getrandbits(23) << 29) + (1 << 28)
        return tie + rnd.choice([-1, 0, 0, 1])
    if kind == 3:  # a tie between two subnormal f32, or a step beside it
        tie = bits((2 * rnd.getrandbits(rnd.randint(0, 22)) + 1) * 2.0**-150)
        return (rnd.getrandbits(1) << 63 | tie) + rnd.choice([-1, 0, 0, 1])
    return bits(rnd.choice([1, -1]) * (2.0**128 - 2.0**103)) + rnd.choice([-1, 0, 1]) * rnd.choice([0, 1, 2**28, 2**29])


def whole_operand():
    kind = rnd.randrange(4)
    if kind == 0:
        return any64()
    if kind == 1:  # halves, and a step beside one
        return (bits(rnd.choice([1, -1]) * (rnd.getrandbits(rnd.randint(0, 51)) + 0.5)) + rnd.choice([-1, 0, 0, 1])) % 2**64
    if kind == 2:  # whole numbers, and a step beside one
        return (bits(rnd.choice([1, -1]) * (rnd.getrandbits(rnd.randint(1, 64)) + 1.0)) + rnd.choice([-1, 0, 0, 1])) % 2**64
    return double(1015, 1090)


def near_operands():
    a = any64()
    if rnd.randrange(4):
        a = double(990, 1060)
        b = (a + rnd.choice([-1, 1]) * rnd.randint(0, 2**28)) % 2**64
    else:
        b = any64()
    return a, b, rnd.choice([bits(2.0**-26)] * 4 + [bits(2.0**-40), bits(0.0), any64()])


def rem_operands():
    if rnd.randrange(4) == 0:
        return any64(), any64(), 0
    b = double(1000, 1030)
    if rnd.randrange(3) == 0:  # a multiple, a step beside it, or a tiny dividend
        return rnd.choice([bits(float64(b) * rnd.randint(-9, 9)), double(900, 950)]), b, 0
    return double(980, 1040), b, 0


def float_eq_operands():
    tolerance = rnd.choice([bits32(0.1)] * 4 + [bits32(0.0), any32()])
    if rnd.randrange(4) == 0:
        return any32(), any32(), tolerance
    a = rnd.uniform(3000, 768000) if rnd.randrange(2) else rnd.uniform(-1, 1)
    b = bits32(a + rnd.choice([-1, 1]) * rnd.choice([0.1, 0.09375, 0.1015625, rnd.uniform(0, 0.2)]))
    return bits32(a), b + rnd.choice([-1, 0, 1]), tolerance


def frame():
    """A random f32 between -1 and 1, as an f64."""
    return single(rnd.uniform(-1, 1))


def fma_narrow_operands():
    kind = rnd.randrange(6)
    if kind == 0:
        return fma_operands()
    if kind == 1:  # the interpolation's: a fraction and two frames
        k = rnd.random()
        return bits(1 - k), bits(frame()), bits(k * frame())
    if kind == 2:  # half way between two frames: every other sum is a tie of two f32 values
        return bits(0.5), bits(frame()), bits(0.5 * frame())
    if kind == 3:  # a fraction of few digits
        k = rnd.randrange(1, 1 << rnd.randint(1, 12)) / 4096
        return bits(1 - k), bits(frame()), bits(k * frame())
    a, b = bits(rnd.random()), bits(frame() if kind == 4 else rnd.uniform(-1, 1))
    tie = (rnd.getrandbits(1) << 63 | rnd.randint(1015, 1023) << 52 | rnd.getrandbits(23) << 29) + (1 << 28)
    return a, b, (bits(float64(tie) - float64(a) * float64(b)) + rnd.choice([-600, -2, -1, 0, 0, 0, 1, 2, 600])) % 2**64


def one(make):
    return lambda: (make(), 0, 0)


PLAN = [(1400, fma_operands), (700, one(narrow_operand))] + [(200, one(whole_operand))] * 4
PLAN += [(150, one(any32)), (200, near_operands), (200, rem_operands), (200, float_eq_operands), (1000, fma_narrow_operands)]


def main():
    asked = [(op, *make()) for op, (count, make) in enumerate(PLAN) for _ in range(count)]
    questions = "".join(f"{op:d} {a:x} {b:x} {c:x}\n" for op, a, b, c in asked)
    with tempfile.TemporaryDirectory() as work:
        program = compiled("rounding_vectors", work, flags=("-O1", "-ffp-contract=off", "-fno-builtin"))
        answers = run([program], questions.encode()).stdout.decode()
    if {len(line) for line in answers.splitlines()} != {69}:
        raise SystemExit("a line is not 69 characters long")
    (CRATE / "stdin").write_text(answers)
    (CRATE / "stdout").write_text("".join(f"{name} {count} vectors, 0 differ\n" for name, (count, _) in zip(NAMES, PLAN)))


if __name__ == "__main__":
    options(__doc__).parse_args()
    main()
