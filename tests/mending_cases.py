#!/usr/bin/env python3
"""Mended clip files beside a reading of the rule: whole clips of each form, cut after every byte, with every byte of the header altered, grown, and
random bytes; and the package's `mend`, and `./mend` with its program. The reading is written here from docs/REFERENCE.md, 'Mending' and
'Refusals', not taken from crates/mending, and the library is called by declarations of its own, not by the package.
"""
import ctypes
import os
import random
import stat
import struct
import subprocess
import sys
import tempfile
from ctypes import c_bool, c_char_p, c_size_t, c_uint32, c_void_p
from pathlib import Path
from typing import NamedTuple

sys.path.insert(0, str(Path(__file__).resolve().parent.parent / "tools"))
from shared import TOP, Checks, library, program, run, seeds
from shared.bits import float32

check = Checks("mending")

# ---- the reading

LONGEST, RATE = 65536, 0x473B8000  # 48,000 as f32


class Mended(NamedTuple):
    """What is altered, and the mended file."""

    frames: bool
    offsets: bool
    tail: bool
    onset: bool
    tail_size: int
    data: bytes


def header_of(data):
    """The bytes of the header and of the onset in it, and the channels; None where the file has no such header."""
    if not 4 <= len(data) <= LONGEST:
        return None
    length, channels = struct.unpack_from("<HH", data)
    for onset in (0, 4):
        if length == 12 + onset + 4 * channels <= len(data):
            return length, onset, channels
    return None


def mended(data):
    """The refusal's number, and what is mended where it is 0."""
    header = header_of(data)
    if header is None:
        return 15, None
    length, onset_size, channels = header
    if not 1 <= channels <= 32:
        return 1, None
    if not 3000 <= float32(struct.unpack_from("<I", data, 8)[0]) <= 768000:
        return 2, None
    frames, left = divmod(len(data) - length, 4 * channels)
    if frames < 1:
        return 21, None
    made = bytearray(data[: len(data) - left])
    struct.pack_into("<I", made, 4, frames)
    if onset_size and struct.unpack_from("<I", made, 12)[0] > frames - 1:
        struct.pack_into("<I", made, 12, frames - 1)
    for c in range(channels):
        struct.pack_into("<I", made, 12 + onset_size + 4 * c, length + 4 * frames * c)
    at = 12 + onset_size
    changed = [made[a:b] != data[a:b] for a, b in ((4, 8), (at, length), (12, at))]
    return 0, Mended(changed[0], changed[1], left > 0, changed[2], left, bytes(made))


def made(channels, frames, onset_size, onset, samples, rate=RATE):
    """A clip file with the header of one form, and these bytes behind it. A header's length that does not fit its field wraps."""
    length = 12 + onset_size + 4 * channels
    head = struct.pack("<HHII", length % 65536, channels, frames, rate) + struct.pack("<I", onset % 2**32)[:onset_size]
    return head + b"".join(struct.pack("<I", (length + 4 * frames * c) % 2**32) for c in range(min(channels, 64))) + samples


# ---- the library


class Record(ctypes.Structure):
    _fields_ = [
        ("length", c_size_t), ("tail_size", c_size_t),
        ("frames", c_bool), ("offsets", c_bool), ("tail", c_bool), ("onset", c_bool), ("refusal", c_uint32),
    ]  # fmt: skip


class Shape(ctypes.Structure):
    _fields_ = [("channels", c_size_t), ("frames", c_size_t), ("rate", c_uint32)]


class Read(ctypes.Structure):
    _fields_ = [("shape", Shape), ("onset", c_uint32), ("refusal", c_uint32)]


CALL = {}
ROOM = ctypes.create_string_buffer(66000)
BASE = ctypes.addressof(ROOM)


def open_library():
    opened = ctypes.CDLL(str(TOP / "target/c/libnetthimble.so"))
    CALL["mend"], CALL["read"] = opened.netthimble_clip_mend, opened.netthimble_clip_with_onset
    CALL["mend"].restype, CALL["mend"].argtypes = Record, [c_char_p, c_size_t, c_void_p, c_size_t]
    CALL["read"].restype, CALL["read"].argtypes = Read, [c_char_p, c_size_t]


def mended_by(data, size):
    """What the library answers for an output of `size` bytes, each A5, between others that must stay; and the bytes that it wrote there."""
    ctypes.memset(BASE, 0xA5, size + 16)
    answer = CALL["mend"](data, len(data), BASE + 8, size)
    memory = ctypes.string_at(BASE, size + 16)
    if answer.refusal:
        blank = (answer.length, answer.tail_size, answer.frames, answer.offsets, answer.tail, answer.onset) == (0, 0, False, False, False, False)
        return answer.refusal, None if blank and memory.count(0xA5) == size + 16 else "a refused call says or stores something"
    if memory[:8] + memory[8 + answer.length :] != b"\xa5" * (size + 16 - answer.length):
        return 0, "wrote beside the result"
    return 0, Mended(answer.frames, answer.offsets, answer.tail, answer.onset, answer.tail_size, memory[8 : 8 + answer.length])


def compare(name, data):
    """A byte string beside the reading, and what holds of a mended one."""
    expected, got = mended(data), mended_by(data, len(data))
    ok = got == expected
    number, file = expected
    for size in {max(0, len(data) - 1), len(data) + 1} - {len(data)}:
        ok = ok and mended_by(data, size) == (number or 8, None)
    if number == 0:
        ok = ok and facts(data, file)
    elif len(data) <= LONGEST:  # what the new reader takes is never refused
        ok = ok and CALL["read"](data, len(data)).refusal != 0
    check(name, ok, f"{got[0]}, {got[1] and got[1][:5] if got[0] == 0 else got[1]}, not {number}, {file and file[:5]}, of {len(data)} bytes {data[:64].hex()}")


def facts(data, file):
    """The new reader takes it; mending it once more alters nothing; a sound one comes back as it was."""
    clip = CALL["read"](file.data, len(file.data))
    again = mended_by(file.data, len(file.data))
    ok = clip.refusal == 0 and again == (0, Mended(False, False, False, False, 0, file.data))
    ok = ok and (clip.shape.channels, clip.shape.rate) == struct.unpack_from("<H4xI", data, 2)
    is_sound = CALL["read"](data, len(data)).refusal == 0
    return ok and is_sound == (file.data == data) == (file[:5] == (False, False, False, False, 0))


# ---- files

WHOLE = [(channels, frames, onset_size) for channels in (1, 2, 3, 32) for frames in (1, 2, 5) for onset_size in (0, 4)]


def whole(r, channels, frames, onset_size):
    return made(channels, frames, onset_size, frames - 1, r.randbytes(4 * channels * frames))


def cut(r):
    """Every front of whole clips, and bytes added at the end."""
    for channels, frames, onset_size in WHOLE:
        data = whole(r, channels, frames, onset_size)
        for size in range(len(data) + 1):
            compare(f"cut to {size}", data[:size])
        for size in (*range(1, 4 * channels + 3), 8 * channels, LONGEST - len(data), LONGEST + 1 - len(data)):
            compare(f"{size} bytes more", data + r.randbytes(size))


def altered(r):
    """Each byte of the header, to every other value; of a long header past the first 24 with each bit turned."""
    for channels, frames, onset_size in WHOLE:
        for left in (0, 1, 4 * channels):
            data = whole(r, channels, frames, onset_size)
            data = data[: len(data) - left]
            for at in range(12 + onset_size + 4 * channels):
                others = range(1, 256) if at < 24 and left == 0 else (1 << k for k in range(8))
                for other in others:
                    compare(f"byte {at} altered", data[:at] + bytes([data[at] ^ other]) + data[at + 1 :])


RATES = [RATE] * 4 + [0x453B8000, 0x453B7FFF, 0x493B8000, 0x493B8001, 0, 0x7FC00000, 0x7F800000, 0xC73B8000]


def random_file(r):
    """A file whose frame count, offsets, onset and length are anything, and now and then its form, channels and rate."""
    channels = r.choice((0, 1, 1, 2, 2, 3, 31, 32, 33, r.randrange(1, 40)))
    onset_size = r.choice((0, 4))
    frames = r.choice((0, 1, 2, 5, r.randrange(20), 2**30, 2**32 - 1))
    size = max(0, r.choice((0, 1, 4 * channels - 1, 4 * channels, 4 * channels + 1, r.randrange(400))))
    onset = r.choice((0, 1, frames, 2**32 - 1, r.randrange(20)))
    data = bytearray(made(channels, frames, onset_size, onset, r.randbytes(size), r.choice(RATES)))
    if r.random() < 0.2:
        struct.pack_into("<H", data, 0, (struct.unpack_from("<H", data)[0] + r.choice((-4, -1, 1, 4, 8))) % 65536)
    if r.random() < 0.3:
        data = data[: r.randrange(len(data) + 1)]
    return bytes(data)


def noise(r, count):
    """Random bytes, random headers, and headers whose length would fit if it wrapped at 65,536."""
    numbers = dict.fromkeys((0, 15, 1, 2, 21), 0)
    for size in range(65):
        for _ in range(20):
            compare("random bytes", r.randbytes(size))
    for channels in (16381, 16382, 16383, 16384, 16385, 32768, 49152, 65535):
        for onset_size in (0, 4):
            data = made(channels, 1, onset_size, 0, r.randbytes(100))
            compare("a length that wraps", data)
            check("a length that wraps is refused", mended(data)[0] == 15)
    for _ in range(count):
        data = random_file(r)
        numbers[mended(data)[0]] += 1
        compare("a random file", data)
    check("random files of each kind", min(numbers.values()) > count // 100, numbers)


# ---- the package

PACKAGE = """
import random, sys
sys.path.insert(0, "python")
import netthimble
for line in sys.stdin:
    data = bytes.fromhex(line)
    try:
        m = netthimble.mend(random.choice((bytes, bytearray, memoryview))(data))
        print(0, m.data.hex(), *(int(mark) for mark in (m.frames, m.offsets, m.tail, m.onset)), m.tail_size)
        netthimble.load(m.data)
    except netthimble.Refused as refused:
        print(refused.number)
for wrong in ("clip.bin", 1, None, [1], "a".encode().decode()):
    try:
        netthimble.mend(wrong)
    except TypeError as told:
        print(str(told).startswith("mend: data must be a file's bytes, not "))
"""


def package(r, count):
    """netthimble.mend of random files, and of no bytes."""
    files = [random_file(r) for _ in range(count)]
    done = run([sys.executable, "-c", PACKAGE], b"".join(data.hex().encode() + b"\n" for data in files))
    expected = []
    for data in files:
        number, file = mended(data)
        marks = "" if number else " " + " ".join([file.data.hex(), *(str(int(mark)) for mark in file[:4]), str(file.tail_size)])
        expected.append(f"{number}{marks}")
    told = done.stdout.decode().splitlines()
    check("the package", told == expected + ["True"] * 5, f"{len(told)} lines, {[pair for pair in zip(told, expected) if pair[0] != pair[1]][:2]}")


# ---- ./mend


def report(data):
    """What the program says: a line for each mark, with the numbers before and after."""
    number, file = mended(data)
    if number:
        return f"X {number}\n"
    _, onset_size, channels = header_of(data)
    said = []
    for name, at, count, mark in (
        ("frames", 4, 1, file.frames), ("offsets", 12 + onset_size, channels, file.offsets), ("bytes", None, 1, file.tail), ("onset", 12, 1, file.onset),
    ):  # fmt: skip
        numbers = [[len(d)] if at is None else struct.unpack_from(f"<{count}I", d, at) for d in (data, file.data)] if mark else []
        if mark:
            said.append("{}: {}, now {}\n".format(name, *(" ".join(map(str, row)) for row in numbers)))
    return "".join(said)


def mend(folder, *words, **more):
    return run([TOP / "mend", *words], folder=folder, stderr=subprocess.PIPE, **more)


def tool(r, folder):
    """./mend with the proved program: another file, the file itself, and --check."""
    source, target = Path(folder, "cut clip.bin"), Path(folder, "made.bin")
    files = [whole(r, *WHOLE[4 * n + 1]) for n in range(6)] + [random_file(r) for _ in range(14)] + [b"", bytes(LONGEST + 1)]
    files += [data[:-1] for data in files[:6]]
    for data in files:
        number, file = mended(data)
        source.write_bytes(data)
        target.write_bytes(b"as it was")
        os.chmod(target, 0o640)
        name = f"{len(data)} bytes {data[:40].hex()}"
        status = 3 if number else int(file.data != data)
        done = mend(folder, "-q", "--check", source.name)
        check(f"./mend --check, {name}", (done.returncode, done.stdout, done.stderr.decode()) == (status, b"", report(data)), done)
        check(f"./mend --check changes nothing, {name}", source.read_bytes() == data)
        done = mend(folder, "-q", source.name, target.name)
        ok = (done.returncode, done.stdout, done.stderr.decode()) == (3 if number else 0, b"", report(data))
        ok = ok and source.read_bytes() == data and target.read_bytes() == (b"as it was" if number else file.data)
        check(f"./mend to another file, {name}", ok and stat.S_IMODE(target.stat().st_mode) == 0o640, done)
        done = mend(folder, source.name)
        check(f"./mend in place, {name}", done.returncode == (3 if number else 0) and source.read_bytes() == (data if number else file.data), done)
        check(f"nothing is left beside, {name}", sorted(os.listdir(folder)) == ["cut clip.bin", "made.bin"], os.listdir(folder))


def tool_words(folder):
    """What ./mend says where something is missing, and that then nothing is written."""
    source = Path(folder, "clip.bin")
    source.write_bytes(made(1, 1, 0, 0, bytes(5)))
    for word in ("--help", "-h"):
        done = mend(folder, word)
        check(f"./mend {word}", done.returncode == 0 and done.stdout.startswith(b"usage: ./mend") and not done.stderr, done)
    for words in ([], ["-x"], ["a", "b", "c"], ["--check", "clip.bin", "b"]):
        done = mend(folder, *words)
        check(f"./mend {words}", done.returncode == 2 and not done.stdout and done.stderr.startswith(b"usage: ./mend"), done)
    for words, said in ((["none"], b"can't be read: none"), (["."], b"can't be read: ."), ([""], b"empty"), (["clip.bin", ""], b"empty"),
                        (["clip.bin", "none/made.bin"], b"can't be written: none"), (["clip.bin", "."], b"is no file")):  # fmt: skip
        done = mend(folder, *words)
        check(f"./mend {words}", done.returncode == 2 and not done.stdout and said in done.stderr, done)
    check("nothing was written", os.listdir(folder) == ["clip.bin"], os.listdir(folder))
    Path(folder, "link.bin").symlink_to("clip.bin")
    done = mend(folder, "-q", "link.bin")
    check("./mend follows a link", done.returncode == 0 and Path(folder, "link.bin").is_symlink() and len(source.read_bytes()) == 20, done)


def main():
    tried = seeds(__doc__)
    if not library():
        return 0
    open_library()
    for seed in tried:
        check.seed, r = seed, random.Random(seed)
        cut(r)
        altered(r)
        noise(r, 20000)
        package(r, 1000)
        if program("mend").exists():
            with tempfile.TemporaryDirectory() as folder:
                tool(r, folder)
            with tempfile.TemporaryDirectory() as folder:
                tool_words(folder)
        else:
            print("mending: crates/mend/out/mend is not built, so ./mend is not tried")
    return check.ended()


if __name__ == "__main__":
    sys.exit(main())
