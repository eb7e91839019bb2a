#!/usr/bin/env python3
"""Clip files with either header beside a reading of the layout: the old reader, the new one, the writer, tools/wav_to_clip.py and `trial`, on
whole, altered and random files. The reading is written here from docs/REFERENCE.md, 'Clip file' and 'Refusals', not taken from crates/clip, and the
library is called by declarations of its own, not by the package.
"""
import ctypes
import random
import struct
import sys
import tempfile
import wave
from ctypes import c_char_p, c_size_t, c_uint32, c_void_p
from pathlib import Path
from typing import NamedTuple

sys.path.insert(0, str(Path(__file__).resolve().parent.parent / "tools"))
import transcripts
import wav_to_clip
from shared import TOP, Checks, library, program, run, seeds, subject
from shared.bits import bits32, float32

check = Checks("clip files")


# ---- the reading

OLD, NEW = 12, 16  # the bytes before the offsets: the new header has an onset there
HIGHEST = 2**64 - 1


class Clip(NamedTuple):
    channels: int
    frames: int
    rate: int  # the bits of an f32, as are the samples
    onset: int
    samples: bytes


def laid_out(data, fields):
    """The clip of a file that has the layout, with so many bytes before the offsets; None where it has not."""
    if not fields <= len(data) <= 65536:
        return None
    length, channels, frames, rate = struct.unpack_from("<HHII", data)
    if length != fields + 4 * channels or frames < 1 or len(data) != length + 4 * frames * channels:
        return None
    if struct.unpack_from(f"<{channels}I", data, fields) != tuple(length + 4 * frames * c for c in range(channels)):
        return None
    return Clip(channels, frames, rate, struct.unpack_from("<I", data, 12)[0] if fields == NEW else 0, data[length:])


def refusal(is_laid_out, clip, count):
    """The number with which a clip of `count` samples is refused, 0 for none."""
    if not is_laid_out:
        return 15
    if not 1 <= clip.channels <= 32 or clip.frames > 16777216 or count != clip.channels * clip.frames:
        return 1
    if not 3000 <= float32(clip.rate) <= 768000:
        return 2
    return 17 if clip.onset >= clip.frames else 0


def read(data, headers):
    """What a reader of these headers answers: the refusal's number, and the clip that it accepts."""
    for fields in headers:
        clip = laid_out(data, fields)
        if clip is not None:
            refused = refusal(True, clip, clip.channels * clip.frames)
            return refused, None if refused else clip
    return 15, None


def size_to_write(clip, count):
    """The refusal's number and the bytes of the file that a clip of `count` samples is written to."""
    size = 16 + 4 * clip.channels + 4 * clip.frames * clip.channels
    refused = refusal(clip.frames > 0 and size <= 65536, clip, count)
    return refused, 0 if refused else size


def made(clip, fields=NEW):
    """The bytes of a clip's file."""
    length = fields + 4 * clip.channels
    head = struct.pack("<HHII", length, clip.channels, clip.frames, clip.rate)
    onset = struct.pack("<I", clip.onset) if fields == NEW else b""
    return head + onset + b"".join(struct.pack("<I", length + 4 * clip.frames * c) for c in range(clip.channels)) + clip.samples


# ---- the library. A record of a shape is handed over in memory, so that the bits of a rate may stand in place of the float.


class Shape(ctypes.Structure):
    _fields_ = [("channels", c_size_t), ("frames", c_size_t), ("rate", c_uint32)]


class Shaped(ctypes.Structure):
    _fields_ = [("shape", Shape), ("refusal", c_uint32)]


class ShapedWithOnset(ctypes.Structure):
    _fields_ = [("shape", Shape), ("onset", c_uint32), ("refusal", c_uint32)]


class Count(ctypes.Structure):
    _fields_ = [("count", c_size_t), ("refusal", c_uint32)]


CALLS = {
    "clip_shape": (Shaped, [c_char_p, c_size_t]),
    "clip_frames": (c_uint32, [c_char_p, c_size_t, c_void_p, c_size_t]),
    "clip_with_onset": (ShapedWithOnset, [c_char_p, c_size_t]),
    "clip_frames_with_onset": (c_uint32, [c_char_p, c_size_t, c_void_p, c_size_t]),
    "clip_length": (Count, [Shape, c_size_t, c_uint32]),
    "clip_write": (c_uint32, [Shape, c_uint32, c_char_p, c_size_t, c_void_p, c_size_t]),
}
CALL = {}
ROOM = ctypes.create_string_buffer(66000)
BASE = ctypes.addressof(ROOM)
EDGE = b"\xa5" * 8


def open_library():
    library = ctypes.CDLL(str(TOP / "target/c/libnetthimble.so"))
    for name, (answer, given) in CALLS.items():
        CALL[name] = getattr(library, "netthimble_" + name)
        CALL[name].restype, CALL[name].argtypes = answer, given


def lent(size, call):
    """What a call answers that is lent `size` bytes, each A5, between others that must stay; and the bytes after it, None if all are A5."""
    ctypes.memset(BASE, 0xA5, size + 16)
    answer = call(BASE + 8)
    memory = ctypes.string_at(BASE, size + 16)
    if memory[:8] != EDGE or memory[-8:] != EDGE:
        return "wrote beside the slice", memory
    return answer, None if memory.count(0xA5) == size + 16 else memory[8:-8]


def frames_by(name, data, count):
    return lent(4 * count, lambda at: CALL[name](data, len(data), at, count))


def written_by(clip, count, size):
    """The writer's answer for a slice of `size` bytes, and the slice."""
    shape = Shape(clip.channels, clip.frames, clip.rate)
    return lent(size, lambda at: CALL["clip_write"](shape, clip.onset, clip.samples, count, at, size))


def size_by(clip, count):
    answer = CALL["clip_length"](Shape(clip.channels, clip.frames, clip.rate), count, clip.onset)
    return answer.refusal, answer.count


def read_by(data, with_onset):
    """What the library's reader answers, as `read` does: its two calls together, and slices of other lengths, which are refused last."""
    header, frames = ("clip_with_onset", "clip_frames_with_onset") if with_onset else ("clip_shape", "clip_frames")
    answer = CALL[header](data, len(data))
    said = (answer.shape.channels, answer.shape.frames, answer.shape.rate, answer.onset if with_onset else 0)
    if answer.refusal:
        blank = said == (0, 0, 0, 0) and frames_by(frames, data, 3) == (answer.refusal, None)
        return answer.refusal, None if blank else "a refused call says or stores something"
    count = answer.shape.channels * answer.shape.frames
    stored, samples = frames_by(frames, data, count)
    others = [frames_by(frames, data, other) for other in (0, count - 1, count + 1)]
    if stored or any(other != (8, None) for other in others):
        return 0, f"frames: {stored}, and with other lengths {[other[0] for other in others]}"
    return 0, Clip(*said, EDGE[:1] * (4 * count) if samples is None else samples)


def compare(name, data):
    """Both readers on a byte string, beside the reading; and what holds of the clips that they accept."""
    old, new = read_by(data, False), read_by(data, True)
    ok = old == read(data, [OLD]) and new == read(data, [OLD, NEW])
    check(name, ok and facts(data, old[1], new[1]), f"{old[:1]} and {new[:1]} of {len(data)} bytes {data[:64].hex()}")


def facts(data, old, new):
    """Of the clips that the readers accept: no new header is read by the old one; what both accept is the same clip, with the onset 0; a new
    file is the one that the writer makes; an old one can be written anew if 4 bytes more fit, and reads as the same clip."""
    if new is None:
        return old is None
    has_onset = struct.unpack_from("<H", data)[0] == 16 + 4 * new.channels
    count = new.channels * new.frames
    if has_onset:
        return old is None and size_by(new, count) == (0, len(data)) and written_by(new, count, len(data)) == (0, data)
    if old != new or new.onset != 0:
        return False
    if len(data) + 4 > 65536:
        return size_by(new, count) == (15, 0) and written_by(new, count, 65536) == (15, None)
    refused, again = written_by(new, count, len(data) + 4)
    return size_by(new, count) == (0, len(data) + 4) and refused == 0 and read_by(again, True) == (0, new)


# ---- whole files, altered and cut


def small(r, channels, frames, fields):
    """A file, valid but for a channel count of 0 or over 32."""
    return made(Clip(channels, frames, 0x473B8000, frames - 1, r.randbytes(4 * channels * frames)), fields)


def altered(r):
    """Each byte in turn, to every other value; after the first 24 of a long file, with each bit turned."""
    for fields in (OLD, NEW):
        for channels in (0, 1, 2, 32, 33):
            for frames in (1, 3):
                data = small(r, channels, frames, fields)
                compare("a whole file", data)
                for at, byte in enumerate(data):
                    others = range(1, 256) if channels <= 2 or at < 24 else (1 << k for k in range(8))
                    for other in others:
                        compare(f"byte {at} altered", data[:at] + bytes([byte ^ other]) + data[at + 1 :])


def cut(r):
    """Every truncation, and bytes added at the end or taken away and added within."""
    for fields in (OLD, NEW):
        for channels in (0, 1, 2, 32, 33):
            data = small(r, channels, 3, fields)
            for size in range(len(data)):
                compare(f"cut to {size}", data[:size])
                compare(f"4 bytes more at {size}", data[:size] + bytes(4) + data[size:])
                compare(f"4 bytes less at {size}", data[:size] + data[size + 4 :])
            for size in (*range(1, 20), 65536 - len(data), 65537 - len(data)):
                compare(f"{size} bytes more", data + r.randbytes(size))


def noise(r):
    """Random bytes of the lengths 0 to 64, and behind the first four bytes of a header."""
    for size in range(65):
        for _ in range(100):
            compare("random bytes", r.randbytes(size))
        for _ in range(20):
            channels = r.randrange(4)
            compare("random bytes behind a header's length", struct.pack("<HH", r.choice((OLD, NEW)) + 4 * channels, channels) + r.randbytes(size))


# ---- random headers

RATES = [0x473B8000] * 6 + [0x472C4400, 0x453B8000, 0x453B7FFF, 0x493B8000, 0x493B8001, 0, 0x7FC00000, 0xFFC00001, 0x7F800000, 0xFF800000, 0xC73B8000, 1]


class Parts:
    """The parts of a file, to be made false one by one."""

    def __init__(self, clip, fields):
        self.length, self.channels, self.frames, self.rate = fields + 4 * clip.channels, clip.channels, clip.frames, clip.rate
        self.onset = [clip.onset] if fields == NEW else []
        self.offsets = [self.length + 4 * clip.frames * c for c in range(clip.channels)]
        self.samples = clip.samples

    def file(self):
        numbers = [word % 2**32 for word in (self.frames, self.rate, *self.onset, *self.offsets)]
        return struct.pack(f"<HH{len(numbers)}I", self.length % 65536, self.channels % 65536, *numbers) + self.samples


def put_length(p, r):
    p.length += r.choice((-8, -4, -1, 1, 4, 8, 256, 16384))


def put_channels(p, r):
    p.channels += r.choice((-1, 1, 32, 256, 16384, 32768))


def put_frames(p, r):
    """2^30 more keep the lengths modulo 2^32."""
    p.frames = r.choice((0, p.frames - 1, p.frames + 1, p.frames + 2**30, p.frames + 2**24, 2**32 - 1))


def put_offset(p, r):
    if p.offsets:
        p.offsets[r.randrange(len(p.offsets))] += r.choice((-4, -1, 1, 4, 2**16, 2**31))


def put_offsets(p, r):
    """By the other header's length, in the other order, from another place, or all the same."""
    shift = r.choice((-4, 4, -p.length, 0, 0))
    p.offsets = [p.offsets[0]] * len(p.offsets) if shift == 0 and p.offsets and r.random() < 0.5 else [at + shift for at in reversed(p.offsets)]


def put_shift(p, r):
    shift = r.choice((-4, 4))
    p.offsets = [at + shift for at in p.offsets]


def put_onset_last(p, r):
    p.offsets, p.onset = p.offsets + p.onset, []


def put_onset(p, r):
    """An onset where there is none, or none where there is one, all else as it was."""
    p.onset = [] if p.onset else [r.randrange(3)]


def put_samples(p, r):
    p.samples = p.samples[r.choice((1, 4)) :] if r.random() < 0.5 else p.samples + r.randbytes(r.choice((1, 4)))


FAULTS = (put_length, put_channels, put_frames, put_offset, put_offsets, put_shift, put_onset_last, put_onset, put_samples)


def random_file(r):
    """A file with either header, its fields near their limits, and none, one or two of its parts false."""
    fields = r.choice((OLD, NEW))
    channels = r.choice((0, 1, 1, 1, 2, 2, 3, 31, 32, 32, 33, 34, r.randrange(1, 70)))
    frames = r.choice((1, 2, 3, r.randrange(1, 20)))
    if channels and r.random() < 0.03:  # as long as may be, or about that
        frames = max(1, (65536 - fields - 4 * channels) // (4 * channels) + r.choice((-1, 0, 0, 1)))
    onset = r.choice((0, 0, frames - 1, frames - 1, frames, frames + 1, 2**31, 2**32 - 1, r.randrange(frames)))
    p = Parts(Clip(channels, frames, r.choice(RATES), onset, r.randbytes(4 * channels * frames)), fields)
    for _ in range(r.choice((0, 0, 0, 1, 1, 2))):
        r.choice(FAULTS)(p, r)
    return p.file()


def headers(r, count):
    accepted = {OLD: 0, NEW: 0}
    for _ in range(count):
        data = random_file(r)
        compare("a random header", data)
        clip = read(data, [OLD, NEW])[1]
        if clip is not None:
            accepted[struct.unpack_from("<H", data)[0] - 4 * clip.channels] += 1
    check("enough random files are accepted", min(accepted.values()) > count // 40, accepted)


# ---- the writer


def random_clip(r):
    """A clip to be written, and the count of its samples that is said; its numbers are near their limits, or anything."""
    channels = r.choice((0, 1, 1, 1, 2, 2, 3, 31, 32, 32, 33, 8190, 8191, r.randrange(1, 70), r.getrandbits(64), HIGHEST, 2**62, 2**63))
    most = (65536 - 16 - 4 * channels) // (4 * channels) if 0 < channels < 8191 else 5
    frames = r.choice((0, 1, 2, 3, 3, r.randrange(1, 40), most, most + 1, 2**24 + 1, r.getrandbits(64), HIGHEST, 2**62, 2**63))
    if r.random() < 0.5:
        frames = min(frames, 40)
    onset = r.choice((0, 0, min(frames, 2**32) - 1, frames, frames + 1, 2**32 - 1, r.getrandbits(5))) % 2**32
    count = channels * frames
    if count > HIGHEST or r.random() < 0.2:
        count = r.choice((0, 1, count + 1, count - 1, channels, r.getrandbits(64), HIGHEST)) % 2**64
    has_samples = count * 4 <= 65536
    return Clip(channels, frames, r.choice(RATES), onset, r.randbytes(4 * count) if has_samples else b""), count, has_samples


def writer(r, count):
    """Random clips: the length, slices of other lengths, and the file, which reads as what was written."""
    numbers = dict.fromkeys((0, 15, 1, 2, 17), 0)
    for _ in range(count):
        clip, samples, has_samples = random_clip(r)
        refused, size = size_to_write(clip, samples)
        said = size_by(clip, samples)
        numbers[refused] += 1
        ok = said == (refused, size)
        if has_samples and refused:
            ok = ok and written_by(clip, samples, r.choice((0, 1, 24, 40))) == (refused, None)
        if not refused:
            others, whole = [written_by(clip, samples, other) for other in {0, 1, size - 4, size - 1, size + 1, size + 4}], made(clip)
            ok = ok and all(other == (8, None) for other in others) and written_by(clip, samples, size) == (0, whole)
            ok = ok and read_by(whole, True) == (0, clip)
        check("the writer", ok, f"{clip[:4]} of {samples} samples: {said}, not {refused, size}")
    check("the writer accepts and refuses", min(numbers.values()) > count // 100, numbers)


# ---- tools/wav_to_clip.py


def of_floats(rate, rows, onset):
    return Clip(len(rows), len(rows[0]), bits32(rate), onset, b"".join(struct.pack(f"<{len(row)}f", *row) for row in rows))


def tool_writer(r, count):
    """The tool's own writer and the library's, byte for byte."""
    for n in range(count):
        channels = r.choice((1, 1, 2, 3, 31, 32, r.randrange(1, 33)))
        most = (65536 - 16 - 4 * channels) // (4 * channels)
        frames = most if n % 50 == 0 else min(most, r.choice((1, 2, r.randrange(1, 60))))
        rows = [[r.randrange(-(2**31), 2**31) / 2**31 for _ in range(frames)] for _ in range(channels)]
        clip = of_floats(r.choice((3000, 8000, 44100, 48000, 768000, r.randrange(3000, 768001))), rows, r.choice((0, frames - 1, r.randrange(frames))))
        data = wav_to_clip.clip(float32(clip.rate), rows, clip.onset)
        check("wav_to_clip's writer", written_by(clip, channels * frames, len(data)) == (0, data), f"{clip[:4]}")
        old = wav_to_clip.clip(float32(clip.rate), rows)
        check("wav_to_clip's old writer", old == made(clip, OLD) and read_by(old, False) == (0, clip._replace(onset=0)), f"{clip[:4]}")


def put_wav(r, path, channels, width, frames, rate=44100):
    """A WAV file of random samples; its frames as numbers from -1 to 1, channel after channel."""
    data = r.randbytes(channels * width * frames)
    with wave.open(str(path), "wb") as sound:
        sound.setnchannels(channels)
        sound.setsampwidth(width)
        sound.setframerate(rate)
        sound.writeframes(data)
    values = [int.from_bytes(data[i : i + width], "little", signed=True) / 2 ** (8 * width - 1) for i in range(0, len(data), width)]
    return [values[c::channels] for c in range(channels)]


def run_tool(folder, *words):
    return run([sys.executable, TOP / "tools/wav_to_clip.py", *words], folder=folder)


def tool_runs(r, folder):
    """What the tool writes of WAV files: the bytes that are worked out here."""
    target = Path(folder, "clip.bin")
    for width in (2, 3, 4):
        for channels, frames in ((1, 300), (2, 40), (32, 7)):
            rows = put_wav(r, Path(folder, "sound.wav"), channels, width, frames)
            for first, count, onset in ((0, None, 0), (3, None, frames - 4), (2, 3, 2), (1, 10**6, 1)):
                part = [row[first:][:count] for row in rows]
                words = [first] + ([] if count is None else [count])
                done = run_tool(folder, "sound.wav", "clip.bin", *words, "--onset", onset)
                expected = made(of_floats(44100, part, onset))
                check(f"wav_to_clip {words} --onset {onset}", done.returncode == 0 and target.read_bytes() == expected, done.stdout.decode())
            done = run_tool(folder, "--old", "sound.wav", "clip.bin", 1)
            expected = made(of_floats(44100, [row[1:] for row in rows], 0), OLD)
            check("wav_to_clip --old", done.returncode == 0 and target.read_bytes() == expected, done.stdout.decode())


# a WAV file's channels, bytes of a sample, frames and rate; all but the first make no clip
SOUNDS = {
    "one": (1, 2, 10), "byte": (1, 1, 10), "many": (33, 2, 10), "slow": (1, 2, 10, 2999), "fast": (1, 2, 10, 768001), "none": (1, 2, 0),
    "long": (1, 2, 16380), "wide": (32, 3, 511), "wider": (16380, 2, 1),
}  # fmt: skip
BAD_WORDS = (
    "--onset 10", "--onset -1", "--onset 4294967296", "--onset 1.5", "--onset x", "--old --onset 0", "--old --onset 1", "4 3 --onset 3",
    "10", "11", "-1", "0 0", "0 -1", "x", "0 1 2",
)  # fmt: skip


def tool_refusals(r, folder):
    """What the tool refuses in words, and then what stood at the target stays."""
    target = Path(folder, "clip.bin")
    target.write_bytes(b"as it was")
    for name, shape in SOUNDS.items():
        put_wav(r, Path(folder, f"{name}.wav"), *shape)
    sound = Path(folder, "one.wav").read_bytes()
    Path(folder, "cut.wav").write_bytes(sound[:-3])
    Path(folder, "header.wav").write_bytes(sound[:30])
    Path(folder, "packed.wav").write_bytes(sound[:20] + b"\x11" + sound[21:])
    Path(folder, "text.wav").write_bytes(b"no sound")
    cases = [[f"{name}.wav"] for name in (*SOUNDS, "cut", "header", "packed", "text", "absent") if name != "one"]
    for source, *words in cases + [["one.wav", *words.split()] for words in BAD_WORDS]:
        done = run_tool(folder, source, "clip.bin", *words)
        said = done.stdout.decode()
        ok = done.returncode != 0 and said and "Traceback" not in said and target.read_bytes() == b"as it was"
        check(f"wav_to_clip {source} {words} is refused", ok, said)
    done = run_tool(folder, "one.wav", "none/clip.bin")
    check("wav_to_clip to no folder", done.returncode != 0 and b"Traceback" not in done.stdout, done.stdout.decode())
    done = [run_tool(folder, "long.wav", "clip.bin", 1), run_tool(folder, "--old", "long.wav", "clip.bin")]
    check("the longest clips", [x.returncode for x in done] == [0, 0] and len(target.read_bytes()) == 65536, done[0].stdout.decode())


# ---- trial

PLAYED = "S 0000000000000000 0000000000000000 7FEFFFFFFFFFFFFF\nL 1\nB\nB\nB\n"


def trial_files(r, count):
    """A file for each refusal past 15; whole files, each with one byte altered, and random ones."""
    for clip in (Clip(33, 1, RATES[0], 0, bytes(132)), Clip(1, 3, 0, 3, bytes(12)), Clip(1, 3, RATES[0], 3, bytes(12))):
        yield made(clip)
    for _ in range(count // 4):
        data = small(r, r.choice((1, 2, 3, 32)), r.randrange(1, 300 if r.random() < 0.3 else 9), r.choice((OLD, NEW)))
        at = r.randrange(min(len(data), 40))
        yield data
        yield data[:at] + bytes([data[at] ^ r.randrange(1, 256)]) + data[at + 1 :]
        yield random_file(r)
        yield random_file(r)


def trial(r, count):
    """`trial` is a new reader: it prints the refusal's number, or plays the frames, looped."""
    if not program("trial").exists():
        print("clip files: crates/trial/out/trial is not built, so it is not tried")
        return
    command, numbers = subject("trial"), {}
    with tempfile.TemporaryDirectory() as folder:
        for data in trial_files(r, count):
            Path(folder, "clip.bin").write_bytes(data)
            printed = run(command, PLAYED.encode(), folder).stdout.decode()
            refused, clip = read(data, [OLD, NEW])
            expected = f"X {refused}\n"
            if clip is not None:
                rows = [struct.unpack_from(f"<{clip.frames}I", clip.samples, 4 * clip.frames * c) for c in range(clip.channels)]
                expected = transcripts.looped(rows, 3)
            numbers[refused] = numbers.get(refused, 0) + 1
            check("trial", printed == expected, f"{data[:64].hex()}: printed {printed[:100]!r}, expected {expected[:100]!r}")
    check("trial plays and refuses", set(numbers) == {0, 15, 1, 2, 17}, numbers)


def main(both):
    if not library():
        return 0
    open_library()
    r = random.Random(1)
    altered(r)
    cut(r)
    for seed in both:
        check.seed, r = seed, random.Random(seed)
        noise(r)
        headers(r, 20000)
        writer(r, 10000)
        tool_writer(r, 200)
        trial(r, 200)
    with tempfile.TemporaryDirectory() as folder:
        tool_runs(r, folder)
        tool_refusals(r, folder)
    return check.ended()


if __name__ == "__main__":
    sys.exit(main(seeds(__doc__)))
