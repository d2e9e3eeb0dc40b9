#!/usr/bin/env python3
"""Tries the program qoa_decode as a user would, against the source's decoder (target/oracle/oracle).

Run from the repository's root, after `rt check qoa_decode` and `bash tools/oracle/build.sh`. Prints how many runs were
compared, or the first that differs, with status 1. On a machine that is no x86-64 one the program runs under the kit's
emulator.
"""
import os
import platform
import pty
import signal as signals
import struct
import subprocess
import sys

PROGRAM, ORACLE = ["target/bin/qoa_decode"], "target/oracle/oracle"
if platform.machine() != "x86_64":
    doc = subprocess.run(["rt", "doc"], capture_output=True, check=True, text=True).stdout.strip()
    kit = os.path.dirname(os.path.dirname(doc))
    emulator = f"{kit}/on/{platform.machine()}/toolchain/bin/qemu-x86_64"
    library = f"{kit}/toolchain/lib"
    PROGRAM = [emulator, f"{library}/ld-linux-x86-64.so.2", "--library-path", library] + PROGRAM
USAGE = (
    b"usage: qoa_decode < FILE.qoa > SAMPLES.raw\n"
    b"Samples are 16-bit little-endian. A number or words on standard error: the file was refused, or something failed.\n"
)
MOST_BYTES = 4294967295
runs = 0


def fail(what, *more):
    print("difference:", what, *more)
    sys.exit(1)


def play(data):
    done = subprocess.run(PROGRAM, input=data, capture_output=True, check=False)
    return done.stdout, done.stderr


def source(data):
    """The source's samples of a good file."""
    done = subprocess.run([ORACLE, "decode"], input=data, capture_output=True, check=True)
    return done.stdout


def expect(data, out, err, what):
    global runs
    runs += 1
    got = play(data)
    if got != (out, err):
        fail(what, "stdout", len(got[0]), "for", len(out), "stderr", got[1], "for", err)


def said(what, err, **how):
    """A run that writes nothing, and says just this."""
    global runs
    runs += 1
    words = how.pop("words", [])
    how.setdefault("stdout", subprocess.PIPE)
    done = subprocess.run(PROGRAM + words, stderr=subprocess.PIPE, check=False, **how)
    if (done.stdout or b"", done.stderr) != (b"", err):
        fail(what, "stdout", done.stdout, "stderr", done.stderr, "for", err)
    return done


def head(c, rate, n, size=None):
    slices = (n + 19) // 20
    size = 8 + 16 * c + 8 * c * slices if size is None else size
    return struct.pack(">IHH", c << 24 | rate, n, size & 0xFFFF)


def signal(kind, n, c):
    return subprocess.run([ORACLE, "signal", kind, str(n), str(c)], capture_output=True, check=True).stdout


def encode(raw, c, rate):
    return subprocess.run([ORACLE, "encode", str(c), str(rate)], input=raw, capture_output=True, check=True).stdout


def frames(data):
    """The places where the frames of a good file end."""
    at, ends = 8, []
    while len(data) - at >= 8:
        c, n = data[at], struct.unpack(">H", data[at + 4 : at + 6])[0]
        at += 8 + 16 * c + 8 * c * ((n + 19) // 20)
        ends.append(at)
    return ends


def cuts(data):
    """The file cut at every byte."""
    ends = frames(data)
    samples = {8: b""}
    for end in ends:
        samples[end] = source(data[:end])
    for k in range(len(data) + 1):
        if k < 8:
            expect(data[:k], b"", b"5\n", f"cut at {k}")
            continue
        last = max([e for e in ends if e <= k], default=8)
        left = k - last
        if last == 8 and left < 8:
            err = b"2\n"
        elif left < 8:
            err = b""
        else:
            err = b"5\n"
        expect(data[:k], samples[last], err, f"cut at {k}")


def frame(c, slices, rate=44100):
    """A frame of so many slices a channel, of any bytes. Its size field, which has no say in how long it is, is that of one slice a channel."""
    body = 16 * c + 8 * c * slices
    return head(c, rate, 20 * slices, 8 + 24 * c) + bytes(i * 7 % 256 for i in range(body))


def refusals(small):
    """Each refusal, in both modes where they differ."""
    expect(b"", b"", b"5\n", "an empty input")
    expect(b"qoag" + small[4:], b"", b"1\n", "another magic")
    expect(small[:8] + head(9, 44100, 1) + b"\0" * 300, b"", b"6\n", "nine channels")
    expect(small[:8] + head(1, 0, 1) + b"\0" * 300, b"", b"3\n", "no rate")
    good = small[8:]
    for total in (0, 1):
        start = b"qoaf" + struct.pack(">I", total)
        out = source(start + good)
        other = head(2, 44101, 43) + good[8:]
        expect(start + good + other, out, b"4\n", f"another rate, total {total}")
        # fixed: 4 before the predictor state; streaming: 5 first where it is cut
        expect(start + good + other[:20], out, b"4\n" if total else b"5\n", f"another rate, cut, total {total}")
        for c in (1, 3, 8):
            expect(start + good + frame(c, 2), out, b"4\n", f"{c} channels after 2, total {total}")
        none = head(1, 1, 0, 25) + b"\0" * 16
        expect(start + none * 3, b"", b"", f"frames without samples, total {total}")


def sizes():
    """Frames of the largest size that is held, 65528 bytes, and of the next that there is, 65544."""
    for total in (0, 1):
        start = b"qoaf" + struct.pack(">I", total)
        for c, slices in ((3, 2728), (5, 1636), (6, 1363), (7, 1168), (8, 1021)):
            data = start + frame(c, slices)
            expect(data, source(data), b"", f"{len(data) - 8} bytes, {c} channels, total {total}")
        for c, slices in ((4, 2046), (8, 1022)):
            data = start + frame(c, slices)
            if len(data) != 8 + 65544:
                fail("a frame of another size than meant", len(data) - 8)
            expect(data, b"", b"frame too large\n", f"65544 bytes, {c} channels, total {total}")
            expect(data[:200], b"", b"frame too large\n", f"65544 bytes, cut, {c} channels, total {total}")
        large = start + frame(8, 3276)
        expect(large, b"", b"frame too large\n", f"the largest frame, total {total}")
        expect(large[:100], b"", b"frame too large\n" if total else b"5\n", f"the largest frame, cut, total {total}")
        first = start + frame(4, 2)
        expect(first + frame(4, 2046), source(first), b"frame too large\n", f"too large after a good frame, total {total}")


def lengths():
    """Inputs of the most bytes that a file has, and of one more: 9 goes first."""
    os.makedirs("target/program", exist_ok=True)
    for length, err in ((MOST_BYTES, b"1\n"), (MOST_BYTES + 1, b"9\n")):
        with open("target/program/long", "wb") as f:
            f.truncate(length)
        with open("target/program/long", "rb") as f:
            said(f"{length} bytes", err, stdin=f)
    os.remove("target/program/long")
    with open("/dev/zero", "rb") as f:
        said("an input without an end", b"9\n", stdin=f)


def streams(small, two):
    """What is read from and written to: pipes, closed ends, a folder, a terminal."""
    global runs
    p = subprocess.Popen(PROGRAM, stdin=subprocess.PIPE, stdout=subprocess.PIPE, stderr=subprocess.PIPE)
    for b in two:
        p.stdin.write(bytes([b]))
        p.stdin.flush()
    if p.communicate() != (source(two), b""):
        fail("a byte at a time")
    # a write that fails is said in words, and not taken for the end
    with open("/dev/full", "wb") as full:
        said("a full output", b"write failed\n", input=small, stdout=full)
    said("a closed output", b"write failed\n", input=small, stdout=None, preexec_fn=lambda: os.close(1))
    # where nobody reads, the signal ends the program at once; where the signal is ignored, it is a write that fails
    for restore, err in ((True, b""), (False, b"write failed\n")):
        read, write = os.pipe()
        os.close(read)
        done = said("an output that nobody reads", err, input=small, stdout=write, restore_signals=restore)
        os.close(write)
        if restore and done.returncode not in (-signals.SIGPIPE, 128 + signals.SIGPIPE):
            fail("an output that nobody reads: status", done.returncode)
    folder = os.open(".", os.O_RDONLY)
    said("a folder as the input", b"read failed\n", stdin=folder)
    os.close(folder)
    said("a closed input", b"read failed\n", stdin=None, preexec_fn=lambda: os.close(0))
    # how it is used, with nothing read
    for words in (["x"], [""], ["--help"], ["a", "b"]):
        with open("crates/qoa_decode/stdin", "rb") as f:
            said(f"arguments {words}", USAGE, words=words, stdin=f)
            if os.lseek(f.fileno(), 0, os.SEEK_CUR) != 0:
                fail("with an argument something was read")
    ours, theirs = pty.openpty()
    said("a terminal as the input", USAGE, stdin=theirs, timeout=60)
    os.close(ours)
    os.close(theirs)
    runs += 1


def main():
    small = encode(signal("speech", 43, 2), 2, 44100)
    # two frames in a file, by hand: the second frame again
    two = small + small[8:]
    cuts(small)
    cuts(two)
    cuts(encode(signal("noise", 21, 8), 8, 48000))
    for c in range(1, 9):
        for kind in ("speech", "noise", "square"):
            data = encode(signal(kind, 5500, c), c, 16777215)
            expect(data, source(data), b"", f"{kind}, {c} channels")
            expect(data + b"\0" * 7, source(data), b"", f"{kind}, {c} channels, a tail")
    refusals(small)
    sizes()
    streams(small, two)
    lengths()
    print(f"{runs} runs of qoa_decode compared, 0 differences")


main()
