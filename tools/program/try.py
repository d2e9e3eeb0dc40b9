#!/usr/bin/env python3
"""Tries the program qoa_decode as a user would, against the source's decoder (target/oracle/oracle).

Run from the repository's root, after `rt run` in crates/qoa_decode and `bash tools/oracle/build.sh`. Prints how many runs were
compared, or the first that differs, with status 1. On a machine that is no x86-64 one the program runs under the kit's
emulator.
"""
import os
import platform
import struct
import subprocess
import sys

PROGRAM, ORACLE = ["crates/qoa_decode/out/qoa_decode"], "target/oracle/oracle"
if platform.machine() != "x86_64":
    doc = subprocess.run(["rt", "doc"], capture_output=True, check=True, text=True).stdout.strip()
    kit = os.path.dirname(os.path.dirname(doc))
    emulator = f"{kit}/on/{platform.machine()}/toolchain/bin/qemu-x86_64"
    library = f"{kit}/toolchain/lib"
    PROGRAM = [emulator, f"{library}/ld-linux-x86-64.so.2", "--library-path", library] + PROGRAM
runs = 0


def fail(what, *more):
    print("difference:", what, *more)
    sys.exit(1)


def play(data):
    done = subprocess.run(PROGRAM, input=data, capture_output=True, check=False)
    return done.stdout, done.stderr


def source(data):
    """The source's samples of a good file."""
    done = subprocess.run([ORACLE, "decode"], input=data, capture_output=True, check=True)
    return done.stdout


def expect(data, out, err, what):
    global runs
    runs += 1
    got = play(data)
    if got != (out, err):
        fail(what, "stdout", len(got[0]), "for", len(out), "stderr", got[1], "for", err)


def head(c, rate, n, size=None):
    slices = (n + 19) // 20
    size = 8 + 16 * c + 8 * c * slices if size is None else size
    return struct.pack(">IHH", c << 24 | rate, n, size & 0xFFFF)


def signal(kind, n, c):
    return subprocess.run([ORACLE, "signal", kind, str(n), str(c)], capture_output=True, check=True).stdout


def encode(raw, c, rate):
    return subprocess.run([ORACLE, "encode", str(c), str(rate)], input=raw, capture_output=True, check=True).stdout


def frames(data):
    """The places where the frames of a good file end."""
    at, ends = 8, []
    while len(data) - at >= 8:
        c, n = data[at], struct.unpack(">H", data[at + 4 : at + 6])[0]
        at += 8 + 16 * c + 8 * c * ((n + 19) // 20)
        ends.append(at)
    return ends


def cuts(data):
    """The file cut at every byte."""
    ends = frames(data)
    samples = {8: b""}
    for end in ends:
        samples[end] = source(data[:end])
    for k in range(len(data) + 1):
        if k < 8:
            expect(data[:k], b"", b"5\n", f"cut at {k}")
            continue
        last = max([e for e in ends if e <= k], default=8)
        left = k - last
        if last == 8 and left < 8:
            err = b"2\n"
        elif left < 8:
            err = b""
        else:
            err = b"5\n"
        expect(data[:k], samples[last], err, f"cut at {k}")


def main():
    small = encode(signal("speech", 43, 2), 2, 44100)
    # two frames in a file, by hand: the second frame again
    two = small + small[8:]
    cuts(small)
    cuts(two)
    for c in range(1, 9):
        for kind in ("speech", "noise", "square"):
            data = encode(signal(kind, 5500, c), c, 16777215)
            expect(data, source(data), b"", f"{kind}, {c} channels")
            expect(data + b"\0" * 7, source(data), b"", f"{kind}, {c} channels, a tail")
    expect(b"", b"", b"5\n", "an empty input")
    expect(b"qoag" + small[4:], b"", b"1\n", "another magic")
    expect(small[:8] + head(9, 44100, 1) + b"\0" * 300, b"", b"6\n", "nine channels")
    expect(small[:8] + head(1, 0, 1) + b"\0" * 300, b"", b"3\n", "no rate")
    for total in (0, 1):
        start = b"qoaf" + struct.pack(">I", total)
        good = small[8:]
        other = head(2, 44101, 43) + good[8:]
        out = source(start + good)
        expect(start + good + other, out, b"4\n", f"another rate, total {total}")
        # fixed: 4 before the predictor state; streaming: 5 first where it is cut
        expect(start + good + other[:20], out, b"4\n" if total else b"5\n", f"another rate, cut, total {total}")
        large = head(8, 44100, 65535, 200 + 64) + b"\0" * 70000
        expect(start + large, b"", b"frame too large\n", f"a frame too large, total {total}")
        expect(start + large[:100], b"", b"frame too large\n" if total else b"5\n", f"a frame too large, cut, total {total}")
        # the largest frame that fits: 8 channels, 1020 slices each, in 65536 bytes less a little
        fits = head(8, 44100, 20400, 264) + bytes(i * 7 % 256 for i in range(128 + 64 * 1020))
        expect(start + fits, source(start + fits), b"", f"a frame that just fits, total {total}")
        none = head(1, 1, 0, 25) + b"\0" * 16
        expect(start + none * 3, b"", b"", f"frames without samples, total {total}")

    # an input that comes a byte at a time
    global runs
    p = subprocess.Popen(PROGRAM, stdin=subprocess.PIPE, stdout=subprocess.PIPE, stderr=subprocess.PIPE)
    for b in two:
        p.stdin.write(bytes([b]))
        p.stdin.flush()
    out, err = p.communicate()
    if (out, err) != (source(two), b""):
        fail("a byte at a time")
    # an output that is full: said in words, and not taken for the end
    with open("/dev/full", "wb") as full:
        done = subprocess.run(PROGRAM, input=small, stdout=full, stderr=subprocess.PIPE, check=False)
    if done.stderr != b"write failed\n":
        fail("a full output", done.stderr)
    # a closed output ends the program at once
    read, write = os.pipe()
    os.close(read)
    done = subprocess.run(PROGRAM, input=small, stdout=write, stderr=subprocess.PIPE, check=False)
    os.close(write)
    # an input that can't be read: a folder
    folder = os.open(".", os.O_RDONLY)
    done = subprocess.run(PROGRAM, stdin=folder, capture_output=True, check=False)
    os.close(folder)
    if done.stderr != b"read failed\n":
        fail("an input that can't be read", done.stderr)
    runs += 4
    print(f"{runs} runs of qoa_decode compared, 0 differences")


main()
