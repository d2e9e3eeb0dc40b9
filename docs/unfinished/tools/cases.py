#!/usr/bin/env python3
"""Makes what the gate runs the program's run on: the files of crates/played/data, its args, and its stdout.

Run from the repository's root, after `bash tools/oracle/build.sh`: the samples are the source's. What is said is written here, from
docs/FORMAT.md. With --check it compares the files with what it would write.
"""
import os
import struct
import subprocess
import sys

HOME, ORACLE = "crates/played", "target/oracle/oracle"


def source(data):
    """The source's samples of a good file."""
    return subprocess.run([ORACLE, "decode"], input=data, capture_output=True, check=True).stdout


def frame(c, n, rate=44100, slices=None):
    """A frame of n samples a channel, of any bytes; its size field is that of one slice a channel."""
    count = (n + 19) // 20 if slices is None else slices
    body = bytes(i * 11 % 256 for i in range(16 * c + 8 * c * count))
    return struct.pack(">IHH", c << 24 | rate, n, 8 + 24 * c) + body


FIXED, STREAM = b"qoaf\0\0\0\x05", b"qoaf\0\0\0\0"
ONE, OTHER_RATE, OTHER_CHANNELS = frame(2, 5), frame(2, 5, 44101), frame(1, 5)
LARGE = frame(8, 65535, slices=0)

# A name, the bytes, how many of them are a good file that is heard, and what is said.
CASES = [
    ("one_frame", FIXED + ONE, 0, ""),
    ("two_frames", STREAM + ONE + frame(2, 21), 0, ""),
    ("eight_channels", FIXED + frame(8, 3), 0, ""),
    ("no_bytes", b"", None, "5"),
    ("file_header_cut", FIXED[:7], None, "5"),
    ("another_magic", b"qoag" + FIXED[4:] + ONE, None, "1"),
    ("no_frame", FIXED, None, "2"),
    ("frame_header_cut", FIXED + ONE[:7], None, "2"),
    ("no_channels", FIXED + frame(0, 5), None, "3"),
    ("no_rate", FIXED + frame(2, 5, 0), None, "3"),
    ("nine_channels", FIXED + frame(9, 5), None, "6"),
    ("predictors_cut", FIXED + ONE[:39], None, "5"),
    ("slices_cut", FIXED + ONE[:-1], None, "5"),
    ("second_frame_cut", STREAM + ONE + ONE[:-1], 8 + len(ONE), "5"),
    ("another_rate_in_a_file", FIXED + ONE + OTHER_RATE, 8 + len(ONE), "4"),
    ("another_rate_in_a_file_and_cut", FIXED + ONE + OTHER_RATE[:8], 8 + len(ONE), "4"),
    ("another_rate_in_a_stream", STREAM + ONE + OTHER_RATE, 8 + len(ONE), "4"),
    ("another_rate_in_a_stream_and_cut", STREAM + ONE + OTHER_RATE[:39], 8 + len(ONE), "5"),
    ("other_channels_in_a_stream", STREAM + ONE + OTHER_CHANNELS, 8 + len(ONE), "4"),
    ("frame_too_large", FIXED + LARGE, None, "frame too large"),
    ("second_frame_too_large", STREAM + frame(8, 3) + LARGE, 8 + len(frame(8, 3)), "frame too large"),
]

# What is no file of data/: a folder, a name that nothing has, and an input without an end, which is too long.
OTHERS = [(".", "read failed"), ("missing", "read failed"), ("/dev/zero", "9")]


def line(text):
    return text.encode() + b"\n" if text else b""


def heard(data, good):
    return b"" if good is None else source(data[:good] if good else data)


def made():
    """Every file by its name: the contents."""
    files, names, out = {}, [], b""
    for name, data, good, says in CASES:
        files[f"data/{name}"] = data
        names.append(name)
        out += line(name) + heard(data, good) + line(says)
    for name, says in OTHERS:
        names.append(name)
        out += line(name) + line(says)
    # the last once more, and then with an output that takes nothing
    last, data, _, _ = CASES[1]
    names.append(last)
    out += line(last) + source(data) + line(last) + line("write failed")
    files["args"] = "".join(f"{name}\n" for name in names).encode()
    files["stdout"] = out
    return files


def main():
    files = made()
    os.makedirs(f"{HOME}/data", exist_ok=True)
    there = {"args", "stdout"} | {f"data/{name}" for name in os.listdir(f"{HOME}/data")}
    for name in sorted(there | set(files)):
        path = f"{HOME}/{name}"
        old = open(path, "rb").read() if os.path.exists(path) else None
        if old == files.get(name):
            continue
        if "--check" in sys.argv:
            print("another file than would be written:", path)
            sys.exit(1)
        if name in files:
            with open(path, "wb") as f:
                f.write(files[name])
        else:
            os.remove(path)
    print(f"{len(CASES) + len(OTHERS) + 2} runs, {sum(len(f) for f in files.values())} bytes")


main()
