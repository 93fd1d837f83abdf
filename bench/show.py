#!/usr/bin/env python3
"""Measures the program's `show` against `wc -c`, which only counts the bytes of the same pipe.

Usage: bench/show.py [MEGABYTES]     (size of the stream; 100 where none is given)

A stream logs in once and then has WRITE(10) commands of 8 blocks, and another one of 1,024 blocks. `cat` puts it in a
pipe, once to `wc -c` and once to `show`, whose text goes to a file. Times are the fastest of several runs, by turns. The
time to write the text is that of `cat` of the text to a file.

Exit status: 0 where the bound holds, 1 where it doesn't, 2 where nothing could be measured.
"""
import os
import subprocess
import sys
import tempfile
import time

HOME = os.path.dirname(os.path.dirname(os.path.abspath(__file__)))
PROGRAM = os.path.join(HOME, "crates", "prtool", "out", "prtool")
ROUNDS = 9

MOST = 3  # times as long as `wc -c`, and the time to write the text


def frame(kind, tag, body):
    return (8 + len(body)).to_bytes(4, "big") + bytes([kind, 0, 0, 0]) + tag.to_bytes(4, "big") + body


def write(tag, blocks):
    cdb = bytes([0x2A]) + bytes(6) + blocks.to_bytes(2, "big") + bytes(1)
    return frame(2, tag, bytes([len(cdb), 0, 0, 0]) + cdb.ljust(16, b"\0") + bytes(512 * blocks))


LOGIN = frame(1, 1, bytes.fromhex("010000010000000000000011"))


def stream(path, blocks, size):
    """So many bytes, and those that the last frame needs."""
    with open(path, "wb") as file:
        tag = 2
        left = size - file.write(LOGIN)
        while left > 0:
            left -= file.write(write(tag, blocks))
            tag += 1
    return tag - 1


def piped(source, words, sink):
    """The seconds of `cat source | words > sink`."""
    with open(sink, "wb") as out:
        start = time.perf_counter()
        with subprocess.Popen(["cat", source], stdout=subprocess.PIPE) as giver:
            subprocess.run(words, stdin=giver.stdout, stdout=out, check=True)
        return time.perf_counter() - start


def copied(text, sink):
    with open(sink, "wb") as out:
        start = time.perf_counter()
        subprocess.run(["cat", text], stdout=out, check=True)
        return time.perf_counter() - start


def measure(folder, blocks, size):
    source, text, other = (os.path.join(folder, name) for name in ("stream", "text", "other"))
    frames = stream(source, blocks, size)
    rounds = [(piped(source, ["wc", "-c"], other), piped(source, [PROGRAM, "show"], text)) for _ in range(ROUNDS)]
    counts, shows = (min(times) for times in zip(*rounds))
    with open(text, "rb") as file:
        lines = file.read().splitlines()
    if len(lines) != frames + 1 or lines[-1] != b"end frames=%d" % frames:
        print(f"{blocks} blocks: the text is wrong: {lines[-1:]}")
        return False
    writes = min(copied(text, other) for _ in range(ROUNDS))
    holds = shows <= MOST * counts + writes
    print(
        f"{blocks} blocks a frame, {frames} frames: wc -c {1000 * counts:.1f} ms, show {1000 * shows:.1f} ms, "
        f"the text {1000 * writes:.1f} ms; ratio {(shows - writes) / counts:.2f}"
    )
    return holds


def main():
    if not os.access(PROGRAM, os.X_OK):
        print("the program isn't built: run ./prtool replay 1 </dev/null first", file=sys.stderr)
        return 2
    size = (int(sys.argv[1]) if len(sys.argv) > 1 else 100) * 1_000_000
    with tempfile.TemporaryDirectory() as folder:
        found = [measure(folder, blocks, size) for blocks in (8, 1024)]
    print(f"bound: {'holds' if all(found) else 'BROKEN'}")
    return 0 if all(found) else 1


if __name__ == "__main__":
    sys.exit(main())
