#!/usr/bin/env python3
"""Measures the program's `replay`: commands a second, instructions a command and a step, bytes a second, resident memory.

Usage: bench/replay.py [COMMANDS]     (commands of a timed run; 200000 where none are given)

A schedule of one lane logs in, takes the attention of the power-up and registers a key, and then has so many times the
same command, each as an arrival and a step. Before that, 255 other nexuses may log in on the lane, each of whose
connections is closed, so that 256 nexuses are known. A schedule of 64 lanes logs each in, and then each in turn
registers, reserves and releases. With a type of registrants only, each release tells the other 63, so each lane begins
with a command that takes that attention.

A READ or WRITE of 1,024 blocks is admitted by a step, and then moves a block with each further one. What such a step
costs, from its record on, comes from two schedules that differ in the number of these steps alone. Bytes a second are
those of WRITEs, and of READs, of 1,024 blocks, one after another, each of which arrives, is stepped and is answered.

Times come from the fastest of several runs, less that of a run with no such command. Instructions are counted by
callgrind over two lengths, and their difference is divided, so that start-up cancels. Memory is the peak that the
system tells of the process when the last reply has come. Bytes a second have a bound only where this machine copies
memory fast enough, which is measured beside them.

Exit status: 0 where the bounds hold, 1 where one doesn't, 2 where nothing could be measured.
"""
import os
import re
import shutil
import subprocess
import sys
import tempfile
import time

HOME = os.path.dirname(os.path.dirname(os.path.abspath(__file__)))
PROGRAM = os.path.join(HOME, "crates", "prtool", "out", "prtool")
LANES = 64
KNOWN = 256
ROUNDS = 7
COUNTED = (2000, 12000)
COUNTED_STEPS = (24, 1024)
BLOCKS = 1024  # of a READ or WRITE, which is the most
TRANSFERS = 200  # of these in a timed run

MOST_INSTRUCTIONS = 3000  # of a TEST UNIT READY, from arrival to reply
MOST_GROWTH = 1.15  # of these instructions, where 256 nexuses are known, to those where one is
MOST_MEMORY = 8 * 1024  # KiB resident, with one lane
MOST_MEMORY_OF_ALL = 72 * 1024  # KiB resident, with 64 lanes
MOST_OF_A_STEP = 500  # instructions of a step that moves a block, with its copy
LEAST_BYTES = 400e6  # a second, of WRITEs
LEAST_COPIED = 5e9  # bytes a second, where LEAST_BYTES is asked for
LEAST_SHARE = 0.5  # of the rate of a TEST UNIT READY on one lane, where 64 lanes reserve


def arrivals(text, lane):
    """The text as it arrives: in pieces of at most 65535 bytes."""
    pieces = (text[at : at + 65535] for at in range(0, len(text), 65535))
    return b"".join(bytes([lane, 0]) + len(piece).to_bytes(2, "big") + piece for piece in pieces)


def frame(kind, tag, body):
    return (8 + len(body)).to_bytes(4, "big") + bytes([kind, 0, 0, 0]) + tag.to_bytes(4, "big") + body


def command(tag, cdb, data=b""):
    return frame(2, tag, bytes([len(cdb), 0, 0, 0]) + cdb.ljust(16, b"\0") + data)


def turn(text, lane=0):
    return arrivals(text, lane) + bytes([lane, 1, 0, 0])


STEP = bytes([0, 1, 0, 0])
CLOSE = bytes([0, 2, 0, 0])
TEST_UNIT_READY = bytes(6)
REGISTER_AND_IGNORE = bytes.fromhex("5F060000000000001800")
READ_KEYS = bytes.fromhex("5E000000000000010000")
WRITE = bytes.fromhex("2A000000000000040000")
WRITE_BEHIND = bytes.fromhex("2A000000040000040000")
READ = bytes.fromhex("28000000000000040000")
LONGEST = bytes(512 * BLOCKS)


def login(lane):
    return bytes.fromhex("01000001") + (0x11 + lane).to_bytes(8, "big")


def keys(key, action_key):
    """A parameter list."""
    return key.to_bytes(8, "big") + action_key.to_bytes(8, "big") + bytes(8)


def reserve(action, kind):
    return bytes([0x5F, action, kind]) + bytes.fromhex("00000000001800")


OPENING = (
    turn(frame(1, 1, login(0)))
    + turn(command(2, TEST_UNIT_READY))
    + turn(command(3, REGISTER_AND_IGNORE, keys(0, 0x90010001)))
)


OTHERS = b"".join(turn(frame(1, 1, login(other))) + CLOSE for other in range(1, KNOWN))


def schedule(cdb, count, before=b""):
    return before + OPENING + b"".join(turn(command(tag, cdb)) for tag in range(4, 4 + count))


def stepped(cdb, data, steps, before=b""):
    """A READ or WRITE that is admitted and takes so many steps."""
    return before + OPENING + turn(command(4, cdb, data)) + steps * STEP


def transfers(cdb, data, count):
    """So many READs or WRITEs, each of which is answered by the step behind its last block."""
    return OPENING + count * (turn(command(4, cdb, data)) + (BLOCKS + 1) * STEP)


def cluster(kind, rounds):
    """So many rounds of all lanes, and how many commands these are."""
    frames = []
    if kind > 4:
        frames.append(command(2, TEST_UNIT_READY))
    key = 0x90010001
    frames += [command(3, REGISTER_AND_IGNORE, keys(0, key))]
    frames += [command(4, reserve(1, kind), keys(key, 0)), command(5, reserve(2, kind), keys(key, 0))]
    opening = b"".join(
        turn(frame(1, 1, login(lane)), lane)
        + turn(command(2, TEST_UNIT_READY), lane)
        + turn(command(3, REGISTER_AND_IGNORE, keys(0, key)), lane)
        for lane in range(LANES)
    )
    one = b"".join(turn(text, lane) for lane in range(LANES) for text in frames)
    return opening + rounds * one, rounds * LANES * len(frames)


def words(lanes):
    return [PROGRAM, "replay", str(lanes)]


def seconds(path, folder, lanes):
    best = None
    for _ in range(ROUNDS):
        with open(path, "rb") as source, open(os.path.join(folder, "out"), "wb") as sink:
            start = time.perf_counter()
            subprocess.run(words(lanes), stdin=source, stdout=sink, check=True)
            took = time.perf_counter() - start
        best = took if best is None else min(best, took)
    return best


def instructions(path, lanes):
    with open(path, "rb") as source:
        told = subprocess.run(
            ["valgrind", "--tool=callgrind", "--callgrind-out-file=/dev/null", *words(lanes)],
            stdin=source, stdout=subprocess.DEVNULL, stderr=subprocess.PIPE, text=True, check=True,
        ).stderr
    return int(re.search(r"Collected : (\d+)", told).group(1))


def memory(lanes):
    """The peak of the resident memory, in KiB, asked for while the program still waits for more.

    Each lane ends with the longest frame, whose data-out fills the ring and the work buffer, and writes every block.
    """
    text = b"".join(
        turn(frame(1, 1, login(lane)), lane)
        + turn(command(2, TEST_UNIT_READY), lane)
        + turn(command(3, WRITE, LONGEST), lane)
        + (BLOCKS + 1) * bytes([lane, 1, 0, 0])
        + turn(command(4, WRITE_BEHIND, LONGEST), lane)
        + (BLOCKS + 1) * bytes([lane, 1, 0, 0])
        for lane in range(lanes)
    )
    with subprocess.Popen(words(lanes), stdin=subprocess.PIPE, stdout=subprocess.PIPE) as child:
        child.stdin.write(text)
        child.stdin.flush()
        time.sleep(1)
        with open(f"/proc/{child.pid}/status") as status:
            peak = int(re.search(r"VmHWM:\s+(\d+) kB", status.read()).group(1))
        child.stdin.close()
        child.stdout.read()
    print(f"resident memory with {lanes} lanes: {peak} KiB at its peak")
    return peak


def write(folder, name, text):
    path = os.path.join(folder, name)
    with open(path, "wb") as file:
        file.write(text)
    return path


def told(name, rate, each):
    counted = "not counted" if each is None else f"{each:.0f}"
    print(f"{name}: {rate:.0f} commands/s, instructions a command {counted}")


def measure(folder, name, cdb, count, before=b""):
    """Commands a second, and instructions a command or None."""
    opening = seconds(write(folder, "opening", schedule(cdb, 0, before)), folder, 1)
    path = write(folder, "schedule", schedule(cdb, count, before))
    rate = count / (seconds(path, folder, 1) - opening)
    each = None
    if shutil.which("valgrind"):
        few, many = (instructions(write(folder, "counted", schedule(cdb, n, before)), 1) for n in COUNTED)
        each = (many - few) / (COUNTED[1] - COUNTED[0])
    told(name, rate, each)
    return rate, each


def measure_step(folder, name, cdb, data, before=b""):
    """Instructions of a step that moves a block, or None."""
    if not shutil.which("valgrind"):
        return None
    few, many = (instructions(write(folder, "counted", stepped(cdb, data, n, before)), 1) for n in COUNTED_STEPS)
    each = (many - few) / (COUNTED_STEPS[1] - COUNTED_STEPS[0])
    print(f"{name}: instructions a step {each:.0f}")
    return each


def measure_bytes(folder, name, cdb, data):
    """Bytes a second of READs or WRITEs of 1,024 blocks."""
    opening = seconds(write(folder, "opening", transfers(cdb, data, 0)), folder, 1)
    path = write(folder, "schedule", transfers(cdb, data, TRANSFERS))
    rate = TRANSFERS * len(LONGEST) / (seconds(path, folder, 1) - opening)
    print(f"{name}: {rate / 1e6:.0f} MB/s")
    return rate


def copied():
    """Bytes a second that this machine copies from memory to memory."""
    source = bytearray(1 << 26)
    target = memoryview(bytearray(1 << 26))
    best = None
    for _ in range(ROUNDS):
        start = time.perf_counter()
        target[:] = source
        took = time.perf_counter() - start
        best = took if best is None else min(best, took)
    rate = len(source) / best
    print(f"memory is copied at {rate / 1e9:.1f} GB/s")
    return rate


def measure_cluster(folder, name, kind, count):
    """Commands a second of 64 lanes."""
    opening = seconds(write(folder, "opening", cluster(kind, 0)[0]), folder, LANES)
    text, commands = cluster(kind, count // (LANES * 3))
    rate = commands / (seconds(write(folder, "schedule", text), folder, LANES) - opening)
    each = None
    if shutil.which("valgrind"):
        (few, a), (many, b) = (cluster(kind, rounds) for rounds in (5, 25))
        counts = [instructions(write(folder, "counted", text), LANES) for text in (few, many)]
        each = (counts[1] - counts[0]) / (b - a)
    told(name, rate, each)
    return rate


def main():
    if not os.access(PROGRAM, os.X_OK):
        print("the program isn't built: run ./prtool replay 1 </dev/null first", file=sys.stderr)
        return 2
    count = int(sys.argv[1]) if len(sys.argv) > 1 else 200000
    with tempfile.TemporaryDirectory() as folder:
        rate, each = measure(folder, "TEST UNIT READY", TEST_UNIT_READY, count)
        _, crowded = measure(folder, f"TEST UNIT READY, {KNOWN} known nexuses", TEST_UNIT_READY, count, OTHERS)
        measure(folder, "READ KEYS", READ_KEYS, count)
        rates = [
            measure_cluster(folder, f"64 lanes register, reserve and release type {kind}h", kind, count)
            for kind in (1, 5)
        ]
        steps = [
            measure_step(folder, f"{name} of {BLOCKS} blocks{where}", cdb, data, before)
            for name, cdb, data in (("WRITE", WRITE, LONGEST), ("READ", READ, b""))
            for where, before in (("", b""), (f", {KNOWN} known nexuses", OTHERS))
        ]
        is_fast = copied() >= LEAST_COPIED
        written = measure_bytes(folder, f"WRITE of {BLOCKS} blocks", WRITE, LONGEST)
        measure_bytes(folder, f"READ of {BLOCKS} blocks", READ, b"")
    holds = (
        memory(1) < MOST_MEMORY
        and memory(LANES) < MOST_MEMORY_OF_ALL
        and (each is None or (each <= MOST_INSTRUCTIONS and crowded <= MOST_GROWTH * each))
        and all(step is None or step <= MOST_OF_A_STEP for step in steps)
        and (written >= LEAST_BYTES or not is_fast)
        and min(rates) >= LEAST_SHARE * rate
    )
    counted = "" if each is not None else " (instructions weren't counted: there is no valgrind)"
    asked = "" if is_fast else " (bytes a second weren't looked at: memory is copied too slowly)"
    print(f"bounds: {'hold' if holds else 'BROKEN'}{counted}{asked}")
    return 0 if holds else 1


if __name__ == "__main__":
    sys.exit(main())
