#!/usr/bin/env python3
"""Bytes per second of reading and writing a large nested array, beside a plain loop that only copies the same bytes.

    bench/codec.py [BYTES [SEED]]

The array holds arrays of structures of mixed kinds, nested up to 16 deep, in A-XDR, each length in its shortest form. BYTES
is at most 4 million. The same seed gives the same array. The loop pushes one byte after the other into a vector that has
the room; reading a value also drops it. Each figure is from the processor time of many passes in one process less that of
one, the best of several rounds, so that the start and the reading of the input don't count. Runs over twice and four times
the bytes show how the time of a pass grows; on a machine that does other work, these figures vary from run to run. Run
`rt run -- copy 1 < stdin` in crates/codec_bench first, which builds the program.
"""
import os
import random
import subprocess
import sys
import tempfile

TOP = os.path.dirname(os.path.dirname(os.path.abspath(__file__)))
PROGRAM = os.path.join(TOP, "crates", "codec_bench", "out", "codec_bench")
DEEPEST = 16
# The tags of the kinds of a fixed width, and how many bytes stand behind each.
FIXED = [(0, 0), (5, 4), (6, 4), (15, 1), (16, 2), (17, 1), (18, 2), (20, 8), (21, 8), (22, 1)]
ARRAY, STRUCTURE, BOOLEAN, OCTET_STRING, VISIBLE_STRING = 1, 2, 3, 9, 10
COMMANDS = ("copy", "read", "write")
ENOUGH_SECONDS = 0.3
ROUNDS = 9


def headed(tag, count):
    """A tag and a length or a count below 65536 in its shortest form."""
    if count < 128:
        return bytes([tag, count])
    if count < 256:
        return bytes([tag, 0x81, count])
    return bytes([tag, 0x82]) + count.to_bytes(2, "big")


def simple(rng):
    """A value that isn't nested."""
    kind = rng.random()
    if kind < 0.05:
        return bytes([BOOLEAN, rng.randrange(2)])
    if kind < 0.2:
        length = rng.choice([6, 12, 12, 12, 30, 200, 400]) if kind < 0.1 else rng.randrange(24)
        tag = OCTET_STRING if kind < 0.15 else VISIBLE_STRING
        return headed(tag, length) + rng.randbytes(length)
    tag, width = rng.choice(FIXED)
    return bytes([tag]) + rng.randbytes(width)


def numbers(rng):
    """An array of numbers of one kind."""
    tag, width = rng.choice(FIXED[1:])
    count = rng.choice([0, 3, 8, 8, 24, 24, 150, 300])
    return headed(ARRAY, count) + b"".join(bytes([tag]) + rng.randbytes(width) for _ in range(count))


def value(rng, level):
    """A value inside so many others."""
    kind = rng.random()
    if kind < 0.2 and level < DEEPEST:
        return structure(rng, level)
    if kind < 0.22 and level < DEEPEST:
        return numbers(rng)
    return simple(rng)


def structure(rng, level):
    count = rng.randrange(1, 9)
    return headed(STRUCTURE, count) + b"".join(value(rng, level + 1) for _ in range(count))


def nested_array(size, seed):
    """An array of arrays of structures, of so many bytes or a little more."""
    rng = random.Random(seed)
    blocks = []
    length = 0
    while length < size:
        count = rng.choice([1, 50, 150, 300])
        block = headed(ARRAY, count) + b"".join(structure(rng, 2) for _ in range(count))
        blocks.append(block)
        length += len(block)
    return headed(ARRAY, len(blocks)) + b"".join(blocks)


def seconds_of(command, times, path, size):
    """The processor time of a process that makes so many passes over the file."""
    with open(path, "rb") as value_bytes:
        child = subprocess.Popen([PROGRAM, command, str(times)], stdin=value_bytes, stdout=subprocess.PIPE)
        told = child.stdout.read()
        _, status, usage = os.wait4(child.pid, 0)
        child.returncode = os.waitstatus_to_exitcode(status)
        child.stdout.close()
    if child.returncode != 0:
        sys.exit(f"{command} ended with status {child.returncode}")
    if int(told) != times * size:
        sys.exit(f"{command} handled {int(told)} bytes in {times} passes over {size}")
    return usage.ru_utime + usage.ru_stime


def passes_enough(command, path, size):
    """How many passes take long enough to be measured."""
    times = 8
    while seconds_of(command, times, path, size) < ENOUGH_SECONDS:
        times *= 2
    return times


def seconds_of_passes(arrays):
    """The processor time of one pass of each command over each array, given as paths and sizes.

    All are measured in turn, round after round, so that what else the machine does meets them alike.
    """
    cases = [(command, path, size) for path, size in arrays for command in COMMANDS]
    more = {case: passes_enough(*case) for case in cases}
    one = {case: [] for case in cases}
    many = {case: [] for case in cases}
    for _ in range(ROUNDS):
        for case in cases:
            command, path, size = case
            one[case].append(seconds_of(command, 1, path, size))
            many[case].append(seconds_of(command, 1 + more[case], path, size))
    return {case: (min(many[case]) - min(one[case])) / more[case] for case in cases}


def main():
    size = int(sys.argv[1]) if len(sys.argv) > 1 else 1_000_000
    seed = int(sys.argv[2]) if len(sys.argv) > 2 else 1
    arrays = []
    with tempfile.TemporaryDirectory() as folder:
        for factor in (1, 2, 4):
            path = os.path.join(folder, str(factor))
            text = nested_array(factor * size, seed)
            with open(path, "wb") as out:
                out.write(text)
            arrays.append((path, len(text)))
        seconds = seconds_of_passes(arrays)
    first = arrays[0]
    for path, length in arrays:
        print(f"{length} bytes, {length / first[1]:.2f} times as many")
        for command in COMMANDS:
            taken = seconds[command, path, length]
            print(
                f"  {command:5} {length / taken / 1e6:7.1f} MB/s, {taken / seconds['copy', path, length]:4.1f} times a copy, "
                f"{taken / seconds[(command, *first)]:.2f} times as long"
            )


if __name__ == "__main__":
    main()
