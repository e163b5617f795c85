#!/usr/bin/env python3
"""Frames per second and peak memory of `cosem-flow session` by the demo configuration, beside a loop in C that copies frames of the
same sizes.

    bench/session.py [FRAMES]

One connection: the reader's AARQ, and then so many GETs of the register's value, each in a frame of 21 bytes, whose answer is one of
17. Both programs read from a pipe and write to one; the loop reads as much at once as the program, finds each frame by its length,
and writes a frame of the answer's size for each, by a write of its own, as the program does. A second run over four times the frames
shows that memory doesn't grow with their number. The answers are compared with what they must be. It needs gcc; run `tools/build` first.
"""
import os
import subprocess
import sys
import tempfile
import threading
import time

from demo import peak_memory

TOP = os.path.dirname(os.path.dirname(os.path.abspath(__file__)))
PROGRAM = os.path.join(TOP, "crates", "cosem_flow", "out", "cosem_flow")
CONFIG = os.path.join(TOP, "crates", "cosem_cases", "data", "demo.toml")
READER = 32
AARQ = bytes.fromhex(
    "6036A1090607608574050801018A0207808B0760857405080201AC0A80083132333435363738BE10040E01000000065F1F0400007E1F04B0"
)
AARE = bytes.fromhex(
    "6129A109060760857405080101A203020100A305A103020100BE10040E0800065F1F040000101D04000007"
)
GET = bytes.fromhex("C001C100030100010800FF0200")
VALUE = bytes.fromhex("C401C100060001E240")
COPY = r"""
#include <string.h>
#include <unistd.h>
static unsigned char held[131072];
int main(void) {
    size_t have = 0;
    unsigned char answer[1032];
    for (;;) {
        ssize_t got = read(0, held + have, 65536);
        if (got <= 0) return got < 0;
        have += (size_t)got;
        size_t at = 0;
        while (have - at >= 8) {
            size_t size = 8 + 256u * held[at + 6] + held[at + 7];
            if (have - at < size) break;
            size_t back = size > 40 ? 51 : 17;
            memcpy(answer, held + at, size < back ? size : back);
            if (write(1, answer, back) != (ssize_t)back) return 1;
            at += size;
        }
        memmove(held, held + at, have - at);
        have -= at;
    }
}
"""


def frame(source, destination, apdu):
    words = (1, source, destination, len(apdu))
    return b"".join(word.to_bytes(2, "big") for word in words) + apdu


def stream(count):
    """The bytes of the connection, and those that answer them."""
    asked = frame(READER, 1, AARQ) + frame(READER, 1, GET) * count
    answered = frame(1, READER, AARE) + frame(1, READER, VALUE) * count
    return asked, answered


def timed(command, asked):
    """Seconds, what was written, and peak memory in megabytes, which is read while the program runs."""
    start = time.perf_counter()
    process = subprocess.Popen(command, stdin=subprocess.PIPE, stdout=subprocess.PIPE)
    seen = []

    def feed():
        process.stdin.write(asked)
        process.stdin.close()

    threads = [threading.Thread(target=feed), threading.Thread(target=lambda: seen.append(peak_memory(process)))]
    for thread in threads:
        thread.start()
    written = process.stdout.read()
    process.wait()
    seconds = time.perf_counter() - start
    for thread in threads:
        thread.join()
    if process.returncode != 0:
        sys.exit(f"{command[0]} ended with {process.returncode}")
    return seconds, written, seen[0] / 1024


def main():
    count = int(sys.argv[1]) if len(sys.argv) > 1 else 500_000
    with tempfile.TemporaryDirectory() as folder:
        source = os.path.join(folder, "copy.c")
        with open(source, "w") as out:
            out.write(COPY)
        copy = os.path.join(folder, "copy")
        subprocess.run(["gcc", "-O2", "-o", copy, source], check=True)
        for frames in (count, 4 * count):
            asked, answered = stream(frames)
            best = {}
            for _ in range(3):
                for name, command in (("session", [PROGRAM, "session", CONFIG]), ("copy", [copy])):
                    seconds, written, memory = timed(command, asked)
                    if name == "session" and written != answered:
                        sys.exit("the answers aren't what they must be")
                    if len(written) != len(answered):
                        sys.exit(f"{name} wrote {len(written)} bytes")
                    if name not in best or seconds < best[name][0]:
                        best[name] = (seconds, memory)
            ours, theirs = best["session"][0], best["copy"][0]
            print(
                f"{frames} frames: session {ours:.2f} s, {frames / ours:,.0f} frames/s, {best['session'][1]:.1f} MB; "
                f"copy {theirs:.2f} s, {frames / theirs:,.0f} frames/s; {ours / theirs:.2f} times the copy"
            )


if __name__ == "__main__":
    main()
