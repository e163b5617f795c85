#!/usr/bin/env python3
"""How long `cosem-flow run` takes to read a large configuration, and to answer GETs by it.

    bench/config.py [SEED]

A configuration has 16 clients, and 4 rights for each object. Reading is timed as a run without lines less a run by a
configuration without objects, beside a loop that only copies the same lines, for 128, 256 and 512 objects: the time should
double with them. Then 200,000 GETs of random clients at random names are answered by the largest, beside a loop that copies
the same lines. The same seed gives the same texts. Run `tools/build` first.
"""
import os
import random
import sys
import tempfile
import time

from demo import PROGRAM, measure

CLIENTS = 16
RIGHTS_EACH = 4
GETS = 200_000
RUNS = 20


def name_of(place):
    return f"1.0.{1 + place // 200}.{1 + place % 200}.0.255"


def octets_of(place):
    return bytes(int(number) for number in name_of(place).split(".")).hex().upper()


def config(rng, objects):
    """A configuration of this many registers, each with rights of some clients."""
    lines = ["version = 1", "client = ["]
    lines += [f' {{ name = "client_{k}", sap = {k + 1} }},' for k in range(CLIENTS)]
    lines += ["]", "object = ["]
    for place in range(objects):
        value = f"06{rng.randrange(2**32):08X}"
        lines.append(
            f' {{ class = 3, name = "{name_of(place)}", value = "{value}", default = "0600000000", scaler = 0, unit = 30 }},'
        )
    lines += ["]", "right = ["]
    for place in range(objects):
        for client in rng.sample(range(CLIENTS), RIGHTS_EACH):
            lines.append(f' {{ client = "client_{client}", object = "{name_of(place)}", get = [2, 3], act = [1] }},')
    lines += ["]", 'policy = { influence = ["client_0"], learn = ["client_1", "client_2"] }', ""]
    return "\n".join(lines)


def gets(rng, objects):
    """A line for each GET: the value of a register, which the client may read or not."""
    lines = []
    for _ in range(GETS):
        client = rng.randrange(CLIENTS)
        lines.append(f"client_{client} C001C10003{octets_of(rng.randrange(objects))}0200")
    return "\n".join(lines) + "\n"


def fastest(command, path):
    return min(measure(command, path)[0] for _ in range(RUNS))


def copied(path):
    """Seconds of a loop that copies the lines of a file."""

    def once():
        begin = time.perf_counter()
        with open(path, "rb") as lines, open(os.devnull, "wb") as sink:
            for line in lines:
                sink.write(line)
        return time.perf_counter() - begin

    return min(once() for _ in range(RUNS))


def main():
    rng = random.Random(int(sys.argv[1]) if len(sys.argv) > 1 else 1)
    with tempfile.TemporaryDirectory() as folder:
        text = os.path.join(folder, "config.toml")
        nothing = os.path.join(folder, "nothing")
        open(nothing, "w").close()
        with open(text, "w") as out:
            out.write(config(rng, 0))
        empty = fastest([PROGRAM, "run", text], nothing)
        for objects in (128, 256, 512):
            with open(text, "w") as out:
                out.write(config(rng, objects))
            read = fastest([PROGRAM, "run", text], nothing) - empty
            print(
                f"{objects} objects, {RIGHTS_EACH * objects} rights, {os.path.getsize(text)} bytes: read in {1000 * read:.1f} ms, "
                f"{read / copied(text):.1f} times a copy"
            )
        lines = os.path.join(folder, "lines")
        with open(lines, "w") as out:
            out.write(gets(rng, 512))
        answered = fastest([PROGRAM, "run", text], lines)
        print(f"{GETS} GETs: {GETS / answered:.0f} lines/s, {answered / copied(lines):.1f} times a copy")


if __name__ == "__main__":
    main()
