#!/usr/bin/env python3
"""How long `cosem-flow edges`, `label` and `check` take for large configurations, beside a copy of the bytes that `edges` writes.

    bench/check.py

A configuration has 16 clients with rights on every object, profiles and registers, and register monitors whose scripts change
them all, so that the largest, of 512 objects, has about 250,000 edges. The time to read the text is told apart: it is that of a
run without lines less that by a configuration without objects, and both are taken away from each command's time. The copy is a
program of this machine's C compiler that copies the file of edges by writes of 64 KiB, without the time in which a program begins.
Run `tools/build` first.
"""
import os
import subprocess
import sys
import tempfile
import time

from demo import PROGRAM, peak_memory

CLIENTS = 16
RUNS = 7
SCRIPT_ACTIONS = 32
COPY = """
#include <fcntl.h>
#include <stdlib.h>
#include <unistd.h>
static char bytes[65536];
int main(int words, char **word) {
    int from = open(word[1], O_RDONLY), to = open(word[2], O_WRONLY | O_TRUNC);
    ssize_t count;
    while ((count = read(from, bytes, sizeof bytes)) > 0)
        if (write(to, bytes, count) != count) return 1;
    return 0;
}
"""


def name_of(kind, place):
    return f"1.{kind}.{1 + place // 200}.{1 + place % 200}.0.255"


def register(place):
    return f' {{ class = 3, name = "{name_of(0, place)}", value = "0600000001", default = "0600000000", scaler = 0, unit = 30 }},'


def profile(place):
    return (
        f' {{ class = 7, name = "{name_of(1, place)}", period = 900, entries = 2, '
        f'capture = [ {{ object = "{name_of(0, 0)}", index = 2 }} ] }},'
    )


def script_table(scripts):
    lines = [' { class = 9, name = "0.0.10.0.100.255", script = [']
    for number, actions in enumerate(scripts, 1):
        lines.append(f"  {{ id = {number}, action = [ {', '.join(actions)} ] }},")
    return lines + [" ] },"]


def monitor(place, watched, scripts):
    references = [f'{{ table = "0.0.10.0.100.255", script = {number} }}' for number in range(1, scripts + 1)]
    if len(references) % 2:
        references.append(references[0])
    pairs = [f"{{ up = {up}, down = {down} }}" for up, down in zip(references[::2], references[1::2])]
    limits = ", ".join(f'"06{100 + k:08X}"' for k in range(len(pairs)))
    return (
        f' {{ class = 21, name = "{name_of(2, place)}", monitored = {{ object = "{name_of(0, watched)}", index = 2 }}, '
        f"thresholds = [{limits}], action = [ {', '.join(pairs)} ] }},"
    )


def schedule(place):
    return (
        f' {{ class = 22, name = "{name_of(3, place)}", script = {{ table = "0.0.10.0.100.255", script = 1 }}, type = 1, '
        f'times = ["000000FFFFFFFFFEFF"] }},'
    )


def actions_of(registers, profiles):
    """What the scripts do: each register is written, each profile is reset and given a capture period."""
    written = '{{ service = 1, object = "{}", index = {}, value = "{}" }}'
    actions = [written.format(name_of(0, place), 2, "0600000002") for place in range(registers)]
    for place in range(profiles):
        actions.append(f'{{ service = 2, object = "{name_of(1, place)}", index = 1 }}')
        actions.append(written.format(name_of(1, place), 4, "0600000384"))
    return [actions[begin : begin + SCRIPT_ACTIONS] for begin in range(0, len(actions), SCRIPT_ACTIONS)]


def right(client, name, words):
    return f' {{ client = "client_{client}", object = "{name}", {words} }},'


def rights(objects):
    """Four clients read each object, and one of them may change it."""
    lines = []
    for place, (name, gets, changes) in enumerate(objects):
        for client in range(4):
            words = f"get = {gets}" + (f", {changes}" if client == 0 else "")
            lines.append(right((place + client) % CLIENTS, name, words))
    return lines


def config(objects):
    """The text of a configuration of about this many objects, each part of it in proportion."""
    monitors, schedules = 92 * objects // 512, 16 * objects // 512
    profiles = 250 * objects // 512
    registers = objects - monitors - schedules - profiles - 1 if objects else 0
    scripts = actions_of(registers, profiles)
    everybody = ", ".join(f'"client_{k}"' for k in range(CLIENTS))
    lines = ["version = 1", "client = ["]
    lines += [f' {{ name = "client_{k}", sap = {k + 1} }},' for k in range(CLIENTS)]
    lines += ["]", "object = ["]
    lines += [register(place) for place in range(registers)]
    lines += [profile(place) for place in range(profiles)]
    lines += script_table(scripts) if objects else []
    lines += [monitor(place, place % max(registers, 1), len(scripts)) for place in range(monitors)]
    lines += [schedule(place) for place in range(schedules)]
    lines += ["]", "right = ["]
    lines += rights(
        [(name_of(0, place), "[2]", "act = [1]") for place in range(registers)]
        + [(name_of(1, place), "[2, 4]", "set = [4]") for place in range(profiles)]
        + [(name_of(2, place), "[2]", "set = [2]") for place in range(monitors)]
        + [(name_of(3, place), "[4]", "set = [4]") for place in range(schedules)]
    )
    lines += ["]", f"policy = {{ influence = [{everybody}], learn = [{everybody}] }}", ""]
    return "\n".join(lines)


def written(folder, name, text):
    path = os.path.join(folder, name)
    with open(path, "w") as out:
        out.write(text)
    return path


def timed(command, to):
    """The least seconds of some runs of a command whose output goes to a file, and the most kilobytes that it held."""
    least, most = None, 0
    for _ in range(RUNS):
        with open(to, "wb") as sink:
            begin = time.perf_counter()
            child = subprocess.Popen(command, stdin=subprocess.DEVNULL, stdout=sink)
            status = child.wait()
            seconds = time.perf_counter() - begin
        if status != 0:
            sys.exit(f"{' '.join(command)} ended with status {status}")
        least = seconds if least is None else min(least, seconds)
    with open(to, "wb") as sink:
        most = peak_memory(subprocess.Popen(command, stdin=subprocess.DEVNULL, stdout=sink))
    return least, most


def main():
    with tempfile.TemporaryDirectory() as folder:
        copy = os.path.join(folder, "copy")
        subprocess.run(["cc", "-O2", "-o", copy, written(folder, "copy.c", COPY)], check=True)
        bare = written(folder, "bare.toml", config(0))
        out = os.path.join(folder, "out")
        begun, _ = timed([PROGRAM, "edges", bare], out)
        empty = written(folder, "empty", "")
        begun_copy, _ = timed([copy, empty, out], os.path.join(folder, "nothing"))
        for objects in (64, 128, 256, 512):
            text = written(folder, f"{objects}.toml", config(objects))
            read = timed([PROGRAM, "run", text], out)[0] - begun
            edges = os.path.join(folder, "edges")
            listed, edges_memory = timed([PROGRAM, "edges", text], edges)
            copied = timed([copy, edges, out], os.path.join(folder, "nothing"))[0] - begun_copy
            labels = os.path.join(folder, "labels")
            labelled, label_memory = timed([PROGRAM, "label", text], labels)
            checked, check_memory = timed([PROGRAM, "check", text, labels], out)
            with open(edges, "rb") as lines:
                count = sum(1 for _ in lines)
            parts = [seconds - begun - read for seconds in (listed, labelled, checked)]
            print(
                f"{objects} objects, {count} edges, {os.path.getsize(edges)} bytes of them; the text of {os.path.getsize(text)} bytes "
                f"is read in {1000 * read:.1f} ms; behind that: edges {1000 * parts[0]:.1f} ms ({1000 * copied:.1f} ms a copy of the "
                f"bytes), {edges_memory} kB; label {1000 * parts[1]:.1f} ms, {label_memory} kB; check {1000 * parts[2]:.1f} ms, "
                f"{check_memory} kB"
            )


if __name__ == "__main__":
    main()
