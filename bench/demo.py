#!/usr/bin/env python3
"""Lines per second and peak memory of `cosem-flow run` by the demo configuration, beside a loop that only copies the same lines.

    bench/demo.py [LINES [SEED]]

The lines are mixed GET, SET and ACTION requests of the clients of the demo configuration, allowed and refused, and inputs
and evaluations of the meter, with empty lines and remarks between them. The same seed gives the same lines. A second run over four times the lines shows that memory
doesn't grow with their number. Run `tools/build` first.
"""
import os
import random
import subprocess
import sys
import tempfile
import time

TOP = os.path.dirname(os.path.dirname(os.path.abspath(__file__)))
PROGRAM = os.path.join(TOP, "crates", "cosem_flow", "out", "cosem_flow")
CONFIG = os.path.join(TOP, "crates", "cosem_cases", "data", "demo.toml")
CLIENTS = ["public", "reader", "installer", "manager"]
ENERGY = "0100010800FF"
ALARM = "0000600B00FF"
PROFILE = "0100630100FF"
TABLE = "00000A0064FF"
# The actions of the demo's clients, which the manager alone may ask for: a register's reset, a profile's reset and
# capture, and scripts of which one captures, one sets the alarm, one is null and one is unknown.
ACTIONS = [f"0003{ENERGY}0100", f"0007{PROFILE}0100", f"0007{PROFILE}0200"]
ACTIONS += [f"0009{TABLE}010112{script:04X}" for script in (0, 1, 3, 9)]
COPY = "import sys\nfor line in sys.stdin.buffer:\n    sys.stdout.buffer.write(line)\n"


def request(rng):
    """One line: a remark or nothing, a step of the meter, or a client and a GET, SET or ACTION request in hex."""
    client = rng.choice(CLIENTS)
    invoke = f"{rng.randrange(256):02X}"
    kind = rng.random()
    if kind < 0.05:
        return "# a remark"
    if kind < 0.08:
        return ""
    if kind < 0.2:
        return f"in 1.0.1.8.0.255 06{rng.randrange(200):08X}"
    if kind < 0.3:
        return "eval 0.0.16.1.0.255"
    if kind < 0.45:
        return f"{client} C301{invoke}{rng.choice(ACTIONS)}"
    if kind < 0.65:
        return f"{client} C001{invoke}0003{ENERGY}{rng.choice(['01', '02', '03'])}00"
    if kind < 0.7:
        return f"{client} C001{invoke}0007{PROFILE}{rng.choice(['02', '07'])}00"
    if kind < 0.8:
        return f"{client} C001{invoke}0001{ALARM}{rng.choice(['01', '02'])}00"
    if kind < 0.95:
        return f"{client} C101{invoke}0001{ALARM}020011{rng.randrange(256):02X}"
    return f"{client} C101{invoke}0001{ALARM}02000601020304"


def write_lines(path, count, seed):
    rng = random.Random(seed)
    with open(path, "w") as out:
        for _ in range(count):
            out.write(request(rng) + "\n")


def peak_memory(child):
    """The most kilobytes that a process held, as far as it was seen while it ran."""
    most = 0
    while child.poll() is None:
        try:
            with open(f"/proc/{child.pid}/status") as status:
                for line in status:
                    if line.startswith("VmHWM:"):
                        most = max(most, int(line.split()[1]))
        except OSError:
            pass
        time.sleep(0.002)
    return most


def measure(command, path):
    """Seconds and peak kilobytes of a command that reads the file."""
    with open(path, "rb") as lines, open(os.devnull, "wb") as sink:
        begin = time.perf_counter()
        child = subprocess.Popen(command, stdin=lines, stdout=sink)
        memory = peak_memory(child)
        seconds = time.perf_counter() - begin
    if child.returncode != 0:
        sys.exit(f"{command[0]} ended with status {child.returncode}")
    return seconds, memory


def main():
    count = int(sys.argv[1]) if len(sys.argv) > 1 else 200_000
    seed = int(sys.argv[2]) if len(sys.argv) > 2 else 1
    with tempfile.TemporaryDirectory() as folder:
        path = os.path.join(folder, "lines")
        for lines in (count, 4 * count):
            write_lines(path, lines, seed)
            copied, _ = measure([sys.executable, "-c", COPY], path)
            answered, memory = measure([PROGRAM, "run", CONFIG], path)
            print(f"{lines} lines: {lines / answered:.0f} lines/s, {memory} kB at most, {answered / copied:.1f} times a copy")


if __name__ == "__main__":
    main()
