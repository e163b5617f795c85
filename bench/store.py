#!/usr/bin/env python3
"""What it costs that `cosem-flow serve --store` keeps each step before it answers, how fast passwords are guessed, and how long a start takes.

    bench/store.py [REQUESTS]

The asking program and the demo are those of `bench/serve.py`. SETs, which change the alarm each time, are timed without a store, with one in memory
(/dev/shm) and with one on the disk of the temporary folder, where an own loop of the same writes and flushes tells what these cost alone; and GETs of a
session by themselves, beside another session's SETs of which nothing is kept, and beside SETs that are kept. Wrong passwords are tried by 1 and
by 64 connections at once, each of which is closed behind its answer, and by 64 that are closed behind 5 ms, since the right password is answered at
once. At last files are written as the program would have: a million SETs, and a year with a capture each quarter of an hour; and it is timed how
long the program takes from its start to its first answer. Runs with and without alternate, and of each figure the best of three is told. What is
wanted stands beside it. It needs gcc; run `tools/build` first.
"""
import contextlib
import hashlib
import os
import pathlib
import socket
import subprocess
import sys
import tempfile
import threading
import time

from serve import CORES, DONE, GET, HELPER, HOST, LABELS, MANAGER, MANAGERS_AARQ, SECONDS_TO_END, SET, VALUE, frames, free_port, serve_command, started
from session import AARQ, CONFIG, PROGRAM, READER, frame

RUNS = 3
MEMORY = "/dev/shm"
SETS = frames(MANAGER, MANAGERS_AARQ, [(SET, DONE), (SET[:-1] + b"\x02", DONE)])
GETS = frames(READER, AARQ, [(GET, VALUE)])
GUESS = AARQ.replace(b"12345678", b"12345679")
REFUSED = bytes.fromhex("6117A109060760857405080101A203020101A305A10302010D")
SECONDS_OF_GUESSES = 3
ENTRIES = 1_000_000
# What takes so many seconds is done once.
LONG = 20
QUARTERS_A_YEAR = 365 * 24 * 4
# The entries of a SET and of a quarter of an hour, as the program writes them.
OF_SET = b"# 2026-11-28T22:01:46Z seat 0: success (0)\nmanager C101C100010000600B00FF020011%02X\n"
OF_QUARTER = b"# seconds that moved the clock alone\nmove-clock 900\n# 2026-11-28T22:01:46Z driver\ncapture-if-due 1.0.99.1.0.255\n"


class Server:
    """A server for so many connections, or for ever, by a file that keeps steps or by none; it is killed at last."""

    def __init__(self, sessions=0, store=None, more=()):
        self.port = free_port()
        kept = [] if store is None else ["--store", store]
        command = [*serve_command(CONFIG, LABELS, self.port, sessions), *kept, *more]
        self.process = started("cosem-flow", command, self.port)

    def __enter__(self):
        return self

    def __exit__(self, *_):
        self.process.kill()
        self.process.communicate(timeout=SECONDS_TO_END)


def asking(helper, port, given, sessions, count):
    """The asking program, which is given its requests."""
    words = [helper, *map(str, (port, sessions, count, 1))]
    asked = subprocess.Popen(words, stdin=subprocess.PIPE, stdout=subprocess.PIPE)
    asked.stdin.write(given)
    asked.stdin.close()
    return asked


def seconds_of(asked):
    told = asked.stdout.read()
    if asked.wait():
        sys.exit("not all requests were answered as they must be")
    return float(told)


def rate(helper, given, sessions, count, store):
    """Requests a second of so many sessions at once."""
    with Server(sessions, store) as server:
        return sessions * count / seconds_of(asking(helper, server.port, given, sessions, count))


def rate_beside(helper, count, store):
    """GETs a second of a session, beside another that sends SETs as long."""
    with Server(0, store) as server:
        beside = asking(helper, server.port, SETS, 1, 100 * count)
        time.sleep(0.1)
        seconds = seconds_of(asking(helper, server.port, GETS, 1, count))
        if beside.poll() is not None:
            sys.exit("the SETs ended before the GETs")
        beside.kill()
        beside.wait()
        return count / seconds


def flush_rate(folder):
    """How often a second two writes, each with a flush, are done as a step does them."""
    path, number = os.path.join(folder, "flushed"), 300
    file = os.open(path, os.O_RDWR | os.O_CREAT)
    begun, at = time.perf_counter(), 0
    for _ in range(number):
        os.pwrite(file, OF_SET, at + 1)
        os.fdatasync(file)
        os.pwrite(file, b"#", at)
        os.fdatasync(file)
        at += len(OF_SET)
    seconds = time.perf_counter() - begun
    os.close(file)
    os.remove(path)
    return number / seconds


def guess(port, is_hasty, end):
    """Tries wrong passwords, one a connection, until the end."""
    asked = frame(READER, 1, GUESS)
    while time.perf_counter() < end:
        with contextlib.suppress(OSError), socket.create_connection((HOST, port), SECONDS_TO_END) as stream:
            stream.settimeout(0.005 if is_hasty else SECONDS_TO_END)
            stream.sendall(asked)
            stream.recv(64)


def guess_rate(penalty, workers, is_hasty=False):
    """Wrong passwords a second, by so many connections at once, as the server tells of them."""
    with Server(more=("--penalty", str(penalty), "-v")) as server:
        told, end = [], time.perf_counter() + SECONDS_OF_GUESSES
        threads = [threading.Thread(target=guess, args=(server.port, is_hasty, end)) for _ in range(workers)]
        listener = threading.Thread(target=lambda: told.append(sum(b"authentication-failure" in it for it in server.process.stderr)))
        for it in [listener, *threads]:
            it.start()
        for it in threads:
            it.join()
        server.process.kill()
        listener.join()
        return told[0] / SECONDS_OF_GUESSES


def guess_rate_of_one(helper, count):
    """Wrong passwords a second on one connection without a penalty."""
    with Server(1, more=("--penalty", "0")) as server:
        pair = frame(READER, 1, GUESS) + frame(1, READER, REFUSED)
        return count / seconds_of(asking(helper, server.port, 2 * pair, 1, count))


def written_trail(folder, name, entries):
    """A trail's file of the demo with these entries, at rest."""
    path = os.path.join(folder, name)
    digest = hashlib.sha256(pathlib.Path(CONFIG).read_bytes()).hexdigest()
    with open(path, "wb") as out:
        out.write(f"# cosem-flow 0.1.0\n# sha256 {digest}\n".encode())
        out.writelines(entries)
        out.write(b"\n")
    return path


def seconds_to_answer(path):
    """From the start to the first answer, by a file that keeps steps, and how many megabytes the program took at most."""
    begun = time.perf_counter()
    with Server(store=path) as server, socket.create_connection((HOST, server.port), 600) as stream:
        stream.sendall(frame(READER, 1, AARQ))
        if not stream.recv(64):
            sys.exit("the first association isn't answered")
        seconds = time.perf_counter() - begun
        lines = pathlib.Path(f"/proc/{server.process.pid}/status").read_text().splitlines()
        return seconds, int(next(it for it in lines if it.startswith("VmHWM")).split()[1]) / 1024


def tell_steps(helper, count, memory, disk):
    kinds = {"without a store": None, "in memory": os.path.join(memory, "a.trail"), "on the disk": os.path.join(disk, "a.trail")}
    best = {}
    for _ in range(RUNS):
        for sessions in (1, 4):
            for kind, store in kinds.items():
                number = count // 200 if kind == "on the disk" else count
                best[sessions, kind] = max(best.get((sessions, kind), 0), rate(helper, SETS, sessions, number // sessions, store))
        best["flush"] = max(best.get("flush", 0), flush_rate(disk))
    for sessions in (1, 4):
        none, kept, slow = (best[sessions, kind] for kind in kinds)
        print(
            f"SETs of {sessions} sessions: {none:,.0f} a second without a store, {kept:,.0f} with one in memory: {none / kept:.2f} times as long (wanted: at "
            f"most 1.5); {slow:,.0f} on the disk, where an own loop of these writes and flushes does {best['flush']:,.0f}"
        )


def tell_gets(helper, count, memory):
    best = {"alone": 0.0, "unkept": 0.0, "kept": 0.0}
    for number in range(RUNS):
        best["alone"] = max(best["alone"], rate(helper, GETS, 1, count, None))
        best["unkept"] = max(best["unkept"], rate_beside(helper, count, None))
        best["kept"] = max(best["kept"], rate_beside(helper, count, os.path.join(memory, f"{number}.trail")))
    print(f"GETs of a session: {best['alone']:,.0f} a second, {best['unkept']:,.0f} beside SETs, {best['kept']:,.0f} beside SETs that are kept")


def tell_guesses(helper, count):
    print(f"guesses of a password without a penalty: {guess_rate_of_one(helper, count):,.0f} a second on one connection")
    one, many, hasty = (guess_rate(500, *it) for it in ((1,), (64,), (64, True)))
    print(
        f"with one of 500 ms: {one:,.1f} a second, each by a connection of its own; {many:,.0f} by 64 connections at once, {hasty:,.0f} where these are closed "
        f"early (wanted: near 128, which is 64 seats by half a second)"
    )


def tell_starts(memory):
    sets = (OF_SET % (number % 256) for number in range(ENTRIES))
    year = (OF_QUARTER for _ in range(QUARTERS_A_YEAR))
    for name, entries in ((f"{ENTRIES:,} SETs (wanted: 1 s)", sets), ("a year of quarters of an hour", year)):
        path = written_trail(memory, "big.trail", entries)
        runs = [seconds_to_answer(path)]
        while len(runs) < RUNS and runs[0][0] < LONG:
            runs.append(seconds_to_answer(path))
        size = os.path.getsize(path) / 1e6
        print(f"start by a file of {name}, {size:.1f} MB: {min(it[0] for it in runs):.2f} s, {max(it[1] for it in runs):.0f} MB of memory")
        os.remove(path)


def main():
    count = int(sys.argv[1]) if len(sys.argv) > 1 else 100_000
    os.sched_setaffinity(0, sorted(os.sched_getaffinity(0))[:CORES])
    with tempfile.TemporaryDirectory() as disk, tempfile.TemporaryDirectory(dir=MEMORY) as memory:
        helper = os.path.join(disk, "helper")
        subprocess.run(["gcc", "-O2", "-pthread", "-x", "c", "-o", helper, "-"], input=HELPER.encode(), check=True)
        tell_steps(helper, count, memory, disk)
        tell_gets(helper, count, memory)
        tell_guesses(helper, count // 5)
        tell_starts(memory)


if __name__ == "__main__":
    main()
