#!/usr/bin/env python3
"""Instructions of `cosem-flow run` and `quiet`, counted by valgrind, which repeat from run to run where times don't.

    bench/instructions.py [PROGRAM]

Told are the instructions for a mixed line of the demo, and for one that is judged for a client, for a GET by a random name over 512 objects and 2,048 rights, for a byte
of that configuration's text, for a GET of a buffer of 1,000 rows, whole and by 10 rows, for a capture into full buffers of
10 and 1,000 rows, for a second over 512 objects of which 20 have a turn at it, told by `tick 3600` and by 3,600 lines `at`, and for a GET
and a SET of one session that is served over TCP: each such figure is a run with many lines less one with few. Those of the session are told
beside an ordinary program's, `bench/plain_meter.rs`, which is the demo's live meter in plain Rust without any proof, gives the same answers and is compiled by
`rustc -O`; where there is no rustc they are told alone. And those of whole runs of `check`,
`edges` and `label` for a configuration of 512 objects with some 250,000 edges, and for one of as many objects whose text has 2.4 MB, of which the `toml` library's own part
is told, of `why` and of `compare` beside that of `label`, and of `report` beside those of `label` and `edges`; and of an audit of 64 such texts by one worker and by four, beside the library's part and with the page
faults of each, as the program is without its launcher. Run `tools/build` first; another program of the same words can be named, to be counted beside it.
"""
import datetime
import itertools
import os
import random
import re
import resource
import socket
import subprocess
import sys
import tempfile
import threading

import check
import config
import demo
import profile
from serve import DONE, MANAGER, MANAGERS_AARQ, SET, plain_meter
from session import AARE, AARQ, GET, READER, VALUE, frame

LABELS = os.path.join(os.path.dirname(demo.CONFIG), "demo.labels")
COUNTED = re.compile(rb"Collected : (\d+)")
# How valgrind names the function that what follows is of, or that is called: by its number alone from the second time on.
NAMED = re.compile(r"(fn|cfn)=\((\d+)\)(?: (.*))?")


def turns():
    """A configuration of 512 objects without a clock, of which 20 have a turn when a second passes: profiles, monitors and schedules."""
    target = 'object = "0.0.96.0.0.255", index = 2'
    script = 'table = "0.0.10.0.100.255", script = 1'
    values = [f' {{ class = 1, name = "0.0.96.{n // 256}.{n % 256}.255", value = "0600000000" }}' for n in range(491)]
    table = f' {{ class = 9, name = "0.0.10.0.100.255", script = [ {{ id = 1, action = [ {{ service = 1, {target}, value = "0600000001" }} ] }} ] }}'
    profiles = [f' {{ class = 7, name = "1.0.99.{n}.0.255", period = 900, entries = 10, capture = [ {{ {target} }} ] }}' for n in range(8)]
    monitors = [f' {{ class = 21, name = "0.0.16.{n}.0.255", monitored = {{ {target} }}, thresholds = ["0600000064"], action = [ {{ up = {{ {script} }}, down = {{ {script} }} }} ] }}' for n in range(6)]
    schedules = [f' {{ class = 22, name = "0.0.15.{n}.0.255", script = {{ {script} }}, type = 1, times = ["17000000FFFFFFFFFF"] }}' for n in range(6)]
    objects = ",\n".join(values + [table] + profiles + monitors + schedules)
    return f'version = 2\nclient = [{{ name = "reader", sap = 32 }}]\nobject = [\n{objects}\n]\npolicy = {{ influence = [], learn = [] }}\n'


def largest():
    """The large configuration of `check.py`, in which nine script tables that nothing runs are full of actions that write an octet string."""
    octets, target = f"0914{'5A' * 20}", "0.0.96.1.0.255"
    action = f'{{ service = 1, object = "{target}", index = 2, value = "{octets}" }}'
    script = f"action = [ {', '.join([action] * check.SCRIPT_ACTIONS)} ] }},"
    objects = [f' {{ class = 1, name = "{target}", value = "{octets}" }},']
    for table in range(9):
        scripts = [f"  {{ id = {number}, {script}" for number in range(1, 65)]
        objects += [f' {{ class = 9, name = "0.0.10.0.{table}.255", script = [', *scripts, " ] },"]
    begin = "object = [\n"
    return check.config(502).replace(begin, begin + "\n".join(objects) + "\n", 1)


def counted(program, text, lines, words=("run",), rest=()):
    """The instructions of a run by the configuration in one file over the lines in another, or of another command of such words."""
    command = ["valgrind", "--tool=callgrind", "--callgrind-out-file=/dev/null", program, *words, text, *rest]
    with open(lines, "rb") as given:
        run = subprocess.run(command, stdin=given, stdout=subprocess.DEVNULL, stderr=subprocess.PIPE, check=True)
    return int(COUNTED.search(run.stderr).group(1))


def library_part(program, words):
    """The instructions of a run, and those of them that its calls into the `toml` library take, with what this calls."""
    with tempfile.NamedTemporaryFile() as told:
        command = ["valgrind", "--tool=callgrind", f"--callgrind-out-file={told.name}", program, *words]
        run = subprocess.run(command, stdin=subprocess.DEVNULL, stdout=subprocess.DEVNULL, stderr=subprocess.PIPE, check=True)
        part, names, caller, called, is_call = 0, {}, "", "", False
        for line in open(told.name, encoding="utf-8"):
            if named := NAMED.match(line):
                kind, number, name = named.groups()
                name = names.setdefault(number, name or "")
                caller, called = (caller, name) if kind == "cfn" else (name, called)
            elif line.startswith("calls="):
                is_call = True
            elif is_call:
                is_call = False
                if is_begun_by(called, caller):
                    part += int(line.rsplit(" ", 1)[1])
    return int(COUNTED.search(run.stderr).group(1)), part


def is_of_library(name):
    """Whether a function is the `toml` library's, or drops what it made."""
    return name.startswith(("toml::", "toml_parser::")) or "toml++value++Value+Destruct" in name


# Who begins work of the library: the reader of configurations, and the end of what it read. (Functions that are the same code have one name
# in the program, so that a part of the library can bear another crate's.)
BEGINNERS = ("config_reader::", "config_text::", "std_collections::btree::node::Node::destroy")


def is_begun_by(called, caller):
    """Whether work of the library begins with a call. (What is called inside of a recursion has a name with an apostrophe.)"""
    return is_of_library(called) and "'" not in called and caller.startswith(BEGINNERS) and not is_of_library(caller)


def page_faults(command):
    """The page faults of a run, the least of some."""
    least = None
    for _ in range(5):
        before = resource.getrusage(resource.RUSAGE_CHILDREN).ru_minflt
        subprocess.run(command, stdin=subprocess.DEVNULL, stdout=subprocess.DEVNULL, check=True)
        taken = resource.getrusage(resource.RUSAGE_CHILDREN).ru_minflt - before
        least = taken if least is None else min(least, taken)
    return least


def whole_runs(program, folder, name, text, *quiet):
    """Tells what `check`, `edges` and `label` of a text cost, beside the part of the `toml` library."""
    labels = os.path.join(folder, "labels")
    with open(labels, "wb") as out:
        subprocess.run([program, "label", *quiet, text], stdout=out, check=True)
    for words in (("check", *quiet, text, labels), ("edges", text), ("label", *quiet, text)):
        whole, part = library_part(program, words)
        print(f"{words[0]} of {name}: {whole}, {whole / part:.2f} times the toml library's own")


def audited(program, folder, text):
    """What an audit of 64 copies of a text costs, which has its least labels beside it."""
    labels = subprocess.run([program, "label", text], capture_output=True, check=True).stdout
    names = [os.path.join(folder, f"audited{number}") for number in range(64)]
    for name in names:
        for end, content in ((".toml", open(text, "rb").read()), (".labels", labels)):
            with open(name + end, "wb") as out:
                out.write(content)
    commands = [[program, "audit", "--workers", str(workers), *names] for workers in (1, 4)]
    one, part = library_part(program, commands[0][1:])
    four, _ = library_part(program, commands[1][1:])
    less, more = (page_faults(command) for command in commands)
    print(f"an audit of 64: {one} by one worker, {one / part:.2f} times the toml library's own; by four {four / one:.3f} times that, with {more / less:.2f} times the {less} page faults")


def served(words, client, begin, request, answer, count):
    """The instructions of a live meter of the demo, which these words begin, for one session, in which the client asks the same so often."""
    with socket.socket() as free:
        free.bind(("127.0.0.1", 0))
        port = free.getsockname()[1]
    command = ["valgrind", "--tool=callgrind", "--callgrind-out-file=/dev/null", *words, "--port", str(port), "--sessions", "1"]
    serving = subprocess.Popen(command, stdin=subprocess.DEVNULL, stdout=subprocess.DEVNULL, stderr=subprocess.PIPE)
    while b"connections are taken" not in serving.stderr.readline():
        pass
    asked = frame(client, 1, begin) + frame(client, 1, request) * count
    wanted = frame(1, client, AARE) + frame(1, client, answer) * count
    with socket.create_connection(("127.0.0.1", port)) as stream:
        # (all at once, beside the reading: one request by one would wait for the network each time)
        asking = threading.Thread(target=stream.sendall, args=(asked,))
        asking.start()
        if stream.makefile("rb").read(len(wanted)) != wanted:
            sys.exit("the answers aren't what they must be")
        asking.join()
    told = serving.stderr.read()
    if serving.wait() != 0:
        sys.exit(f"the live meter ended with {serving.returncode}")
    return int(COUNTED.search(told).group(1))


def of_session(words, *asked):
    """The instructions of a live meter for one request of a session."""
    few, many = (served(words, *asked, count) for count in (500, 4_500))
    return (many - few) / 4_000


def main():
    program = sys.argv[1] if len(sys.argv) > 1 else demo.PROGRAM
    with tempfile.TemporaryDirectory() as folder:

        def each(text, begin, line, few, many, words=("run",), rest=()):
            """Of lines behind those that begin a run, the instructions for one."""
            runs = [profile.written(folder, f"{count}", begin + "".join(line() for _ in range(count))) for count in (few, many)]
            less, more = (counted(program, text, run, words, rest) for run in runs)
            return (more - less) / (many - few)

        rng = random.Random(1)
        mixed = each(demo.CONFIG, "", lambda: demo.request(rng) + "\n", 2_000, 22_000)
        print(f"a mixed line: {mixed:.0f}")
        for client in ("public", "reader"):
            noticed = each(demo.CONFIG, "", lambda: demo.request(rng) + "\n", 2_000, 22_000, ("quiet",), (LABELS, client))
            print(f"a mixed line that is judged for the client {client}: {noticed:.0f}")
        wide = profile.written(folder, "wide.toml", config.config(rng, 512))
        names = iter(config.gets(rng, 512).splitlines(keepends=True))
        print(f"a GET by a random name over 512 objects: {each(wide, '', lambda: next(names), 2_000, 22_000):.0f}")
        bare = profile.written(folder, "bare.toml", config.config(rng, 0))
        nothing = profile.written(folder, "nothing", "")
        read = counted(program, wide, nothing) - counted(program, bare, nothing)
        print(f"a byte of a configuration's text: {read / (os.path.getsize(wide) - os.path.getsize(bare)):.0f}")
        for entries in (10, 1_000):
            text = profile.written(folder, f"{entries}.toml", profile.CONFIG.format(entries=entries))
            full = profile.CAPTURE * entries
            print(f"a capture into {entries} full entries: {each(text, full, lambda: profile.CAPTURE, 0, 2_000):.0f}")
        print(f"a GET of 1,000 rows: {each(text, full, lambda: profile.GET, 0, 20):.0f}")
        print(f"a GET of 10 of 1,000 rows: {each(text, full, lambda: profile.GET_OF_TEN, 0, 200):.0f}")
        wide = profile.written(folder, "turns.toml", turns())
        begin = datetime.datetime(2024, 2, 28, 22, 29, 59)
        moments = (f"at {(begin + datetime.timedelta(seconds=n)).isoformat()}\n" for n in itertools.count(1))
        at = each(wide, "", lambda: next(moments), 0, 3_600)
        tick = each(wide, f"at {begin.isoformat()}\n", lambda: "tick 3600\n", 0, 1) / 3_600
        print(f"a second over 512 objects: {tick:.0f} by tick, {at:.0f} by at")
        serve, plain = [program, "serve", demo.CONFIG, LABELS], plain_meter(folder)
        for name, asked in (("GET", (READER, AARQ, GET, VALUE)), ("SET", (MANAGER, MANAGERS_AARQ, SET, DONE))):
            ours = of_session(serve, *asked)
            beside = " (there is no rustc for an ordinary program beside it)"
            if plain:
                theirs = of_session([plain], *asked)
                beside = f", {ours / theirs:.2f} times an ordinary program's {theirs:.0f}"
            print(f"a {name} of a session that is served: {ours:.0f}{beside}")
        large = check.config(512)
        text = profile.written(folder, "large.toml", large)
        # (a release that takes one right away, so that nobody gains)
        one_right = large[large.index(' { client = "client_0"') :].split("\n", 1)[0] + "\n"
        other = profile.written(folder, "other.toml", large.replace(one_right, "", 1))
        whole_runs(program, folder, "512 objects", text)
        # (its scripts are warned of, as nothing runs them)
        whole_runs(program, folder, "512 objects and 2.4 MB of text", profile.written(folder, "largest.toml", largest()), "--quiet")
        audited(program, folder, text)
        label = counted(program, text, nothing, ("label",))
        why = counted(program, text, nothing, ("why",), ("client_5", f"3/{check.name_of(0, 100)}/2"))
        both = counted(program, text, nothing, ("compare",), (other,))
        report = counted(program, text, nothing, ("report",)) / (label + counted(program, text, nothing, ("edges",)))
        print(f"over 512 objects: label {label}, why {why / label:.2f} times that, compare {both / label:.2f} times; report {report:.2f} times label and edges")


if __name__ == "__main__":
    main()
