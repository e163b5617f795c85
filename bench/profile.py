#!/usr/bin/env python3
"""How long `cosem-flow run` takes to answer a GET of a long profile buffer, and to capture into a full one.

    bench/profile.py

The buffer of a profile of two columns is filled by captures. Then 2,000 GETs of the whole buffer of 1,000 rows are answered,
and of its first ten rows, beside a loop that only copies the same replies. And 20,000 captures go into the full buffers of profiles of 10, 100 and
1,000 entries, beside a loop that only copies the same lines: what a capture takes more where more rows stay is what moving
them takes. Each figure is a run with those lines less a run that only fills the buffer. Run `tools/build` first.
"""
import os
import subprocess
import sys
import tempfile

from demo import COPY, PROGRAM, measure

GETS = 2_000
CAPTURES = 20_000
RUNS = 5
GET = "meter C001C100070100630100FF0200\n"
# The first ten rows, by selector 2 and an entry descriptor.
GET_OF_TEN = "meter C001C100070100630100FF02010202040600000001060000000A120001120000\n"
CAPTURE = "meter C301C100070100630100FF0200\n"
CONFIG = """version = 1
client = [ {{ name = "meter", sap = 16 }} ]
object = [
 {{ class = 3, name = "1.0.1.8.0.255", value = "060001E240", default = "0600000000", scaler = 0, unit = 30 }},
 {{ class = 1, name = "0.0.96.11.0.255", value = "1100" }},
 {{ class = 7, name = "1.0.99.1.0.255", period = 900, entries = {entries}, capture = [
  {{ object = "1.0.1.8.0.255", index = 2 }}, {{ object = "0.0.96.11.0.255", index = 2 }} ] }},
]
right = [ {{ client = "meter", object = "1.0.99.1.0.255", get = [2], act = [2] }} ]
policy = {{ influence = ["meter"], learn = ["meter"] }}
"""


def written(folder, name, text):
    path = os.path.join(folder, name)
    with open(path, "w") as out:
        out.write(text)
    return path


def seconds_of(command, path):
    return min(measure(command, path)[0] for _ in range(RUNS))


def main():
    copy = [sys.executable, "-c", COPY]
    with tempfile.TemporaryDirectory() as folder:
        nothing = written(folder, "nothing", "")
        started = seconds_of(copy, nothing)
        for entries in (10, 100, 1000):
            run = [PROGRAM, "run", written(folder, "config.toml", CONFIG.format(entries=entries))]
            fill = written(folder, "fill", CAPTURE * entries)
            filled = seconds_of(run, fill)
            more = written(folder, "more", CAPTURE * (entries + CAPTURES))
            captures = written(folder, "captures", CAPTURE * CAPTURES)
            taken = seconds_of(run, more) - filled
            copied = seconds_of(copy, captures) - started
            print(
                f"{entries} entries: {1e6 * taken / CAPTURES:.2f} microseconds a capture, {taken / copied:.1f} times a copy of its line"
            )
        for rows, get in ((1000, GET), (10, GET_OF_TEN)):
            gets = written(folder, "gets", CAPTURE * 1000 + get * GETS)
            taken = seconds_of(run, gets) - filled
            with open(gets) as lines:
                replies = subprocess.run(run, stdin=lines, capture_output=True, text=True, check=True).stdout
            answers = written(folder, "replies", "".join(replies.splitlines(keepends=True)[1000:]))
            copied = seconds_of(copy, answers) - started
            print(
                f"{GETS} GETs of {rows} rows: {GETS / taken:.0f} GETs/s, {os.path.getsize(answers) / taken / 1e6:.1f} MB/s of replies, "
                f"{taken / copied:.1f} times a copy of them"
            )


if __name__ == "__main__":
    main()
