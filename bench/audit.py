#!/usr/bin/env python3
"""How long `cosem-flow audit` takes over many configurations, by four workers and by one, beside `check` of each alone.

    bench/audit.py [TURNS]

There are 200 configurations of 64 objects, and 25 of 512, made as those of bench/check.py, each with its least labels; each kind is a
fleet, and both are one behind the other. One worker, four, and four programs at once that each audit every fourth name by one worker take
turns. They share nothing, so they show how many times one the machine itself gives then. Told is how many times faster than the one worker the
others are, by the least times of all turns and by the median ones. The least are what the machine does while nobody else has it: a core of a
virtual machine may be half as fast while its other thread, or its neighbours, work for others, and that four are whole at once can be rare. So
many short turns tell more than a few long ones, and where even the four programs gain much less than four, there was no such moment.

The turns go two ways. First each thread, and each of the four programs, is kept on a core of its own: so four workers work on four cores. The
one worker, and the first of the four, are on another core each turn, since cores needn't be equally fast. Then the system puts threads where it
will. Not each puts a new thread on a core that has nothing to do: the kernel of some virtual machines packs threads on few cores for
some milliseconds, again whenever threads begin.

Of four workers it is told how long they read the files, which is before the first text is judged. What a loop of `check` within one process takes is
told as the sum of its times over all files, each less the time in which a program begins. The time to read the configurations' text is told as
a share of that: it is the sum of runs without lines, less the beginning too. By valgrind it is told how many times the instructions of the
longest thread of four workers go into those of one worker, which repeats from run to run, whatever the machine gives.
Audits run with the tunables that the launcher gives them, which spare threads the locks of their heaps and page faults. It needs gcc, valgrind
and four cores; run `tools/build` first.
"""
import glob
import os
import re
import statistics
import subprocess
import sys
import tempfile
import time

from check import config, written
from demo import PROGRAM

# What the launcher sets for an audit.
LAUNCHED = {
    **os.environ,
    "GLIBC_TUNABLES": "glibc.malloc.tcache_count=3000:glibc.malloc.hugetlb=1:glibc.malloc.top_pad=33554432"
    ":glibc.malloc.trim_threshold=1073741824:glibc.malloc.mmap_threshold=33554432",
}
COUNTED = re.compile(r"^summary: (\d+)", re.MULTILINE)
FLEETS = ((64, 200), (512, 25))
WORKERS = 4
RUNS = 5
TURNS = 61
# Keeps the first thread of a program on the core with the number CORE, of as many as there are workers, and threads that it starts on
# the others, each on the next, in turn.
PINNED_THREADS = r"""
#define _GNU_SOURCE
#include <dlfcn.h>
#include <pthread.h>
#include <sched.h>
#include <stdlib.h>

static cpu_set_t allowed;
static int first, started;

static cpu_set_t core(int number) {
    cpu_set_t one;
    CPU_ZERO(&one);
    for (int cpu = 0; cpu < CPU_SETSIZE; cpu++)
        if (CPU_ISSET(cpu, &allowed) && number-- == 0) CPU_SET(cpu, &one);
    return one;
}

__attribute__((constructor)) static void begin(void) {
    first = atoi(getenv("CORE"));
    if (sched_getaffinity(0, sizeof allowed, &allowed)) abort();
    cpu_set_t one = core(first);
    if (sched_setaffinity(0, sizeof one, &one)) abort();
}

int pthread_create(pthread_t *thread, const pthread_attr_t *given, void *(*function)(void *), void *argument) {
    int (*create)(pthread_t *, const pthread_attr_t *, void *(*)(void *), void *) = dlsym(RTLD_NEXT, "pthread_create");
    pthread_attr_t attributes;
    size_t size;
    cpu_set_t one = core((first + 1 + started++ % (WORKERS - 1)) % WORKERS);
    if (pthread_attr_init(&attributes)) abort();
    if (given && (pthread_attr_getstacksize(given, &size) || pthread_attr_setstacksize(&attributes, size))) abort();
    if (pthread_attr_setaffinity_np(&attributes, sizeof one, &one)) abort();
    int error = create(thread, &attributes, function, argument);
    pthread_attr_destroy(&attributes);
    return error;
}
"""


def audits(workers, names):
    """The command that audits these names."""
    return [PROGRAM, "audit", "--workers", str(workers), *names]


def seconds_at_once(commands, status, pinned=None, first=0):
    """The seconds until all of these commands, begun at once, have ended with this status, and what the first prints. With the library
    that keeps threads on cores, the first begins on the core with that number, and each other on the next."""
    cores = [str((first + place) % WORKERS) for place in range(len(commands))]
    environments = [{**LAUNCHED, "LD_PRELOAD": pinned, "CORE": core} if pinned else LAUNCHED for core in cores]
    begin = time.perf_counter()
    runs = [
        subprocess.Popen(command, stdin=subprocess.DEVNULL, stdout=subprocess.PIPE, stderr=subprocess.DEVNULL, env=environment)
        for command, environment in zip(commands, environments)
    ]
    texts = [run.communicate()[0] for run in runs]
    seconds = time.perf_counter() - begin
    if any(run.returncode != status for run in runs):
        sys.exit("an audit ended otherwise than it must")
    return seconds, texts[0]


def in_turns(names, turns, pinned=None):
    """The seconds of each turn of one worker, of several, and of as many programs of one worker each, which share the names."""
    one, several, apart = [], [], []
    for turn in range(turns):
        seconds, list_of_one = seconds_at_once([audits(1, names)], 0, pinned, turn)
        one.append(seconds)
        seconds, list_of_several = seconds_at_once([audits(WORKERS, names)], 0, pinned, turn)
        several.append(seconds)
        if list_of_one != list_of_several:
            sys.exit("the lists of one worker and of several differ")
        seconds, _ = seconds_at_once([audits(1, names[first::WORKERS]) for first in range(WORKERS)], 0, pinned, turn)
        apart.append(seconds)
    return one, several, apart


def times(one, other):
    """How many times faster the other is than the one, by the least times and by the median ones."""
    return f"{min(one) / min(other):.2f} and {statistics.median(one) / statistics.median(other):.2f} times faster"


def gain(names, turns, pinned=None):
    """What several workers gain, and several programs that share nothing: each figure by the least times, and by the median ones."""
    one, several, apart = in_turns(names, turns, pinned)
    seconds = [f"{min(turns):.3f} and {statistics.median(turns):.3f} s" for turns in (one, several, apart)]
    return (
        f"one worker {seconds[0]}; {WORKERS} workers {seconds[1]}, {times(one, several)}; "
        f"{WORKERS} programs {seconds[2]}, {times(one, apart)}"
    )


def longest_thread(folder, workers, names):
    """The instructions of that thread of an audit which executes most."""
    counts = os.path.join(folder, f"counts_{workers}")
    counting = ["valgrind", "--tool=callgrind", "--separate-threads=yes", "--fair-sched=try", f"--callgrind-out-file={counts}"]
    subprocess.run([*counting, *audits(workers, names)], stdin=subprocess.DEVNULL, capture_output=True, check=True, env=LAUNCHED)
    return max(int(COUNTED.search(open(file).read()).group(1)) for file in glob.glob(f"{counts}-*"))


def pinned_threads(folder):
    """The library that keeps each thread on a core."""
    source, library = os.path.join(folder, "pinned.c"), os.path.join(folder, "pinned.so")
    with open(source, "w") as file:
        file.write(PINNED_THREADS)
    subprocess.run(["gcc", "-O2", "-shared", "-fPIC", f"-DWORKERS={WORKERS}", "-o", library, source, "-ldl"], check=True)
    return library


def seconds_of(command):
    """The least seconds of some runs of a command, and what it prints."""
    least, text = None, b""
    for _ in range(RUNS):
        begin = time.perf_counter()
        run = subprocess.run(command, stdin=subprocess.DEVNULL, stdout=subprocess.PIPE)
        seconds = time.perf_counter() - begin
        if run.returncode != 0:
            sys.exit(f"{' '.join(command[:4])} .. ended with status {run.returncode}")
        least, text = seconds if least is None else min(least, seconds), run.stdout
    return least, text


def fleet(folder, objects, count):
    """The names of so many configurations of so many objects, whose files are written."""
    text = config(objects)
    first = written(folder, f"{objects}.toml", text)
    labels = subprocess.run([PROGRAM, "label", first], stdout=subprocess.PIPE, check=True).stdout.decode()
    names = []
    for number in range(count):
        name = os.path.join(folder, f"{objects}_{number:03}")
        written(folder, f"{name}.toml", text)
        written(folder, f"{name}.labels", labels)
        names.append(name)
    return names


def main():
    turns = int(sys.argv[1]) if len(sys.argv) > 1 else TURNS
    if len(os.sched_getaffinity(0)) < WORKERS:
        sys.exit(f"{WORKERS} workers want as many cores")
    with tempfile.TemporaryDirectory() as folder:
        library = pinned_threads(folder)
        begun, _ = seconds_of([PROGRAM, "run", written(folder, "bare.toml", config(0))])
        fleets = {f"{count} configurations of {objects} objects": fleet(folder, objects, count) for objects, count in FLEETS}
        fleets["all of these"] = [name for names in fleets.values() for name in names]
        for said, names in fleets.items():
            print(f"{said}, {turns} turns", flush=True)
            print(f"  each thread on a core of its own: {gain(names, turns, library)}", flush=True)
            print(f"  where the system puts them: {gain(names, turns)}", flush=True)
            # Where the last name has no files, all are read and none is judged.
            unread = [*names, os.path.join(folder, "nowhere")]
            files = min(seconds_at_once([audits(WORKERS, unread)], 3, library)[0] for _ in range(RUNS))
            one = min(seconds_at_once([audits(1, names)], 0)[0] for _ in range(RUNS))
            checked = sum(seconds_of([PROGRAM, "check", f"{name}.toml", f"{name}.labels"])[0] - begun for name in names)
            read = sum(seconds_of([PROGRAM, "run", f"{name}.toml"])[0] - begun for name in names)
            print(
                f"  the files are read in {files:.3f} s; `check` of each {checked:.3f} s, so one worker takes {one / checked:.2f} times that; "
                f"of this the reading of the text is {100 * read / checked:.0f} percent",
                flush=True,
            )
            shared = longest_thread(folder, 1, names) / longest_thread(folder, WORKERS, names)
            print(f"  by instructions the longest of {WORKERS} workers has {shared:.2f} times less to do", flush=True)


if __name__ == "__main__":
    main()
