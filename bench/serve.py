#!/usr/bin/env python3
"""Requests per second of `cosem-flow serve` over loopback, beside a server in C that answers frames of the same sizes.

    bench/serve.py [REQUESTS]
    bench/serve.py plain [REQUESTS]

An asking program in C associates each session, and then sends so many requests in each, one after another, by a write each, and reads
each answer whole before the next; only the requests are timed. The server in C has a thread for each connection too, with TCP_NODELAY
and blocking reads and writes: it reads as much at once, finds each frame by its length, and writes a frame of the answer's size for
each. The answers of `serve` are compared with what they must be, those of the server in C by their sizes alone. The cases are one
session that reads the register, four of them at once, and four at once whose every tenth request is a SET of the alarm; and one session
of SETs alone, by the demo and by a configuration with ten profiles of 1,000 entries more, empty and full: what a SET takes mustn't grow
with buffers that it doesn't touch. Each figure is the best of three runs, each by a server of its own, on at most four cores. Nothing
is judged but answers and ends; what is wanted stands beside a figure. It needs gcc; run `tools/build` first.

By `plain` it is one session of GETs and one of SETs, beside an ordinary program of the same function, `bench/plain_meter.rs`, whose answers are
compared too. They take turns, nine each; told are the least time of a request, and the median, which tells how noisy the machine is. That
needs rustc.
"""
import os
import socket
import statistics
import subprocess
import sys
import tempfile

from check import written
from session import AARE, AARQ, CONFIG, GET, PROGRAM, READER, VALUE, frame

LABELS = os.path.join(os.path.dirname(CONFIG), "demo.labels")
HOST = "127.0.0.1"
# What is told once the lines have ended, which says nothing of a fault.
ENDED = b"cosem-flow: the lines have ended: the meter takes no further step of its own\n"
CORES = 4
RUNS = 3
TURNS = 9
SECONDS_TO_END = 60
MANAGER = 1
MANAGERS_AARQ = AARQ.replace(b"12345678", b"00000000")
SET = bytes.fromhex("C101C100010000600B00FF02001101")
DONE = bytes.fromhex("C501C100")
PROFILES = range(2, 12)
ENTRIES = 1000
# A script that captures into all profiles of the large configuration, and how many entries of one are in use.
CAPTURE = bytes.fromhex("C301C1000900000A0065FF0101120001")
CAPTURED = bytes.fromhex("C701C10000")
ASK_IN_USE = b"\xc0\x01\xc1\x00\x07\x01\x00\x63%c\x00\xff\x07\x00"
IN_USE = b"\xc4\x01\xc1\x00\x06" + ENTRIES.to_bytes(4, "big")
# By a port and sessions it is the server. By a number of requests behind them, and whether answers are compared, it asks, by the frames
# of its input: those of an association and its answer, and then requests with their answers, which it takes in turn.
HELPER = r"""
#include <arpa/inet.h>
#include <netinet/tcp.h>
#include <pthread.h>
#include <stdint.h>
#include <stdio.h>
#include <stdlib.h>
#include <string.h>
#include <time.h>
#include <unistd.h>
static struct sockaddr_in address = {.sin_family = AF_INET};
static long count, is_compared, pairs;
static unsigned char text[65536], *asked[64], *answered[64];
static pthread_barrier_t begun;
static size_t size_of(const unsigned char *frame) { return 8 + 256u * frame[6] + frame[7]; }
static void *sit(void *word) {
    int stream = (int)(intptr_t)word;
    unsigned char held[131072], answer[51];
    size_t have = 0, at = 0;
    for (ssize_t got; (got = read(stream, held + have, 65536)) > 0; at = 0) {
        have += (size_t)got;
        while (have - at >= 8 && have - at >= size_of(held + at)) {
            size_t size = size_of(held + at), back = size > 40 ? 51 : size > 21 ? 12 : 17;
            memcpy(answer, held + at, size < back ? size : back);
            if (write(stream, answer, back) != (ssize_t)back) exit(1);
            at += size;
        }
        memmove(held, held + at, have - at);
        have -= at;
    }
    return close(stream), word;
}
static void ask(int stream, long pair, long number) {
    unsigned char got[1032];
    size_t size = size_of(asked[pair]), want = size_of(answered[pair]), have = 0;
    int is_right = write(stream, asked[pair], size) == (ssize_t)size;
    while (is_right && have < want) {
        ssize_t more = read(stream, got + have, want - have);
        is_right = more > 0;
        have += is_right ? (size_t)more : 0;
    }
    if (is_right && (!is_compared || memcmp(got, answered[pair], want) == 0)) return;
    fprintf(stderr, "request %ld of a session isn't answered as it must be, but by '", number);
    for (size_t k = 0; k < have; k++) fprintf(stderr, "%02X", got[k]);
    fprintf(stderr, "'\n");
    exit(1);
}
static void *talk(void *word) {
    int stream = (int)(intptr_t)word;
    setsockopt(stream, SOL_SOCKET, SO_RCVTIMEO, &(struct timeval){.tv_sec = 60}, sizeof(struct timeval));
    if (connect(stream, (struct sockaddr *)&address, sizeof address)) perror("connect"), exit(1);
    ask(stream, 0, 0);
    pthread_barrier_wait(&begun);
    for (long k = 0; k < count; k++) ask(stream, 1 + k % (pairs - 1), k + 1);
    return close(stream), word;
}
int main(int words, char **word) {
    int sessions = atoi(word[2]), is_asking = words > 3, on = 1, listener = socket(AF_INET, SOCK_STREAM, 0);
    address.sin_port = htons(atoi(word[1])), address.sin_addr.s_addr = htonl(INADDR_LOOPBACK);
    pthread_barrier_init(&begun, 0, sessions + 1);
    if (is_asking) {
        count = atol(word[3]), is_compared = atoi(word[4]);
        size_t have = fread(text, 1, sizeof text, stdin);
        for (size_t at = 0; at < have; at += size_of(answered[pairs++])) {
            asked[pairs] = text + at, at += size_of(text + at);
            answered[pairs] = text + at;
        }
    } else {
        if (bind(listener, (struct sockaddr *)&address, sizeof address) || listen(listener, 64)) return perror("listen"), 1;
        fprintf(stderr, "echo: connections are taken at 127.0.0.1:%s\n", word[1]);
    }
    pthread_t threads[64];
    for (int k = 0; k < sessions; k++) {
        intptr_t stream = is_asking ? socket(AF_INET, SOCK_STREAM, 0) : accept(listener, 0, 0);
        setsockopt((int)stream, IPPROTO_TCP, TCP_NODELAY, &on, sizeof on);
        if (pthread_create(&threads[k], 0, is_asking ? talk : sit, (void *)stream)) return 1;
    }
    struct timespec begin, end;
    if (is_asking) pthread_barrier_wait(&begun);
    clock_gettime(CLOCK_MONOTONIC, &begin);
    for (int k = 0; k < sessions; k++) pthread_join(threads[k], 0);
    clock_gettime(CLOCK_MONOTONIC, &end);
    if (is_asking) printf("%.6f\n", end.tv_sec - begin.tv_sec + (end.tv_nsec - begin.tv_nsec) / 1e9);
    return 0;
}
"""


def free_port():
    with socket.socket() as probe:
        probe.bind((HOST, 0))
        return probe.getsockname()[1]


def serve_command(config, labels, port, sessions):
    return [PROGRAM, "serve", config, labels, "--bind", HOST, "--port", str(port), "--sessions", str(sessions)]


def started(name, command, port, steps=subprocess.DEVNULL):
    """A server that has said under its name where it listens."""
    server = subprocess.Popen(command, stdin=steps, stderr=subprocess.PIPE)
    line = server.stderr.readline().decode()
    if line != f"{name}: connections are taken at {HOST}:{port}\n":
        server.kill()
        sys.exit(f"{' '.join(command)} doesn't say where it listens, but: {line}{server.stderr.read().decode()}")
    return server


def fault_of_end(server):
    """What is wrong with how a server ends by itself, once all connections have ended; or nothing."""
    try:
        _, told = server.communicate(timeout=SECONDS_TO_END)
        told = told.replace(ENDED, b"")
    except subprocess.TimeoutExpired:
        return f"the server still runs {SECONDS_TO_END} s behind the end of all connections"
    return f"the server ended with status {server.returncode} and told: {told.decode()}" if server.returncode or told else ""


def frames(source, aarq, exchanges):
    """The input of the asking program: what a client at a wPort sends, each with its answer."""
    return b"".join(frame(source, 1, asked) + frame(1, source, answered) for asked, answered in [(aarq, AARE), *exchanges])


def fill(port):
    """Fills the buffers of the large configuration, in a session of its own."""
    exchanges = [(MANAGERS_AARQ, AARE)] + [(CAPTURE, CAPTURED)] * ENTRIES + [(ASK_IN_USE % number, IN_USE) for number in PROFILES]
    with socket.create_connection((HOST, port), SECONDS_TO_END) as stream, stream.makefile("rb") as answers:
        for asked, answered in exchanges:
            stream.sendall(frame(MANAGER, 1, asked))
            want = frame(1, MANAGER, answered)
            if answers.read(len(want)) != want:
                sys.exit(f"{asked.hex()} isn't answered by {answered.hex()}")


def large(text):
    """The demo with ten profiles of 1,000 entries more, and a script that captures into all of them."""
    captured = '{ object = "1.0.1.8.0.255", index = 2 }, { object = "0.0.96.11.0.255", index = 2 }'
    names = [f"1.0.99.{number}.0.255" for number in PROFILES]
    objects = [f' {{ class = 7, name = "{name}", period = 0, entries = {ENTRIES}, capture = [ {captured} ] }},\n' for name in names]
    actions = ", ".join(f'{{ service = 2, object = "{name}", index = 2 }}' for name in names)
    objects.append(f' {{ class = 9, name = "0.0.10.0.101.255", script = [ {{ id = 1, action = [ {actions} ] }} ] }},\n')
    rights = [f' {{ client = "manager", object = "{name}", get = [7] }},\n' for name in names]
    rights.append(' { client = "manager", object = "0.0.10.0.101.255", act = [1] },\n')
    return text.replace("]\nright = [\n", "".join([*objects, "]\nright = [\n", *rights]))


def labelled(folder, name, text):
    """The files of a configuration and of its least labels, which are written."""
    config = written(folder, f"{name}.toml", text)
    labels = subprocess.run([PROGRAM, "label", config], stdout=subprocess.PIPE, check=True).stdout.decode()
    return config, written(folder, f"{name}.labels", labels)


def plain_meter(folder):
    """The ordinary program of the same function, which is compiled into the folder; or None where there is no rustc."""
    made = os.path.join(folder, "plain_meter")
    source = os.path.join(os.path.dirname(os.path.abspath(__file__)), "plain_meter.rs")
    try:
        subprocess.run(["rustc", "--edition", "2024", "-O", "-o", made, source], check=True)
    except FileNotFoundError:
        return None
    return made


def rate(helper, files, sessions, given, count, is_filled=False):
    """Requests per second of so many sessions at once, by a server of its own: `serve` by two files, the ordinary program by its own file,
    or without any the one in C."""
    port = free_port()
    if len(files) == 1:
        server = started("plain", [*files, "--port", str(port), "--sessions", str(sessions)], port)
    elif files:
        server = started("cosem-flow", serve_command(*files, port, sessions + int(is_filled)), port)
    else:
        server = started("echo", [helper, str(port), str(sessions)], port)
    try:
        if is_filled:
            fill(port)
        words = [str(word) for word in (port, sessions, count, int(bool(files)))]
        asked = subprocess.run([helper, *words], input=given, stdout=subprocess.PIPE)
        fault = "not all requests were answered" if asked.returncode else fault_of_end(server)
    finally:
        server.kill()
    if fault:
        sys.exit(fault)
    return sessions * count / float(asked.stdout)


def helper_in(folder):
    """The program in C, which is compiled into the folder."""
    helper = os.path.join(folder, "helper")
    subprocess.run(["gcc", "-O2", "-pthread", "-x", "c", "-o", helper, "-"], input=HELPER.encode(), check=True)
    return helper


def beside_plain(count):
    """One session of GETs and one of SETs, by turns of `serve` and of the ordinary program."""
    with tempfile.TemporaryDirectory() as folder:
        helper, plain = helper_in(folder), plain_meter(folder)
        if not plain:
            sys.exit("there is no rustc for an ordinary program")
        for name, given in (("GET", frames(READER, AARQ, [(GET, VALUE)])), ("SET", frames(MANAGER, MANAGERS_AARQ, [(SET, DONE)]))):
            taken = {(CONFIG, LABELS): [], (plain,): []}
            for _ in range(TURNS):
                for files, times in taken.items():
                    times.append(1e6 / rate(helper, files, 1, given, count))
            ours, theirs = taken.values()
            print(
                f"a {name} of one session, {count} one after another: {min(ours):.2f} microseconds at least, {statistics.median(ours):.2f} as the median, "
                f"an ordinary program's {min(theirs):.2f} and {statistics.median(theirs):.2f}; {min(ours) / min(theirs):.2f} times by the least"
            )


def main():
    words = sys.argv[1:]
    os.sched_setaffinity(0, sorted(os.sched_getaffinity(0))[:CORES])
    if words[:1] == ["plain"]:
        beside_plain(int(words[1]) if words[1:] else 100_000)
        return
    count = int(words[0]) if words else 200_000
    with tempfile.TemporaryDirectory() as folder:
        helper = helper_in(folder)
        with open(CONFIG) as lines:
            text = lines.read()
        demo, buffers = (CONFIG, LABELS), labelled(folder, "large", large(text))
        gets = frames(READER, AARQ, [(GET, VALUE)])
        mixed = frames(MANAGER, MANAGERS_AARQ, [(GET, VALUE)] * 9 + [(SET, DONE)])
        sets = frames(MANAGER, MANAGERS_AARQ, [(SET, DONE)])
        cases = [(demo, 1, gets), ((), 1, gets), (demo, 4, gets), ((), 4, gets), (demo, 4, mixed), ((), 4, mixed)]
        cases += [(demo, 1, sets), (buffers, 1, sets), (buffers, 1, sets, True)]
        best = [0.0] * len(cases)
        for _ in range(RUNS):
            for place, (files, sessions, given, *filled) in enumerate(cases):
                best[place] = max(best[place], rate(helper, files, sessions, given, count, *filled))
    one, one_c, four, four_c, mixed, mixed_c, alone, empty, full = best
    print(f"{count} requests a session, {len(os.sched_getaffinity(0))} cores")
    print(f"one session of GETs: {one:,.0f} requests/s, C {one_c:,.0f}; {one / one_c:.2f} times C (wanted: at least 0.6)")
    for name, ours, theirs, wanted in (("GETs", four, four_c, 3), ("which each tenth request is a SET", mixed, mixed_c, 2)):
        print(
            f"four sessions of {name}: {ours:,.0f} requests/s, C {theirs:,.0f}; {ours / one:.2f} times one session of GETs (wanted: at "
            f"least {wanted}), C {theirs / one_c:.2f} times"
        )
    print(
        f"one session of SETs: {alone:,.0f} requests/s; beside {len(PROFILES)} profiles of {ENTRIES} entries {empty:,.0f} where they are "
        f"empty, {empty / alone:.2f} times that, and {full:,.0f} where they are full, {full / alone:.2f} times (wanted: near 1)"
    )


if __name__ == "__main__":
    main()
