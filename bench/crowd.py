#!/usr/bin/env python3
"""Has 64 connections at once ask `cosem-flow serve` at random, and judges each reply.

    bench/crowd.py [REQUESTS [SEED]]

Sixteen connections of each client of the demo send so many GETs, SETs and ACTIONs each, allowed and refused, up to eight at once, in
pieces that are cut anywhere, while inputs to the register come on the server's standard input. Ten of them close in the midst of a frame,
some behind others whose replies they don't read. The seed is printed: the same one gives the same requests, though not the same order of
connections. A refusal must be the one that the configuration gives. What a session is told of values must be such that it learns of ever
more of what happened to the meter, in its order, and of its own writes at once:

- the register is at its start, reset, or at an input that was brought by then, none older than one that was seen before;
- alarm and period are at their start, or at a value that was sent by then, each session sending values of its own: of these at the last,
  until another's was seen; of another's at none whose writing had ended before the session's own last one began; and not at their start
  again once the session wrote, or saw another value;
- rows have such inputs and alarms, none with an older input than the row before, or than the first one that was seen before.

In the end the server must end by itself with status 0, and have told nothing but where it listens and that the lines have ended. What isn't as it must be is told, the
first such thing, with status 1. Run `tools/build` first.
"""
import math
import multiprocessing
import random
import select
import socket
import subprocess
import sys
import time

from serve import HOST, LABELS, MANAGERS_AARQ, fault_of_end, free_port, serve_command, started
from session import AARE, AARQ, CONFIG, frame

SESSIONS = 64
CLOSING = 10
WORKERS = 4
AT_ONCE = 8
SECONDS_TO_ANSWER, SECONDS_BETWEEN_INPUTS = 60, 0.001
PUBLICS_AARQ = bytes.fromhex("601DA109060760857405080101BE10040E01000000065F1F0400007E1F04B0")
INSTALLERS_AARQ = AARQ.replace(b"12345678", b"87654321")
CLIENTS = [("public", 16, PUBLICS_AARQ), ("reader", 32, AARQ), ("installer", 48, INSTALLERS_AARQ), ("manager", 1, MANAGERS_AARQ)]
GET, SET, ACTION = 0xC0, 0xC1, 0xC3
CODES = {GET: b"\x01%c", SET: b"%c", ACTION: b"%c\x00"}
ENERGY, ALARM, PROFILE, TABLE = "00030100010800FF", "00010000600B00FF", "00070100630100FF", "000900000A0064FF"
NAME, UNIT = bytes.fromhex("09060100010800FF"), bytes.fromhex("02020F00161E")
# How often, the service, what stands behind the invoke byte but a value, which cell it changes, and what public, reader, installer and
# manager are answered: a code (0 is success), a value, or what it is judged as.
REQUESTS = [
    (6, GET, ENERGY + "0200", "", (3, "energy", 4, "energy")),
    (2, GET, ENERGY + "0100", "", (NAME, NAME, 4, NAME)),
    (2, GET, ENERGY + "0300", "", (3, UNIT, 4, UNIT)),
    (6, GET, ALARM + "0200", "", (4, "alarm", 4, "alarm")),
    (4, GET, PROFILE + "0200", "", (4, "rows", 3, "rows")),
    (4, GET, PROFILE + "0400", "", (4, "period", "period", "period")),
    (2, GET, PROFILE + "0700", "", (4, "in use", 3, "in use")),
    (2, SET, ENERGY + "0200", "energy", (3, 3, 4, 3)),
    (4, SET, ALARM + "0200", "alarm", (4, 3, 4, 0)),
    (4, SET, PROFILE + "0400", "period", (4, 3, 0, 3)),
    (1, ACTION, ENERGY + "0100", "energy", (3, 3, 4, 0)),
    (1, ACTION, PROFILE + "0100", "", (4, 3, 3, 0)),
    (2, ACTION, PROFILE + "0200", "", (4, 3, 3, 0)),
    (1, ACTION, TABLE + "0101120001", "alarm", (4, 4, 4, 0)),
    (1, ACTION, TABLE + "0101120003", "", (4, 4, 4, 0)),
    (1, ACTION, TABLE + "0101120009", "", (4, 4, 4, 250)),
]
OFTEN = [request[0] for request in REQUESTS]
READS = {request[2]: request for request in REQUESTS if request[1] == GET}
STARTS = {"alarm": 0, "period": 900}
# Inputs go up from here, which is the register's start and one; 0 is what a reset puts.
FIRST_INPUT = 123457
# What script 1 sets the alarm to, how many values each session has of its own behind that, more than it sends at once, and what is sent
# where it must be refused.
SCRIPTS, OWN, REFUSED = 1, 15, 255
# What all workers know: how many inputs were brought, whether the register was ever reset, and of each value of alarm and period when it
# was last sent, and when that was answered.
FORK = multiprocessing.get_context("fork")
BROUGHT, RESETS = FORK.RawValue("q"), FORK.RawValue("q")
BEGUN, ENDED = ({cell: FORK.RawArray("d", 256) for cell in STARTS} for _ in range(2))
ASSOCIATED = FORK.Barrier(WORKERS)


class Session:
    """A connection, what is asked on it, and what is known there of the meter."""

    def __init__(self, number, seed, count, closes_at, port):
        self.kind, rank = number % len(CLIENTS), number // len(CLIENTS)
        client, self.source, aarq = CLIENTS[self.kind]
        self.name, self.rng = f"session {number}, {client}", random.Random(f"{seed} {number}")
        self.count, self.closes_at, self.sent, self.replied, self.is_cut = count, closes_at, 0, 0, False
        self.held, self.waiting, self.next = b"", [], None
        self.own, self.written = range(SCRIPTS + 1 + OWN * rank, SCRIPTS + 1 + OWN * (rank + 1)), 0
        self.writes = {"manager": "alarm", "installer": "period"}.get(client)
        self.last, self.began, self.moved, self.newest, self.row = {}, {}, set(), -1, -1
        self.stream = socket.create_connection((HOST, port), SECONDS_TO_ANSWER)
        self.stream.setsockopt(socket.IPPROTO_TCP, socket.TCP_NODELAY, 1)
        self.stream.sendall(frame(self.source, 1, aarq))
        if self.stream.recv(8 + len(AARE), socket.MSG_WAITALL) != frame(1, self.source, AARE):
            raise RuntimeError(f"{self.name}: not associated")

    def fileno(self):
        return self.stream.fileno()

    def request(self, now):
        """The next request's frame, which waits for its reply."""
        _, service, behind, cell, answers = self.next or self.rng.choices(REQUESTS, OFTEN)[0]
        self.next = READS[behind] if service == SET and self.rng.random() < 0.5 else None
        answer, value = answers[self.kind], SCRIPTS if cell == "alarm" else 0
        apdu = bytes([service, 1, self.rng.randrange(256)]) + bytes.fromhex(behind)
        if service == SET:
            value, self.written = self.own[self.written % OWN] if answer == 0 else REFUSED, self.written + 1
            apdu += bytes([0x11, value]) if cell == "alarm" else b"\x06" + value.to_bytes(4, "big")
        if answer == 0 and cell == "energy":
            RESETS.value = 1
        elif answer == 0 and cell:
            ENDED[cell][value], BEGUN[cell][value] = math.inf, now
        self.waiting.append((apdu, cell, value, answer, now))
        return frame(self.source, 1, apdu)

    def send(self):
        """Sends some requests, or closes, where all were sent or the last of these is cut."""
        some, now = min(self.rng.randint(1, AT_ONCE), self.count - self.sent), time.monotonic()
        self.is_cut = self.sent + some > self.closes_at
        texts = [self.request(now) for _ in range(self.closes_at - self.sent + 1 if self.is_cut else some)]
        text, self.sent = b"".join(texts), self.sent + len(texts) - self.is_cut
        text = text[: -self.rng.randrange(1, len(texts[-1]))] if self.is_cut else text
        cut = self.rng.randrange(len(text) + 1)
        for piece in (text[:cut], text[cut:]):
            self.stream.sendall(piece)
        if some == 0 or self.is_cut:
            self.stream.close()

    def receive(self):
        """Judges the replies that have come; whether all have."""
        piece = self.stream.recv(65536)
        self.held += piece
        while self.waiting and len(self.held) >= 8 and len(self.held) >= (size := 8 + int.from_bytes(self.held[6:8], "big")):
            apdu, cell, value, answer, began = self.waiting.pop(0)
            reply, self.held = self.held[:size], self.held[size:]
            if not self.is_allowed(reply, apdu, answer):
                raise RuntimeError(f"{self.told()}: {apdu.hex().upper()} was answered by the frame {reply.hex().upper()}")
            self.replied += 1
            if answer == 0 and cell == "energy":
                self.newest = max(self.newest, 0)
            elif answer == 0 and cell:
                self.moved.add(cell)
                self.last[cell], self.began[cell] = value, began
                ENDED[cell][value] = math.inf if value == SCRIPTS else time.monotonic()
        if not piece or (self.held and not self.waiting):
            raise RuntimeError(f"{self.told()}: the server closed, or sent more than was asked: {self.held.hex().upper()}")
        return not self.waiting

    def told(self):
        known = f"newest input {self.newest} of {BROUGHT.value}, last writes {self.last}, no more at their start {sorted(self.moved)}"
        return f"{self.name}, reply {self.replied + 1} ({known})"

    def is_allowed(self, reply, apdu, answer):
        value = answer if isinstance(answer, bytes) else reply[12:]
        behind = CODES[apdu[0]] % answer if isinstance(answer, int) else b"\x00" + value
        is_form = reply == frame(1, self.source, bytes([apdu[0] + 4, 1, apdu[2]]) + behind)
        return is_form and (not isinstance(answer, str) or self.is_value(answer, value))

    def is_value(self, what, value):
        if what == "rows":
            return self.are_rows(value)
        number, place = int.from_bytes(value[1:], "big"), int.from_bytes(value[1:], "big") - FIRST_INPUT
        if (len(value), value[:1]) != ((2, b"\x11") if what == "alarm" else (5, b"\x06")):
            return False
        if what == "in use":
            return number <= 2
        if what == "energy":
            least, self.newest = self.newest, max(self.newest, place if number else 0)
            return least <= place < BROUGHT.value if number else bool(RESETS.value)
        if number == STARTS[what]:
            return what not in self.moved
        self.moved.add(what)
        if number > REFUSED or not BEGUN[what][number]:
            return False
        if what == self.writes and number in self.own:
            return number == self.last.get(what)
        self.last[what] = None
        return ENDED[what][number] >= self.began.get(what, 0)

    def are_rows(self, value):
        rows, places = [value[at : at + 9] for at in range(2, len(value), 9)], [self.row]
        if value[:2] != bytes([0x01, len(rows)]) or len(rows) > 2 or any(len(row) != 9 for row in rows):
            return False
        for row in rows:
            number, alarm = int.from_bytes(row[3:7], "big"), row[8]
            if row[:3] + row[7:8] != b"\x02\x02\x06\x11" or (alarm != STARTS["alarm"] and not BEGUN["alarm"][alarm]):
                return False
            if number == 0 and not RESETS.value:
                return False
            places += [number - FIRST_INPUT] if number else []
        self.row = places[min(1, len(places) - 1)]
        return places == sorted(places) and places[-1] < BROUGHT.value


def work(first, seed, count, closes, port):
    """Has some of the sessions ask until they have ended: when they began and ended, and what came of each."""
    sessions = [Session(place, seed, count, closes.get(place, count), port) for place in range(first, first + SESSIONS // WORKERS)]
    ASSOCIATED.wait()
    begin, left = time.monotonic(), sessions
    while left:
        ready = [session for session in left if not session.waiting] or select.select(left, [], [], SECONDS_TO_ANSWER)[0]
        if not ready:
            raise RuntimeError(f"{left[0].told()}: for {SECONDS_TO_ANSWER} s no reply came, to this session and {len(left) - 1} others")
        for session in ready:
            try:
                if not session.waiting or session.receive():
                    session.send()
            except OSError as fault:
                raise RuntimeError(f"{session.told()}: {fault}") from None
        left = [session for session in left if session.fileno() >= 0]
    return begin, time.monotonic(), [(session.sent, session.replied, session.is_cut) for session in sessions]


def main():
    count = int(sys.argv[1]) if len(sys.argv) > 1 else 10_000
    seed = int(sys.argv[2]) if len(sys.argv) > 2 else random.randrange(1_000_000)
    rng, port = random.Random(seed), free_port()
    closes = {number: rng.randrange(count) for number in rng.sample(range(SESSIONS), CLOSING)}
    print(f"seed {seed}: {SESSIONS} connections, {count} requests each", flush=True)
    with FORK.Pool(WORKERS) as pool:
        server = started("cosem-flow", serve_command(CONFIG, LABELS, port, SESSIONS), port, subprocess.PIPE)
        try:
            results = [pool.apply_async(work, (first, seed, count, closes, port)) for first in range(0, SESSIONS, SESSIONS // WORKERS)]
            while not all(worked := [result.ready() and result.get() for result in results]):
                BROUGHT.value += 1
                server.stdin.write(b"in 1.0.1.8.0.255 06%08X\n" % (FIRST_INPUT + BROUGHT.value - 1))
                server.stdin.flush()
                time.sleep(SECONDS_BETWEEN_INPUTS)
            fault = fault_of_end(server)
        except (RuntimeError, OSError) as wrong:
            sys.exit(f"not as it must be: {wrong}")
        finally:
            server.kill()
    begins, ends, sessions = zip(*worked)
    seconds = max(ends) - min(begins)
    sent, replied, cut = (sum(column) for column in zip(*[session for some in sessions for session in some]))
    print(
        f"{sent} requests, {replied} replies, {seconds:.1f} s, {replied / seconds:,.0f} replies/s, with {BROUGHT.value} inputs; {cut} "
        "connections closed in the midst of a frame"
    )
    if fault:
        sys.exit(f"all replies allowed, but {fault}")
    print("all replies allowed")


if __name__ == "__main__":
    main()
