#!/usr/bin/env python3
"""Plays links and performers against `troop serve` on the loopback address, and gives `troop replay` as much input as it takes.

    tests/loopback.py [PROGRAM]

PROGRAM is crates/troop/out/troop where it isn't given. Three servers are started, one behind the other, each of which ends behind a
known number of links, and two replays; they are the only processes that are started, and the only ones that are ended, by their
numbers, where something went wrong. Each wait has an end. The last line says what was seen.
"""
import json
import os
import random
import select
import socket
import subprocess
import sys
import threading
import time

TOP = os.path.dirname(os.path.dirname(os.path.abspath(__file__)))
PROGRAM = os.path.join(TOP, "crates", "troop", "out", "troop")
LIMIT = 1_048_576
PERFORMERS = 8
TYPING = 3.0
PATIENCE = 60.0
MOST_JOINS = 4_096
WORKERS = 64
QUIET = 1.0
MOST_INPUT = 1 << 30
INPUT_PATIENCE = 600.0


# ---- Operations: lists of counts kept (> 0), counts deleted (< 0) and texts put in.

def normal(parts):
    done, text, deleted = [], "", 0
    for part in parts + [None]:
        if isinstance(part, str):
            text += part
        elif part is not None and part < 0:
            deleted -= part
        elif part is None or part > 0:
            done += ([text] if text else []) + ([-deleted] if deleted else [])
            text, deleted = "", 0
            if part is not None:
                if done and isinstance(done[-1], int) and done[-1] > 0:
                    done[-1] += part
                else:
                    done.append(part)
    return done


def gaps(op):
    """For each place of the base the text put in in front of it and whether its character is kept, and the text at the end."""
    found, text = [], ""
    for part in op:
        if isinstance(part, str):
            text += part
        else:
            for _ in range(abs(part)):
                found.append((text, part > 0))
                text = ""
    return found, text


def transform(a, b):
    """a moved through b, and b moved through a; at one gap a's text stands first."""
    left, right = [], []
    (xs, x_end), (ys, y_end) = gaps(a), gaps(b)
    assert len(xs) == len(ys), "operations on texts of two lengths"
    for (x, x_keeps), (y, y_keeps) in zip(xs + [(x_end, None)], ys + [(y_end, None)]):
        left += [x] + ([len(y)] if y else [])
        right += ([len(x)] if x else []) + [y]
        if y_keeps:
            left.append(1 if x_keeps else -1)
        if x_keeps:
            right.append(1 if y_keeps else -1)
    return normal(left), normal(right)


def compose(a, b):
    """One operation with the effect of a and then of b."""
    (ys, y_end), done, at = gaps(b), [], 0
    for part in a:
        if isinstance(part, int) and part < 0:
            done.append(part)
            continue
        for character in (part if isinstance(part, str) else [None] * part):
            text, keeps = ys[at]
            at += 1
            done.append(text)
            if character is None:
                done.append(1 if keeps else -1)
            elif keeps:
                done.append(character)
    assert at == len(ys), "operations that don't follow one another"
    return normal(done + [y_end])


def apply(op, pairs, who):
    done, at = [], 0
    for part in op:
        if isinstance(part, str):
            done += [(character, who) for character in part]
        else:
            if part > 0:
                done += pairs[at:at + part]
            at += abs(part)
    assert at == len(pairs), "an operation for another text"
    return done


def runs_of(pairs):
    runs = []
    for _, who in pairs:
        if runs and runs[-1][0] == who:
            runs[-1][1] += 1
        else:
            runs.append([who, 1])
    return runs


# ---- Links.

class Link:
    """A connection that writes and reads lines."""
    port = 0
    opened = 0
    lock = threading.Lock()

    def __init__(self):
        self.socket = socket.create_connection(("127.0.0.1", Link.port), timeout=PATIENCE)
        self.socket.setsockopt(socket.IPPROTO_TCP, socket.TCP_NODELAY, 1)
        self.held = b""
        with Link.lock:
            Link.opened += 1

    def send(self, value):
        self.socket.sendall(json.dumps(value).encode() + b"\n")

    def read(self):
        """The next line's value, or None at the end."""
        while b"\n" not in self.held:
            piece = self.socket.recv(65536)
            if not piece:
                assert not self.held, "half a line at the end"
                return None
            self.held += piece
        line, self.held = self.held.split(b"\n", 1)
        return json.loads(line)

    def ask(self, value):
        self.send(value)
        return self.read()

    def join(self):
        return self.ask({"call": "join", "lang": "lines", "name": "eve"})

    def close(self):
        self.socket.close()


def expect(got, wanted):
    assert got == wanted, f"got {got}, wanted {wanted}"


# ---- One link at a time.

def half_a_line():
    link = Link()
    link.socket.sendall(b'{"call":"jo')
    link.close()
    link = Link()
    link.socket.sendall(b'{"call":"jo')
    link.socket.shutdown(socket.SHUT_WR)
    expect(link.read(), {"line": 1, "no": "unfit"})
    expect(link.read(), None)
    link.close()


def no_request():
    for first in [b"hello\n", b"\xff\xfe\n", b"\n", b'{"call":"leave"}\n', b'{"call":"down","from":1000000,"who":1}\n', b'{"call":"snap","who":77}\n']:
        link = Link()
        link.socket.sendall(first)
        expect(link.read(), {"line": 1, "no": "unfit"})
        expect(link.read(), None)
        link.close()
    link = Link()
    link.close()


def too_long():
    link = Link()
    link.socket.sendall(b"x" * (LIMIT + 1))
    expect(link.read(), {"line": 1, "no": "long"})
    expect(link.read(), None)
    link.close()


def bad_lines():
    """Lines that are no requests get their replies, and the session goes on; a line over the limit ends it."""
    link = Link()
    who = link.ask({"call": "join", "lang": "lines", "name": "eve"})["who"]
    for number, line in enumerate([b"\n", b"\xff\n", b'{"call":"join","lang":"lines","name":"eve"}\n', b"[" * 200 + b"\n"], start=2):
        link.socket.sendall(line)
        expect(link.read(), {"line": number, "no": "bad"})
    placed = link.ask({"call": "eval", "seen": 0, "text": "hush"})
    expect(placed["who"], who)
    link.socket.sendall(b"y" * (LIMIT + 1))
    expect(link.read(), {"line": 7, "no": "long"})
    expect(link.read(), None)
    link.close()


def stay_and_back():
    """A performer that stays, is cut off, comes back, and asks the same numbered call again."""
    up = Link()
    joined = up.ask({"call": "stay", "lang": "ghci", "name": "bo"})
    who, seen = joined["who"], joined["at"] + 1
    down = Link()
    down.send({"call": "snap", "who": who})
    snapshot = down.read()
    expect(snapshot["at"], seen)
    length = len(snapshot["text"])
    edit = {"call": "edit", "num": 1, "op": ([length] if length else []) + ["!"], "seen": seen}
    placed = up.ask(edit)
    expect(placed["who"], who)
    up.send({"call": "eval", "num": 2, "seen": seen, "text": "hi"})
    up.close()
    up = Link()
    expect(up.ask({"call": "back", "who": who}), {"at": joined["at"], "kept": True, "who": who})
    expect(up.ask(edit), {"at": placed["at"], "kept": True, "who": who})
    again = up.ask({"call": "eval", "num": 2, "seen": seen, "text": "hi"})
    expect(again["who"], who)
    clash = up.ask({"call": "eval", "num": 2, "seen": seen, "text": "ho"})
    expect(clash, {"at": again["at"], "no": "clash", "num": 2})
    left = up.ask({"call": "leave", "num": 3})
    expect(left["who"], who)
    expect(up.read(), None)
    entries = []
    while (entry := down.read()) is not None:
        entries.append(entry)
    mine = [(entry["deed"], entry["at"]) for entry in entries if entry["who"] == who]
    expect(mine, [("edit", placed["at"]), ("eval", again["at"]), ("leave", left["at"])])
    expect([entry["at"] for entry in entries], list(range(seen, left["at"] + 1)))
    up.close()
    down.close()
    stranger = Link()
    expect(stranger.ask({"call": "back", "who": 4_000}), {"no": "member", "who": 4_000})
    expect(stranger.read(), None)
    stranger.close()


def cut_in_a_reply():
    """A link that goes in the middle of a reply: its performer has left, as the log tells."""
    up = Link()
    who = up.ask({"call": "join", "lang": "lines", "name": "cut"})["who"]
    up.socket.sendall(b"\n" * 2000)
    up.socket.recv(10)
    up.close()
    down = Link()
    down.send({"call": "down", "from": 0, "who": who})
    last = None
    while (entry := down.read()) is not None:
        last = entry
    expect((last["deed"], last["who"]), ("leave", who))
    down.close()


def never_reads():
    """A peer that never reads holds up nobody but itself."""
    deaf = Link()
    deaf.send({"call": "join", "lang": "lines", "name": "deaf"})
    deaf.socket.setblocking(False)
    sent = 0
    try:
        while sent < 1 << 26:
            sent += deaf.socket.send(b"\n" * 65536)
    except BlockingIOError:
        pass
    other = Link()
    who = other.ask({"call": "join", "lang": "lines", "name": "other"})["who"]
    expect(other.ask({"call": "leave"})["who"], who)
    expect(other.read(), None)
    other.close()
    deaf.close()


ALONE = [
    (half_a_line, 2),
    (no_request, 7),
    (too_long, 1),
    (bad_lines, 1),
    (stay_and_back, 4),
    (cut_in_a_reply, 2),
    (never_reads, 2),
]


# ---- Performers.

class Performer:
    """A copy of the text in its three states, which moves by entries alone: a reply only frees the up link."""

    def __init__(self, index):
        self.draws = random.Random(index)
        self.up = Link()
        self.who = self.up.ask({"call": "join", "lang": "lines", "name": f"p{index}"})["who"]
        self.down = Link()
        self.down.send({"call": "down", "from": 0, "who": self.who})
        self.pairs, self.taken, self.num = [], 0, 0
        self.sent, self.buffer = None, None
        self.outgoing, self.is_asking, self.last = [], False, 0

    def type(self):
        place = self.draws.randrange(len(self.pairs) + 1)
        if self.draws.randrange(3) == 0 and place < len(self.pairs):
            op = normal([place, -1, len(self.pairs) - place - 1])
        else:
            op = normal([place, self.draws.choice("abc dé\n𝄞"), len(self.pairs) - place])
        self.pairs = apply(op, self.pairs, self.who)
        if self.sent is None:
            self.go_out(op)
        else:
            self.buffer = op if self.buffer is None else compose(self.buffer, op)

    def go_out(self, op):
        self.num += 1
        self.sent = op
        self.outgoing.append({"call": "edit", "num": self.num, "op": op, "seen": self.taken})

    def take(self, entry):
        expect(entry["at"], self.taken)
        self.taken += 1
        if entry["deed"] not in ("edit", "reset"):
            return
        b = entry["op"]
        if entry["deed"] == "edit" and entry["who"] == self.who:
            expect(b, self.sent)
            self.sent, later, self.buffer = None, self.buffer, None
            if later is not None:
                self.go_out(later)
            return
        if self.sent is not None:
            self.sent, b = transform(self.sent, b)
        if self.buffer is not None:
            self.buffer, b = transform(self.buffer, b)
        self.pairs = apply(b, self.pairs, entry["who"])

    def turn(self, wait):
        """Sends what may go out, and takes what has come."""
        if self.outgoing and not self.is_asking:
            self.up.send(self.outgoing.pop(0))
            self.is_asking = True
        ready, _, _ = select.select([self.up.socket, self.down.socket], [], [], wait)
        for link in (self.up, self.down):
            if link.socket not in ready:
                continue
            piece = link.socket.recv(65536)
            assert piece, "a link that ends in the middle"
            link.held += piece
            while b"\n" in link.held:
                line, link.held = link.held.split(b"\n", 1)
                value = json.loads(line)
                if link is self.down:
                    self.take(value)
                else:
                    assert "no" not in value, f"refused: {value}"
                    self.last = value["at"]
                    self.is_asking = False

    def is_calm(self):
        return self.sent is None and not self.outgoing and not self.is_asking

    def play(self, until, barrier, shared):
        """Types for a while, waits till nothing is awaited, and then till all has come that anybody placed."""
        while time.monotonic() < until:
            self.type()
            self.turn(0.01)
        give_up = time.monotonic() + PATIENCE
        while not self.is_calm():
            assert time.monotonic() < give_up, "an edit that isn't confirmed"
            self.turn(0.05)
        shared.append(self.last)
        barrier.wait(PATIENCE)
        while self.taken <= max(shared):
            assert time.monotonic() < give_up, "an entry that doesn't come"
            self.turn(0.05)

    def leave(self):
        reply = self.up.ask({"call": "leave"})
        expect(reply["who"], self.who)
        expect(self.up.read(), None)
        while (entry := self.down.read()) is not None:
            last = entry
        expect((last["deed"], last["who"], last["at"]), ("leave", self.who, reply["at"]))
        self.up.close()
        self.down.close()


def jam(server):
    performers = [Performer(index) for index in range(PERFORMERS)]
    barrier, shared, errors = threading.Barrier(PERFORMERS), [], []
    until = time.monotonic() + TYPING

    def play(performer):
        try:
            performer.play(until, barrier, shared)
        except BaseException as error:
            errors.append(error)
            barrier.abort()

    threads = [threading.Thread(target=play, args=(performer,)) for performer in performers]
    for thread in threads:
        thread.start()
    for thread in threads:
        thread.join()
    if errors:
        raise errors[0]
    for performer in performers:
        assert performer.pairs == performers[0].pairs, "two texts, or two lists of marks"
    used = processor_seconds(server)
    time.sleep(2)
    idle = processor_seconds(server) - used
    for performer in performers:
        performer.leave()
    return performers[0].pairs, max(shared) + 1, idle


def processor_seconds(server):
    try:
        with open(f"/proc/{server.pid}/stat", encoding="ascii") as file:
            fields = file.read().rsplit(")", 1)[1].split()
        return (int(fields[11]) + int(fields[12])) / os.sysconf("SC_CLK_TCK")
    except OSError:
        return 0.0


def free_port():
    with socket.socket() as probe:
        probe.bind(("127.0.0.1", 0))
        return probe.getsockname()[1]


def wait_for(server):
    """Waits until the server listens. A dial that is refused is no link."""
    give_up = time.monotonic() + PATIENCE
    while True:
        assert server.poll() is None, f"the server ended with status {server.returncode}"
        try:
            return Link()
        except ConnectionRefusedError:
            assert time.monotonic() < give_up, "nobody listens"
            time.sleep(0.05)


def play(server):
    first = wait_for(server)
    first.close()
    for scene, _ in ALONE:
        scene()
        print(f"loopback: {scene.__name__.replace('_', ' ')}")
    pairs, entries, idle = jam(server)
    out, err = server.communicate(timeout=PATIENCE)
    expect(server.returncode, 0)
    expect(err, b"")
    line = json.loads(out)
    expect(out, (json.dumps(line, separators=(",", ":"), sort_keys=True, ensure_ascii=False) + "\n").encode())
    expect(line["text"], "".join(character for character, _ in pairs))
    expect(line["marks"], runs_of(pairs))
    assert line["entries"] >= entries + PERFORMERS, "too few entries"
    print(f"loopback: {PERFORMERS} performers, {line['entries']} entries, {len(pairs)} characters, {idle:.2f} s of a processor in 2 idle seconds")


def crowd(server):
    """A log takes so many joins and no more; the refusal ends its session."""
    wait_for(server).close()
    for who in range(1, MOST_JOINS + 1):
        link = Link()
        expect(link.join()["who"], who)
        link.close()
    link = Link()
    expect(link.join(), {"joins": MOST_JOINS, "no": "crowded"})
    expect(link.read(), None)
    link.close()
    out, err = server.communicate(timeout=PATIENCE)
    expect((server.returncode, err), (0, b""))
    expect(out, b'{"entries":%d,"marks":[],"text":""}\n' % (2 * MOST_JOINS))
    print(f"loopback: {MOST_JOINS} joins, and one too many")


def full_house(server):
    """So many sessions are served at once, and one more only once one of them has ended."""
    wait_for(server).close()
    links = [Link() for _ in range(WORKERS)]
    for link in links:
        link.send({"call": "join", "lang": "lines", "name": "eve"})
    expect(sorted(link.read()["who"] for link in links), list(range(1, WORKERS + 1)))
    late = Link()
    late.send({"call": "join", "lang": "lines", "name": "late"})
    ready, _, _ = select.select([late.socket], [], [], QUIET)
    expect(ready, [])
    links[0].close()
    expect(late.read()["who"], WORKERS + 1)
    for link in links[1:] + [late]:
        link.close()
    out, err = server.communicate(timeout=PATIENCE)
    expect((server.returncode, err), (0, b""))
    expect(out, b'{"entries":%d,"marks":[],"text":""}\n' % (2 * (WORKERS + 1)))
    print(f"loopback: {WORKERS} sessions at once, and one that waits for its turn")


def replay_blank(program, behind):
    """What a replay comes to whose script is as many bytes as it takes, in blank lines, and then these."""
    child = subprocess.Popen([program, "replay"], stdin=subprocess.PIPE, stdout=subprocess.PIPE, stderr=subprocess.PIPE)
    timer = threading.Timer(INPUT_PATIENCE, child.kill)
    timer.start()
    line = b" " * (LIMIT - 1) + b"\n"
    try:
        try:
            for _ in range(MOST_INPUT // len(line)):
                child.stdin.write(line)
        except BrokenPipeError:
            pass
        out, err = child.communicate(behind, timeout=INPUT_PATIENCE)
        return child.returncode, out, err
    finally:
        timer.cancel()
        if child.poll() is None:
            child.kill()
            child.wait()


def large_input(program):
    expect(replay_blank(program, b""), (0, b'{"entries":0,"marks":[],"text":""}\n', b""))
    expect(replay_blank(program, b"\n"), (10, b"", b"troop: too much input\n"))
    print(f"loopback: a script of {MOST_INPUT} bytes, and one byte too many")


def with_server(program, links, scene):
    """Plays a scene of so many links against a server of its own."""
    Link.port, Link.opened = free_port(), 0
    words = [program, "serve", f"127.0.0.1:{Link.port}", f"--sessions={links}"]
    server = subprocess.Popen(words, stdin=subprocess.DEVNULL, stdout=subprocess.PIPE, stderr=subprocess.PIPE)
    try:
        scene(server)
        expect(Link.opened, links)
    finally:
        if server.poll() is None:
            server.kill()
            server.wait()


def main():
    program = sys.argv[1] if len(sys.argv) > 1 else PROGRAM
    if not os.path.exists(program):
        sys.exit(f"loopback: there is no {program}")
    large_input(program)
    with_server(program, 1 + WORKERS + 1, full_house)
    with_server(program, 1 + MOST_JOINS + 1, crowd)
    with_server(program, 1 + sum(count for _, count in ALONE) + 2 * PERFORMERS, play)


if __name__ == "__main__":
    main()
