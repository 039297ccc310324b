#!/usr/bin/env python3
"""Plays the seat in Emacs, clients/emacs/troop.el.

    tests/emacs.py [PROGRAM]

First without a server: the vectors of crates/vectors, the unit tests, and changes at random. Then against `troop serve` on the
loopback address: two Emacs processes and a performer in Python that type at once, one of them with an interpreter beside it and one
with its links cut again and again; and one Emacs on a terminal, with real keys. PROGRAM is crates/troop/out/troop where it isn't
given. Each process that is started is ended here, by its number, where it doesn't end by itself, and each wait has an end. Where
there is no Emacs, or none of version 28.1, nothing is played, and that is said.
"""
import fcntl
import json
import os
import pty
import random
import re
import select
import shutil
import subprocess
import sys
import tempfile
import termios
import time

import loopback
from loopback import PATIENCE, PROGRAM, TOP, Link, expect
from relay import Relay

CLIENT = os.path.join(TOP, "clients", "emacs", "troop.el")
TESTS = os.path.join(TOP, "tests", "emacs")
OLDEST = (28, 1)
ROUNDS = 12
TYPING = 5.0
PASTE = 200_000
SESSIONS = 400
LONGEST_TEST = 300
SEED = random.randrange(10**6)


# ---- Processes.

class Process:
    """A process that is ended, by its number, at the end of a `with`."""

    def __init__(self, words, **more):
        self.child = subprocess.Popen(words, **more)

    def __enter__(self):
        return self.child

    def __exit__(self, *_):
        if self.child.poll() is None:
            self.child.kill()
        self.child.wait()


def batch(client, folder, test, *words):
    """Runs a test in an Emacs of its own, and gives what it said."""
    command = ["emacs", "-Q", "--batch", "-L", os.path.dirname(client), "-l", os.path.join(TESTS, test), *map(str, words)]
    done = subprocess.run(command, stdin=subprocess.DEVNULL, capture_output=True, text=True, timeout=LONGEST_TEST, check=False,
                          env=environment(folder))
    if done.returncode != 0:
        sys.exit(f"emacs: {test} failed\n{done.stdout}{done.stderr}")
    return done.stderr


def version():
    if not shutil.which("emacs"):
        return None
    said = subprocess.run(["emacs", "--version"], capture_output=True, text=True, timeout=60, check=True).stdout
    found = re.search(r"GNU Emacs (\d+)\.(\d+)", said)
    return (int(found.group(1)), int(found.group(2))) if found else None


def environment(folder):
    """Emacs is to keep whatever it keeps in this folder."""
    return {**os.environ, "HOME": folder, "TERM": "vt100"}


def compiled(folder):
    """A copy of the client in this folder, compiled without a warning."""
    copy = shutil.copy(CLIENT, folder)
    command = ["emacs", "-Q", "--batch", "--eval", "(setq byte-compile-error-on-warn t)", "-f", "batch-byte-compile", copy]
    done = subprocess.run(command, capture_output=True, text=True, timeout=LONGEST_TEST, check=False, env=environment(folder))
    if done.returncode != 0:
        sys.exit(f"emacs: the client doesn't compile\n{done.stderr}")
    return copy


# ---- A server, and a performer in Python.

class Listener(loopback.Performer):
    """A performer that keeps the evaluations and the joins too."""

    def __init__(self, index):
        super().__init__(index)
        self.evaluations, self.joins = [], {}

    def take(self, entry):
        super().take(entry)
        if entry["deed"] == "eval":
            self.evaluations.append([entry["who"], entry["at"], entry["text"]])
        elif entry["deed"] == "join":
            self.joins[entry["name"]] = entry["at"]

    def heard_from(self, position):
        """The evaluations that stand behind a position."""
        return [evaluation for evaluation in self.evaluations if evaluation[1] > position]

    def put_in(self, place, text):
        """Puts a text in, and waits until it is placed."""
        op = loopback.normal([place, text, len(self.pairs) - place])
        self.pairs = loopback.apply(op, self.pairs, self.who)
        self.go_out(op)
        self.wait_until(self.is_calm, "an edit that isn't confirmed")

    def text(self):
        return "".join(character for character, _ in self.pairs)

    def wait_until(self, holds, what):
        give_up = time.monotonic() + PATIENCE
        while not holds():
            assert time.monotonic() < give_up, f"{what}; taken are {self.taken}, and the text begins with {self.text()[:60]!r}"
            self.turn(0.02)


def serve(program):
    Link.port, Link.opened = loopback.free_port(), 0
    words = [program, "serve", f"127.0.0.1:{Link.port}", f"--sessions={SESSIONS}"]
    return Process(words, stdin=subprocess.DEVNULL, stdout=subprocess.PIPE, stderr=subprocess.PIPE)


def last_line(server, relays):
    """Opens the links that the server still waits for, and gives its line."""
    for _ in range(SESSIONS - Link.opened - sum(relay.dialled for relay in relays)):
        Link().close()
    out, err = server.communicate(timeout=PATIENCE)
    expect((server.returncode, err), (0, b""))
    return json.loads(out)


def has_word(program, word):
    """Whether the program knows the word, which then finds nobody at that address."""
    words = [program, word, f"127.0.0.1:{loopback.free_port()}", "x", "lines", "--", "true"]
    return subprocess.run(words, stdin=subprocess.DEVNULL, capture_output=True, timeout=60, check=False).returncode != 2


# ---- Two seats that type at once.

def seat(client, relay, name, folder, paste, program):
    words = ["emacs", "-Q", "--batch", "-L", os.path.dirname(client), "-l", os.path.join(TESTS, "seat.el"),
             str(relay.address()), name, f"{name} {SEED}", str(TYPING), folder, str(paste), program]
    with open(os.path.join(folder, f"{name}.said"), "wb") as said:
        return Process(words, stdin=subprocess.DEVNULL, stdout=subprocess.DEVNULL, stderr=said, env=environment(folder))


def read(folder, file):
    try:
        with open(os.path.join(folder, file), encoding="utf-8", newline="") as found:
            return found.read()
    except FileNotFoundError:
        return ""


def type_and_cut(listener, cut, seats):
    """Types for a while, and cuts links meanwhile."""
    until, times = time.monotonic() + TYPING, 0
    while time.monotonic() < until:
        listener.type()
        listener.turn(0.02)
        if TYPING - (until - time.monotonic()) > (times + 1) * TYPING / 5:
            times += 1
            cut.cut()
        assert all(one.poll() is None for one in seats), "a seat that ended early"
    return times


def settle(listener, folder, names, seats):
    """Waits until all have taken the whole log and await nothing."""
    def calm():
        assert all(one.poll() is None for one in seats), "a seat that ended early"
        said = [read(folder, f"{name}.status").split() for name in names]
        return listener.is_calm() and all(one == [str(listener.taken), "t", "playing"] for one in said)
    listener.wait_until(calm, "seats that don't come to rest")


def compare(listener, folder, names):
    """Holds what the seats told against the performer in Python."""
    results = [json.loads(read(folder, f"{name}.result")) for name in names]
    for result in results:
        expect(result["text"], listener.text())
        expect(result["marks"], loopback.runs_of(listener.pairs))
        expect((result["state"], result["watched"]), ("playing", True))
        expect(result["heard"], listener.heard_from(result["joined"]))
        assert {*names, "p7"} <= set(result["names"]), result["names"]
        assert result["crossed"] > 20, "hardly any edits that cross"
    return results


def two_seats(client, program, folder):
    performs = has_word(program, "perform")
    names = ["ann", "bo"]
    with serve(program) as server:
        loopback.wait_for(server).close()
        listener = Listener(7)
        relays = [Relay(Link.port, 0.01, SEED), Relay(Link.port, 0.02, SEED)]
        with seat(client, relays[0], "ann", folder, 0, program if performs else "") as ann, \
                seat(client, relays[1], "bo", folder, PASTE, "") as bo:
            listener.wait_until(lambda: all(name in read(folder, "bo.said") + read(folder, "ann.said")
                                            for name in ["as ann", "as bo"]), "seats that don't begin")
            cuts = type_and_cut(listener, relays[1], [ann, bo])
            settle(listener, folder, names, [ann, bo])
            open(os.path.join(folder, "finish"), "wb").close()
            for one in [ann, bo]:
                expect(one.wait(PATIENCE), 0)
        results = compare(listener, folder, names)
        if performs:
            heard = listener.heard_from(listener.joins["ann~sh"])
            expect(read(folder, "ann.heard"), "".join(text if text.endswith("\n") else text + "\n" for _, _, text in heard))
        listener.leave()
        line = last_line(server, relays)
        for relay in relays:
            relay.close()
    expect((line["text"], line["marks"]), (results[0]["text"], results[0]["marks"]))
    print(f"emacs: two seats and a performer in Python, {line['entries']} entries, {len(line['text'])} characters, "
          f"{sum(result['crossed'] for result in results)} edits that crossed, {cuts} cuts, "
          f"{len(results[0]['heard'])} evaluations, {'and' if performs else 'without'} an interpreter, seed {SEED}")


# ---- Real keys on a terminal.

PREVIOUS_LINE, EVALUATE, UNDO, END = "\x10", "\x03\x03", "\x1f", "\x18\x03"
FIRST_PLACE, LAST_PLACE, REPLACE = "\x1b<", "\x1b>", "\x1b%"
SET_MARK, NEXT_WORD, RECTANGLE = "\x00", "\x1bf", "\x18rt"


class Terminal:
    """An Emacs on a terminal of its own, which tells in a file how its seat is."""

    def __init__(self, client, folder, port):
        self.folder = folder
        self.master, slave = pty.openpty()
        # Else an Emacs that can compiles the client to machine code, in a process of its own.
        as_it_is = "(setq native-comp-deferred-compilation nil native-comp-jit-compilation nil)"
        words = ["emacs", "-nw", "-Q", "--eval", as_it_is, "-L", os.path.dirname(client), "-l", os.path.join(TESTS, "keys.el"),
                 str(port), folder]
        self.process = Process(words, stdin=slave, stdout=slave, stderr=slave, env=environment(folder), start_new_session=True,
                               preexec_fn=lambda: fcntl.ioctl(0, termios.TIOCSCTTY, 0))
        os.close(slave)
        self.shown = b""

    def press(self, keys):
        os.write(self.master, keys.encode())
        self.look()

    def look(self):
        """Reads what is shown, so that Emacs goes on."""
        while select.select([self.master], [], [], 0)[0]:
            try:
                self.shown = (self.shown + os.read(self.master, 65536))[-10000:]
            except OSError:
                return

    def has(self, **wanted):
        """Whether the seat is like this, by what was told last."""
        told = json.loads(read(self.folder, "keys.status") or "{}")
        return all(told.get(key) == value for key, value in wanted.items())


class Stage:
    """A performer in Python and an Emacs on a terminal, where each step is taken behind a look at both."""

    def __init__(self, listener, terminal):
        self.listener, self.terminal = listener, terminal

    def until(self, holds, what):
        try:
            self.listener.wait_until(lambda: self.terminal.look() or holds(), what)
        except AssertionError as error:
            told = read(self.terminal.folder, "keys.status")
            raise AssertionError(f"{error}; Emacs told {told}, and showed {self.terminal.shown[-500:]}") from None

    def becomes(self, text):
        """Waits until both have this text, and nothing is awaited."""
        self.until(lambda: self.listener.text() == text
                   and self.terminal.has(asks="", awaits=0, taken=self.listener.taken, text=text, waiting=0), f"a text that isn't {text!r}")

    def answer(self, question, edits, keys):
        """Answers a question of Emacs once others' edits have come, which wait for that."""
        self.until(lambda: self.terminal.has(asks=question, waiting=0), f"no question of {question}")
        before = self.listener.text()
        for place, text in edits:
            self.listener.put_in(place, text)
        self.until(lambda: self.terminal.has(asks=question, text=before, waiting=len(edits)), f"edits that don't wait for {question}")
        self.terminal.press(keys)


def press_keys(stage):
    press, put_in, heard = stage.terminal.press, stage.listener.put_in, stage.listener.evaluations
    stage.until(lambda: stage.terminal.has(state="playing"), "a seat that doesn't begin")
    press("hello\r\rd1 foo\r")
    stage.becomes("hello\n\nd1 foo\n")
    press(PREVIOUS_LINE + EVALUATE)
    stage.until(lambda: heard, "an evaluation that doesn't come")
    expect([text for _, _, text in heard], ["d1 foo"])
    press(LAST_PLACE + "abc")
    stage.becomes("hello\n\nd1 foo\nabc")
    put_in(0, "-- ")
    put_in(14, "b")
    stage.becomes("-- hello\n\nd1 fboo\nabc")
    press(UNDO)
    stage.becomes("-- hello\n\nd1 fboo\n")
    # An edit that comes while a command waits for a key doesn't move what that is about to change. The c crosses the change.
    press(FIRST_PLACE + REPLACE + "oo\r00\r")
    stage.answer("query-replace", [(0, "oo "), (18, "c")], "y")
    stage.becomes("oo -- hello\n\nd1 fb00c\n")
    # Nor one that comes while a command reads a word: it has taken the ends of the region as numbers.
    press(LAST_PLACE + PREVIOUS_LINE + SET_MARK + NEXT_WORD + RECTANGLE)
    stage.answer("minibuffer", [(0, "> ")], "d2\r")
    stage.becomes("> oo -- hello\n\nd2 fb00c\n")
    press("\x1bxtroop-leave\r")
    stage.until(lambda: stage.terminal.has(state="left"), "a leave that doesn't come")
    press(END)


def keys(client, program, folder):
    with serve(program) as server:
        loopback.wait_for(server).close()
        listener = Listener(1)
        terminal = Terminal(client, folder, Link.port)
        with terminal.process as emacs:
            press_keys(Stage(listener, terminal))
            expect(emacs.wait(PATIENCE), 0)
        os.close(terminal.master)
        listener.leave()
    print("emacs: keys on a terminal")


# ---- All of it.

def main():
    found = version()
    if found is None or found < OLDEST:
        print("emacs: not played, since there is no Emacs of version 28.1")
        return
    program = sys.argv[1] if len(sys.argv) > 1 else PROGRAM
    with tempfile.TemporaryDirectory() as folder:
        client = compiled(folder)
        print("emacs: " + re.search(r"Ran \d+ tests, \d+ results as expected", batch(CLIENT, folder, "units.el")).group(0))
        print(batch(client, folder, "fuzz.el", ROUNDS, SEED).strip().splitlines()[-1].replace("fuzz:", "emacs:"))
        if not os.path.exists(program):
            print("emacs: not played against a server, since the program isn't there")
            return
        two_seats(client, program, folder)
        keys(client, program, folder)


if __name__ == "__main__":
    main()
