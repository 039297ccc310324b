#!/usr/bin/env python3
"""Plays `troop perform` on the loopback address: with real interpreters, against `troop serve`, and against a server that lies.

    tests/performers.py [PROGRAM]

PROGRAM is crates/troop/out/troop where it isn't given. The interpreters are `sh` and `cat`. Only processes that it started are ended,
by their numbers, where something went wrong; each wait has an end. The last line says what was seen.
"""
import contextlib
import json
import os
import socket
import subprocess
import sys
import tempfile
import threading
import time

TOP = os.path.dirname(os.path.dirname(os.path.abspath(__file__)))
PROGRAM = os.path.join(TOP, "crates", "troop", "out", "troop")
PATIENCE = 60.0
IDLE = 3.0
ROUNDS = 5
JOINED = {"at": 0, "who": 1}
THE_JOIN = {"at": 0, "deed": "join", "lang": "lines", "name": "ann", "seen": 0, "who": 1}


def expect(got, wanted):
    assert got == wanted, f"got {got}, wanted {wanted}"


def printed(value):
    return json.dumps(value, separators=(",", ":"), sort_keys=True, ensure_ascii=False) + "\n"


def lines_of(values):
    return "".join(map(printed, values))


# ---- Processes.

def fields_of(process):
    """What Linux tells of a process behind its name: its state, its parent's number, and so on; nothing where it is gone."""
    try:
        with open(f"/proc/{process}/stat", encoding="utf-8", errors="replace") as file:
            return file.read().rsplit(")", 1)[1].split()
    except (FileNotFoundError, ProcessLookupError):
        return []


class Program:
    """The program's processes: each is started with words, and ends by itself, or is ended at the end of its scene."""
    path = PROGRAM
    started = []

    def __init__(self, *words):
        # Without buffers, since `communicate` doesn't look into the one of what was read ahead behind a line.
        self.process = subprocess.Popen([Program.path, *words], bufsize=0, stdin=subprocess.PIPE, stdout=subprocess.PIPE, stderr=subprocess.PIPE)
        Program.started.append(self)

    def give(self, *commands):
        self.process.stdin.write(lines_of(commands).encode())
        self.process.stdin.flush()

    def shown(self, *commands):
        """Gives commands; what the performer's line behind them tells, and the lines that came in front of it."""
        self.give(*commands, ["show"])
        lines = []
        while (line := self.process.stdout.readline().decode()) and not line.startswith('{"awaits":'):
            lines.append(line.removesuffix("\n"))
        return json.loads(line), lines

    def end(self, *commands):
        """Gives the last commands; its status, and what it printed."""
        out, err = self.process.communicate(lines_of(commands).encode(), timeout=PATIENCE)
        return self.process.returncode, out.decode(), err.decode()

    def processor_seconds(self):
        fields = fields_of(self.process.pid)
        return (int(fields[11]) + int(fields[12])) / os.sysconf("SC_CLK_TCK")

    def has_interpreter(self):
        """Whether a process that it started still runs."""
        states = [fields[:2] for fields in map(fields_of, filter(str.isdigit, os.listdir("/proc"))) if fields]
        return any(parent == str(self.process.pid) and state not in "ZX" for state, parent in states)

    @staticmethod
    def end_all():
        for program in Program.started:
            if program.process.poll() is None:
                program.process.kill()
                program.process.wait()
        Program.started.clear()


def perform(address, *words, name="ann", interpreter=("cat",)):
    return Program("perform", address, name, "lines", *words, "--", *interpreter)


def free_address():
    with socket.socket() as probe:
        probe.bind(("127.0.0.1", 0))
        return f"127.0.0.1:{probe.getsockname()[1]}"


@contextlib.contextmanager
def served(performers):
    """A server for so many performers, each of which has two links, and its line at the end."""
    address, line = free_address(), {}
    server = Program("serve", address, f"--sessions={2 * performers + 1}")
    host, port = address.split(":")
    give_up = time.monotonic() + PATIENCE
    while True:
        with contextlib.suppress(ConnectionRefusedError):
            socket.create_connection((host, int(port)), timeout=PATIENCE).close()
            break
        assert server.process.poll() is None and time.monotonic() < give_up, "nobody listens"
        time.sleep(0.05)
    yield address, line
    status, out, err = server.end()
    expect((status, err), (0, ""))
    line.update(json.loads(out))


# ---- With a server.

def evening():
    """The evening of one performer, with `cat` as its interpreter, byte for byte."""
    with served(1) as (address, line):
        ended = perform(address).end(["edit", ["hi"]], ["until", 2], ["eval", 0])
        wanted = 'hi\n{"awaits":0,"marks":[[1,2]],"name":"ann","taken":4,"text":"hi","who":1}\n{"journal":[["born",1,2]],"who":1}\n'
        expect(ended, (0, wanted, ""))
    expect(line, {"entries": 4, "marks": [[1, 2]], "text": "hi"})


def type_line(player, said):
    """Types at the end, and waits till that is confirmed, so that it is a row of its own. What meets another text than was seen is
    refused, and typed again. Gives what came by."""
    told, heard = player.shown()
    refused = True
    while refused:
        behind = len(told["text"])
        told, more = player.shown(["edit", ([behind] if behind else []) + [said]])
        refused = any('"no":"base"' in line for line in more)
        heard += more
    while told["awaits"]:
        time.sleep(0.02)
        told, more = player.shown()
        heard += more
    return heard


def type_and_evaluate(player, name):
    """Types some lines, and evaluates the first block of the text behind each."""
    _, heard = player.shown(["until", 2])
    for number in range(ROUNDS):
        heard += type_line(player, f"echo {name} {number}\n\n")
        heard += player.shown(["eval", 0])[1]
    status, out, err = player.end(["until", 2 + 4 * ROUNDS])
    player.ended = (status, heard + out.splitlines(), err)


def two_texts():
    """Two performers who type at once, each with a shell of its own, which runs the blocks of both."""
    with served(2) as (address, line):
        players = {name: perform(address, name=name, interpreter=("sh",)) for name in ("ann", "bo")}
        threads = [threading.Thread(target=type_and_evaluate, args=(player, name)) for name, player in players.items()]
        for thread in threads:
            thread.start()
        for thread in threads:
            thread.join(PATIENCE)
    for player in players.values():
        status, lines, err = player.ended
        expect((status, err), (0, ""))
        shown, journal = json.loads(lines[-2]), json.loads(lines[-1])
        expect((shown["awaits"], shown["text"], shown["marks"]), (0, line["text"], line["marks"]))
        expect([note[0] for note in journal["journal"]], ["born"])
        said = [text for text in lines if not text.startswith("{")]
        expect(len(said), 2 * ROUNDS)
        assert set(said) <= {"ann 0", "bo 0"}, f"a shell said {said}"


def dying_interpreter():
    """A shell that ends at its second block: the third begins another life, and the journal says what the second one got."""
    with served(1) as (address, _):
        player = perform(address, interpreter=("sh",))
        player.give(["edit", ["echo one\n\nexit 7\n\necho two\n\necho three\n"]], ["until", 2], ["eval", 0], ["until", 3], ["eval", 10], ["until", 4])
        expect(player.process.stdout.readline(), b"one\n")
        give_up = time.monotonic() + PATIENCE
        while player.has_interpreter():
            assert time.monotonic() < give_up, "the shell doesn't end"
            time.sleep(0.02)
        player.give(["eval", 18], ["until", 5])
        status, out, err = player.end(["eval", 28], ["until", 6])
    expect((status, err), (0, ""))
    journal = json.loads(out.splitlines()[-1])["journal"]
    expect(journal, [["born", 1, 2], ["cut", 1, 4, 0], ["born", 2, 5]])
    expect([text for text in out.splitlines() if not text.startswith("{")], ["three"])


def no_such_interpreter():
    """A program that isn't there: each block is skipped, as the journal says, and the performer plays on."""
    with served(1) as (address, line):
        status, out, err = perform(address, interpreter=("/nowhere/at/all",)).end(["edit", ["hi"]], ["until", 2], ["eval", 0])
        expect((status, err), (0, ""))
        expect(out.splitlines()[1], '{"journal":[["skipped",2]],"who":1}')
    expect(line["text"], "hi")


def boot_text():
    """The boot text comes in front of the first block."""
    with served(1) as (address, _), tempfile.NamedTemporaryFile() as boot:
        boot.write(b"wake up\n")
        boot.flush()
        status, out, _ = perform(address, "--boot", boot.name).end(["edit", ["hi"]], ["until", 2], ["eval", 0])
    expect((status, out.splitlines()[:2]), (0, ["wake up", "hi"]))


def bad_commands():
    """A refused command goes on, a bad one ends the run behind the opening: what was typed before it is in the log, and both lines are printed."""
    with served(1) as (address, line):
        status, out, err = perform(address).end(["edit", [5, "hi"]], ["edit", ["hi"]], ["until", 2], ["eval", 0], ["until", 3], ["hush"])
        expect((status, err), (7, "troop: bad line 6\n"))
        expect(out.splitlines()[0], '{"got":0,"no":"base","want":5}')
        expect(out.splitlines()[-1], '{"journal":[["born",1,2]],"who":1}')
    expect(line["text"], "hi")


def long_request():
    """A request over the limit isn't sent, and says how long it would have been."""
    text = "x" * (1_048_576 - len('["reset",""]'))
    with served(1) as (address, line):
        status, _, err = perform(address).end(["reset", text])
        expect(status, 11)
    size = len(printed({"call": "reset", "num": 1, "seen": 0, "text": text})) - 1
    expect(err, f"troop: request of {size} bytes is too long\n")
    expect(line["text"], "")


def idle():
    """Performers who wait for commands, entries and blocks use next to no processor time."""
    with served(2) as (address, _):
        players = [perform(address, name=name) for name in ("ann", "bo")]
        for player in players:
            player.give(["until", 2], ["show"])
            player.process.stdout.readline()
        before = sum(player.processor_seconds() for player in players)
        time.sleep(IDLE)
        used = sum(player.processor_seconds() for player in players) - before
        for player in players:
            expect(player.end()[0], 0)
    assert used < IDLE, f"{used} s of a processor in {IDLE} idle seconds"
    return f"{used:.2f} s of a processor for two performers in {IDLE:.0f} idle seconds"


# ---- Without a server that tells the truth.

@contextlib.contextmanager
def lying(up, down):
    """A server of one performer, whose links give these bytes and then end."""
    listener = socket.create_server(("127.0.0.1", 0))
    listener.settimeout(PATIENCE)

    def answer():
        for given in (up, down):
            link, _ = listener.accept()
            link.settimeout(PATIENCE)
            links.append(link)
            link.sendall(given)
            link.shutdown(socket.SHUT_WR)
        for link in links:
            while link.recv(65536):
                pass
            link.close()

    links = []
    thread = threading.Thread(target=answer, daemon=True)
    thread.start()
    yield f"127.0.0.1:{listener.getsockname()[1]}"
    thread.join(PATIENCE)
    listener.close()


LEAVE_BY_ANOTHER = {"at": 5, "deed": "leave", "seen": 5, "who": 2}
EDIT_OF_NOTHING = {"at": 0, "deed": "edit", "op": [5], "seen": 0, "who": 2}
EDIT_NOT_SENT = {"at": 0, "deed": "edit", "op": [], "seen": 0, "who": 1}
OWN_LEAVE = {"at": 1, "deed": "leave", "seen": 1, "who": 1}

# What the up link gives, what the down link gives, the status, and the line of the error.
LIES = [
    ([], [], 9, "troop: bad peer, up line 1\n"),
    (["hi"], [], 9, "troop: bad peer, up line 1\n"),
    ([{"joins": 4096, "no": "crowded"}], [], 8, 'troop: refused {"joins":4096,"no":"crowded"}\n'),
    ([JOINED], [], 9, "troop: bad peer, down line 1\n"),
    ([JOINED], ["hi"], 9, "troop: bad peer, down line 1\n"),
    ([JOINED], [LEAVE_BY_ANOTHER], 9, "troop: bad peer, down line 1\n"),
    ([JOINED], [EDIT_OF_NOTHING], 9, "troop: bad peer, down line 1\n"),
    ([JOINED], [EDIT_NOT_SENT], 9, "troop: bad peer, down line 1\n"),
    ([JOINED], [THE_JOIN], 9, "troop: bad peer, down line 2\n"),
    ([JOINED], [THE_JOIN, OWN_LEAVE], 8, "troop: dropped at 1\n"),
]


def lies():
    """What a server may give that isn't true, each by its status and its line; behind the opening both last lines are printed."""
    for up, down, wanted, said in LIES:
        with lying(lines_of(up).encode(), lines_of(down).encode()) as address:
            status, out, err = perform(address).end(["until", 9])
        expect((status, err), (wanted, said))
        kinds = [sorted(json.loads(text)) for text in out.splitlines()]
        expect(kinds, [["awaits", "marks", "name", "taken", "text", "who"], ["journal", "who"]] if JOINED in up else [])


def words():
    """Words that name no run, a boot file that isn't there or is too large, and nobody who listens."""
    address = free_address()
    for given in (["perform"], ["perform", address, "ann", "lines"], ["perform", address, "ann", "lines", "--"], ["perform", address, "ann", "basic", "--", "cat"],
                  ["perform", address, "x" * 33, "lines", "--", "cat"], ["perform", address, "ann", "lines", "--boot", "a", "--boot", "b", "--", "cat"]):
        expect(Program(*given).end(), (2, "", "troop: usage\n"))
    expect(perform(address, "--boot", "/nowhere/at/all").end(), (4, "", "troop: read fault\n"))
    with tempfile.NamedTemporaryFile() as boot:
        boot.write(b"x" * 1_048_577)
        boot.flush()
        expect(perform(address, f"--boot={boot.name}").end(), (10, "", "troop: too much input\n"))
    expect(perform(address).end(), (6, "", "troop: net fault\n"))


SCENES = [evening, two_texts, dying_interpreter, no_such_interpreter, boot_text, bad_commands, long_request, lies, words, idle]


def main():
    Program.path = sys.argv[1] if len(sys.argv) > 1 else PROGRAM
    if not os.path.exists(Program.path):
        sys.exit(f"performers: there is no {Program.path}")
    for scene in SCENES:
        try:
            told = scene()
        finally:
            Program.end_all()
        print(f"performers: {scene.__name__.replace('_', ' ')}" + (f", {told}" if told else ""))


if __name__ == "__main__":
    main()
