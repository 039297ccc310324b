"""Planted bugs: how they are read from audit/, where they stand, and what came of them."""
import hashlib
import os
import re

TOP = os.path.dirname(os.path.dirname(os.path.abspath(__file__)))
PARTS = ["src", "specs", "proofs"]
MOST_TOGETHER = 24
COMMENT = ("//", "--")

REFUSED, BY_NAME, BY_LIMIT, PROVED, BAD, UNSURE = "refused", "by a name", "by a limit", "STILL PROVED", "bad", "unsure"
SETTLED = (REFUSED, BY_NAME, BY_LIMIT, PROVED, BAD)

# Bugs are planted together at first; those whose functions wait for others' proofs apart from these; and those whose functions are proved, though their
# crate isn't, with others of this kind.
TOGETHER, APART, SEEMS = 0, 1, 2

FN = re.compile(r"^(\s*)(?:pub(?:\([a-z ]+\))? )?(?:const )?fn (\w+)")
IMPL = re.compile(r"^\s*impl(?:<.*?>)? (?:(.+?) for )?(.+?)\s*(?:where.*)?\{?$")


def read(path):
    with open(path, encoding="utf-8") as file:
        return file.read()


class Bug:
    """A planted bug: what it says, what it changes, and the function that it stands in."""

    def __init__(self, crate, path):
        self.crate, self.name = crate, os.path.basename(path)[: -len(".edit")]
        self.text = read(path)
        self.story, self.pairs = "", []
        # The proofs that are left out, and the lines that are written, by the file.
        self.drops, self.adds = {}, {}
        # The crates above that are asked where its own crate is still proved, and in which turn it is planted.
        self.above, self.turn = [], TOGETHER
        at, old, answers = None, None, None
        for line in self.text.splitlines():
            if line.startswith("# ") and not self.story:
                self.story = line[2:].strip()
            elif line.startswith("file: "):
                at = line[len("file: "):].strip()
            elif line.startswith("above: "):
                self.above += line[len("above: "):].split()
            elif line.startswith("answers: "):
                answers = line[len("answers: "):].strip()
            elif line.startswith("drop: ") and answers:
                self.drops.setdefault(answers, set()).add(line[len("drop: "):].strip())
            elif line.startswith("add:") and answers:
                self.adds.setdefault(answers, []).append(line[len("add:"):].removeprefix(" "))
            elif line.startswith("old: "):
                old = line[len("old: "):]
            elif line.startswith("new:") and at and old is not None:
                self.pairs.append((at, old, line[len("new:"):].removeprefix(" ")))
                old = None
        self.why, self.places = self.find()
        self.functions = sorted({place for place in self.places if place})

    def find(self):
        """Why it can't be planted, if it can't, and the function of each pair."""
        if not self.story or not self.pairs:
            return "it has no story, or no pair", []
        texts, places = {}, []
        for path, old, new in self.pairs:
            full = os.path.join(TOP, "crates", self.crate, path)
            if not os.path.isfile(full):
                return f"there is no file {path}", []
            text = texts.setdefault(path, read(full))
            if text.count(old) != 1:
                return f"an old text stands in {path} {text.count(old)} times", []
            if path.startswith("src/"):
                places.append(function_at(path, text, text.index(old)))
            texts[path] = text.replace(old, new)
        return None, places

    def plant(self, folder, lines):
        """Plants it in this folder of the crate, and notes in `lines` which lines of which files are its own."""
        for path, old, new in self.pairs:
            full = os.path.join(folder, path)
            text = read(full)
            if text.count(old) != 1:
                return False
            lines.append((path, text[: text.index(old)].count("\n") + 1, self))
            with open(full, "w", encoding="utf-8") as file:
                file.write(text.replace(old, new))
        for path in sorted(set(self.drops) | set(self.adds)):
            full = os.path.join(folder, path)
            text = read(full) if os.path.isfile(full) else ""
            text = without(text, self.drops.get(path, ())) + "".join(line + "\n" for line in self.adds.get(path, ()))
            os.makedirs(os.path.dirname(full), exist_ok=True)
            with open(full, "w", encoding="utf-8") as file:
                file.write(text)
        return True


def without(text, names):
    """A file of proofs without the declarations of these names, and without the lines `line N`: each line keeps its number."""
    kept, leaving = [], False
    for number, line in enumerate(text.split("\n"), 1):
        head = re.match(r"(?:abbrev )?(?:pub )?([^\s:]+) :", line)
        if head:
            leaving = head.group(1) in names
        elif not line.strip():
            leaving = False
        kept.append("" if leaving or f"line {number}" in names else line)
    return "\n".join(kept)


def function_at(path, text, at):
    """The function round this place: its module, its type and its name, as a check prints them."""
    lines = text[:at].split("\n")
    module = path[len("src/"): -len(".rt")].replace("/", "::")
    module = "" if module in ("lib", "main") else module
    for number in range(len(lines) - 1, -1, -1):
        head = FN.match(lines[number])
        if not head:
            continue
        indent, name = head.group(1), head.group(2)
        if any(line == indent + "}" for line in lines[number + 1: len(lines) - 1]):
            return None
        return module, type_at(lines, number, indent), name
    return None


def type_at(lines, number, indent):
    """The type of the impl that this function stands in, and its trait: two words, which are empty outside an impl."""
    if not indent:
        return "", ""
    for above in range(number, -1, -1):
        if re.match(r"^\S", lines[above]) and lines[above].startswith(("impl", "trait", "pub trait")):
            head = " ".join([lines[above]] + [line.strip() for line in lines[above + 1: number] if line.startswith(" ") and "{" not in line][:0])
            found = IMPL.match(head)
            if not found:
                return "", ""
            word = lambda it: re.match(r"[\w:]*", it.strip()).group(0).split("::")[-1] if it else ""
            return word(found.group(2)), word(found.group(1))
    return "", ""


def bugs_of(crate):
    folder = os.path.join(TOP, "audit", crate)
    if not os.path.isdir(folder):
        return []
    return [Bug(crate, os.path.join(folder, name)) for name in sorted(os.listdir(folder)) if name.endswith(".edit")]


def crates():
    """The crates of crates.txt that have planted bugs, in its order."""
    names = [line.split(":")[0].split()[0] for line in read(os.path.join(TOP, "crates.txt")).splitlines() if ":" in line.split("#")[0]]
    return [name for name in names if os.path.isdir(os.path.join(TOP, "audit", name))]


def checksum(crate):
    """Of the crate's own files, without the lines that are comments."""
    total = hashlib.sha256()
    for part in PARTS:
        for here, folders, names in os.walk(os.path.join(TOP, "crates", crate, part)):
            folders.sort()
            for name in sorted(names):
                full = os.path.join(here, name)
                total.update(os.path.relpath(full, TOP).encode() + b"\0")
                total.update("\n".join(line for line in read(full).split("\n") if not line.lstrip().startswith(COMMENT)).encode())
    return total.hexdigest()[:16]


class Results:
    """What came of a crate's bugs, kept in a file beside them."""

    def __init__(self, crate, anew, leaving=False):
        self.leaving = leaving
        self.path = os.path.join(TOP, "audit", crate, "results.tsv")
        self.sum = checksum(crate)
        self.rows = {}
        if os.path.isfile(self.path):
            for line in read(self.path).splitlines()[1:]:
                name, bug, files, outcome, where = (line.split("\t") + [""] * 5)[:5]
                self.rows[name] = (bug, files, outcome, where)
        if anew:
            self.rows = {}

    def of(self, bug):
        row = self.rows.get(bug.name)
        if row and row[0] == bug_sum(bug) and row[1] == self.sum and row[2] in SETTLED:
            if self.leaving and row[3].startswith("by hand"):
                return None
            return row[2], row[3]
        return None

    def before(self, bug):
        """What came of it when the crate's files were others."""
        row = self.rows.get(bug.name)
        if row and row[0] == bug_sum(bug) and row[2] in SETTLED:
            return row[2], row[3]
        return None

    def put(self, bug, outcome, where):
        self.rows[bug.name] = (bug_sum(bug), self.sum, outcome, " ".join(where.split()))
        with open(self.path, "w", encoding="utf-8") as file:
            file.write("bug\tbug's sum\tcrate's sum\toutcome\twhere\n")
            for name in sorted(self.rows):
                file.write("\t".join((name,) + self.rows[name]) + "\n")


def bug_sum(bug):
    return hashlib.sha256(bug.text.encode()).hexdigest()[:12]


def calls_of(crate):
    """Which of the crate's function names each of them reaches by calls, as far as names tell."""
    bodies = {}
    for here, _, names in os.walk(os.path.join(TOP, "crates", crate, "src")):
        for name in names:
            if not name.endswith(".rt"):
                continue
            current = None
            for line in read(os.path.join(here, name)).split("\n"):
                head = FN.match(line)
                if head:
                    current = head.group(2)
                    bodies.setdefault(current, [])
                elif current:
                    bodies[current].append(line)
    direct = {}
    for name, lines in bodies.items():
        code = "\n".join(line for line in lines if not re.match(r"\s*(ensures|requires|//)", line))
        direct[name] = {called for called in re.findall(r"\b(\w+)(?:::<[^>]*>)?\(", code) if called in bodies}
    reach = {}
    for name in direct:
        seen, front = set(), [name]
        while front:
            for called in direct.get(front.pop(), ()):
                if called not in seen:
                    seen.add(called)
                    front.append(called)
        reach[name] = seen
    return reach


def batch(bugs, reach, most):
    """The next bugs to plant together, all in the same turn: no two in one function, and in the second turn none in a function that calls another's."""
    turn = bugs[0].turn
    if not plain(bugs[0]):
        return [bugs[0]]
    chosen = []
    for bug in bugs:
        if len(chosen) < most and bug.turn == turn and plain(bug) and all(apart(bug, other, reach if turn == APART else None) for other in chosen):
            chosen.append(bug)
    return chosen


def plain(bug):
    """Whether it changes functions alone, so that others may stand beside it."""
    return bool(bug.functions) and all(bug.places) and all(path.startswith("src/") for path, _, _ in bug.pairs)


def apart(one, other, reach):
    mine, others = {place[2] for place in one.functions}, {place[2] for place in other.functions}
    if mine & others:
        return False
    return reach is None or not any(b in reach.get(a, ()) or a in reach.get(b, ()) for a in mine for b in others)


