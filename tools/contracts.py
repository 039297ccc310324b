#!/usr/bin/env python3
"""Makes docs/CONTRACTS.md from the source: each public call with its clauses and the definitions that they cite, and
each definition with the clauses and the lemma files that use it.

    tools/contracts.py            writes the page
    tools/contracts.py --check    fails where the page is stale, where a definition that a public clause cites has no
                                  sentence above it, where one name is defined twice in specs/, or where no test names
                                  a public call
"""
import os
import re
import sys

TOP = os.path.dirname(os.path.dirname(os.path.abspath(__file__)))
PAGE = "docs/CONTRACTS.md"
WORD = re.compile(r"[A-Za-z_][A-Za-z0-9_']*")
USE = re.compile(r"use Rattle\.(\w+)\.(specs|proofs)\.([\w.]+?)(?:\.\{([^}]*)\}|\s+as\s+\w+|;|$)", re.M)
NAMED = re.compile(r"\b(\w+)(?:::<[^>(]*>)?\(")
DEFINITION = re.compile(r"^ *(?:abbrev pub|unfoldable pub|pub data|pub record) ([A-Za-z_][A-Za-z0-9_'-]*)", re.M)


class Definition:
    def __init__(self, crate, path, line, name, sentence, body):
        self.crate, self.path, self.line, self.name, self.sentence, self.body = crate, path, line, name, sentence, body
        self.clauses, self.lemmas, self.definitions = [], [], []


class Call:
    def __init__(self, crate, path, line, owner, name, doc, clauses):
        self.crate, self.path, self.line, self.owner, self.name = crate, path, line, owner, name
        self.doc, self.clauses = doc, clauses
        self.cites = []

    def title(self):
        return f"{self.owner}::{self.name}" if self.owner else self.name


def read(path):
    with open(os.path.join(TOP, path), encoding="utf-8") as file:
        return file.read()


def crates():
    names = []
    for line in read("crates.txt").splitlines():
        line = line.split("#")[0].strip()
        if ":" in line:
            names.append(line.split(":")[0].split()[0])
    return names


def files(folder, ending):
    found = []
    for here, folders, names in os.walk(os.path.join(TOP, folder)):
        folders.sort()
        found += [os.path.relpath(os.path.join(here, name), TOP) for name in sorted(names) if name.endswith(ending)]
    return sorted(found)


def line_of(text, at):
    return text.count("\n", 0, at) + 1


def comment_above(lines, index, mark):
    said = []
    while index > 0 and lines[index - 1].lstrip().startswith(mark):
        index -= 1
        said.insert(0, lines[index].lstrip()[len(mark):].strip())
    return " ".join(said).strip()


def definitions_of(crate):
    found = []
    for path in files(f"crates/{crate}/specs", ".antt"):
        text = read(path)
        lines = text.splitlines()
        starts = [match.start() for match in re.finditer(r"^ *(?:abbrev|unfoldable|pub|mutual|-- ----)", text, re.M)] + [len(text)]
        for match in DEFINITION.finditer(text):
            line = line_of(text, match.start())
            end = min(at for at in starts if at > match.start())
            sentence = comment_above(lines, line - 1, "--")
            found.append(Definition(crate, path, line, match.group(1), sentence, text[match.start():end]))
    return found


def imports(text):
    """What a file imports of the crates' specs/: each name as it stands in the file, with crate, module and own name."""
    found = {}
    for crate, folder, module, names in USE.findall(text):
        if folder != "specs" or module.startswith("declared") or not names:
            continue
        for item in names.split(","):
            parts = item.split()
            if parts:
                found[parts[-1]] = (crate, module, parts[0])
    return found


def balanced(text, at, opening, closing):
    """The place behind the bracket that closes the one at this place."""
    depth = 0
    while True:
        if text[at] == opening:
            depth += 1
        elif text[at] == closing:
            depth -= 1
            if depth == 0:
                return at + 1
        at += 1


def clauses_from(text, at):
    """The clauses of a function, from the place behind its parameters on."""
    head = re.compile(r"\s*(?://[^\n]*\n\s*)*(requires|ensures)(\*?)\s*(\w*)\s*\{")
    stop = re.compile(r"\n\s*(?://[^\n]*\n\s*)*(?:requires|ensures)\b|\{|;")
    begin = stop.search(text, at)
    if not begin:
        return []
    at = begin.start()
    found = []
    while True:
        match = head.match(text, at)
        if not match:
            return found
        end = balanced(text, match.end() - 1, "{", "}")
        said = " ".join(text[match.end():end - 1].split())
        found.append((match.group(1), match.group(3), said))
        at = end


def exported(crate):
    """The names that lib.rt exports."""
    root = f"crates/{crate}/src/lib.rt"
    if not os.path.exists(os.path.join(TOP, root)):
        return None
    names = set()
    for names_or_one in re.findall(r"^pub use [\w:]+?::(\{[^}]*\}|\w+);", read(root), re.M):
        names |= set(WORD.findall(names_or_one))
    names |= set(re.findall(r"^pub (?:fn|struct|enum|trait|const) (\w+)", read(root), re.M))
    return names


def calls_of(crate):
    public = exported(crate)
    if public is None or crate.endswith("_tests"):
        return []
    found = []
    for path in files(f"crates/{crate}/src", ".rt"):
        text = read(path)
        lines = text.splitlines()
        for match in re.finditer(r"^( *)(pub )?(?:const |unsafe )?fn (\w+)", text, re.M):
            indent, is_pub, name = match.groups()
            line = line_of(text, match.start())
            owner, of_trait = owner_of(lines, line - 1, indent)
            if owner is None and (not is_pub or name not in public):
                continue
            if owner is not None and (owner not in public or not (is_pub or of_trait)):
                continue
            at = match.end()
            if text[at] == "<":
                at = balanced(text, at, "<", ">")
            at = balanced(text, text.index("(", at), "(", ")")
            doc = comment_above(lines, line - 1, "///")
            clauses = clauses_from(text, at)
            # What a trait's impl says beside the trait, which is on the page already.
            if of_trait == "impl" and not clauses:
                continue
            found.append(Call(crate, path, line, owner, name, doc, clauses))
    return found


def owner_of(lines, index, indent):
    """The type or trait in whose block a function stands, and whether the block is a trait or the impl of one."""
    if not indent:
        return None, None
    for line in reversed(lines[:index]):
        match = re.match(r"(?:pub )?(impl|trait)\b(?:<[^{]*?>)?\s+(.*)", line)
        if match and not line.startswith(" "):
            rest = match.group(2)
            if match.group(1) == "trait":
                return WORD.match(rest).group(0), "trait"
            if " for " in rest:
                return WORD.match(rest.split(" for ")[1]).group(0), "impl"
            return WORD.match(rest).group(0), None
    return None, None


def link(path, line):
    return f"../{path}#L{line}"


def resolve(known, found, word):
    return known.get(found[word]) if word in found else None


def gather():
    names = crates()
    definitions = [d for crate in names for d in definitions_of(crate)]
    module = lambda d: d.path.split("/specs/")[1][: -len(".antt")].replace("/", ".")
    known = {(d.crate, module(d), d.name): d for d in definitions}
    calls = [c for crate in names for c in calls_of(crate)]
    for call in calls:
        found = imports(read(call.path))
        for kind, label, said in call.clauses:
            for word in dict.fromkeys(WORD.findall(said)):
                cited = resolve(known, found, word)
                if cited:
                    if cited not in call.cites:
                        call.cites.append(cited)
                    cited.clauses.append((call, kind, label))
    for crate in names:
        for path in files(f"crates/{crate}/proofs", ".antt"):
            if os.path.basename(path) in ("Answers.antt", "Invariants.antt", "Proof.antt", "Lib.antt"):
                continue
            for place in imports(read(path)).values():
                if place in known and path not in known[place].lemmas:
                    known[place].lemmas.append(path)
    for d in definitions:
        found = imports(read(d.path))
        own = {e.name: e for e in definitions if e.path == d.path and e is not d}
        for word in dict.fromkeys(WORD.findall(d.body)):
            used = resolve(known, found, word) or own.get(word)
            if used:
                used.definitions.append(d)
    return names, definitions, calls


def reached(definitions, calls):
    """The definitions that public clauses cite, and those that these stand on."""
    stands_on = {}
    for d in definitions:
        for user in d.definitions:
            stands_on.setdefault(id(user), []).append(d)
    left, seen = [d for c in calls for d in c.cites], set()
    while left:
        d = left.pop()
        if id(d) not in seen:
            seen.add(id(d))
            left += stands_on.get(id(d), [])
    return seen


def page(names, definitions, calls):
    out = [
        "# Contracts",
        "",
        "Made by `tools/contracts.py` from the source; not to be written by hand. First each public call with its clauses and the",
        "definitions that they cite, then each definition with the clauses and the lemma files that use it.",
        "",
    ]
    for crate in names:
        own = [c for c in calls if c.crate == crate]
        if not own:
            continue
        out += [f"## {crate}", ""]
        for call in own:
            out.append(f"### [`{call.title()}`]({link(call.path, call.line)})")
            out.append("")
            if call.doc:
                out += [call.doc, ""]
            for kind, label, said in call.clauses:
                out.append(f"- {kind}{' **' + label + '**' if label else ''}: `{said}`")
            if call.cites:
                cited = ", ".join(f"[`{d.name}`]({link(d.path, d.line)})" for d in call.cites)
                out.append(f"- cites {cited}")
            out.append("")
    out += ["# Definitions", ""]
    for crate in names:
        own = [d for d in definitions if d.crate == crate]
        if not own:
            continue
        out += [f"## {crate}", ""]
        for d in own:
            used = list(dict.fromkeys(f"`{c.crate}::{c.title()}`{' ' + label if label else ''}" for c, _, label in d.clauses))
            proofs = [os.path.basename(p)[:-5] if p.startswith(f"crates/{crate}/") else p.split("/")[1] + "/" + os.path.basename(p)[:-5] for p in d.lemmas]
            out.append(f"- [`{d.name}`]({link(d.path, d.line)}): {d.sentence or '(no sentence)'}")
            if used:
                out.append(f"  - in clauses of {', '.join(used)}")
            if proofs:
                out.append(f"  - in lemma files {', '.join(proofs)}")
        out.append("")
    return "\n".join(out).rstrip() + "\n"


def faults(names, definitions, calls, made):
    found = []
    path = os.path.join(TOP, PAGE)
    if not os.path.exists(path) or read(PAGE) != made:
        found.append(f"{PAGE} is stale: run tools/contracts.py")
    public = reached(definitions, calls)
    for d in definitions:
        if id(d) in public and not d.sentence:
            found.append(f"{d.path}:{d.line}: {d.name} has no sentence above it, and a public clause rests on it")
    by_name = {}
    for d in definitions:
        by_name.setdefault(d.name, []).append(d)
    for name, ones in sorted(by_name.items()):
        if len(ones) > 1:
            found.append(f"{name} is defined {len(ones)} times: " + ", ".join(f"{d.path}:{d.line}" for d in ones))
    tested = set()
    for crate in names:
        is_program = os.path.exists(os.path.join(TOP, f"crates/{crate}/src/main.rt"))
        for file in files(f"crates/{crate}/src", ".rt"):
            if is_program or crate.endswith("_tests"):
                tested |= set(NAMED.findall(read(file)))
    for call in calls:
        if call.name not in tested:
            found.append(f"{call.path}:{call.line}: no test names {call.title()}")
    return found


def main():
    names, definitions, calls = gather()
    made = page(names, definitions, calls)
    if "--check" not in sys.argv[1:]:
        with open(os.path.join(TOP, PAGE), "w", encoding="utf-8") as file:
            file.write(made)
        return 0
    found = faults(names, definitions, calls, made)
    for fault in found:
        print(f"contracts: {fault}")
    print(f"contracts: {len(calls)} public calls, {len(definitions)} definitions, {len(found)} to mend")
    return 1 if found else 0


if __name__ == "__main__":
    sys.exit(main())
