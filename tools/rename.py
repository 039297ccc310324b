#!/usr/bin/env python3
"""Renames definitions of specs/ wherever they are imported: in specs/, proofs/, clauses and must-fail edits.

    tools/rename.py TABLE [FOLDER]

TABLE has a line for each rename: `crate Module old new`, or `crate Module - NewModule` for a file of specs/. FOLDER has
the crates, and is crates/ where none is given. A lemma whose name has the old word as a part between dashes is renamed too.
"""
import os
import re
import sys

TOP = os.path.dirname(os.path.dirname(os.path.abspath(__file__)))
CLAUSE = re.compile(r"\b(?:requires|ensures)\*?\s*\w*\s*\{|\bghost \w+: \{|\bghost \w+ = \{")


def word(name):
    return re.compile(r"(?<![\w'.◌-])" + re.escape(name) + r"(?![\w'-])")


def files(folder):
    for here, folders, names in os.walk(folder):
        folders[:] = sorted(f for f in folders if f != "out")
        for name in sorted(names):
            if name.endswith((".antt", ".rt", ".edit")):
                yield os.path.join(here, name)


def read(path):
    with open(path, encoding="utf-8") as file:
        return file.read()


def write(path, text):
    with open(path, "w", encoding="utf-8") as file:
        file.write(text)


def spans(text, path):
    """The parts of a file that are antt."""
    if path.endswith((".antt", ".edit")):
        return [(0, len(text))]
    found = [(m.start(), m.end()) for m in re.finditer(r"ghost use [^;]*;", text)]
    for match in CLAUSE.finditer(text):
        depth, at = 1, match.end()
        while depth:
            depth += {"{": 1, "}": -1}.get(text[at], 0)
            at += 1
        found.append((match.end(), at))
    return sorted(found)


def renamed(part, old, new):
    """The text with the word renamed, but for fields and their labels."""
    def put(match):
        before, behind = part[: match.start()], part[match.end():]
        if re.search(r"(?:[{;]|\bwith)\s*$", before) and re.match(r"\s*=(?!=)", behind) and not re.search(r"(?m)^$", before[-1:]):
            return match.group(0)
        if re.search(r"(?m)^\s+pub $", before[-40:]) and re.match(r"\s*:", behind):
            return match.group(0)
        line = before[before.rfind("\n") + 1:]
        if re.search(r"(?:^|\s)(?:--|//)\s", line) and not before.endswith("`"):
            return match.group(0)
        return new
    return word(old).sub(put, part)


def imports(text, crate, module, old):
    """Whether the text imports the name by itself, and under which name it has the whole module, if it does."""
    by_name = re.compile(r"use Rattle\." + crate + r"\.specs\." + re.escape(module) + r"\.\{([^}]*)\}")
    own = any(old in [item.split()[0] for item in found.split(",") if item.strip()] and
              not any(item.split()[0] == old and len(item.split()) > 1 for item in found.split(",") if item.strip())
              for found in by_name.findall(text))
    aliased = any(item.split()[0] == old and len(item.split()) > 1 for found in by_name.findall(text) for item in found.split(",") if item.strip())
    whole = re.search(r"use Rattle\." + crate + r"\.specs\." + re.escape(module) + r" as (\w+)", text)
    return own, aliased, whole.group(1) if whole else None


def rename_definition(folder, crate, module, old, new):
    home = os.path.join(folder, crate, "specs", module.replace(".", "/") + ".antt")
    lines = re.compile(r"(use Rattle\." + crate + r"\.specs\." + re.escape(module) + r"\.\{)([^}]*)(\})")
    for path in files(folder):
        text = was = read(path)
        edits_home = path.endswith(".edit") and f"file: specs/{module.replace('.', '/')}.antt" in text and f"/{crate}/must-fail/" in path
        own, aliased, whole = imports(text, crate, module, old)
        if path.endswith(".edit") and not edits_home:
            edited = re.findall(r"file: (\S+)", text)
            sources = [os.path.join(os.path.dirname(os.path.dirname(path)), file) for file in edited]
            own = any(os.path.exists(s) and s.endswith(".antt") and imports(read(s), crate, module, old)[0] for s in sources)
        if aliased:
            text = lines.sub(lambda m: m.group(1) + re.sub(r"(?<![\w'])" + old + r"(?= as )", new, m.group(2)) + m.group(3), text)
        if whole:
            text = re.sub(r"(?<![\w.])" + whole + r"\." + old + r"(?![\w'-])", f"{whole}.{new}", text)
        if own or path == home or edits_home:
            if word(new).search(text):
                print(f"{path}: {new} stands there already")
            for start, end in reversed(spans(text, path)):
                text = text[:start] + renamed(text[start:end], old, new) + text[end:]
        if text != was:
            write(path, text)


def rename_module(folder, crate, old, new):
    os.rename(os.path.join(folder, crate, "specs", old + ".antt"), os.path.join(folder, crate, "specs", new + ".antt"))
    for path in files(folder):
        text = was = read(path)
        text = re.sub(r"(use Rattle\." + crate + r"\.specs\.)" + re.escape(old) + r"(?=[. ;\n])", r"\g<1>" + new, text)
        if path == os.path.join(folder, crate, "specs", "Lib.antt"):
            text = re.sub(r"(?m)^pub mod " + re.escape(old) + "$", "pub mod " + new, text)
        if f"/{crate}/must-fail/" in path:
            text = text.replace(f"file: specs/{old}.antt", f"file: specs/{new}.antt")
        if text != was:
            write(path, text)


def rename_lemmas(folder, table):
    """Lemmas are named by the words that they speak of, between dashes."""
    names, by_part = set(), {old: new for _, _, old, new in table if old != "-"}
    for path in files(folder):
        if "/proofs/" in path and os.path.basename(path) not in ("Answers.antt", "Invariants.antt", "Proof.antt"):
            names |= set(re.findall(r"(?m)^(?:pub )?([a-z][\w']*(?:-[\w']+)+) :", read(path)))
    changes = {}
    for name in names:
        new = "-".join(by_part.get(part, part) for part in name.split("-"))
        if new != name:
            changes[name] = new
    for path in files(folder):
        text = was = read(path)
        if path.endswith((".antt", ".rt")):
            for old, new in changes.items():
                text = re.sub(r"(?<![\w'.-])" + re.escape(old) + r"(?![\w'-])", new, text)
        if text != was:
            write(path, text)
    return changes


def main():
    folder = sys.argv[2] if len(sys.argv) > 2 else os.path.join(TOP, "crates")
    table = [line.split() for line in read(sys.argv[1]).splitlines() if line.strip() and not line.startswith("#")]
    for crate, module, old, new in table:
        if old == "-":
            rename_module(folder, crate, module, new)
        else:
            rename_definition(folder, crate, module, old, new)
    changes = rename_lemmas(folder, table)
    print(f"{len(table)} names, {len(changes)} lemmas")


if __name__ == "__main__":
    main()
