"""The page of planted bugs, docs/AUDIT.md."""
import os
import re

from audit_bugs import BAD, BY_LIMIT, BY_NAME, PROVED, TOP, Results, bugs_of, crates, read

PAGE = os.path.join(TOP, "docs", "AUDIT.md")
NOT_YET = "not judged yet"
STILL = "**still proved**"
HEAD = """# Audit

Made by `tools/audit.py --page` from audit/; not to be written by hand.

Proved says no more than the contracts do. So bugs were planted, each in one place where a careless engineer would slip: a boundary, an order of
refusals, two numbers swapped, a write that is dropped, a state that is left behind an error, an early return, want of memory in place of a refusal.
Each is to be refused by the contracts of its own crate. `tools/audit.py` plants them again; they stand in audit/, with what came of them.

How a refusal is told: by the goal that the check leaves open. `returns-clause-own` is the clause `own` at a return, `NAME-requires` what a call of NAME
asks, `loop-preserved` what a loop keeps, `invariant_of-..` what a type keeps. `false at some values` is said of a goal for which the check found values at
which it is false. `by hand` is a goal whose written proof no longer fits, and `without its written
proof` one that the prover doesn't prove by itself either. `in CRATE` says that a crate above refuses it.
A bug that is still proved shows what a contract leaves free, or changes nothing that anybody sees; the table says which.
"""


def write_page(checking=False):
    """Writes the page, and says what it has; or looks whether it stands there as it would be written."""
    reasons = reasons_of()
    parts, totals, unexplained, needed = [], {}, [], set()
    for crate in crates():
        results = Results(crate, False)
        counts, rows = {}, []
        for bug in bugs_of(crate):
            kind, told = told_of(bug, results, reasons)
            if told.startswith(STILL):
                needed.add((crate, bug.name))
                unexplained += [] if (crate, bug.name) in reasons else [f"{crate}/{bug.name}"]
            counts[kind] = counts.get(kind, 0) + 1
            totals[kind] = totals.get(kind, 0) + 1
            rows.append(f"| {cell(bug.story)} | {cell(told)} |")
        parts += [f"## {crate}", "", counted(counts), "", "| Bug | Refused by |", "|---|---|"] + rows + [""]
    text = HEAD + "\n" + counted(totals) + "\n\n" + read(os.path.join(TOP, "audit", "INTRO.md")) + "\n" + "\n".join(parts).rstrip() + "\n"
    if checking:
        same = os.path.isfile(PAGE) and read(PAGE) == text
        print("docs/AUDIT.md: " + counted(totals) if same else "docs/AUDIT.md isn't what tools/audit.py --page writes")
        return same
    with open(PAGE, "w", encoding="utf-8") as file:
        file.write(text)
    print("docs/AUDIT.md: " + counted(totals))
    for name in unexplained:
        print(f"audit/JUDGED.md says nothing of {name}")
    for crate, name in sorted(set(reasons) - needed):
        print(f"audit/JUDGED.md speaks of {crate}/{name}, which isn't still proved, as far as it was judged")
    return True


def told_of(bug, results, reasons):
    """The kind of a bug's outcome, and what is told of it."""
    reason = reasons.get((bug.crate, bug.name), "")
    found, late = results.of(bug), ""
    if not found:
        found, late = results.before(bug), " (told of the crate before its last change)"
    if not found:
        return NOT_YET, NOT_YET
    outcome, where = found
    if outcome == PROVED:
        kind = "equivalent" if reason.startswith("equivalent") else "still proved"
        return kind, f"{STILL}{': ' + reason if reason else ''}{late}"
    if outcome == BY_LIMIT:
        return "refused", f"its goals outgrew the prover's limits: {where}{late}"
    if outcome == BY_NAME:
        return "refused by a name", f"a proof names what it took away: {where}{late}"
    if outcome == BAD:
        return "bad", f"it doesn't compile: {where}"
    return "refused", f"{', '.join(quoted(where))}{late}"


def quoted(where):
    """The goals in code's letters."""
    front = ""
    back = ""
    if where.endswith(" (without its written proof)"):
        where, back = where[: -len(" (without its written proof)")], " (without its written proof)"
    for word in ("by hand: ",):
        if where.startswith(word):
            where, front = where[len(word):], word
    above = re.match(r"in (\w+): ", where)
    if above:
        front, where = above.group(0), where[above.end():]
    names = [re.sub(r"^([\w:+<>-]+)", r"`\1`", goal) for goal in where.split(", ")]
    names[0], names[-1] = front + names[0], names[-1] + back
    return names


def counted(counts):
    """A line of counts."""
    order = ["refused", "refused by a name", "still proved", "equivalent", "bad", NOT_YET]
    words = {"equivalent": "still proved, and the same as before"}
    total = sum(counts.values())
    told = [f"{counts[kind]} {words.get(kind, kind)}" for kind in order if kind in counts]
    return f"{total} bugs: " + ", ".join(told) + "."


def cell(text):
    return text.replace("|", "\\|")


def reasons_of():
    """Why a bug is still proved, from audit/JUDGED.md: lines 'CRATE/NAME: reason'."""
    path = os.path.join(TOP, "audit", "JUDGED.md")
    found = {}
    if os.path.isfile(path):
        for line in read(path).splitlines():
            row = re.match(r"^(?:- )?`?(\w+)/(\w+)`?: (.*)$", line)
            if row:
                found[(row.group(1), row.group(2))] = row.group(3)
    return found
