"""What a check says of a planted bug."""
import re

from audit_bugs import BY_NAME, PROVED, REFUSED, UNSURE

VERDICT = re.compile(r"^(?:fn|impl) (\S+): (.*)$")
NAMES = re.compile(r"has no field|is not in scope|has no `|was not admitted|was rejected|is no name")
LIMITS = re.compile(r"ran out of (?:stack|the (?:steps|memory))|outgrew the memory limit|stopped at the step limit")
ERROR_AT = re.compile(r"^(?:note: )?(?:\./)?((?:src|specs|proofs)/\S+?):(\d+):(\d+): (.*)$")


def own_lines(said, crate, place):
    """The verdicts of a function, and of the closures in it."""
    module, (kind, trait), name = place
    start = f"{crate}::" + (f"{module}::" if module else "")
    # A method stands in the module of its type.
    method = re.compile(rf"(?:\w+::)*{kind}{trait}\w*::{name}$" if trait else rf"(?:\w+::)*{kind}(?:\+\w+|\w*)?::{name}$")
    found = []
    for line in said.split("\n"):
        verdict = VERDICT.match(line)
        if not verdict or not line.startswith(f"fn {crate}::"):
            continue
        path = verdict.group(1)
        if path == start + name if not kind else method.match(path):
            found.append(verdict.group(2))
        elif f"fn::{name}::" in path or kind and f"fn::{kind}::{name}::" in path:
            found.append(verdict.group(2))
    return found


def judged(said, bug):
    """What a check says of a bug: its outcome, and the goals or the errors."""
    lines = said.split("\n")
    if not bug.functions or any(place is None for place in bug.places) or any(not path.startswith("src/") for path, _, _ in bug.pairs):
        return judged_whole(said, lines)
    told = [line for place in bug.functions for line in own_lines(said, bug.crate, place)]
    if not told:
        return UNSURE, "the check has no line on its function"
    if all(line.startswith("proved") for line in told):
        return PROVED, ""
    goals = goals_in(told)
    stands = [name for line in told if "which antt refuses" in line
              for name in re.findall(r"`([^`]*)`", line.split("it stands on")[-1].split("which antt refuses")[0])]
    if goals:
        return REFUSED, ", ".join(with_notes(lines, goals))
    if stands:
        return in_proofs(lines, stands)
    hand = by_hand(lines, bug)
    if hand:
        return hand
    if any("it calls" in line or "wait" in line or "which has no proof" in line for line in told):
        return UNSURE, "it waits for a function that isn't proved"
    if any("expected a measure" in line for line in told):
        return UNSURE, "the measure of a loop is left out"
    if any("not admit" in line for line in told):
        return UNSURE, "; ".join(told)[:200]
    return REFUSED, "; ".join(told)[:200]


def goals_in(told):
    """The goals that these lines on functions leave open."""
    groups = [group for line in told for group in re.findall(r"did not prove ((?:`[^`]*`(?:, | and )?)+)", line)]
    return [goal for group in groups for goal in re.findall(r"`([^`]*)`", group)]


def told_so_far(said, bug):
    """The goals of a bug that a check had left open before it was stopped."""
    if any(place is None for place in bug.places):
        return ""
    lines = [line.removeprefix("so far: ") for line in said.split("\n")]
    told = [line for place in bug.functions for line in own_lines("\n".join(lines), bug.crate, place)]
    return ", ".join(with_notes(lines, goals_in(told)))


def by_hand(lines, bug):
    """What the errors in the written proofs of a bug's functions come to, if there are any."""
    said = []
    for line in lines:
        at = ERROR_AT.match(line)
        if at and at.group(4).startswith("error") and any(f"/{name}/" in at.group(1) for _, _, name in bug.functions):
            said.append(at.group(4))
    if not said:
        return None
    goals = [goal for it in said for goal in re.findall(r"error: `([^`]*)`", it)]
    outcome = BY_NAME if all(NAMES.search(it) for it in said) else REFUSED
    return outcome, "by hand: " + ", ".join(dict.fromkeys(goals))


def misfits(said, bug):
    """Has the bug leave out the written proofs of its functions that a check refuses; whether there were any more."""
    more = False
    for line in said.split("\n"):
        at = ERROR_AT.match(line)
        if not at or not at.group(4).startswith("error") or not any(f"/{name}/" in at.group(1) for _, _, name in bug.functions):
            continue
        # What a line takes in from another module may be gone, and the line has no name of its own.
        taken_in = [f"line {at.group(2)}"] if at.group(4).startswith("error: module ") else []
        for name in re.findall(r"error: `([^`]*)`", at.group(4)) or taken_in:
            left = bug.drops.setdefault(at.group(1), set())
            more = more or name not in left
            left.add(name)
    return more


def with_notes(lines, goals):
    """The goals, each with what it is of where the check says so."""
    named = []
    for goal in goals:
        note = next((line for line in lines if line.startswith("note: src/") and f"(`{goal}`)" in line), "")
        asked = re.search(r"what `(\w+)` requires", note)
        if asked and "requires" not in goal:
            goal = f"{goal} (asked by {asked.group(1)})"
        if "allow values at which this goal is false" in note:
            goal = f"{goal} (false at some values)"
        named.append(goal)
    return named


def in_proofs(lines, stands):
    """What it comes to where a proof by hand no longer fits."""
    goals = [name.split(".Answers.")[-1].split(".")[-1] if ".Answers." in name else name for name in stands]
    folders = {name.split(".proofs.", 1)[-1].rsplit(".", 1)[0].replace(".", "/") for name in stands}
    said = []
    for line in lines:
        at = ERROR_AT.match(line)
        if at and at.group(1).startswith("proofs/") and "error" in at.group(4):
            if any(at.group(1)[len("proofs/"):-len(".antt")] == folder or folder.startswith(at.group(1)[len("proofs/"):-len(".antt")]) for folder in folders):
                said.append(at.group(4))
    outcome = BY_NAME if said and all(NAMES.search(it) for it in said) else REFUSED
    return outcome, "by hand: " + ", ".join(goals)


def judged_whole(said, lines):
    """What a check says of a bug outside functions: whether the crate is proved."""
    if "logic=proved" in said:
        return PROVED, ""
    if "logic=not-proved" not in said:
        return UNSURE, "no verdict"
    told = [line for line in lines if ERROR_AT.match(line) and ("error" in line or line.startswith("note:"))]
    first = next((line for line in told if not NAMES.search(line)), "")
    goals = [goal for line in lines if VERDICT.match(line) for group in re.findall(r"did not prove ((?:`[^`]*`(?:, | and )?)+)", line) for goal in re.findall(r"`([^`]*)`", group)]
    if told and not first and not goals:
        return BY_NAME, told[0][:160]
    open_in = [VERDICT.match(line).group(1) for line in lines if line.startswith("fn ") and "did not prove" in line]
    where = ", ".join(goals[:3]) + (f" of {', '.join(open_in[:2])}" if open_in else "")
    return REFUSED, where.strip() or first[:160]


def compile_errors(said):
    return [line for line in said.split("\n") if re.search(r"\berror\[[\w-]+\]", line)]


def blamed(errors, lines):
    """The bugs whose lines these errors name."""
    guilty = []
    for error in errors:
        at = ERROR_AT.match(error)
        if at:
            guilty += [bug for path, number, bug in lines if path == at.group(1) and number == int(at.group(2))]
    return guilty
