#!/usr/bin/env python3
"""Plants bugs in a copy of the repository, and tells by which clause each is refused.

    tools/audit.py [CRATE..] [--minutes N] [--longest SECONDS] [--copy FOLDER] [--alone] [--anew] [--log FILE] [--leaving]
                   [--trusting] [--most N]
    tools/audit.py --list      the planted bugs, with the function that each stands in; fails where one can't be planted
    tools/audit.py --page      writes docs/AUDIT.md from the results, audit/INTRO.md and audit/JUDGED.md
    tools/audit.py --check     fails where docs/AUDIT.md isn't that page, or a bug can't be planted

A bug is a file audit/CRATE/NAME.edit: a first line '# what a careless engineer would do', and then, as in a must-fail edit,
'file: PATH' and pairs of 'old: TEXT' and 'new: TEXT', one line each, where the old text stands once in that file.

Bugs in different functions are planted together, since a check prints for each function whether it is proved; with --alone each is planted
by itself. That a bug is still proved is said only where the whole crate is. What came of a bug is kept in
audit/CRATE/results.tsv, and is looked up there as long as the bug and the crate's own files are the same; --anew judges all again. A bug that
doesn't compile is no bug, one that is refused only because a proof file names what it took away says little of the contract, and both are told
apart. A check that takes longer than --longest is stopped, and fewer bugs are planted together then; --most tells how many are at first. With
--trusting a crate isn't checked as it stands first.

A written proof may no longer fit where another one would: such a refusal is told as 'by hand'. With --leaving these bugs are judged again
without the written proofs that don't fit, so that the prover looks for others. Beside its pairs a bug may have lines 'answers: PATH' of a file of
proofs/, and then 'drop: NAME' and 'add: LINE', by which a proof is left out and another one written: it shows a bug that is still proved. A line
'above: CRATE..' names crates that are checked too where a bug of a definition is still proved in its own crate.
"""
import argparse
import os
import re
import shutil
import signal
import subprocess
import sys
import tempfile
import time

sys.dont_write_bytecode = True

from audit_bugs import APART, BAD, BY_LIMIT, MOST_TOGETHER, PARTS, PROVED, REFUSED, SEEMS, TOP, UNSURE, Results, batch, bugs_of, calls_of, crates
from audit_page import write_page
from audit_verdicts import LIMITS, blamed, compile_errors, judged, judged_whole, misfits, told_so_far

LONGEST_CHECK = 1500


def copied(copy):
    """The repository's crates in this folder, without what checks made."""
    os.makedirs(os.path.join(copy, "crates"), exist_ok=True)
    for name in ["crates.txt", "HANDLES"]:
        shutil.copyfile(os.path.join(TOP, name), os.path.join(copy, name))
    for crate in sorted(os.listdir(os.path.join(TOP, "crates"))):
        restore(copy, crate)


def restore(copy, crate):
    """Makes a crate's files in the copy those of the repository, and leaves those alone that are so already."""
    for part in PARTS:
        there, here = os.path.join(copy, "crates", crate, part), os.path.join(TOP, "crates", crate, part)
        if not os.path.isdir(here):
            shutil.rmtree(there, ignore_errors=True)
            continue
        kept = set()
        for folder, _, names in os.walk(here):
            target = os.path.join(there, os.path.relpath(folder, here))
            os.makedirs(target, exist_ok=True)
            for name in names:
                full, other = os.path.join(folder, name), os.path.normpath(os.path.join(target, name))
                kept.add(other)
                with open(full, "rb") as file:
                    mine = file.read()
                if not os.path.isfile(other) or open(other, "rb").read() != mine:
                    with open(other, "wb") as file:
                        file.write(mine)
        for folder, _, names in os.walk(there):
            for name in names:
                full = os.path.normpath(os.path.join(folder, name))
                if full not in kept:
                    os.remove(full)


def check(folder, log, seconds):
    """Runs a check in the crate's folder; its output, and whether it came to its end."""
    run = subprocess.Popen(["rt", "check"], cwd=folder, stdin=subprocess.DEVNULL, stdout=subprocess.PIPE, stderr=subprocess.STDOUT,
                           text=True, errors="replace", start_new_session=True)
    ended = True
    try:
        said, _ = run.communicate(timeout=seconds)
    except subprocess.TimeoutExpired:
        ended = False
        os.killpg(run.pid, signal.SIGTERM)
        said, _ = run.communicate()
    if log:
        with open(log, "a", encoding="utf-8") as file:
            file.write(said)
    return said, ended


def audit(crate, copy, results, end, given):
    """Judges a crate's bugs until the time is up; whether all are judged."""
    folder = os.path.join(copy, "crates", crate)
    waiting = [bug for bug in bugs_of(crate) if not results.of(bug)]
    for bug in list(waiting):
        if bug.why:
            results.put(bug, BAD, bug.why)
            waiting.remove(bug)
    if not waiting:
        return True
    restore(copy, crate)
    begun = time.time()
    if not given.trusting:
        said, _ = check(folder, given.log, max(60, end - time.time()))
        if "logic=proved" not in said:
            print(f"{crate}: not proved as it stands, so nothing is planted", flush=True)
            return False
    print(f"{crate}: {len(waiting)} to judge; its check took {time.time() - begun:.0f} s", flush=True)
    reach, most = calls_of(crate), 1 if given.alone else given.most
    while waiting and time.time() < end:
        chosen = batch(waiting, reach, most)
        restore(copy, crate)
        lines = []
        chosen = [bug for bug in chosen if bug.plant(folder, lines)]
        begun = time.time()
        said, ended = check(folder, given.log, min(given.longest, max(60, end - time.time())))
        spent = time.time() - begun
        if not ended:
            for bug in chosen:
                goals = told_so_far(said, bug)
                if goals:
                    settle(results, waiting, bug, REFUSED, goals, spent)
            if len(chosen) > 1:
                most = (len(chosen) + 1) // 2
            elif spent >= given.longest and chosen[0] in waiting:
                settle(results, waiting, chosen[0], BY_LIMIT, "its check took too long", spent)
            continue
        errors = compile_errors(said)
        if errors and not re.search(r"^logic=", said, re.M):
            guilty = blamed(errors, lines) or (chosen if len(chosen) == 1 else [])
            for bug in set(guilty):
                settle(results, waiting, bug, BAD, errors[0][:160], spent)
            if not guilty:
                most = 1
            continue
        if LIMITS.search(said) and "logic=" not in said and len(chosen) > 1:
            most = (len(chosen) + 1) // 2
            continue
        for bug in chosen:
            judge(bug, said, chosen, (copy, results, waiting, end, given), spent)
    restore(copy, crate)
    return not waiting


def judge(bug, said, chosen, about, spent):
    """What a check says of one of the bugs that were planted: it is settled, or waits for another check."""
    copy, results, waiting, end, given = about
    outcome, where = judged(said, bug)
    if where.startswith("by hand") and results.leaving and misfits(said, bug):
        waiting.remove(bug)
        waiting.append(bug)
        return
    if outcome == PROVED and "logic=proved" not in said:
        # Its functions are proved, but not their crate. It is planted again with others of this kind, and by itself at last.
        again(bug, waiting, SEEMS, bug.turn == SEEMS)
        return
    if outcome == UNSURE and len(chosen) > 1:
        again(bug, waiting, APART, bug.turn == APART)
        return
    if outcome == UNSURE and LIMITS.search(said):
        outcome = BY_LIMIT
    if outcome == PROVED and bug.above:
        outcome, where = judged_above(bug, copy, end, given)
    settle(results, waiting, bug, outcome, where, spent)


def again(bug, waiting, turn, alone):
    """Puts a bug behind the others that wait, in this turn, and by itself if told so."""
    if alone:
        bug.places = [None]
    bug.turn = turn
    waiting.remove(bug)
    waiting.append(bug)


def judged_above(bug, copy, end, given):
    """What the crates above say of a bug of definitions that stands planted now."""
    for crate in bug.above:
        said, ended = check(os.path.join(copy, "crates", crate), given.log, min(given.longest, max(60, end - time.time())))
        if not ended:
            return UNSURE, f"the check of {crate} took too long"
        outcome, where = judged_whole(said, said.split("\n"))
        if outcome != PROVED:
            return outcome, f"in {crate}: {where}"
    return PROVED, ""


def settle(results, waiting, bug, outcome, where, spent):
    if bug.drops and results.leaving and outcome in (REFUSED, BY_LIMIT):
        where = f"{where} (without its written proof)"
    results.put(bug, outcome, where)
    if bug in waiting:
        waiting.remove(bug)
    print(f"  {bug.crate}/{bug.name}: {outcome}{': ' + where if where else ''} ({spent:.0f} s)", flush=True)


def main():
    words = argparse.ArgumentParser(description=__doc__, formatter_class=argparse.RawDescriptionHelpFormatter)
    words.add_argument("crates", nargs="*", metavar="CRATE")
    words.add_argument("--minutes", type=float, default=60)
    words.add_argument("--copy", default=os.path.join(tempfile.gettempdir(), "troop-audit"))
    words.add_argument("--log")
    words.add_argument("--longest", type=float, default=LONGEST_CHECK, metavar="SECONDS")
    words.add_argument("--alone", action="store_true")
    words.add_argument("--anew", action="store_true")
    words.add_argument("--leaving", action="store_true")
    words.add_argument("--trusting", action="store_true")
    words.add_argument("--most", type=int, default=MOST_TOGETHER, metavar="N")
    words.add_argument("--list", action="store_true")
    words.add_argument("--page", action="store_true")
    words.add_argument("--check", action="store_true")
    given = words.parse_args()
    names = given.crates or crates()
    if given.page:
        write_page()
        return 0
    if given.check:
        wrong = [bug for name in names for bug in bugs_of(name) if bug.why]
        for bug in wrong:
            print(f"{bug.crate}/{bug.name}: {bug.why}")
        return 0 if write_page(checking=True) and not wrong else 1
    if given.list:
        wrong = 0
        for bug in (bug for name in names for bug in bugs_of(name)):
            wrong += bool(bug.why)
            where = ", ".join("::".join(it for it in (place[0], place[1][0] + place[1][1], place[2]) if it) for place in bug.functions)
            print(f"{bug.crate}/{bug.name}: {bug.why or where or 'outside functions'}")
        return 1 if wrong else 0
    end = time.time() + given.minutes * 60
    copied(given.copy)
    done = True
    for name in names:
        if time.time() >= end:
            done = False
            break
        done = audit(name, given.copy, Results(name, given.anew, given.leaving), end, given) and done
    return 0 if done else 1


if __name__ == "__main__":
    sys.exit(main())
