#!/usr/bin/env python3
"""Measures what an edit of a document costs, by where it lies and by the length of the text.

    tools/edit_costs.py [EDITS]

EDITS is 20000 where it isn't given. A program of a few lines makes a text and does so many edits of one character each; it is proved
and built in a folder of its own, with this checkout's crates, which takes minutes. What is printed are ratios to the first number of
the table, which is of edits typed one behind the other in the shortest text, and that number in nanoseconds. It wants a machine
that does nothing else. Nothing is asserted.
"""
import os
import subprocess
import sys
import tempfile

TOP = os.path.dirname(os.path.dirname(os.path.abspath(__file__)))
CRATES = ["ot_text", "gap_buffer", "gap_text", "author_marks", "troop_doc"]
LENGTHS = [1_000, 100_000, 1_000_000]
PATTERNS = ["typed on", "in turn", "random"]
PROGRAM = """\
//! Times edits of one document.
#![tactic(auto)]

ghost use Rattle.std.specs.Prelude.{◌<◌, ◌^◌};

use anyhow::{Result, bail};
use ot_text::{Op, OpBuilder, Part, Text};
use std::alloc::Global;
use std::env;
use std::time::Instant;
use troop_doc::Doc;

// Keeps so many characters, puts a text in, and keeps the rest.
fn op(alloc: Global, kept: u64, text: Text, rest: u64) -> Result<Op> {
    let parts = [Part::Retain(kept), Part::Insert(text), Part::Retain(rest)];
    let mut builder = OpBuilder::new(alloc);
    for part in &parts {
        if !builder.try_put(part)? {
            bail!("too long");
        }
    }
    Ok(builder.finish())
}

fn edit(doc: &mut Doc, op: &Op, who: u32) -> Result<()> {
    if op.base() != doc.len() {
        bail!("another base");
    }
    doc.reserve_for(op)?;
    doc.apply(op, who);
    Ok(())
}

// The place of the next edit: behind the one before, from the middle on; at a quarter and at three quarters of the text in turn; or
// anywhere.
fn place_of(pattern: u64, edit: u64, length: u64, draw: u64) -> u64
    requires { length < 2 ^ 61 }
{
    let half = length / 2;
    match pattern {
        0 => (length.saturating_sub(edit) / 2).saturating_add(edit),
        1 => half / 2 + (edit % 2) * half,
        _ => draw % (length + 1),
    }
}

// So many edits of one character each: by one performer where they are typed on, else by three in turn.
fn edits(alloc: Global, doc: &mut Doc, pattern: u64, count: u64) -> Result<()> {
    let mut draw = 1u64;
    for number in 0..count {
        draw = draw.wrapping_mul(6364136223846793005).wrapping_add(1442695040888963407);
        let length = doc.len();
        let place = place_of(pattern, number, length, draw >> 20).min(length);
        let next = op(alloc, place, Text::of(alloc, "y")?, length - place)?;
        let who = if pattern == 0 { 2 } else { 2 + (number % 3) as u32 };
        edit(doc, &next, who)?;
    }
    Ok(())
}

fn text_of_length(alloc: Global, length: u64) -> Result<Text> {
    let mut chars = Vec::new(alloc);
    for _ in 0..length {
        chars.push('x')?;
    }
    Ok(Text::from_chars(alloc, &chars)?)
}

fn number(words: &[String], place: usize) -> u64 {
    match words.get(place) {
        Some(word) => word.parse::<u64>().unwrap_or(0),
        None => 0,
    }
}

fn main(rt: HostRuntime) -> Result<()> {
    let alloc = rt.alloc();
    let mut words = Vec::new(alloc);
    for word in env::args(&rt)?.skip(1) {
        words.push(word)?;
    }
    let (pattern, length, count) = (number(&words, 0), number(&words, 1), number(&words, 2));
    let mut doc = Doc::new(alloc);
    edit(&mut doc, &op(alloc, 0, text_of_length(alloc, length)?, 0)?, 1)?;
    // The first growth takes the whole text to a longer vector; it is paid here.
    edits(alloc, &mut doc, 0, 1)?;
    let start = Instant::now(&rt)?;
    edits(alloc, &mut doc, pattern, count)?;
    let nanoseconds = start.elapsed(&rt)?.as_nanos();
    println!(rt; "{} {} {}", nanoseconds, doc.len(), doc.runs()?.len())?;
    Ok(())
}
"""


def build(folder):
    crates = os.path.join(folder, "crates")
    os.makedirs(os.path.join(crates, "edit_costs", "src"))
    lines = []
    with open(os.path.join(TOP, "crates.txt"), encoding="utf-8") as file:
        for line in file:
            if line.split(":")[0] in CRATES:
                lines.append(line)
    for name in CRATES:
        subprocess.run(["cp", "-r", os.path.join(TOP, "crates", name), crates], check=True)
    lines.append("edit_costs: ot_text troop_doc anyhow\n")
    with open(os.path.join(folder, "crates.txt"), "w", encoding="utf-8") as file:
        file.writelines(lines)
    with open(os.path.join(crates, "edit_costs", "src", "main.rt"), "w", encoding="utf-8") as file:
        file.write(PROGRAM)
    return os.path.join(crates, "edit_costs")


def proved(program):
    """The program, proved and built, and run once for nothing."""
    run = subprocess.run(["rt", "run", "--", "0", "1", "1"], cwd=program, capture_output=True, text=True)
    if run.returncode != 0:
        raise SystemExit(run.stdout + run.stderr)
    return os.path.join(program, "out", "edit_costs")


def time_of(built, pattern, length, edits):
    """Nanoseconds of an edit: of five runs the least."""
    times = []
    for _ in range(5):
        run = subprocess.run([built, str(pattern), str(length), str(edits)], check=True, capture_output=True, text=True)
        times.append(int(run.stdout.split()[0]))
    return min(times) / edits


def main():
    edits = int(sys.argv[1]) if len(sys.argv) > 1 else 20_000
    with tempfile.TemporaryDirectory() as folder:
        built = proved(build(folder))
        unit = None
        print(f"{edits} edits of one character; each number is the time of one of them, in units of the first one")
        print(f"{'':14}" + "".join(f"{length:>12}" for length in LENGTHS))
        for pattern, name in enumerate(PATTERNS):
            times = [time_of(built, pattern, length, edits) for length in LENGTHS]
            unit = unit or times[0]
            print(f"{name:14}" + "".join(f"{time / unit:12.1f}" for time in times), flush=True)
        print(f"the first one: {unit:.0f} ns")


if __name__ == "__main__":
    main()
