#!/usr/bin/env python3
"""Times the reader of scheduler states on lists of 1,000 and 10,000 states.

    bench/states.py [REPOSITORY]

The reader is that of this repository, or of another checkout of it. A program for the measurement is
built over a copy of its crates in a temporary folder, and reads each list five times. Printed is the
least time of a reading, from the file's bytes to the states, in milliseconds. The states are those of
four active tasks with ten blocks each, so they differ in their last numbers, and all of them differ.
"""
import itertools
import json
import os
import shutil
import subprocess
import sys
import tempfile

from systems import ROOT, words_of

SIZES = [1_000, 10_000]

MAIN = r"""//! Times the reading of lists of scheduler states.
#![tactic(auto)]

use anyhow::{Result, anyhow};
use certificate::{Context, Contexts, Flags, StateRules, read_states};
use std::alloc::Global;
use std::rt::{Clock, Env, Files};
use std::time::Instant;
use std::{env, fs};

// Four tasks with ten blocks each.
fn rules(alloc: Global) -> Result<StateRules> {
    let mut inner = Flags::new(alloc);
    let mut owners = Contexts::new(alloc);
    for task in 0..4usize {
        inner.push(false)?;
        for _ in 0..10 {
            owners.push(Context::Task(task))?;
        }
    }
    Ok(StateRules { modes: 1, isrs: 0, resources: 1, inner, owners })
}

fn report<R: Files + AllocGlobal + Clock + Print>(rt: &R, path: &str) -> Result<()> {
    let rules = rules(rt.alloc())?;
    let text = fs::read(rt, path)?;
    for _ in 0..5 {
        let start = Instant::now(rt)?;
        let states = read_states(rt.alloc(), &rules, text.as_slice());
        let micros = start.elapsed(rt)?.as_micros();
        match states {
            Ok(states) => {
                let count = states.len();
                println!(rt; "{count} {micros}")?;
            }
            Err(_) => return Err(anyhow!("no states")),
        }
    }
    Ok(())
}

fn main(rt: HostRuntime) -> Result<()> {
    for path in env::args(&rt)?.skip(1) {
        report(&rt, path.as_str())?;
    }
    Ok(())
}
"""


def lines_of(repository):
    """The lines of crates.txt for the crates that the reader stands on, and for the program."""
    deps = {}
    with open(os.path.join(repository, "crates.txt"), encoding="utf-8") as file:
        for line in file:
            name, colon, rest = line.partition(":")
            if colon and not line.startswith("#"):
                deps[name.strip()] = rest.split()
    wanted, left = [], ["certificate"]
    while left:
        name = left.pop()
        if name in deps and name not in wanted:
            wanted.append(name)
            left += deps[name]
    lines = [f"{name}: {' '.join(deps[name])}".rstrip() for name in deps if name in wanted]
    return wanted, lines + ["bench_states: anyhow certificate listed"]


def states_of(count):
    """So many states, each another one."""
    blocks = itertools.product(range(10), repeat=4)
    return [
        [0, [[10 * task + block, 0] for task, block in enumerate(four)], [], 0, 0]
        for four in itertools.islice(blocks, count)
    ]


def main():
    repository = (words_of(__doc__, 1) or [ROOT])[0]
    if not os.path.isfile(os.path.join(repository, "crates.txt")):
        sys.exit(__doc__)
    if not shutil.which("rt"):
        print("states: rt is missing: skipped")
        return
    folder = tempfile.mkdtemp()
    try:
        wanted, lines = lines_of(repository)
        for name in wanted:
            shutil.copytree(
                os.path.join(repository, "crates", name),
                os.path.join(folder, "crates", name),
                ignore=shutil.ignore_patterns("out"),
            )
        with open(os.path.join(folder, "crates.txt"), "w", encoding="utf-8") as file:
            file.write("\n".join(lines) + "\n")
        source = os.path.join(folder, "crates", "bench_states", "src")
        os.makedirs(source)
        with open(os.path.join(source, "main.rt"), "w", encoding="utf-8") as file:
            file.write(MAIN)
        paths = []
        for size in SIZES:
            paths.append(os.path.join(folder, f"{size}.json"))
            with open(paths[-1], "w", encoding="utf-8") as file:
                json.dump(states_of(size), file)
        crate = os.path.dirname(source)
        run = subprocess.run(
            ["rt", "run", "--", *paths], cwd=crate, capture_output=True, text=True, check=False
        )
        least = {}
        for line in run.stdout.splitlines():
            words = line.split()
            if len(words) == 2 and all(word.isdigit() for word in words):
                count, micros = map(int, words)
                least[count] = min(least.get(count, micros), micros)
        if sorted(least) != SIZES:
            sys.exit(f"the program didn't run: {run.stdout[-2000:]}{run.stderr[-2000:]}")
        for count in SIZES:
            print(f"{count} states: {least[count] / 1000:.1f} ms")
    finally:
        shutil.rmtree(folder)


if __name__ == "__main__":
    main()
