#!/usr/bin/env python3
"""Times `split find` beside solvers over whole numbers, on the same rows.

    bench/split.py [SYSWCET [LIST_ROWS [LIST_STATES]]]

For each task of the systems in examples/, and of generated ones (bench/large.py; `list_states` lists their states), `list_rows`
writes the full rows as LP, and the columns by which the kernel takes a source are made whole numbers. `glpsol` (Debian's
glpk-utils) and `cbc` (coinor-cbc) find the greatest value by branch and cut, which may be a fraction, since the other columns
are no whole numbers. `split find` gets its whole cycles as the bound, finds a certificate for them with at most 100 cuts, which
`split check` says yes to, and finds none for a cycle less. Where 100 cuts are too few, its answer stands in place of its time.

Printed are the rows, the columns and those among them that are whole numbers; the bound over fractions, which `bound` tells, and
that over whole numbers; cuts of the certificate; milliseconds of processor time, the least of three runs, of the whole command
`split find`, from its files to the certificate's text, and of each solver, which gets the rows; and how much longer each solver
takes, or `-` where it found no greatest value in a minute. A solver that isn't installed is skipped.
"""
import json
import math
import os
import re
import shutil
import sys
import tempfile

from bounds import EXAMPLES
from compare import timed
from large import large
from systems import ROOT, words_of

# by name: the files of OIL, ELF, timing and states
SYSTEMS = {name: ("s.oil", "s.elf", "s.json", "k") for name in ("demo", "loop", "four", "compiled")}
SYSTEMS.update({name: (f"{name}.oil", f"{name}.elf", f"{name}.json", "states.json") for name in ("press", "pump")})
# tasks, resources, interrupts and words of a task's code
GENERATED = ((2, 0, 0, 20), (2, 1, 1, 20), (3, 1, 0, 30), (3, 1, 1, 30))
CUTS = 100
HEAD = "system, task        rows  columns  whole  fractions  bound  cuts  split find, ms  glpsol, ms     cbc, ms  glpsol / find  cbc / find"


def least(command):
    """The processor time of a command in milliseconds, the least of three, and what it wrote: nothing after a minute."""
    took, text = timed(command)[1:]
    for _ in range(2 if text and took < 10_000 else 0):
        took = min(took, timed(command)[1])
    return took, text


# ---- Rows in the LP format of list_rows


def terms_of(text):
    """The terms of a sum by name."""
    return {name: int(sign + size) for sign, size, name in re.findall(r"([+-]) (\d+) (\w+)", text)}


class Rows:
    """The costs by column, and the terms of each row by its name."""

    def __init__(self, text):
        objective, constraints = re.search(r"Maximize\n cycles:(.*?)Subject To\n(.*)End", text, re.S).groups()
        self.text = text
        self.costs = terms_of(objective)
        self.rows = {name: terms_of(terms) for name, terms in re.findall(r"^ (\w+):(.*?) <= \d+$", constraints, re.S | re.M)}

    def takes(self):
        """The columns by which the kernel takes a source. The row of a source has for each column its cost with a minus, and for
        those that take it the distance besides; that of a source which comes once has those that take it alone."""
        found = set()
        for name, terms in self.rows.items():
            if name.startswith("source"):
                found |= {column for column, cost in self.costs.items() if terms.get(column, 0) != -cost}
            elif name.startswith("once_source"):
                found |= {column for column, entry in terms.items() if entry}
        return [column for column in self.costs if column in found]

    def over_whole_numbers(self):
        names = "".join(f" {name}\n" for name in self.takes())
        return self.text.replace("\nEnd", f"\nGeneral\n{names}End")


# ---- Solvers


def by_glpsol(lp, folder):
    """The time and the greatest value, or None for both where it isn't found in a minute."""
    solution = os.path.join(folder, "solution")
    took, _ = least(["glpsol", "--lp", lp, "-o", solution])
    if not os.path.exists(solution):
        return None, None
    with open(solution, encoding="utf-8") as text:
        value = float(re.search(r"^Objective:\s+\S+ = (\S+)", text.read(), re.M).group(1))
    os.remove(solution)
    return took, value


def by_cbc(lp, folder):
    """The same."""
    took, text = least(["cbc", lp, "solve"])
    value = re.search(r"^Objective value:\s+(\S+)", text, re.M)
    return (took, abs(float(value.group(1)))) if value else (None, None)


SOLVERS = {"glpsol": by_glpsol, "cbc": by_cbc}


def solved(rows, folder):
    """For each solver its time, or None, and the whole cycles of the greatest value that they find."""
    lp = os.path.join(folder, "whole.lp")
    with open(lp, "w", encoding="utf-8") as out:
        out.write(rows.over_whole_numbers())
    times, values = {}, set()
    for name, solve in SOLVERS.items():
        times[name] = None
        if shutil.which(name):
            times[name], value = solve(lp, folder)
            if value is not None:
                values.add(math.floor(value + 1e-6))
    assert len(values) < 2, values
    return times, values.pop() if values else None


# ---- Certificates


def cuts_of(tree):
    return 1 + cuts_of(tree[3]) + cuts_of(tree[4]) if tree[0] == "cut" else 0


def found(program, words, states, bound, folder):
    """The time and the cuts of the certificate for the bound, or what is said in place of it."""
    limits = ["--cuts", str(CUTS)]
    took, text = least([program, "split", "find", *words, states, str(bound), *limits])
    if not text.startswith("{"):
        return None, text.strip() or "none in a minute"
    cert = os.path.join(folder, "cert")
    with open(cert, "w", encoding="utf-8") as out:
        out.write(text)
    verdict = timed([program, "split", "check", *words, cert])[2]
    assert verdict == f"yes {words[3]} {bound}\n", verdict
    if bound > 0:
        less = timed([program, "split", "find", *words, states, str(bound - 1), *limits])[2]
        assert not less.startswith("{"), (words, bound - 1)
    return took, cuts_of(json.loads(text)["tree"])


def ratio(other, took):
    return "-" if other is None or not took else f"{other / took:.1f}"


def shown(took):
    return "-" if took is None else f"{took:.1f}"


def measure(programs, name, files, folder):
    """A line for each task of the system, whose files are those."""
    program, list_rows = programs[:2]
    for line in timed([program, "all", *files])[2].splitlines():
        task, fractions = line.split(" ", 1)
        if not fractions.isdigit():
            print(f"{name + ', ' + task:18}  {line}")
            break
        words = [*files[:3], task]
        rows = Rows(timed([list_rows, *words, files[3], "full"])[2])
        times, bound = solved(rows, folder)
        if bound is None:
            bound = int(fractions)
        took, cuts = found(program, words, files[3], bound, folder)
        sizes = f"{len(rows.rows):5} {len(rows.costs):8} {len(rows.takes()):6} {fractions:>10} {bound:6}"
        if took is None:
            print(f"{name + ', ' + task:18} {sizes}   {cuts}")
            continue
        others = "".join(f"{shown(times[solver]):>12}" for solver in SOLVERS)
        ratios = f"{ratio(times['glpsol'], took):>15}{ratio(times['cbc'], took):>12}"
        print(f"{name + ', ' + task:18} {sizes} {cuts:5} {took:15.1f}{others}{ratios}")


def generated(programs, sizes, folder):
    """The files of a generated system in the folder, with its states."""
    files = {**large(*sizes)}
    for name, content in files.items():
        with open(os.path.join(folder, name), "wb") as out:
            out.write(content)
    paths = [os.path.join(folder, name) for name in ("s.oil", "s.elf", "s.json", "k")]
    with open(paths[3], "w", encoding="utf-8") as out:
        out.write(timed([programs[2], *paths[:3]])[2])
    return paths


def main():
    crates = os.path.join(ROOT, "crates")
    programs = [os.path.join(crates, name, "out", name) for name in ("syswcet", "list_rows", "list_states")]
    given = [os.path.abspath(word) for word in words_of(__doc__, 3)]
    programs[:len(given)] = given
    missing = [path for path in programs if not os.path.exists(path)]
    if missing:
        print(f"split: {', '.join(missing)} missing: skipped")
        return 0
    for name in SOLVERS:
        if not shutil.which(name):
            print(f"{name} isn't installed: skipped")
    print(HEAD)
    with tempfile.TemporaryDirectory() as folder:
        for name, files in SYSTEMS.items():
            measure(programs, name, [os.path.join(EXAMPLES, name, path) for path in files], folder)
        for sizes in GENERATED:
            measure(programs, "x".join(map(str, sizes)), generated(programs, sizes, folder), folder)
    return 0


if __name__ == "__main__":
    sys.exit(main())
