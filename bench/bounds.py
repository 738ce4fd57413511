#!/usr/bin/env python3
"""Times `bound` and `check` on whole systems, `bound` beside exact solvers, and how they grow.

    bench/bounds.py [SYSWCET [LIST_ROWS]]

For each task of the systems in examples/ the whole command `bound` is timed, from its files to its
answer, and `check` of the certificate that `certify` wrote. `glpsol --exact` (glpk-utils) and QSopt_ex's
`esolver` (qsopt-ex) solve the same rows, which `list_rows` writes and which they get as LP: theirs is
the time without building the rows. A peer that isn't installed is skipped.

Then systems of alarms whose tasks come in any order, so that scheduler states multiply, and of long
code: `closed` is the time of a command that finds the last listed state open, `rows` what a command
takes longer that then finds too few multipliers. Times are milliseconds of processor time of whole
commands, the least of three.
"""
import json
import os
import resource
import shutil
import subprocess
import sys
import tempfile

from compare import as_lp, by_esolver, by_glpsol
from systems import ROOT, alarmed, words_of

SYSTEMS = (
    ("demo", ("T", "H")),
    ("loop", ("L", "T")),
    ("four", ("Ctrl", "Msg", "Comm", "Log")),
    ("compiled", ("Control", "Logger")),
)
EXAMPLES = os.path.join(ROOT, "examples")


def spent():
    used = resource.getrusage(resource.RUSAGE_CHILDREN)
    return used.ru_utime + used.ru_stime


def least(command, folder):
    """The processor time of the command, the least of three, and what it wrote."""
    best, text = None, ""
    for _ in range(3):
        begun = spent()
        done = subprocess.run(command, cwd=folder, capture_output=True, check=False)
        took = spent() - begun
        best = took if best is None else min(best, took)
        text = done.stdout.decode()
    return 1000 * best, text


def peers(rows, answer, folder):
    """How much longer the solvers take for the rows; both have to find the answer."""
    lp = os.path.join(folder, "rows.lp")
    with open(lp, "w") as out:
        out.write(as_lp(rows))
    times = []
    for name in ("glpsol", "esolver"):
        if shutil.which(name):
            took, bound = by_glpsol(lp) if name == "glpsol" else by_esolver(lp, folder)
            assert bound == answer, (name, bound, answer)
            times.append(took)
        else:
            times.append(None)
    return times


def whole_systems(program, tool):
    print("system, task             bound, ms  check, ms  glpsol / bound  esolver / bound   answer")
    for name, tasks in SYSTEMS:
        folder = os.path.join(EXAMPLES, name)
        for task in tasks:
            words = ["s.oil", "s.elf", "s.json", task]
            took, answer = least([program, "bound", *words, "k"], folder)
            with tempfile.TemporaryDirectory() as scratch:
                cert = os.path.join(scratch, "cert")
                with open(cert, "w") as out:
                    out.write(least([program, "certify", *words, "k"], folder)[1])
                judged, verdict = least([program, "check", *words, cert], folder)
                assert verdict == "yes " + answer, (verdict, answer)
                ratios = ["-", "-"]
                if tool:
                    rows = json.loads(least([tool, "s.oil", "s.elf", "s.json", task, "k", "json"], folder)[1])
                    times = peers(rows, int(answer.split()[1]), scratch)
                    ratios = ["-" if other is None else f"{other / took:.1f}" for other in times]
            print(f"{name + ', ' + task:24} {took:9.1f} {judged:10.1f} {ratios[0]:>15} {ratios[1]:>16}   {answer.strip()}")


def growth(program):
    print("states  nodes   closed, ms    rows, ms   bound of T, ms")
    for alarms, nodes in ((5, 100), (7, 100), (9, 100), (10, 100), (10, 2000), (5, 2000), (5, 8000)):
        files = alarmed(alarms, nodes)
        with tempfile.TemporaryDirectory() as folder:
            states = files["k"].decode()
            # under a lock the task misuses TerminateTask; no other state leads there
            locked = f"[0,[[0,0]{',[]' * alarms}],[],1,0]"
            files["open"] = (states[:-1] + "," + locked + "]").encode()
            files["cert"] = (
                f'{{"bound":"1","denominator":"1","multipliers":[],"states":{states},"task":"T"}}'.encode()
            )
            for name, content in files.items():
                with open(os.path.join(folder, name), "wb") as out:
                    out.write(content)
            closed, text = least([program, "bound", "o", "e", "t", "T", "open"], folder)
            assert text.startswith("no misuse"), text
            rows, text = least([program, "check", "o", "e", "t", "T", "cert"], folder)
            assert text.startswith("no count"), text
            solved = "-"
            if alarms <= 7 and nodes <= 2000:
                took, text = least([program, "bound", "o", "e", "t", "T", "k"], folder)
                solved = f"{took:.0f}  {text.strip()}"
            print(f"{2 ** (alarms + 1):6} {nodes:6} {closed:12.1f} {rows - closed:11.1f}   {solved}")


def main():
    given = [os.path.abspath(word) for word in words_of(__doc__, 2)]
    program = given[0] if given else os.path.join(ROOT, "crates/syswcet/out/syswcet")
    tool = given[1] if len(given) > 1 else os.path.join(ROOT, "crates/list_rows/out/list_rows")
    if not os.path.exists(program):
        print(f"bounds: {program} is missing: skipped")
        return 0
    if not os.path.exists(tool):
        print(f"bounds: {tool} is missing, so no peer is timed")
        tool = None
    whole_systems(program, tool)
    growth(program)
    return 0


if __name__ == "__main__":
    sys.exit(main())
