#!/usr/bin/env python3
"""Times `demo SEED 8` beside exact solvers, and compares it with systems that are made here by docs/FORMATS.md.

    bench/demo.py [SYSWCET [LIST_ROWS]]

For some seeds and numbers of tasks the files of the generated system are made anew, `all` and `replay` run over them, and their bounds and
greatest ended responses have to be those that `demo` writes. Then `demo SEED 8` is timed as a whole, and `glpsol --exact` (glpk-utils) and
QSopt_ex's `esolver` (qsopt-ex) solve the squeezed rows of its eight tasks, which `list_rows` writes: theirs is the time without building
the rows. Seconds of processor time, and ratios, theirs to ours. A peer that isn't installed is skipped.
"""
import itertools
import json
import os
import shutil
import subprocess
import sys
import tempfile

from bounds import spent
from compare import as_lp, by_esolver, by_glpsol
from systems import ROOT, elf, words_of

BASE = 0x1000


def draws(seed):
    """The numbers that are drawn, one after the other."""
    state = seed
    while True:
        state = (state * 1103515245 + 12345) % 2**32
        yield state // 65536 % 32768


def add(rd, rs1, value):
    return (value % 4096) << 20 | rs1 << 15 | rd << 7 | 0x13


def back(register):
    """bne register, x0, -4"""
    return 0x7F << 25 | register << 15 | 1 << 12 | 0x1D << 7 | 0x63


def generated(seed, count):
    """The files of the system of the seed with so many tasks, with its states and its schedule."""
    drawn = draws(seed)
    words, entries, loops, tasks, alarms = [], [], [], "", ""
    for i in range(count):
        steps, bound, cycle = 1 + next(drawn) % 20, next(drawn) % 8, count * (2000 + 1000 * (next(drawn) % 8))
        entries.append((f"Task_P{i}", len(words)))
        words += [add(5, 5, 1)] * steps + [add(6, 0, bound + 1)]
        loops.append({"from": f"{BASE + 4 * len(words):#010x}", "to": f"{BASE + 4 * len(words) + 4:#010x}", "bound": bound})
        words += [add(6, 6, -1), back(6), add(10, 0, 0), add(17, 0, 2), 0x73]
        tasks += f"TASK P{i} {{ PRIORITY = {i + 1}; }};\n"
        alarms += (f"ALARM A{i} {{ COUNTER = C; ACTION = ACTIVATETASK {{ TASK = P{i}; }};"
                   f" AUTOSTART = TRUE {{ ALARMTIME = 0; CYCLETIME = {cycle}; APPMODE = Main; }}; }};\n")
    oil = f'OIL_VERSION = "2.5"; CPU Demo {{ APPMODE Main; COUNTER C; {tasks}{alarms}}};\n'
    timing = {"version": 1, "classes": {"default": 1}, "services": {"default": 10}, "alarm": 10, "interrupt": 10, "ticks": {"C": 1}, "loops": loops}
    states = [[0, [[i, 0] if i in active else [] for i in range(count)], [], 0, 0]
              for size in range(count + 1) for active in itertools.combinations(range(count), size)]
    schedule = {"mode": "Main", "end": 16777216, "arrivals": [{"at": 0, "source": f"A{i}"} for i in range(count)]}
    return {"s.oil": oil.encode(), "s.elf": elf(words, entries, BASE), "s.json": json.dumps(timing).encode(), "k": json.dumps(states).encode(),
            "p": json.dumps(schedule).encode()}


def put(files, folder):
    for name, content in files.items():
        with open(os.path.join(folder, name), "wb") as out:
            out.write(content)


def answer(command, folder):
    return subprocess.run(command, cwd=folder, capture_output=True, check=True).stdout.decode()


def expected(program, count, folder):
    """What `demo` is to write, by the other commands over the files."""
    words = ["s.oil", "s.elf", "s.json"]
    seen = {}
    for line in answer([program, "replay", *words, "p"], folder).splitlines():
        name, _, cycles, ended = line.split()
        if ended == "ended":
            seen[name] = max(seen.get(name, 0), int(cycles))
    lines = [line.split() for line in answer([program, "all", *words, "k"], folder).splitlines()]
    return "".join(f"{name} bound {bound} seen {seen.get(name, 0)}\n" for name, bound in lines) + f"states {2 ** count}\n"


def main():
    given = [os.path.abspath(word) for word in words_of(__doc__, 2)]
    program = given[0] if given else os.path.join(ROOT, "crates/syswcet/out/syswcet")
    tool = given[1] if len(given) > 1 else os.path.join(ROOT, "crates/list_rows/out/list_rows")
    missing = [path for path in (program, tool) if not os.path.exists(path)]
    if missing:
        print(f"demo: {', '.join(missing)} missing: skipped")
        return 0
    compared = 0
    for seed, count in [(1, 1), (1, 3), (2, 2), (3, 4), (4, 5), (4294967295, 6), (0, 7), (9, 8)]:
        with tempfile.TemporaryDirectory() as folder:
            put(generated(seed, count), folder)
            assert answer([program, "demo", str(seed), str(count)], folder) == expected(program, count, folder), (seed, count)
            compared += 1
    print(f"{compared} generated systems: demo writes what all and replay write over files that are made here")
    print("seed   demo SEED 8, s   glpsol / demo   esolver / demo")
    for seed in (1, 2, 3):
        with tempfile.TemporaryDirectory() as folder:
            put(generated(seed, 8), folder)
            begun = spent()
            text = answer([program, "demo", str(seed), "8"], folder)
            took = spent() - begun
            bounds = [int(line.split()[2]) for line in text.splitlines()[:8]]
            times = {"glpsol": 0.0, "esolver": 0.0}
            for task, bound in enumerate(bounds):
                rows = json.loads(answer([tool, "s.oil", "s.elf", "s.json", f"P{task}", "k", "json"], folder))
                lp = os.path.join(folder, "rows.lp")
                with open(lp, "w") as out:
                    out.write(as_lp(rows))
                for peer in times:
                    if shutil.which(peer):
                        spends, value = by_glpsol(lp) if peer == "glpsol" else by_esolver(lp, folder)
                        assert value == bound, (peer, task, value, bound)
                        times[peer] += spends / 1000
            told = ["skipped" if not shutil.which(peer) else f"{spends / took:.1f}" for peer, spends in times.items()]
            print(f"{seed:<7}{took:<17.2f}{told[0]:<16}{told[1]}")
    return 0


if __name__ == "__main__":
    sys.exit(main())
