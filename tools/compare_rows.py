#!/usr/bin/env python3
"""Holds the rows that list_rows writes against the lists that bench/rows keeps, entry for entry.

    tools/compare_rows [LIST_ROWS]

The kept lists of the systems in examples/ were made by another program. The program list_rows is built where it
is missing or older than a source. The status is 1 where one differs.
"""
import json
import os
import subprocess
import sys

from programs import ROOT, built

KEPT = {
    "demo": ("A", ("T", "H")),
    "loop": ("B", ("L", "T")),
    "four": ("C", ("Ctrl", "Msg", "Comm", "Log")),
}


def main():
    if len(sys.argv) > 2 or not all(map(os.path.exists, sys.argv[1:])):
        sys.exit(__doc__)
    program = os.path.abspath(sys.argv[1]) if len(sys.argv) > 1 else built("compare_rows", "list_rows")
    count, wrong = 0, 0
    for system, (name, tasks) in KEPT.items():
        for task, form in ((task, form) for task in tasks for form in ("", "_full")):
            path = os.path.join(ROOT, "bench/rows", f"{name}_{task}{form}.json")
            if not os.path.exists(path):
                continue
            words = [program, "s.oil", "s.elf", "s.json", task, "k", "json"] + (["full"] if form else [])
            done = subprocess.run(words, cwd=os.path.join(ROOT, "examples", system), capture_output=True, check=False)
            with open(path) as text:
                kept = json.load(text)
            found = json.loads(done.stdout) if done.returncode == 0 else None
            count += 1
            if not found or [found["costs"], found["rows"]] != [kept["costs"], kept["rows"]]:
                wrong += 1
                print(f"compare_rows: the rows {name}_{task}{form} of examples/{system} differ")
    print(f"compare_rows: {count} lists of rows, {wrong} differ")
    return 1 if wrong else 0


if __name__ == "__main__":
    sys.exit(main())
