#!/usr/bin/env python3
"""Runs the program on cases, each with its words, files, status and text.

    tools/run_cases [CASES.jsonl ..]

A case is a JSON object on a line of its own: `words`, `files` (a name and its bytes as Latin-1
characters), `status` and `stdout` (Latin-1 too). Without arguments, the cases in tools/cases.jsonl
are taken. The program is ./syswcet, which is built where it is missing. The status is 1 where a
case comes out otherwise; nothing may be written to standard error.
"""
import json
import os
import subprocess
import sys
import tempfile

from programs import ROOT, built


def differs(program, case):
    with tempfile.TemporaryDirectory() as folder:
        for name, text in case["files"].items():
            with open(os.path.join(folder, name), "wb") as out:
                out.write(text.encode("latin-1"))
        done = subprocess.run([program, *case["words"]], cwd=folder, capture_output=True, check=False)
    found = (done.returncode, done.stdout.decode("latin-1"), done.stderr)
    return found if found != (case["status"], case["stdout"], b"") else None


def main():
    paths = sys.argv[1:] or [os.path.join(ROOT, "tools", "cases.jsonl")]
    if not all(map(os.path.isfile, paths)):
        sys.exit(__doc__)
    program = built("run_cases", "syswcet")
    count, wrong = 0, 0
    for path in paths:
        with open(path) as lines:
            for number, line in enumerate(lines, 1):
                case = json.loads(line)
                count += 1
                found = differs(program, case)
                if found is not None:
                    wrong += 1
                    print(f"{path} line {number}: {found}, not {case['status']}, {case['stdout']!r}")
    print(f"run_cases: {count} cases, {wrong} come out otherwise")
    return 1 if wrong else 0


if __name__ == "__main__":
    sys.exit(main())
