"""Runs the built program on a few commands with one call refused at a time.

    tools/refuse_calls

Each allocation, open, read and write of a command's run is refused once, and in a further run every read
and write moves one byte at most. A run in which memory was refused ends with status 10 or with the
command's own answer, one in which a file was refused with status 8, 10 or its own answer, one in which a
write was refused with 9; and what was written is a prefix of the report that belongs to the answer. The
status is 1 where a run ends otherwise.
"""
import os
import subprocess
import sys
import tempfile

from programs import ROOT, built

PROGRAM = os.path.join(ROOT, "crates", "syswcet", "out", "syswcet")
DEMO = [f"examples/demo/{name}" for name in ("s.oil", "s.elf", "s.json")]
COMMANDS = [
    ["check", "lone", "examples/lone/image", "examples/lone/cert.json"],
    ["bound", *DEMO, "T", "examples/demo/k"],
    ["show", "oil", "examples/demo/s.oil"],
    ["certify", *DEMO, "T", "examples/demo/k"],
    ["replay", *DEMO, "examples/demo/p"],
]
# the statuses that a run may end with besides that of its own answer
OTHERS = {"allocation": {10}, "open": {8, 10}, "read": {8, 10}, "write": {9}}


def run(words, shim, counted, refused):
    env = {"LD_PRELOAD": shim, "COUNTED": counted, "REFUSED": refused}
    done = subprocess.run([PROGRAM, *words], cwd=ROOT, env=env, capture_output=True, timeout=60)
    return done.returncode, done.stdout, done.stderr


def is_right(kind, words, found, own):
    status, text, error = found
    if error:
        return False
    if (status, text) == own[:2]:
        return kind != "write"
    if status not in OTHERS[kind]:
        return False
    reports = [own[1]] if status != 8 else [f"read {name}\n".encode() for name in words]
    return any(report.startswith(text) for report in reports) and (status != 8 or text in reports)


def main():
    built("refuse_calls", "syswcet")
    wrong = 0
    with tempfile.TemporaryDirectory() as folder:
        shim, counted = os.path.join(folder, "refuse_calls.so"), os.path.join(folder, "counted")
        source = os.path.join(ROOT, "tools", "refuse_calls.c")
        subprocess.run(["gcc", "-O1", "-shared", "-fPIC", source, "-o", shim, "-ldl"], check=True)
        for words in COMMANDS:
            own = run(words, shim, counted, "none 0")
            counts = dict(line.split() for line in open(counted))
            runs = [(kind, number) for kind, count in counts.items() for number in range(1, int(count) + 1)]
            bad = [(kind, number) for kind, number in runs
                   if not is_right(kind, words, run(words, shim, counted, f"{kind} {number}"), own)]
            if run(words, shim, counted, "short 0") != own:
                bad.append(("short", 0))
            wrong += len(bad)
            told = ", ".join(f"{count} {kind}s" for kind, count in counts.items())
            print(f"refuse_calls: {' '.join(words)}: {told}, each refused once; {len(bad)} end otherwise", *bad[:5])
    return 1 if wrong else 0


if __name__ == "__main__":
    sys.exit(main())
