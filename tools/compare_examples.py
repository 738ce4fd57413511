#!/usr/bin/env python3
"""Types the commands of a guide, and holds what they print against what the guide prints.

    tools/compare_examples [--write] [GUIDE.md]

A command stands behind `    $ `, and what it prints on the indented lines below it, up to the next command or text. A last
line `..` stands for any further lines; `..` at the end of a line for the rest of it. They run in the repository's
top folder, in order, with a folder of their own in place of /tmp. A command of `make`, and those that use what it makes, are
left out, with a word, where the compiler is missing or is another release than the one that made the kept files. With --write
the guide gets what they print. The status is 1 where something differs.
"""
import os
import shutil
import subprocess
import sys
import tempfile

from programs import ROOT, built

COMPILER, RELEASE = "riscv64-unknown-elf-gcc", "12.2.0"
PROMPT, INDENT = "    $ ", "    "


def why_not_made():
    """Why nothing is compiled here, or None."""
    for tool in ("make", COMPILER):
        if not shutil.which(tool):
            return f"{tool} is missing"
    found = subprocess.run([COMPILER, "-dumpversion"], capture_output=True, text=True, check=False).stdout.strip()
    return None if found == RELEASE else f"{COMPILER} is {found}, the kept programs are by {RELEASE}"


def steps(lines):
    """The commands, each with the place of its first printed line and the place behind its last one."""
    found = []
    for place, line in enumerate(lines):
        if line.startswith(PROMPT):
            end = place + 1
            while end < len(lines) and lines[end].startswith(INDENT) and not lines[end].startswith(PROMPT):
                end += 1
            found.append((line[len(PROMPT):], place + 1, end))
    return found


def is_as_told(told, printed):
    if told and told[-1] == "..":
        told = told[:-1]
        printed = printed[:len(told)]
    if len(told) != len(printed):
        return False
    return all(
        line.startswith(want[:-2]) if want.endswith("..") else line == want for want, line in zip(told, printed)
    )


def short(told, printed):
    """What is printed, in the form that the guide has it."""
    if told and told[-1] == "..":
        printed = printed[:len(told) - 1] + [".."]
    return [line if len(line) <= 120 else line[:110] + ".." for line in printed]


def main():
    writes = "--write" in sys.argv
    paths = [word for word in sys.argv[1:] if word != "--write"] or [os.path.join(ROOT, "docs", "GUIDE.md")]
    if len(paths) > 1 or not os.path.isfile(paths[0]):
        sys.exit(__doc__)
    built("compare_examples", "syswcet")
    with tempfile.TemporaryDirectory() as folder:
        return compared(paths[0], writes, folder)


def compared(path, writes, folder):
    """Types the commands of the guide, whose files in /tmp go into the folder, and gives the status."""
    with open(path, encoding="utf-8") as text:
        lines = text.read().split("\n")
    missing = why_not_made()
    if missing:
        print(f"compare_examples: {missing}: the examples aren't rebuilt")
    made, wrong, parts, copied = set(), 0, [], 0
    found = steps(lines)
    for command, begin, end in found:
        parts += lines[copied:begin]
        copied = end
        told = [line[len(INDENT):] for line in lines[begin:end]]
        words = command.split()
        if missing and (words[0] == "make" or made.intersection(words)):
            made.update(word.split("=", 1)[1] for word in words if word.startswith("PROGRAM="))
            parts += lines[begin:end]
            continue
        typed = command.replace("/tmp/", folder + "/")
        done = subprocess.run(["bash", "-c", typed], cwd=ROOT, capture_output=True, text=True, check=False)
        printed = done.stdout.splitlines()
        if not writes and not is_as_told(told, printed):
            wrong += 1
            print(f"compare_examples: {command}\n  is to print {told}\n  and printed {printed} {done.stderr}")
        parts += [INDENT + line for line in short(told, printed)]
    if writes:
        with open(path, "w", encoding="utf-8") as out:
            out.write("\n".join(parts + lines[copied:]))
    print(f"compare_examples: {len(found)} commands, {wrong} print something else")
    return 1 if wrong else 0


if __name__ == "__main__":
    sys.exit(main())
