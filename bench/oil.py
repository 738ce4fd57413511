#!/usr/bin/env python3
"""Times `show oil` on OIL files of many objects.

    bench/oil.py [PROGRAM]

PROGRAM is the built `syswcet`, by default crates/syswcet/out/syswcet. Each file has one APPMODE, one TASK
and so many OS objects, each with a name of its own; the last file gives its last object the name of its
first, which makes it a fault. Printed are the bytes of the file, the status and the milliseconds of the run.
"""
import os
import subprocess
import sys
import tempfile
import time

from systems import ROOT, words_of


def text_of(names):
    objects = "".join(f"OS {name};" for name in names)
    return f'OIL_VERSION="2.5";CPU C{{APPMODE M;TASK T{{PRIORITY=1;}};{objects}}};'


def main():
    given = [os.path.abspath(word) for word in words_of(__doc__, 1)]
    program = given[0] if given else os.path.join(ROOT, "crates/syswcet/out/syswcet")
    if not os.path.exists(program):
        print(f"oil: {program} is missing: skipped")
        return 0
    cases = [(count, [f"o{i:05}" for i in range(count)]) for count in (1_000, 10_000, 100_000)]
    cases.append(("100000, the last as the first", cases[-1][1][:-1] + ["o00000"]))
    with tempfile.TemporaryDirectory() as folder:
        path = os.path.join(folder, "many.oil")
        for told, names in cases:
            with open(path, "w") as out:
                size = out.write(text_of(names))
            start = time.perf_counter()
            run = subprocess.run([program, "show", "oil", path], stdout=subprocess.DEVNULL, check=False)
            ms = (time.perf_counter() - start) * 1000
            print(f"{told} OS objects, {size} bytes: status {run.returncode}, {ms:.0f} ms")
    return 0


if __name__ == "__main__":
    sys.exit(main())
