#!/usr/bin/env python3
"""Times `show code` on systems of one task whose code grows.

    bench/code.py [SYSWCET]

Three shapes: straight code; a chain of functions that each call the next one twice, so that the
strings of open calls multiply; and the same chain, 16 deep, which has more than 65,535 nodes and
ends with a refusal. For each the number of nodes, the time of the whole command (the least of
three) and its greatest memory are written.
"""
import os
import resource
import subprocess
import sys
import tempfile
import time

from systems import END, OIL, RETURN, ROOT, TIMES, elf, straight, words_of


def call(place, target):
    """The word of `jal ra, target` at the place, both in words."""
    offset = 4 * (target - place)
    return (
        (offset >> 20 & 1) << 31
        | (offset >> 1 & 0x3FF) << 21
        | (offset >> 11 & 1) << 20
        | (offset >> 12 & 0xFF) << 12
        | 0xEF
    )


def calls(depth):
    """A task that calls a function, which calls the next one twice, and so on so many deep."""
    words = [call(0, 4)] + END
    for level in range(depth):
        place = len(words)
        last = level + 1 == depth
        words += [RETURN] if last else [call(place, place + 3), call(place + 1, place + 3), RETURN]
    return words


def run(program, words):
    with tempfile.TemporaryDirectory() as folder:
        for name, content in (("o", OIL.encode()), ("e", elf(words)), ("t", (TIMES % "").encode())):
            with open(os.path.join(folder, name), "wb") as out:
                out.write(content)
        best, text = None, ""
        for _ in range(3):
            begun = time.perf_counter()
            done = subprocess.run(
                [program, "show", "code", "o", "e", "t"], cwd=folder, capture_output=True, check=False
            )
            took = time.perf_counter() - begun
            best = took if best is None else min(best, took)
            text = done.stdout.decode().strip()
    return best, text


def main():
    given = [os.path.abspath(word) for word in words_of(__doc__, 1)]
    program = given[0] if given else os.path.join(ROOT, "crates/syswcet/out/syswcet")
    if not os.path.exists(program):
        print(f"code: {program} is missing: skipped")
        return 0
    shapes = [(f"straight, {n} words", straight(n)) for n in (1000, 10000, 60000)]
    shapes += [(f"calls {n} deep", calls(n)) for n in (8, 11, 14, 16)]
    for name, words in shapes:
        took, text = run(program, words)
        print(f"{name:24} {took * 1000:8.0f} ms   {text}")
    most = resource.getrusage(resource.RUSAGE_CHILDREN).ru_maxrss
    print(f"greatest memory of a run: {most // 1024} MiB")
    return 0


if __name__ == "__main__":
    sys.exit(main())
