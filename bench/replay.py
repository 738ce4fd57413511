#!/usr/bin/env python3
"""Times `replay` on the longest run that a schedule can play, beside QEMU's user mode.

    bench/replay.py [SYSWCET]

The task counts down in two nested loops, 16,775,168 instructions of one cycle each, and ends. The same
instructions are run by `qemu-riscv32` (Debian's qemu-user), with the system call that exits in place of
the service. Written are the seconds of the whole command (the least of three), steps a second, and the
ratio of the two times.
"""
import os
import shutil
import subprocess
import sys
import tempfile
import time

from systems import END, OIL, ROOT, elf, words_of

COUNT = [
    0x7FF00313,  # addi x6, x0, 2047
    0x000012B7,  # lui x5, 1
    0xFFF28293,  # addi x5, x5, -1
    0xFE029EE3,  # bne x5, x0, -4
    0xFFF30313,  # addi x6, x6, -1
    0xFE0318E3,  # bne x6, x0, -16
]
STEPS = 1 + 2047 * (1 + 2 * 4096 + 2)
EXIT = [0x00000513, 0x05D00893, 0x00000073]
TIMES = (
    '{"version":1,"classes":{"default":1},"services":{"default":1},"alarm":1,"interrupt":1,"loops":['
    '{"from":"0x108","to":"0x10c","bound":4096},{"from":"0x104","to":"0x114","bound":2047}]}'
)
PLAY = '{"mode":"Main","end":16777216,"arrivals":[]}'


def least(command, folder):
    best, text = None, ""
    for _ in range(3):
        begun = time.perf_counter()
        done = subprocess.run(command, cwd=folder, capture_output=True, check=False)
        took = time.perf_counter() - begun
        best = took if best is None else min(best, took)
        text = done.stdout.decode().strip()
    return best, text


def main():
    given = [os.path.abspath(word) for word in words_of(__doc__, 1)]
    program = given[0] if given else os.path.join(ROOT, "crates/syswcet/out/syswcet")
    if not os.path.exists(program):
        print(f"replay: {program} is missing: skipped")
        return 0
    with tempfile.TemporaryDirectory() as folder:
        files = (
            ("o", OIL.encode()),
            ("e", elf(COUNT + END)),
            ("t", TIMES.encode()),
            ("p", PLAY.encode()),
            ("q", elf(COUNT + EXIT, base=0x10054)),
        )
        for name, content in files:
            with open(os.path.join(folder, name), "wb") as out:
                out.write(content)
        os.chmod(os.path.join(folder, "q"), 0o755)
        took, text = least([program, "replay", "o", "e", "t", "p"], folder)
        print(f"replay  {took:.2f} s, {STEPS / took / 1e6:.1f} million steps a second: {text}")
        if not shutil.which("qemu-riscv32"):
            print("qemu-riscv32 is missing: skipped")
            return 0
        other, _ = least(["qemu-riscv32", "./q"], folder)
        print(f"qemu    {other:.2f} s; replay takes {took / other:.0f} times as long")
    return 0


if __name__ == "__main__":
    sys.exit(main())
