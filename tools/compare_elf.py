"""The two halves of compare_elf: `sources DIR` writes C programs and how they are linked, and
`compare DIR` holds what objdump, nm and tool_code read against each other."""

import re
import sys
from pathlib import Path

LINK = """
ENTRY(_start)
SECTIONS
{
  . = 0x80000000;
  .text : { *(.text.start) *(.text*) }
  .rodata : { *(.rodata*) *(.srodata*) }
  . = 0x80100000;
  .data : { *(.data*) *(.sdata*) }
  .bss : { *(.bss*) *(.sbss*) *(COMMON) }
  .extra 0x90000000 : { *(.extra*) }
}
"""

LOOPS = """
int table[64] = {3, 1, 4, 1, 5};
int zeros[256];
static int total(const int *from, int n) { int s = 0; for (int i = 0; i < n; i++) s += from[i] * i; return s; }
int divided(int a, int b) { return b ? a / b + a % b : 0; }
void _start(void) { zeros[3] = total(table, 64) + divided(table[2], table[4]); for (;;) ; }
"""

CALLS = """
typedef unsigned int word;
static word state = 1;
word next(void) { state = state * 1664525u + 1013904223u; return state; }
word depth(word n) { return n < 2 ? n : depth(n - 1) + depth(n - 2); }
__attribute__((section(".extra"))) word far_away(word n) { return depth(n) ^ next(); }
const char text[] = "behind the code";
void Task_T(void) { far_away(7); __asm__ volatile("li a7, 2; ecall"); }
void Task_H(void) { next(); __asm__ volatile("li a7, 2; ecall"); }
void _start(void) { Task_T(); Task_H(); for (;;) ; }
"""


def write(folder):
    (folder / "link.ld").write_text(LINK)
    (folder / "loops.c").write_text(LOOPS)
    (folder / "calls.c").write_text(CALLS)


def words_of_objdump(path):
    line = re.compile(r"^\s*([0-9a-f]+):\s+([0-9a-f]{8})\s")
    found = {}
    for text in path.open():
        match = line.match(text)
        if match:
            found[int(match[1], 16)] = int(match[2], 16)
    return found


def symbols_of_nm(path):
    """The first value of each defined name, in the order of the table."""
    found = {}
    for text in path.open():
        parts = text.split()
        if len(parts) == 3:
            found.setdefault(parts[2], int(parts[0], 16))
    return found


def ours(path):
    words, symbols = {}, {}
    for text in path.open():
        first, second = text.split()
        if re.fullmatch("[0-9a-f]{8}", second) and first != "-" and second not in symbols and not symbols:
            words[int(first, 16)] = int(second, 16)
        else:
            symbols[second] = None if first == "-" else int(first, 16)
    return words, symbols


def compare(folder):
    bad = 0
    for file in sorted(folder.glob("*.elf")):
        words, symbols = ours(file.with_name(file.name + ".ours"))
        missing = symbols.pop("no_such_symbol", 0)
        same_words = words == words_of_objdump(file.with_name(file.name + ".objdump"))
        same_symbols = symbols == symbols_of_nm(file.with_name(file.name + ".nm"))
        if not (words and symbols and same_words and same_symbols and missing is None):
            bad += 1
            print(f"compare_elf: {file.name} is read otherwise: words {same_words}, symbols {same_symbols}")
        else:
            print(f"compare_elf: {file.name}: {len(words)} words, {len(symbols)} symbols")
    stripped = (folder / "stripped.ours").read_text().strip()
    if stripped != "NoSymbols":
        bad += 1
        print(f"compare_elf: a file without symbols gives {stripped}")
    print("compare_elf: the same" if not bad else f"compare_elf: {bad} differ")
    sys.exit(1 if bad else 0)


if __name__ == "__main__":
    {"sources": write, "compare": compare}[sys.argv[1]](Path(sys.argv[2]))
