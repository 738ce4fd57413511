#!/usr/bin/env python3
"""Writes the tables of one system for the kernel, as C, to standard output.

    make_tables.py OIL ELF TIMING [DEVICES]

The OIL file says what there is, the symbols of the ELF file where contexts begin, and the timing file how long a tick
of a counter is and how far apart interrupts come. DEVICES is the address of the page of devices, 0x40000000 if it isn't
there. `./syswcet show code` judges the three files; this program reads what the kernel needs, and says where it can't
serve a system.
"""
from __future__ import annotations

import json
import os
import struct
import sys
from typing import NamedTuple

sys.path.insert(0, os.path.join(os.path.dirname(os.path.abspath(__file__)), "..", "..", "tools"))
from draw_trace import System, first_block, read_oil, values  # noqa: E402

PAGE = 4096
TICK = 100
READABLE, WRITABLE, EXECUTABLE = 2, 4, 8
STACKS = 0x7F000000
Block = list


class Unserved(Exception):
    """The system is none that this kernel serves; the text says why."""


class Segment(NamedTuple):
    address: int
    size: int
    rights: int
    data: bytes


class Program(NamedTuple):
    segments: list[Segment]
    symbols: dict[str, int]


class Page(NamedTuple):
    address: int
    rights: int
    data: bytes


def text_at(data: bytes, at: int) -> str:
    return data[at:data.index(b"\0", at)].decode("latin-1")


def read_program(data: bytes) -> Program:
    """The loaded segments and the symbols of an ELF32 file."""
    if data[:6] != b"\x7fELF\1\1":
        raise Unserved("the program is no ELF32 file of little endian")
    heads, parts = struct.unpack_from("<II", data, 28)
    head_size, head_count, part_size, part_count = struct.unpack_from("<HHHH", data, 42)
    segments = []
    for at in range(heads, heads + head_size * head_count, head_size):
        kind, offset, address, _, length, size, flags = struct.unpack_from("<7I", data, at)
        if kind == 1 and size:
            rights = READABLE | (WRITABLE if flags & 2 else 0) | (EXECUTABLE if flags & 1 else 0)
            segments.append(Segment(address, size, rights, data[offset:offset + length]))
    sections = [struct.unpack_from("<10I", data, at) for at in range(parts, parts + part_size * part_count, part_size)]
    symbols = {}
    for section in sections:
        if section[1] == 2:
            names = sections[section[6]][4]
            for at in range(section[4], section[4] + section[5], 16):
                name, value = struct.unpack_from("<II", data, at)
                symbols[text_at(data, names + name)] = value
    return Program(segments, symbols)


def pages_of(program: Program) -> list[Page]:
    """The program's pages, each with the bytes that the file has of it."""
    pages: dict[int, tuple[int, bytearray]] = {}
    for segment in program.segments:
        for address in range(segment.address & -PAGE, segment.address + segment.size, PAGE):
            rights, held = pages.get(address, (segment.rights, bytearray(PAGE)))
            if EXECUTABLE & (rights | segment.rights) and WRITABLE & (rights | segment.rights):
                raise Unserved(f"code and memory that is written share the page at {address:#x}")
            begin, end = max(address, segment.address), min(address + PAGE, segment.address + len(segment.data))
            if begin < end:
                held[begin - address:end - address] = segment.data[begin - segment.address:end - segment.address]
            pages[address] = (rights | segment.rights, held)
    return [Page(address, rights, bytes(held).rstrip(b"\0")) for address, (rights, held) in sorted(pages.items())]


class Tables:
    """The tables of a system whose program and timing are known."""

    def __init__(self, objects: Block, program: Program, timing: dict) -> None:
        self.system = System(objects)
        self.alarms = {name: block for kind, name, block in objects if kind == "ALARM"}
        self.resources = {name: values(block, "RESOURCE") for kind, name, block in objects if kind == "TASK"}
        self.inner = [name for kind, name, block in objects
                      if kind == "RESOURCE" and values(block, "RESOURCEPROPERTY") == ["INTERNAL"]]
        self.symbols, self.pages = program.symbols, pages_of(program)
        self.ticks, self.distances = timing.get("ticks", {}), timing.get("distances", {})
        order = sorted(self.system.priority.values())
        self.rank = {priority: place for place, priority in enumerate(order, 1)}
        self.rank[0] = 0

    def entry(self, kind: str, name: str) -> int:
        symbol = f"{kind}_{name}"
        if symbol not in self.symbols:
            raise Unserved(f"the program has no symbol {symbol}")
        return self.symbols[symbol]

    def stack(self, name: str) -> int:
        """The end of the context's stack: the symbol `Stack_NAME`, or the end of a page with none beside it."""
        if f"Stack_{name}" in self.symbols:
            return self.symbols[f"Stack_{name}"]
        address = STACKS + 2 * PAGE * sum(page.address >= STACKS for page in self.pages)
        self.pages.append(Page(address, READABLE | WRITABLE, b""))
        return address + PAGE

    def modes(self, names: list[str]) -> int:
        return sum(1 << self.system.modes.index(name) for name in names)

    def task(self, name: str) -> str:
        own = self.rank[self.system.priority[name]]
        inner = self.system.inner[name]
        activated = own << 8 | own
        dispatched = activated if inner is None else max(own, self.rank[inner]) << 8 | 1 << 7 | own
        allowed = [r for r in self.resources[name] if r not in self.inner] + ["RES_SCHEDULER"]
        bits = sum(1 << place for place, r in enumerate(self.system.resources) if r in allowed)
        return (f"{{{self.entry('Task', name):#x}, {self.stack(name):#x}, {activated:#x}, {dispatched:#x}, {bits:#x}, "
                f"{self.modes(self.system.starts[name]):#x}}}, /* {name} */")

    def isr(self, name: str) -> str:
        return f"{{{self.entry('Isr', name):#x}, {self.stack(name):#x}, {self.distances[name]}}}, /* {name} */"

    def alarm(self, name: str) -> str:
        block = self.alarms[name]
        tick = self.ticks.get(values(block, "COUNTER")[0], 0)
        if tick % TICK or not tick:
            raise Unserved(f"a tick of the counter of {name} isn't a multiple of {TICK} cycles, a tick of QEMU's timer")
        is_set, start = first_block(block, "AUTOSTART")
        times = [int((values(start, key) or ["0"])[0], 0) * tick for key in ("ALARMTIME", "CYCLETIME")]
        if max(times) >= 1 << 31:
            raise Unserved(f"{name} has a time of 2^31 cycles or more")
        modes = values(start, "APPMODE") if is_set == "TRUE" else []
        task = self.system.tasks.index(self.system.alarms[name])
        return f"{{{task}, {times[0]}, {times[1]}, {self.modes(modes):#x}}}, /* {name} */"

    def page(self, place: int, page: Page) -> str:
        return f"{{{page.address:#x}, {page.rights}, {f'bytes_{place}' if page.data else '0'}, {len(page.data)}}},"

    def text(self, devices: int) -> str:
        system = self.system
        tables = {
            "struct task_table task_tables": [self.task(name) for name in system.tasks],
            "struct isr_table isr_tables": [self.isr(name) for name in system.isrs],
            "struct alarm_table alarm_tables": [self.alarm(name) for name in self.alarms],
            "unsigned ceilings": [f"{self.rank[system.ceiling[name]]}, /* {name} */" for name in system.resources],
        }
        counts = {"task": len(system.tasks), "isr": len(system.isrs), "alarm": len(self.alarms),
                  "resource": len(system.resources), "page": len(self.pages)}
        lines = ['#include "kernel.h"', ""]
        lines += [f"const unsigned {name}_count = {count};" for name, count in counts.items()]
        lines += [f"const unsigned devices_address = {devices:#x};", ""]
        for head, rows in tables.items():
            lines += [f"const {head}[] = {{", *(f"    {row}" for row in rows or ["{0},"]), "};", ""]
        for place, page in enumerate(self.pages):
            if page.data:
                lines.append(f"static const unsigned char bytes_{place}[] = {{")
                parts = [page.data[at:at + 24] for at in range(0, len(page.data), 24)]
                lines += [*("    " + ", ".join(map(str, part)) + "," for part in parts), "};"]
        lines += ["", "const struct page_table pages[] = {"]
        lines += [f"    {self.page(place, page)}" for place, page in enumerate(self.pages)] + ["};", ""]
        return "\n".join(lines)


def main() -> int:
    words = sys.argv[1:]
    if len(words) not in (3, 4):
        print(__doc__, file=sys.stderr)
        return 2
    try:
        with open(words[0], encoding="latin-1") as oil, open(words[1], "rb") as elf, open(words[2], "rb") as timing:
            tables = Tables(read_oil(oil.read()), read_program(elf.read()), json.load(timing))
        print(tables.text(int(words[3], 0) if len(words) == 4 else 0x40000000), end="")
    except Unserved as fault:
        print(f"make_tables: {fault}", file=sys.stderr)
        return 1
    except OSError as fault:
        print(f"make_tables: {fault.filename}: {fault.strerror}", file=sys.stderr)
        return 1
    except (AttributeError, IndexError, KeyError, TypeError, ValueError, struct.error):
        print("make_tables: one of the files isn't what its place is for; `./syswcet show code` says what is wrong",
              file=sys.stderr)
        return 1
    return 0


if __name__ == "__main__":
    sys.exit(main())
