"""What draft reads of a program: its code, its symbols and what LOOP_BOUND left (examples/osek/flow.h), from an ELF file; and
its OIL file's names. Nothing rests on these readers: the analyser reads the same files with its own."""
import re
import shutil
import struct
import subprocess
from dataclasses import dataclass, field

MARKS = ".syswcet.loops"


class Fault(Exception):
    """What is wrong with a file, in words that name it."""


@dataclass
class Program:
    path: str
    words: dict[int, int] = field(default_factory=dict)
    symbols: dict[str, int] = field(default_factory=dict)
    functions: list[tuple[int, str]] = field(default_factory=list)
    # the marks in their order: the address at which a loop's body begins, how often it begins at most, and which one of its source it is
    marks: list[tuple[int, int, int]] = field(default_factory=list)

    def function_of(self, address):
        """The name of the function that has the address."""
        name = "?"
        for start, candidate in self.functions:
            if start > address:
                break
            name = candidate
        return name


def read_program(path):
    try:
        with open(path, "rb") as file:
            data = file.read()
    except OSError as error:
        raise Fault(f"{path}: {error.strerror}") from error
    if data[:6] != b"\x7fELF\x01\x01" or len(data) < 52 or struct.unpack_from("<HH", data, 16) != (2, 243):
        raise Fault(f"{path}: no 32-bit executable file for RISC-V")
    try:
        return program_in(path, data)
    except (struct.error, IndexError, UnicodeDecodeError, ValueError) as error:
        raise Fault(f"{path}: a header, section or name points out of the file") from error


def program_in(path, data):
    program = Program(path)
    (start,), (size, count, names_at) = struct.unpack_from("<I", data, 32), struct.unpack_from("<HHH", data, 46)
    sections = [struct.unpack_from("<10I", data, start + place * size) for place in range(count)]

    def text(section, offset):
        begin = section[4] + offset
        return data[begin:data.index(b"\0", begin)].decode()

    for section in sections:
        name, kind, flags, address, offset, length = section[:6]
        if kind != 8 and offset + length > len(data):
            raise ValueError
        # code is what is allocated and executable and can't be written
        if kind == 1 and flags & 7 == 6:
            program.words.update(zip(range(address, address + length - 3, 4),
                                     (word for word, in struct.iter_unpack("<I", data[offset:offset + length // 4 * 4]))))
        if kind == 1 and text(sections[names_at], name) == MARKS:
            if length % 12:
                raise Fault(f"{path}: the section {MARKS} isn't three words for each LOOP_BOUND")
            program.marks += list(struct.iter_unpack("<3I", data[offset:offset + length]))
    tables = [section for section in sections if section[1] == 2]
    if not tables:
        raise Fault(f"{path}: no symbol table; don't strip it")
    for place in range(tables[0][5] // 16):
        name, value, _, info, _, where = struct.unpack_from("<IIIBBH", data, tables[0][4] + 16 * place)
        if where and name:
            spelled = text(sections[tables[0][6]], name)
            program.symbols.setdefault(spelled, value)
            if info & 15 == 2:
                program.functions.append((value, spelled))
    program.functions.sort()
    for address, bound, _ in program.marks:
        if address % 4 or bound > 1 << 20:
            raise Fault(f"{path}: LOOP_BOUND({bound}) at 0x{address:x}: bounds are up to {1 << 20}, of words of code")
    return program


# ---- Source lines

READERS = ("riscv64-unknown-elf-addr2line", "llvm-addr2line", "llvm-addr2line-14", "riscv64-linux-gnu-addr2line", "addr2line")


def lines_of(path, addresses):
    """For each address the places in the source, innermost first, as (function, file, line); none where the file has no lines
    or no tool reads them."""
    wanted = sorted(set(addresses))
    for reader in READERS:
        if wanted and shutil.which(reader):
            done = subprocess.run([reader, "-a", "-f", "-i", "-e", path, *(f"0x{address:x}" for address in wanted)],
                                  capture_output=True, text=True, check=False)
            found = places_in(done.stdout)
            if done.returncode == 0 and any(found.values()):
                return found
    return {}


def places_in(text):
    found, here = {}, []
    lines = text.splitlines()
    at = 0
    while at < len(lines):
        if lines[at].startswith("0x"):
            here = found.setdefault(int(lines[at], 16), [])
            at += 1
            continue
        match = re.match(r"(.*):(\d+)", lines[at + 1]) if at + 1 < len(lines) else None
        if match and match[1] != "??" and match[2] != "0":
            here.append((lines[at], re.sub(r"^(\./)+", "", match[1]), int(match[2])))
        at += 2
    return found


# ---- OIL

TOKEN = re.compile(r'(?P<skip>\s+|//[^\n]*|/\*.*?\*/)|(?P<text>"[^"]*")|(?P<word>[A-Za-z_][A-Za-z0-9_]*|[-+]?[0-9][0-9A-Za-z_]*|[][{}=;:,.])', re.S)


def read_oil(path):
    """The names of the OIL file's objects by kind, in their order."""
    try:
        with open(path, encoding="utf-8", errors="replace") as file:
            text = file.read()
    except OSError as error:
        raise Fault(f"{path}: {error.strerror}") from error
    tokens, at = [], 0
    while at < len(text):
        match = TOKEN.match(text, at)
        if not match:
            raise Fault(f"{path}, line {text.count(chr(10), 0, at) + 1}: no token of OIL")
        if not match["skip"]:
            tokens.append((match.group(), text.count("\n", 0, at) + 1))
        at = match.end()
    return objects_in(path, tokens)


def objects_in(path, tokens):
    found, depth, is_cpu, begins = {}, 0, False, True
    for (word, line), (behind, _) in zip(tokens, tokens[1:] + [("", 0)]):
        if depth == 0 and begins:
            is_cpu = word == "CPU"
        if depth == 1 and is_cpu and begins and word.isidentifier():
            found.setdefault(word, []).append(behind)
        begins = word in ("{", "}", ";")
        depth += {"{": 1, "}": -1}.get(word, 0)
        if depth < 0:
            raise Fault(f"{path}, line {line}: a }} with no block")
    if depth or "TASK" not in found:
        line = tokens[-1][1] if tokens else 1
        raise Fault(f"{path}, line {line}: " + ("a block has no }" if depth else "no TASK in a CPU"))
    return found
