"""Systems that the benchmarks make: ELF files, straight code, and tasks that alarms activate."""
import os
import struct
import sys

ROOT = os.path.dirname(os.path.dirname(os.path.abspath(__file__)))
NOP, RETURN = 0x00000013, 0x00008067
END = [0x00000513, 0x00200893, 0x00000073]
OIL = """OIL_VERSION = "2.5"; CPU Demo { APPMODE Main;
TASK T { PRIORITY = 1; AUTOSTART = TRUE { APPMODE = Main; }; }; };
"""
TIMES = '{"version":1,"classes":{"default":1},"services":{"default":10},"alarm":10,"interrupt":10%s}'


def words_of(usage, most):
    """The words of the command line, which are at most so many names of files; with others the script ends with its usage."""
    words = sys.argv[1:]
    if len(words) > most or any(word.startswith("-") for word in words):
        sys.exit(usage)
    return words


def elf(words, entries=(("Task_T", 0),), base=0x100):
    """An ELF32 file of RISC-V: one segment, which is the code, and symbols at places in it, in words."""
    code = b"".join(struct.pack("<I", word) for word in words)
    names, labels = b"\0", b"\0.text\0.symtab\0.strtab\0"
    symbols = bytes(16)
    for name, place in entries:
        symbols += struct.pack("<IIIBBH", len(names), base + 4 * place, 0, 0x12, 0, 1)
        names += name.encode() + b"\0"
    text = 84
    table = (text + len(code) + 15) // 16 * 16
    strings = table + len(symbols)
    headers = (strings + len(names) + len(labels) + 3) // 4 * 4
    ident = b"\x7fELF\1\1\1" + bytes(9)
    head = ident + struct.pack("<HHIIIIIHHHHHH", 2, 243, 1, base, 52, headers, 0, 52, 32, 1, 40, 5, 4)
    load = struct.pack("<IIIIIIII", 1, text, base, base, len(code), len(code), 5, 4)
    body = (head + load + code).ljust(table, b"\0") + symbols + names + labels
    sections = [
        (0,) * 10,
        (1, 1, 6, base, text, len(code), 0, 0, 4, 0),
        (len(".text") + 2, 2, 0, 0, table, len(symbols), 3, 1, 4, 16),
        (len(".text.symtab") + 3, 3, 0, 0, strings, len(names), 0, 0, 1, 0),
        (len(".text.symtab") + 3, 3, 0, 0, strings + len(names), len(labels), 0, 0, 1, 0),
    ]
    return body.ljust(headers, b"\0") + b"".join(struct.pack("<10I", *s) for s in sections)


def straight(count):
    """So many words of a task, the last three of which end it."""
    return [NOP] * (count - len(END)) + END


def alarmed(alarms, nodes):
    """A task T of so many nodes, and so many tasks, each of which an alarm activates: the files of the
    system, by name, with its closed list of all scheduler states."""
    tasks = "".join(f"TASK H{i} {{ PRIORITY = {i + 2}; }};\n" for i in range(alarms))
    sources = "".join(
        f"ALARM A{i} {{ COUNTER = C; ACTION = ACTIVATETASK {{ TASK = H{i}; }};"
        f" AUTOSTART = TRUE {{ ALARMTIME = 0; CYCLETIME = {1000 * (i + 1)}; APPMODE = Main; }}; }};\n"
        for i in range(alarms)
    )
    own = "TASK T { PRIORITY = 1; AUTOSTART = TRUE { APPMODE = Main; }; };\n"
    oil = f'OIL_VERSION = "2.5"; CPU Demo {{ APPMODE Main; COUNTER C {{ MINCYCLE = 1; }};\n{own}{tasks}{sources}}};\n'
    words, entries = straight(nodes), [("Task_T", 0)]
    for i in range(alarms):
        entries.append((f"Task_H{i}", len(words)))
        words += END
    states = []
    for number in range(2 ** (alarms + 1)):
        active = [f"[{i},0]" if number >> i & 1 else "[]" for i in range(alarms + 1)]
        states.append(f"[0,[{','.join(active)}],[],0,0]")
    return {
        "o": oil.encode(),
        "e": elf(words, entries),
        "t": (TIMES % ',"ticks":{"C":1000}').encode(),
        "k": f"[{','.join(states)}]".encode(),
    }
