"""Makes a timing file (docs/FORMATS.md) for a compiled program, on standard output.

    tools/draft OIL ELF [--core NAME] [--map FILE] [--old TIMING [--old-elf ELF]]

Loops are found in the code. The bound of each is what LOOP_BOUND says in the source (examples/osek/flow.h), else what
`syswcet loops` tells of the code alone, where that program is there, else that of the old timing, where the same function had
a loop of the same code on the same line of the old program. A loop without a bound is left out, and named on standard error.

Costs of instructions are those of a core (share/cores/NAME.json, or a file), else the old ones. What only the user knows is
kept from the old timing, or stands as a text in its place, which syswcet refuses (`timing Shape`) until a number is there.

A map is a JSON list of {"from", "to", "fetch", "load", "store"}: addresses as in a timing file, and the cycles that a fetch, a
load or a store there takes beyond the instruction's cost, 0 where the key is missing. They become `extra`. A load or a store
whose address the code around it doesn't tell gets the most that any of the ranges has.

The status is 0, 1 where a loop or an extra is left out, or 3 where an input has a fault; then nothing is printed.
"""
import json
import os
import re
import subprocess
import sys
import tempfile
from collections import defaultdict

from code_loops import graphs_of, loops_of, signed
from program_code import Fault, lines_of, read_oil, read_program
from programs import found, shared

CLASSES = ("alu", "mul", "div", "load", "store", "branch", "branch_taken", "jump", "fence")
GREATEST = (1 << 31) - 1
MOST_EXTRAS = MOST_LOOPS = 256


def tell(text):
    print(f"draft: {text}", file=sys.stderr)


# ---- Words and files

def words():
    names, options, rest = [], {}, sys.argv[1:]
    while rest:
        word = rest.pop(0)
        if word in ("--core", "--map", "--old", "--old-elf"):
            if not rest or word in options:
                sys.exit(usage())
            options[word] = rest.pop(0)
        elif word.startswith("--"):
            sys.exit(usage())
        else:
            names.append(word)
    if len(names) != 2 or ("--old-elf" in options and "--old" not in options):
        sys.exit(usage())
    return names[0], names[1], options


def usage():
    print(__doc__, file=sys.stderr, end="")
    return 3


def read_json(path):
    try:
        with open(path, encoding="utf-8") as file:
            return json.load(file)
    except OSError as error:
        raise Fault(f"{path}: {error.strerror}") from error
    except json.JSONDecodeError as error:
        raise Fault(f"{path}, line {error.lineno}: {error.msg}") from error
    except (UnicodeDecodeError, RecursionError) as error:
        raise Fault(f"{path}: no JSON value: {error}") from error


def is_count(value, most=1 << 20):
    return isinstance(value, int) and not isinstance(value, bool) and 0 <= value <= most


def address_of(path, value):
    if not isinstance(value, str) or not re.fullmatch(r"0x[0-9a-fA-F]{1,8}", value):
        raise Fault(f"{path}: {json.dumps(value)} is no address such as \"0x1000\"")
    return int(value, 16)


def read_ranges(path, listed, keys):
    """Ranges, each as (from, to, numbers)."""
    ranges = []
    if not isinstance(listed, list):
        raise Fault(f"{path}: ranges are a list")
    for each in listed:
        if not isinstance(each, dict) or not set(each) <= {"from", "to", *keys} or not all(is_count(each.get(key, 0)) for key in keys):
            raise Fault(f"{path}: {json.dumps(each)[:80]} isn't a range with {', '.join(keys)}")
        begin, end = address_of(path, each.get("from")), address_of(path, each.get("to"))
        if begin > end:
            raise Fault(f"{path}: {each['from']} is above {each['to']}")
        ranges.append((begin, end, {key: each.get(key, 0) for key in keys}))
    return ranges


def read_old(path):
    old = read_json(path)
    if not isinstance(old, dict) or old.get("version") not in (1, 2):
        raise Fault(f"{path}: no timing file of version 1 or 2")
    for key in ("classes", "services", "ticks", "distances"):
        if not isinstance(old.get(key, {}), dict):
            raise Fault(f"{path}: {key} isn't an object")
    return old


def read_core(name):
    path = name if "/" in name or name.endswith(".json") else shared("cores", name + ".json")
    core = read_json(path)
    costs = core.get("classes") if isinstance(core, dict) else None
    if not isinstance(costs, dict) or "default" not in costs or not set(costs) <= {"default", *CLASSES} or not all(
            is_count(cost) and cost for cost in costs.values()):
        raise Fault(f"{path}: no core with the costs of its classes")
    return costs


# ---- Loops

def told_by_code(oil, elf, loops, system):
    """Bounds that `syswcet loops` finds in the code, by range."""
    program, lister = found("syswcet"), found("list_states")
    if not program or not lister:
        tell("syswcet or list_states isn't there: no bound is looked for in the code")
        return {}
    with open(oil, encoding="utf-8", errors="replace") as file:
        cycles = [int(text, 0) for text in re.findall(r"(?:CYCLETIME|ALARMTIME)\s*=\s*(0[xX][0-9a-fA-F]+|[1-9][0-9]*|0)", file.read())]
    # what loops tells is of the code alone: no cost and no distance has to be true
    trial = {"version": 1, "classes": {"default": 1}, "services": {"default": 1}, "alarm": 1, "interrupt": 1,
             "ticks": {name: max(1, GREATEST // max([1, *cycles])) for name in system.get("COUNTER", [])},
             "distances": {name: GREATEST for name in system.get("ISR", [])},
             "loops": [range_text(loop.begin, loop.end, "bound", 1 if loop.bound is None else loop.bound) for loop in loops]}
    with tempfile.TemporaryDirectory() as folder:
        timing, states = os.path.join(folder, "timing"), os.path.join(folder, "states")
        with open(timing, "w", encoding="utf-8") as out:
            json.dump(trial, out)
        listed = answer([lister, oil, elf, timing])
        if not listed:
            return {}
        with open(states, "w", encoding="utf-8") as out:
            out.write(listed)
        text = answer([program, "loops", oil, elf, timing, system["TASK"][0], states]) or ""
    lines = re.findall(r"^([0-9a-f]{8}) ([0-9a-f]{8}) declared \d+ found (\d+)$", text, re.M)
    return {(int(begin, 16), int(end, 16)): int(bound) for begin, end, bound in lines}


def answer(typed):
    try:
        done = subprocess.run(typed, capture_output=True, text=True, check=False, timeout=120)
    except subprocess.TimeoutExpired:
        tell(f"{os.path.basename(typed[0])} takes too long: no bound is taken from the code")
        return None
    if done.returncode:
        said = (done.stdout + done.stderr).strip().split("\n")[0]
        tell(f"{os.path.basename(typed[0])} says {said[:200]!r}, status {done.returncode}: no bound is taken from the code")
        return None
    return done.stdout


def shape(program, begin, end):
    """The code of a range without its constants: what an instruction does with which registers, and where a branch leads."""
    found_words = []
    for address in range(begin, end + 4, 4):
        word = program.words.get(address, 0)
        kind = word & 0x7f
        found_words.append(word if kind in (0x33, 0x63) else word & {0x37: 0xfff, 0x17: 0xfff, 0x6f: 0xfff}.get(kind, 0xfffff))
    return tuple(found_words)


def places_of(program, ranges):
    """The ranges by their function, line and code."""
    lines = lines_of(program.path, [begin for begin, _ in ranges])
    by_place = defaultdict(list)
    for begin, end in ranges:
        source = [(file, line) for _, file, line in lines.get(begin, [])]
        by_place[program.function_of(begin), tuple(source), shape(program, begin, end)].append((begin, end))
    return by_place


def kept_loops(program, ranges, old, old_program):
    """The old bounds of the ranges whose function, line and code an old loop had."""
    listed = read_ranges(old[0], old[1].get("loops", []), ["bound"])
    bounds = {(begin, end): numbers["bound"] for begin, end, numbers in listed}
    before, now = places_of(old_program, list(bounds)), places_of(program, ranges)
    kept = {}
    for place, here in now.items():
        if here and before.get(place):
            most = max(bounds[each] for each in before[place])
            kept.update({each: most for each in here})
    return kept


def kept_extras(program, old, old_program):
    """The old extras, moved with functions whose code is the same; and those that have no place."""
    kept, lost = [], []
    for begin, end, numbers in read_ranges(old[0], old[1].get("extra", []), ["cycles"]):
        moved = moved_range(program, old_program, begin, end) if old_program else None
        if moved:
            kept.append(range_text(*moved, "cycles", numbers["cycles"]))
        else:
            lost.append(f"0x{begin:x}")
    return kept, lost


def moved_range(program, old_program, begin, end):
    name = old_program.function_of(begin)
    spans = [span_of(each, name) for each in (old_program, program)]
    if None in spans or shape(old_program, *spans[0]) != shape(program, *spans[1]) or end > spans[0][1]:
        return None
    shift = spans[1][0] - spans[0][0]
    return begin + shift, end + shift


def span_of(program, name):
    """The first and the last word of a function, up to the next one."""
    starts = [start for start, other in program.functions if other == name]
    if len(starts) != 1:
        return None
    above = [start for start, _ in program.functions if start > starts[0]]
    return starts[0], max(address for address in program.words if address < min(above, default=1 << 32))


# ---- Waits of memory

def values_at(program, graph):
    """For each word of an invocation the registers whose values are known before it."""
    values, work = {graph.start: {0: 0}}, [graph.start]
    while work:
        address = work.pop()
        after = values_behind(program.words[address], address, values[address], program.words)
        for place in graph.after[address]:
            before = values.get(place)
            known = after if before is None else {register: value for register, value in before.items() if after.get(register) == value}
            if known != before:
                values[place] = dict(known)
                work.append(place)
    return values


def values_behind(word, address, before, words_):
    kind, register, first = word & 0x7f, word >> 7 & 31, word >> 15 & 31
    after = dict(before)
    is_call = kind in (0x6f, 0x67) and register
    if kind in (0x63, 0x23) or (kind in (0x6f, 0x67) and not register):
        return after
    if is_call:
        return {0: 0}
    after.pop(10 if word == 0x73 else register, None)
    if kind == 0x37:
        after[register] = word & 0xfffff000
    elif kind == 0x17:
        after[register] = (address + (word & 0xfffff000)) % (1 << 32)
    elif kind == 0x13 and word >> 12 & 7 == 0 and first in before:
        after[register] = (before[first] + signed(word >> 20, 12)) % (1 << 32)
    after[0] = 0
    return after


def waits_of(program, graphs, path):
    """The extras of a map."""
    ranges = read_ranges(path, read_json(path), ["fetch", "load", "store"])
    waits = defaultdict(int)
    for graph in graphs:
        known = values_at(program, graph)
        for address in graph.after:
            fetch = max((numbers["fetch"] for begin, end, numbers in ranges if begin <= address <= end), default=0)
            waits[address] = max(waits[address], fetch + data_wait(program.words[address], known.get(address, {}), ranges))
    extras = []
    for address, cycles in sorted(waits.items()):
        if cycles and extras and extras[-1][1] == address - 4 and extras[-1][2] == cycles:
            extras[-1][1] = address
        elif cycles:
            extras.append([address, address, cycles])
    if len(extras) > MOST_EXTRAS:
        raise Fault(f"{path}: the program would have {len(extras)} extras, and a timing file has {MOST_EXTRAS} at most: raise the costs of classes instead")
    return [range_text(begin, end, "cycles", cycles) for begin, end, cycles in extras]


def data_wait(word, known, ranges):
    key = {0x03: "load", 0x23: "store"}.get(word & 0x7f)
    if not key:
        return 0
    base = known.get(word >> 15 & 31)
    if base is None:
        return max((numbers[key] for _, _, numbers in ranges), default=0)
    offset = signed(word >> 20, 12) if key == "load" else signed(word >> 25 << 5 | word >> 7 & 31, 12)
    place = (base + offset) % (1 << 32)
    return max((numbers[key] for begin, end, numbers in ranges if begin <= place + 3 and place <= end), default=0)


# ---- The timing

def range_text(begin, end, key, number):
    return {"from": f"0x{begin:x}", "to": f"0x{end:x}", key: number}


def named(old, key, names, what):
    """What the old timing has of the names, and a text for each that it lacks."""
    before = (old[1].get(key) or {}) if old else {}
    for name in before:
        if name not in names:
            tell(f"{old[0]}: {key}: the OIL file has no {name}; it is left out")
    return {name: before.get(name, f"{what} {name}") for name in names}


def costs_of(old, core):
    """All but the loops and extras."""
    def kept(key, blank):
        return old[1].get(key, blank) if old else blank

    classes = core or kept("classes", {"default": "cycles of an instruction, at most"})
    return {
        "version": 2 if core or not old else old[1]["version"],
        "classes": classes,
        "services": kept("services", {"default": "cycles of a service of the kernel, at most"}),
        "alarm": kept("alarm", "cycles of taking an alarm, at most"),
        "interrupt": kept("interrupt", "cycles of taking an interrupt, at most"),
    }


def bounded(program, loops, told, kept):
    """The loops with a bound; those without are told of."""
    listed, lacking = [], [loop for loop in loops if loop.bound is None and (loop.begin, loop.end) not in told and (loop.begin, loop.end) not in kept]
    for loop in loops:
        bound = loop.bound
        if bound is None:
            bound = told.get((loop.begin, loop.end), kept.get((loop.begin, loop.end)))
        if bound is not None:
            listed.append(range_text(loop.begin, loop.end, "bound", bound))
    lines = lines_of(program.path, [loop.begin for loop in lacking])
    for loop in lacking:
        where = ", within ".join(f"{file}:{line}" for _, file, line in lines.get(loop.begin, [])) or "a line that the program doesn't tell (compile with -g)"
        tell(f"{program.function_of(loop.begin)}, {where}: the loop from 0x{loop.begin:x} to 0x{loop.end:x} has no bound; "
             "LOOP_BOUND(n) at the head of its body says one")
    return listed, len(lacking)


def text_of(timing):
    """The timing, a line for each of its members and ranges."""
    parts = []
    for key, value in timing.items():
        if isinstance(value, list):
            inner = ",\n".join("    " + json.dumps(each) for each in value)
            parts.append(f"  {json.dumps(key)}: [\n{inner}\n  ]" if value else f"  {json.dumps(key)}: []")
        else:
            parts.append(f"  {json.dumps(key)}: {json.dumps(value)}")
    return "{\n" + ",\n".join(parts) + "\n}\n"


def blanks_of(value):
    if isinstance(value, dict):
        return sum(blanks_of(each) for each in value.values())
    return 1 if isinstance(value, str) else 0


def drafted(oil, elf, options):
    """The timing, and how much is left out of it."""
    system, program = read_oil(oil), read_program(elf)
    core = read_core(options["--core"]) if "--core" in options else None
    old = (options["--old"], read_old(options["--old"])) if "--old" in options else None
    old_program = read_program(options["--old-elf"]) if "--old-elf" in options else None
    entries = []
    for kind, prefix in (("TASK", "Task_"), ("ISR", "Isr_")):
        for name in system.get(kind, []):
            if prefix + name not in program.symbols:
                raise Fault(f"{elf}: no symbol {prefix}{name} for the {kind} {name} of {oil}")
            entries.append(program.symbols[prefix + name])
    loops = loops_of(program, entries)
    if len(loops) > MOST_LOOPS:
        raise Fault(f"{elf}: it goes back to {len(loops)} places, and a timing file has {MOST_LOOPS} loops at most")
    told, kept = {}, {}
    if any(loop.bound is None for loop in loops):
        told = told_by_code(oil, elf, loops, system)
        if old_program:
            kept = kept_loops(program, [(loop.begin, loop.end) for loop in loops], old, old_program)
        elif old and old[1].get("loops"):
            tell(f"{old[0]}: whose addresses its loops have isn't known; --old-elf names their program")
    timing = costs_of(old, core)
    timing["ticks"] = named(old, "ticks", system.get("COUNTER", []), "cycles of a tick of")
    timing["distances"] = named(old, "distances", system.get("ISR", []), "least cycles between two arrivals of")
    timing["loops"], lacks = bounded(program, loops, told, kept)
    extras, lost = [], []
    if "--map" in options:
        extras = waits_of(program, graphs_of(program.words, entries), options["--map"])
    elif old and old[1].get("extra"):
        extras, lost = kept_extras(program, old, old_program)
    for place in lost:
        tell(f"{old[0]}: the extra at {place} has no place in {elf} that is surely the same; --map says waits by address")
    if extras:
        timing["version"], timing["extra"] = 2, extras
    return {key: value for key, value in timing.items() if value != {}}, lacks + len(lost)


def main():
    oil, elf, options = words()
    try:
        timing, lacks = drafted(oil, elf, options)
    except Fault as fault:
        tell(fault)
        return 3
    blanks = blanks_of({key: value for key, value in timing.items() if key not in ("loops", "extra")})
    if blanks:
        tell(f"{blanks} values stand as texts that say what they are: put numbers there")
    sys.stdout.write(text_of(timing))
    return 1 if lacks else 0


if __name__ == "__main__":
    sys.exit(main())
