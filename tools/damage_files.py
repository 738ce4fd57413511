"""Runs the built program on damaged files, and on files as large and as deep as their limits allow.

    tools/damage_files [SECONDS [SEED]]

For so many seconds (60 by default) files of the examples are damaged at random: flipped bytes, cut ends,
members doubled or left out, huge numbers, long names. Then each reader gets its hostile files once: deep nests and long
lists up to the limit of its file. A run may take ten seconds and 4 GiB at most, ends with a status from 0 to 6 (`replay`
and `trace record` also with 7 and 11), writes something, and writes nothing to standard error. What breaks this is told and kept in
damage_found/; the slowest runs are told at the end. The status is 1 where something broke.
"""
import json
import os
import random
import re
import resource
import struct
import subprocess
import sys
import tempfile
import time

from programs import ROOT, built

PROGRAM = os.path.join(ROOT, "crates", "syswcet", "out", "syswcet")
EXAMPLES = os.path.join(ROOT, "examples")
MOST_SECONDS, MOST_BYTES = 10, 4 << 30


def read(*names):
    with open(os.path.join(EXAMPLES, *names), "rb") as file:
        return file.read()


def samples():
    """The commands that pass, each with its words and its files."""
    found = []
    for folder, task in (("demo", "T"), ("loop", "T"), ("four", "T"), ("compiled", "Control")):
        names = [name for name in ("s.oil", "s.elf", "s.json", "k", "c", "p") if os.path.exists(os.path.join(EXAMPLES, folder, name))]
        files = {name: read(folder, name) for name in names}
        system = ["s.oil", "s.elf", "s.json"]
        found.append((["show", "code", *system], files))
        found.append((["bound", *system, task, "k"], files))
        found.append((["all", *system, "k"], files))
        if "c" in files:
            found.append((["check", *system, task, "c"], files))
        if "p" in files:
            found.append((["replay", *system, "p"], files))
    for name in sorted(os.listdir(os.path.join(EXAMPLES, "oil"))):
        found.append((["show", "oil", name], {name: read("oil", name)}))
    with open(os.path.join(ROOT, "tools", "cases.jsonl")) as lines:
        for line in lines:
            case = json.loads(line)
            if case["status"] == 0 and case["words"][0] in ("loops", "split", "trace"):
                found.append((case["words"], {name: text.encode("latin-1") for name, text in case["files"].items()}))
    lone = {name: read("lone", name) for name in ("image", "cert.json", "states.json")}
    found.append((["check", "lone", "image", "cert.json"], lone))
    found.append((["bound", "lone", "image", "states.json"], lone))
    return found


# ---- Damage at random


def flipped(rng, data):
    place = rng.randrange(len(data))
    return data[:place] + bytes([data[place] ^ (1 << rng.randrange(8))]) + data[place + 1:]


def cut(rng, data):
    return data[:rng.randrange(len(data) + 1)]


def doubled(rng, data):
    start = rng.randrange(len(data))
    end = min(len(data), start + rng.randrange(1, 60))
    return data[:end] + data[start:end] + data[end:]


def left_out(rng, data):
    start = rng.randrange(len(data))
    return data[:start] + data[start + rng.randrange(1, 40):]


def with_number(rng, data):
    places = [match.span() for match in re.finditer(rb"[0-9]+", data)]
    if not places:
        return flipped(rng, data)
    start, end = rng.choice(places)
    value = rng.choice([b"0", b"4294967295", b"4294967296", b"18446744073709551616", b"9" * 400, b"-1", b"1e9", b"1.0", b"-0"])
    return data[:start] + value + data[end:]


def with_word(rng, data):
    start = rng.randrange(len(data))
    value = struct.pack("<I", rng.choice([0, 1, 0x7fffffff, 0x80000000, 0xffffffff, rng.getrandbits(32)]))
    return data[:start] + value + data[start + 4:]


def with_name(rng, data):
    start = rng.randrange(len(data))
    return data[:start] + rng.choice([b'"', b"/*", b"#include", b"{", b"[", b"\x00", b"\xff", b"A" * 5000]) + data[start:]


DAMAGES = [flipped, cut, doubled, left_out, with_number, with_word, with_name]


def damaged(rng, words, files):
    read_ones = [name for name in files if name in words]
    changed = dict(files)
    for _ in range(rng.choice([1, 1, 1, 2, 3])):
        name = rng.choice(read_ones)
        if changed[name]:
            changed[name] = rng.choice(DAMAGES)(rng, changed[name])
    return changed


# ---- Files at their limits


def hostile():
    """Words and files that are large or deep, by name."""
    demo = {name: read("demo", name) for name in ("s.oil", "s.elf", "s.json", "k", "c", "p")}
    system = ["s.oil", "s.elf", "s.json"]

    def with_file(name, data, words):
        return words, {**demo, name: data}

    oil, mib = ["show", "oil", "s.oil"], 1 << 20
    head = b'OIL_VERSION="2.5";CPU A{APPMODE M;'
    tasks = b"".join(b"TASK T%d{PRIORITY=%d;};" % (i, i % 1000000) for i in range(30000))
    attributes = b"TASK T{" + b"A=1;" * 250000 + b"};"
    yield "an OIL file of 1 MiB of objects", *with_file("s.oil", head + tasks[:900000].rsplit(b"TASK", 1)[0] + b"};", oil)
    yield "an OIL file of one object with 250,000 attributes", *with_file("s.oil", head + attributes + b"};", oil)
    yield "an OIL file of 1 MiB of open braces", *with_file("s.oil", b'OIL_VERSION="2.5";CPU A{TASK T{' + b"A=B{" * 260000, oil)
    yield "an OIL file of 1 MiB in one text", *with_file("s.oil", b'OIL_VERSION="' + b"a" * (mib - 20) + b'";', oil)
    yield "an OIL file of 1 MiB of comments", *with_file("s.oil", b"/**/" * (mib // 4), oil)
    yield "an OIL file with a comment of 1 MiB that is open", *with_file("s.oil", b"/*" + b"*" * (mib - 4), oil)
    yield "an OIL file of 256 tasks of one priority", *with_file(
        "s.oil", head + b"".join(b"TASK T%d{PRIORITY=1;};" % i for i in range(256)) + b"};", oil)
    yield "an OIL file with a number of 1 MiB", *with_file("s.oil", head + b"TASK T{PRIORITY=" + b"9" * (mib - 100) + b";};};", oil)

    code = ["show", "code", *system]
    yield "an ELF file of 16 MiB of zeros behind its head", *with_file("s.elf", demo["s.elf"] + bytes((16 << 20) - 360), code)
    many = bytearray(demo["s.elf"])
    many[48:50] = struct.pack("<H", 65535)
    yield "an ELF file with 65,535 sections of one header", *with_file("s.elf", bytes(many), code)
    big = bytearray(demo["s.elf"]) + bytes(65535 * 40)
    big[32:36] = struct.pack("<I", 360)
    big[48:50] = struct.pack("<H", 65535)
    yield "an ELF file with 65,535 empty sections", *with_file("s.elf", bytes(big), code)
    yield "an ELF file with 12 MiB of code", *with_file("s.elf", large_code(3 << 20), code)
    yield "an ELF file with 1,000,000 symbols", *with_file("s.elf", large_code(7, symbols=1000000), code)
    yield "an image of 16 MiB of additions", ["bound", "lone", "image", "k"], {"image": b"\x93\x82\x12\x00" * (4 << 20), "k": read("lone", "states.json")}
    yield "an image of 16 MiB of branches to the next word", ["bound", "lone", "image", "k"], {
        "image": b"\x63\x02\x00\x00" * ((4 << 20) - 3) + read("lone", "image")[4:], "k": read("lone", "states.json")}

    loops = b",".join(b'{"from":"0x%x","to":"0x%x","bound":4}' % (4 * i, 4 * i + 4) for i in range(22000))
    times = demo["s.json"].rstrip()[:-1]
    yield "a timing of 22,000 loops", *with_file("s.json", times + b',"loops":[' + loops + b"]}", code)
    yield "a timing of 1 MiB of open brackets", *with_file("s.json", b"[" * mib, code)
    yield "a timing with a number of 1 MiB", *with_file("s.json", times.replace(b'"alarm":30', b'"alarm":' + b"1" * (mib - 200)) + b"}", code)
    yield "a timing of 1 MiB of one key", *with_file("s.json", b'{"a":1' + b',"a":1' * (mib // 6 - 10) + b"}", code)
    ticks = b",".join(b'"C%d":1' % i for i in range(80000))
    yield "a timing of 80,000 ticks", *with_file("s.json", re.sub(rb'"ticks":\{', b'"ticks":{' + ticks + b",", demo["s.json"]), code)

    bound, limit = ["bound", *system, "T", "k"], 64 << 20
    one = b"[0,[[0,0],[]],[],0,0]"
    yield "a list of 3,000,000 equal states", *with_file("k", b"[" + b",".join([one] * 3000000) + b"]", bound)
    held = b"[0,[[0,0" + b",0" * 1000000 + b"],[]],[],0,0]"
    yield "a state that holds a million resources", *with_file("k", b"[" + held + b"]", bound)
    yield "a list of states of 64 MiB of open brackets", *with_file("k", b"[" * limit, bound)
    yield "a list of states of 64 MiB in one text", *with_file("k", b'"' + b"a" * (limit - 2) + b'"', bound)
    yield "a list of 30,000,000 numbers", *with_file("k", b"[" + b"0," * 30000000 + b"0]", bound)
    yield "a list of states one byte past its limit", *with_file("k", b" " * (limit + 1), bound)
    check = ["check", *system, "T", "c"]
    start = demo["c"].index(b'"multipliers":[') + len(b'"multipliers":[')
    numbers = b",".join([b'"0"'] * 10000000)
    yield "a certificate of 10,000,000 multipliers", *with_file("c", demo["c"][:start] + numbers + b"," + demo["c"][start:], check)
    yield "a certificate with a multiplier of 60 MB", *with_file("c", demo["c"][:start] + b'"' + b"7" * 60000000 + b'",' + demo["c"][start:], check)
    split = ["split", "check", *system, "T", "c"]
    for depth in (100, 101, 120, 5000):
        leaf = b'["leaf","1",[]]'
        tree = b'["cut",0,0,' * depth + leaf + (b"," + leaf + b"]") * depth
        cuts = b'{"bound":"1","states":' + demo["k"].strip() + b',"task":"T","tree":' + tree + b"}"
        yield f"a split certificate whose cuts nest {depth} deep", *with_file("c", cuts, split)
    judge = ["trace", "judge", *system, "T", "c", "r"]

    def with_trace(data):
        return judge, {**demo, "r": data}

    arrivals = b",".join(b'["arrive",%d,"Tick"]' % (1000 * i) for i in range(65536))
    yield "a trace of 65,536 arrivals", *with_trace(b'{"end":70000000,"events":[' + arrivals + b'],"mode":"Main"}')
    falling = b",".join(b'["arrive",%d,"Tick"]' % (1000 * (65536 - i)) for i in range(65536))
    yield "a trace of 65,536 arrivals, the last one first", *with_trace(b'{"end":70000000,"events":[' + falling + b'],"mode":"Main"}')
    yield "a trace of 16 MiB of open brackets", *with_trace(b"[" * (16 << 20))
    yield "a trace of 2,000,000 events", *with_trace(b'{"end":1,"events":[' + b",".join([b"[]"] * 2000000) + b'],"mode":"Main"}')
    replay = ["replay", *system, "p"]
    arrivals = b",".join(b'{"at":%d,"source":"Tick"}' % (1000 * i) for i in range(400000))
    yield "a schedule of 400,000 arrivals", *with_file("p", b'{"mode":"Main","end":16777216,"arrivals":[' + arrivals + b"]}", replay)
    many = b",".join(b'{"at":%d,"source":"Tick"}' % (1000 * i) for i in range(16777))
    many = b'{"mode":"Main","end":16777216,"arrivals":[' + many + b"]}"
    yield "a schedule of 16,777 arrivals", *with_file("p", many, replay)
    yield "the recording of its run", *with_file("p", many, ["trace", "record", *system, "p"])


def large_code(words, symbols=2):
    """An ELF file with so many words of code in .text, the code of T at its end, and so many symbols."""
    text = read("demo", "s.elf")[84:112]
    code = b"\x93\x02\x12\x00" * (words - 7) + text
    end = 0x100 + 4 * (words - 7)
    names, table = b"\0Task_T\0Task_H\0", bytearray(16)
    for name, address in ((1, end), (8, end + 16)):
        table += struct.pack("<IIIBBH", name, address, 0, 0x12, 0, 1)
    table += struct.pack("<IIIBBH", 1, 0, 0, 0, 0, 0) * (symbols - 2)
    sections_names = b"\0.text\0.symtab\0.strtab\0"
    at_code, at_table = 84, 84 + len(code)
    at_names = at_table + len(table)
    at_sections = at_names + len(names) + len(sections_names)
    at_sections += -at_sections % 4
    head = b"\x7fELF\x01\x01\x01" + bytes(9) + struct.pack("<HHIIIIIHHHHHH", 2, 243, 1, 0x100, 52, at_sections, 0, 52, 32, 1, 40, 4, 3)
    segment = struct.pack("<IIIIIIII", 1, at_code, 0x100, 0x100, len(code), len(code), 5, 4)
    sections = bytes(40)
    sections += struct.pack("<IIIIIIIIII", 1, 1, 6, 0x100, at_code, len(code), 0, 0, 4, 0)
    sections += struct.pack("<IIIIIIIIII", 7, 2, 0, 0, at_table, len(table), 3, 1, 4, 16)
    sections += struct.pack("<IIIIIIIIII", 15, 3, 0, 0, at_names, len(names) + len(sections_names), 0, 0, 1, 0)
    body = head + segment + code + table + names + sections_names
    return body + bytes(at_sections - len(body)) + sections


# ---- Runs


def limited():
    resource.setrlimit(resource.RLIMIT_AS, (MOST_BYTES, MOST_BYTES))


def broken(words, files):
    """How the run breaks what is promised, if it does, and its seconds."""
    with tempfile.TemporaryDirectory() as folder:
        for name, data in files.items():
            with open(os.path.join(folder, name), "wb") as out:
                out.write(data)
        start = time.monotonic()
        try:
            done = subprocess.run([PROGRAM, *words], cwd=folder, capture_output=True, timeout=MOST_SECONDS, preexec_fn=limited)
        except subprocess.TimeoutExpired:
            return "more than ten seconds", MOST_SECONDS, ""
        seconds = time.monotonic() - start
    answer = done.stdout[:60].decode("latin-1").strip()
    allowed = {0, 1, 2, 3, 4, 5, 6} | ({7, 11} if words[0] == "replay" or words[1] == "record" else set())
    if done.returncode not in allowed:
        return f"status {done.returncode}", seconds, answer
    if not done.stdout and not (words[0] == "replay" and done.returncode == 0):
        return "silence", seconds, answer
    return ("standard error: " + done.stderr[:80].decode("latin-1") if done.stderr else None), seconds, answer


def keep(words, files, number):
    folder = os.path.join(ROOT, "damage_found", str(number))
    os.makedirs(folder, exist_ok=True)
    for name, data in files.items():
        with open(os.path.join(folder, name), "wb") as out:
            out.write(data)
    with open(os.path.join(folder, "words"), "w") as out:
        out.write(" ".join(words) + "\n")


def main():
    given = sys.argv[1:]
    if len(given) > 2 or not all(word.isdigit() for word in given):
        sys.exit(__doc__)
    seconds, seed = map(int, given + ["60", "1"][len(given):])
    built("damage_files", "syswcet")
    rng, made, wrong, slow, statuses = random.Random(seed), 0, 0, [], {}
    until, sound = time.monotonic() + seconds, samples()
    while time.monotonic() < until:
        words, files = rng.choice(sound)
        changed = damaged(rng, words, files)
        why, took, answer = broken(words, changed)
        made += 1
        kind = " ".join(answer.split()[:1])
        statuses[kind] = statuses.get(kind, 0) + 1
        slow.append((took, " ".join(words), answer))
        if why:
            wrong += 1
            keep(words, changed, made)
            print(f"damage_files: run {made}: {' '.join(words)}: {why}")
    print(f"damage_files: {made} damaged runs (seed {seed}), {wrong} break a promise; first words of the answers:",
          ", ".join(f"{word or '(nothing)'} {count}" for word, count in sorted(statuses.items(), key=lambda it: -it[1])))
    for name, words, files in hostile():
        why, took, answer = broken(words, files)
        wrong += bool(why)
        print(f"damage_files: {name}: {took:.2f} s, {why or (answer or '(nothing)').splitlines()[0]}")
        slow.append((took, name, answer))
    slow.sort(reverse=True)
    print("damage_files: slowest:", "; ".join(f"{took:.2f} s {name}" for took, name, _ in slow[:5]))
    return 1 if wrong else 0


if __name__ == "__main__":
    sys.exit(main())
