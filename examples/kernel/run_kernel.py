#!/usr/bin/env python3
"""Runs the kernel with a system in QEMU and reads its recording.

    run_kernel.py responses OIL ELF TIMING KERNEL [--seed N] [--length CYCLES]
    run_kernel.py trace OIL ELF TIMING KERNEL [--seed N] [--length CYCLES]

`responses` prints for each task how often it ended and the most cycles that it took, from its activation and from the
arrival of the alarm or the interrupt that led to it. `trace` writes the recording to standard output, as `trace judge`
reads it. KERNEL is what make builds. With seed 0 alarms come as the OIL file says and interrupts at their least
distance; any other seed draws when each of them comes first and how interrupts go on. The length is 30,000,000 cycles
if it isn't there, and at most 2,000,000,000.
"""
from __future__ import annotations

import json
import os
import random
import shutil
import struct
import subprocess
import sys
import tempfile
from typing import NamedTuple

HERE = os.path.dirname(os.path.abspath(__file__))
sys.path.insert(0, os.path.join(HERE, "..", "..", "tools"))
from recordings import Declared, Response, Trace, read_declared, responses_of, told  # noqa: E402

QEMU = "qemu-system-riscv32"
MACHINE = ["-M", "virt", "-bios", "none", "-icount", "shift=0,sleep=off", "-rtc", "clock=vm",
           "-display", "none", "-monitor", "none"]
SCRIPT_ADDRESS = 0x80FF0000
MAGIC = 0x4F53454B
MOST_ALARMS, MOST_ISRS, MOST_TASKS, GAPS, RING = 16, 8, 16, 1024, 65536
ARRIVED, TAKEN, SERVED = 1, 2, 3
TRACE_EVENTS = 65536
LENGTH, MOST_LENGTH = 30_000_000, 2_000_000_000


class Script(NamedTuple):
    """What the test bench asks of a run: its length, the seed of the devices, and the arrivals, in cycles."""

    length: int
    seed: int
    alarm_phases: list[int]
    isr_phases: list[int]
    gaps: list[int]

    def data(self) -> bytes:
        padded = self.alarm_phases + [0] * (MOST_ALARMS - len(self.alarm_phases))
        padded += self.isr_phases + [0] * (MOST_ISRS - len(self.isr_phases)) + self.gaps
        return struct.pack(f"<{3 + len(padded)}I", self.length, self.seed, 0, *padded)


class Recording(NamedTuple):
    """What the kernel wrote: moment 0, its last moment, how many events there were, and the newest of them."""

    zero: int
    last: int
    recorded: int
    events: list[tuple[int, int, int, int]]


class Unread(Exception):
    """The run gave no recording; the text says why."""


def drawn_script(seed: int, length: int, declared: Declared) -> Script:
    """The script of a seed: interrupts come as close as they may, with a jitter, or in bursts with pauses between."""
    alarms, isrs = len(declared.system.alarms), declared.system.isrs
    if seed == 0:
        return Script(length, 0, [0] * alarms, [0] * len(isrs), [0] * GAPS)
    draw = random.Random(seed)
    span = max([1000, *declared.timing.get("distances", {}).values()])
    spreads = [lambda: 0, lambda: draw.randrange(span), lambda: 0 if draw.randrange(8) else draw.randrange(8 * span)]
    gaps = [spreads[seed % 3]() for _ in range(GAPS)]
    phases = [100 * draw.randrange(1000) for _ in range(alarms)]
    return Script(length, draw.randrange(1 << 31), phases, [draw.randrange(span) for _ in isrs], gaps)


def read_recording(data: bytes) -> Recording:
    if len(data) < 32 or struct.unpack_from("<I", data)[0] != MAGIC:
        raise Unread("the kernel wrote no recording")
    _, cause, address, value, zero, last, recorded, kept = struct.unpack_from("<8I", data)
    if cause:
        raise Unread(f"the kernel stopped at a trap of cause {cause:#x}, at {address:#x}, with the value {value:#x}")
    if len(data) != 32 + 16 * kept:
        raise Unread("the recording is cut")
    events = [(what, start, end, place) for what, start, end, place in struct.iter_unpack("<4I", data[32:])]
    return Recording(zero, last, recorded, events)


def played(kernel: str, script: Script, seconds: int = 600) -> Recording:
    """The recording of the run; the host may take so many seconds for it."""
    with tempfile.TemporaryDirectory() as folder:
        bench, serial = os.path.join(folder, "script"), os.path.join(folder, "recording")
        with open(bench, "wb") as out:
            out.write(script.data())
        words = [QEMU, *MACHINE, "-serial", f"file:{serial}", "-kernel", kernel,
                 "-device", f"loader,file={bench},addr={SCRIPT_ADDRESS:#x},force-raw=on"]
        try:
            done = subprocess.run(words, stdin=subprocess.DEVNULL, capture_output=True, text=True, timeout=seconds,
                                  check=False)
        except subprocess.TimeoutExpired as late:
            raise Unread(f"the run didn't end within {seconds} s") from late
        if done.returncode:
            raise Unread(f"QEMU ended with status {done.returncode}: {done.stderr.strip()}")
        with open(serial, "rb") as text:
            return read_recording(text.read())


def trace_of(declared: Declared, recording: Recording) -> Trace:
    """The recording as a trace: each arrival at its moment, in its place among the events; as many as a trace has."""
    if recording.recorded > RING:
        raise Unread(f"the ring holds the last {RING} of {recording.recorded} events, and a trace begins at moment 0: "
                     "take a shorter run")
    system = declared.system
    contexts = dict(enumerate(system.tasks)) | dict(enumerate(system.isrs, MOST_TASKS))
    sources = dict(enumerate(system.alarms)) | dict(enumerate(system.isrs, MOST_ALARMS))
    events: list[tuple[int, int, list]] = []
    for what, start, end, place in recording.events:
        kind, who = what >> 16, what >> 8 & 255
        start, end = start - recording.zero & 0xFFFFFFFF, end - recording.zero & 0xFFFFFFFF
        if kind == SERVED:
            events.append((start, 1, ["service", start, end, contexts[who], [], place]))
            continue
        arrived = start - place & 0xFFFFFFFF if kind == TAKEN else start
        events.append((arrived, 0, ["arrive", arrived, sources[who]]))
        if kind == TAKEN:
            events.append((start, 1, ["take", start, end, sources[who]]))
    events.sort(key=lambda event: event[:2])
    kept = [event for _, _, event in events[:TRACE_EVENTS]]
    last = recording.last - recording.zero & 0xFFFFFFFF
    if len(events) > TRACE_EVENTS:
        last = max(event[1] if event[0] == "arrive" else event[2] for event in kept[-2:])
    return {"mode": system.modes[0], "events": kept, "end": last}


def text_of(trace: Trace) -> str:
    """The trace, an event on a line."""
    events = ",\n".join(json.dumps(event, separators=(",", ":")) for event in trace["events"])
    return f'{{"mode":{json.dumps(trace["mode"])},"events":[\n{events}\n],"end":{trace["end"]}}}\n'


def table(tasks: list[str], responses: dict[str, Response]) -> str:
    lines = [f"{'task':<16}{'ended':>8}{'from activation':>17}{'from arrival':>14}"]
    for task in tasks:
        response = responses.get(task, Response(0, None, 0))
        arrived = "-" if response.arrived is None else f"{response.arrived:,}"
        lines.append(f"{task:<16}{response.ended:>8,}{response.activated:>17,}{arrived:>14}")
    return "\n".join(lines) + "\n"


def option(words: list[str], name: str, otherwise: int) -> int:
    """The number behind the option, which is taken out of the words."""
    if name not in words:
        return otherwise
    at = words.index(name)
    number = int(words[at + 1])
    del words[at:at + 2]
    return number


def main() -> int:
    words = sys.argv[1:]
    try:
        seed, length = option(words, "--seed", 0), option(words, "--length", LENGTH)
    except (IndexError, ValueError):
        words = []
        seed, length = 0, LENGTH
    is_command = len(words) == 5 and words[0] in ("responses", "trace")
    if not is_command or not 0 <= seed < 1 << 31 or not 0 < length <= MOST_LENGTH:
        print(__doc__, file=sys.stderr)
        return 2
    if not shutil.which(QEMU):
        told("run_kernel", f"{QEMU} isn't installed (Debian has it in qemu-system-misc)")
    declared = read_declared("run_kernel", *words[1:4])
    try:
        trace = trace_of(declared, played(words[4], drawn_script(seed, length, declared)))
    except Unread as fault:
        told("run_kernel", str(fault))
    is_trace = words[0] == "trace"
    sys.stdout.write(text_of(trace) if is_trace else table(declared.system.tasks, responses_of(declared, trace)))
    return 0


if __name__ == "__main__":
    sys.exit(main())
