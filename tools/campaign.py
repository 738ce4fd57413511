#!/usr/bin/env python3
"""Runs the kernel of examples/kernel in QEMU and holds its recordings against the analysis.

    tools/campaign [--runs N] [--length CYCLES] [--margin PERCENT] [--program PATH] [--sound]

Each of pump, press and compiled runs N times, 3 if it isn't said, each time with other phases, interrupts and
values of devices, for 10,000,000 cycles if no length is given. The first table has the costs of the kernel that
these runs show; they and the margin, 10 percent if it isn't said, are the timing of the second one: the greatest
response of each task, its bound, and their ratio. Then kernels with one fault each run in the same way, unless
--sound is there, up to 16 times for an eighth of the length; the third table has what `trace judge` says of their
recordings, up to the first one that doesn't fit.

PATH is the built program, crates/syswcet/out/syswcet if it isn't said. Without it nothing is bounded or judged. The
status is 1 where a recording of the sound kernel doesn't fit, where a response passes its bound, or where a fault
isn't refuted that the third table says is.
"""
from __future__ import annotations

import json
import os
import subprocess
import sys
import tempfile
from typing import NamedTuple

from programs import ROOT
from recordings import Costs, Declared, Response, Trace, joined, read_declared, responses_of, told

sys.path.insert(0, os.path.join(ROOT, "examples", "kernel"))
from run_kernel import MOST_LENGTH, Unread, drawn_script, played, text_of, trace_of  # noqa: E402

EXAMPLES = os.path.join(ROOT, "examples")
DEFAULTS = {"--runs": 3, "--length": 10_000_000, "--margin": 10}
MOST = {"--runs": 100_000, "--length": MOST_LENGTH, "--margin": 1000}
FAULT_RUNS = 16


class Subject(NamedTuple):
    """A system of examples/: its folder, the stem of its files, and the file with its scheduler states."""

    name: str
    stem: str
    states: str

    def files(self) -> list[str]:
        return [os.path.join(EXAMPLES, self.name, f"{self.stem}.{end}") for end in ("oil", "elf", "json")]

    def states_file(self) -> str:
        return os.path.join(EXAMPLES, self.name, self.states)


class Fault(NamedTuple):
    """A fault: its name in kernel.h, what it is, the systems that come to it, and whether `trace judge` refutes it."""

    name: str
    words: str
    systems: tuple[str, ...]
    is_refuted: bool


Certified = tuple[dict[str, int], dict[str, str]]


class Measured(NamedTuple):
    """What the sound kernel's runs show of a system, and what the analysis says with the costs that they show."""

    declared: Declared
    timing: str
    costs: Costs
    responses: dict[str, Response]
    bounds: dict[str, int]
    certs: dict[str, str]
    verdicts: list[str]


SUBJECTS = [Subject("pump", "pump", "states.json"), Subject("press", "press", "states.json"),
            Subject("compiled", "s", "k")]
ALL = ("pump", "press", "compiled")
FAULTS = [
    Fault("LOST_CEILING", "GetResource doesn't raise the priority", ("pump", "compiled"), True),
    Fault("LATE_RELEASE", "ReleaseResource keeps the ceiling in force", ("pump", "compiled"), True),
    Fault("NO_INNER_CEILING", "inner ceilings and SCHEDULE = NON are ignored", ("press",), True),
    Fault("VOID_SCHEDULE", "Schedule lets nobody run", ("press",), True),
    Fault("NO_DISPATCH", "a caller goes on where a higher task is ready", ("pump", "press", "compiled"), True),
    Fault("LOWEST_FIRST", "a task is resumed before a higher one", ALL, True),
    Fault("OPEN_LOCK", "interrupts are open in a lock", ("press",), True),
    Fault("OPEN_ISR", "interrupts are open within an ISR", ("pump",), True),
    Fault("BROKEN_CHAIN", "ChainTask activates nothing", ("press",), True),
    Fault("LOST_ACTIVATION", "now and then a taken alarm activates nothing", ALL, True),
    Fault("DOUBLE_EXPIRY", "now and then an expiry is taken twice", ALL, True),
    Fault("EARLY_ALARM", "an alarm's cycle is 100 cycles too short", ALL, True),
    Fault("EARLY_INTERRUPT", "an interrupt comes 100 cycles sooner than declared", ("pump",), True),
    Fault("LOST_EVENT", "now and then an event isn't recorded", ALL, True),
    Fault("SLOW_SERVICE", "each service takes some 200 cycles more", ALL, False),
    Fault("HIDDEN_TICK", "a tick each 1,000 cycles that nobody declared", ALL, False),
]


def kernel(subject: Subject, fault: str) -> str:
    """The path of the kernel with the system, which is built."""
    words = ["make", "-s", "-C", os.path.join(EXAMPLES, "kernel"), f"SYSTEM={subject.name}", f"FAULT={fault}"]
    done = subprocess.run(words, capture_output=True, text=True, check=False)
    if done.returncode:
        told("campaign", f"the kernel doesn't build:\n{done.stderr}")
    folder = subject.name if fault == "NO_FAULT" else f"{subject.name}-{fault}"
    return os.path.join(EXAMPLES, "kernel", "out", folder, "kernel.elf")


def recorded(path: str, declared: Declared, seed: int, length: int) -> Trace:
    return trace_of(declared, played(path, drawn_script(seed, length, declared)))


def asked(program: str, words: list[str]) -> str:
    """What the program answers, without the line's end; its status where it answers nothing."""
    done = subprocess.run([program, *words], capture_output=True, text=True, check=False)
    return done.stdout.rstrip("\n") or f"status {done.returncode}"


def judged(program: str, subject: Subject, timing: str, certs: dict[str, str], trace: Trace, folder: str) -> str:
    """The first verdict on the recording that isn't `fits`, over all tasks."""
    path = os.path.join(folder, "trace.json")
    with open(path, "w", encoding="utf-8") as out:
        out.write(text_of(trace))
    for task, cert in certs.items():
        verdict = asked(program, ["trace", "judge", *subject.files()[:2], timing, task, cert, path])
        if verdict != "fits":
            return f"{verdict} ({task})" if verdict.startswith("over") else verdict
    return "fits"


def certified(program: str, subject: Subject, timing: str, tasks: list[str], folder: str) -> Certified:
    """The bound of each task by the timing, and the paths of their certificates."""
    bounds: dict[str, int] = {}
    certs: dict[str, str] = {}
    for task in tasks:
        text = asked(program, ["certify", *subject.files()[:2], timing, task, subject.states_file()])
        certs[task] = os.path.join(folder, f"{subject.name}.{task}.json")
        with open(certs[task], "w", encoding="utf-8") as out:
            out.write(text + "\n")
        try:
            bounds[task] = int(json.loads(text)["bound"])
        except (KeyError, TypeError, ValueError):
            told("campaign", f"{subject.name}, {task}: certify answers {text[:80]}")
    return bounds, certs


def measured(program: str | None, subject: Subject, options: dict[str, int], folder: str) -> Measured:
    declared = read_declared("campaign", *subject.files())
    costs, responses, traces, path = Costs(), dict[str, Response](), [], kernel(subject, "NO_FAULT")
    for seed in range(options["--runs"]):
        trace = recorded(path, declared, seed, options["--length"])
        costs.add(declared, trace)
        responses = joined(responses, responses_of(declared, trace))
        traces.append(os.path.join(folder, f"{subject.name}.{seed}"))
        with open(traces[-1], "w", encoding="utf-8") as out:
            json.dump(trace, out)
    timing = os.path.join(folder, f"{subject.name}.timing")
    with open(timing, "w", encoding="utf-8") as out:
        json.dump(costs.timing(declared.timing, options["--margin"], 1), out)
    bounds, certs, verdicts = dict[str, int](), dict[str, str](), []
    if program:
        bounds, certs = certified(program, subject, timing, declared.system.tasks, folder)
        for name in traces:
            with open(name, encoding="utf-8") as text:
                verdicts.append(judged(program, subject, timing, certs, json.load(text), folder))
    return Measured(declared, timing, costs, responses, bounds, certs, verdicts)


def row(cells: list[str]) -> str:
    return f"| {' | '.join(cells)} |"


def cost_lines(found: dict[str, Measured]) -> list[str]:
    names = sorted({name for one in found.values() for name in one.costs.greatest})
    lines = [row(["Cost, cycles", *found]), row(["---"] * (1 + len(found)))]
    for name in names:
        costs = [one.costs.greatest.get(name) for one in found.values()]
        lines.append(row([name, *("-" if cost is None else f"{cost:,}" for cost in costs)]))
    return lines


def response_lines(found: dict[str, Measured]) -> list[str]:
    lines = [row(["Task", "Ended", "Response", "From arrival", "Bound", "Bound / response"]), row(["---"] * 6)]
    for name, one in found.items():
        for task in one.declared.system.tasks:
            response = one.responses.get(task, Response(0, None, 0))
            bound = one.bounds.get(task)
            ratio = "-" if bound is None or not response.activated else f"{bound / response.activated:.1f}"
            lines.append(row([f"{name} {task}", f"{response.ended:,}", f"{response.activated:,}",
                              "-" if response.arrived is None else f"{response.arrived:,}",
                              "-" if bound is None else f"{bound:,}", ratio]))
    return lines


def verdict_on(program: str, fault: Fault, subject: Subject, sound: Measured, length: int, folder: str) -> str:
    """The first verdict on a run of the kernel with the fault that isn't `fits`."""
    path = kernel(subject, fault.name)
    for seed in range(1, FAULT_RUNS + 1):
        try:
            trace = recorded(path, sound.declared, seed, max(1, length // 8))
        except Unread as stopped:
            return f"no recording: {stopped}"
        verdict = judged(program, subject, sound.timing, sound.certs, trace, folder)
        if verdict != "fits":
            return verdict
    return "fits"


def fault_lines(program: str, found: dict[str, Measured], length: int, folder: str) -> tuple[list[str], int]:
    """The table of the faults, and how many aren't refuted that should be."""
    lines, missed = [row(["Fault", *found, "Refuted"]), row(["---"] * (2 + len(found)))], 0
    for fault in FAULTS:
        cells = ["-"] * len(SUBJECTS)
        for place, subject in enumerate(SUBJECTS):
            if subject.name in fault.systems:
                cells[place] = verdict_on(program, fault, subject, found[subject.name], length, folder)
        is_refuted = any(cell.split()[0] in ("walk", "close", "over") for cell in cells)
        missed += fault.is_refuted and not is_refuted
        lines.append(row([f"`{fault.name}`: {fault.words}", *cells, "yes" if is_refuted else "no"]))
    return lines, missed


def options_of(words: list[str]) -> tuple[dict[str, int], str, bool]:
    """The numbers, the program's path, whether only the sound kernel runs. ValueError: the words are none of these."""
    numbers, path, is_sound = dict(DEFAULTS), os.path.join(ROOT, "crates", "syswcet", "out", "syswcet"), False
    rest = list(words)
    while rest:
        name = rest.pop(0)
        if name == "--sound":
            is_sound = True
        elif name == "--program" and rest:
            path = rest.pop(0)
            if not os.access(path, os.X_OK):
                raise ValueError(path)
        elif name in numbers and rest and rest[0].isascii() and rest[0].isdigit():
            numbers[name] = int(rest.pop(0))
        else:
            raise ValueError(name)
    if any(numbers[name] > MOST[name] for name in numbers) or 0 in (numbers["--runs"], numbers["--length"]):
        raise ValueError
    return numbers, path, is_sound


def main() -> int:
    try:
        options, path, is_sound = options_of(sys.argv[1:])
    except ValueError:
        print(__doc__, file=sys.stderr)
        return 2
    program = path if os.access(path, os.X_OK) else None
    wrong = 0
    with tempfile.TemporaryDirectory() as folder:
        try:
            found = {subject.name: measured(program, subject, options, folder) for subject in SUBJECTS}
        except Unread as fault:
            told("campaign", str(fault))
        print("\n".join([*cost_lines(found), "", *response_lines(found), ""]))
        if not program:
            print("campaign: nothing is bounded or judged, since the program isn't built")
            return 0
        for name, one in found.items():
            refused = [verdict for verdict in one.verdicts if verdict != "fits"]
            over = [task for task, response in one.responses.items() if response.activated > one.bounds[task]]
            print(f"{name}: {len(one.verdicts)} recordings, not fitting: {', '.join(refused) or 'none'}; "
                  f"tasks above their bound: {', '.join(over) or 'none'}")
            wrong += len(refused) + len(over)
        if not is_sound:
            lines, missed = fault_lines(program, found, options["--length"], folder)
            print("\n".join(["", *lines]))
            wrong += missed
    return 1 if wrong else 0


if __name__ == "__main__":
    sys.exit(main())
