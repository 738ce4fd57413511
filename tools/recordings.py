"""What recordings of a kernel show: how long its services and its takings took, and how long tasks took to respond.

A recording is a trace as docs/FORMATS.md has it, of any length: a dictionary with `mode`, `events` and `end`. Moments
and lengths are cycles. A service is known by the words before its ECALL. Services are taken as not misused, which
`trace judge` tells.
"""
from __future__ import annotations

import json
import struct
import sys
from typing import Any, NamedTuple

from draw_trace import Image, System, read_oil

Trace = dict[str, Any]
NO_RETURN = ("TerminateTask", "ChainTask")
SHAPES: dict[str, list[type]] = {"arrive": [str, int, str], "take": [str, int, int, str],
                                 "service": [str, int, int, str, list, int]}


class Response(NamedTuple):
    """The greatest response of a task, from its activation and from the arrival that led to it; how many ended."""

    activated: int
    arrived: int | None
    ended: int


class Declared(NamedTuple):
    """What the files of a system say, as far as recordings need it."""

    system: System
    image: Image
    timing: dict[str, Any]


def told(program: str, text: str) -> None:
    """Ends the program with a line that says what is wrong, and status 1."""
    sys.exit(f"{program}: {text}")


def read_declared(program: str, oil: str, elf: str, timing: str) -> Declared:
    """What the three files hold. Where one can't be read, or isn't what it is for, the program ends."""
    try:
        with open(oil, encoding="latin-1") as text, open(elf, "rb") as data, open(timing, encoding="utf-8") as costs:
            return Declared(System(read_oil(text.read())), Image(data.read()), dict(json.load(costs)))
    except OSError as fault:
        told(program, f"{fault.filename}: {fault.strerror}")
    except (AttributeError, IndexError, KeyError, TypeError, ValueError, struct.error):
        told(program, "one of the files isn't what its place is for; `./syswcet show code` says what is wrong with it")
    raise AssertionError


def read_trace(program: str, path: str) -> Trace:
    """The recording that the file holds. Where it can't be read, or is no recording, the program ends."""
    try:
        with open(path, encoding="utf-8") as text:
            trace = json.load(text)
        for event in trace["events"]:
            if [type(part) for part in event] != SHAPES[event[0]]:
                raise ValueError
        if not isinstance(trace["end"], int) or not isinstance(trace["mode"], str):
            raise ValueError
        return dict(trace)
    except OSError as fault:
        told(program, f"{path}: {fault.strerror}")
    except (IndexError, KeyError, TypeError, ValueError):
        told(program, f"{path} is no trace; `./syswcet trace judge` says what is wrong with it")
    raise AssertionError


class Costs:
    """How often each service and each taking was seen, and the most cycles that it took."""

    def __init__(self) -> None:
        self.greatest: dict[str, int] = {}
        self.seen: dict[str, int] = {}

    def add(self, declared: Declared, trace: Trace) -> None:
        names: dict[int, str] = {}
        for event in trace["events"]:
            if event[0] == "arrive":
                continue
            if event[0] == "take":
                name = "alarm" if event[3] in declared.system.alarms else "interrupt"
            else:
                if event[5] not in names:
                    names[event[5]] = declared.image.service(event[5])[0]
                name = names[event[5]]
            self.greatest[name] = max(self.greatest.get(name, 0), event[2] - event[1])
            self.seen[name] = self.seen.get(name, 0) + 1

    def timing(self, base: dict[str, Any], margin: int, instruction: int | None) -> dict[str, Any]:
        """The timing file with these costs, each greater by the margin of so many percent. What was never seen costs
        as much as the costliest of its kind. With a cost for instructions each class costs that, and no place has an
        extra cost."""
        raised = {name: -(-cost * (100 + margin) // 100) for name, cost in self.greatest.items()}
        services = {name: cost for name, cost in raised.items() if name not in ("alarm", "interrupt")}
        takings = {name: cost for name, cost in raised.items() if name in ("alarm", "interrupt")}
        timing: dict[str, Any] = {**base, "version": 2}
        timing["services"] = {"default": max(services.values()), **dict(sorted(services.items()))}
        for name in ("alarm", "interrupt"):
            timing[name] = takings.get(name, max(takings.values()))
        if instruction is not None:
            timing["classes"] = {"default": instruction}
            timing.pop("extra", None)
        return timing


def responses_of(declared: Declared, trace: Trace) -> dict[str, Response]:
    """The greatest responses of the tasks that ended in the recording."""
    system, image = declared.system, declared.image
    started = [task for task in system.tasks if trace["mode"] in system.starts[task]]
    begun: dict[str, tuple[int, int | None]] = {task: (0, None) for task in started}
    pending: dict[str, int] = {}
    taken: dict[str, int | None] = {}
    found: dict[str, Response] = {}
    services: dict[int, tuple[str, int]] = {}
    for event in trace["events"]:
        if event[0] == "arrive":
            pending.setdefault(event[2], event[1])
            continue
        if event[0] == "take":
            source, arrived = event[3], pending.pop(event[3], None)
            if source not in system.alarms:
                taken[source] = arrived
            elif system.alarms[source] is not None:
                begun.setdefault(system.alarms[source], (event[1], arrived))
            continue
        context, address = event[3], event[5]
        if address not in services:
            services[address] = image.service(address)
        name, argument = services[address]
        if name in NO_RETURN and context in begun:
            start, arrived = begun.pop(context)
            before = found.get(context, Response(0, None, 0))
            waited = before.arrived if arrived is None else max(before.arrived or 0, event[2] - arrived)
            found[context] = Response(max(before.activated, event[2] - start), waited, before.ended + 1)
        if name in ("ActivateTask", "ChainTask") and argument < len(system.tasks):
            begun.setdefault(system.tasks[argument], (event[1], taken.get(context)))
    return found


def joined(one: dict[str, Response], other: dict[str, Response]) -> dict[str, Response]:
    """The greatest responses of two recordings."""
    both = dict(one)
    for task, response in other.items():
        before = both.get(task, Response(0, None, 0))
        waits = [wait for wait in (before.arrived, response.arrived) if wait is not None]
        activated, ended = max(before.activated, response.activated), before.ended + response.ended
        both[task] = Response(activated, max(waits, default=None), ended)
    return both
