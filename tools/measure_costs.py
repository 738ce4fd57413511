#!/usr/bin/env python3
"""Writes the timing file of a kernel whose costs were measured to standard output, as recordings show them.

    tools/measure_costs OIL ELF TIMING MARGIN TRACE .. [--instruction CYCLES]

A TRACE is a recording of the kernel's events as docs/FORMATS.md has it, of any length. A service costs from the end of
the instruction before its ECALL to the first instruction of what runs next, a taking from the end of the interrupted
instruction: what the trap's entry and exit take is part of it, so START and END of each event have to lie there
(docs/PORTING.md). The file is TIMING with the greatest cost of each service, of an alarm and of an interrupt in it,
each greater by MARGIN percent, a whole number from 0 to 1000. A service that no recording shows gets the greatest cost
of those that were seen. With --instruction each instruction costs that many cycles, as in QEMU where one is one;
without it classes and extra costs stay as TIMING has them.

What was measured goes to standard error, with how often it was seen. The greatest cost of a recording isn't the
greatest cost that there is: the number is as good as the recordings and the margin.
"""
from __future__ import annotations

import json
import sys

from recordings import Costs, read_declared, read_trace, told

LARGEST = 1 << 20


def shown(costs: Costs, margin: int) -> str:
    lines = [f"{'':<22}{'seen':>10}{'greatest':>10}   cycles"]
    lines += [f"{name:<22}{costs.seen[name]:>10,}{cost:>10,}" for name, cost in sorted(costs.greatest.items())]
    lines.append("A measured greatest cost is no greatest cost: what no recording shows may take longer than it, "
                 f"with {margin} % more too.")
    return "\n".join(lines)


def main() -> int:
    words = sys.argv[1:]
    instruction = None
    if "--instruction" in words[:-1]:
        at = words.index("--instruction")
        instruction, words = words[at + 1], words[:at] + words[at + 2:]
    numbers = words[3:4] + ([] if instruction is None else [instruction])
    if len(words) < 5 or not all(number.isascii() and number.isdigit() for number in numbers) or int(words[3]) > 1000:
        print(__doc__, file=sys.stderr)
        return 2
    if instruction is not None and not 1 <= int(instruction) <= LARGEST:
        told("measure_costs", f"an instruction costs from 1 to {LARGEST} cycles")
    declared = read_declared("measure_costs", *words[:3])
    costs = Costs()
    for path in words[4:]:
        costs.add(declared, read_trace("measure_costs", path))
    if "?" in costs.greatest:
        told("measure_costs", "a service was called from an address where ELF has no ECALL of one")
    if not {"alarm", "interrupt"} & set(costs.greatest) or set(costs.greatest) <= {"alarm", "interrupt"}:
        told("measure_costs", "the recordings show no service, or no taking of a source: take longer ones")
    timing = costs.timing(declared.timing, int(words[3]), None if instruction is None else int(instruction))
    if max([timing["alarm"], timing["interrupt"], *timing["services"].values()]) > LARGEST:
        told("measure_costs", f"a cost is greater than {LARGEST} cycles, the most that a timing file has")
    print(shown(costs, int(words[3])), file=sys.stderr)
    print(json.dumps(timing, indent=2))
    return 0


if __name__ == "__main__":
    sys.exit(main())
