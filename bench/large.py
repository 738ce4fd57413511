#!/usr/bin/env python3
"""Makes a system of many scheduler states.

    bench/large.py TASKS RESOURCES INTERRUPTS NODES FOLDER

Each task has an alarm, priority by its place, and code of so many words in all; the first ones, two for each resource, lock it in the
middle third of their code. Each interrupt activates the lowest task. FOLDER gets `s.oil`, `s.elf` and `s.json`; the states are found
by `list_states`.
"""
import os
import sys

from systems import NOP, elf

ACTIVATE, TERMINATE, GET, RELEASE, END_ISR = 1, 2, 4, 5, 15


def service(number, argument=0):
    return [argument << 20 | 0x513, number << 20 | 0x893, 0x73]


def code(nodes, resource):
    """The words of a task; with a resource, its middle third is under the lock."""
    part = [NOP] * max(1, (nodes - 9) // 3)
    if resource is None:
        return [NOP] * max(1, nodes - 3) + service(TERMINATE)
    return part + service(GET, resource) + part + service(RELEASE, resource) + part + service(TERMINATE)


def large(tasks, resources, interrupts, nodes):
    """The three files of the system."""
    oil = 'OIL_VERSION = "2.5";\nCPU Large {\n  APPMODE Main;\n  COUNTER C { MINCYCLE = 1; };\n'
    oil += "".join(f"  RESOURCE R{i} {{ RESOURCEPROPERTY = STANDARD; }};\n" for i in range(resources))
    words, entries = [], []
    for i in range(tasks):
        resource = i // 2 if i < 2 * resources else None
        held = f" RESOURCE = R{resource};" if resource is not None else ""
        oil += f"  TASK T{i} {{ PRIORITY = {i + 1};{held} }};\n"
        oil += (f"  ALARM A{i} {{ COUNTER = C; ACTION = ACTIVATETASK {{ TASK = T{i}; }};\n"
                f"    AUTOSTART = TRUE {{ CYCLETIME = {nodes * 40 * (tasks + interrupts) + 1000 * i}; APPMODE = Main; }}; }};\n")
        entries.append((f"Task_T{i}", len(words)))
        words += code(nodes, resource)
    distances = {}
    for i in range(interrupts):
        oil += f"  ISR I{i} {{ CATEGORY = 2; PRIORITY = {i + 1}; }};\n"
        entries.append((f"Isr_I{i}", len(words)))
        words += [NOP] * 4 + service(ACTIVATE, 0) + [NOP] * 2 + service(END_ISR)
        distances[f"I{i}"] = nodes * 60 * (tasks + interrupts)
    named = ",".join(f'"{name}":{value}' for name, value in distances.items())
    times = f'{{"version":1,"classes":{{"default":1}},"services":{{"default":10}},"alarm":10,"interrupt":10,"ticks":{{"C":1}},"distances":{{{named}}}}}\n'
    return {"s.oil": (oil + "};\n").encode(), "s.elf": elf(words, entries), "s.json": times.encode()}


def main():
    tasks, resources, interrupts, nodes = map(int, sys.argv[1:5])
    os.makedirs(sys.argv[5], exist_ok=True)
    for name, content in large(tasks, resources, interrupts, nodes).items():
        with open(os.path.join(sys.argv[5], name), "wb") as out:
            out.write(content)


if __name__ == "__main__":
    if len(sys.argv) != 6 or not all(word.isdigit() for word in sys.argv[1:5]):
        sys.exit(__doc__)
    main()
