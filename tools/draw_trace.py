#!/usr/bin/env python3
"""Draws a recording of the kernel's events as an SVG picture on standard output.

    tools/draw_trace.py OIL ELF TRACE [TASK N ..] [--from T] [--to T] [--width W]

TRACE is a recording as `trace record` writes it. Time runs from left to right, with a line for each
interrupt service routine and each task, the greatest priority first. Dark: the context runs; hatched:
it is ready but one of less priority runs, whose ceiling or lock holds it off; pale: it is ready, and
one that goes first runs. Grey on top of a line: the kernel takes a source or serves a call. Triangles
are arrivals, ticks are calls. A frame round a line: the task holds resources, or its inner ceiling is in
force (that of an internal resource, or of a task that can't be preempted). The whole height is shaded
while interrupts are disabled or suspended. Below a task's line stands each of its activations with its
response in cycles, and with the bound of the task where `TASK N` gives one, as `all` writes it.

Only the Python standard library is used. The reader of OIL knows what the picture needs, and no more.
"""
import json
import re
import struct
import sys
from html import escape

SERVICES = {1: "ActivateTask", 2: "TerminateTask", 3: "ChainTask", 4: "GetResource", 5: "ReleaseResource",
            6: "DisableAllInterrupts", 7: "EnableAllInterrupts", 8: "SuspendAllInterrupts",
            9: "ResumeAllInterrupts", 10: "SuspendOSInterrupts", 11: "ResumeOSInterrupts", 12: "Schedule",
            15: "EndISR"}
LABELS = {"ActivateTask": "activate", "TerminateTask": "end", "ChainTask": "chain", "GetResource": "get",
          "ReleaseResource": "release", "DisableAllInterrupts": "disable", "EnableAllInterrupts": "enable",
          "SuspendAllInterrupts": "suspend", "ResumeAllInterrupts": "resume", "SuspendOSInterrupts": "suspend",
          "ResumeOSInterrupts": "resume", "Schedule": "schedule", "EndISR": "end"}
ROW, BAR, LEFT, TOP = 58, 20, 130, 46
COLOURS = ["#3465a4", "#c1762b", "#4e8a3a", "#8a4e8a", "#b03a48", "#2f8f8f", "#7a6a2e", "#5a5a9a"]


# ---- OIL

def words_of(text):
    text = re.sub(r'/\*.*?\*/|//[^\n]*|"[^"]*"', lambda m: '""' if m.group()[0] == '"' else " ", text, flags=re.S)
    return re.findall(r'[A-Za-z_][A-Za-z0-9_]*|0[xX][0-9a-fA-F]+|[0-9]+|[{};=:,]|""', text)


def skip_block(words, i):
    depth = 1
    while depth:
        depth += {"{": 1, "}": -1}.get(words[i], 0)
        i += 1
    return i


def attributes(words, i):
    """The attributes of a block from its first word on, as (name, value, block), and where it ends."""
    found = []
    while words[i] != "}":
        if words[i] == ";":
            i += 1
            continue
        name, value, block, i = words[i], None, [], i + 1
        if words[i] == "=":
            value, i = words[i + 1], i + 2
        if words[i] == "{":
            block, i = attributes(words, i + 1)
        while words[i] in (":", '""'):
            i += 1
        found.append((name, value, block))
    return found, i + 1


def read_oil(text):
    words = words_of(text)
    i = words.index("CPU")
    while i > 0 and words[i - 1] not in ("}", ";", '""'):
        i = words.index("CPU", i + 1)
    i = words.index("{", i) + 1
    objects = []
    while words[i] != "}":
        kind, name, i = words[i], words[i + 1], i + 2
        block = []
        if words[i] == "{":
            block, i = attributes(words, i + 1)
        while words[i] in (";", ":", '""'):
            i += 1
        objects.append((kind, name, block))
    return objects


def values(block, name):
    return [value for n, value, _ in block if n == name]


def first_block(block, name):
    return next(((value, inner) for n, value, inner in block if n == name), (None, []))


class System:
    def __init__(self, objects):
        def of(kind):
            return [(name, block) for k, name, block in objects if k == kind]

        self.modes = [name for name, _ in of("APPMODE")]
        self.isrs = [name for name, _ in of("ISR")]
        self.tasks = [name for name, _ in of("TASK")]
        blocks = dict(of("TASK"))
        self.priority = {t: int((values(blocks[t], "PRIORITY") or ["0"])[0], 0) for t in self.tasks}
        top = max(self.priority.values(), default=0)
        named = {t: values(blocks[t], "RESOURCE") for t in self.tasks}
        declared = [r for r, _ in of("RESOURCE")]
        self.resources = [r for r in declared if r != "RES_SCHEDULER"] + ["RES_SCHEDULER"]
        self.ceiling = {r: max((self.priority[t] for t in self.tasks if r in named[t]), default=0) for r in declared}
        self.ceiling["RES_SCHEDULER"] = top
        internal = [r for r, b in of("RESOURCE") if values(b, "RESOURCEPROPERTY") == ["INTERNAL"]]
        self.inner = {}
        for t in self.tasks:
            mine = [self.ceiling[r] for r in named[t] if r in internal]
            whole = values(blocks[t], "SCHEDULE") == ["NON"]
            self.inner[t] = top if whole else max(mine) if mine else None
        self.starts = {t: self.modes_of(first_block(blocks[t], "AUTOSTART")) for t in self.tasks}
        self.alarms = {}
        for name, block in of("ALARM"):
            _, action = first_block(block, "ACTION")
            self.alarms[name] = (values(action, "TASK") or [None])[0]

    @staticmethod
    def modes_of(start):
        value, inner = start
        return values(inner, "APPMODE") if value == "TRUE" else []


# ---- ELF: the words that load a service's argument and number before its ECALL

class Image:
    def __init__(self, data):
        (offset,), (size, count) = struct.unpack_from("<I", data, 28), struct.unpack_from("<HH", data, 42)
        self.parts = []
        for i in range(count):
            kind, at, address, _, length = struct.unpack_from("<5I", data, offset + i * size)
            if kind == 1:
                self.parts.append((address, data[at:at + length]))

    def word(self, address):
        for start, part in self.parts:
            if start <= address and address + 4 <= start + len(part):
                return struct.unpack_from("<I", part, address - start)[0]
        return 0

    def service(self, address):
        number, argument = self.word(address - 4) >> 20, self.word(address - 8) >> 20
        return SERVICES.get(number, "?"), argument


# ---- The kernel, event by event

class Kernel:
    def __init__(self, system, mode):
        self.system, self.isr, self.disabled, self.suspended = system, None, False, 0
        self.active = {t: [[], False] for t in system.tasks if mode in system.starts[t]}
        self.dispatch()

    def current(self, task):
        held, inner = self.active[task]
        own = self.system.priority[task]
        ceilings = [self.system.ceiling[r] for r in held] + ([self.system.inner[task]] if inner else [])
        return max([own] + ceilings), bool(held) or inner, own

    def running(self):
        if self.isr:
            return self.isr
        return max(self.active, key=self.current, default=None)

    def dispatch(self):
        running = self.running()
        if running in self.active and self.system.inner[running] is not None:
            self.active[running][1] = True

    def activate(self, task):
        if task is not None and task not in self.active:
            self.active[task] = [[], False]
            return task
        return None

    def take(self, source):
        begun = None
        if source in self.system.alarms:
            begun = self.activate(self.system.alarms[source])
        else:
            self.isr = source
        self.dispatch()
        return begun

    def serve(self, context, service, argument):
        """What the service ends and begins."""
        ended = begun = None

        def name(names):
            return names[argument] if argument < len(names) else None

        if service in ("TerminateTask", "ChainTask") and context in self.active:
            del self.active[context]
            ended = context
        if service in ("ActivateTask", "ChainTask"):
            begun = self.activate(name(self.system.tasks))
        elif service == "EndISR":
            self.isr = None
        elif service == "GetResource" and context in self.active:
            self.active[context][0].append(name(self.system.resources))
        elif service == "ReleaseResource" and context in self.active and self.active[context][0]:
            self.active[context][0].pop()
        elif service == "Schedule" and context in self.active:
            self.active[context][1] = False
        elif service in ("DisableAllInterrupts", "EnableAllInterrupts"):
            self.disabled = service == "DisableAllInterrupts"
        elif service.startswith("Suspend"):
            self.suspended += 1
        elif service.startswith("Resume"):
            self.suspended = max(0, self.suspended - 1)
        self.dispatch()
        return ended, begun

    def standing(self):
        """Of each active context: whether it runs, is ready, or is held off; its ceilings; and the lock."""
        running, state = self.running(), {}
        for task in self.active:
            below = running in self.active and self.system.priority[running] < self.system.priority[task]
            held, inner = self.active[task]
            ceilings = [(r, self.system.ceiling[r]) for r in held] + ([("inner", self.system.inner[task])] if inner else [])
            state[task] = ("run" if task == running else "held" if below else "ready", ceilings)
        if self.isr:
            state[self.isr] = ("run", [])
        return state, self.disabled or self.suspended > 0


def follow(system, image, trace):
    kernel = Kernel(system, trace["mode"])
    since, spans, responses, arrivals, calls, work = {t: 0 for t in kernel.active}, [], [], [], [], []
    last = 0
    for event in trace["events"]:
        if event[0] == "arrive":
            arrivals.append((event[1], event[2]))
            continue
        start, end = event[1], event[2]
        spans.append((last, end, *kernel.standing()))
        last = end
        if event[0] == "take":
            ended, begun, label = None, kernel.take(event[3]), "take " + event[3]
            work.append((start, end, system.alarms.get(event[3]) or event[3]))
        else:
            service, argument = image.service(event[5])
            ended, begun = kernel.serve(event[3], service, argument)
            names = system.tasks if service in ("ActivateTask", "ChainTask") else system.resources
            shown = names[argument] if service in ("ActivateTask", "ChainTask", "GetResource", "ReleaseResource") \
                and argument < len(names) else ""
            label = (LABELS.get(service, service) + " " + shown).strip()
            calls.append((start, event[3], label))
            work.append((start, end, event[3]))
        if ended in since:
            responses.append((ended, since.pop(ended), end, True))
        if begun is not None:
            since[begun] = start
    spans.append((last, max(last, trace["end"]), *kernel.standing()))
    responses += [(task, start, trace["end"], False) for task, start in since.items()]
    return spans, responses, arrivals, calls, work


# ---- The picture

class Picture:
    def __init__(self, system, trace, bounds, low, high, width):
        self.system, self.bounds, self.low, self.high = system, bounds, low, max(high, low + 1)
        self.rows = system.isrs + sorted(system.tasks, key=lambda t: -system.priority[t])
        self.colour = {t: COLOURS[i % len(COLOURS)] for i, t in enumerate(system.tasks)}
        self.colour.update({i: "#555753" for i in system.isrs})
        self.width, self.height = width, TOP + ROW * len(self.rows) + 34
        self.scale = (width - LEFT - 24) / (self.high - self.low)
        self.title = f"mode {trace['mode']}, {len(trace['events'])} events, end {trace['end']}"
        self.out, self.taken = [], {}

    def x(self, moment):
        return LEFT + (min(max(moment, self.low), self.high) - self.low) * self.scale

    def y(self, context):
        return TOP + ROW * self.rows.index(context)

    def seen(self, start, end):
        return end >= self.low and start <= self.high

    def put(self, line):
        self.out.append(line)

    def box(self, start, end, y, height, style, title=""):
        width = max(self.x(end) - self.x(start), 0.6)
        self.put(f'<rect x="{self.x(start):.1f}" y="{y:.1f}" width="{width:.1f}" height="{height}" {style}>'
                 f'<title>{escape(title)}</title></rect>')

    def text(self, x, y, words, size=10, style="", row=None):
        """Writes the words, unless they would lie over others of the same row."""
        length = len(words) * size * 0.56
        if row is not None:
            if x < self.taken.get(row, -1e9):
                return
            self.taken[row] = x + length + 4
        self.put(f'<text x="{x:.1f}" y="{y:.1f}" font-size="{size}" {style}>{escape(words)}</text>')

    def frame(self):
        self.put('<defs><pattern id="held" width="6" height="6" patternUnits="userSpaceOnUse" '
                 'patternTransform="rotate(45)"><rect width="6" height="6" fill="#fff"/>'
                 '<rect width="2.5" height="6" fill="#cc0000"/></pattern></defs>')
        self.put(f'<rect width="{self.width}" height="{self.height}" fill="#fff"/>')
        self.text(12, 20, self.title, 13, 'font-weight="bold"')
        for row in self.rows:
            y = self.y(row)
            kind = f"priority {self.system.priority[row]}" if row in self.system.priority else "ISR"
            self.text(12, y + 26, row, 13, f'font-weight="bold" fill="{self.colour[row]}"')
            self.text(12, y + 39, kind, 9, 'fill="#666"')
            self.put(f'<line x1="{LEFT}" y1="{y + 34}" x2="{self.width - 24}" y2="{y + 34}" stroke="#ccc"/>')
        step = next(s for n in range(20) for s in (10 ** n, 2 * 10 ** n, 5 * 10 ** n) if s * self.scale >= 70)
        bottom = self.height - 28
        for moment in range(self.low - self.low % step + (step if self.low % step else 0), self.high + 1, step):
            self.put(f'<line x1="{self.x(moment):.1f}" y1="{TOP - 8}" x2="{self.x(moment):.1f}" y2="{bottom}" stroke="#eee"/>')
            self.text(self.x(moment) - 3, bottom + 14, str(moment), 10, 'fill="#444"')
        self.text(LEFT, bottom + 26, "cycles", 9, 'fill="#666"')

    def spans(self, spans):
        for start, end, _, locked in spans:
            if locked and end > start and self.seen(start, end):
                self.box(start, end, TOP - 6, ROW * len(self.rows), 'fill="#fce94f" opacity="0.35"', "interrupts are locked")
        for start, end, standing, _ in spans:
            if end <= start or not self.seen(start, end):
                continue
            for context, (state, held) in standing.items():
                y, fill = self.y(context) + 14, self.colour[context]
                style = {"run": f'fill="{fill}"', "ready": f'fill="{fill}" opacity="0.22"', "held": 'fill="url(#held)"'}[state]
                told = {"run": "runs", "ready": "is ready", "held": "is held off"}[state]
                self.box(start, end, y, BAR, style, f"{context} {told} from {start} to {end}")
                if held:
                    tops = ", ".join(f"{r} (ceiling {ceiling})" for r, ceiling in held)
                    self.box(start, end, y - 3, BAR + 6, 'fill="none" stroke="#000" stroke-width="1.4"', "holds " + tops)
                    self.text(self.x(start) + 3, y + 14, "+".join(r for r, _ in held), 9, 'fill="#fff"' if state == "run" else "", ("held", context))

    def marks(self, arrivals, calls, work):
        for start, end, context in work:
            if context in self.rows and self.seen(start, end):
                self.box(start, end, self.y(context) + 9, 4, 'fill="#2e3436"', f"kernel from {start} to {end}")
        for at, source in arrivals:
            context = self.system.alarms.get(source) or source
            if context in self.rows and self.seen(at, at):
                x, y = self.x(at), self.y(context) + 34
                self.put(f'<path d="M{x:.1f} {y} l-4 8 l8 0 z" fill="#a40000"><title>{escape(source)} arrives at {at}</title></path>')
                self.text(x + 6, y + 9, source, 8, 'fill="#a40000"', ("arrive", context))
        for start, context, label in calls:
            if context in self.rows and self.seen(start, start):
                x, y = self.x(start), self.y(context)
                self.put(f'<line x1="{x:.1f}" y1="{y + 6}" x2="{x:.1f}" y2="{y + 34}" stroke="#000" stroke-width="0.7"/>')
                self.text(x + 2, y + 7, label, 8, "", ("call", context))

    def responses(self, responses):
        for task, start, end, ended in sorted(responses, key=lambda r: r[1]):
            if not self.seen(start, end):
                continue
            y, bound = self.y(task) + 47, self.bounds.get(task)
            over = bound is not None and end - start > bound
            style = f'stroke="{"#cc0000" if over else "#555"}"' + ("" if ended else ' stroke-dasharray="4 3"')
            self.put(f'<path d="M{self.x(start):.1f} {y - 3} v6 M{self.x(start):.1f} {y} H{self.x(end):.1f}'
                     + (' m0 -3 v6' if ended else '') + f'" fill="none" {style}/>')
            words = f"{end - start}" + ("" if bound is None else f" of {bound}") + ("" if ended else ", goes on")
            self.text(self.x(start) + 3, y + 9, words, 9, 'fill="#cc0000"' if over else 'fill="#333"', ("response", task))

    def svg(self):
        return "\n".join([f'<svg xmlns="http://www.w3.org/2000/svg" width="{self.width}" height="{self.height}" '
                          f'viewBox="0 0 {self.width} {self.height}" font-family="DejaVu Sans, sans-serif">',
                          *self.out, "</svg>"])


def main():
    words, options = sys.argv[1:], {}
    for name in ("--from", "--to", "--width"):
        if name in words:
            at = words.index(name)
            options[name], words = "".join(words[at + 1:at + 2]), words[:at] + words[at + 2:]
    numbers = [*options.values(), *words[4::2]]
    if len(words) < 3 or len(words) % 2 == 0 or not all(number.isdigit() for number in numbers):
        sys.exit(__doc__)
    options = {name: int(number) for name, number in options.items()}
    bounds = {words[i]: int(words[i + 1]) for i in range(3, len(words), 2)}
    try:
        with open(words[0], encoding="latin-1") as oil, open(words[1], "rb") as elf, open(words[2], encoding="utf-8") as text:
            system, image, trace = System(read_oil(oil.read())), Image(elf.read()), json.load(text)
        trace["mode"], trace["events"], trace["end"]
    except OSError as fault:
        sys.exit(f"draw_trace: {fault.filename}: {fault.strerror}")
    except (IndexError, KeyError, TypeError, ValueError, struct.error):
        sys.exit("draw_trace: one of the files isn't what its place is for; `show code` and `trace judge` say what is wrong with it")
    for task in bounds:
        if task not in system.tasks:
            sys.exit(f"draw_trace: the system has no task {task}")
    picture = Picture(system, trace, bounds, options.get("--from", 0), options.get("--to", trace["end"]),
                      options.get("--width", 1200))
    spans, responses, arrivals, calls, work = follow(system, image, trace)
    picture.frame()
    picture.spans(spans)
    picture.responses(responses)
    picture.marks(arrivals, calls, work)
    print(picture.svg())


if __name__ == "__main__":
    main()
