"""Bounds every task of a system, and leaves a report in a folder.

    tools/analyse PROJECT.toml [--out FOLDER] [--jobs N] [--plan]
    tools/analyse OIL ELF TIMING [--schedule FILE] [--out FOLDER] [--jobs N] [--plan]
    tools/analyse --init PROJECT.toml OIL ELF TIMING

What syswcet says of the OIL file and the code, the list of scheduler states, a certificate for each task, found by
`syswcet certify`, or by tools/outside_bound where the tables are too large, and judged by `syswcet check`; what `syswcet loops`
finds of declared bounds; and the run of a schedule, where one is named. All tasks are bounded at once, N processes at most, as
many as there are processors by default. What was found for the same files by the same program is kept in the folder, and
isn't sought again.

PROJECT.toml names the files, from its folder on: `oil`, `elf` and `timing`, and where wanted `schedule`, `states`, `out`,
`jobs`, and a table `deadlines` with cycles for names of tasks. --init writes one.

--plan writes the certificates' commands into FOLDER/plan, one a line, for GNU parallel or share/slurm/certify.sh in place of
this machine; the next call without it takes what they found (docs/ANALYSE.md).

On standard output stands a table; in FOLDER (analysis, by default) summary.json, junit.xml, the certificates and what each
step said. Every bound is one that `syswcet check` printed. The status is 0 where each task has a bound and no deadline is
late, 1 where one is late, 2 where a bound is missing, 3 where an input has a fault.
"""
import hashlib
import json
import os
import re
import shlex
import subprocess
import sys
import time
import tomllib
from concurrent.futures import ThreadPoolExecutor
from dataclasses import dataclass, field
from xml.sax.saxutils import escape, quoteattr

from programs import ROOT, found

MET, LATE, MISSING, FAULT = range(4)
# answers of certify after which an outside solver may find a bound: a limit was passed, a number left its range
OUTSIDE = (5, 6)
BAR = 20


class Stop(Exception):
    """An input has a fault, in words for the user."""


def tell(text):
    # one write, since several threads tell
    sys.stderr.write(f"analyse: {text}\n")


# ---- Words and the project

@dataclass
class Project:
    oil: str
    elf: str
    timing: str
    out: str = "analysis"
    jobs: int = os.cpu_count() or 1
    schedule: "str | None" = None
    states: "str | None" = None
    deadlines: dict[str, int] = field(default_factory=dict)
    is_plan: bool = False

    @property
    def files(self):
        return [self.oil, self.elf, self.timing]


def usage():
    print(__doc__, file=sys.stderr, end="")
    sys.exit(FAULT)


def count_in(text, what):
    if not re.fullmatch(r"[1-9][0-9]{0,3}", text):
        raise Stop(f"{what} {text!r}: a number from 1 to 9999 is wanted")
    return int(text)


def project_of(given):
    names, options, is_plan = [], {}, False
    while given:
        word = given.pop(0)
        if word == "--plan":
            is_plan = True
        elif word in ("--out", "--jobs", "--schedule"):
            if not given or word in options:
                usage()
            options[word] = given.pop(0)
        elif word.startswith("--"):
            usage()
        else:
            names.append(word)
    if len(names) == 1:
        project = project_in(names[0])
    elif len(names) == 3:
        project = Project(*names)
    else:
        usage()
    project.out = options.get("--out", project.out)
    project.schedule = options.get("--schedule", project.schedule)
    project.is_plan = is_plan
    if "--jobs" in options:
        project.jobs = count_in(options["--jobs"], "--jobs")
    for path in [*project.files, project.schedule, project.states]:
        if path and not os.path.isfile(path):
            raise Stop(f"{path}: there is no such file")
    return project


def project_in(path):
    """The project of a file, whose names are from its folder on."""
    try:
        with open(path, "rb") as file:
            said = tomllib.load(file)
    except OSError as error:
        raise Stop(f"{path}: {error.strerror}") from error
    except (tomllib.TOMLDecodeError, UnicodeDecodeError) as error:
        raise Stop(f"{path}: {error}") from error
    with open(path, encoding="utf-8") as file:
        lines = file.read().splitlines()

    def fault(key, text):
        line = next((place for place, each in enumerate(lines, 1) if re.match(rf"\s*\[?\s*\"?{re.escape(key)}\b", each)), len(lines))
        return Stop(f"{path}, line {line}: {key} {text}")

    folder = os.path.dirname(path)
    known = {"oil", "elf", "timing", "schedule", "states", "out"}
    for key, value in said.items():
        if key not in known | {"jobs", "deadlines"}:
            raise fault(key, "is no key of a project")
        if key in known and (not isinstance(value, str) or not value):
            raise fault(key, "isn't the name of a file, as a text")
    if not {"oil", "elf", "timing"} <= set(said):
        raise fault("oil", "or elf or timing is missing")
    jobs, deadlines = said.pop("jobs", os.cpu_count() or 1), said.pop("deadlines", {})
    if not isinstance(jobs, int) or isinstance(jobs, bool) or not 1 <= jobs <= 9999:
        raise fault("jobs", "isn't a number from 1 to 9999")
    if not isinstance(deadlines, dict):
        raise fault("deadlines", "isn't a table")
    for name, cycles in deadlines.items():
        if not isinstance(cycles, int) or isinstance(cycles, bool) or not 1 <= cycles < 1 << 63:
            raise fault(name, "isn't a deadline, a number of cycles above 0")
    paths = {key: os.path.normpath(os.path.join(folder, value)) for key, value in said.items()}
    return Project(**paths, jobs=jobs, deadlines=deadlines)


def begin_project(given):
    if len(given) != 4:
        usage()
    path, *files = given
    if os.path.exists(path):
        raise Stop(f"{path}: it is there already")
    for file in files:
        if not os.path.isfile(file):
            raise Stop(f"{file}: there is no such file")
    folder = os.path.dirname(os.path.abspath(path))
    named = "".join(f"{key} = {json.dumps(os.path.relpath(file, folder))}\n" for key, file in zip(("oil", "elf", "timing"), files))
    write_beside(path, f"# What tools/analyse reads; names of files are from this folder on.\n{named}"
                       "# schedule = \"schedule.json\"\n# out = \"analysis\"\n# jobs = 4\n\n"
                       "# the most cycles from a task's activation to its end\n[deadlines]\n# Control = 10000\n")
    tell(f"{path} is written; deadlines and a schedule may be named in it")
    return MET


# ---- Files

def write_beside(path, text):
    """Writes the file whole, or leaves it as it was."""
    beside = f"{path}.part{os.getpid()}"
    try:
        with open(beside, "wb") as out:
            out.write(text if isinstance(text, bytes) else text.encode())
        os.replace(beside, path)
    except OSError as error:
        if os.path.exists(beside):
            os.remove(beside)
        raise Stop(f"{path}: {error.strerror}") from error


def digest_of(path):
    with open(path, "rb") as file:
        return hashlib.file_digest(file, "sha256").hexdigest()


# ---- Remedies

def remedies():
    """The rows of the guide's tables of answers: a pattern, what it means, what to do."""
    paths = [os.path.join(ROOT, "docs", "GUIDE.md"), os.path.join(os.path.dirname(os.path.dirname(ROOT)), "share", "doc", "syswcet", "GUIDE.md")]
    path = next((path for path in paths if os.path.exists(path)), None)
    if not path:
        return []
    rows = []
    with open(path, encoding="utf-8") as file:
        for line in file:
            cells = [cell.strip() for cell in line.strip().strip("|").split(" | ")]
            if len(cells) == 3 and re.match(r"\d", cells[0]):
                texts = re.findall(r"`([^`]+)`", cells[0])
                first = texts[0].split() if texts else []
                for text in texts:
                    words = text.split() if " " in text or text is texts[0] else first[:-1] + [text]
                    pattern = r" ".join(r"\S+" if word == ".." or re.fullmatch(r"[A-Z]+", word) else re.escape(word) for word in words)
                    rows.append((re.compile(pattern + r"( |$)"), cells[1], cells[2]))
    return rows


def remedy(text):
    """What the guide says of an answer."""
    line = text.split("\n")[0]
    for pattern, meaning, action in remedies():
        if pattern.match(line):
            return f"{line}\n    it means: {meaning}\n    what to do: {action}"
    return line


# ---- Steps

@dataclass
class Answer:
    status: int
    text: str
    said: str = ""


class Steps:
    """Runs of programs, whose answers are kept by the digests of what they read."""

    def __init__(self, project):
        self.folder = project.out
        self.kept = os.path.join(self.folder, "kept")
        self.digests = {}
        try:
            os.makedirs(self.kept, exist_ok=True)
        except OSError as error:
            raise Stop(f"{self.kept}: {error.strerror}") from error
        self.program, self.lister = program("syswcet"), program("list_states")
        self.done, self.all = 0, 0

    def digest(self, path):
        if path not in self.digests:
            self.digests[path] = digest_of(path)
        return self.digests[path]

    def key(self, typed):
        """The digest of the words, with those of the files that they name in place of names."""
        parts = [self.digest(word) if os.path.isfile(word) else word for word in typed]
        return hashlib.sha256("\0".join(parts).encode()).hexdigest()

    def run(self, what, typed):
        path = os.path.join(self.kept, self.key(typed))
        start = time.monotonic()
        if os.path.exists(path):
            with open(path, encoding="utf-8") as file:
                status, text = file.read().split("\n", 1)
            self.passed(what, "kept")
            return Answer(int(status), text)
        done = subprocess.run(typed, capture_output=True, check=False)
        answer = Answer(done.returncode, done.stdout.decode(errors="replace"), done.stderr.decode(errors="replace"))
        # an answer of the program's own is the same each time; what a signal or want of memory leaves isn't
        if answer.status in range(8) and not answer.said:
            write_beside(path, f"{answer.status}\n{answer.text}")
        self.passed(what, f"{time.monotonic() - start:.1f} s" + (f", status {answer.status}" if answer.status else ""))
        return answer

    def passed(self, what, how):
        self.done += 1
        if sys.stderr.isatty() and self.all:
            filled = BAR * self.done // max(self.all, self.done)
            end = "\n" if self.done >= self.all else ""
            print(f"\r\033[K[{'#' * filled}{'.' * (BAR - filled)}] {what}: {how}", end=end, file=sys.stderr, flush=True)
        else:
            tell(f"{what}: {how}")


def program(name):
    path = found(name)
    if not path:
        raise Stop(f"the program {name} isn't there: ./syswcet and tools/list_states build theirs; SYSWCET_PROGRAMS may name a folder of them")
    return path


def due(answer, name, folder):
    """The text of an answer, which is kept in the folder; a fault where it is none."""
    if answer.status:
        raise Stop(remedy(answer.text or answer.said or f"{name} ended with status {answer.status}"))
    write_beside(os.path.join(folder, name), answer.text)
    return answer.text


def states_of(steps, project):
    """The path of the list of states."""
    if project.states:
        return project.states
    answer = steps.run("list_states", [steps.lister, *project.files])
    if answer.status:
        raise Stop(f"list_states: {remedy((answer.said or answer.text).strip())}")
    write_beside(os.path.join(project.out, "states.json"), answer.text)
    return os.path.join(project.out, "states.json")


@dataclass
class Task:
    name: str
    bound: "int | None" = None
    by: str = ""
    text: str = ""
    seconds: float = 0.0
    seen: "int | None" = None
    deadline: "int | None" = None

    @property
    def is_late(self):
        return self.bound is not None and self.deadline is not None and self.bound > self.deadline


def cert_path(project, name):
    return os.path.join(project.out, f"{name}.cert.json")


def planned(steps, project, states, name):
    """Where the plan's command for the task leaves its certificate: another place for other inputs."""
    key = steps.key([steps.program, *project.files, states])
    return os.path.join(project.out, "planned", key[:16], f"{name}.cert.json")


def bounded(steps, project, states, name):
    """A task with its bound, or with what is said in its place."""
    start = time.monotonic()
    task, path = Task(name, deadline=project.deadlines.get(name)), cert_path(project, name)
    ready = planned(steps, project, states, name)
    if os.path.exists(ready):
        task.by = "plan"
        with open(ready, encoding="utf-8") as file:
            certificate = Answer(0, file.read())
    else:
        task.by = "certify"
        certificate = steps.run(f"certify {name}", [steps.program, "certify", *project.files, name, states])
    if certificate.status in OUTSIDE:
        task.by = "outside solver"
        certificate = outside(steps, project, states, name, certificate)
    if certificate.status:
        task.text = certificate.text or certificate.said
    else:
        write_beside(path, certificate.text)
        checked = steps.run(f"check {name}", [steps.program, "check", *project.files, name, path])
        found_bound = re.fullmatch(rf"yes {re.escape(name)} (\d+)\n", checked.text)
        if checked.status == 0 and found_bound:
            task.bound = int(found_bound[1])
        else:
            task.text = checked.text or checked.said
    task.seconds = time.monotonic() - start
    return task


def outside(steps, project, states, name, refused):
    """A certificate of an outside solver; the refusal where there is none."""
    path = cert_path(project, name) + f".outside{os.getpid()}"
    try:
        answer = steps.run(f"outside_bound {name}", [os.path.join(ROOT, "tools", "outside_bound"), *project.files, name, states, path])
        if answer.status or not os.path.exists(path):
            return Answer(refused.status, refused.text.strip() + "; " + answer.said.strip().split("\n")[-1])
        with open(path, encoding="utf-8") as file:
            return Answer(0, file.read())
    finally:
        if os.path.exists(path):
            os.remove(path)


def second_opinion(steps, project, states, name):
    """What `loops` says of the declared bounds, as (from, to, declared, found) for each loop that the code tells of."""
    with open(project.timing, encoding="utf-8") as file:
        if not json.load(file).get("loops"):
            return []
    answer = steps.run("loops", [steps.program, "loops", *project.files, name, states])
    if answer.status:
        tell(f"loops says {answer.text.strip()}: no second opinion on declared bounds")
        return []
    write_beside(os.path.join(project.out, "loops.txt"), answer.text)
    lines = re.findall(r"^([0-9a-f]{8}) ([0-9a-f]{8}) declared (\d+) found (\d+)$", answer.text, re.M)
    return [(begin, end, int(declared), int(told)) for begin, end, declared, told in lines]


def replayed(steps, project, tasks):
    """Puts the longest response of the schedule's run beside each task's bound."""
    answer = steps.run("replay", [steps.program, "replay", *project.files, project.schedule])
    text = due(answer, "replay.txt", project.out)
    by_name = {task.name: task for task in tasks}
    for name, cycles, how in re.findall(r"^(\S+) \d+ (\d+) (ended|open)$", text, re.M):
        if how == "ended" and name in by_name:
            by_name[name].seen = max(int(cycles), by_name[name].seen or 0)


# ---- The report

def table_of(tasks):
    has_seen, has_deadline = any(task.seen is not None for task in tasks), any(task.deadline for task in tasks)
    rows = [["task", "bound"] + ["seen"] * has_seen + ["deadline", "share"] * has_deadline]
    for task in tasks:
        row = [task.name, "none" if task.bound is None else str(task.bound)]
        if has_seen:
            row.append("-" if task.seen is None else str(task.seen))
        if has_deadline:
            row += [str(task.deadline) if task.deadline else "-", share_of(task)]
        rows.append(row)
    widths = [max(len(row[column]) for row in rows) for column in range(len(rows[0]))]
    lines = []
    for row in rows:
        cells = [row[0].ljust(widths[0])] + [cell.ljust(width) if has_deadline and place == len(row) - 1 else cell.rjust(width)
                                             for place, (cell, width) in enumerate(zip(row[1:], widths[1:]), 1)]
        lines.append("  ".join(cells).rstrip())
    return "\n".join(lines) + "\n"


def share_of(task):
    if task.bound is None or not task.deadline:
        return "-"
    # rounded up, so that no share above the whole looks like one within it
    percent = -(-100 * task.bound // task.deadline)
    filled = min(BAR, BAR * task.bound // task.deadline)
    return f"[{'#' * filled}{'.' * (BAR - filled)}] {percent} %" + (" LATE" if task.is_late else "")


NOTE = ("A bound is in cycles, from a task's activation, as the kernel takes its alarm or interrupt, to its end. The time from an\n"
        "arrival to its taking isn't in it. It is as true as what the timing file declares.\n")


def status_of(tasks, wrong):
    if wrong:
        return FAULT
    if any(task.bound is None for task in tasks):
        return MISSING
    return LATE if any(task.is_late for task in tasks) else MET


def write_reports(project, steps, tasks, opinions, status):
    summary = {
        "status": status,
        "files": {name: {"path": path, "sha256": steps.digest(path)} for name, path in zip(("oil", "elf", "timing"), project.files)},
        "program": steps.digest(steps.program),
        "note": NOTE.replace("\n", " ").strip(),
        "tasks": [{"task": task.name, "bound": task.bound, "by": task.by, "seen": task.seen, "deadline": task.deadline,
                   "late": task.is_late, "text": task.text.strip(),
                   "certificate": os.path.basename(cert_path(project, task.name)) if task.bound is not None else None} for task in tasks],
        "loops": [{"from": begin, "to": end, "declared": declared, "found": told} for begin, end, declared, told in opinions],
    }
    write_beside(os.path.join(project.out, "summary.json"), json.dumps(summary, indent=2) + "\n")
    cases, failed = "", 0
    for task in tasks:
        why = "no bound: " + remedy(task.text) if task.bound is None else f"bound {task.bound}, deadline {task.deadline}" if task.is_late else ""
        failed += bool(why)
        inner = f"<failure message={quoteattr(why)}/>" if why else f"<system-out>{escape(f'bound {task.bound}')}</system-out>"
        cases += f'  <testcase classname="bound" name={quoteattr(task.name)} time="{task.seconds:.2f}">{inner}</testcase>\n'
    write_beside(os.path.join(project.out, "junit.xml"), '<?xml version="1.0" encoding="UTF-8"?>\n'
                 f'<testsuite name="syswcet" tests="{len(tasks)}" failures="{failed}">\n{cases}</testsuite>\n')


# ---- All of it

def write_plan(steps, project, states, names):
    lines = []
    for name in names:
        path = os.path.abspath(planned(steps, project, states, name))
        os.makedirs(os.path.dirname(path), exist_ok=True)
        typed = shlex.join([os.path.abspath(steps.program), "certify", *map(os.path.abspath, project.files), name, os.path.abspath(states)])
        part, whole = shlex.quote(path + ".part"), shlex.quote(path)
        lines.append(f"{typed} > {part} && mv {part} {whole}\n")
    path = os.path.join(project.out, "plan")
    write_beside(path, "".join(lines))
    print(f"{path}: {len(lines)} commands\n  parallel --jobs {project.jobs} < {path}\n"
          f"  sbatch --array=1-{len(lines)} share/slurm/certify.sh {path}")
    return MET


def analysed(project):
    steps = Steps(project)
    start = time.monotonic()
    due(steps.run("show oil", [steps.program, "show", "oil", project.oil]), "system.oil", project.out)
    code = due(steps.run("show code", [steps.program, "show", "code", *project.files]), "code.txt", project.out)
    with open(os.path.join(project.out, "system.oil"), encoding="utf-8") as file:
        named = re.findall(r"^  TASK (\S+) \{$", file.read(), re.M)
    # tasks come first in `show code`, in the order of the OIL file
    names = [line.split()[0] for line in code.splitlines() if line.split()[0] in named]
    for name in project.deadlines:
        if name not in names:
            raise Stop(f"deadlines: the system has no task {name}")
    states = states_of(steps, project)
    if project.is_plan:
        return write_plan(steps, project, states, names)
    steps.all = steps.done + 2 * len(names) + 1 + bool(project.schedule)
    with ThreadPoolExecutor(project.jobs) as pool:
        opinion = pool.submit(second_opinion, steps, project, states, names[0])
        tasks = list(pool.map(lambda name: bounded(steps, project, states, name), names))
        opinions = opinion.result()
    if project.schedule:
        replayed(steps, project, tasks)
    wrong = 0
    for begin, end, declared, told in opinions:
        if declared != told:
            tell(f"the loop from 0x{begin} to 0x{end} is declared to go back {declared} times, and its code goes back {told} times")
            wrong += declared < told
    for task in tasks:
        if task.bound is None:
            tell(f"{task.name} has no bound: {remedy(task.text)}")
        elif task.seen is not None and task.seen > task.bound:
            tell(f"{task.name} took {task.seen} cycles in the replayed run, more than its bound {task.bound}, against the program's proof")
            wrong += 1
    status = status_of(tasks, wrong)
    write_reports(project, steps, tasks, opinions, status)
    print(table_of(tasks) + NOTE, end="")
    tell(f"{len(tasks)} tasks in {time.monotonic() - start:.1f} s; the report is in {project.out}")
    return status


def main():
    given = sys.argv[1:]
    try:
        if given[:1] == ["--init"]:
            return begin_project(given[1:])
        return analysed(project_of(given))
    except Stop as stop:
        tell(stop)
        return FAULT
    except KeyboardInterrupt:
        tell("stopped; what was found is kept")
        return 130


if __name__ == "__main__":
    sys.exit(main())
