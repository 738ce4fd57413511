"""Runs draft and analyse over the examples and over damaged inputs.

    tools/check_tools

Of the kept pump and press draft gives the kept timing files. Compiled anew by each compiler that is here, with several
options, each has a bound for every loop by the same LOOP_BOUNDs, each task a bound, and none below what `replay` shows. Of
the other examples analyse gives the bounds that `all` does. Each damaged input ends with a status other than 0 and a message
that names it, with no Python traceback, and leaves no part of a file. What is installed and packed runs and goes again.
"""
import json
import os
import shutil
import subprocess
import sys
import tempfile

from programs import ROOT, found

COMPILERS = {"gcc": ("riscv64-unknown-elf-gcc",), "clang": ("clang", "ld.lld")}
OPTIONS = ("-O1", "-O2", "-Os", "-O3")
# gcc goes round both loops of `checked` by jumps to the same words, and their product takes more time than there is
WOVEN = {("pump", "gcc", "-O1")}
wrong = []


def fail(text):
    wrong.append(text)
    print(f"check_tools: {text}")


def run(*typed, text=None):
    return subprocess.run(list(typed), cwd=ROOT, capture_output=True, text=True, check=False, input=text)


def tool(name, *words):
    return run(os.path.join(ROOT, "tools", name), *words)


def example(*names):
    return os.path.join(ROOT, "examples", *names)


def has_programs(*names):
    lacking = [name for name in names if not found(name)]
    if lacking:
        print(f"check_tools: skipped what needs {', '.join(lacking)}, which isn't built")
    return not lacking


# ---- Examples

def kept_timings():
    for name in ("pump", "press"):
        oil, elf, timing = (example(name, f"{name}.{kind}") for kind in ("oil", "elf", "json"))
        done = tool("draft", oil, elf, "--old", timing, "--old-elf", elf)
        with open(timing, encoding="utf-8") as file:
            if done.returncode or json.loads(done.stdout) != json.load(file):
                fail(f"draft doesn't give {timing}: {done.stderr}")


def compiled(folder):
    """Each example by each compiler and option, where analyse finds a bound for each task, above what a run shows."""
    for compiler, tools in COMPILERS.items():
        lacking = [each for each in ("make", *tools) if not shutil.which(each)]
        if lacking:
            print(f"check_tools: skipped {compiler}, since {', '.join(lacking)} isn't here")
            continue
        for option in OPTIONS:
            for name in ("pump", "press"):
                one_compiled(folder, name, compiler, option)


def one_compiled(folder, name, compiler, option):
    place = os.path.join(folder, f"{name}{compiler}{option}")
    shutil.copytree(example("osek"), os.path.join(place, "osek"))
    shutil.copytree(example(name), os.path.join(place, name), ignore=shutil.ignore_patterns("*.o"))
    elf, timing = os.path.join(place, "new.elf"), os.path.join(place, "new.json")
    done = run("make", "-s", "-C", os.path.join(place, name), f"PROGRAM={elf}", f"COMPILER={compiler}", f"OPTIMIZE={option}")
    if done.returncode:
        fail(f"{name} by {compiler} {option} doesn't compile: {done.stderr}")
        return
    waits = ["--map", example(name, "map.json")] if os.path.exists(example(name, "map.json")) else []
    drawn = tool("draft", example(name, f"{name}.oil"), elf, "--old", example(name, f"{name}.json"), *waits)
    if drawn.returncode:
        fail(f"draft of {name} by {compiler} {option}: {drawn.stderr}")
        return
    with open(timing, "w", encoding="utf-8") as out:
        out.write(drawn.stdout)
    if not found("syswcet"):
        return
    words = [example(name, f"{name}.oil"), elf, timing, "--schedule", example(name, "schedule.json"), "--jobs", "1"]
    done = tool("analyse", *words, "--out", os.path.join(place, "out"))
    if done.returncode == 2 and (name, compiler, option) in WOVEN and "unbounded" in done.stderr:
        print(f"check_tools: {name} by {compiler} {option}: a task has no bound, since two of its loops are woven into one")
        return
    if done.returncode:
        fail(f"analyse of {name} by {compiler} {option}, status {done.returncode}: {done.stderr}")
        return
    with open(os.path.join(place, "out", "summary.json"), encoding="utf-8") as file:
        tasks = json.load(file)["tasks"]
    for task in tasks:
        if task["bound"] is None or (task["seen"] or 0) > task["bound"]:
            fail(f"{name} by {compiler} {option}: {task}")
    print(f"check_tools: {name} by {compiler} {option}: " + ", ".join(f"{task['task']} {task['bound']} seen {task['seen']}" for task in tasks))


def other_examples(folder):
    for name, states in (("demo", "k"), ("four", "k"), ("loop", "k"), ("compiled", "k"), ("pump", "states.json"), ("press", "states.json")):
        stem = "s" if states == "k" else name
        files = [example(name, f"{stem}.{kind}") for kind in ("oil", "elf", "json")]
        told = run(found("syswcet"), "all", *files, example(name, states))
        out = os.path.join(folder, name)
        done = tool("analyse", *files, "--out", out, "--jobs", "1")
        with open(os.path.join(out, "summary.json"), encoding="utf-8") as file:
            tasks = json.load(file)["tasks"]
        if done.returncode or "".join(f"{task['task']} {task['bound']}\n" for task in tasks) != told.stdout:
            fail(f"analyse of {name}, status {done.returncode}: {done.stdout}{done.stderr}, where `all` gives {told.stdout}")


def plans(folder):
    """The commands of a plan leave what the next analysis takes; what was found is kept."""
    files = [example("four", f"s.{kind}") for kind in ("oil", "elf", "json")]
    project, out = os.path.join(folder, "four.toml"), os.path.join(folder, "planned")
    begun = tool("analyse", "--init", project, *files)
    with open(project, "a", encoding="utf-8") as file:
        file.write("Ctrl = 1\n")
    written = tool("analyse", project, "--plan", "--out", out)
    with open(os.path.join(out, "plan"), encoding="utf-8") as file:
        done = run("bash", text=file.read())
    last = tool("analyse", project, "--out", out, "--jobs", "1")
    if begun.returncode or written.returncode or done.returncode or last.returncode != 1 or "LATE" not in last.stdout or "certify" in last.stderr:
        fail(f"a plan: {begun.stderr}{written.stderr}{done.stderr}{last.returncode} {last.stdout}{last.stderr}")


# ---- Damaged inputs

def damages(folder):
    """Words for draft and analyse, each with the file that is damaged."""
    oil, elf, timing = (example("pump", name) for name in ("pump.oil", "pump.elf", "pump.json"))
    with open(oil, "rb") as file:
        oil_bytes = file.read()
    with open(elf, "rb") as file:
        elf_bytes = file.read()
    with open(timing, "rb") as file:
        timing_bytes = file.read()

    def made(name, data):
        path = os.path.join(folder, name)
        with open(path, "wb") as out:
            out.write(data)
        return path

    mark = elf_bytes.index(b".syswcet.loops")
    for name, data in (("cut.oil", oil_bytes[:700]), ("byte.oil", oil_bytes.replace(b"TASK Speed", b"TASK \x80peed")), ("empty.oil", b"")):
        path = made(name, data)
        yield ["draft", path, elf], path
        yield ["analyse", path, elf, timing], path
    for name, data in (("cut.elf", elf_bytes[:3000]), ("text.elf", b"no program"), ("symbols.elf", elf_bytes.replace(b"Task_Speed", b"Task_Spoon")),
                       ("names.elf", elf_bytes[:mark] + b"\xff" * 60 + elf_bytes[mark + 60:])):
        path = made(name, data)
        yield ["draft", oil, path], path
        if name != "names.elf":
            yield ["analyse", oil, path, timing], path
    for name, data in (("comma.json", timing_bytes.replace(b"90,", b"90,,")), ("list.json", b"[]"),
                       ("classes.json", timing_bytes.replace(b'"classes": {', b'"classes": 7, "x": {'))):
        path = made(name, data)
        yield ["draft", oil, elf, "--old", path], path
        yield ["analyse", oil, elf, path], path
    path = made("blank.json", timing_bytes.replace(b"70", b'"cycles of taking an interrupt"'))
    yield ["analyse", oil, elf, path], "timing"
    path = made("without.json", b"\n".join(line for line in timing_bytes.split(b"\n") if b"0x1240" not in line))
    yield ["analyse", oil, elf, path], "Control"
    for name, data in (("map.json", b'[{"from": "0x2000", "to": "0x1000"}]'), ("waits.json", b'[{"from": "0x1000", "to": "0x2000", "fetch": -1}]')):
        path = made(name, data)
        yield ["draft", oil, elf, "--map", path], path
    path = made("core.json", b'{"classes": {"alu": 1}}')
    yield ["draft", oil, elf, "--core", path], path
    yield ["draft", oil, elf, "--core", "no_such_core"], "no_such_core"
    named = f'oil = "{oil}"\nelf = "{elf}"\ntiming = "{timing}"\n'
    for name, text in (("key.toml", named + "cores = 1\n"), ("deadline.toml", named + "[deadlines]\nControl = -5\n"),
                       ("task.toml", named + "[deadlines]\nNobody = 5\n"), ("syntax.toml", "oil = \n"), ("none.toml", "jobs = 1\n")):
        path = made(name, text.encode())
        yield ["analyse", path], "Nobody" if name == "task.toml" else path
    path = made("schedule.json", b'{"mode": "Main"}')
    yield ["analyse", oil, elf, timing, "--schedule", path], "schedule"


def damaged(folder):
    count = 0
    for words, names in damages(folder):
        if words[0] == "analyse" and not (found("syswcet") and found("list_states")):
            continue
        out = os.path.join(folder, f"out{count}")
        done = tool(words[0], *words[1:], *(["--out", out, "--jobs", "1"] if words[0] == "analyse" else []))
        count += 1
        said = done.stderr + done.stdout
        # analyse says which kind of file has the fault, in the program's words
        kinds = [os.path.basename(names), names, "oil line", "model object", "elf ", "timing ", "code "]
        if done.returncode not in (1, 2, 3) or "Traceback" in said or not any(kind in said for kind in kinds):
            fail(f"{words}: status {done.returncode}: {said[-400:]}")
        if words[0] == "draft" and done.stdout:
            fail(f"{words}: something on standard output")
        if [name for place, _, names_ in os.walk(out) for name in names_ if ".part" in name or name == "summary.json"]:
            fail(f"{words}: a part of a file is left, or a report")
    print(f"check_tools: {count} damaged inputs")


# ---- Installed

def installed(folder):
    names = ("syswcet", "list_states", "list_rows")
    if not has_programs(*names) or not shutil.which("make"):
        return
    place, programs_ = os.path.join(folder, "installed"), os.path.join(folder, "programs")
    os.makedirs(programs_)
    for name in names:
        shutil.copy(found(name), os.path.join(programs_, name))
    done = run("make", "install", f"PREFIX={place}", f"PROGRAMS={programs_}")
    files = [example("loop", f"s.{kind}") for kind in ("oil", "elf", "json")]
    used = subprocess.run([os.path.join(place, "bin", "syswcet-analyse"), *files, "--out", os.path.join(folder, "of_installed"), "--jobs", "1"],
                          capture_output=True, text=True, check=False, env={key: value for key, value in os.environ.items() if key != "SYSWCET_PROGRAMS"})
    gone = run("make", "uninstall", f"PREFIX={place}")
    left = [name for _, _, names_ in os.walk(place) for name in names_]
    if done.returncode or used.returncode or gone.returncode or left:
        fail(f"installed: {done.stderr}{used.stderr}{gone.stderr}{left}")
    if not shutil.which("dh") or not shutil.which("dpkg-buildpackage"):
        print("check_tools: skipped the package, since debhelper isn't here")
        return
    done = run("make", "deb", f"PROGRAMS={programs_}")
    packs = [name for name in os.listdir(os.path.join(ROOT, "out")) if name.endswith(".deb")] if not done.returncode else []
    if not packs:
        fail(f"make deb: {done.stdout[-500:]}{done.stderr[-500:]}")
        return
    fresh = os.path.join(folder, "root")
    os.makedirs(os.path.join(fresh, "var/lib/dpkg/updates"))
    with open(os.path.join(fresh, "var/lib/dpkg/status"), "w", encoding="utf-8"):
        pass
    put = run("dpkg", f"--root={fresh}", "--force-depends", "--force-not-root", "-i", os.path.join(ROOT, "out", packs[0]))
    there = os.path.exists(os.path.join(fresh, "usr/bin/syswcet-analyse"))
    gone = run("dpkg", f"--root={fresh}", "--force-not-root", "-P", "syswcet")
    left = [name for place_, _, names_ in os.walk(os.path.join(fresh, "usr")) for name in names_]
    if put.returncode or not there or gone.returncode or left:
        fail(f"the package: {put.stderr}{gone.stderr}{left}")
    print(f"check_tools: installed and removed, and so {packs[0]}")


def main():
    if len(sys.argv) != 1:
        sys.exit(__doc__)
    with tempfile.TemporaryDirectory() as folder:
        kept_timings()
        is_built = has_programs("syswcet", "list_states")
        compiled(folder)
        if is_built:
            other_examples(folder)
            plans(folder)
        damaged(folder)
        installed(folder)
    print(f"check_tools: {len(wrong)} faults")
    return 1 if wrong else 0


if __name__ == "__main__":
    sys.exit(main())
