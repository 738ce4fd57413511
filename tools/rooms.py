"""Rooms: copies of a crate and of those below it, in which rt works while it works on other crates elsewhere. In one
checkout it wouldn't, since it locks the folders of a crate and of all crates below it."""
import fcntl
import os
import shutil
import signal
import subprocess
import sys
import time

from programs import ROOT

CRATES = os.path.join(ROOT, "crates")


def crates():
    """The crates below each crate of crates.txt, each behind those that it uses, as they are in that file."""
    below = {}
    with open(os.path.join(ROOT, "crates.txt")) as lines:
        for line in lines:
            name, _, words = line.partition("#")[0].partition(":")
            if name.strip():
                used = [it for it in words.split() if it in below]
                below[name.strip()] = list(dict.fromkeys(it for lower in used for it in [*below[lower], lower]))
    return below


def lanes():
    """How many crates are worked on at once: one a processor, where there are 2 GB of memory for each."""
    with open("/proc/meminfo") as lines:
        free = next((int(line.split()[1]) for line in lines if line.startswith("MemAvailable:")), 0)
    return max(1, min(len(os.sched_getaffinity(0)), free // 2_000_000))


def linked(one, other):
    try:
        os.link(one, other)
    except OSError:
        shutil.copy2(one, other)


def moved(one, other):
    """Moves a folder, where it is there, to the place of another."""
    if os.path.isdir(one):
        shutil.rmtree(other, ignore_errors=True)
        os.makedirs(os.path.dirname(other), exist_ok=True)
        os.rename(one, other)


class Room:
    """A room of the named crate, which holds the libraries that are built and what is kept of the crate's own check. No other
    rt or room works on the crate meanwhile: where one does, a BlockingIOError comes."""

    def __init__(self, name, below):
        self.own = os.path.join(CRATES, name)
        self.lock = os.open(self.own, os.O_RDONLY)
        try:
            fcntl.flock(self.lock, fcntl.LOCK_EX | fcntl.LOCK_NB)
        except BlockingIOError:
            os.close(self.lock)
            raise
        self.top = os.path.join(ROOT, "out", f"room-{name}")
        self.crate = os.path.join(self.top, "crates", name)
        # one that was killed left its room
        self.leave()
        for crate in [*below, name]:
            self.bring(crate)
        moved(os.path.join(self.own, "out", "incremental"), os.path.join(self.crate, "out", "incremental"))
        shutil.copy2(os.path.join(ROOT, "HANDLES"), self.top)
        with open(os.path.join(ROOT, "crates.txt")) as lines, open(os.path.join(self.top, "crates.txt"), "w") as own:
            own.writelines(line for line in lines if line.partition(":")[0].strip() in {*below, name})

    def bring(self, crate):
        one, other = os.path.join(CRATES, crate), os.path.join(self.top, "crates", crate)
        for part in ("src", "specs", "proofs", os.path.join("out", "rlib")):
            if os.path.isdir(os.path.join(one, part)):
                shutil.copytree(os.path.join(one, part), os.path.join(other, part), copy_function=linked)

    def leave(self):
        """Gives the crate back what is kept of its check, and removes the room."""
        moved(os.path.join(self.crate, "out", "incremental"), os.path.join(self.own, "out", "incremental"))
        shutil.rmtree(self.top, ignore_errors=True)
        if os.path.isdir(os.path.dirname(self.top)) and not os.listdir(os.path.dirname(self.top)):
            os.rmdir(os.path.dirname(self.top))

    def close(self):
        self.leave()
        os.close(self.lock)


class Job:
    """A command that runs in a folder of a crate's room, on so many processors, where `edits` are the crate's must-fail edits."""

    def __init__(self, name, below, words, folder="", processors=1, edits=None):
        self.name, self.processors, self.began = name, processors, time.monotonic()
        self.room = Room(name, below)
        if edits:
            shutil.copytree(edits, os.path.join(self.room.crate, "must-fail"))
        self.log = os.path.join(self.room.top, "log")
        how = {"cwd": os.path.join(self.room.top, folder), "stdin": subprocess.DEVNULL, "stderr": subprocess.STDOUT}
        with open(self.log, "w") as log:
            self.process = subprocess.Popen(words, stdout=log, start_new_session=True, **how)

    def said(self):
        with open(self.log, errors="replace") as log:
            return log.read().splitlines()

    def seconds(self):
        return time.monotonic() - self.began

    def close(self):
        # what rt started ends with it
        self.process.kill()
        self.process.wait()
        self.room.close()


class Whole:
    """Holds a signal that stops the work off until its block has ended, so that what is begun in it can be put away."""

    depth, signals = 0, []

    def __enter__(self):
        Whole.depth += 1

    def __exit__(self, *_):
        Whole.depth -= 1
        Whole.leave()

    @staticmethod
    def leave():
        if Whole.signals and not Whole.depth:
            sys.exit(128 + Whole.signals[0])


def stopping(call):
    """The status that a call gives, or that of the signal by which it was stopped, once what it began is put away."""
    kinds = (signal.SIGHUP, signal.SIGINT, signal.SIGTERM)

    def stop(number, _):
        for kind in kinds:
            signal.signal(kind, signal.SIG_IGN)
        Whole.signals.append(number)
        Whole.leave()

    for kind in kinds:
        signal.signal(kind, stop)
    return call()


def run(left, begun, ended):
    """Runs a job for each of the names, as many at once as there are lanes. `begun` gives a job for the first of the names that can
    be worked on, or None where each waits for another; `ended` gets each job that has ended, and says whether to go on."""
    running, most = [], lanes()
    try:
        while left or running:
            with Whole():
                job = begun(left, most - sum(it.processors for it in running)) if left else None
                if job:
                    left.remove(job.name)
                    running.append(job)
            if job:
                continue
            time.sleep(0.2)
            with Whole():
                for job in [it for it in running if it.process.poll() is not None]:
                    if not ended(job):
                        return False
                    running.remove(job)
                    job.close()
        return True
    finally:
        for job in running:
            job.close()
