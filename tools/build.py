#!/usr/bin/env python3
"""Builds a program with every proof: tools/build.py NAME, for ./syswcet and tools/built.

The libraries below it that are missing or older than a source are proved side by side, each once those below it are, and
each is named on standard error once it is proved. What was proved before a stop or a fault stays. The status is 0 where
the program stands, 1 where something isn't proved, and 128 and the signal's number where one stopped the build.
"""
import os
import subprocess
import sys
import time

import rooms

# the last lines of what rt says of a crate that isn't proved
SHOWN = 20


def newest(folder):
    """The time at which the last of the files below a folder changed."""
    return max((os.stat(os.path.join(at, it)).st_mtime for at, _, names in os.walk(folder) for it in names), default=0)


def sources_of(crate):
    return max(newest(os.path.join(rooms.CRATES, crate, part)) for part in ("src", "specs", "proofs"))


def stamp_of(crate):
    return os.path.join(rooms.CRATES, crate, "out", "rlib", "stamp")


def text_of(folder, name):
    """The text of a file, empty where it isn't there."""
    path = os.path.join(folder, name)
    if not os.path.exists(path):
        return ""
    with open(path) as text:
        return text.read()


def weight(crate, below):
    """About the seconds of a crate's proof on one processor: lines of code and libraries below were fitted to measured times."""
    lines = 0
    for at, _, names in os.walk(os.path.join(rooms.CRATES, crate, "src")):
        for name in names:
            with open(os.path.join(at, name), "rb") as text:
                lines += text.read().count(b"\n")
    return 10 + lines / 10 + 2 * len(below)


class Build:
    """The building of the libraries below some crates, for the one who asks."""

    def __init__(self, asking, names):
        self.asking, self.began = asking, time.monotonic()
        below = rooms.crates()
        needed = {it for name in names for it in below[name]}
        self.below = {crate: lower for crate, lower in below.items() if crate in needed}
        self.weights = {crate: weight(crate, below[crate]) for crate in self.below}
        programs = [it for it in names if os.path.isfile(os.path.join(rooms.CRATES, it, "src", "main.rt"))]
        self.last = sum(weight(it, below[it]) for it in programs)
        self.built = set()
        for crate in self.below:
            if self.is_current(crate):
                self.built.add(crate)
        self.left = [it for it in self.below if it not in self.built]
        self.chains = {}
        for crate in reversed(self.below):
            above = [self.chains[it] for it in self.chains if crate in self.below[it]]
            self.chains[crate] = self.weights[crate] + max(above, default=0)
        self.left.sort(key=lambda it: -self.chains[it])
        # seconds and weights of what was proved, begun with some that are as expected
        self.spent, self.done = 300.0, 300.0

    def is_current(self, crate):
        """Whether the crate's library is newer than its sources and than the libraries below it."""
        if not os.path.isfile(stamp_of(crate)) or not self.built.issuperset(self.below[crate]):
            return False
        made = os.stat(stamp_of(crate)).st_mtime
        return sources_of(crate) <= made and all(os.stat(stamp_of(it)).st_mtime <= made for it in self.below[crate])

    def say(self, text):
        print(f"{self.asking}: {text}", file=sys.stderr, flush=True)

    def time_left(self, unproved):
        """The time that is left, in words: what a lane has to do, or the longest chain of crates that wait for each other."""
        chain = max((self.chains[it] for it in unproved), default=0)
        work = sum(self.weights[it] for it in unproved)
        minutes = self.spent / self.done * (max(chain, work / rooms.lanes()) + self.last) / 60
        return "about a minute" if minutes < 1.5 else f"about {minutes:.0f} minutes"

    def begun(self, left, free):
        ready = [it for it in left if self.built.issuperset(self.below[it])]
        # what nothing else waits beside gets a second processor
        processors = max(1, min(2, free // max(1, len(ready))))
        for crate in ready if free > 0 else []:
            words = ["rt", "lib", "--jobs", str(processors)]
            try:
                return rooms.Job(crate, self.below[crate], words, os.path.join("crates", crate), processors)
            except BlockingIOError:
                continue
        return None

    def ended(self, job):
        if job.process.returncode != 0:
            told = [it for it in job.said() if it.strip() and ": proved" not in it and not it.startswith("checked")]
            print("\n".join(told[-SHOWN:]), file=sys.stderr)
            self.say(f"{job.name} isn't proved, and nothing above it; what is proved stays")
            return False
        rooms.moved(os.path.join(job.room.crate, "out", "rlib"), os.path.join(rooms.CRATES, job.name, "out", "rlib"))
        # rt leaves a library as it is where sources are newer and say the same
        os.utime(stamp_of(job.name))
        self.built.add(job.name)
        if job.seconds() > 5:
            self.spent += job.seconds() * job.processors
            self.done += self.weights[job.name]
        unproved = [it for it in self.below if it not in self.built]
        goes_on = f"{len(unproved)} of {len(self.below)} left, {self.time_left(unproved)}" if unproved else "none left"
        self.say(f"{job.name} is proved, after {time.monotonic() - self.began:.0f} s; {goes_on}")
        return True

    def libraries(self):
        """Whether all the libraries are there."""
        if self.left:
            self.say(f"{len(self.left)} of {len(self.below)} libraries to prove, {rooms.lanes()} at a time, {self.time_left(self.left)}")
        return rooms.run(self.left, self.begun, self.ended)

    def program(self, name):
        """Whether the program is there, which rt runs here on the words and files of the gate."""
        began, folder = time.time(), os.path.join(rooms.CRATES, name)
        data = os.path.join(folder, "data")
        words = [os.path.join("data", it) if os.path.exists(os.path.join(data, it)) else it for it in text_of(folder, "args").splitlines()]
        how = {"cwd": folder, "stdin": subprocess.PIPE, "stdout": subprocess.PIPE, "stderr": subprocess.STDOUT, "start_new_session": True}
        with subprocess.Popen(["rt", "run", "--", *words], text=True, errors="replace", **how) as job:
            try:
                told = job.communicate(text_of(folder, "stdin"))[0].splitlines()
            finally:
                job.kill()
        if job.returncode != 0:
            print("\n".join(told[-SHOWN:]), file=sys.stderr)
            self.say(f"the program {name} isn't built")
            return False
        # rt leaves a program as it is where sources are newer and say the same
        os.utime(os.path.join(folder, "out", name), (began, began))
        self.say(f"built in {time.monotonic() - self.began:.0f} s")
        return True


def main():
    if len(sys.argv) != 2 or sys.argv[1] not in rooms.crates():
        sys.exit(__doc__)
    build = Build(sys.argv[1], sys.argv[1:])
    return 0 if build.libraries() and build.program(sys.argv[1]) else 1


if __name__ == "__main__":
    sys.exit(rooms.stopping(main))
