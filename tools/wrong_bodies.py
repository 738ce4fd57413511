#!/usr/bin/env python3
"""Tries wrong bodies that the gate doesn't try.

    tools/wrong_bodies [CRATE ..]

They are the edits tools/wrong_bodies.d/CRATE/NAME.edit, in the form of must-fail edits; without arguments, all are tried. Each
is made on a copy of its crate, which the prover must refuse. What was refused once isn't tried again until something changes
that it stands on. The status is 1 where one isn't refused or can't be tried.
"""
import os
import re
import sys

import rooms
from build import Build
from programs import ROOT

EDITS = os.path.join(ROOT, "tools", "wrong_bodies.d")


def edits_of(crate):
    return sorted(it for it in os.listdir(os.path.join(EDITS, crate)) if it.endswith(".edit"))


class Tries:
    def __init__(self):
        self.below, self.counts = rooms.crates(), {"refused": 0, "NOT REFUSED": 0, "BAD EDIT": 0, "NOT TRIED": 0}

    def begun(self, left, free):
        if free < 1:
            return None
        for crate in left:
            words, edits = ["env", "RT_JOBS=1", "rt", "must-fail", crate], os.path.join(EDITS, crate)
            try:
                return rooms.Job(crate, self.below[crate], words, edits=edits)
            except BlockingIOError:
                continue
        return None

    def ended(self, job):
        """Prints a line for each edit of the crate: what came of it, and rt's words."""
        said = job.said()
        for edit in edits_of(job.name):
            told = re.compile(rf"(?:rt: )?must-fail {job.name}/{re.escape(edit)}: (refused|NOT REFUSED|BAD EDIT|NOT TRIED)(.*)")
            found = next(filter(None, map(told.match, said)), None)
            kind, words = found.groups() if found else ("NOT TRIED", ": " + " / ".join(said[-3:]))
            self.counts[kind] += 1
            print(f"{job.name}/{edit.removesuffix('.edit')}: {kind}{words if kind != 'refused' else ''}", flush=True)
        return True


def main():
    known = sorted(os.listdir(EDITS))
    crates = sys.argv[1:] or known
    if not set(crates) <= set(known):
        sys.exit(f"{__doc__}\nCrates with such edits: {' '.join(known)}")
    if not Build("wrong_bodies", crates).libraries():
        return 1
    tries = Tries()
    rooms.run(list(dict.fromkeys(crates)), tries.begun, tries.ended)
    print("wrong_bodies: " + ", ".join(f"{count} {kind}" for kind, count in tries.counts.items()))
    return 0 if sum(tries.counts.values()) == tries.counts["refused"] else 1


if __name__ == "__main__":
    sys.exit(rooms.stopping(main))
