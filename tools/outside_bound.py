"""Bounds a task by an outside solver, for systems that are larger than the tables of `bound`.

    tools/outside_bound OIL ELF TIMING TASK [STATES] CERT

writes the certificate CERT, over the listed states or else over those that `tools/list_states` lists, and ends with
what `./syswcet check` says of it: nothing of this script, nor of the solver, has to be trusted. `list_rows` gives the
rows of the task with their links; chains of columns are made one; `esolver` (Debian's qsopt-ex) or else `glpsol`
(glpk-utils) solves them; the multipliers of the chains' rows follow from the others. Exact multipliers are brought to
one denominator. Where that, or a multiplier, reaches 2^80, and for a solver with floating point, the rows are solved
for costs that are higher by a little, and the multipliers rounded, so that every column stays covered; what this costs
is told.
"""
import json
import math
import os
import re
import shutil
import subprocess
import sys
import tempfile
import time
from fractions import Fraction

from programs import ROOT, set_up

SYSWCET = set_up("syswcet") or os.path.join(ROOT, "syswcet")
LIMIT = 1 << 80
# rounded multipliers: costs are raised by 1 / RAISE cycles, and the denominator is ROUND
RAISE, ROUND = 1 << 20, 1 << 48


def tell(text):
    print(f"outside_bound: {text}", file=sys.stderr)


class Rows:
    """Rows by column: costs, the entries of each column by row, right sides, and for each row its link or None."""

    def __init__(self, listed):
        self.costs = listed["costs"]
        self.rights = [row["right"] for row in listed["rows"]]
        self.columns = [[] for _ in self.costs]
        self.rows = [row["terms"] for row in listed["rows"]]
        for place, row in enumerate(self.rows):
            for column, entry in row:
                self.columns[column].append((place, entry))
        self.links = listed.get("links") or [None] * len(self.rows)

    def chains(self):
        """For each column the place of its chain, in the order of the chains' first columns."""
        before = {link[0]: link[1] for link in self.links if link}
        heads = {}

        def head(column):
            path = []
            while column in before and column not in heads:
                path.append(column)
                column = before[column]
            found = heads.get(column, column)
            for member in path:
                heads[member] = found
            return found

        places = {}
        return [places.setdefault(head(column), len(places)) for column in range(len(self.costs))]

    def squeezed(self):
        """The rows with each chain as one column, and the places of the rows that are kept."""
        places = self.chains()
        kept = [row for row, link in enumerate(self.links) if not link]
        costs = [0] * (max(places) + 1)
        for column, cost in enumerate(self.costs):
            costs[places[column]] += cost
        rows = []
        for row in kept:
            sums = {}
            for column, entry in self.rows[row]:
                sums[places[column]] = sums.get(places[column], 0) + entry
            rows.append({"terms": [[column, entry] for column, entry in sorted(sums.items()) if entry], "right": self.rights[row]})
        return Rows({"costs": costs, "rows": rows}), kept

    def lifted(self, kept, multipliers, denominator):
        """The multipliers of all rows by those of the kept ones: a link's row covers its outgoing column exactly."""
        full = [0] * len(self.rows)
        for row, multiplier in zip(kept, multipliers):
            full[row] = multiplier
        leaving = {link[0]: (row, link[1]) for row, link in enumerate(self.links) if link}
        entered = {link[1] for link in self.links if link}
        for end in [column for column in leaving if column not in entered]:
            column = end
            while column in leaving:
                row, before = leaving[column]
                others = sum(full[place] * entry for place, entry in self.columns[column] if place != row)
                full[row] = denominator * self.costs[column] - others
                column = before
        return full

    def uncovered(self, multipliers, denominator):
        """By how much the column that lacks the most isn't covered."""
        sums = (denominator * cost - sum(multipliers[row] * entry for row, entry in column)
                for cost, column in zip(self.costs, self.columns))
        return max(0, max(sums))

    def value(self, multipliers):
        return sum(multiplier * right for multiplier, right in zip(multipliers, self.rights))


# ---- Outside solvers


def write_lp(path, rows, scale, raised):
    """The LP of the rows; costs are multiplied by `scale` and raised by `raised`."""
    with open(path, "w") as out:
        out.write("Maximize\n value:")
        for column, cost in enumerate(rows.costs):
            out.write(f" + {cost * scale + raised} c{column}" + ("\n" if column % 8 == 7 else ""))
        out.write("\nSubject To\n")
        for place, row in enumerate(rows.rows):
            terms = [f" {'-' if entry < 0 else '+'} {abs(entry)} c{column}" for column, entry in row] or [" + 0 c0"]
            out.write(f" r{place}:" + "\n".join("".join(terms[at:at + 8]) for at in range(0, len(terms), 8)) + f" <= {rows.rights[place]}\n")
        out.write("End\n")


def by_esolver(path, count):
    done = subprocess.run(["esolver", "-O", path + ".sol", "-L", path], capture_output=True, text=True, check=False)
    found = [Fraction(0)] * count
    is_dual = False
    with open(path + ".sol") as text:
        lines = text.read().splitlines()
    if not any("OPTIMAL" in line for line in lines):
        sys.exit("outside_bound: esolver finds no greatest value: " + (lines[0] if lines else done.stdout[-200:]))
    for line in lines:
        if line and not line.startswith((" ", "\t")) and "=" not in line:
            is_dual = line.strip().rstrip(":") == "PI"
        match = re.match(r"\s*r(\d+)\s*=\s*(-?\d+(?:/\d+)?)\s*$", line)
        if is_dual and match:
            found[int(match[1])] = Fraction(match[2])
    return found


def by_glpsol(path, count):
    subprocess.run(["glpsol", "--lp", path, "--max", "-w", path + ".sol"], capture_output=True, check=True)
    found = [Fraction(0)] * count
    with open(path + ".sol") as text:
        for line in text:
            parts = line.split()
            # i ROW STATUS PRIMAL DUAL
            if parts[:1] == ["i"] and len(parts) == 5:
                found[int(parts[1]) - 1] = Fraction(parts[4])
    return found


def solver():
    for name, call in (("esolver", by_esolver), ("glpsol", by_glpsol)):
        if shutil.which(name):
            return name, call
    sys.exit("outside_bound: neither esolver (qsopt-ex) nor glpsol (glpk-utils) is there")


# ---- Certificates


def solved(rows, call, scale, raised):
    with tempfile.TemporaryDirectory() as folder:
        path = os.path.join(folder, "rows.lp")
        write_lp(path, rows, scale, raised)
        return [max(Fraction(0), value) for value in call(path, len(rows.rows))]


def exact(full, squeezed, kept, multipliers):
    """The multipliers over one denominator, or none where it, or one of them, is too large."""
    denominator = math.lcm(*(value.denominator for value in multipliers))
    if denominator >= LIMIT:
        return None
    found = full.lifted(kept, [int(value * denominator) for value in multipliers], denominator)
    return (denominator, found) if max(found) < LIMIT and not full.uncovered(found, denominator) else None


def rounded(full, kept, multipliers):
    found = full.lifted(kept, [round(value * ROUND / RAISE) for value in multipliers], ROUND)
    return ROUND, found


def main():
    if len(sys.argv) not in (6, 7):
        sys.exit(__doc__)
    solver()
    with tempfile.TemporaryDirectory() as folder:
        states = sys.argv[5] if len(sys.argv) == 7 else listed_states(sys.argv[1:4], os.path.join(folder, "states"))
        return certified([*sys.argv[1:5], states], sys.argv[-1])


def listed_states(files, path):
    """The path, to which the least closed list of states is written."""
    with open(path, "wb") as out:
        done = subprocess.run([set_up("list_states") or os.path.join(ROOT, "tools", "list_states"), *files], stdout=out, check=False)
    if done.returncode:
        sys.exit("outside_bound: list_states gives no list")
    return path


def certified(files, cert_path):
    """Writes the certificate, and gives the status of its check."""
    lister = set_up("list_rows")
    if not lister:
        made = subprocess.run([os.path.join(ROOT, "tools", "built"), "list_rows"], stdout=subprocess.PIPE, text=True, check=False)
        if made.returncode:
            sys.exit("outside_bound: list_rows isn't there")
        lister = made.stdout.rstrip("\n")
    start = time.monotonic()
    listed = subprocess.run([lister, *files, "full", "json"], capture_output=True, check=False)
    if listed.returncode:
        sys.exit("outside_bound: list_rows: " + listed.stderr.decode())
    full = Rows(json.loads(listed.stdout))
    squeezed, kept = full.squeezed()
    tell(f"{len(full.rows)} rows and {len(full.costs)} columns, {len(squeezed.rows)} and {len(squeezed.costs)} squeezed; {time.monotonic() - start:.1f} s")
    name, call = solver()
    start = time.monotonic()
    multipliers = solved(squeezed, call, 1, 0)
    best = squeezed.value(multipliers)
    tell(f"{name}: {float(best):.3f} cycles; {time.monotonic() - start:.1f} s")
    found = exact(full, squeezed, kept, multipliers) if name == "esolver" else None
    if not found:
        start = time.monotonic()
        found = rounded(full, kept, solved(squeezed, call, RAISE, 1))
        tell(f"rounded to the denominator {ROUND}; {time.monotonic() - start:.1f} s")
    denominator, multipliers = found
    lacks = full.uncovered(multipliers, denominator)
    if lacks or min(multipliers) < 0 or max(multipliers) >= LIMIT:
        sys.exit(f"outside_bound: the rounded multipliers don't cover a column, by {lacks / denominator}")
    bound = full.value(multipliers) // denominator
    if bound != math.floor(best):
        tell(f"rounding costs {bound - math.floor(best)} cycles")
    with open(files[4]) as text:
        states = json.load(text)
    cert = {"bound": str(bound), "denominator": str(denominator), "multipliers": [str(value) for value in multipliers], "states": states, "task": files[3]}
    with open(cert_path + ".part", "w") as out:
        out.write(json.dumps(cert, separators=(",", ":")) + "\n")
    os.replace(cert_path + ".part", cert_path)
    start = time.monotonic()
    done = subprocess.run([SYSWCET, "check", *files[:4], cert_path], check=False)
    tell(f"check: {time.monotonic() - start:.1f} s, a certificate of {os.path.getsize(cert_path)} bytes")
    return done.returncode


if __name__ == "__main__":
    sys.exit(main())
