#!/usr/bin/env python3
"""Times `solve` beside `glpsol --exact` and QSopt_ex's `esolver` on lists of rows.

    bench/compare.py PROGRAM [FILE.json ..]

PROGRAM is the built `bench_solve`. Without files, the lists in bench/rows, these lists side by side,
and generated ones are taken: chains, flows, long code, states times nodes, loops with bounds, some of
them with 1,500 rows and more, and one with a ray. Each list is solved by each program in turn, in the
same run; the peers get it in LP format. Printed are milliseconds of processor time, for `solve` of a
call alone (the mean of the calls that fill 0.2 s), for a peer of its whole run, the ratio peer / solve,
and whether the values agree; the status is 1 where they don't. A peer that isn't installed is skipped, and
one that takes a minute has no answer.
"""
import json
import os
import random
import re
import resource
import shutil
import subprocess
import sys
import tempfile
import time
from collections import Counter
from fractions import Fraction

HERE = os.path.dirname(os.path.abspath(__file__))


def chains(columns, seed):
    """Rows of a chain of branches whose flow a last row bounds: feasible at 0, and bounded."""
    pick = random.Random(seed)
    costs = [pick.randrange(1, 60) for _ in range(columns)]
    rows = [{"terms": [[0, 1]], "right": 1 + seed}]
    for column in range(1, columns):
        wanted = 2 if pick.random() < 0.1 else 1
        sources = sorted(pick.sample(range(max(0, column - 12), column), min(column, wanted)))
        terms = [[source, -1] for source in sources] + [[column, 1]]
        rows.append({"terms": terms, "right": 0})
    rows.append({"terms": [[c, pick.randrange(1, 50)] for c in range(0, columns, 3)], "right": 4000})
    return {"costs": costs, "rows": rows}


def flows(columns, seed):
    """Rows of the edges of a flow graph with branches and loops whose turns are bounded, and of tasks
    whose arrivals the cycles of all edges bound: their tables fill, and many pivot entries aren't 1."""
    pick = random.Random(seed)
    nodes = int(0.88 * columns)
    edges = [(node - 1, node) for node in range(nodes)]
    loops = {}
    while len(edges) < columns:
        start = pick.randrange(nodes - 1)
        if len(loops) < 20:
            end = max(0, start - pick.randrange(1, 12))
            loops[len(edges)] = end
        else:
            end = min(nodes - 1, start + pick.randrange(2, 12))
        edges.append((start, end))
    costs = [pick.randrange(1, 60) for _ in edges]
    rows = []

    def row(entries, right):
        rows.append({"terms": [[c, x] for c, x in sorted(entries.items()) if x], "right": right})

    row({0: 1}, 1)
    for node in range(nodes - 1):
        entries = Counter(edge for edge, ends in enumerate(edges) if ends[0] == node)
        entries.subtract(edge for edge, ends in enumerate(edges) if ends[1] == node)
        row(entries, 0)
    for back, end in loops.items():
        entries = {edge: -pick.randrange(2, 9) for edge, ends in enumerate(edges) if ends[1] == end}
        row({**entries, back: 1}, 0)
    arrivals = sorted(pick.sample(range(1, nodes), 30))
    for task in range(5):
        period = pick.choice((5000, 10000, 20000, 50000))
        entries = {edge: -cost for edge, cost in enumerate(costs)}
        for edge in arrivals[task::5]:
            entries[edge] += period
        row(entries, 2 * period)
    return {"costs": costs, "rows": rows}


class Flow:
    """Rows of counts of edges: each node is left as often as it is come to, at most."""

    def __init__(self, seed):
        self.pick = random.Random(seed)
        self.costs, self.into, self.out, self.more = [], {}, {}, []

    def edge(self, start, end):
        column = len(self.costs)
        self.costs.append(self.pick.randrange(1, 60))
        self.out.setdefault(start, []).append(column)
        self.into.setdefault(end, []).append(column)
        return column

    def at_most(self, column, entries, right=0):
        self.more.append({"terms": sorted([[column, 1], *entries]), "right": right})

    def rows(self):
        rows = [{"terms": [[column, 1] for column in self.out[0]], "right": 1}]
        for node in sorted(self.out):
            if node:
                terms = [[c, 1] for c in self.out[node]] + [[c, -1] for c in self.into.get(node, [])]
                rows.append({"terms": sorted(terms), "right": 0})
        return {"costs": self.costs, "rows": rows + self.more}


def code(nodes, seed):
    """A long chain of code, where one node in eight branches past the next ones."""
    flow = Flow(seed)
    for node in range(nodes):
        flow.edge(node, node + 1)
        if node % 8 == 3:
            flow.edge(node, min(nodes, node + 2 + flow.pick.randrange(5)))
    return flow.rows()


def states(count, nodes, seed):
    """In each of many states the same code, whose end leads on to one or two later states."""
    flow = Flow(seed)
    for state in range(count):
        first = state * nodes
        for node in range(first, first + nodes - 1):
            flow.edge(node, node + 1)
        for later in sorted({state + 1, state + 1 + flow.pick.randrange(4)}):
            flow.edge(first + nodes - 1, min(later, count) * nodes)
    return flow.rows()


def loops(count, body, seed):
    """A chain of loops: each goes back at most a fixed number of times for each time it is come to."""
    flow = Flow(seed)
    for loop in range(count):
        first = loop * body
        entry = flow.edge(first, first + 1)
        for node in range(first + 1, first + body - 1):
            flow.edge(node, node + 1)
        back = flow.edge(first + body - 1, first + 1)
        flow.edge(first + body - 1, first + body)
        flow.at_most(back, [[entry, -flow.pick.randrange(2, 30)]])
    return flow.rows()


def ray(nodes, seed):
    """Long code with a way back that nothing bounds."""
    flow = Flow(seed)
    for node in range(nodes):
        flow.edge(node, node + 1)
    flow.edge(nodes - 3, nodes // 2)
    return flow.rows()


def side_by_side(lists):
    """The rows of several lists, each over columns of its own."""
    costs, rows = [], []
    for data in lists:
        first = len(costs)
        costs += data["costs"]
        for row in data["rows"]:
            terms = [[first + column, entry] for column, entry in row["terms"]]
            rows.append({"terms": terms, "right": row["right"]})
    return {"costs": costs, "rows": rows}


def as_lp(data):
    def sum_of(terms):
        return " ".join(f"{'-' if x < 0 else '+'} {abs(x)} x{c}" for c, x in terms) or "+ 0 x0"

    lines = ["Maximize", " obj: " + sum_of([(c, x) for c, x in enumerate(data["costs"]) if x])]
    lines.append("Subject To")
    for i, row in enumerate(data["rows"]):
        lines.append(f" r{i}: {sum_of(row['terms'])} <= {row['right']}")
    return "\n".join(lines + ["End", ""])


def processor_time():
    """Seconds of the processor that the programs run so far took, for themselves and in the system."""
    usage = resource.getrusage(resource.RUSAGE_CHILDREN)
    return usage.ru_utime + usage.ru_stime


def timed(command):
    """Milliseconds by the clock, milliseconds of the processor, and what was written: none after a minute."""
    start, used = time.perf_counter(), processor_time()
    try:
        out = subprocess.run(command, capture_output=True, text=True, timeout=60).stdout
    except subprocess.TimeoutExpired:
        out = ""
    end, spent = time.perf_counter(), processor_time()
    return 1000 * (end - start), 1000 * (spent - used), out


def solved(program, path):
    """What `solve` answers, and the processor time of a call: by the clock, times the share of the run
    in which the program had a processor."""
    ms, cpu, out = timed([program, path])
    fields = out.split()
    if not fields or not fields[-1].isdigit():
        return None
    call = int(fields[-1]) / 1e6 * min(1.0, cpu / ms)
    if "no bound" in out:
        return {"pivots": 0, "bound": "none", "ms": call}
    if len(fields) != 5:
        return None
    return {"pivots": int(fields[1]), "bound": int(fields[3]), "ms": call}


def by_glpsol(lp):
    _, cpu, out = timed(["glpsol", "--exact", "--lp", lp, "--max"])
    if "UNBOUNDED" in out.upper():
        return cpu, "none"
    values = re.findall(r"objval =\s+(\S+)", out)
    return cpu, int(float(values[-1]) + 1e-6) if values else None


def by_esolver(lp, folder):
    solution = os.path.join(folder, "solution")
    _, cpu, _ = timed(["esolver", "-O", solution, "-L", lp])
    for name in (solution, solution + ".sol"):
        if os.path.exists(name):
            with open(name) as text:
                told = text.read()
            os.remove(name)
            if "UNBOUNDED" in told.upper():
                return cpu, "none"
            value = re.search(r"[Vv]alue\s*=\s*(\S+)", told)
            return cpu, Fraction(value.group(1)).__floor__() if value else None
    return cpu, None


def main():
    program, paths, wrong = os.path.abspath(sys.argv[1]), sys.argv[2:], 0
    if not os.path.exists(program):
        print(f"compare: {program} is missing: skipped")
        return 0
    with tempfile.TemporaryDirectory() as folder:
        if not paths:
            kept = os.path.join(HERE, "rows")
            paths = sorted(os.path.join(kept, name) for name in os.listdir(kept) if not name.endswith("_full.json"))
            made = {f"generated_{columns}": chains(columns, columns) for columns in (200, 400, 800)}
            made["flows_930"] = flows(930, 1)
            made.update({f"code_{nodes}": code(nodes, nodes) for nodes in (400, 800, 1600)})
            made.update({f"states_{count}x12": states(count, 12, count) for count in (40, 130)})
            made.update({f"loops_{count}x10": loops(count, 10, count) for count in (40, 80, 150)})
            made["ray_600"] = ray(600, 1)
            made["side_by_side"] = side_by_side([json.load(open(path)) for path in paths])
            for name, data in made.items():
                paths.append(os.path.join(folder, name + ".json"))
                with open(paths[-1], "w") as out:
                    json.dump(data, out)
        peers = [name for name in ("glpsol", "esolver") if shutil.which(name)]
        for name in ("glpsol", "esolver"):
            if name not in peers:
                print(f"{name} isn't installed: skipped")
        for path in paths:
            with open(path) as text:
                data = json.load(text)
            lp = os.path.join(folder, "rows.lp")
            with open(lp, "w") as out:
                out.write(as_lp(data))
            mine = solved(program, path)
            name = os.path.basename(path)
            if mine is None:
                print(f"{name}: no optimum")
                continue
            told = [f"{name}: {len(data['rows'])} rows, {len(data['costs'])} columns, {mine['pivots']} pivots, bound {mine['bound']}, {mine['ms']:.3f} ms"]
            for peer in peers:
                cpu, bound = by_glpsol(lp) if peer == "glpsol" else by_esolver(lp, folder)
                agree = "no answer" if bound is None else "agrees" if bound == mine["bound"] else f"DISAGREES: {bound}"
                told.append(f"{peer} {cpu:.1f} ms, ratio {cpu / mine['ms']:.1f}, {agree}")
            if "pivots" in data and data["pivots"] != mine["pivots"]:
                told.append(f"DISAGREES: {data['pivots']} pivots are known")
            wrong += any("DISAGREES" in part for part in told)
            print("; ".join(told))
    return 1 if wrong else 0


if __name__ == "__main__":
    if not all(map(os.path.isfile, sys.argv[2:])) or sys.argv[1:2] in ([], ["-h"], ["--help"]):
        sys.exit(__doc__)
    sys.exit(main())
