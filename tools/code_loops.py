"""The loops of a program: where its code goes back, the range that a timing file has to declare there, and how often the code
goes back at most by what LOOP_BOUND says in the source.

A graph has a node for each word of an invocation; a call goes on behind itself. For each place that the code goes back to, a
range runs from there to the last word of the loop. Ranges nest: what is jumped back to first in memory has the outermost one,
and the edges to it are left out before the next is looked for.

A mark is an address at which the body of a loop begins, n times at most each time that the loop is come to. It belongs to the
innermost loop that has it, or, where it stands at the first word of a loop that is fallen into, to the one around that. As it
stands between two words, an edge surely passes it only where it goes on from the word before or is the only one there.
"""
from collections import defaultdict
from dataclasses import dataclass, field
from heapq import heappop, heappush

ENDING_SERVICES = (2, 3, 15)
FAR = 1 << 40


def signed(value, bits):
    return value - (1 << bits) if value >> (bits - 1) & 1 else value


def jump_offset(word):
    return signed((word >> 31 << 20) | (word >> 12 & 0xff) << 12 | (word >> 20 & 1) << 11 | (word >> 21 & 0x3ff) << 1, 21)


def branch_offset(word):
    return signed((word >> 31 << 12) | (word >> 7 & 1) << 11 | (word >> 25 & 0x3f) << 5 | (word >> 8 & 0xf) << 1, 13)


def pair_target(words, address):
    """The target of the far jump or call whose second word stands at the address, or None."""
    first, second = words.get(address - 4, 0), words.get(address, 0)
    register = first >> 7 & 31
    if first & 0x7f != 0x17 or second & 0x707f != 0x67 or not register or second >> 15 & 31 != register:
        return None
    return (address - 4 + (first & 0xfffff000) + signed(second >> 20, 12)) % (1 << 32) & ~1


def is_service(words, address):
    argument, number = words.get(address - 8, 0), words.get(address - 4, 0)
    return argument & 0xfffff == 0x00513 and number & 0xfffff == 0x00893


def turn(words, address):
    """Where the word's invocation goes on, and what it calls."""
    word = words[address]
    kind, register = word & 0x7f, word >> 7 & 31
    onward = [address + 4]
    if kind == 0x63:
        return [address + 4, (address + branch_offset(word)) % (1 << 32)], None
    if kind == 0x6f:
        target = (address + jump_offset(word)) % (1 << 32)
        return ([target], None) if register == 0 else (onward, target)
    if kind == 0x67:
        target = pair_target(words, address)
        if target is None:
            return [], None
        return ([target], None) if register == 0 else (onward, target)
    if word == 0x73:
        ends = is_service(words, address) and words[address - 4] >> 20 in ENDING_SERVICES
        return ([] if ends else onward), None
    return onward, None


@dataclass
class Graph:
    start: int
    after: dict[int, list[int]] = field(default_factory=dict)
    before: dict[int, list[int]] = field(default_factory=lambda: defaultdict(list))
    calls: set[int] = field(default_factory=set)


def graph_from(words, start):
    graph, work = Graph(start), [start]
    while work:
        address = work.pop()
        if address in graph.after:
            continue
        onward, called = turn(words, address)
        graph.after[address] = [place for place in dict.fromkeys(onward) if place in words]
        if called in words:
            graph.calls.add(called)
        for place in graph.after[address]:
            graph.before[place].append(address)
            work.append(place)
    return graph


def graphs_of(words, entries):
    """The graph of each invocation: of the entries, and of all that is called."""
    found, work = {}, [entry for entry in entries if entry in words]
    while work:
        start = work.pop()
        if start not in found:
            found[start] = graph_from(words, start)
            work += found[start].calls
    return list(found.values())


# ---- Strongly connected parts

def parts_of(nodes, after, cut=frozenset()):
    """The parts of the nodes that have a cycle, each as a set, without the edges to what is cut."""
    order, low, stack, on_stack, found = {}, {}, [], set(), []
    for root in nodes:
        if root in order:
            continue
        work = [(root, iter(after[root]))]
        order[root] = low[root] = len(order)
        stack.append(root)
        on_stack.add(root)
        while work:
            node, places = work[-1]
            for place in places:
                if place not in nodes or place in cut:
                    continue
                if place not in order:
                    order[place] = low[place] = len(order)
                    stack.append(place)
                    on_stack.add(place)
                    work.append((place, iter(after[place])))
                    break
                if place in on_stack:
                    low[node] = min(low[node], order[place])
            else:
                work.pop()
                if work:
                    low[work[-1][0]] = min(low[work[-1][0]], low[node])
                if low[node] == order[node]:
                    part = set(stack[stack.index(node):]) if len(stack) < 64 else part_behind(stack, node)
                    del stack[len(stack) - len(part):]
                    on_stack -= part
                    if len(part) > 1 or (node in after[node] and node not in cut):
                        found.append(part)
    return found


def part_behind(stack, node):
    at = len(stack) - 1
    while stack[at] != node:
        at -= 1
    return set(stack[at:])


@dataclass
class Loop:
    """A loop as the source has it: its words, its first ones, and the loop around it."""
    nodes: set[int]
    heads: set[int]
    around: "Loop | None"


def nest_of(graph):
    """The loops of a graph, those around before those within."""
    found, work = [], [(part, None) for part in parts_of(set(graph.after), graph.after)]
    while work:
        part, around = work.pop()
        heads = {node for node in part if node == graph.start or any(place not in part for place in graph.before[node])}
        if around:
            heads = {node for node in part if any(place not in part or node in around.heads for place in graph.before[node])} or heads
        loop = Loop(part, heads, around)
        found.append(loop)
        work += [(inner, loop) for inner in parts_of(part, graph.after, heads)]
    return found


# ---- Ranges

def ranges_of(graph):
    """For each place that is gone back to the last word of its range."""
    found = {}
    for node, places in graph.after.items():
        for place in places:
            if place <= node:
                found[place] = max(found.get(place, 0), node)
    work = [(part, frozenset()) for part in parts_of(set(graph.after), graph.after)]
    while work:
        part, cut = work.pop()
        back = [(node, place) for node in part for place in graph.after[node] if place <= node and place in part and place not in cut]
        cut |= {min(place for _, place in back)}
        inner = parts_of(part, graph.after, cut)
        for node, place in back:
            if not any(node in each and place in each for each in inner):
                found[place] = max(found[place], max(part))
        work += [(each, cut) for each in inner]
    return found


# ---- Bounds

@dataclass
class Mark:
    address: int
    # n, and which LOOP_BOUND of its source it is a copy of
    bound: tuple[int, int]
    # the loop that it belongs to, and the edges that pass it
    loop: Loop
    edges: set[tuple[int, int]]


def innermost(loops, address):
    return min((loop for loop in loops if address in loop.nodes), key=lambda loop: len(loop.nodes), default=None)


def marks_in(graph, loops, marks):
    """The marks of a graph's loops, each with its loop."""
    found, open_ones = [], []
    for order, (address, *bound) in enumerate(marks):
        loop = innermost(loops, address) if address in graph.after else None
        if not loop:
            continue
        every = {(place, address) for place in graph.before[address]}
        outside = {edge for edge in every if edge[0] not in loop.nodes}
        inner = Mark(address, tuple(bound), loop, every)
        if address in loop.heads and loop.around and outside:
            open_ones.append((order, inner, Mark(address, tuple(bound), loop.around, outside)))
        else:
            found.append(inner)
    # of several at one place the last is that of the innermost loop; a lone one goes to the loop that has none
    for order, inner, outer in open_ones:
        is_last = not any(other > order and mark.address == inner.address for other, mark, _ in open_ones)
        inner_has = any(mark.loop is inner.loop for mark in found)
        outer_has = any(mark.loop is outer.loop for mark in found)
        is_copy = any(mark.loop is outer.loop and mark.bound == outer.bound for mark in found)
        found.append(outer if not is_last or (inner_has and (is_copy or not outer_has)) else inner)
    return found


def lightest(graph, part, begins, weight, ends):
    """The least weight of a path within the part that begins with one of the edges and is ended, by `ends`, at a node."""
    best, work = {}, []
    for before, node in begins:
        heappush(work, (weight(before, node), node))
    while work:
        cost, node = heappop(work)
        if node in best:
            continue
        best[node] = cost
        if ends(node):
            return cost
        for place in graph.after[node]:
            if place in part and place not in best:
                heappush(work, (cost + weight(node, place), place))
    return FAR


def rounds_of(graph, loops, marks, begin, end):
    """How often the range's first word is come to from within it at most, each time that the range is come into; None where no
    mark tells."""
    within = {node for node in graph.after if begin <= node <= end}
    part = next((each for each in parts_of(within, graph.after) if begin in each), None)
    if not part:
        return 1
    again = 1 if any(place in within and place not in part for place in graph.before[begin]) else 0
    count = count_in(graph, part, marks, begin)
    if count is None:
        count = product(graph, loops, part, marks, begin)
    return None if count is None else count + again


def groups_of(part, marks):
    """The edges that pass the marks of loops that have the whole part, by what the marks say."""
    groups = defaultdict(set)
    for mark in marks:
        if part <= mark.loop.nodes and mark.address in part:
            groups[mark.bound] |= mark.edges
    return groups


def count_in(graph, part, marks, begin):
    """How often the place is come to again in one stay in the part, or None."""
    counts = [count_of(graph, part, begin, bound[0], edges) for bound, edges in groups_of(part, marks).items()
              if cuts(graph, part, {begin}, edges)]
    counts = [count for count in counts if count is not None]
    return max(counts, default=None)


def product(graph, loops, part, marks, begin):
    """How often the place is come to in one stay in the part, by the marks of the loops that it is in; or None."""
    within = [loop.nodes & part for loop in loops if begin in loop.nodes]
    chain = sorted((nodes for nodes in within if nodes < part), key=len) + [part]
    count = count_in(graph, chain[0], marks, begin)
    if count is None:
        return None
    count += 1
    for inner, outer in zip(chain, chain[1:]):
        bounds = [bound[0] for bound, edges in groups_of(outer, marks).items() if cuts(graph, outer, inner, edges)]
        if not bounds:
            return None
        count *= max(bounds) + 1
    return count


def cuts(graph, part, begin, edges):
    """Whether each way from the places out of them and back passes one of the edges; a lone place goes out by each way."""
    seen = set()
    work = [(node, place) for node in begin for place in graph.after[node] if len(begin) == 1 or place not in begin]
    while work:
        node, place = work.pop()
        if place not in part or (node, place) in edges or place in seen:
            continue
        if place in begin:
            return False
        seen.add(place)
        work += [(place, onward) for onward in graph.after[place]]
    return True


def count_of(graph, part, begin, bound, edges):
    """How often the place is come to again, where the edges are passed `bound` times at most. None where each round passes so
    many of them: a loop within was made straight, and it is its mark."""
    def weight(before, node):
        if (before, node) not in edges:
            return 0
        is_onward = before == node - 4
        return 1 if is_onward or len(graph.before[node]) == 1 else 0

    def way(node, ends):
        return lightest(graph, part, [(node, place) for place in graph.after[node] if place in part], weight, ends)

    leaving = {node for node in part if not graph.after[node] or any(place not in part for place in graph.after[node])}
    tail = 0 if begin in leaving else way(begin, lambda node: node in leaving)
    tail = 0 if tail >= FAR else tail
    lap = way(begin, lambda node: node == begin)
    lap = max(1, 0 if lap >= FAR else lap)
    if 1 < bound <= lap:
        return None
    counts = [0]
    for node in part:
        for before in [place for place in graph.before[node] if place not in part] + ([None] if node == graph.start else []):
            first = 0 if before is None else weight(before, node)
            if node == begin:
                counts.append((bound - first - tail) // lap)
            else:
                ahead = way(node, lambda place: place == begin)
                if ahead < FAR:
                    counts.append(1 + (bound - first - ahead - tail) // lap)
    return max(counts)


@dataclass
class Found:
    begin: int
    end: int
    bound: "int | None"


def loops_of(program, entries):
    """The loops that a timing file of the program has to declare, by address; their bounds by the marks."""
    graphs = graphs_of(program.words, entries)
    ends, found = {}, {}
    for graph in graphs:
        for begin, end in ranges_of(graph).items():
            ends[begin] = max(end, ends.get(begin, 0))
    for graph in graphs:
        here = [begin for begin in ends if begin in graph.after]
        if not here:
            continue
        nest = nest_of(graph)
        marks = marks_in(graph, nest, program.marks)
        for begin in here:
            found.setdefault(begin, []).append(rounds_of(graph, nest, marks, begin, ends[begin]))
    return [Found(begin, ends[begin], None if None in counts else max(counts)) for begin, counts in sorted(found.items())]
