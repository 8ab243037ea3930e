#!/usr/bin/env python3
"""Makes flow problems of four families and of growing size, and times `solve_flow` on them.

families.py run SOLVE_FLOW [SOLVER [COUNT]]     the table: SOLVER is keeping, COUNT is 9 solvings, the fastest is told
families.py print FAMILY NODES                  writes a problem of a family as a certificate of version 2

grid    a square grid, its first column joined to the source and its last one to the destination; neighbours are joined
        both ways, at costs up to 1,000; one unit for each row is asked
chain   nodes in one line, neighbours joined by three arcs a direction, which get dearer; 25 units are asked, so that
        each search goes through all nodes
ones    a random network where every arc has cost 1, four directions for each node; half the room out of the source
full    a random network with all the units asked but one that can leave the source, whose arcs are all parts of paths

The program is proved and built by `rt run` in crates/solve_flow. A peak is told for each arc, less that of a run which
only reads; it is 0 if reading takes more than solving.
"""
import random
import subprocess
import sys

SIZES = (1_000, 4_000, 16_000)


def pieces(draw, room, count=3):
    """The rooms and costs of arcs of one direction, dearer and dearer."""
    return [(draw.randint(*room), cost) for cost in sorted(draw.randint(1, 1000) for _ in range(count))]


def grid(draw, nodes):
    side = int((nodes - 2) ** 0.5)
    source, end = side * side, side * side + 1
    for row in range(side):
        yield source, row * side, [(1, 1)]
        yield row * side + side - 1, end, [(1, 1)]
        for column in range(side):
            here = row * side + column
            for there in [here + 1] * (column + 1 < side) + [here + side] * (row + 1 < side):
                yield here, there, pieces(draw, (1, 3), 1)
                yield there, here, pieces(draw, (1, 3), 1)


def chain(draw, nodes):
    for node in range(nodes - 1):
        yield node, node + 1, pieces(draw, (10, 20))
        yield node + 1, node, pieces(draw, (10, 20))


def ones(draw, nodes):
    for node in range(nodes):
        for _ in range(4):
            other = draw.randrange(nodes - 1)
            yield node, other + (other >= node), [(draw.randint(1, 10), 1)]


def full(draw, nodes):
    rooms = {}
    for _ in range(40):
        units = draw.randint(1, 1000)
        path = [0] + draw.sample(range(1, nodes - 1), 8) + [nodes - 1]
        for pair in zip(path, path[1:]):
            rooms[pair] = rooms.get(pair, 0) + units
    for _ in range(3 * nodes):
        start, end = draw.sample(range(1, nodes), 2)
        rooms.setdefault((start, end), draw.randint(1, 1000))
    for (start, end), room in rooms.items():
        first = draw.randint(1, room)
        parts = [first, room - first] if first < room else [room]
        yield start, end, list(zip(parts, sorted(draw.randint(1, 1000) for _ in parts)))


def problem(family, nodes):
    """The numbers of the second line, and the arcs: direction, from, to, room, cost."""
    directions = list({"grid": grid, "chain": chain, "ones": ones, "full": full}[family](random.Random(1), nodes))
    arcs = [(number, start, end, *piece) for number, (start, end, parts) in enumerate(directions) for piece in parts]
    source, end = 0, nodes - 1
    if family == "grid":
        side = int((nodes - 2) ** 0.5)
        nodes, source, end = side * side + 2, side * side, side * side + 1
    leaving = sum(room for _, start, _, room, _ in arcs if start == source)
    demand = {"grid": leaving, "chain": 25, "ones": leaving // 2, "full": leaving - 1}[family]
    return (nodes, len(arcs), source, end, demand), arcs


def text_of(family, nodes):
    """A cut certificate with the problem; its side shows nothing, and is not checked."""
    numbers, arcs = problem(family, nodes)
    lines = ["askrene-certificate 2", "cut " + " ".join(map(str, numbers))]
    lines += ["arc " + " ".join(map(str, arc)) for arc in arcs]
    return numbers, "\n".join(lines + ["side 0"] * numbers[0] + ["end", ""])


def run(words, text):
    """The first lines of the output, the microseconds of each solving, and the peak in bytes."""
    code = "import resource, subprocess, sys; done = subprocess.run(sys.argv[1:]); print(resource.getrusage(resource.RUSAGE_CHILDREN).ru_maxrss, file=sys.stderr); sys.exit(done.returncode)"
    done = subprocess.run([sys.executable, "-c", code, *words], input=text, capture_output=True, text=True, check=True)
    *told, peak = done.stderr.split("\n")[:-1]
    return done.stdout[:40].split("\n"), [int(line.split()[-2]) for line in told[1:]], int(peak) * 1024


def rows(solve_flow, solver, count):
    for family in ("grid", "chain", "ones", "full"):
        for nodes in SIZES:
            numbers, text = text_of(family, nodes)
            lines, times, peak = run([solve_flow, solver, count], text)
            _, _, least = run([solve_flow, "none"], text)
            kind = lines[1].split()[0]
            least_time = min(times) / 1000
            yield family, numbers[0], numbers[1], numbers[4], kind, f"{least_time:.1f} ms", f"{max(0, peak - least) / numbers[1]:.0f}"


def main():
    if len(sys.argv) == 4 and sys.argv[1] == "print":
        sys.stdout.write(text_of(sys.argv[2], int(sys.argv[3]))[1])
    elif len(sys.argv) in (3, 4, 5) and sys.argv[1] == "run":
        solver, count = (sys.argv[3:] + ["keeping", "9"][len(sys.argv) - 3:])[:2]
        print("| Family | Nodes | Arcs | Demand | Answer | Time | Bytes an arc |\n|---|---|---|---|---|---|---|")
        for row in rows(sys.argv[2], solver, count):
            print("| " + " | ".join(f"{it:,}" if isinstance(it, int) else it for it in row) + " |", flush=True)
    else:
        sys.exit(__doc__)


main()
