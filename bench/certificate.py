#!/usr/bin/env python3
"""Times `askrened check` on a certificate that this script makes, and tells its peak memory.

certificate.py [ARCS [NODES]]          550,000 arcs, 15,000 nodes; five runs, the middle one is told
certificate.py --write FILE [ARCS [NODES]]      writes the certificate alone

The certificate is of version 2 and of a cheapest flow, without a solver: nodes get potentials that ascend from the source
to the destination, and parts of the demand go along ascending paths. A direction is one to seven arcs, which get dearer
and fill in order. Their costs are chosen so that the potentials show the flow: equal to the difference where an arc
carries units and has room left, at most that where it is full, at least that where it is not used. The program is the one
that `./askrened` runs.
"""
import os
import random
import subprocess
import sys
import tempfile
import time

TOP = os.path.dirname(os.path.dirname(os.path.abspath(__file__)))
PROGRAM = subprocess.run([os.path.join(TOP, "scripts", "program")], stdout=subprocess.PIPE, text=True, check=True).stdout.strip()


def unused(draw, least, count):
    """The rooms, costs and units of arcs that carry nothing, dearer and dearer."""
    costs = sorted(least + draw.randrange(10**9) for _ in range(count))
    return [(draw.randrange(1, 10**9), cost, 0) for cost in costs]


def used(draw, rise, units, count):
    """The same of arcs that carry the units in order, over a difference of potentials, and of arcs after them."""
    filled = draw.randrange(1, min(count, units) + 1)
    cuts = sorted(draw.sample(range(1, units), filled - 1))
    parts = [end - start for start, end in zip([0] + cuts, cuts + [units])]
    costs = sorted(draw.randrange(1, rise + 1) for _ in parts)
    pieces = [(part, cost, part) for part, cost in zip(parts, costs)]
    if draw.randrange(2):
        pieces[-1] = (parts[-1] + draw.randrange(1, 10**6), rise, parts[-1])
    return pieces + unused(draw, rise, count - filled)


def make(arcs, nodes):
    draw = random.Random(1)
    order = list(range(nodes))
    draw.shuffle(order)
    potential = [0] * nodes
    height = 0
    for node in order:
        potential[node] = height
        height += draw.randrange(1, 10**8)
    source, destination = order[0], order[-1]
    flow = {}
    demand = 0
    for _ in range(60):
        units = draw.randrange(1, 10**7)
        demand += units
        inner = sorted(draw.sample(range(1, nodes - 1), 12))
        path = [source] + [order[at] for at in inner] + [destination]
        for pair in zip(path, path[1:]):
            flow[pair] = flow.get(pair, 0) + units
    directions = []
    for (start, end), units in flow.items():
        directions.append((start, end, used(draw, potential[end] - potential[start], units, draw.randrange(1, 8))))
    count = sum(len(pieces) for _, _, pieces in directions)
    while count < arcs:
        start, end = draw.sample(order, 2)
        least = max(1, potential[end] - potential[start])
        pieces = unused(draw, least, min(draw.randrange(1, 8), arcs - count))
        directions.append((start, end, pieces))
        count += len(pieces)
    draw.shuffle(directions)
    lines = ["askrene-certificate 2", "flow %d %d %d %d %d" % (nodes, count, source, destination, demand)]
    for number, (start, end, pieces) in enumerate(directions):
        lines += ["arc %d %d %d %d %d %d" % ((number, start, end) + piece) for piece in pieces]
    return "\n".join(lines + ["potential %d" % p for p in potential] + ["end", ""])


def time_check(path):
    """The seconds, the peak in kB, the line and the status of one check."""
    with open(path) as text:
        start = time.perf_counter()
        check = subprocess.Popen([PROGRAM, "check"], stdin=text, stdout=subprocess.PIPE)
        line = check.stdout.read()
        _, status, usage = os.wait4(check.pid, 0)
        return time.perf_counter() - start, usage.ru_maxrss, line, os.waitstatus_to_exitcode(status)


def main():
    words = sys.argv[1:]
    target = words.pop(1) if words[:1] == ["--write"] and len(words) > 1 else None
    if target:
        words.pop(0)
    if len(words) > 2 or not all(word.isdigit() for word in words):
        sys.exit(__doc__)
    counts = [int(word) for word in words] + [550_000, 15_000][len(words):]
    if counts[0] < 6_000 or counts[1] < 20:
        sys.exit("at least 6,000 arcs and 20 nodes")
    if target:
        with open(target, "w") as file:
            file.write(make(*counts))
        return
    with tempfile.TemporaryDirectory() as folder:
        path = os.path.join(folder, "certificate")
        # made by a process of its own, since a fork of a large one has a large peak
        subprocess.run([sys.executable, __file__, "--write", path] + [str(count) for count in counts], check=True)
        size = os.path.getsize(path)
        runs = [time_check(path) for _ in range(5)]
    if any((line, status) != (b"cheapest\n", 0) for _, _, line, status in runs):
        sys.exit("the check said something else: %r" % (runs[0],))
    seconds, peak = sorted(run[0] for run in runs)[2], max(run[1] for run in runs)
    print("%d bytes, %.3f s, peak %d kB, which is %.2f times the text" % (size, seconds, peak, peak * 1024 / size))


if __name__ == "__main__":
    main()
