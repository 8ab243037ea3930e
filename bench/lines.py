#!/usr/bin/env python3
"""Times `askrened ask` on request lines that this script makes, and tells its peak memory.

lines.py cheap [COUNT]     COUNT lines (50,000) of changes to eight layers: informs, biases, disabled nodes, layers
                           that are there already
lines.py biases [COUNT]    COUNT biases (65,536) of different directions in one layer
lines.py unreserve [COUNT]  the one request that sets 1,000 reservations free where COUNT (65,536) stand, each the latest
                           of those that are left, which takes longest; both runs, with it and without it, are timed
lines.py layers [COUNT]    COUNT lines (1,000,000) that create and remove layers in turn

The program is the one that `./askrened` runs. Each run is made five times, the middle one is told.
"""
import json
import os
import random
import resource
import subprocess
import sys
import tempfile
import time

TOP = os.path.dirname(os.path.dirname(os.path.abspath(__file__)))
PROGRAM = subprocess.run([os.path.join(TOP, "scripts", "program")], stdout=subprocess.PIPE, text=True, check=True).stdout.strip()


def cheap(count):
    draw = random.Random(1)
    for layer in range(8):
        yield "create-layer", {"layer": "l%d" % layer}
    for _ in range(count - 8):
        direction = "%dx%dx%d/%d" % (draw.randrange(900000), draw.randrange(3000), draw.randrange(4), draw.randrange(2))
        layer = "l%d" % draw.randrange(8)
        kind = draw.randrange(7)
        if kind < 4:
            yield "inform-channel", {
                "layer": layer,
                "short_channel_id_dir": direction,
                "amount_msat": draw.randrange(1, 10**9),
                "inform": draw.choice(["constrained", "unconstrained"]),
            }
        elif kind < 5:
            yield "bias-channel", [layer, "7x%dx0/0" % draw.randrange(200), draw.randrange(-100, 101)]
        elif kind < 6:
            yield "create-layer", {"layer": layer}
        else:
            yield "disable-node", {"layer": layer, "node": "02" + "%064x" % draw.randrange(500)}


def biases(count):
    yield "create-layer", ["x"]
    for place in range(count):
        yield "bias-channel", ["x", "%dx%dx0/0" % (place // 1000, place % 1000), place % 201 - 100]


def layers(count):
    for place in range(count):
        yield ("create-layer" if place % 2 == 0 else "remove-layer"), ["l%d" % (place // 2 % 500)]


def item(place):
    return {"short_channel_id_dir": "%dx%dx0/0" % (place // 1000, place % 1000), "amount_msat": 5}


def reservations(count):
    for start in range(0, count, 512):
        yield "reserve", [[item(place) for place in range(start, min(start + 512, count))]]


def freed_last(count):
    yield from reservations(count)
    yield "unreserve", [[item(count - 1 - place) for place in range(min(count, 1000))]]


def timed(requests):
    """The middle of five times, and the greatest peak in kB."""
    with tempfile.TemporaryDirectory() as folder:
        path = os.path.join(folder, "lines")
        with open(path, "w") as lines:
            for place, (method, params) in enumerate(requests):
                request = {"id": place, "method": "askrene-" + method, "params": params}
                lines.write(json.dumps(request, separators=(",", ":")) + "\n")
        seconds = []
        for _ in range(5):
            start = time.perf_counter()
            with open(path, "rb") as requests, open(os.path.join(folder, "replies"), "wb") as replies:
                subprocess.run([PROGRAM, "ask"], stdin=requests, stdout=replies, check=True)
            seconds.append(time.perf_counter() - start)
        return sorted(seconds)[2], resource.getrusage(resource.RUSAGE_CHILDREN).ru_maxrss


def main():
    kinds = {"cheap": (cheap, 50_000), "biases": (biases, 65_536), "layers": (layers, 1_000_000), "unreserve": (freed_last, 65_536)}
    if len(sys.argv) not in (2, 3) or sys.argv[1] not in kinds:
        sys.exit(__doc__)
    make, usual = kinds[sys.argv[1]]
    count = int(sys.argv[2]) if len(sys.argv) == 3 else usual
    seconds, peak = timed(make(count))
    if make is freed_last:
        print("unreserve of %d: %.3f s" % (count, seconds - timed(reservations(count))[0]))
    else:
        print("%s %d lines: %.3f s, %.0f lines/s, peak %d kB" % (sys.argv[1], count, seconds, count / seconds, peak))


main()
