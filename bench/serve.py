#!/usr/bin/env python3
"""Times cheap requests of clients that are connected to one `askrened serve`, alone and while two more clients ask for routes.

  serve.py --map FILE [--seconds S] [--repeat R] [--clients LIST] [PROGRAM]

A cheap client sends a request, waits for its reply, and sends the next, S seconds (4) long: biases, updates, reservations and
what frees them, informs, and layers that exist already. The other two ask, one request after another, for routes between nodes
of the map that have many channels. Each client is a process of its own. There is a worker for each client, and two more.

For each number of clients in LIST (1,4,16) a server is run R times (3) alone and R times with routes, in turn, and the run with
the middle median is shown, as a Markdown table. Times include those of the clients, which share the processors with the server.
PROGRAM is the one that `./askrened` runs, if absent.
"""
import argparse
import collections
import json
import multiprocessing
import os
import pathlib
import random
import socket
import subprocess
import sys
import tempfile
import time

TOP = pathlib.Path(__file__).resolve().parent.parent
LAYERS, ASKING, PATIENCE = 8, 2, 300


def request(method, params):
    return json.dumps({"id": 1, "method": method, "params": params}, separators=(",", ":")).encode() + b"\n"


def cheap(draw):
    """Requests in turn, without an end. What they add stays below the limits of layers and reservations."""
    while True:
        layer, direction = f"l{draw.randrange(LAYERS)}", f"7x{draw.randrange(200)}x0/{draw.randrange(2)}"
        item = [[{"short_channel_id_dir": direction, "amount_msat": draw.randrange(10**9)}]]
        yield request("askrene-reserve", item)
        yield request("askrene-bias-channel", [layer, direction, draw.randrange(-100, 101)])
        yield request("askrene-create-layer", [layer])
        yield request("askrene-update-channel", {"layer": layer, "short_channel_id_dir": direction, "fee_base_msat": draw.randrange(1000)})
        yield request("askrene-unreserve", item)
        yield request("askrene-bias-channel", {"layer": layer, "short_channel_id_dir": direction, "bias": draw.randrange(-100, 101)})
        if draw.randrange(4) == 0:
            yield request("askrene-inform-channel", [layer, direction, draw.randrange(1, 10**9), "unconstrained"])


def big_nodes(path):
    with open(path, encoding="utf-8") as file:
        listed = json.load(file)
    channels = (listed if "channels" in listed else listed["result"])["channels"]
    degree = collections.Counter(channel["source"] for channel in channels if channel.get("active", True))
    return [node for node, _ in degree.most_common(max(2, len(degree) // 20))]


def routes(draw, nodes):
    while True:
        source, destination = draw.sample(nodes, 2)
        amount = draw.choice([10**7, 10**8, 10**9])
        yield request("getroutes", [source, destination, amount, ["auto.sourcefree"], amount // 50, 18])


def connected(path):
    until = time.monotonic() + PATIENCE
    while True:
        client = socket.socket(socket.AF_UNIX)
        client.settimeout(PATIENCE)
        try:
            client.connect(path)
            return client
        except (FileNotFoundError, ConnectionRefusedError):
            client.close()
            if time.monotonic() > until:
                raise
            time.sleep(0.01)


def client(path, requests, start, stop, told):
    """Sends requests one by one until it is told to stop, and tells the nanoseconds of each after the start, and the refusals."""
    times, refused = [], 0
    with connected(path) as link, link.makefile("rb") as replies:
        # a first reply shows that a worker serves this client
        link.sendall(request("askrene-listreservations", []))
        replies.readline()
        start.wait(PATIENCE)
        until = time.monotonic() + stop
        for line in requests:
            begun = time.perf_counter_ns()
            if time.monotonic() > until:
                break
            link.sendall(line)
            reply = replies.readline()
            times.append(time.perf_counter_ns() - begun)
            refused += reply.startswith(b'{"error"')
            if not reply.endswith(b"\n"):
                raise EOFError("a session ended early")
    told.put((times, refused))


def run(given, count, asking, nodes):
    """The times of the cheap requests, in order, and how many routes were answered and how many of these refused."""
    with tempfile.TemporaryDirectory() as folder:
        path = os.path.join(folder, "socket")
        # one more connection creates the layers
        words = ["--socket", path, "--connections", str(count + asking + 1), "--workers", str(count + ASKING), "--map", given.map]
        with subprocess.Popen([given.program, "serve", *words], stdin=subprocess.DEVNULL) as server:
            clients = []
            try:
                with connected(path) as first, first.makefile("rb") as replies:
                    for layer in range(LAYERS):
                        first.sendall(request("askrene-create-layer", [f"l{layer}"]))
                        replies.readline()
                start, told = multiprocessing.Barrier(count + asking), [multiprocessing.Queue() for _ in range(count + asking)]
                for number in range(count + asking):
                    draw = random.Random(number)
                    requests = cheap(draw) if number < count else routes(draw, nodes)
                    args = (path, requests, start, given.seconds, told[number])
                    clients.append(multiprocessing.Process(target=client, args=args, daemon=True))
                    clients[-1].start()
                found = [queue.get(timeout=PATIENCE + given.seconds) for queue in told]
                for process in clients:
                    process.join(PATIENCE)
                if server.wait(PATIENCE):
                    sys.exit(f"the server ended with status {server.returncode}")
            finally:
                for process in clients:
                    if process.is_alive():
                        process.terminate()
                if server.poll() is None:
                    server.kill()
    times = sorted(value for values, _ in found[:count] for value in values)
    return times, sum(len(values) for values, _ in found[count:]), sum(refused for _, refused in found[count:])


def at(times, share):
    return times[min(len(times) - 1, int(len(times) * share))] / 1000


def main():
    words = argparse.ArgumentParser(description=__doc__, formatter_class=argparse.RawDescriptionHelpFormatter)
    words.add_argument("--map", required=True)
    words.add_argument("--seconds", type=float, default=4)
    words.add_argument("--repeat", type=int, default=3)
    words.add_argument("--clients", default="1,4,16")
    words.add_argument("program", nargs="?")
    given = words.parse_args()
    if not given.program:
        given.program = subprocess.run([TOP / "scripts" / "program"], stdout=subprocess.PIPE, text=True, check=True).stdout.strip()
    multiprocessing.set_start_method("fork")
    nodes = big_nodes(given.map)
    print("load %.1f %.1f %.1f, %d processors" % (*os.getloadavg(), os.cpu_count()))
    print()
    print("| Clients | Workers | Alone: requests a second | median | 99th percentile | With routes: requests a second | median | 99th percentile | Routes a second | Medians |")
    print("|---|---|---|---|---|---|---|---|---|---|")
    for count in map(int, given.clients.split(",")):
        runs = {0: [], ASKING: []}
        for _ in range(given.repeat):
            for asking, found in runs.items():
                found.append(run(given, count, asking, nodes))
        cells, medians = [], []
        for found in runs.values():
            times = sorted(found, key=lambda one: at(one[0], 0.5))[len(found) // 2]
            medians.append(at(times[0], 0.5))
            cells.append("%.0f | %.0f µs | %.0f µs" % (len(times[0]) / given.seconds, medians[-1], at(times[0], 0.99)))
        asked, refused = times[1:]
        rate = "%.1f, %d of %d refused" % (asked / given.seconds, refused, asked)
        print("| %d | %d | %s | %s | %s | %.2f |" % (count, count + ASKING, *cells, rate, medians[1] / medians[0]), flush=True)
    print()
    print("load %.1f %.1f %.1f" % os.getloadavg())


main()
