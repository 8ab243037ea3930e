#!/usr/bin/env python3
"""Times commits of several threads to one journal: by turns (crates/desk_bench) and under a mutex (bench/desk_mutex.cpp).

desk.py [COMMITS]     COMMITS commits in all (200,000) by 1, 2, 4 and 8 threads, both programs in turn, nine times each
desk.py idle [SECONDS]  one thread computes for SECONDS (3) while another waits for it: the processor time of both

The medians are printed, with the load of the machine. The first program is built by `rt run` in crates/desk_bench.
"""
import os
import re
import resource
import subprocess
import sys
import tempfile

TOP = os.path.dirname(os.path.dirname(os.path.abspath(__file__)))
TURNS = os.path.join(TOP, "crates", "desk_bench", "out", "desk_bench")
REPETITIONS = 9


def compiled(folder):
    """Compiles the program with a mutex."""
    program = os.path.join(folder, "desk_mutex")
    source = os.path.join(TOP, "bench", "desk_mutex.cpp")
    subprocess.run(["g++", "-std=c++20", "-O2", "-pthread", source, "-o", program], check=True)
    return program


def run(program, *words):
    """The microseconds that a run prints, and the seconds of processor time that it took."""
    before = resource.getrusage(resource.RUSAGE_CHILDREN)
    ran = subprocess.run([program, *map(str, words)], stderr=subprocess.PIPE, text=True, check=True)
    after = resource.getrusage(resource.RUSAGE_CHILDREN)
    processor = after.ru_utime + after.ru_stime - before.ru_utime - before.ru_stime
    return int(re.search(r"(\d+) us", ran.stderr).group(1)), processor


def median(values):
    return sorted(values)[len(values) // 2]


def commits(mutex, count):
    for threads in (1, 2, 4, 8):
        times = {TURNS: [], mutex: []}
        for _ in range(REPETITIONS):
            for program in (TURNS, mutex):
                times[program].append(run(program, threads, count // threads)[0])
        turns, other = median(times[TURNS]), median(times[mutex])
        rates = count * 1_000_000 // turns, count * 1_000_000 // other
        print("%d threads: turns %7d us (%8d/s)  mutex %7d us (%8d/s)  ratio %.2f" % (threads, turns, rates[0], other, rates[1], turns / other))


def idle(mutex, seconds):
    for name, program in (("turns", TURNS), ("mutex", mutex)):
        micros, processor = run(program, "idle", seconds)
        print("%s: %.3f s, processor time %.3f s" % (name, micros / 1_000_000, processor))


def main():
    words = sys.argv[1:]
    mode = idle if words[:1] == ["idle"] else commits
    numbers = words[1:] if mode is idle else words
    if len(numbers) > 1 or not all(number.isdigit() for number in numbers):
        sys.exit(__doc__)
    if not os.path.exists(TURNS):
        sys.exit("build crates/desk_bench first: rt run in its folder")
    number = int(numbers[0]) if numbers else 3 if mode is idle else 200_000
    with tempfile.TemporaryDirectory() as folder:
        print("load", *os.getloadavg())
        mode(compiled(folder), number)


main()
