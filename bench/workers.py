#!/usr/bin/env python3
"""Measures the workers alone, without reading and listing.

usage: bench/workers.py OG OG_BENCH [--rounds N] [--workers K]

OG and OG_BENCH are crates/og/out/og and crates/og_bench/out/og_bench, after `rt run` in these
folders. The conditions are those of an outline of 36 processes over one variable. Each round
measures in turn one worker alone, one worker in each of K processes at the same time, K workers in
one process, and the K processes again. One worker alone often has a faster processor than one of K
that work at once, so both are compared with K workers.
"""

import argparse
import os
import statistics
import subprocess
import tempfile

import bench


class Bench:
    """A process that gives the milliseconds of each search for all statuses."""

    def __init__(self, program, source, certs):
        self.process = subprocess.Popen([program, source, certs], stdin=subprocess.PIPE,
                                        stdout=subprocess.PIPE, bufsize=0)
        self.told = [self.process.stdout.readline().decode().strip() for _ in range(2)]

    def begin(self, workers):
        self.process.stdin.write(b"%d" % workers)

    def end(self):
        return int(self.process.stdout.readline()) / 1000

    def time(self, workers):
        self.begin(workers)
        return self.end()


def at_once(processes):
    """The milliseconds of one worker in each process, at the same time."""
    for process in processes:
        process.begin(1)
    return [process.end() for process in processes]


def row(what, times):
    cuts = statistics.quantiles(times, n=4)
    mean = statistics.mean(times)
    print("| %s | %.1f | %.1f | %.1f | %.1f | %.1f |" % (what, min(times), *cuts, mean))


def inputs(og, folder):
    source = bench.write(folder, "x36.og", bench.outline(36))
    listing, _ = bench.run([og, "conditions", source])
    return source, bench.write(folder, "x36.cert", bench.certificates(listing.decode()))


def main():
    parser = argparse.ArgumentParser()
    parser.add_argument("og")
    parser.add_argument("og_bench")
    parser.add_argument("--rounds", type=int, default=100)
    parser.add_argument("--workers", type=int, default=4)
    options = parser.parse_args()
    count = options.workers
    if not 2 <= count <= 9:
        parser.error("--workers takes a number from 2 to 9")
    with tempfile.TemporaryDirectory() as folder:
        source, certs = inputs(os.path.abspath(options.og), folder)
        program = os.path.abspath(options.og_bench)
        processes = [Bench(program, source, certs) for _ in range(count)]
    print(", ".join(processes[0].told))
    for process in processes:
        process.time(1)
        process.time(count)
    alone, beside, together = [], [], []
    for number in range(options.rounds):
        process = processes[number % count]
        alone.append(process.time(1))
        before = at_once(processes)
        together.append(process.time(count))
        beside.append(statistics.mean(before + at_once(processes)))
    print("| Milliseconds | Least | Quarter | Half | Three quarters | Mean |\n|-|-|-|-|-|-|")
    row("one worker alone", alone)
    row("one worker in each of %d processes" % count, beside)
    row("%d workers" % count, together)
    print("%d workers, by the means: %.2f times one worker alone, %.2f times one of %d processes" % (
        count, sum(alone) / sum(together), sum(beside) / sum(together), count))


if __name__ == "__main__":
    main()
