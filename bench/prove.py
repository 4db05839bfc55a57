#!/usr/bin/env python3
"""Measures `prove`, and searches by several workers, of a built og.

usage: bench/prove.py PROGRAM [--rounds N] [--folder FOLDER] [--large]

Runs PROGRAM on outlines of examples/ and on outlines that it makes in FOLDER (a temporary one by
default), in rounds: in each round every way of an outline once, one after the other. Prints two
tables of medians over the rounds: `prove` held against `find` and then `check`, by one worker; and,
of large outlines (with --large, of these alone), `find` and `prove` by four workers held against one
that works alone, and against one in each of four processes at the same time: a processor that works
alone is often faster than one of four. Stops where the ways of an outline print different
certificates or reports. PROGRAM is crates/og/out/og after `rt run` in crates/og.
"""

import argparse
import os
import statistics
import subprocess
import sys
import tempfile
import time

from bench import outline, write
from families import FAMILIES
from find import semaphore


def timed(words, stdin=None):
    """The wall seconds of a run, and what it printed."""
    begin = time.monotonic()
    ran = subprocess.run(words, stdin=stdin, stdout=subprocess.PIPE, stderr=subprocess.DEVNULL, check=False)
    return time.monotonic() - begin, ran.stdout


def same(path, texts):
    if len(set(texts)) != 1:
        sys.exit("bench/prove.py: %s: different texts" % path)


def by_one_worker(program, folder, path, rounds):
    """The median seconds of `find` with `check`, and of `prove`."""
    apart, together = [], []
    certs = os.path.join(folder, "made.cert")
    for _ in range(rounds):
        finding, found = timed([program, "find", path])
        with open(certs, "wb") as file:
            file.write(found)
        checking, _ = timed([program, "check", path, certs])
        apart.append(finding + checking)
        together.append(timed([program, "prove", path])[0])
    return statistics.median(apart), statistics.median(together)


def at_once(words, processes):
    """The mean wall seconds of so many runs at the same time."""
    begin = time.monotonic()
    running = [subprocess.Popen(words, stdout=subprocess.DEVNULL, stderr=subprocess.DEVNULL) for _ in range(processes)]
    seconds = []
    for process in running:
        process.wait()
        seconds.append(time.monotonic() - begin)
    return statistics.mean(seconds)


def by_workers(program, command, path, rounds):
    """The median seconds of a command by one worker alone, by one in each of four processes, and by four."""
    alone, among, four, texts = [], [], [], []
    for _ in range(rounds):
        for workers, seconds in (("1", alone), ("4", four)):
            took, text = timed([program, command, path, "--workers", workers])
            seconds.append(took)
            texts.append(text)
        among.append(at_once([program, command, path, "--workers", "1"], 4))
    same(path, texts)
    return [statistics.median(it) for it in (alone, among, four)]


# The large outlines that several workers search, by their families.
LARGE = (("fork and join", 48), ("fork and join", 64), ("lock", 64), ("counter", 64), ("barrier", 64), ("readers and writers", 24))


def main():
    parser = argparse.ArgumentParser()
    parser.add_argument("program")
    parser.add_argument("--rounds", type=int, default=7)
    parser.add_argument("--folder")
    parser.add_argument("--large", action="store_true")
    given = parser.parse_args()
    examples = os.path.join(os.path.dirname(os.path.dirname(os.path.abspath(__file__))), "examples")
    with tempfile.TemporaryDirectory() as room:
        folder = given.folder or room
        paths = [(name, os.path.join(examples, name)) for name in ("counter.og", "semaphore.og", "wrong.og")]
        made = [("8 processes of 40 statements", outline(8, 40)), ("semaphore, 12 processes", semaphore(12, 3)),
                ("semaphore, 20 processes", semaphore(20, 3))]
        made += [("%s, %d" % it, FAMILIES[it[0]][0](it[1])) for it in (("lock", 16), ("lock", 32), ("fork and join", 24))]
        for number, (name, text) in enumerate(made):
            paths.append((name, write(folder, "made%d.og" % number, text)))
        if not given.large:
            print("| Outline | `find` and `check` | `prove` | Ratio |\n|-|-|-|-|")
        for name, path in [] if given.large else paths:
            apart, together = by_one_worker(given.program, folder, path, given.rounds)
            print("| %s | %.3f s | %.3f s | %.2f |" % (name, apart, together, together / apart), flush=True)
        print("\n| Outline | Command | One worker alone | One in each of four processes | Four workers | Times as fast as one alone | as one of four |\n|-|-|-|-|-|-|-|")
        for family, size in LARGE:
            name = "%s, %d" % (family, size)
            path = write(folder, "large.og", FAMILIES[family][0](size))
            for command in ("find", "prove"):
                alone, among, four = by_workers(given.program, command, path, given.rounds)
                row = (name, command, alone, among, four, alone / four, among / four)
                print("| %s | `%s` | %.3f s | %.3f s | %.3f s | %.2f | %.2f |" % row, flush=True)


if __name__ == "__main__":
    main()
