#!/usr/bin/env python3
"""Measures what a check costs where many conditions have one long certificate.

usage: bench/worst.py PROGRAM [--depth D] [--processes P] | --large

Each of P processes has 11 assignments `x := 0`, and each assertion is `false and x = C`. In the first
outline C is 0 everywhere, so that the facts of most conditions are equal; in the second no two
assertions have the same C, so that hardly two conditions have. The certificate is a tree of 2^D
branches, whose ends each take the fact `1 <= 0`, and all conditions have it. Prints the processor
time of a check by one worker with that tree and with a single end, and the time of one replay of one
line that is told by the two.

With --large 60 processes have 32 assignments each, between assertions `x = 0`: some 3,700,000
conditions. Prints the processor time of `prove` by one worker, and its greatest memory.
"""

import argparse
import os
import resource
import subprocess
import sys
import tempfile

STEPS = 11

LARGE_PROCESSES = 60
LARGE_STEPS = 32


def outline(processes, steps, note):
    """The outline whose assertions note() gives, one after another."""

    def process():
        return " ".join("%s x := 0" % note() for _ in range(steps)) + " " + note()

    head = "var x;%s cobegin " % note()
    return head + " // ".join(process() for _ in range(processes)) + " coend {true}"


def false_notes(constant):
    """Assertions of which the n-th has the constant(n)."""
    numbers = iter(range(1_000_000))
    return lambda: "{false and x = %d}" % constant(next(numbers))


def tree(depth):
    if depth == 0:
        return "close 1*1\n"
    return "branch 0\n" + 2 * tree(depth - 1)


def certificates(count, depth):
    same = "".join("cond %d\nsame 1\n" % n for n in range(2, count + 1))
    return "og-cert 2\ncond 1\n" + tree(depth) + same


def count(processes, steps):
    local = 2 * processes * steps
    interference = processes * steps * (processes - 1) * (steps + 1)
    return processes + local + interference + 2


def seconds(words):
    before = resource.getrusage(resource.RUSAGE_CHILDREN)
    ended = subprocess.run(words, stdout=subprocess.DEVNULL)
    after = resource.getrusage(resource.RUSAGE_CHILDREN)
    if ended.returncode != 0:
        sys.exit("not proved: " + " ".join(words))
    return after.ru_utime + after.ru_stime - before.ru_utime - before.ru_stime


def write(folder, name, text):
    path = os.path.join(folder, name)
    with open(path, "w") as file:
        file.write(text)
    return path


def large(program):
    with tempfile.TemporaryDirectory() as folder:
        text = outline(LARGE_PROCESSES, LARGE_STEPS, lambda: "{x = 0}")
        source = write(folder, "source.og", text.replace("coend {true}", "coend {x = 0}"))
        spent = seconds([program, "prove", source])
    memory = resource.getrusage(resource.RUSAGE_CHILDREN).ru_maxrss
    conditions = count(LARGE_PROCESSES, LARGE_STEPS)
    print("prove, %d conditions: %.1f s, %d MB" % (conditions, spent, memory / 1000))


def main():
    parser = argparse.ArgumentParser(usage=__doc__)
    parser.add_argument("program")
    parser.add_argument("--depth", type=int, default=12)
    parser.add_argument("--processes", type=int, default=12)
    parser.add_argument("--large", action="store_true")
    words = parser.parse_args()
    if words.large:
        return large(words.program)
    conditions = count(words.processes, STEPS)
    lines = 2 ** (words.depth + 1) - 1
    print("| %d conditions, certificate of | 1 line | %d lines | one line |" % (conditions, lines))
    print("|-|-|-|-|")
    with tempfile.TemporaryDirectory() as folder:
        certs = [write(folder, "%d.cert" % depth, certificates(conditions, depth))
                 for depth in (0, words.depth)]
        for what, constant in [("equal facts", lambda n: 0), ("different facts", lambda n: n)]:
            text = outline(words.processes, STEPS, false_notes(constant))
            source = write(folder, "source.og", text)
            few, many = [seconds([words.program, "check", source, cert]) for cert in certs]
            line = (many - few) / conditions / lines
            print("| %s | %.2f s | %.2f s | %.1f ns |" % (what, few, many, line * 1e9))


main()
