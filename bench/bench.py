#!/usr/bin/env python3
"""Measures a built og.

usage: bench/bench.py PROGRAM [--folder FOLDER]

Makes its inputs in FOLDER (a temporary one by default), runs PROGRAM on them, and prints a table of
wall times, the best of three, and of the most memory that a run held. PROGRAM is crates/og/out/og
after `rt run` in crates/og.
"""

import argparse
import os
import re
import subprocess
import sys
import tempfile
import time


def outline(processes, statements=40, note="x >= 0"):
    """Processes over one x; the first two statements of each are assignments, and each assertion is the note."""
    note = "{%s}" % note
    lines = ["var x;", note, "cobegin"]
    for number in range(processes):
        if number > 0:
            lines.append("//")
        for statement in range(statements):
            lines.append(note + (" x := 1" if statement < 2 else " skip"))
        lines.append(note)
    return "\n".join(lines + ["coend", note, ""])


def close(facts):
    """The lines that refute facts of an outline of the above form."""
    for number, fact in facts:
        if re.fullmatch(r"[1-9][0-9]* <= 0", fact):
            return ["close 1*%d" % number]
    for number, fact in facts:
        parts = fact.split(" or ")
        if len(parts) > 1:
            last = len(facts) + 1
            return ["split %d %d" % (number, len(parts))] + ["close 1*%d" % last] * len(parts)
    low = next(number for number, fact in facts if fact == "-x <= 0")
    high = next(number for number, fact in facts if fact == "x + 1 <= 0")
    return ["close 1*%d 1*%d" % (low, high)]


def certificates(listing):
    """The certificates of the conditions of a listing."""
    lines = ["og-cert 1"]
    facts = []
    for line in listing.split("\n") + ["cond 0 "]:
        if line.startswith("cond "):
            if facts:
                lines += close(facts)
            number = line.split()[1]
            if number != "0":
                lines.append("cond " + number)
            facts = []
        elif line:
            number, fact = line.strip().split(": ", 1)
            facts.append((int(number), fact))
    return "\n".join(lines) + "\n"


def first_wrong(certs):
    """Certificates whose first one closes by its first fact, which is no contradiction; the others stay."""
    return "og-cert 1\ncond 1\nclose 1*1\ncond 2\n" + certs.split("cond 2\n", 1)[1]


def long_certificates(size):
    """A text of certificates of about this size."""
    entry = "split 1 2\nsum 9223372036854775807*1 12345*l0 1*u0\nclose 1*2 1*3\nbranch -5 1*v0 -7*v1\nclose 1*2\nclose 1*3\n"
    lines = ["og-cert 1\n"]
    length = len(lines[0])
    number = 0
    while True:
        number += 1
        piece = "cond %d\n%s" % (number, entry)
        if length + len(piece) > size:
            return "".join(lines)
        lines.append(piece)
        length += len(piece)


def run(words):
    """The standard output and the seconds of a run."""
    begin = time.monotonic()
    done = subprocess.Popen(words, stdout=subprocess.PIPE, stderr=subprocess.PIPE)
    out, _ = done.communicate()
    seconds = time.monotonic() - begin
    return out, seconds


def peak(words):
    """The most memory of a run in KiB."""
    code = ("import resource, subprocess, sys;"
            "subprocess.run(sys.argv[1:], stdout=subprocess.DEVNULL, stderr=subprocess.DEVNULL);"
            "print(resource.getrusage(resource.RUSAGE_CHILDREN).ru_maxrss)")
    return int(subprocess.run([sys.executable, "-c", code] + words, stdout=subprocess.PIPE).stdout)


def measure(what, words):
    times = []
    for _ in range(3):
        out, seconds = run(words)
        times.append(seconds)
    first = out.split(b"\n", 1)[0].decode()[:40]
    print("| %s | %.3f s | %.1f MB | `%s` |" % (what, min(times), peak(words) / 1024, first), flush=True)


def write(folder, name, text):
    path = os.path.join(folder, name)
    with open(path, "w") as f:
        f.write(text)
    return path


def main():
    parser = argparse.ArgumentParser()
    parser.add_argument("program")
    parser.add_argument("--folder")
    options = parser.parse_args()
    program = os.path.abspath(options.program)
    folder = options.folder or tempfile.mkdtemp()
    print("| What | Wall | Most memory | First line |\n|-|-|-|-|")
    for processes in (8, 36):
        source = write(folder, "x%d.og" % processes, outline(processes))
        listing, _ = run([program, "conditions", source])
        count = listing.count(b"cond ")
        text = certificates(listing.decode())
        certs = write(folder, "x%d.cert" % processes, text)
        wrong = write(folder, "wrong%d.cert" % processes, first_wrong(text))
        measure("listing of %d conditions" % count, [program, "conditions", source])
        for workers in (1, 2, 4):
            words = [program, "check", source, certs, "--workers", str(workers)]
            measure("check of %d conditions, workers: %d" % (count, workers), words)
        measure("check of %d conditions, the first one wrong" % count, [program, "check", source, wrong])
    source = write(folder, "many.og", outline(100, note="x >= 0 and x >= -100 and x >= -200"))
    for form in ([], ["--triples"], ["--smt2"]):
        words = [program, "conditions", source] + form
        count = run(words)[0].count(b"cond ")
        size = os.path.getsize(source)
        measure(" ".join(["listing of %d conditions of %d bytes" % (count, size)] + form), words)
    source = write(folder, "skip.og", "{true}\ncobegin\n{true} skip {true}\ncoend\n{true}\n")
    long = write(folder, "long.cert", long_certificates(67108864))
    size = os.path.getsize(long)
    measure("reading certificates of %d bytes" % size, [program, "check", source, long])
    measure("start and end", [program, "check", source, write(folder, "none.cert", "og-cert 1\n")])


if __name__ == "__main__":
    main()
