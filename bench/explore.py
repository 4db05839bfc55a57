#!/usr/bin/env python3
"""Measures `explore` of a built og beside SPIN, and compares what the two find.

usage: bench/explore.py PROGRAM [--rounds N] [--folder FOLDER] [--large]

For each outline of examples/ and of several families that it makes in FOLDER (a temporary one by
default), runs `PROGRAM explore OUTLINE --erased` from one start near 0, and the verifier that `spin -a` makes of what
`PROGRAM promela OUTLINE --erased` prints, without its tests of bounds, built by `cc -O2 -DSAFETY`, once
with SPIN's reduction and once without it (-DNOREDUCE). Each runs once in each round, in turn. Prints a line for each outline:
the moments of og and the states of SPIN without reduction, the rate of each by processor time and
the memory for each moment, both beyond that of the smallest outline. Stops where the two differ on
the number of moments, on whether the program can get stuck, or on whether the postcondition can be
false. With --large there are outlines of a million moments too.
PROGRAM is crates/og/out/og after `rt run` in crates/og; `spin` and `cc` are on the path.
"""

import argparse
import glob
import os
import re
import statistics
import subprocess
import sys
import tempfile

from bench import write
from find import semaphore

LIMIT = 1000000
# Below so many moments a rate is that of starting a program.
MANY = 20000


# ---- outlines

def loops(processes, rounds):
    """Each process adds 1 to a common variable and to its own, so many times."""
    names = [f"k{number}" for number in range(1, processes + 1)]
    lines = [f"var x, {', '.join(names)};", "{true}", "cobegin"]
    for own in names:
        lines += ["//"] * (own != names[0])
        lines += ["{true}", f"while {own} < {rounds} do begin", "{true} x := x + 1", f"{{true}} {own} := {own} + 1", "{true}", "end", "{true}"]
    return "\n".join(lines + ["coend", f"{{x = {processes * rounds}}}", ""])


def loads(processes):
    """Each process loads a counter, and stores it raised by 1: the usual lost update."""
    names = [f"r{number}" for number in range(1, processes + 1)]
    lines = [f"var x, {', '.join(names)};", "{true}", "cobegin"]
    for own in names:
        lines += ["//"] * (own != names[0])
        lines += [f"{{true}} {own} := x", "{true} skip", f"{{true}} x := {own} + 1", "{true}"]
    return "\n".join(lines + ["coend", f"{{x = {processes}}}", ""])


def philosophers(count, rounds):
    """Each one takes the fork on the left, then that on the right, and puts both back, so many times."""
    forks = [f"f{number}" for number in range(count)]
    meals = [f"m{number}" for number in range(count)]
    lines = [f"var {', '.join(forks + meals)};", "{true}", "cobegin"]
    for number, meal in enumerate(meals):
        left, right = forks[number], forks[(number + 1) % count]
        lines += ["//"] * (number > 0)
        lines += ["{true}", f"while {meal} < {rounds} do begin", f"{{true}} await {left} = 0 then {left} := 1",
                  f"{{true}} await {right} = 0 then {right} := 1",
                  f"{{true}} await true then begin {left} := 0; {right} := 0; {meal} := {meal} + 1 end", "{true}", "end", "{true}"]
    return "\n".join(lines + ["coend", "{true}", ""])


def made(large):
    """The outlines that are made, by name."""
    outlines = {
        "loops, 2 processes of 120 rounds": loops(2, 120),
        "loops, 3 processes of 16 rounds": loops(3, 16),
        "loops, 4 processes of 6 rounds": loops(4, 6),
        "loops, 5 processes of 3 rounds": loops(5, 3),
        "loops, 6 processes of 2 rounds": loops(6, 2),
        "lost updates, 4 processes": loads(4),
        "lost updates, 5 processes": loads(5),
        "philosophers, 3 of 12 meals": philosophers(3, 12),
        "philosophers, 4 of 4 meals": philosophers(4, 4),
        "philosophers, 5 of 2 meals": philosophers(5, 2),
        "semaphore, 6 processes": semaphore(6, 3),
        "semaphore, 8 processes": semaphore(8, 4),
    }
    if large:
        outlines["loops, 3 processes of 32 rounds"] = loops(3, 32)
        outlines["philosophers, 4 of 7 meals"] = philosophers(4, 7)
    return outlines


# ---- runs

def run(words, folder):
    """The standard output of a run, its processor seconds and its most memory in bytes."""
    with tempfile.TemporaryFile() as out:
        process = subprocess.Popen(words, cwd=folder, stdout=out, stderr=subprocess.STDOUT, stdin=subprocess.DEVNULL)
        _, _, usage = os.wait4(process.pid, 0)
        process.returncode = 0
        out.seek(0)
        return out.read().decode(errors="replace"), usage.ru_utime + usage.ru_stime, usage.ru_maxrss * 1024


def first(pattern, text):
    found = re.search(pattern, text, re.MULTILINE)
    if not found:
        sys.exit(f"no {pattern!r} in:\n{text[:2000]}")
    return found[1]


def start_words(program, folder, path):
    """The words for one start near 0, of those that og explores."""
    told, _, _ = run([program, "explore", path, "--erased", "--limit", "1"], folder)
    ranges = re.findall(r"(\w+) = (-?\d+)\.\.(-?\d+)", first(r"^(starts: .*)$", told))
    return [f"{name}={min(max(int(low), 0), int(high))}" for name, low, high in ranges]


def twin(program, path, told):
    """The twin of an outline from the one start that og names, without tests of bounds."""
    named = first(r"^starts: 1 with (.*)$", told)
    words = [] if named == "nothing" else [it.replace(" = ", "=") for it in named.split(", ")]
    text = subprocess.run([program, "promela", path, "--erased", *words], capture_output=True, text=True, check=True).stdout
    return re.sub(r"; within\(\w+\)", "", text)


def built(folder, text, flags, name):
    write(folder, "twin.pml", text)
    for words in (["spin", "-a", "-o3", "twin.pml"], ["cc", "-O2", "-DSAFETY", *flags, "-w", "-o", name, "pan.c"]):
        made_of = subprocess.run(words, cwd=folder, capture_output=True, text=True)
        if made_of.returncode:
            sys.exit(f"{' '.join(words)}: {made_of.stdout}{made_of.stderr}")
    return f"./{name}"


def compare(name, told, states, wrong, stuck):
    """Stops where og and SPIN differ."""
    moments, complete = int(first(r"^moments: (\d+)$", told)), first(r"^complete: (\w+)$", told)
    found = bool(re.search(r"^\S+: postcondition false", told, re.MULTILINE)), bool(re.search(r"^\S+: stuck", told, re.MULTILINE))
    if complete == "yes" and (found != (wrong, stuck) or states != moments):
        sys.exit(f"{name}: og tells {moments} moments, postcondition false {found[0]}, stuck {found[1]}; SPIN {states}, {wrong}, {stuck}")
    return moments


def told_of(name, moments, states, og, plain, reduced, floor):
    """The line of an outline; the rate of og, and how it compares with the faster one of SPIN, where there are many moments."""
    if moments < MANY:
        return f"| {name} | {moments} | {states} | | | | | |", None
    rate = moments / statistics.median(seconds for seconds, _ in og)
    peer = states / statistics.median(seconds for seconds, _, _ in plain)
    less = statistics.median(count / seconds for seconds, _, count in reduced)
    room = (statistics.median(memory for _, memory in og) - floor[0]) / moments
    spin_room = (statistics.median(memory for _, memory, _ in plain) - floor[1]) / states
    ratio = rate / max(peer, less)
    return f"| {name} | {moments} | {states} | {rate / 1e6:.2f} | {peer / 1e6:.2f} | {ratio:.2f} | {room:.0f} | {spin_room:.0f} |", (rate, ratio)


def measure(program, folder, name, path, rounds, floor):
    words = [program, "explore", path, *start_words(program, folder, path), "--erased", "--limit", str(LIMIT)]
    told, _, _ = run(words, folder)
    text = twin(program, path, told)
    plain, reduced = built(folder, text, ["-DNOREDUCE"], "plain"), built(folder, text, [], "reduced")
    depth = f"-m{2 * int(first(r'^moments: ([0-9]+)$', told)) + 10000}"
    stuck = "errors: 0" not in run([plain, "-c0", "-A", "-n", depth], folder)[0]
    ways = {"og": [], "plain": [], "reduced": []}
    for _ in range(rounds):
        told, seconds, memory = run(words, folder)
        ways["og"].append((max(seconds, 1e-4), memory))
        for way, verifier in (("plain", plain), ("reduced", reduced)):
            said, seconds, memory = run([verifier, "-c0", "-E", "-n", depth], folder)
            ways[way].append((max(seconds, 1e-4), memory, int(first(r"(\d+) states, stored", said))))
            if way == "plain":
                states, wrong = ways[way][-1][2], "errors: 0" not in said
    moments = compare(name, told, states, wrong, stuck)
    if floor is None:
        return ways["og"][0][1], ways["plain"][0][1]
    return told_of(name, moments, states, ways["og"], ways["plain"], ways["reduced"], floor)


def main():
    parser = argparse.ArgumentParser(description=__doc__, formatter_class=argparse.RawDescriptionHelpFormatter)
    parser.add_argument("program")
    parser.add_argument("--rounds", type=int, default=3)
    parser.add_argument("--folder")
    parser.add_argument("--large", action="store_true")
    options = parser.parse_args()
    program, folder = os.path.abspath(options.program), options.folder or tempfile.mkdtemp()
    examples = os.path.join(os.path.dirname(os.path.abspath(__file__)), "..", "examples")
    floor = measure(program, folder, "the smallest", write(folder, "least.og", "{true}\ncobegin\n{true} skip {true}\ncoend\n{true}\n"), 1, None)
    print("| Outline | Moments | States of SPIN | og, millions a second | SPIN | Ratio to SPIN's faster way | Bytes a moment | SPIN |\n|-|-|-|-|-|-|-|-|")
    rates = []
    inputs = [(os.path.basename(path), os.path.abspath(path)) for path in sorted(glob.glob(f"{examples}/*.og"))]
    inputs += [(name, write(folder, f"made{number}.og", text)) for number, (name, text) in enumerate(made(options.large).items())]
    for name, path in inputs:
        line, rate = measure(program, folder, name, path, options.rounds, floor)
        print(line, flush=True)
        rates += [rate] * (rate is not None)
    if rates:
        print(f"\nmedian: {statistics.median(it[0] for it in rates) / 1e6:.2f} millions a second, {statistics.median(it[1] for it in rates):.2f} of SPIN's; least ratio {min(it[1] for it in rates):.2f}")


if __name__ == "__main__":
    main()
