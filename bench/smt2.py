#!/usr/bin/env python3
"""Holds what `prove` says of each condition against z3, by the script that `conditions --smt2` prints.

usage: bench/smt2.py PROGRAM [--z3 Z3] [--folder FOLDER]

For each outline of examples/ and for small ones of the families of bench/families.py, which it
makes in FOLDER (a temporary one by default), gives `PROGRAM conditions OUTLINE --smt2` to z3 (by
default the one on the path) and compares its answers with `PROGRAM prove OUTLINE --json`: `unsat`
says that a condition is true, `sat` that it is false. Prints a line for each outline: its
conditions, how many are true and false by z3, how many og leaves open, and how many z3 does. Stops
where one calls a condition true that the other calls false. PROGRAM is crates/og/out/og after `rt
run` in crates/og.
"""

import argparse
import glob
import json
import os
import shutil
import subprocess
import sys
import tempfile

from bench import write
from families import FAMILIES


def run(words, stdin=None):
    """What these words print."""
    return subprocess.run(words, input=stdin, stdout=subprocess.PIPE, check=False).stdout


def by_og(program, path):
    """How many conditions there are, and what `prove` says of those that it has not proved, by number."""
    report = json.loads(run([program, "prove", path, "--json"]))
    return report["conditions"], {told["condition"]: told["status"] for told in report["unproved"]}


def by_z3(program, z3, path):
    """What z3 says of each condition, in order."""
    script = run([program, "conditions", path, "--smt2"])
    answers = run([z3, "-smt2", "-in"], stdin=script).decode().split()
    if any(answer not in ("sat", "unsat", "unknown") for answer in answers):
        sys.exit("bench/smt2.py: %s: z3 does not read the script" % path)
    return answers


def compare(program, z3, path):
    """The line of an outline."""
    count, unproved = by_og(program, path)
    answers = by_z3(program, z3, path)
    if len(answers) != count:
        sys.exit("bench/smt2.py: %s: %d conditions, and %d answers" % (path, count, len(answers)))
    for number, answer in enumerate(answers, 1):
        told = unproved.get(number, "proved")
        if (told, answer) in (("proved", "sat"), ("false", "unsat")):
            sys.exit("bench/smt2.py: %s: condition %d is %s, and %s by z3" % (path, number, told, answer))
    still_open = list(unproved.values()).count("open")
    return count, answers.count("unsat"), answers.count("sat"), still_open, answers.count("unknown")


def outlines(folder):
    """The outlines of examples/, and those that are made."""
    top = os.path.dirname(os.path.dirname(os.path.realpath(__file__)))
    yield from sorted(glob.glob("%s/examples/*.og" % top))
    for family, (make, _) in FAMILIES.items():
        for size in (2, 3):
            yield write(folder, "%s-%d.og" % (family.replace(" ", "-"), size), make(size))


def main():
    parser = argparse.ArgumentParser(description=__doc__.splitlines()[0])
    parser.add_argument("program")
    parser.add_argument("--z3", default=shutil.which("z3") or "z3")
    parser.add_argument("--folder")
    words = parser.parse_args()
    with tempfile.TemporaryDirectory() as made:
        folder = words.folder or made
        print("%-34s %10s %6s %6s %8s %8s" % ("outline", "conditions", "true", "false", "og open", "z3 open"))
        for path in outlines(folder):
            print("%-34s %10d %6d %6d %8d %8d" % ((os.path.basename(path),) + compare(words.program, words.z3, path)))
    print("no difference")


main()
