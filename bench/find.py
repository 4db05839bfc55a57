#!/usr/bin/env python3
"""Measures the finder of a built og, and compares it with z3.

usage: bench/find.py PROGRAM [--z3 Z3] [--folder FOLDER]

Runs `PROGRAM find` on the outlines of examples/ and on outlines that it makes in FOLDER (a
temporary one by default), and prints two tables. Each time is the least of five runs.
Where Z3 is a z3 (by default the one on the path), it is asked about the same facts: all conditions
of an outline in one run, each between a push and a pop, with each variable in the range of i64.
PROGRAM is crates/og/out/og after `rt run` in crates/og.
"""

import argparse
import glob
import os
import re
import shutil
import subprocess
import tempfile
import time

from bench import outline, peak, write

BUDGET = 100000


# ---- the facts of conditions for z3

def tokens_of(line):
    return re.findall(r"[0-9]+|[A-Za-z_][A-Za-z_0-9]*|<=|[-+*()]", line)


def number(text):
    return text if not text.startswith("-") else "(- %s)" % text[1:]


def term(tokens, sign):
    first = tokens.pop(0)
    if not first.isdigit():
        return "(* %s |%s|)" % (number(sign + "1"), first)
    if tokens[0] == "*":
        tokens.pop(0)
        return "(* %s |%s|)" % (number(sign + first), tokens.pop(0))
    return number(sign + first)


def inequality(tokens):
    terms = []
    sign = ""
    while tokens[0] != "<=":
        if tokens[0] in "+-":
            sign = "-" if tokens.pop(0) == "-" else ""
        terms.append(term(tokens, sign))
    del tokens[:2]
    return "(<= (+ 0 %s) 0)" % " ".join(terms)


def unit(tokens):
    if tokens[0] != "(":
        return inequality(tokens)
    tokens.pop(0)
    inner = joined(tokens, "or")
    tokens.pop(0)
    return inner


def joined(tokens, word):
    parts = []
    while True:
        parts.append(joined(tokens, "and") if word == "or" else unit(tokens))
        if not tokens or tokens[0] != word:
            return "(%s %s)" % (word, " ".join(parts))
        tokens.pop(0)


def questions(listing):
    """The facts of each condition of a listing, and the names that occur."""
    conditions, names = [], set()
    for line in listing.splitlines():
        if line.startswith("cond "):
            conditions.append([])
        else:
            tokens = tokens_of(line.split(": ", 1)[1])
            names.update(t for t in tokens if t[0].isalpha() or t[0] == "_")
            conditions[-1].append(joined(tokens, "or"))
    return conditions, sorted(names - {"or", "and"})


def text_for_z3(listing):
    conditions, names = questions(listing)
    lines = ["(set-logic QF_LIA)"]
    for name in names:
        lines.append("(declare-const |%s| Int)" % name)
        lines.append("(assert (<= (- 9223372036854775808) |%s| 9223372036854775807))" % name)
    for facts in conditions:
        lines += ["(push)"] + ["(assert %s)" % fact for fact in facts] + ["(check-sat)", "(pop)"]
    return "\n".join(lines) + "\n"


# ---- outlines

def semaphore(processes, permits):
    """Each process takes a permit, does two steps, and gives it back."""
    flags = ["a%d" % k for k in range(processes)]
    total = "permits + %s = %d" % (" + ".join(flags), permits)
    lines = ["var permits; aux %s;" % ", ".join("%s = 0" % f for f in flags),
             "{permits = %d}" % permits, "cobegin"]
    for own in flags:
        shared = "%s and permits >= 0 and %s" % (
            total, " and ".join("%s >= 0" % f for f in flags if f != own))
        out, inside = "{%s = 0 and %s}" % (own, shared), "{%s = 1 and %s}" % (own, shared)
        if own != flags[0]:
            lines.append("//")
        lines += [out, "await permits > 0 then begin permits := permits - 1; %s := 1 end" % own,
                  inside, "skip", inside, "skip", inside,
                  "await true then begin permits := permits + 1; %s := 0 end" % own, out]
    return "\n".join(lines + ["coend", "{permits = %d}" % permits, ""])


def step_between(names, before):
    """One skip from an assertion to false."""
    return "var %s;\n{false}\ncobegin\n{%s} skip {false}\ncoend\n{false}\n" % (
        ", ".join(names), before)


def equalities(count):
    """An assertion of so many equalities of one variable."""
    return step_between(["x"], " and ".join(["x = 7"] * count))


def differences(count):
    """An assertion of so many differences of 256 variables."""
    names = ["v%d" % k for k in range(256)]
    return step_between(names, " and ".join(
        "%s < %s" % (names[k % 255], names[k % 255 + 1]) for k in range(count)))


def pigeons(count):
    """So many variables in fewer places, all different."""
    names = ["v%d" % k for k in range(count)]
    facts = ["%s >= 1 and %s < %d" % (name, name, count) for name in names]
    facts += ["%s <> %s" % (names[i], names[k]) for i in range(count) for k in range(i)]
    return step_between(names, " and ".join(facts))


def choices(count, parts):
    """So many choices of parts that hold of no value together with the others."""
    names = ["v%d" % k for k in range(30)]
    one = ["(%s)" % " or ".join("%d*%s + %s = %d" % (k + 2, names[(i + k) % 30], names[(i * 7 + k + 1) % 30], 2 * i + 1)
                                for k in range(parts)) for i in range(count)]
    return step_between(names, " and ".join(one))


def nested(count):
    """So many assertions that nest 100 deep."""
    one = "(x = 5" + " or y <= 0 and (x = 6" * 98 + ")" * 99
    return step_between(["x", "y"], " and ".join(["x <= 4"] + [one] * count))


# ---- runs

def best(words):
    """The least wall and processor seconds of five runs, and the standard output."""
    walls, processors = [], []
    for _ in range(5):
        begin = time.monotonic()
        process = subprocess.Popen(words, stdout=subprocess.PIPE, stderr=subprocess.DEVNULL)
        text = process.stdout.read().decode()
        _, status, usage = os.wait4(process.pid, 0)
        process.returncode = os.waitstatus_to_exitcode(status)
        walls.append(time.monotonic() - begin)
        processors.append(usage.ru_utime + usage.ru_stime)
    return min(walls), min(processors), text


def headers(text):
    return text.count("\ncond ")


def compare(program, z3, folder, path, name):
    listing = subprocess.run([program, "conditions", path], stdout=subprocess.PIPE).stdout.decode()
    wall, processor, text = best([program, "find", path])
    row = [name, str(listing.count("cond ")), str(headers(text)), "%.3f s" % wall, "%.3f s" % processor]
    if z3:
        asked = write(folder, "asked.smt2", text_for_z3(listing))
        wall, processor, answers = best([z3, asked])
        row += [str(answers.split().count("unsat")), "%.3f s" % wall, "%.3f s" % processor]
    print("| %s |" % " | ".join(row), flush=True)


def measure(program, folder, name, text, budget):
    path = write(folder, "made.og", text)
    words = [program, "find", path, "--budget", str(budget)]
    wall, processor, found = best(words)
    print("| %s | %d | %d | %.3f s | %.3f s | %.1f MB |" % (
        name, budget, headers(found), wall, processor, peak(words) / 1024), flush=True)


def main():
    parser = argparse.ArgumentParser()
    parser.add_argument("program")
    parser.add_argument("--z3", default=shutil.which("z3"))
    parser.add_argument("--folder")
    options = parser.parse_args()
    program = os.path.abspath(options.program)
    folder = options.folder or tempfile.mkdtemp()
    examples = os.path.join(os.path.dirname(os.path.abspath(__file__)), "..", "examples")
    print("| Outline | Conditions | Found | `og find` | Processor | z3: unsat | z3 | Processor |")
    print("|-|-|-|-|-|-|-|-|")
    for path in sorted(glob.glob(os.path.join(examples, "*.og"))):
        compare(program, options.z3, folder, path, "`%s`" % os.path.basename(path))
    for name, text in [("8 processes of 40 statements", outline(8)),
                       ("semaphore, 10 processes", semaphore(10, 3))]:
        compare(program, options.z3, folder, write(folder, "large.og", text), name)
    print("\n| Outline | Budget | Found | Wall | Processor | Most memory |\n|-|-|-|-|-|-|")
    measure(program, folder, "8 processes of 40 statements", outline(8), BUDGET)
    measure(program, folder, "semaphore, 10 processes", semaphore(10, 3), BUDGET)
    for name, text in [("4,999 equalities", equalities(4999)), ("9,999 differences", differences(9999)),
                       ("10 pigeons", pigeons(10)), ("20 pigeons", pigeons(20)),
                       ("100 choices of 20", choices(100, 20)), ("30 times 98 choices in choices", nested(30))]:
        for budget in (1, 10000, BUDGET, 1000000):
            measure(program, folder, name, text, budget)


if __name__ == "__main__":
    main()
