#!/usr/bin/env python3
"""Families of outlines, each of any size, and what the finder takes for them beside z3.

usage: bench/families.py PROGRAM [--z3 Z3] [--folder FOLDER] [--most SECONDS] [--only FAMILY]
       bench/families.py --print FAMILY SIZE

Runs `PROGRAM find` by one worker on outlines of rising sizes, one family after the
other, made in FOLDER (a temporary one by default), and prints a table: the conditions, how many have
a certificate, processor seconds of `find`, the bytes of its certificates in version 2 for each
condition, processor seconds of `check` by one worker with these in version 1 and in version 2, and
those of z3 (by default the one on the path) on the same facts, with how many times as long that is as
each of the three. Each time is the least of three runs, or that of one run of 3 seconds or more. The
last lines have the sums. A family ends after `find` or z3 took longer than
SECONDS (60 by default). The second form prints one outline. PROGRAM is crates/og/out/og after
`rt run` in crates/og.
"""

import argparse
import os
import shutil
import subprocess
import sys
import tempfile

from bench import write
from find import headers, text_for_z3


def lock(processes):
    """Each process takes a lock, works inside, and gives it back; an auxiliary says who is inside."""
    flags = ["in%d" % k for k in range(processes)]
    total = " + ".join(flags)
    lines = ["var lock; aux %s;" % ", ".join("%s = 0" % f for f in flags), "{lock = 0}", "cobegin"]
    shared = "lock = %s and lock <= 1 and %s" % (total, " and ".join("%s >= 0" % f for f in flags))
    for own in flags:
        out, inside = "{%s = 0 and %s}" % (own, shared), "{%s = 1 and %s}" % (own, shared)
        if own != flags[0]:
            lines.append("//")
        lines += [out, "await lock = 0 then begin lock := 1; %s := 1 end" % own,
                  inside, "skip", inside, "await true then begin lock := 0; %s := 0 end" % own, out]
    return "\n".join(lines + ["coend", "{lock = 0}", ""])


def fork_and_join(children):
    """A parent waits until all children have added 1; auxiliaries tell which of them have."""
    added, done = ["a%d" % k for k in range(children)], ["d%d" % k for k in range(children)]
    pairs = list(zip(added, done))
    known = "x = %s and %s" % (" + ".join(added), " and ".join("0 <= %s and %s <= 1 and %s = %s" % (a, a, d, a) for a, d in pairs))
    lines = ["var x, %s; aux %s;" % (", ".join(done), ", ".join("%s = 0" % a for a in added)),
             "{x = 0 and %s}" % " and ".join("%s = 0" % d for d in done), "cobegin", "{%s}" % known,
             "await %s = %d then skip" % (" + ".join(done), children),
             "{x = %d and %s}" % (children, " and ".join("%s = 1 and %s = 1" % pair for pair in pairs))]
    for a, d in pairs:
        lines += ["//", "{%s and %s = 0}" % (known, a), "await true then begin x := x + 1; %s := 1; %s := 1 end" % (a, d),
                  "{%s and %s = 1}" % (known, a)]
    return "\n".join(lines + ["coend", "{x = %d}" % children, ""])


def joined(facts):
    return " and ".join(facts)


def outline(shared, auxiliaries, before, processes, after):
    """The text of an outline: processes are lists of assertions and statements by turns."""
    lines = ["var %s;" % ", ".join(shared)]
    if auxiliaries:
        lines.append("aux %s;" % ", ".join("%s = 0" % name for name in auxiliaries))
    lines += ["{%s}" % before, "cobegin"]
    for number, process in enumerate(processes):
        lines += ["//"] if number else []
        lines += ["{%s}" % part if place % 2 == 0 else part for place, part in enumerate(process)]
    return "\n".join(lines + ["coend", "{%s}" % after, ""])


def counter(size):
    """Each process adds 1 and tells so by an auxiliary of its own."""
    names = ["a%d" % k for k in range(size)]
    known = "x = %s and %s" % (" + ".join(names), joined("0 <= %s and %s <= 1" % (a, a) for a in names))
    processes = [["%s and %s = 0" % (known, a),
                  "await true then begin x := x + 1; %s := 1 end" % a,
                  "%s and %s = 1" % (known, a)] for a in names]
    return outline(["x"], names, "x = 0", processes, "x = %d" % size)


def test_and_set(size):
    """A lock by test and set: at most one process is inside, and it alone sets the lock free."""
    inside = ["in%d" % k for k in range(size)]
    known = "lock = %s and lock <= 1 and %s" % (" + ".join(inside), joined("%s >= 0" % i for i in inside))
    processes = []
    for k, own in enumerate(inside):
        out, within = "%s and %s = 0" % (known, own), "%s and %s = 1" % (known, own)
        processes.append([out, "await lock = 0 then begin lock := 1; %s := 1 end" % own,
                          within, "x := x", within,
                          "await true then begin lock := 0; %s := 0 end" % own, out])
    return outline(["lock", "x"], inside, "lock = 0", processes, "lock = 0")


def barrier(size):
    """No process goes on before all have arrived."""
    names = ["a%d" % k for k in range(size)]
    known = "n = %s and %s" % (" + ".join(names), joined("0 <= %s and %s <= 1" % (a, a) for a in names))
    all_there = "n = %d and %s" % (size, joined("%s = 1" % a for a in names))
    processes = [["%s and %s = 0" % (known, a),
                  "await true then begin n := n + 1; %s := 1 end" % a,
                  "%s and %s = 1" % (known, a),
                  "await n = %d then skip" % size,
                  all_there] for a in names]
    return outline(["n"], names, "n = 0", processes, "n = %d" % size)


def readers_and_writers(readers):
    """Readers share, writers are alone; half as many writers as readers."""
    writers = max(1, readers // 2)
    reading, writing = ["r%d" % k for k in range(readers)], ["w%d" % k for k in range(writers)]
    known = "readers = %s and writer = %s and %s and writer <= 1 and (readers = 0 or writer = 0)" % (
        " + ".join(reading), " + ".join(writing), joined("0 <= %s and %s <= 1" % (a, a) for a in reading + writing))
    processes = []
    for own in reading:
        out, within = "%s and %s = 0" % (known, own), "%s and %s = 1" % (known, own)
        processes.append([out, "await writer = 0 then begin readers := readers + 1; %s := 1 end" % own, within,
                          "await true then begin readers := readers - 1; %s := 0 end" % own, out])
    for own in writing:
        out, within = "%s and %s = 0" % (known, own), "%s and %s = 1 and readers = 0" % (known, own)
        processes.append([out, "await writer = 0 and readers = 0 then begin writer := 1; %s := 1 end" % own, within,
                          "await true then begin writer := 0; %s := 0 end" % own, out])
    return outline(["readers", "writer"], reading + writing, "readers = 0 and writer = 0", processes,
                   "readers = 0 and writer = 0")


def ticket(size):
    """A ticket lock: each process takes the next number and waits until that is served."""
    names = range(size)
    known = ["next = %s" % " + ".join("h%d" % k for k in names), "serving = %s" % " + ".join("d%d" % k for k in names)]
    for k in names:
        known += ["0 <= d%d and d%d <= h%d and h%d <= 1" % (k, k, k, k),
                  "(in%d = 0 or h%d = 1 and d%d = 0 and t%d = serving)" % (k, k, k, k),
                  "(h%d = 0 or d%d = 1 or serving <= t%d and t%d < next)" % (k, k, k, k)]
    known += ["(h%d = 0 or d%d = 1 or h%d = 0 or d%d = 1 or t%d <> t%d)" % (i, i, k, k, i, k)
              for k in names for i in range(k)]
    shared = joined(known)
    processes = []
    for k in names:
        alone = joined(["in%d = 1" % k] + ["in%d = 0" % i for i in names if i != k])
        processes.append(["%s and h%d = 0" % (shared, k),
                          "await true then begin t%d := next; next := next + 1; h%d := 1 end" % (k, k),
                          "%s and h%d = 1 and d%d = 0 and in%d = 0" % (shared, k, k, k),
                          "await serving = t%d then in%d := 1" % (k, k),
                          "%s and %s" % (shared, alone),
                          "await true then begin serving := serving + 1; in%d := 0; d%d := 1 end" % (k, k),
                          "%s and d%d = 1" % (shared, k)])
    auxiliaries = ["%s%d" % (kind, k) for kind in ("in", "h", "d") for k in names]
    return outline(["next", "serving"] + ["t%d" % k for k in names], auxiliaries, "next = 0 and serving = 0",
                   processes, "serving = %d and next = %d" % (size, size))


FAMILIES = {
    "fork and join": (fork_and_join, (8, 16, 32, 64)),
    "test and set": (test_and_set, (8, 16, 32, 64)),
    "lock": (lock, (8, 16, 32, 64)),
    "barrier": (barrier, (8, 16, 32, 64)),
    "counter": (counter, (8, 16, 32, 64)),
    "readers and writers": (readers_and_writers, (8, 16, 32)),
    "ticket": (ticket, (3, 4, 5, 6, 7, 8, 10)),
}



def run(words):
    """The processor seconds of a run, and what it printed."""
    process = subprocess.Popen(words, stdout=subprocess.PIPE, stderr=subprocess.DEVNULL)
    text = process.stdout.read().decode()
    _, status, usage = os.wait4(process.pid, 0)
    process.returncode = os.waitstatus_to_exitcode(status)
    return usage.ru_utime + usage.ru_stime, text


def least(words):
    """The least processor seconds of three runs, or of one that takes 3 seconds or more, and what it printed."""
    seconds, text = run(words)
    for _ in range(2):
        if seconds < 3:
            seconds = min(seconds, run(words)[0])
    return seconds, text


class Row:
    """What was measured on one outline, or on several: numbers of conditions and certificates, bytes in
    version 2, processor seconds of `find`, of `check` by both versions and of z3, and how many
    conditions z3 shows."""

    def __init__(self):
        self.conditions = self.found = self.bytes = self.unsat = 0
        self.find = self.check = self.check_2 = self.z3 = 0.0

    def add(self, other):
        """Adds what was measured on another outline."""
        for name, value in vars(other).items():
            setattr(self, name, getattr(self, name) + value)

    def text(self, name, with_z3):
        """The row of the table."""
        cells = [name, str(self.conditions), str(self.found), "%.2f s" % self.find,
                 "%.0f" % (self.bytes / max(self.conditions, 1)),
                 "%.2f s" % self.check, "%.2f s" % self.check_2]
        if with_z3:
            times = ["%.0f" % (self.z3 / max(ours, 0.001)) for ours in (self.find, self.check, self.check_2)]
            cells += [str(self.unsat), "%.2f s" % self.z3] + times
        return "| %s |" % " | ".join(cells)


def measure(program, z3, folder, path):
    """What is measured on one outline."""
    row = Row()
    listing = run([program, "conditions", path])[1]
    row.conditions = listing.count("cond ")
    row.find, found = least([program, "find", path, "--workers", "1"])
    row.found = headers(found)
    certs = write(folder, "made.cert", found)
    short = run([program, "migrate", certs])[1]
    row.bytes = len(short)
    row.check = least([program, "check", path, certs, "--workers", "1"])[0]
    row.check_2 = least([program, "check", path, write(folder, "made-2.cert", short), "--workers", "1"])[0]
    if z3:
        row.z3, answers = least([z3, write(folder, "asked.smt2", text_for_z3(listing))])
        row.unsat = answers.split().count("unsat")
    return row


def main():
    if sys.argv[1:2] == ["--print"]:
        sys.stdout.write(FAMILIES[sys.argv[2]][0](int(sys.argv[3])))
        return
    parser = argparse.ArgumentParser()
    parser.add_argument("program")
    parser.add_argument("--z3", default=shutil.which("z3"))
    parser.add_argument("--folder")
    parser.add_argument("--most", type=float, default=60.0)
    parser.add_argument("--only", choices=list(FAMILIES))
    given = parser.parse_args()
    program = os.path.abspath(given.program)
    print("| Outline | Conditions | Found | `og find` | Bytes a condition | `og check` | by version 2 "
          "| z3: unsat | z3 | Times `find` | Times `check` | by version 2 |")
    print("|-|-|-|-|-|-|-|-|-|-|-|-|")
    others, all_rows = Row(), Row()
    with tempfile.TemporaryDirectory() as room:
        folder = given.folder or room
        for family, (make, sizes) in FAMILIES.items():
            for size in sizes:
                if given.only not in (None, family):
                    break
                path = write(folder, "made.og", make(size))
                row = measure(program, given.z3, folder, path)
                print(row.text("%s, %d" % (family, size), given.z3), flush=True)
                all_rows.add(row)
                if family != "ticket":
                    others.add(row)
                if max(row.find, row.z3) > given.most:
                    break
    print(others.text("all but the ticket lock", given.z3))
    print(all_rows.text("all", given.z3))


if __name__ == "__main__":
    main()
