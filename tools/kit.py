"""What the tools here share: the kit's own library for crates, copies of this repository, and processes."""
import collections
import importlib.machinery
import importlib.util
import os
import shutil
import subprocess
import sys

sys.dont_write_bytecode = True
TOP = os.path.dirname(os.path.dirname(os.path.realpath(__file__)))


def load():
    """Returns the kit's module of crates, which `rt` itself uses."""
    ran = subprocess.run(["rt", "doc"], capture_output=True, text=True, check=True)
    file = f"{os.path.dirname(ran.stdout.strip())}/bin/rtlib.py"
    loader = importlib.machinery.SourceFileLoader("rtlib", file)
    module = importlib.util.module_from_spec(importlib.util.spec_from_loader("rtlib", loader))
    sys.modules["rtlib"] = module
    loader.exec_module(module)
    return module


rtlib = load()


def cached_by_folder(stamp):
    """Returns the sum of a crate's files and of the libraries below it, each made once: `rt` makes it anew for each crate above."""
    made = {}

    def cached(crate):
        if crate.folder not in made:
            made[crate.folder] = stamp(crate)
        return made[crate.folder]

    return cached


rtlib.Crate.stamp = cached_by_folder(rtlib.Crate.stamp)


def crates_of(top):
    """Returns the crates of a repository, each after those that it stands on."""
    before = os.getcwd()
    os.chdir(top)
    try:
        return rtlib.crates_below(top)
    finally:
        os.chdir(before)


def was_built_from(crate, stamp):
    """Returns whether the crate's library was built from what this sum was made of: a gate notes no sum beside what it builds."""
    noted = f"{os.path.dirname(crate.rlib)}/stamp"
    if not os.path.isdir(crate.rlib) or crate.stamp() != stamp:
        return False
    if not os.path.isfile(noted):
        return True
    with open(noted, encoding="utf-8") as file:
        return file.read() == stamp


def take_libraries(source, target):
    """Copies to `target` each library that `source` has built from the same files, and returns the names of the others."""
    theirs = {crate.name: crate for crate in crates_of(source)}
    lacking = []
    for crate in crates_of(target):
        given = theirs.get(crate.name)
        if crate.is_program or crate.is_built():
            continue
        stamp = crate.stamp()
        if given is None or not was_built_from(given, stamp):
            lacking.append(crate.name)
            continue
        folder = os.path.dirname(crate.rlib)
        subprocess.run(["rm", "-rf", folder], check=True)
        os.makedirs(folder)
        subprocess.run(["cp", "-a", "--reflink=auto", given.rlib, crate.rlib], check=True)
        with open(f"{folder}/stamp", "w", encoding="utf-8") as file:
            file.write(stamp)
    return lacking


def copy_aside(room):
    """Copies the files that git knows or would add."""
    listed = ["git", "ls-files", "-z", "--cached", "--others", "--exclude-standard"]
    files = subprocess.run(listed, cwd=TOP, capture_output=True, text=True, check=True).stdout
    for file in files.split("\0"):
        if file and os.path.isfile(f"{TOP}/{file}"):
            os.makedirs(os.path.dirname(f"{room}/{file}"), exist_ok=True)
            shutil.copy2(f"{TOP}/{file}", f"{room}/{file}")


def text_of(path):
    """Returns what a file of /proc holds, or nothing where its process has ended."""
    try:
        with open(path, encoding="utf-8", errors="replace") as file:
            return file.read()
    except OSError:
        return ""


def stat_of(pid):
    """Returns the fields of a process that follow its name: its parent is at 1, its ticks and those of its ended children from 11 to 14."""
    return text_of(f"/proc/{pid}/stat").rpartition(")")[2].split()


def started_by(root):
    """Returns the numbers of the processes below this one, itself too."""
    children = collections.defaultdict(list)
    for name in filter(str.isdigit, os.listdir("/proc")):
        fields = stat_of(name)
        if fields:
            children[int(fields[1])].append(int(name))
    found, left = [], [root]
    while left:
        found.append(left.pop())
        left += children[found[-1]]
    return found


def seconds_below(root):
    """Returns the processor time of a process and of all that it started, those that have ended too."""
    stats = filter(None, map(stat_of, started_by(root)))
    return sum(int(ticks) for fields in stats for ticks in fields[11:15]) / os.sysconf("SC_CLK_TCK")
