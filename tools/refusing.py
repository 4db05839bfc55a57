"""Runs a built program and refuses it one request for memory, or one start of a thread (tools/refuse.c)."""
import collections
import os
import re
import resource
import subprocess

TOP = os.path.dirname(os.path.dirname(os.path.realpath(__file__)))

# A status, both outputs, and how many requests for memory there were, starts of threads, and threads joined.
Answer = collections.namedtuple("Answer", "status out err requests starts joins")


class Program:
    """The program, in a folder with the inputs."""

    def __init__(self, path, folder):
        self.path, self.folder = os.path.realpath(path), folder
        self.library = f"{folder}/refuse.so"
        subprocess.run(["cc", "-O2", "-shared", "-fPIC", "-o", self.library, f"{TOP}/tools/refuse.c"], check=True)
        subprocess.run(f"cp {TOP}/examples/* {folder}", shell=True, check=True)
        with open(f"{folder}/counter.og", "rb") as source, open(f"{folder}/counter.cert", "rb") as certs:
            self.joined = source.read() + certs.read()

    def ask(self, words, request=0, start=0, given=None):
        """The answer where the request, or the start, of this number is refused; none is where it is 0. Standard
        input is what is given, or empty, or without words an outline and certificates."""
        count = f"{self.folder}/count-{request}-{start}-{os.getpid()}"
        environment = {"LD_PRELOAD": self.library, "OG_COUNT": count}
        environment |= {"OG_REFUSE": str(request), "OG_REFUSE_THREAD": str(start)}
        given = given if given is not None else b"" if words else self.joined
        ran = subprocess.run([self.path, *words], cwd=self.folder, env=environment, capture_output=True, input=given, timeout=60)
        counts = [0, 0, 0]
        if os.path.exists(count):
            with open(count, encoding="ascii") as file:
                counts = [int(word) for word in file.read().split()]
            os.unlink(count)
        return Answer(ran.returncode, ran.stdout, ran.stderr, *counts)

    def names(self):
        """The names of the tests of a program of tests."""
        listed = subprocess.run([self.path, "--list"], capture_output=True, text=True, check=True).stdout
        return re.findall(r"(?m)^(\S+): test$", listed)

    def ask_within(self, words, space):
        """The answer in an address space of this many bytes."""
        limit = lambda: resource.setrlimit(resource.RLIMIT_AS, (space, space))
        ran = subprocess.run([self.path, *words], cwd=self.folder, capture_output=True, preexec_fn=limit,
                             input=b"" if words else self.joined, timeout=60)
        return Answer(ran.returncode, ran.stdout, ran.stderr, 0, 0, 0)
