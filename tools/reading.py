"""Reading outlines into the trees of outlines.py, for what works out expected texts without og."""
import re

from outlines import Outline, Sequence, Statement, Sum, Test

TOKEN = re.compile(r"#[^\n]*|\s+|([A-Za-z_]\w*|[0-9]+|:=|//|<=|>=|<>|->|[<>=+\-*(){};,])")


class Reader:
    """The tokens of an outline that og has accepted, and the place in them."""

    def __init__(self, text):
        self.tokens = [token for token in TOKEN.findall(text) if token] + [""]
        self.at = 0

    def sees(self, *words):
        return self.tokens[self.at] in words

    def take(self):
        self.at += 1
        return self.tokens[self.at - 1]

    def may(self, word):
        if self.sees(word):
            self.at += 1
            return True
        return False

    def must(self, word):
        if not self.may(word):
            raise ValueError(f"token {self.at} is {self.tokens[self.at]!r}, not {word!r}")

    def sum(self):
        terms = []
        while True:
            sign = -1 if self.may("-") else 1
            if not terms or sign < 0 or self.may("+"):
                word = self.take()
                factor = int(word) if word.isdigit() else 1
                name = None if word.isdigit() and not self.may("*") else word if not word.isdigit() else self.take()
                terms.append((sign * factor, name))
            if not self.sees("+", "-"):
                return Sum(terms)

    def unit(self):
        if self.may("not"):
            return Test("not", [self.unit()])
        if self.sees("true", "false"):
            return Test(self.take(), [])
        if self.may("("):
            inner = self.test()
            self.must(")")
            return inner
        left = self.sum()
        return Test(self.take(), [left, self.sum()])

    def joined(self, word, part):
        parts = [part()]
        while self.may(word):
            parts.append(part())
        return parts[0] if len(parts) == 1 else Test(word, parts)

    def test(self):
        left = self.joined("or", lambda: self.joined("and", self.unit))
        return Test("->", [left, self.test()]) if self.may("->") else left

    def note(self):
        self.must("{")
        inner = self.test()
        self.must("}")
        return inner

    def basic(self):
        if self.may("skip"):
            return Statement("skip")
        name = self.take()
        self.must(":=")
        return Statement(":=", name=name, value=self.sum())

    def body(self):
        if not self.may("begin"):
            return [self.basic()]
        parts = [self.basic()]
        while self.may(";"):
            parts.append(self.basic())
        self.must("end")
        return parts

    def block(self):
        self.must("begin")
        inner = self.sequence()
        self.must("end")
        return inner

    def statement(self):
        if self.sees("if", "while", "await"):
            word, test = self.take(), self.test()
            self.must("do" if word == "while" else "then")
            body = self.body() if word == "await" else self.block()
            other = self.block() if word == "if" and self.may("else") else None
            return Statement(word, test=test, body=body, other=other)
        return self.basic()

    def sequence(self):
        items, note = [], self.note()
        while not self.sees("end", "//", "coend"):
            items.append((note, self.statement()))
            note = self.note()
        return Sequence(items, note)

    def integer(self):
        sign = -1 if self.may("-") else 1
        return sign * int(self.take())

    def outline(self):
        names, auxiliaries = [], []
        if self.may("var"):
            names.append(self.take())
            while self.may(","):
                names.append(self.take())
            self.must(";")
        if self.may("aux"):
            while not auxiliaries or self.may(","):
                name = self.take()
                self.must("=")
                auxiliaries.append((name, self.integer()))
            self.must(";")
        before = self.note()
        prologue = self.block() if self.sees("begin") else None
        self.must("cobegin")
        processes = [self.sequence()]
        while self.may("//"):
            processes.append(self.sequence())
        self.must("coend")
        epilogue = self.block() if self.sees("begin") else None
        return Outline(names, auxiliaries, before, processes, self.note(), prologue, epilogue)


def read(text):
    return Reader(text).outline()
