"""Outlines for tools/fuzz: made at random, printed, erased and run, by a reading of docs/LANGUAGE.md of its own."""
import random
from dataclasses import dataclass, field

LEAST, GREATEST = -(2**63), 2**63 - 1
RELATIONS = {
    "<=": lambda a, b: a <= b, "<": lambda a, b: a < b, ">=": lambda a, b: a >= b,
    ">": lambda a, b: a > b, "=": lambda a, b: a == b, "<>": lambda a, b: a != b,
}


@dataclass
class Sum:
    """Terms, each a coefficient and a name or None, in the order of the text."""
    terms: list

    def text(self):
        out = []
        for index, (factor, name) in enumerate(self.terms):
            sign = ("-" if factor < 0 else "") if index == 0 else (" - " if factor < 0 else " + ")
            size = abs(factor)
            out.append(sign + (str(size) if name is None else name if size == 1 else f"{size}*{name}"))
        return "".join(out)

    def value(self, state):
        return sum(factor * (1 if name is None else state[name]) for factor, name in self.terms)


@dataclass
class Test:
    """An assertion: `true`, `false`, a relation, or `not`, `and`, `or`, `->` over others."""
    word: str
    parts: list

    def text(self, inner=False):
        if self.word in ("true", "false"):
            return self.word
        if self.word in RELATIONS:
            return f"{self.parts[0].text()} {self.word} {self.parts[1].text()}"
        if self.word == "not":
            return "not " + self.parts[0].text(True)
        text = f" {self.word} ".join(part.text(True) for part in self.parts)
        return f"({text})" if inner else text

    def value(self, state):
        if self.word in RELATIONS:
            return RELATIONS[self.word](self.parts[0].value(state), self.parts[1].value(state))
        if self.word == "->":
            return not self.parts[0].value(state) or self.parts[1].value(state)
        if self.word == "not":
            return not self.parts[0].value(state)
        values = [part.value(state) for part in self.parts]
        return {"true": True, "false": False, "and": all(values), "or": any(values)}[self.word]


TRUE = Test("true", [])


@dataclass
class Statement:
    """A statement: `skip`, `:=`, `if`, `while`, `await`; an await's body is a list of the first two."""
    word: str
    name: str = ""
    value: Sum = None
    test: Test = None
    body: object = None
    other: object = None

    def lines(self, pad):
        if self.word == "skip":
            return [pad + "skip"]
        if self.word == ":=":
            return [f"{pad}{self.name} := {self.value.text()}"]
        if self.word == "await":
            parts = [part.lines("")[0] for part in self.body]
            body = parts[0] if len(parts) == 1 else f"begin {'; '.join(parts)} end"
            return [f"{pad}await {self.test.text()} then {body}"]
        head = f"{pad}{self.word} {self.test.text()} {'then' if self.word == 'if' else 'do'} begin"
        lines = [head] + self.body.lines(pad + "  ")
        if self.other is not None:
            lines += [pad + "end else begin"] + self.other.lines(pad + "  ")
        return lines + [pad + "end"]

    def erased(self, auxiliaries):
        """The statement without assignments to auxiliaries; None where nothing is left."""
        if self.word == ":=":
            return None if self.name in auxiliaries else self
        if self.word == "await":
            body = [part for part in self.body if part.erased(auxiliaries)]
            return Statement("await", test=self.test, body=body)
        if self.word in ("if", "while"):
            other = self.other and self.other.erased(auxiliaries)
            return Statement(self.word, test=self.test, body=self.body.erased(auxiliaries), other=other)
        return self


@dataclass
class Sequence:
    """Statements, each with the assertion before it, and the assertion at the end."""
    items: list
    last: Test = field(default_factory=lambda: TRUE)

    def lines(self, pad):
        lines = []
        for note, statement in self.items:
            lines += [f"{pad}{{{note.text()}}}"] + statement.lines(pad)
        return lines + [f"{pad}{{{self.last.text()}}}"]

    def erased(self, auxiliaries):
        kept = [statement.erased(auxiliaries) for _, statement in self.items]
        return Sequence([(TRUE, statement) for statement in kept if statement])


    def has_empty(self):
        """Whether this, a block or an await's body in it is empty, so that no source can say it."""
        blocks = [block for _, statement in self.items for block in (statement.body, statement.other)]
        return not self.items or any(block == [] or isinstance(block, Sequence) and block.has_empty() for block in blocks)


def main_lines(part):
    """The lines of a part of the main process, if there is one."""
    return [] if part is None else ["begin"] + part.lines("  ") + ["end"]


@dataclass
class Outline:
    names: list
    auxiliaries: list
    before: Test
    processes: list
    after: Test
    prologue: Sequence = None
    epilogue: Sequence = None

    def text(self):
        lines = []
        if self.names:
            lines.append(f"var {', '.join(self.names)};")
        if self.auxiliaries:
            lines.append("aux " + ", ".join(f"{name} = {value}" for name, value in self.auxiliaries) + ";")
        lines.append(f"{{{self.before.text()}}}")
        lines += main_lines(self.prologue) + ["cobegin"]
        for index, process in enumerate(self.processes):
            lines += ["//"] * (index > 0) + process.lines("  ")
        lines += ["coend"] + main_lines(self.epilogue)
        return "\n".join(lines + [f"{{{self.after.text()}}}"]) + "\n"

    def erased(self):
        """The outline without its auxiliaries, with `true` for the assertions of the processes."""
        gone = {name for name, _ in self.auxiliaries}
        parts = [part and part.erased(gone) for part in (self.prologue, self.epilogue)]
        return Outline(self.names, [], self.before, [p.erased(gone) for p in self.processes], self.after, *parts)

    def has_empty(self):
        """Whether some part is empty, or has an empty block or body."""
        return any(part.has_empty() for part in (self.prologue, *self.processes, self.epilogue) if part)

    def start(self, values):
        """The first moment, from the values of the variables that are no auxiliaries."""
        state = {name: values.get(name, 0) for name in self.names} | dict(self.auxiliaries)
        return Moment(self, state, [list(p.items) for p in (self.prologue, *self.processes, self.epilogue) if p is not None])


@dataclass
class Moment:
    """A state, and what each part of the program has still to do; the main process has the number 0."""
    outline: Outline
    state: dict
    rests: list

    def parts(self):
        """The rests of the prologue, the processes and the epilogue."""
        first = 0 if self.outline.prologue is None else 1
        last = first + len(self.outline.processes)
        return self.rests[:first], self.rests[first:last], self.rests[last:]

    def rest(self, process):
        """What a process has to do now; None where it may not step in this part of the program."""
        prologue, processes, epilogue = self.parts()
        main = bool(prologue and prologue[0])
        others = not main and any(processes)
        if process == 0:
            return prologue[0] if main else epilogue[0] if epilogue and not others else None
        return processes[process - 1] if others else None

    def turn(self, process):
        """What a step of this process would be: `done`, `waits`, `overflow` or `moves`, and its assignments."""
        rest = self.rest(process)
        if not rest:
            return "done", {}
        statement = rest[0][1]
        if statement.word == "await" and not statement.test.value(self.state):
            return "waits", {}
        sets = {}
        for part in statement.body if statement.word == "await" else [statement]:
            if part.word == ":=":
                sets[part.name] = part.value.value(self.state | sets)
                if not LEAST <= sets[part.name] <= GREATEST:
                    return "overflow", {}
        return "moves", sets

    def step(self, process):
        """Takes a step of a process that moves."""
        rest, (_, sets) = self.rest(process), self.turn(process)
        note, statement = rest.pop(0)
        if statement.word == "if":
            taken = statement.body if statement.test.value(self.state) else statement.other
            rest[:0] = taken.items if taken else []
        if statement.word == "while" and statement.test.value(self.state):
            rest[:0] = statement.body.items + [(note, statement)]
        self.state.update(sets)

    def numbers(self):
        return range(len(self.outline.processes) + 1)

    def outcome(self, steps, limit):
        """How a run ends in this moment, by `docs/LANGUAGE.md`; None where it goes on."""
        if not any(self.rests):
            return "finished"
        prologue, processes, epilogue = self.parts()
        turns = {number: self.turn(number)[0] for number in self.numbers()}
        if turns[0] == "done" and all(turns[n] in ("waits", "done") for n in self.numbers()) and any(processes):
            return "stuck"
        if steps >= limit:
            return "limit"
        lost = [number for number in self.numbers() if turns[number] == "overflow"]
        return f"overflow of process {lost[0]}" if lost else None

    def current(self, process):
        """A process's current assertion, of those that something is promised of."""
        prologue, processes, epilogue = self.parts()
        if process == 0 or (prologue and prologue[0]) or (epilogue and not any(processes)):
            return TRUE
        rest = processes[process - 1]
        return rest[0][0] if rest else self.outline.processes[process - 1].last


@dataclass
class Maker:
    """Makes outlines at random."""
    chance: random.Random
    names: list = field(default_factory=list)
    auxiliaries: list = field(default_factory=list)
    bounds: dict = field(default_factory=dict)

    def number(self):
        pick = self.chance.random()
        if pick < 0.9:
            return self.chance.randint(-3, 9)
        return self.chance.choice([2**31, -(2**31), GREATEST, -GREATEST, 2**62])

    def sum(self, names):
        terms = [(self.chance.choice([1, 1, 1, -1, 2, -3]), self.chance.choice(names))
                 for _ in range(self.chance.choice([0, 1, 1, 2])) if names]
        if not terms or self.chance.random() < 0.6:
            terms.append((self.number() if terms else abs(self.number()), None))
        return Sum(terms)

    def assertion(self, names, depth=2):
        pick = self.chance.random()
        if pick < 0.15 or not names and pick < 0.6:
            return Test(self.chance.choice(["true", "true", "false"]), [])
        if depth == 0 or pick < 0.6:
            return Test(self.chance.choice(list(RELATIONS)), [self.sum(names), self.sum(names)])
        word = self.chance.choice(["not", "and", "or", "->"])
        count = {"not": 1, "->": 2}.get(word, self.chance.randint(2, 3))
        return Test(word, [self.assertion(names, depth - 1) for _ in range(count)])

    def within(self, names):
        """That each variable lies within its bounds."""
        parts = [Test("<=", [Sum([(low, None)]), Sum([(1, name)])]) for name in names for low in self.bounds[name][:1]]
        parts += [Test("<=", [Sum([(1, name)]), Sum([(high, None)])]) for name in names for high in self.bounds[name][1:]]
        return Test("and", parts) if len(parts) > 1 else TRUE

    def basic(self, kept):
        both = self.names + self.auxiliaries
        if not both or self.chance.random() < 0.15:
            return Statement("skip")
        name = self.chance.choice(both)
        if kept:
            return Statement(":=", name=name, value=Sum([(self.chance.randint(*self.bounds[name]), None)]))
        return Statement(":=", name=name, value=self.sum(self.names if name in self.names else both))

    def raising(self):
        """An await that adds 1 to a variable below its bound."""
        name = self.chance.choice(self.names)
        test = Test("<", [Sum([(1, name)]), Sum([(self.bounds[name][1], None)])])
        return Statement("await", test=test, body=[Statement(":=", name=name, value=Sum([(1, name), (1, None)]))])

    def statement(self, kept, depth, main):
        pick = self.chance.random()
        if pick < 0.25 and not main and kept and self.names:
            return self.raising()
        if pick < 0.4 and not main:
            body = [self.basic(kept) for _ in range(self.chance.choice([1, 1, 2, 3]))]
            return Statement("await", test=self.assertion(self.names, 1), body=body)
        if pick < 0.65 and depth:
            word = self.chance.choice(["if", "if", "while"])
            other = self.sequence(kept, depth - 1, main) if word == "if" and self.chance.random() < 0.5 else None
            return Statement(word, test=self.assertion(self.names, 1), body=self.sequence(kept, depth - 1, main), other=other)
        return self.basic(kept)

    def note(self, kept):
        both = self.names + self.auxiliaries
        return self.within(both) if kept else self.assertion(both)

    def sequence(self, kept, depth, main=False):
        items = [(self.note(kept), self.statement(kept, depth, main)) for _ in range(self.chance.choice([1, 1, 2, 3]))]
        return Sequence(items, self.note(kept))

    def outline(self):
        """An outline; in half of them each assertion is that all variables stay within bounds."""
        self.names = ["x", "y", "flag_1"][: self.chance.choice([0, 1, 1, 2, 3])]
        self.auxiliaries = ["a", "b"][: self.chance.choice([0, 0, 1, 2])]
        self.bounds = {name: (0, self.chance.randint(1, 3)) for name in self.names + self.auxiliaries}
        kept = self.chance.random() < 0.5
        first = [(name, self.chance.randint(*self.bounds[name])) for name in self.auxiliaries]
        ends = [self.within(self.names) if kept else self.assertion(self.names) for _ in range(2)]
        mains = [self.sequence(kept, 1, True) if self.chance.random() < 0.15 else None for _ in range(2)]
        processes = [self.sequence(kept, 2) for _ in range(self.chance.choice([1, 2, 2, 3]))]
        return Outline(self.names, first, ends[0], processes, ends[1], *mains)
