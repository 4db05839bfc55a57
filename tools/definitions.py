"""What tools/trusted reads of the files of specs: each definition, with the comment above it and what it uses."""
import collections
import functools
import re
import textwrap

from kit import TOP

IMPORT = re.compile(r"(?:pub )?use Rattle\.(og_\w+)\.specs\.([\w.]+?)(?:\.\{(.*)\}| as (\w+))?$")
BLOCK = re.compile(r"(?:(?:abbrev |unfoldable )?mutual|module _ (?P<given>.*) where)$")
TYPED = re.compile(r"(?:abbrev |unfoldable )?(?:pub )?(?P<name>[^\s:(){}]+) : (?P<type>.*)$")
LISTED = re.compile(r"(?:pub )?(?P<kind>record|data) (?P<name>\S+)(?P<type>.*) where$")
MEMBER = re.compile(r"(?:pub )?(\S+) : ")
STRING = re.compile(r'"(?:[^"\\]|\\.)*"')
WORD = re.compile(r"(?<![\w.])([^\W\d]\w*)(?:\.(\w+))?|(?<!\S)([^\w\s(){}\[\],;]+)(?!\S)")
# A file: its first comment, its definitions by name, those names and their constructors, where its `use` lines have what they name, and
# the modules that they give a name.
Spec = collections.namedtuple("Spec", "title definitions owners imports aliases")


class Definition:
    """A definition of one of the kinds `defined`, `record` and `data`.

    Beside its name and type in one line it has the section of the file in which it stands, the comment above it, the
    parameters of the modules around it with their comments, and its own lines.
    """

    def __init__(self, kind, name, section, comment, given, type_of):
        self.kind, self.name, self.section, self.comment, self.given = kind, name, section, " ".join(comment), given
        self.type, self.lines = type_of.strip(), []

    def signature(self):
        """Returns its name with its type, within the modules around it."""
        return f"{self.name}{' : ' if self.kind == 'defined' else ' '}{self.type}"

    def text(self):
        """Returns its own lines, those furthest to the left at the margin."""
        return textwrap.dedent("\n".join(self.lines)).strip("\n").splitlines()

    def code(self):
        """Returns all of it but comments and what stands in quotes."""
        lines = [line for line in self.lines if not line.lstrip().startswith("--")]
        return STRING.sub("", "\n".join([*(names for names, _ in self.given), self.type, *lines]))

    def constructors(self):
        """Returns the names of a data type's constructors."""
        return [found[1] for found in map(MEMBER.match, self.text()) if found and self.kind == "data"]


def spec_file(crate, module):
    """Returns the file of a module of specs, or None for what the code declares."""
    if module.split(".")[0] == "declared":
        return None
    return f"crates/{crate}/specs/{module.replace('.', '/')}.antt"


class Reader:
    """Reads a file of specs line by line; of a source its `ghost use` lines."""

    def __init__(self):
        self.title, self.definitions, self.imports, self.aliases = [], [], {}, {}
        self.section, self.comment, self.blocks, self.last = "", [], [], None

    def note_import(self, crate, module, names, alias):
        """Notes from which file a `use` line has its names: None for types that the code declares."""
        file = spec_file(crate, module)
        if alias:
            self.aliases[alias] = file
        for name in filter(None, (names or "").split(",")):
            theirs, _, own = name.strip().partition(" as ")
            self.imports[own or theirs] = file, theirs

    def begins(self, line, indent):
        """Returns whether a block or a definition begins with the line, and notes it."""
        block, typed, listed = (it.match(line) for it in (BLOCK, TYPED, LISTED))
        if block:
            self.blocks.append((indent, block["given"], " ".join(self.comment)))
        elif typed or listed:
            head = listed or typed
            given = [(names, comment) for _, names, comment in self.blocks if names]
            kind = listed["kind"] if listed else "defined"
            self.last = Definition(kind, head["name"], self.section, self.comment, given, head["type"])
            self.definitions.append(self.last)
        if typed or listed or block and block["given"]:
            self.comment = []
        return bool(block or typed or listed)

    def read_code(self, line, indent):
        """Takes a line that is neither blank nor a comment."""
        while self.blocks and indent <= self.blocks[-1][0]:
            self.blocks.pop()
        level = self.blocks[-1][0] + 2 if self.blocks else 0
        if indent == level and (line.lstrip().startswith("infix") or self.begins(line.strip(), indent)):
            return
        if indent > level and self.last.kind == "defined" and not self.last.lines:
            self.last.type += f" {line.strip()}"
        else:
            self.last.lines += [*(f"{' ' * indent}-- {it}" for it in self.comment), line]
        self.comment = []

    def read_line(self, line):
        found = IMPORT.match(line)
        if found:
            self.note_import(*found.groups())
        elif line.startswith(("use ", "pub use ", "pub mod ")) or not line.strip():
            self.title, self.comment = self.title or self.comment, []
        elif line.lstrip().startswith("-- ----"):
            self.section, self.comment = line.lstrip().removeprefix("-- ----").strip(), []
        elif line.lstrip().startswith("--"):
            self.comment.append(line.lstrip().removeprefix("--").strip())
        else:
            self.read_code(line, len(line) - len(line.lstrip()))


@functools.cache
def read_spec(file):
    """Returns what a file of specs holds, or what a source takes from such files."""
    reader = Reader()
    with open(f"{TOP}/{file}", encoding="utf-8") as opened:
        lines = opened.read().splitlines()
    if file.endswith(".rt"):
        lines = [line.removeprefix("ghost ").removesuffix(";") for line in lines if line.startswith("ghost use ")]
    for line in lines:
        reader.read_line(line)
    definitions = {it.name: it for it in reader.definitions}
    owners = {name: it.name for it in reader.definitions for name in [*it.constructors(), it.name]}
    return Spec(" ".join(reader.title), definitions, owners, reader.imports, reader.aliases)


def resolved(file, word):
    """Returns the file and the name of the definition that a word of a file names, or None where it names none of specs."""
    spec = read_spec(file)
    if word in spec.owners:
        return file, spec.owners[word]
    below, name = spec.imports.get(word, (None, word))
    return resolved(below, name) if below else None


def words_of(file, text):
    """Returns the words of a text, each with the file in which to look it up."""
    aliases = read_spec(file).aliases
    for word, field, sign in WORD.findall(text):
        if word in aliases and field:
            yield aliases[word], field
        else:
            yield file, word or ("◌>>=◌" if sign == "←" else f"◌{sign}◌")


def cited_in(file, text):
    """Returns the definitions that a text of a file cites, each by file and name, in the order of the text."""
    found = [resolved(*it) for it in words_of(file, text) if it[0]]
    return list(dict.fromkeys(it for it in found if it))


def all_below(roots):
    """Returns these definitions and all that they rest on, by file and name."""
    found, left = set(), list(roots)
    while left:
        file, name = left.pop()
        if (file, name) not in found:
            found.add((file, name))
            left += cited_in(file, read_spec(file).definitions[name].code())
    return found
