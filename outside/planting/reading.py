"""Reads .rt files: which of their tokens are code that runs, and what is declared there."""

import re
from dataclasses import dataclass, field
from pathlib import Path

TOKEN = re.compile(
    r"""
    (?P<space>\s+)
  | (?P<comment>//[^\n]*)
  | (?P<text>b?"(?:\\.|[^"\\])*")
  | (?P<char>b?'(?:\\[^']+|[^'\\])')
  | (?P<life>'\w+)
  | (?P<number>\d\w*)
  | (?P<name>\w+)
  | (?P<mark>\.\.=|\.\.|=>|->|::|==|!=|<=|>=|&&|\|\||[-+*/%&|^]=|.)
    """,
    re.VERBOSE | re.DOTALL,
)
CLOSERS = {"(": ")", "[": "]", "{": "}"}
CLAUSES = {"requires", "ensures", "invariant", "decreases"}


@dataclass
class Token:
    kind: str
    text: str
    at: int

    @property
    def end(self):
        return self.at + len(self.text)


@dataclass
class Function:
    name: str
    owner: str
    is_method: bool
    params: list  # of (name, type)
    result: str
    body: tuple  # the places of its braces among the tokens

    @property
    def path(self):
        return f"{self.owner}::{self.name}" if self.owner else self.name


@dataclass
class Constant:
    name: str
    type: str
    value: tuple  # from the token after `=` to the `;`

    @property
    def path(self):
        return self.name


@dataclass
class Source:
    crate: str
    path: str  # in the crate's folder
    text: str
    tokens: list  # of code alone
    closes: dict  # from the place of each bracket to its partner's
    functions: list = field(default_factory=list)
    constants: list = field(default_factory=list)
    structs: dict = field(default_factory=dict)  # a name, or Enum::Variant: its (field, type)s
    enums: dict = field(default_factory=dict)  # a name: {variant: its payload as text}

    def is_at(self, i, *texts):
        return 0 <= i < len(self.tokens) and self.tokens[i].text in texts

    def line_of(self, at):
        return self.text.count("\n", 0, at) + 1

    def words(self, first, last):
        """The tokens of a type in a row, so that equal types are equal texts."""
        return "".join(it.text + " " * (it.kind == "life") for it in self.tokens[first:last])

    def slice(self, first, last):
        return self.text[self.tokens[first].at : self.tokens[last - 1].end]


def tokens_of(text):
    found = (Token(it.lastgroup, it.group(), it.start()) for it in TOKEN.finditer(text))
    return [it for it in found if it.kind not in ("space", "comment")]


def end_of_group(tokens, i):
    """The place behind the bracket that closes the one at i."""
    depth = 0
    for j in range(i, len(tokens)):
        depth += (tokens[j].text in CLOSERS) - (tokens[j].text in CLOSERS.values())
        if depth == 0:
            return j + 1
    return len(tokens)


def end_of_ghost(tokens, i):
    """A ghost item or field ends at its `;` or `,`, or before the brace that closes its struct."""
    while i < len(tokens):
        if tokens[i].text in CLOSERS:
            i = end_of_group(tokens, i)
        elif tokens[i].text in (";", ","):
            return i + 1
        elif tokens[i].text == "}":
            return i
        else:
            i += 1
    return i


def end_of_item(tokens, i):
    """Behind the item that begins at i."""
    while i < len(tokens) and tokens[i].text not in ("{", ";"):
        i = end_of_group(tokens, i) if tokens[i].text in ("(", "[") else i + 1
    return end_of_group(tokens, i) if i < len(tokens) and tokens[i].text == "{" else i + 1


def end_of_attribute(tokens, i):
    """Behind an attribute; behind its item where that is a test."""
    first = i + 2 if tokens[i + 1].text == "!" else i + 1
    end = end_of_group(tokens, first)
    is_test = "test" in [it.text for it in tokens[first:end]]
    return end_of_item(tokens, end) if is_test else end


def end_of_proof(tokens, i):
    """Where what stands at i is no code, the place behind it, or else i."""
    text = tokens[i].text
    if text == "ghost":
        return end_of_ghost(tokens, i)
    if text == "#" and i + 1 < len(tokens) and tokens[i + 1].text in ("[", "!"):
        return end_of_attribute(tokens, i)
    if text in CLAUSES:
        # perhaps a star and a name stand before its brace
        for j in range(i + 1, min(i + 4, len(tokens))):
            if tokens[j].text == "{":
                return end_of_group(tokens, j)
    return i


def code_of(text):
    """The tokens that are neither comments nor attributes, clauses, ghost items and tests."""
    tokens, kept, i = tokens_of(text), [], 0
    while i < len(tokens):
        end = end_of_proof(tokens, i)
        if end == i:
            kept.append(tokens[i])
            end += 1
        i = end
    return kept


def partners(tokens):
    closes, open_ones = {}, []
    for i, token in enumerate(tokens):
        if token.text in CLOSERS:
            open_ones.append(i)
        elif token.text in CLOSERS.values():
            j = open_ones.pop()
            closes[i], closes[j] = j, i
    return closes


def past_angles(source, i):
    """Behind the `<..>` at i, if there is one."""
    depth = 0
    while source.is_at(i, "<", ">") or depth:
        depth += source.is_at(i, "<") - source.is_at(i, ">")
        i += 1
    return i


def parts(source, first, last, mark=","):
    """The pieces between marks, as pairs of places; marks within brackets do not count."""
    found, start, i, depth = [], first, first, 0
    while i < last:
        text = source.tokens[i].text
        if text in CLOSERS:
            i = source.closes[i]
        elif mark == "," and text in ("<", ">") and is_tight(source, i):
            depth += 1 if text == "<" else -1
        elif text == mark and depth == 0:
            found.append((start, i))
            start = i + 1
        i += 1
    return found + [(start, last)] if start < last else found


def is_tight(source, i):
    """Whether no space stands before a token: so the layout tells `<` of a type from less than."""
    return not source.text[source.tokens[i].at - 1].isspace()


def typed(source, first, last):
    """The (name, type)s of parameters or fields."""
    found = []
    for a, b in parts(source, first, last):
        names = [i for i in range(a, b) if source.is_at(i, ":")]
        if names:
            found.append((source.tokens[names[0] - 1].text, source.words(names[0] + 1, b)))
    return found


def owners(source):
    """The bodies of impls and traits, with the name of the type."""
    found = []
    for i, token in enumerate(source.tokens):
        if token.text in ("impl", "trait") and source.tokens[i + 1].kind != "number":
            j = past_angles(source, i + 1)
            head = j
            while not source.is_at(j, "{"):
                head = j + 1 if source.is_at(j, "for") else head
                j += 1
            found.append((j, source.closes[j], source.tokens[head].text))
    return found


def read_function(source, i, blocks):
    """The function whose `fn` stands at i, if it has a body."""
    first = past_angles(source, i + 2)
    last = source.closes[first]
    end = last
    while not source.is_at(end, "{", ";"):
        end = source.closes[end] + 1 if source.is_at(end, "[") else end + 1
    if source.is_at(end, ";"):
        end = None
    result = ""
    if end and source.is_at(last + 1, "->"):
        stop = next((j for j in range(last, end) if source.is_at(j, "where")), end)
        result = source.words(last + 2, stop)
    owner = next((name for a, b, name in blocks if a < i < b), "")
    is_method = any(source.is_at(j, "self") for j in range(first, min(first + 5, last)))
    params = typed(source, first + 1, last)
    body = (end, source.closes[end]) if end else None
    return Function(source.tokens[i + 1].text, owner, is_method, params, result, body)


def read_constant(source, i):
    end = i
    while not source.is_at(end, ";"):
        end = source.closes[end] + 1 if source.tokens[end].text in CLOSERS else end + 1
    equal = next((j for j in range(i, end) if source.is_at(j, "=")), None)
    if equal is None:
        return None
    return Constant(source.tokens[i + 1].text, source.words(i + 3, equal), (equal + 1, end))


def read_struct(source, i):
    j = past_angles(source, i + 2)
    if source.is_at(j, "{"):
        source.structs[source.tokens[i + 1].text] = typed(source, j + 1, source.closes[j])


def read_enum(source, i):
    name = source.tokens[i + 1].text
    j = past_angles(source, i + 2)
    variants = source.enums.setdefault(name, {})
    for a, b in parts(source, j + 1, source.closes[j]):
        variant = source.tokens[a].text
        variants[variant] = source.words(a + 1, b)
        if source.is_at(a + 1, "{"):
            source.structs[f"{name}::{variant}"] = typed(source, a + 2, b - 1)


def read_source(crate, path, text):
    tokens = code_of(text)
    source = Source(crate, path, text, tokens, partners(tokens))
    blocks = owners(source)
    for i, token in enumerate(tokens[:-1]):
        if token.text == "fn" and tokens[i + 1].kind == "name":
            source.functions.append(read_function(source, i, blocks))
        elif token.text == "const" and source.is_at(i + 2, ":"):
            constant = read_constant(source, i)
            source.constants += [constant] if constant else []
        elif token.text == "struct":
            read_struct(source, i)
        elif token.text == "enum":
            read_enum(source, i)
    return source


def read_tree(tree):
    """All sources of a tree but tests, in the order of crates.txt and then of paths."""
    lines = (Path(tree) / "crates.txt").read_text(encoding="utf-8").splitlines()
    names = [line.partition("#")[0].partition(":")[0].split() for line in lines]
    found = []
    for name in [it[0] for it in names if it]:
        folder = Path(tree) / "crates" / name
        for file in sorted((folder / "src").rglob("*.rt")):
            path = file.relative_to(folder).as_posix()
            if "tests" not in re.split(r"[/.]", path):
                found.append(read_source(name, path, file.read_text(encoding="utf-8")))
    return found
