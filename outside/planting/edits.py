"""The edits that may be made to code: five kinds of bugs, found in the tokens of a source."""

from dataclasses import dataclass

from planting.reading import parts

KINDS = ("operator", "constant", "swapped arguments", "dropped write", "early return")

OPERATORS = {
    "==": ["!="],
    "!=": ["=="],
    "<": ["<=", ">"],
    "<=": ["<"],
    ">": [">=", "<"],
    ">=": [">"],
    "+": ["-"],
    "-": ["+"],
    "*": ["+"],
    "/": ["%"],
    "%": ["/"],
    "&&": ["||"],
    "||": ["&&"],
    "&": ["|"],
    "|": ["&", "^"],
    "^": ["|"],
    "+=": ["-="],
    "-=": ["+="],
    "|=": ["&="],
    "&=": ["|="],
}
METHODS = {
    "min": "max",
    "max": "min",
    "any": "all",
    "all": "any",
    "is_some": "is_none",
    "is_none": "is_some",
    "wrapping_add": "wrapping_sub",
    "wrapping_sub": "wrapping_add",
}
SHIFTS = {"<": ">>", ">": "<<"}
# which give the same with their sides exchanged
EVEN = {"+", "*", "&", "|", "^", "==", "!=", "&&", "||"}
EVEN_METHODS = {"wrapping_add", "wrapping_mul", "min", "max"}
STATEMENTS = {"for", "while", "loop", "if", "match", "unsafe"}
NO_WRITES = {"let", "return", "continue", "break", "use", "const", "fn", "struct"}
INTEGERS = {"u8", "u16", "u32", "u64", "usize", "i32", "i64"}


@dataclass(frozen=True)
class Edit:
    crate: str
    path: str
    line: int
    last_line: int
    function: str
    kind: str
    start: int
    end: int
    new: str
    id: str = ""

    @property
    def file(self):
        return f"crates/{self.crate}/{self.path}"


class Finder:
    """Collects the edits of one source; `world` is all sources, its own crate's first."""

    def __init__(self, source, world):
        self.source = source
        self.world = world
        self.tokens = source.tokens
        self.found = []
        self.function = None

    def add(self, kind, start, end, new):
        source = self.source
        if source.text[start:end] != new:
            lines = source.line_of(start), source.line_of(max(start, end - 1))
            place = (source.crate, source.path, *lines, self.function.path)
            self.found.append(Edit(*place, kind, start, end, new))

    def replace(self, kind, first, last, new):
        self.add(kind, self.tokens[first].at, self.tokens[last - 1].end, new)

    def all(self):
        for self.function in [it for it in self.source.functions if it.body]:
            first, last = self.function.body
            self.values(first + 1, last)
            self.drops(first, last)
            self.returns(first, last)
            self.breaks(first, last)
            self.others(first + 1, last)
        for self.function in self.source.constants:
            self.values(*self.function.value)
            self.others(*self.function.value)
        return self.found

    def others(self, first, last):
        # behind the rest, so that the numbers in the ids of the rest stay
        for i in range(first, last):
            self.shift(i)
            self.condition(i)

    def values(self, first, last):
        """What may be wrong in the expressions between two places."""
        for i in range(first, last):
            self.operator(i)
            self.range(i)
            self.number(i)
            self.flag(i)
            self.named(i)
            self.variant(i)
            self.call(i)
            self.array(i)
            self.literal(i)

    # operators

    def is_spaced(self, i):
        text, token = self.source.text, self.tokens[i]
        return text[token.at - 1].isspace() and text[token.end].isspace()

    def is_sign(self, i):
        return self.tokens[i].text in OPERATORS and self.is_spaced(i)

    def is_pattern(self, i):
        """Whether what stands at i is matched: `=>` or `=` comes before its list or block ends."""
        while i < len(self.tokens):
            text = self.tokens[i].text
            if text in ("=>", "="):
                return True
            if text in (",", ";", ")", "]", "}"):
                return False
            i = self.source.closes[i] + 1 if text in ("(", "[", "{") else i + 1
        return False

    def operator(self, i):
        token, source = self.tokens[i], self.source
        if self.is_sign(i):
            if token.text != "|" or not self.is_pattern(i):
                for new in OPERATORS[token.text]:
                    self.replace("operator", i, i + 1, new)
        elif token.text in METHODS and source.is_at(i - 1, ".") and source.is_at(i + 1, "("):
            self.replace("operator", i, i + 1, METHODS[token.text])
        elif token.text == "!" and self.tokens[i - 1].kind != "name":
            self.replace("operator", i, i + 1, "")

    def shift(self, i):
        one, two = self.tokens[i : i + 2]
        if one.text in SHIFTS and two.text == one.text and one.end == two.at:
            if self.source.text[one.at - 1].isspace() and self.source.text[two.end].isspace():
                self.replace("operator", i, i + 2, SHIFTS[one.text])

    def condition(self, i):
        """An `if` that asks for the opposite, unless another edit of an operator does the same."""
        source, top = self.source, [i + 1]
        if not source.is_at(i, "if"):
            return
        while not source.is_at(top[-1], "{", "=>"):
            j = top[-1]
            top.append(source.closes[j] if source.is_at(j, "(", "[") else j + 1)
        end = top.pop()
        signs = [self.tokens[j].text for j in top if self.is_sign(j)]
        if any(source.is_at(j, "let") for j in top) or signs in (["=="], ["!="]):
            return
        if signs:
            self.replace("operator", i + 1, end, f"!({source.slice(i + 1, end)})")
        elif not source.is_at(i + 1, "!") and not source.is_at(end - 3, "is_some", "is_none"):
            at = self.tokens[i + 1].at
            self.add("operator", at, at, "!")

    def range(self, i):
        ends = self.tokens[i + 1] if i + 1 < len(self.tokens) else None
        if ends and (ends.kind in ("name", "number") or ends.text == "("):
            if self.source.is_at(i, "..") and not self.source.is_at(i - 1, "{", ","):
                self.replace("operator", i, i + 1, "..=")
            elif self.source.is_at(i, "..="):
                self.replace("operator", i, i + 1, "..")

    # constants

    def number(self, i):
        token = self.tokens[i]
        if token.kind == "number" and token.text.isdigit() and not self.source.is_at(i - 1, "."):
            number = int(token.text)
            for new in [number + 1, number - 1][: 2 if number else 1]:
                self.replace("constant", i, i + 1, str(new))
        elif token.kind == "char" and token.text[-2].isalpha() and "\\" not in token.text:
            self.replace("constant", i, i + 1, f"{token.text[:-2]}{chr(ord(token.text[-2]) + 1)}'")

    def flag(self, i):
        if self.source.is_at(i, "true", "false"):
            self.replace("constant", i, i + 1, "false" if self.tokens[i].text == "true" else "true")

    def named(self, i):
        """Another constant of the same file and type."""
        if self.source.is_at(i + 1, "::") or self.tokens[i].kind != "name":
            return
        for source in self.world:
            for constant in source.constants:
                if constant.name == self.tokens[i].text and source.crate == self.source.crate:
                    for it in source.constants:
                        if it.type == constant.type and it.name != constant.name:
                            self.replace("constant", i, i + 1, it.name)

    def variant(self, i):
        """Another variant of the same enum, with the same payload."""
        if not self.source.is_at(i + 1, "::") or self.is_pattern(i):
            return
        for source in self.world:
            variants = source.enums.get(self.tokens[i].text, {})
            for new, payload in variants.items():
                old = self.tokens[i + 2].text
                if new != old and payload == variants.get(old):
                    self.replace("constant", i + 2, i + 3, new)

    # swapped arguments

    def swap(self, one, two):
        """Exchanges the pieces of code at two pairs of places."""
        source = self.source
        first, second = source.slice(*one), source.slice(*two)
        between = source.text[self.tokens[one[1] - 1].end : self.tokens[two[0]].at]
        if first != second:
            self.replace("swapped arguments", one[0], two[1], second + between + first)

    def call(self, i):
        if self.tokens[i].kind != "name" or not self.source.is_at(i + 1, "("):
            return
        given = parts(self.source, i + 2, self.source.closes[i + 1])
        is_method = self.source.is_at(i - 1, ".")
        for source in self.world:
            for it in source.functions:
                if (it.name, it.is_method, len(it.params)) == (
                    self.tokens[i].text,
                    is_method,
                    len(given),
                ):
                    types = [kind for _, kind in it.params]
                    if not is_even(source, it):
                        self.neighbours(given, types)
                    return

    def neighbours(self, given, types):
        for k in range(len(given) - 1):
            if types[k] == types[k + 1]:
                self.swap(given[k], given[k + 1])

    def array(self, i):
        before = self.tokens[i - 1]
        if self.source.is_at(i, "[") and before.kind != "name" and before.text not in (")", "]"):
            given = parts(self.source, i + 1, self.source.closes[i])
            self.neighbours(given, [""] * len(given))

    def literal(self, i):
        """Fields of a struct literal."""
        source = self.source
        if not source.is_at(i + 1, "{") or self.tokens[i].kind != "name":
            return
        if source.is_at(i - 1, "let") or self.is_pattern(i):
            return
        name = self.tokens[i].text
        if source.is_at(i - 1, "::"):
            name = f"{self.tokens[i - 2].text}::{name}"
        declared = next((dict(it.structs[name]) for it in self.world if name in it.structs), {})
        given = parts(source, i + 2, source.closes[i + 1])
        names = [self.tokens[a].text for a, _ in given]
        for k in range(len(given) - 1):
            kinds = [declared.get(it) for it in names[k : k + 2]]
            if kinds[0] and kinds[0] == kinds[1]:
                self.swap_fields(given[k], given[k + 1])

    def swap_fields(self, one, two):
        source = self.source
        names = [self.tokens[it[0]].text for it in (one, two)]
        values = [source.slice(a + 2 if source.is_at(a + 1, ":") else a, b) for a, b in (one, two)]
        between = source.text[self.tokens[one[1] - 1].end : self.tokens[two[0]].at]
        if values[0] != values[1]:
            new = f"{names[0]}: {values[1]}{between}{names[1]}: {values[0]}"
            self.replace("swapped arguments", one[0], two[1], new)

    # dropped writes

    def drops(self, first, last):
        for i in range(first, last):
            if self.source.is_at(i, "{"):
                for a, b in self.statements(i):
                    if self.is_write(a, b):
                        start, end = self.tokens[a].at, self.tokens[b - 1].end
                        lines = self.source.text.count("\n", start, end)
                        self.add("dropped write", start, end, "\n" * lines)

    def statements(self, i):
        """The statements of a block that end with `;`, as pairs of places."""
        found, start, j, last = [], i + 1, i + 1, self.source.closes[i]
        while j < last:
            if self.source.is_at(j, "(", "[", "{"):
                is_block = self.source.is_at(j, "{") and self.tokens[start].text in STATEMENTS
                j = self.source.closes[j] + 1
                if is_block and not self.source.is_at(j, "else", ".", "?"):
                    start = j
                continue
            if self.source.is_at(j, ";"):
                found.append((start, j + 1))
                start = j + 1
            j += 1
        return found

    def is_write(self, a, b):
        if self.tokens[a].text == "let":
            return self.source.is_at(a + 1, "_") and self.source.is_at(a + 2, "=")
        return self.tokens[a].text not in STATEMENTS | NO_WRITES

    # early returns

    def returns(self, first, last):
        """A plausible answer at the head of a body."""
        body = self.source.slice(first + 1, last) if last > first + 1 else ""
        for value in self.plausible(self.function.result):
            if value != body:
                at = self.tokens[first + 1].at
                self.add("early return", at, at, f"return{' ' if value else ''}{value}; ")

    def plausible(self, result):
        """Values that a function with this result may give up with."""
        given = [name for name, kind in self.function.params if kind == result]
        if result in ("Self", self.function.owner) and self.function.is_method:
            given.append("self")
        inner = result.removeprefix("Result<").removeprefix("io::Result<").removesuffix(">")
        if result in ("", "()"):
            return [""] if not result else ["()"]
        if result == "bool":
            return ["false", "true"]
        if result in INTEGERS:
            return ["0", "1", *given]
        if result.startswith("Option<"):
            return ["None", *given]
        if inner != result:
            value = first_type(inner)
            return [f"Ok({it})" for it in self.plausible(value)]
        if result.startswith("["):
            kind, _, length = result[1:-1].rpartition(";")
            return [f"[{it}; {length}]" for it in self.plausible(kind)[:1]] + given
        if result.startswith("&") and result.endswith("]"):
            return ["&[]", *given]
        return given + self.made(result)

    def made(self, result):
        """A value of a type that some source declares, or of an element type."""
        if result == "E":
            return ["E::zero()"]
        for source in self.world:
            names = [it.name for it in source.functions if it.owner == result and not it.params]
            own = self.function.name  # which would call itself
            made = [f"{result}::{it}()" for it in names if it in ("new", "zero") and it != own]
            plain = [it for it, payload in source.enums.get(result, {}).items() if not payload]
            fields = source.structs.get(result, [])
            if fields and all(kind in INTEGERS for _, kind in fields):
                values = ", ".join(f"{name}: 0" for name, _ in fields)
                made.append(f"{result} {{ {values} }}")
            made += [f"{result}::{it}" for it in plain[:2]]
            if made:
                return made
        return []

    def block_behind(self, i):
        while not self.source.is_at(i, "{"):
            i = self.source.closes[i] + 1 if self.source.is_at(i, "(", "[") else i + 1
        return i

    def breaks(self, first, last):
        """A loop that is left after its first round."""
        for i in range(first, last):
            if self.source.is_at(i, "for", "while", "loop"):
                end = self.source.closes[self.block_behind(i)] - 1
                close = "" if self.source.is_at(end, ";", "}", "{") else ";"
                at = self.tokens[end].end
                self.add("early return", at, at, f"{close} break;")


def is_even(source, function):
    """Whether a body is its two parameters on both sides of a sign that asks for no order."""
    first, last = function.body or (0, 0)
    body = [it.text for it in source.tokens[first + 1 : last]]
    names = sorted(name for name, _ in function.params)
    if len(body) == 3:
        return names == sorted(body[::2]) and body[1] in EVEN
    if len(body) == 6:
        is_call = body[1::2] == [".", "(", ")"] and body[2] in EVEN_METHODS
        return is_call and names == sorted(body[::4])
    return False


def first_type(text):
    """The first of the types in a row."""
    depth = 0
    for i, letter in enumerate(text):
        depth += (letter in "<([") - (letter in ">)]")
        if letter == "," and depth == 0:
            return text[:i]
    return text


def edits_of(sources):
    """All edits, each with an id of its own that does not depend on what is drawn."""
    found = []
    for source in sources:
        world = sorted(sources, key=lambda it, crate=source.crate: it.crate != crate)
        seen = {}
        for edit in Finder(source, world).all():
            letter = "".join(it[0] for it in edit.kind.split())
            stem = source.path.removeprefix("src/").removesuffix(".rt")
            name = f"{source.crate}/{stem}:{edit.line}:{letter}"
            seen[name] = seen.get(name, 0) + 1
            found.append(Edit(**{**vars(edit), "id": f"{name}{seen[name]}"}))
    return found
