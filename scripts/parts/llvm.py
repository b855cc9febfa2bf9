"""A module of LLVM as text: its functions, their instructions, and the types in them.

It reads what the compiler of the kit writes, each line to its end, and refuses all else with the line it stands on: an instruction, a type, a constant or a
word that isn't below.
"""

import re


class Refused(Exception):
    """What isn't read: the number of its line from 1, why, and the line."""

    def __init__(self, number, why, text):
        super().__init__(f"line {number}: {why}: {text.strip()[:200]}")


# A name, a number, a text, a word or a sign.
TOKEN = re.compile(r'[%@](?:"[^"]*"|[-\w.$]+)|![-\w.]*|c?"[^"]*"|#\d+|0x[0-9A-F]+|-?\d+(?:\.\d+(?:e[-+]\d+)?)?|[A-Za-z_][\w.]*|\.\.\.|\S')

NAME = re.compile(r'@(?:"[^"]*"|[-\w.$]+)')
NUMBER = re.compile(r"(0x[0-9A-F]+|-?\d+(\.\d+(e[-+]\d+)?)?)$")

# Words that say of a value what the compiler may take for granted, in bytes where they have a number.
OF_VALUES = {"noundef", "zeroext", "signext", "nonnull", "noalias", "readonly", "writeonly", "immarg"}
OF_VALUES_WITH = {"align", "captures", "dereferenceable"}
# What an instruction may say of its sums.
FLAGS = {"nuw", "nsw", "exact", "disjoint", "inbounds", "nusw", "nneg", "samesign"}
SUMS = {"add", "sub", "mul", "udiv", "urem", "sdiv", "srem", "and", "or", "xor", "shl", "lshr", "ashr"}
CASTS = {"zext", "sext", "trunc", "bitcast", "ptrtoint", "ptrtoaddr", "inttoptr"}
ORDERS = {"eq", "ne", "ult", "ule", "ugt", "uge", "slt", "sle", "sgt", "sge"}
# Of floats. None may say that a sum is good enough.
SUMS_OF_FLOATS = {"fadd", "fsub", "fmul", "fdiv"}
ORDERS_OF_FLOATS = {f"{kind}{order}" for kind in "ou" for order in ("eq", "ne", "lt", "le", "gt", "ge")} | {"ord", "uno"}
# What a load may add that says nothing of pointers' width.
NOTES = {"!noundef", "!range", "!nonnull", "!align"}


def width(kind):
    """The bits of an integer, or None."""
    return int(kind[1:]) if isinstance(kind, str) and re.match(r"i\d+$", kind) else None


def parts_of(kind):
    return kind[1] if isinstance(kind, tuple) and kind[0] == "{" else None


def text_of(kind):
    """A type as LLVM spells it."""
    if isinstance(kind, str):
        return kind
    if kind[0] == "{":
        return "{ " + ", ".join(map(text_of, kind[1])) + " }"
    return f"{kind[0]}{kind[1]} x {text_of(kind[2])}{']' if kind[0] == '[' else '>'}"


def has_pointer(kind):
    if isinstance(kind, str):
        return kind == "ptr"
    return any(map(has_pointer, kind[1])) if kind[0] == "{" else has_pointer(kind[2])


class Line:
    """One line that is read from the left."""

    def __init__(self, number, text):
        self.number, self.text, self.tokens, self.at = number, text, TOKEN.findall(text), 0

    def refuse(self, why):
        raise Refused(self.number, why, self.text)

    def peek(self):
        return self.tokens[self.at] if self.at < len(self.tokens) else ""

    def next(self):
        self.at += 1
        return self.tokens[self.at - 1] if self.at <= len(self.tokens) else ""

    def takes(self, token):
        if self.peek() == token:
            self.at += 1
            return True
        return False

    def expect(self, token):
        if not self.takes(token):
            self.refuse(f"{token!r} is expected before {self.peek() or 'the end'!r}")

    def among(self, words):
        """The words from here on that are among these."""
        said = []
        while self.peek() in words:
            said.append(self.next())
        return said

    def type(self):
        token = self.next()
        if token in ("ptr", "void", "double") or re.match(r"i\d+$", token):
            return token
        if token in ("[", "<"):
            if self.peek() == "{":
                self.refuse("a packed structure is no type that is known")
            count = self.next()
            self.expect("x")
            inner = self.type()
            self.expect("]" if token == "[" else ">")
            return token, int(count), inner
        if token == "{":
            inner = [self.type()]
            while self.takes(","):
                inner.append(self.type())
            self.expect("}")
            return "{", tuple(inner)
        return self.refuse(f"{token!r} is no type that is known")

    def value(self):
        """A name, a number or a constant, as it is spelled."""
        token = self.next()
        if token[:1] in ("%", "@") or NUMBER.match(token) or token in ("true", "false", "null", "zeroinitializer", "undef", "poison"):
            return token
        if token == "splat":
            self.expect("(")
            kind = self.type()
            inner = self.value()
            self.expect(")")
            return f"splat ({text_of(kind)} {inner})"
        if token == "<":
            inner = [f"{text_of(self.type())} {self.value()}"]
            while self.takes(","):
                inner.append(f"{text_of(self.type())} {self.value()}")
            self.expect(">")
            return f"<{', '.join(inner)}>"
        return self.refuse(f"{token!r} is no value that is known")

    def words_of_value(self):
        said = []
        while True:
            if self.peek() in OF_VALUES:
                said.append(self.next())
            elif self.peek() in OF_VALUES_WITH:
                word = self.next()
                in_brackets = self.takes("(")
                said.append(f"{word}({self.next()})" if in_brackets else f"{word} {self.next()}")
                if in_brackets:
                    self.expect(")")
            else:
                return said

    def align(self):
        """`, align N`, or None."""
        if self.tokens[self.at : self.at + 2] != [",", "align"]:
            return None
        self.at += 3
        return int(self.tokens[self.at - 1])

    def end(self):
        while self.takes(","):
            note = self.next()
            if note not in NOTES:
                self.refuse(f"{note!r} isn't known")
            self.next()
        if self.at < len(self.tokens):
            self.refuse(f"{self.peek()!r} isn't known")


class Instruction:
    """One instruction: its line, the name of its result if it has one, the word it begins with, the types in it and its values. `align` is that of a
    place in memory, `called` the name of a function and `back` what it answers; `wanted` are the types that a function of any number of words names."""

    def __init__(self, line, result, word):
        self.number, self.text, self.result, self.word = line.number, line.text, result, word
        self.types, self.values, self.align, self.called, self.back, self.wanted = [], [], None, None, None, None

    def refuse(self, why):
        raise Refused(self.number, why, self.text)


def pointer(line, it):
    line.expect("ptr")
    it.values.append(line.value())


def typed(line, it):
    it.types.append(line.type())
    it.values.append(line.value())


def label(line, it):
    line.expect("label")
    it.values.append(line.next())


def of_memory(line, it):
    for word in ("volatile", "atomic"):
        if line.peek() == word:
            line.refuse(f"memory that is {word} isn't known")


def read_alloca(line, it):
    it.types.append(line.type())
    it.align = line.align()


def read_load(line, it):
    of_memory(line, it)
    it.types.append(line.type())
    line.expect(",")
    pointer(line, it)
    it.align = line.align()


def read_store(line, it):
    of_memory(line, it)
    typed(line, it)
    line.expect(",")
    pointer(line, it)
    it.align = line.align()


def read_getelementptr(line, it):
    line.among(FLAGS)
    it.types.append(line.type())
    line.expect(",")
    pointer(line, it)
    line.expect(",")
    typed(line, it)


def read_sum(line, it):
    line.among(FLAGS)
    typed(line, it)
    line.expect(",")
    it.values.append(line.value())


def read_cast(line, it):
    line.among(FLAGS)
    typed(line, it)
    line.expect("to")
    it.types.append(line.type())


def read_order(orders):
    def read(line, it):
        line.among(FLAGS)
        order = line.next()
        if order not in orders:
            line.refuse(f"{order!r} is no order that is known")
        typed(line, it)
        line.expect(",")
        it.values.append(line.value())

    return read


def read_extractvalue(line, it):
    typed(line, it)
    line.expect(",")
    it.values.append(line.next())


def read_insertvalue(line, it):
    typed(line, it)
    line.expect(",")
    typed(line, it)
    line.expect(",")
    it.values.append(line.next())


def read_list(count):
    def read(line, it):
        typed(line, it)
        for _ in range(count - 1):
            line.expect(",")
            typed(line, it)

    return read


def read_phi(line, it):
    it.types.append(line.type())
    while True:
        line.expect("[")
        it.values.append(line.value())
        line.expect(",")
        line.next()
        line.expect("]")
        if line.peek() != ",":
            return
        line.next()


def read_br(line, it):
    if line.peek() == "label":
        return label(line, it)
    typed(line, it)
    for _ in range(2):
        line.expect(",")
        label(line, it)


def read_switch(line, it):
    typed(line, it)
    line.expect(",")
    label(line, it)
    line.expect("[")
    while not line.takes("]"):
        typed(line, it)
        line.expect(",")
        label(line, it)


def read_ret(line, it):
    it.types.append(line.type())
    if it.types[0] != "void":
        it.values.append(line.value())


def read_call(line, it):
    line.words_of_value()
    it.back = line.type()
    if line.takes("("):
        it.wanted = []
        while not line.takes("..."):
            it.wanted.append(line.type())
            line.expect(",")
        line.expect(")")
    it.called = line.next()
    if not it.called.startswith("@"):
        line.refuse("a call of what isn't a function's name isn't known")
    line.expect("(")
    while not line.takes(")"):
        if it.types:
            line.expect(",")
        it.types.append(line.type())
        line.words_of_value()
        it.values.append(line.value())


READERS = {
    **{word: read_sum for word in SUMS},
    **{word: read_cast for word in CASTS},
    **{word: read_sum for word in SUMS_OF_FLOATS},
    "fneg": read_list(1),
    "fcmp": read_order(ORDERS_OF_FLOATS),
    "uitofp": read_cast,
    "alloca": read_alloca,
    "load": read_load,
    "store": read_store,
    "getelementptr": read_getelementptr,
    "icmp": read_order(ORDERS),
    "extractvalue": read_extractvalue,
    "insertvalue": read_insertvalue,
    "extractelement": read_list(2),
    "insertelement": read_list(3),
    "shufflevector": read_list(3),
    "select": read_list(3),
    "freeze": read_list(1),
    "phi": read_phi,
    "br": read_br,
    "switch": read_switch,
    "ret": read_ret,
    "unreachable": lambda line, it: None,
    "call": read_call,
}


def instruction(number, text):
    line = Line(number, text)
    result = None
    if line.peek().startswith("%"):
        result = line.next()
        line.expect("=")
    word = line.next()
    if word == "tail" and line.peek() == "call":
        word = line.next()
    if word not in READERS:
        line.refuse(f"the instruction {word!r} isn't known")
    it = Instruction(line, result, word)
    READERS[word](line, it)
    line.end()
    return it


class Function:
    """A function: the words before what it answers, that type, its name, the types and the text of its arguments, and its groups of attributes. `lines` are
    those of its body. One that is only declared has none."""

    def __init__(self, line):
        self.number, self.head, self.lines, self.is_defined = line.number, line.text, [], line.next() == "define"
        self.is_internal = any(word != "dso_local" for word in line.among({"internal", "private", "dso_local"}))
        self.of_result = line.words_of_value()
        self.back = line.type()
        self.name = line.next()
        if not self.name.startswith("@"):
            line.refuse("no function's name is here")
        line.expect("(")
        self.arguments = []
        while not line.takes(")"):
            if self.arguments:
                line.expect(",")
            if not self.is_defined and line.takes("..."):
                line.expect(")")
                break
            kind, words = line.type(), line.words_of_value()
            self.arguments.append((kind, words, line.next() if line.peek().startswith("%") else ""))
        line.among({"unnamed_addr", "local_unnamed_addr"})
        self.groups = [line.next() for _ in iter(lambda: re.match(r"#\d+$", line.peek()), None)]
        if self.is_defined:
            line.expect("{")
        line.end()

    def refuse(self, why):
        raise Refused(self.number, why, self.head)

    def body(self):
        """Its labels (texts) and instructions. They are read when they are asked for: most functions of a module may be reached by none."""
        return body(self.lines, self.number)

    def names(self):
        """The names of the module that its body has."""
        return {name for line in self.lines for name in NAME.findall(line)}


LABEL = re.compile(r'([-\w.$]+|"[^"]*"):\s*(;.*)?$')


def body(lines, before):
    """The lines of a function between its first, which has this number, and its last, read."""
    read, at = [], 0
    while at < len(lines):
        text, number = lines[at], before + at + 1
        at += 1
        if not text:
            continue
        found = LABEL.match(text)
        if found:
            read.append(found.group(1) + ":")
            continue
        if text.endswith("["):
            while not lines[at].strip() == "]":
                text += " " + lines[at].strip()
                at += 1
            text += " ]"
            at += 1
        read.append(instruction(number, text))
    return read


class Module:
    """A module: `texts` are the constants of bytes with their lines, `functions` those that are defined and `declared` those that aren't, by name;
    `attributes` are the groups, and `notes` the lines of metadata."""

    def __init__(self, text):
        self.texts, self.functions, self.declared, self.attributes, self.notes = {}, {}, {}, {}, []
        lines, at = text.split("\n"), 0
        while at < len(lines):
            at = self.item(lines, at)

    def item(self, lines, at):
        text = lines[at]
        if not text or text[0] == ";" or text.startswith(("source_filename = ", "target datalayout = ", "target triple = ")):
            return at + 1
        line = Line(at + 1, text)
        first = line.peek()
        if first == "define":
            it = Function(line)
            end = lines.index("}", at)
            it.lines = lines[at + 1 : end]
            self.functions[it.name] = it
            return end + 1
        if first == "declare":
            it = Function(line)
            self.declared[it.name] = it
        elif first == "attributes":
            group, words = re.match(r"attributes (#\d+) = \{ (.*) \}$", text).groups()
            self.attributes[group] = (at + 1, re.findall(r'"[^"]*"(?:="[^"]*")?|\w+(?:\([^)]*\))?', words))
        elif first.startswith("!"):
            self.notes.append(text)
        elif first.startswith("@"):
            self.texts[first] = (at + 1, text)
        else:
            line.refuse("this isn't known")
        return at + 1
