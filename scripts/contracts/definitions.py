"""The language of definitions: the files of crates/*/specs, what each item of them names, and where those names are looked for."""

import re
from pathlib import Path

ROOT = Path(__file__).resolve().parent.parent.parent

# Words of the language of definitions that name nothing of a library.
WORDS = set("= : → × | ¬ ⊥ ↦ ← Unit tt absurd Type Prim _ let in record where do of unfolding elim as data open use ℓ 𝓛 ∥ ∥₁".split())
TACTICS = set("rw simp search assumption cc omega grind hlevel first_of rfl lit≤ rule ruleset".split())
CONSTRUCTORS = set("zero suc pos negsuc true false inl inr refl".split())


class Missing(Exception):
    """A name that isn't found."""


class Item:
    """One thing to be read: a definition, a type, a clause."""

    def __init__(self, crate, path, line, name, kind):
        self.crate, self.path, self.line, self.name, self.kind = crate, path, line, name, kind
        self.heads = []  # the line of the module that it is in
        self.code = []  # its lines, comments left out
        self.comment = []  # the comment above it
        self.shown = []  # its lines with the comments in it
        self.fill = None  # tells what it names, once that is asked
        self._names = None

    def names(self):
        if self._names is None:
            self._names = Names()
            if self.fill:
                self.fill(self._names)
        return self._names

    def where(self):
        return f"{self.path.relative_to(ROOT)}:{self.line}"

    def counts(self):
        return self.kind != "head"


class Names:
    """What an item names: items, names of the toolchain, and what isn't found."""

    def __init__(self):
        self.items, self.outside, self.missing = {}, {}, []

    def add(self, found):
        if isinstance(found, Item):
            self.items[found] = True
        elif found is not None:
            self.outside[found] = True


def bare(line, mark="--"):
    """The line without its comment."""
    if mark not in line:
        return line.rstrip()
    text = False
    for at, sign in enumerate(line):
        if sign == '"' and (at == 0 or line[at - 1] != "\\"):
            text = not text
        elif not text and line.startswith(mark, at) and (at == 0 or line[at - 1] in " (),;{}["):
            return line[:at].rstrip()
    return line.rstrip()


class Word:
    __slots__ = ("text", "line", "kind")

    def __init__(self, text, line, kind):
        self.text, self.line, self.kind = text, line, kind


LEXEME = re.compile(r'"(?:\\.|[^"\\])*"|⟦[^⟧]*⟧[^\s(){}\[\],;"]*|[(){}\[\],;]|[^\s(){}\[\],;"⟦]+')


def words(lines):
    """The words of numbered lines: brackets, dots that end binders, and names."""
    found = []
    for number, line in lines:
        for text in LEXEME.findall(line):
            if text[0] == '"':
                found.append(Word(text, number, "text"))
            elif text in "(){}[],;":
                found.append(Word(text, number, "sign"))
            else:
                if text[0] == "λ" and len(text) > 1:
                    found.append(Word("λ", number, "word"))
                    text = text[1:]
                dot = text.endswith(".") and text.strip(".")
                found.append(Word(text[:-1] if dot else text, number, "word"))
                if dot:
                    found.append(Word(".", number, "dot"))
    return found


class Walk:
    """Goes over the words of a term and asks `find` for each name that no binder of the term has bound."""

    def __init__(self, find, names, bound=()):
        self.find, self.names = find, names
        self.frames = [set(bound), set()]
        self.wait, self.later = [], []

    def is_bound(self, name):
        return any(name in frame for frame in self.frames)

    def name(self, text):
        text = text.replace("«", "").replace("»", "")
        parts = text.split(".") if text.strip(".") else [text]
        head = parts[0]
        if not head or head in WORDS or head[0].isdigit() or self.is_bound(head):
            return
        try:
            for found in self.find(parts):
                self.names.add(found)
        except Missing:
            if head not in TACTICS:
                self.names.missing.append(text)

    def binder_group(self, at, all_words):
        """Where a bracket at this place begins a binder, its names and the place of its colon."""
        to = at + 1
        while to < len(all_words) and all_words[to].kind == "word" and all_words[to].text not in WORDS - {"_"}:
            to += 1
        if at + 1 < to < len(all_words) and all_words[to].text == ":":
            return [word.text for word in all_words[at + 1 : to]], to
        return None

    def drawn_binders(self, all_words):
        """The places of the words before an arrow of a `do`."""
        places = {}
        for at, word in enumerate(all_words):
            if word.text == "←":
                frm, deep = at - 1, 0
                while frm >= 0 and all_words[frm].line == word.line and all_words[frm].text not in ("do", ";"):
                    deep += (all_words[frm].text in (")", "]", "}")) - (all_words[frm].text in ("(", "[", "{"))
                    if deep < 0:
                        break
                    frm -= 1
                for place in range(frm + 1, at):
                    places[place] = at
        return places

    def term(self, all_words):
        drawn = self.drawn_binders(all_words)
        groups = []  # of each open bracket the names that are bound once it closes
        at = 0
        while at < len(all_words):
            word = all_words[at]
            text = word.text
            for known in [it for it in self.later if word.line > it[0]]:
                self.frames[-1].update(known[1])
                self.later.remove(known)
            if at in drawn:
                names = [it.text for it in all_words[at : drawn[at]] if it.kind == "word"]
                self.later.append((word.line, {name for name in names if not self.is_constructor(name)}))
                at = drawn[at] + 1
                continue
            if text == "λ":
                at = self.binders(at + 1, all_words)
                continue
            if text in ("(", "{", "["):
                group = self.binder_group(at, all_words) if text != "[" else None
                groups.append(group[0] if group else [])
                self.frames.append(set())
                if group:
                    at = group[1]
                elif text == "{" and at + 2 < len(all_words) and all_words[at + 2].text == "=":
                    at += 1  # a field's name
            elif text in (")", "}", "]"):
                if len(self.frames) > 2:
                    self.frames.pop()
                self.frames[-1].update(groups.pop() if groups else [])
            elif text in (";", ","):
                self.frames[-1] = set()
                if at + 2 < len(all_words) and all_words[at + 2].text == "=":
                    at += 1
            elif text == "let":
                to = at + 1
                while all_words[to].text not in ("=", ":"):
                    to += 1
                self.wait.append({it.text for it in all_words[at + 1 : to] if it.kind == "word"})
                at = to
            elif text == "in":
                if self.wait:
                    self.frames[-1].update(self.wait.pop())
            elif text == "do":
                self.name(">>=")  # its lines are joined by it
            elif word.kind == "word":
                self.name(text)
            at += 1

    def binders(self, at, all_words):
        """The names between a λ and its dot, which may have types."""
        names, deep, typed = set(), 0, False
        while at < len(all_words) and not (all_words[at].kind == "dot" and deep == 0):
            word = all_words[at]
            if word.text in ("(", "{"):
                deep += 1
            elif word.text in (")", "}"):
                deep, typed = deep - 1, False
            elif word.text == ":":
                typed = True
            elif word.kind == "word":
                if typed:
                    self.name(word.text)
                else:
                    names.add(word.text)
            at += 1
        self.frames[-1].update(names)
        return at + 1

    def is_constructor(self, text):
        parts = text.split(".")
        try:
            list(self.find(parts))
        except Missing:
            return False
        return parts[0] in CONSTRUCTORS or self.find.is_constructor(parts)

    def equation(self, left, right, name):
        """One line of a definition by cases: what stands left of its = binds what isn't a constructor."""
        bound = set()
        for at, word in enumerate(left):
            text = word.text
            if word.kind != "word" or text in WORDS or text == name or text[0].isdigit():
                continue
            if at + 1 < len(left) and left[at + 1].text == "=":
                continue
            if self.is_constructor(text):
                self.name(text)
            elif re.match(r"[^\W\d]", text):
                bound.add(text)
        self.frames.append(bound)
        self.frames.append(set())
        self.term(right)
        del self.frames[-2:]


def split_at(all_words, text):
    """What stands before and behind the first such word outside of brackets."""
    deep = 0
    for at, word in enumerate(all_words):
        deep += (word.text in ("(", "{", "[")) - (word.text in (")", "}", "]"))
        if deep == 0 and word.text == text:
            return all_words[:at], all_words[at + 1 :]
    return all_words, []


USE = re.compile(r"(?:unfoldable )?(pub )?(?:ghost )?use\s+([^\s;{]+?)(?:\.\{([^}]*)\}|\s+as\s+(\S+?))?\s*;?\s*$", re.S)


class Imports:
    """The `use` lines of a file or of an item in a file, and the `mod` lines of a file of definitions."""

    def __init__(self):
        self.names, self.public, self.modules = {}, set(), {}

    def whole(self, module, passed=()):
        """A module's whole name. It begins with a module below this one, with one that another line brings, or with a library."""
        head, dot, rest = module.removeprefix("package.").partition(".")
        if head in self.modules and head not in passed and not module.startswith("package."):
            head = self.whole(self.modules[head], (*passed, head))
        return head + dot + rest

    def source(self, name):
        """The module that a name is from, and its name there."""
        module, of = self.names[name]
        return self.whole(module), of

    def read(self, text):
        found = USE.match(text.strip())
        if not found:
            raise Missing(f"no use line: {text.strip()}")
        public, module, braces, alias = found.groups()
        if braces is None:
            self.modules[alias or module.split(".")[-1]] = module
            return
        for part in braces.split(","):
            if part.strip():
                name, _, other = part.strip().partition(" as ")
                other = (other or name).strip()
                self.names[other] = (module, name.strip())
                if public:
                    self.public.add(other)


class SpecFile:
    """A file of definitions."""

    def __init__(self, world, crate, path, module):
        self.world, self.crate, self.path, self.module = world, crate, path, module
        self.imports, self.items, self.constructors = Imports(), {}, {}
        self.all, self.errors = [], []
        text = path.read_text(encoding="utf-8").split("\n")
        self.lines = [(number + 1, line) for number, line in enumerate(text)]
        self.comment = []
        for _, line in self.lines:
            if not line.startswith("--"):
                break
            self.comment.append(line)
        self.block(self.lines, 0, [], None)

    def block(self, lines, indent, params, head):
        """Items at this indent, in modules with these parameters."""
        blocks = []
        comment = []
        for number, line in lines:
            code = bare(line)
            level = len(line) - len(line.lstrip())
            if not code.strip():
                if line.strip():
                    if level <= indent:
                        comment.append(line.strip())
                    elif blocks:
                        blocks[-1][2].append((number, line))
                else:
                    comment = []
                continue
            if (level <= indent and code.strip()[0] not in ")}]") or not blocks:
                blocks.append(([(number, code)], comment, [(number, line)]))
                comment = []
            else:
                blocks[-1][0].append((number, code))
                blocks[-1][2].append((number, line))
        now = None
        last = None  # the line that says how tightly an operator binds, for the definition below it
        for code, comment, shown in blocks:
            first = code[0][1].strip()
            begin = first.split()
            if "use" in begin[:3] and set(begin[: begin.index("use")]) <= {"unfoldable", "pub"}:
                try:
                    self.imports.read(" ".join(line.strip() for _, line in code))
                except Missing as why:
                    self.errors.append(str(why))
            elif begin[:2] == ["pub", "mod"] or begin[0] == "mod":
                self.imports.modules[begin[-1]] = f"{self.module}.{begin[-1]}"
            elif begin[0] in ("infixl", "infixr", "infix"):
                last = self.head(code, comment, shown, head)
            elif begin[0] == "module" or "mutual" in begin[:3]:
                outer = self.head([code[0]], comment, [shown[0]], head)
                more = list(params)
                if begin[0] == "module":
                    inside = words([code[0]])[2:]
                    more.append(inside[:-1])
                    outer.fill = lambda names, inside=inside, params=params: self.walk(names, params).term(inside[:-1])
                inner = [pair for pair in self.lines if code[0][0] < pair[0] <= code[-1][0]]
                if inner:
                    level = min(len(line) - len(line.lstrip()) for _, line in inner if line.strip())
                    self.block(inner, level, more, outer)
            elif now is not None and self.continues(now, code):
                now.code += code
                now.shown += shown
                now.parts.append(code)
            elif begin[0] == "unfolding" and now is not None:
                now.code += code
                now.shown += shown
            else:
                now = self.define(code, comment, shown, params, head)
                if last is not None:
                    now.heads.append(last)
                    last = None

    def head(self, code, comment, shown, outer):
        item = Item(self.crate, self.path, code[0][0], code[0][1].strip(), "head")
        item.code, item.comment, item.shown, item.heads = list(code), comment, list(shown), [outer] if outer else []
        self.all.append(item)
        return item

    def continues(self, item, code):
        """Whether this is a line of the definition's, by its cases."""
        if item.kind != "function":
            return False
        left, right = split_at(words(code), "=")
        signs = [part for part in item.name.split("◌") if part]
        return bool(right) and (left[0].text == item.name or "◌" in item.name and any(word.text in signs for word in left))

    def define(self, code, comment, shown, params, head):
        text = words(code)
        begin = [word.text for word in text[:4]]
        kind = "record" if "record" in begin[:2] else "data" if "data" in begin[:2] else "function"
        at = 0
        while text[at].text in ("abbrev", "unfoldable", "pub", "record", "data", "opaque"):
            at += 1
        item = Item(self.crate, self.path, code[0][0], text[at].text, kind)
        item.code, item.comment, item.shown = list(code), comment, list(shown)
        item.parts, item.heads, item.params = [code], [head] if head else [], params
        self.all.append(item)
        self.items[item.name] = item
        if kind == "data":
            for field in self.fields(code):
                for word in field[: next(n for n, word in enumerate(field) if word.text == ":")]:
                    if word.text != "pub":
                        self.constructors[word.text] = item
        item.fill = lambda names: self.fill(item, text[at + 1 :], names)
        return item

    def fields(self, code):
        """The words of each field or constructor."""
        body = code[1:]
        if not body:
            return []
        level = min(len(line) - len(line.lstrip()) for _, line in body)
        groups = []
        for number, line in body:
            # A line that begins by closing what a field opened belongs to that field.
            if len(line) - len(line.lstrip()) == level and line.lstrip()[0] not in "})]":
                groups.append([])
            groups[-1].append((number, line))
        return [words(group) for group in groups]

    def bound_by(self, walk, params):
        for param in params:
            walk.term(param)
            walk.frames[0] |= walk.frames[-1]
            walk.frames[-1] = set()

    def walk(self, names, params):
        walk = Walk(Finder(self.find, self.is_constructor), names)
        silent = Walk(walk.find, Names())
        self.bound_by(silent, params)
        walk.frames[0] |= silent.frames[0]
        return walk

    def fill(self, item, text, names):
        for head in item.heads:
            names.add(head)
        walk = self.walk(names, item.params)
        if item.kind == "function":
            own = {number for number, _ in item.parts[0]}
            walk.term([word for word in text if word.line in own][1:])
            walk.frames[-1] = set()
            for part in item.parts[1:]:
                left, right = split_at(words(part), "=")
                walk.equation(left, right, item.name)
            return
        header, body = split_at(text, "where")
        last = header[-1].line if header else item.line
        walk.term(header)
        walk.frames[0] |= walk.frames[-1]
        for field in self.fields([pair for pair in item.code if pair[0] == item.line or pair[0] > last]):
            walk.frames[-1] = set()
            colon = next(n for n, word in enumerate(field) if word.text == ":")
            walk.term(field[colon + 1 :])
            walk.frames[-1] = set()
            if item.kind == "record":
                walk.frames[0] |= {word.text for word in field[:colon] if word.text != "pub"}

    def own(self, name):
        """The item of this name, or the type whose constructor it is."""
        return self.items.get(name) or self.constructors.get(name)

    def find(self, parts):
        own = self.own(parts[0])
        if own:
            yield own
        else:
            yield from find_imported(self.world, self.imports, parts, [self.items])

    def is_constructor(self, parts):
        if self.own(parts[0]):
            return parts[0] in self.constructors
        return is_imported_constructor(self.world, self.imports, parts)


class Finder:
    """Where names of one place are looked for."""

    def __init__(self, find, is_constructor):
        self.find, self.is_constructor = find, is_constructor

    def __call__(self, parts):
        return self.find(parts)


def find_imported(world, imports, parts, operators=()):
    head = parts[0]
    if head in imports.names:
        yield world.of_module(*imports.source(head))
        return
    if head in imports.modules:
        if len(parts) > 1:
            yield world.of_module(*world.below(imports.whole(head), parts[1:]))
        return
    # A word of an operator, as `≡` of ◌≡◌ or `then` of if◌then◌else◌.
    found = False
    for source in (*operators, imports.names):
        for name in source:
            if "◌" in name and head in name.split("◌"):
                found = True
                yield world.of_module(*imports.source(name)) if source is imports.names else source[name]
    if not found:
        raise Missing(head)


def is_imported_constructor(world, imports, parts):
    head = parts[0]
    if head in imports.modules and len(parts) > 1:
        module, name = world.below(imports.whole(head), parts[1:])
    elif head in imports.names:
        module, name = imports.source(head)
    else:
        return "◌∷◌" in imports.names and head == "∷"
    return world.is_constructor(module, name)
