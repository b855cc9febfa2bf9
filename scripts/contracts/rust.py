"""Rust with contracts: the files of crates/*/src as modules, with their types, functions and clauses."""

import bisect
import re

from contracts.definitions import ROOT, Imports, Item, Missing, bare, words

def blanked(text):
    """The text with comments, and what stands in quotes, as spaces; and the places of comments."""
    pattern = re.compile(
        r'//[^\n]*|/\*.*?\*/|b?r#"(?:.*?)"#|b?"(?:\\.|[^"\\])*"|b?\'(?:\\x[0-9a-f]{2}|\\u\{[^}]*\}|\\.|[^\\\'\n])\'', re.S
    )
    keep = lambda found: re.sub(r"[^\n]", " ", found.group())
    return pattern.sub(keep, text)


PAIRS = {"(": ")", "{": "}", "[": "]"}
BRACKET = re.compile(r"[(){}\[\]]")


def closing(code, at):
    """The place of the bracket that closes this one."""
    stack = []
    for found in BRACKET.finditer(code, at):
        sign, at = found.group(), found.start()
        if sign in PAIRS:
            stack.append(PAIRS[sign])
        elif stack.pop() != sign:
            raise Missing(f"brackets near {code[at - 40 : at + 10]!r}")
        elif not stack:
            return at
    raise Missing("a bracket that isn't closed")


def parts_of(text, sign=","):
    """Splits at signs outside of brackets; < and > are brackets, but not those of an arrow."""
    found, deep, frm = [], 0, 0
    for at, it in enumerate(text):
        if it in "([{<":
            deep += 1
        elif it in ")]}" or it == ">" and text[at - 1] not in "-=":
            deep -= 1
        elif it == sign and deep == 0:
            found.append(text[frm:at])
            frm = at + 1
    found.append(text[frm:])
    return [it.strip() for it in found if it.strip()]


def after_generics(code, at):
    """The place behind <..>, and what stands in it."""
    if at >= len(code) or code[at] != "<":
        return at, ""
    deep, to = 0, at
    while True:
        if code[to] == "<":
            deep += 1
        elif code[to] == ">" and code[to - 1] not in "-=":
            deep -= 1
            if deep == 0:
                return to + 1, code[at + 1 : to]
        to += 1


PATH = re.compile(r"(?<![\w'])[A-Za-z_]\w*(?:::[A-Za-z_]\w*)*")


class Module:
    def __init__(self, crate, path, names):
        self.crate, self.path, self.names = crate, path, names
        self.items, self.uses, self.globs, self.ghost = {}, {}, [], Imports()
        self.public, self.modules, self.impls = set(), {}, []
        self.functions = {}


class Generics:
    """Type parameters with their bounds."""

    def __init__(self, text="", where=""):
        self.bounds = {}
        for part in parts_of(text):
            if part.startswith("'"):
                continue
            name, _, bound = part.removeprefix("const ").partition(":")
            self.bounds.setdefault(name.strip(), []).append("" if part.startswith("const ") else bound)
        for part in parts_of(where):
            name, _, bound = part.partition(":")
            self.bounds.setdefault(name.strip(), []).append(bound)

    def over(self, outer):
        joined = Generics()
        joined.bounds = {**outer.bounds, **self.bounds}
        return joined


class Function:
    """A function with its contract."""

    def __init__(self, name, item, module):
        self.name, self.item, self.module = name, item, module
        self.public = False
        self.clauses, self.params, self.result = [], {}, ""
        self.owner = None  # the impl or trait


class Owner:
    """An impl or a trait: its ghost names, imports and functions."""

    def __init__(self, module, kind):
        self.module, self.kind = module, kind
        self.generics, self.ghost, self.items, self.functions = Generics(), Imports(), {}, {}
        self.type, self.trait, self.bounds, self.text = "", "", "", None


KEYWORD = re.compile(
    r"(pub(?:\([^)]*\))?\s+)?(?:(?:default|final|unsafe|async|extern\s*(?:\"[^\"]*\")?)\s+)*"
    r"(ghost\s+use|use|mod|struct|enum|trait|impl|const\s+fn|fn|const|static|type|ghost|macro_rules!|extern)\b"
)


class RustFile:
    """A file of Rust, whose items it puts into its module."""

    def __init__(self, world, module):
        self.world = world
        self.text = module.path.read_text(encoding="utf-8")
        self.code = blanked(self.text)
        self.starts = [0]
        for found in re.finditer("\n", self.text):
            self.starts.append(found.end())
        self.lines = self.text.split("\n")
        self.exported = False  # whether an attribute gives the next item to C
        self.region(module, 0, len(self.code))

    def line(self, at):
        return bisect.bisect_right(self.starts, at)

    def item(self, module, name, kind, frm, to):
        """An item of what stands there, without its comments and attributes."""
        first, last = self.line(frm), self.line(to - 1)
        item = Item(module.crate, module.path, first, name, kind)
        for number in range(first, last + 1):
            shown = self.lines[number - 1]
            if re.match(r"\s*#!?\[", shown):
                continue
            item.shown.append((number, shown))
            if shown.strip() and not shown.strip().startswith("//"):
                item.code.append((number, shown))
        above = first - 1
        while above > 0 and re.match(r"\s*(//|#\[)", self.lines[above - 1]):
            if self.lines[above - 1].strip().startswith("//"):
                item.comment.insert(0, self.lines[above - 1].strip())
            above -= 1
        return item

    def region(self, module, at, end, owner=None):
        while True:
            gap = re.compile(r"\s*").match(self.code, at, end)
            at = gap.end()
            if at >= end:
                return
            if self.code[at] == "#":
                behind = closing(self.code, self.code.index("[", at)) + 1
                self.exported = self.exported or "no_mangle" in self.code[at:behind]
                at = behind
                continue
            if self.code[at] in ";,}":
                at += 1
                continue
            found = KEYWORD.match(self.code, at, end)
            if not found:
                # A call of a macro among items.
                macro = re.compile(r"[\w:]+!\s*\w*\s*").match(self.code, at, end)
                if not macro:
                    raise Missing(f"{module.path.relative_to(ROOT)}:{self.line(at)}: an item that isn't understood: {self.code[at : at + 60]!r}")
                at = closing(self.code, macro.end()) + 1
                continue
            public = (found.group(1) or "").strip()
            keyword = re.sub(r"\s+", " ", found.group(2))
            at = getattr(self, "at_" + keyword.replace(" ", "_").replace("!", ""))(module, owner, at, found.end(), public)
            self.exported = False

    def ends(self, at):
        """The place behind the item that goes on here: behind its ; or its braces."""
        while self.code[at] not in ";{":
            at = closing(self.code, at) + 1 if self.code[at] in "([" else at + 1
        return at + 1 if self.code[at] == ";" else closing(self.code, at) + 1

    def statement(self, at):
        """The place of the ; that ends it."""
        while self.code[at] != ";":
            at = closing(self.code, at) + 1 if self.code[at] in PAIRS else at + 1
        return at

    def at_ghost_use(self, module, owner, frm, at, public):
        end = self.statement(at)
        (owner or module).ghost.read("use " + " ".join(self.code[at:end].split()))
        return end + 1

    def at_use(self, module, owner, frm, at, public):
        end = self.statement(at)
        for path, name in self.used("".join(self.code[at:end]).strip()):
            if name == "*":
                module.globs.append((path, bool(public)))
            else:
                module.uses[name] = path
                if public == "pub":
                    module.public.add(name)
        return end + 1

    def used(self, text, before=()):
        text = text.strip()
        if "{" in text:
            head, inside = text[: text.index("{")], text[text.index("{") + 1 : text.rindex("}")]
            path = before + tuple(it.strip() for it in head.split("::") if it.strip())
            for part in parts_of(inside):
                yield from self.used(part, path)
            return
        text, _, alias = text.partition(" as ")
        path = before + tuple(it.strip() for it in text.split("::") if it.strip())
        if path[-1] == "self":
            path = path[:-1]
        yield (path[:-1], "*") if path[-1] == "*" else (path, alias.strip() or path[-1])

    def at_mod(self, module, owner, frm, at, public):
        name = re.compile(r"\s*(\w+)\s*").match(self.code, at)
        inner = name.group(1)
        if public == "pub":
            module.public.add(inner)
        if self.code[name.end()] == ";":
            # The module's file is found by its place.
            base = module.path.parent if module.path.stem in ("lib", "main", "mod") else module.path.parent / module.path.stem
            for path in (base / f"{inner}.rt", base / inner / "mod.rt"):
                if path.exists():
                    module.modules[inner] = self.world.rust_module(module.crate, path, module.names + (inner,))
                    break
            return name.end() + 1
        end = closing(self.code, name.end())
        module.modules[inner] = self.world.modules[module.crate, module.names + (inner,)] = Module(module.crate, module.path, module.names + (inner,))
        inside = module.modules[inner]
        self.region(inside, name.end() + 1, end)
        return end + 1

    def at_struct(self, module, owner, frm, at, public):
        name = re.compile(r"\s*(\w+)").match(self.code, at)
        behind, generics = after_generics(self.code, name.end())
        end = self.ends(behind)
        if self.code[end - 1] == ")":
            end = self.statement(end) + 1
        body = self.code[behind:end]
        kind = self.code[frm : name.end()].split()[-2]
        item = self.item(module, name.group(1), kind, frm, end)
        item.module, item.generics, item.public = module, Generics(generics), public == "pub"
        item.body, item.variants = body, set()
        item.model = item.written = None
        if kind == "enum":
            inside = body[body.index("{") + 1 : body.rindex("}")]
            for part in parts_of(re.sub(r"#\[[^\]]*\]", "", inside)):
                item.variants.add(re.match(r"\w+", part).group())
        item.fill = lambda names: self.world.fill_type(item, names)
        module.items[item.name] = item
        if public == "pub":
            module.public.add(item.name)
        return end

    at_enum = at_struct

    def at_type(self, module, owner, frm, at, public):
        end = self.statement(at)
        head, _, value = self.code[at:end].partition("=")
        name = re.match(r"\s*(\w+)", head)
        generics = Generics(after_generics(head, name.end())[1])
        name = name.group(1)
        if owner is None:
            item = self.item(module, name, "alias", frm, end + 1)
            item.module, item.generics, item.public, item.variants, item.model = module, generics, public == "pub", set(), None
            item.value = value
            item.fill = lambda names: self.world.types(value, module, generics, names)
            module.items[name] = item
            if public == "pub":
                module.public.add(name)
        return end + 1

    def at_const(self, module, owner, frm, at, public):
        end = self.statement(at)
        name = re.compile(r"\s*(?:mut\s+)?(\w+)").match(self.code, at).group(1)
        item = self.item(module, name, "const", frm, end + 1)
        item.module, item.variants, item.model = module, set(), None
        if owner is None:
            module.items[name] = item
            if public == "pub":
                module.public.add(name)
        else:
            owner.items[name] = item
        return end + 1

    at_static = at_const

    def at_macro_rules(self, module, owner, frm, at, public):
        return closing(self.code, self.code.index("{", at)) + 1

    def at_extern(self, module, owner, frm, at, public):
        return self.ends(at)

    def at_trait(self, module, owner, frm, at, public):
        name = re.compile(r"\s*(\w+)").match(self.code, at)
        behind, generics = after_generics(self.code, name.end())
        brace = self.code.index("{", behind)
        end = closing(self.code, brace)
        it = Owner(module, "trait")
        item = self.item(module, name.group(1), "trait", frm, self.code.index("\n", brace))
        item.module, item.public, item.variants, item.model, item.owner = module, public == "pub", set(), None, it
        it.text, it.type, it.generics, it.bounds = item, item.name, Generics(generics), self.code[behind:brace].lstrip(" :")
        it.trait = item.name
        module.items[item.name] = item
        if public == "pub":
            module.public.add(item.name)
        module.impls.append(it)
        self.region(module, brace + 1, end, it)
        return end + 1

    def at_impl(self, module, owner, frm, at, public):
        behind, generics = after_generics(self.code, at)
        brace = behind
        while self.code[brace] != "{":
            brace = closing(self.code, brace) + 1 if self.code[brace] in "([" else brace + 1
        head, _, where = self.code[behind:brace].partition(" where ")
        trait, is_for, of = head.partition(" for ")
        it = Owner(module, "impl")
        it.generics = Generics(generics, where)
        it.trait, it.type = (trait.strip(), of.strip()) if is_for else ("", head.strip())
        it.text = self.item(module, it.type, "impl", frm, brace + 1)
        module.impls.append(it)
        end = closing(self.code, brace)
        self.region(module, brace + 1, end, it)
        return end + 1

    def at_ghost(self, module, owner, frm, at, public):
        end = self.statement(at)
        name = re.compile(r"\s*(?:fn\s+)?([\w']+)").match(self.code, at)
        item = self.item(module, name.group(1), "ghost", frm, end + 1)
        item.module, item.variants, item.model = module, set(), None
        text = self.term(name.end(), end)
        item.fill = lambda names: self.world.fill_ghost(item, owner, text, names)
        (owner or module).items[item.name] = item
        return end + 1

    def term(self, frm, to):
        """The words of what stands in the braces there; quoted texts stay one word."""
        inside = self.text[frm:to]
        brace = inside.find("{")
        inside = inside[brace + 1 : inside.rindex("}")]
        first = self.line(frm + brace + 1)
        return words([(first + n, bare(line, "//")) for n, line in enumerate(inside.split("\n"))])

    def at_fn(self, module, owner, frm, at, public):
        name = re.compile(r"\s*(\w+)").match(self.code, at)
        behind, generics = after_generics(self.code, name.end())
        open_at = self.code.index("(", behind)
        close = closing(self.code, open_at)
        to = close + 1
        contract = re.compile(r"\b(requires|ensures)\s*\*?\s*([\w']*)\s*(?=\{)")
        header = to
        while self.code[to] not in "{;" and not contract.match(self.code, to):
            to = closing(self.code, to) + 1 if self.code[to] in "([" else to + 1
        returned, _, where = self.code[header:to].partition(" where ")
        function = Function(name.group(1), None, module)
        function.generics, function.owner, function.exported = Generics(generics, where), owner, self.exported
        function.public = public == "pub" or owner is not None and bool(owner.trait)
        function.result = returned.strip().removeprefix("->").strip()
        for part in parts_of(self.code[open_at + 1 : close]):
            part = re.sub(r"#\[[^\]]*\]\s*", "", part)
            if re.match(r"(&\s*('\w+\s+)?)?(mut\s+)?self\b", part):
                function.params["self"] = "Self"
            else:
                pattern, _, of = part.partition(":")
                for one in re.findall(r"\w+", pattern):
                    if one not in ("mut", "ref"):
                        function.params[one] = of.strip()
        last = to
        count = 0
        while True:
            found = re.compile(r"\s*" + contract.pattern).match(self.code, last)
            if not found:
                break
            end = closing(self.code, found.end())
            begin = found.start(1)
            count += 1
            clause = self.item(module, found.group(2) or f"{found.group(1)} {count}", "clause", begin, end + 1)
            clause.comment = []
            clause.label, clause.function = found.group(2), function
            text = self.term(found.end(), end + 1)
            clause.fill = lambda names, text=text: self.world.fill_clause(function, text, names)
            function.clauses.append(clause)
            last = end + 1
        function.item = self.item(module, function.name, "function", frm, len(self.code[:to].rstrip()))
        (owner or module).functions[function.name] = function
        if owner is None and public == "pub":
            module.public.add(function.name)
        at = re.compile(r"\s*").match(self.code, last).end()
        return at + 1 if self.code[at] == ";" else closing(self.code, at) + 1

    at_const_fn = at_fn
