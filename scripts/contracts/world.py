"""Each crate of the repository: what a name of a clause, a definition or a type means there, and what all that leads to."""

import re

from contracts.definitions import CONSTRUCTORS, ROOT, Finder, Item, Missing, SpecFile, Walk, find_imported, is_imported_constructor, words
from contracts.rust import PATH, Function, Generics, Module, RustFile, parts_of

# What a clause may say of a call without naming it first.
OF_A_CALL = set("self result Self".split())
# Names of Rust that each module has.
RUST = set("bool char str u8 u16 u32 u64 u128 usize i8 i16 i32 i64 i128 isize f32 f64".split())
PRELUDE = set(
    "Vec String Box Option Some None Result Ok Err Drop Clone Copy Iterator IntoIterator Into From Fn FnMut FnOnce Send Sync Sized "
    "AsRef ToString Default PartialEq Eq PartialOrd Ord Debug Display Hash Extend Abort HostRuntime".split()
)


class World:
    """Each crate of the repository."""

    def __init__(self):
        listed = (ROOT / "crates.txt").read_text(encoding="utf-8").split("\n")
        names = [re.split(r"[ :]", line)[0] for line in listed if line.strip() and not line.startswith("#")]
        self.order = {name: at for at, name in enumerate(names)}
        self.specs, self.modules, self.roots, self.errors = {}, {}, {}, []
        for crate in names:
            base = ROOT / "crates" / crate
            for path in sorted((base / "specs").rglob("*.antt")):
                inside = path.relative_to(base / "specs").with_suffix("").parts
                module = ".".join(("Rattle", crate, "specs", *(inside[:-1] if inside[-1] == "Lib" else inside)))
                self.specs[module] = SpecFile(self, crate, path, module)
            for root in ("lib", "main"):
                path = base / "src" / f"{root}.rt"
                if path.exists():
                    self.roots[crate] = self.rust_module(crate, path, ())
        for module in list(self.modules.values()):
            for it in module.impls:
                self.place(it)

    def rust_module(self, crate, path, names):
        module = self.modules[crate, names] = Module(crate, path, names)
        RustFile(self, module)
        return module

    def place(self, it):
        """Puts a Model with its type, and methods with theirs."""
        if it.kind == "trait":
            it.target = it.text
            return
        head = PATH.search(it.type)
        it.target = None
        if it.type.startswith("(") or not head:
            return
        try:
            it.target = self.rust(head.group().split("::"), it.module)
        except Missing:
            return
        if isinstance(it.target, Item) and it.trait == "Model":
            it.target.model = it

    # ---- names of definitions

    def below(self, module, parts):
        """The module that these parts lead to from this one, and the name in it."""
        while len(parts) > 1 and f"{module}.{parts[0]}" in self.specs:
            module, parts = f"{module}.{parts[0]}", parts[1:]
        return module, parts[0]

    def passed_on(self, module, name):
        """The module where a name is from, behind each `pub use` that passes it on, and its name there."""
        known = []
        while (module, name) not in known:
            known.append((module, name))
            file = self.specs.get(module)
            if file is None or file.own(name) or name not in file.imports.public:
                return module, name
            module, name = file.imports.source(name)
        raise Missing(f"{module}.{name}")

    def of_module(self, module, name):
        """The item of this name in a module of definitions: one of the repository, or a name of the toolchain."""
        module, name = self.passed_on(module, name)
        parts = module.split(".")
        if parts[0] != "Rattle" or parts[1] not in self.order:
            return (module, name)
        if parts[2:3] == ["proofs"]:
            return None
        if parts[3:4] == ["declared"]:
            return self.declared(parts[1], parts[4:], name, module)
        if parts[3:4] == ["contracts"]:
            # What the toolchain makes of a type: how it lies in memory, or what it derives.
            try:
                return self.declared(parts[1], parts[4:] + ["TheInside"], name, module)
            except Missing:
                return (module, name)
        found = self.specs[module].own(name) if module in self.specs else None
        if found is None:
            raise Missing(f"{module}.{name}")
        return found

    def declared(self, crate, path, name, module):
        names = [part for part in path if part not in ("TheVariants", "TheInside", "TheOpen", "TheConstants")]
        if path[-1] == "TheConstants":
            names.append(name)
        if len(names) == 0:
            return self.in_module(self.roots[crate], name)
        inside = self.roots[crate]
        for at, part in enumerate(names[:-1]):
            if part not in inside.modules:
                raise Missing(f"{module}.{name}")
            inside = inside.modules[part]
        if names[-1] in inside.modules and name in inside.modules[names[-1]].items and names[-1] not in inside.items:
            return inside.modules[names[-1]].items[name]
        item = inside.items.get(names[-1])
        if item is None or path[-1] == "TheVariants" and name not in item.variants:
            raise Missing(f"{module}.{name}")
        return self.inside_of(item) if path[-1] in ("TheInside", "TheOpen") else item

    def inside_of(self, item):
        """A type as it is written, whatever its Model."""
        if item.model is None:
            return item
        if item.written is None:
            item.written = Item(item.crate, item.path, item.line, item.name, item.kind)
            item.written.code, item.written.comment, item.written.shown = item.code, item.comment, item.shown
            item.written.fill = lambda names: self.fill_fields(item, names)
        return item.written

    def is_constructor(self, module, name):
        try:
            module, name = self.passed_on(module, name)
        except Missing:
            return False
        parts = module.split(".")
        if parts[-1] in ("TheVariants", "TheOpen"):
            return True
        if module in self.specs:
            return name in self.specs[module].constructors
        if parts[0] == "Rattle" and parts[1] in self.order:
            return False
        return name in CONSTRUCTORS or name[0].isupper() or name in ("[]", "◌∷◌")

    # ---- names of Rust

    def rust(self, parts, module, deep=0):
        """What a path means in a module: an item, a module, or a name of the toolchain."""
        head = parts[0]
        if deep > 20:
            raise Missing("::".join(parts))
        if head in ("crate", "self", "super"):
            inside = self.roots[module.crate] if head == "crate" else module
            if head == "super":
                inside = self.modules[module.crate, module.names[:-1]]
            return self.inside(inside, parts[1:], deep + 1)
        if head in module.items or head in module.modules or head in module.functions:
            return self.inside(module, parts, deep + 1)
        if head in module.uses:
            path = list(module.uses[head]) + list(parts[1:])
            if path[0] == head and head not in self.roots and head not in module.modules:
                return ("Rust", "::".join(path))
            return self.rust(path, self.outer(module, path), deep + 1)
        if head in self.roots:
            return self.inside(self.roots[head], parts[1:], deep + 1)
        for path, _ in module.globs:
            try:
                found = self.rust(list(path) + list(parts), self.outer(module, path), deep + 1)
                if not isinstance(found, tuple):
                    return found
            except Missing:
                pass
        if head in RUST:
            return None
        if head in PRELUDE or len(parts) > 1:
            return ("Rust", "::".join(parts))
        for path, _ in module.globs:
            if path[0] not in self.roots and path[0] not in ("crate", "self", "super") and path[0] not in module.modules:
                return ("Rust", "::".join((*path, head)))
        raise Missing("::".join(parts))

    def outer(self, module, path):
        """A path of a use line begins in the module, or with a crate."""
        return module if path[0] in ("crate", "self", "super") or path[0] in module.modules else Module(module.crate, module.path, module.names)

    def inside(self, module, parts, deep):
        if not parts:
            return module
        head = parts[0]
        if head in module.items:
            return module.items[head]
        if head in module.modules:
            return self.inside(module.modules[head], parts[1:], deep)
        if head in module.functions:
            return module.functions[head]
        if head in module.uses:
            return self.rust(list(module.uses[head]) + list(parts[1:]), self.outer(module, module.uses[head]), deep + 1)
        for path, _ in module.globs:
            try:
                return self.rust(list(path) + list(parts), self.outer(module, path), deep + 1)
            except Missing:
                pass
        raise Missing("::".join(parts))

    def in_module(self, module, name):
        return self.inside(module, [name], 0)

    def types(self, text, module, generics, names, owner=None):
        """The types that a type names."""
        text = re.sub(r"'\w+", "", text)
        for path in PATH.findall(text):
            parts = path.split("::")
            if parts[0] in ("dyn", "mut", "const", "impl", "for", "fn", "where", "as", "pub", "crate", "in"):
                continue
            if parts[0] in generics.bounds:
                continue
            if parts[0] == "Self":
                if owner is not None:
                    names.add(owner.target if isinstance(owner.target, Item) else None)
                continue
            try:
                found = self.rust(parts, module)
            except Missing:
                names.missing.append(path)
                continue
            names.add(found if isinstance(found, (Item, tuple)) else None)

    def fill_type(self, item, names):
        """What contracts see of a Rust type: its Model's value and view, or its fields."""
        model = item.model
        if model is not None:
            for name in ("Value", "view"):
                ghost = model.items.get(name)
                if ghost is not None:
                    for found in ghost.names().items:
                        names.add(found)
                    for found in ghost.names().outside:
                        names.add(found)
                    names.missing += ghost.names().missing
            return
        self.fill_fields(item, names)

    def fill_fields(self, item, names):
        body = re.sub(r"#\[[^\]]*\]", "", item.body)
        inside = body[body.index("{") + 1 : body.rindex("}")] if "{" in body else body[body.index("(") + 1 : body.rindex(")")] if "(" in body else ""
        for part in parts_of(inside):
            if item.kind == "enum":
                part = re.sub(r"^\w+", "", part).strip()
                for field in parts_of(part[1:-1]) if part[:1] in ("(", "{") else []:
                    self.types(field.partition(":")[2] if part[0] == "{" else field, item.module, item.generics, names)
            elif re.match(r"(pub(\([^)]*\))?\s+)?ghost\b", part):
                inner = part[part.index("{") + 1 : part.rindex("}")]
                walk = self.rust_walk(item.module, None, item.generics, {}, names)
                walk.frames[0] |= set(re.findall(r"(\w+)\s*:", inside))
                walk.term(words([(item.line, inner)]))
            elif "{" in body:
                self.types(part.partition(":")[2], item.module, item.generics, names)
            else:
                self.types(re.sub(r"^pub(\([^)]*\))?\s+", "", part), item.module, item.generics, names)

    def rust_walk(self, module, owner, generics, params, names):
        """A walk over a term that stands in Rust: in a clause, or in a ghost item."""
        spoken = set()

        def find(parts):
            head = parts[0]
            if head.startswith("⟦"):
                self.types(head, module, generics, names, owner)
                return
            if head in params or head in OF_A_CALL:
                spoken.add(head)
                if head == "Self" and owner is not None and len(parts) > 1:
                    yield from self.of_trait(owner, parts[1], module)
                return
            if head in generics.bounds:
                if len(parts) > 1:
                    yield from self.of_bounds(generics.bounds[head], parts[1], module)
                return
            if owner is not None and head in owner.items:
                yield owner.items[head]
                return
            if owner is not None and (head in owner.ghost.names or head in owner.ghost.modules):
                yield from find_imported(self, owner.ghost, parts)
                return
            if head in module.ghost.names or head in module.ghost.modules:
                yield from find_imported(self, module.ghost, parts)
                return
            if owner is not None and owner.kind == "trait":
                try:
                    yield from self.of_trait(owner, head, module)
                    return
                except Missing:
                    pass
            if head == "crate" and parts[1:2] == ["proofs"]:
                return
            for imports in [owner.ghost if owner else None, module.ghost]:
                if imports is not None:
                    try:
                        yield from find_imported(self, imports, [head])
                        return
                    except Missing:
                        pass
            if not re.match(r"[A-Za-z_]", head):
                raise Missing(head)
            found = self.rust(parts[:1], module)
            yield found.item if isinstance(found, Function) else found if isinstance(found, (Item, tuple)) else None

        def is_constructor(parts):
            for imports in [owner.ghost if owner else None, module.ghost]:
                if imports is not None and is_imported_constructor(self, imports, parts):
                    return True
            return False

        walk = Walk(Finder(find, is_constructor), names)
        walk.spoken = spoken
        return walk

    def of_trait(self, owner, name, module):
        """A ghost name of a trait, or of one that it stands on."""
        if name in owner.items:
            yield owner.items[name]
            return
        yield from self.of_bounds([owner.bounds] if owner.kind == "trait" else [owner.trait], name, owner.module)

    def of_bounds(self, bounds, name, module):
        outside = None
        for bound in bounds:
            for path in PATH.findall(re.sub(r"<.*>", "", bound)):
                try:
                    found = self.rust(path.split("::"), module)
                except Missing:
                    continue
                if isinstance(found, Item) and found.kind == "trait":
                    try:
                        yield from self.of_trait(found.owner, name, found.module)
                        return
                    except Missing:
                        continue
                outside = outside or found
        if not isinstance(outside, tuple):
            if any(not bound.strip() for bound in bounds):
                yield ("Rust", name)  # of any type, as `row`
                return
            raise Missing(name)
        yield (outside[0], f"{outside[1]}.{name}")

    def fill_ghost(self, item, owner, text, names):
        generics = owner.generics if owner else Generics()
        walk = self.rust_walk(item.module, owner, generics, {}, names)
        walk.term(text)

    def fill_clause(self, function, text, names):
        owner = function.owner
        generics = function.generics.over(owner.generics) if owner else function.generics
        walk = self.rust_walk(function.module, owner, generics, function.params, names)
        walk.term(text)
        for name in sorted(walk.spoken):
            of = function.result if name == "result" and "result" not in function.params else function.params.get(name, "Self" if name == "Self" else "")
            self.types(of, function.module, generics, names, owner)

    # ---- what is public

    def functions(self):
        """Each function, with its name as others call it."""
        for module in self.modules.values():
            for function in module.functions.values():
                yield "::".join((module.crate, *module.names, function.name)), function
            for it in module.impls:
                head = PATH.search(it.type)
                of = it.target.name if isinstance(it.target, Item) else head.group() if head else it.type
                for function in it.functions.values():
                    yield f"{module.crate}::{of}::{function.name}", function

    def open_items(self):
        """Each item that another crate can name."""
        if hasattr(self, "_open"):
            return self._open
        seen, found, todo = set(), set(), list(self.roots.values())
        while todo:
            module = todo.pop()
            if id(module) in seen:
                continue
            seen.add(id(module))
            for name in module.public:
                try:
                    it = self.in_module(module, name)
                except Missing:
                    self.errors.append(f"{module.path.relative_to(ROOT)}: {name}")
                    continue
                if isinstance(it, Module):
                    todo.append(it)
                elif not isinstance(it, tuple):
                    found.add(it)
            for path, public in module.globs:
                if public:
                    it = self.rust(list(path), self.outer(module, path))
                    if isinstance(it, Module):
                        todo.append(it)
                    elif isinstance(it, Item):
                        found.add(it)
        self._open = found
        return found

    def is_public(self, function):
        if not function.public:
            return False
        if function.owner is None:
            return function.exported or function in self.open_items()
        target = function.owner.target
        return not isinstance(target, Item) or target in self.open_items()

    def public_items(self):
        """What a caller may rest on: the clauses of public functions, and the ghost names of public traits and of their impls."""
        for _, function in self.functions():
            if self.is_public(function):
                yield from function.clauses
        for module in self.modules.values():
            for it in module.impls:
                target = it.target
                if it.trait != "Model" and (not isinstance(target, Item) or target in self.open_items()):
                    yield from (item for item in it.items.values() if item.kind == "ghost")
        yield from (it for it in self.open_items() if isinstance(it, Item))

    # ---- promises

    def promise(self, name):
        """The items that a name of a promise or of a definition stands for, and the name to print."""
        if "::" in name:
            path, _, clause = name.partition(".")
            all_found = {}
            for full, function in self.functions():
                crate, _, rest = path.partition("::")
                meant = full == path or full.endswith("::" + path) or full.startswith(crate + "::") and full.endswith("::" + rest)
                if meant and function.clauses:
                    all_found.setdefault(id(function), (full, function))
            found = list(all_found.values())
            public = [it for it in found if self.is_public(it[1])]
            found = public or found
            exact = [it for it in found if it[0] == path]
            found = exact or found
            if not found:
                raise SystemExit(f"believe: no function {path} has a contract")
            if len(found) > 1:
                raise SystemExit(f"believe: {path} may be " + ", ".join(sorted(f"{it[0]} ({it[1].item.where()})" for it in found)))
            clauses = found[0][1].clauses
            if clause:
                clauses = [it for it in clauses if it.label == clause]
                if not clauses:
                    raise SystemExit(f"believe: {path} has no clause {clause}")
            return clauses
        crate, _, word = name.rpartition("/")
        crate, _, file = crate.partition("/")
        found = []
        for spec in self.specs.values():
            inside = spec.path.relative_to(ROOT / "crates" / spec.crate / "specs").with_suffix("").as_posix()
            if crate in ("", spec.crate) and file in ("", inside) and word in spec.items:
                found.append(spec.items[word])
        for module in self.modules.values():
            if crate in ("", module.crate) and not file and word in module.items:
                found.append(module.items[word])
        if not found:
            raise SystemExit(f"believe: no definition has the name {name}")
        if len(found) > 1:
            raise SystemExit(f"believe: {name} may be " + ", ".join(f"{it.crate}/{it.path.stem}/{word} ({it.where()})" for it in found))
        return found

    def closure(self, roots):
        """All items that these lead to, themselves included where they are no clauses."""
        seen, todo = {}, list(roots)
        while todo:
            item = todo.pop()
            if item not in seen:
                seen[item] = True
                todo.extend(item.names().items)
        return list(seen)

    def place_of(self, item):
        return (self.order[item.crate], str(item.path), item.line)

    def in_order(self, items):
        """Those first that others stand on; a file stays together where it can, and so do the files of a crate."""
        items = sorted(items, key=self.place_of)
        inside = set(items)
        files = {}
        for item in items:
            files.setdefault(item.path, []).append(item)
        needs = {item: sorted((it for it in item.names().items if it in inside), key=self.place_of) for item in items}
        above = {item: set(self.closure([item])) for item in items}
        done, open_items, open_files, found = set(), set(), set(), []

        def put(item):
            if item in done or item in open_items:
                return
            open_items.add(item)
            mutual = [it for it in needs[item] if item in above[it]]
            for it in needs[item]:
                if it not in done and it.path not in open_files:
                    put_file(it.path)
                if it not in mutual:
                    put(it)
            open_items.discard(item)
            done.add(item)
            found.append(item)
            for it in mutual:
                put(it)

        def put_file(path):
            open_files.add(path)
            for item in files[path]:
                # What stands on something that is only being put comes later.
                if not above[item] & open_items:
                    put(item)
            open_files.discard(path)

        for path in files:
            put_file(path)
        return found

    def missing(self, items):
        told = []
        for item in items:
            for name in item.names().missing:
                told.append(f"{item.where()}: {item.name}: {name} isn't found")
        return told
