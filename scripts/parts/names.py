"""Whether each name in `code` on the pages is a name of this repository; each page but CHANGELOG.md.

A word is found where it is a word of the code, the definitions, the scripts or the headers, or a file. `Type::name` is found where a crate
declares both, and `module::name` where a module of this name does. Hexadecimal, numbers and addresses aren't names. A link is found where
its file is there, and has the heading that it names. A block that begins with ```LANGUAGE FILE is a part of that file. The table of the gate is of
runs, and may name a crate that is gone until the next one writes it again: it isn't looked at.

A constant of a crate's module is the only one of its word and value, so that each number is written once; those of tests, rows, benchmarks and the
example are apart.
"""

import functools
import re

from parts.shared import ROOT, lines, own, pages, read

FOLDERS = ("crates", "scripts", "include", "c", "bench", "examples", ".ci", "man", "completion")
FILES = ("crates.txt", "HANDLES")
# Names of the toolchain, of other programs and of standards that the pages speak of.
OUTSIDE = set(
    "unwrap map_err thiserror byteorder BTreeMap HashMap Equivalent Comparable alias grep tail sqlite3 qemu chmod curl git clone "
    "RT_JOBS OPENSSL_ia32cap trusted statements incremental native edhoc sqlite_ lnozzlefern_door door_realloc "
    "journalctl NOPERMISSION StateDirectory bindv6only ifindex nozzlefern::nozzlefern pthread_attr_setstacksize "
    "lakers NotAProtectedMessage std_collections std_heap std_io strsim toml_parser toml_writer toml_datetime serde itoa ryu fast_float rand_pcg rand_xoshiro".split()
)

WORD = re.compile(r"[A-Za-z_][A-Za-z0-9_]*")


def texts():
    for folder in FOLDERS:
        for path in sorted((ROOT / folder).rglob("*")):
            if path.is_file() and "out" not in path.relative_to(ROOT).parts and path.stat().st_size < 2_000_000:
                try:
                    yield path, read(path)
                except UnicodeDecodeError:
                    continue
    for name in FILES:
        yield ROOT / name, read(ROOT / name)


class Known:
    def __init__(self):
        self.words, self.declared, self.modules, self.files, self.folders = set(), {}, {}, set(), set()
        for path, text in texts():
            self.words.update(WORD.findall(text))
            self.files.add(path.name)
            self.folders.update(path.relative_to(ROOT).parts)
            if path.suffix != ".rt":
                continue
            crate = path.relative_to(ROOT).parts[1]
            names = set(re.findall(r"\b(?:fn|struct|enum|trait|type|const|mod|ghost)\s+([A-Za-z_]\w*)", text))
            names.update(re.findall(r"^\s+([A-Z]\w*)(?:,| \{|\(|;)", text, re.M))
            names.update(re.findall(r"^\s+pub(?:\(crate\))? (\w+): ", text, re.M))
            self.declared.setdefault(crate, set()).update(names)
            for module in (path.stem, path.parent.name):
                self.modules.setdefault(module, set()).update(names)

    def path_is(self, parts):
        """Whether names joined by `::` are declared so."""
        head, last = parts[-2], parts[-1]
        if head in self.declared:
            return last in self.declared[head] or last in self.modules
        if last in self.modules.get(head, ()):
            return True
        return any(head in names and last in names for names in self.declared.values())

    def is_file(self, name):
        """Whether there is such a file or folder: in the repository, in a crate, or among the definitions of a crate."""
        places = ("", "crates/", "crates/*/", "crates/*/specs/", "crates/*/specs/*/")
        return name in self.files or any(next(ROOT.glob(place + name), None) for place in places)

    def missing(self, code):
        if re.fullmatch(r"[0-9a-fA-F .:+*x_,-]+", code):
            return
        for word in code.split():
            bare = word.strip("(){}[],;\"'.…")
            if not bare or re.fullmatch(r"[0-9a-f]{6,}|0x[0-9a-f]+|[0-9.:,-]+[a-z]?", bare):
                continue
            inside = bare.strip("/")
            is_file = re.fullmatch(r"[\w./*-]+\.(antt|rt|edit|md|txt|toml|svg|[ch])", bare)
            if bare in self.files or (is_file or "/" in inside) and self.is_file(inside):
                continue
            if is_file:
                yield bare
                continue
            for path in re.findall(r"[A-Za-z_]\w*(?:::[A-Za-z_]\w*)+", bare):
                if path not in OUTSIDE and not self.path_is(path.split("::")):
                    yield path
                    bare = bare.replace(path, " ")
            for name in WORD.findall(bare):
                if len(name) > 2 and not any(name in it for it in (self.words, OUTSIDE, self.folders)) and not re.fullmatch(r"[0-9a-f]+", name):
                    yield name


known = functools.cache(Known)


def anchors(page):
    """The headings of a page as links name them."""
    for _, kind, line in lines(read(page)):
        if kind == "head":
            yield re.sub(r"[^\w\- ]", "", line.lower()).replace(" ", "-")


# The table that scripts/minutes writes.
OF_RUNS = re.compile(r"<!-- gate -->.*?<!-- /gate -->", re.S)


def of_page(page):
    text, name = read(page), own(page)
    for number, _, line in lines(OF_RUNS.sub(lambda found: "\n" * found.group().count("\n"), text)):
        for code in re.findall(r"`([^`]+)`", line):
            for missing in known().missing(code):
                yield f"{name}:{number}: there is no {missing} (`{code}`)"
    for found in re.finditer(r"^```\w+ (\S+)\n(.*?)^```$", text, re.S | re.M):
        file, block = found.groups()
        if not (ROOT / file).exists() or block not in read(ROOT / file) + "\n":
            number = text.count("\n", 0, found.start()) + 1
            yield f"{name}:{number}: {file} has no such part: {block.split(chr(10))[0]}"
    for number, line in enumerate(text.split("\n"), 1):
        for target, anchor in re.findall(r"\]\(([^)#\s]*)(?:#([^)]*))?\)", line):
            at = page.parent / target if target else page
            if "://" in target:
                continue
            if not at.exists():
                yield f"{name}:{number}: there is no file {target}"
            elif anchor and anchor not in anchors(at):
                yield f"{name}:{number}: {target or page.name} has no heading #{anchor}"


# Crates that may have constants of their own.
APART = re.compile(r"osc_(tests_\w+|rows|bench|example)")
CONSTANT = re.compile(r"^(?:pub(?:\(\w+\))? )?const ([A-Z][A-Z0-9_]*): [^=\n]+ = ([^;\n]+);$", re.M)


def value(text):
    """The value of a constant as others may write it: a number in decimal digits, without marks between them."""
    bare = text.replace("_", "")
    return str(int(bare, 0)) if re.fullmatch(r"0[xX][0-9a-fA-F]+|0b[01]+|\d+", bare) else text


def of_constants():
    first = {}
    for path in sorted((ROOT / "crates").glob("*/src/**/*.rt")):
        crate, text = path.relative_to(ROOT).parts[1], read(path)
        if APART.fullmatch(crate):
            continue
        for found in CONSTANT.finditer(text):
            at = f"{own(path)}:{text.count(chr(10), 0, found.start()) + 1}"
            word, its = found[1], value(found[2])
            there = first.setdefault((word, its), at)
            if there != at:
                yield f"{at}: the constant {word} = {its} is at {there} too"


def faults(only, say):
    looked_at = only or [it for it in pages() if it.name != "CHANGELOG.md"]
    for page in looked_at:
        yield from of_page(page)
    if not only:
        yield from of_constants()
        map_of_crates = ROOT / "docs/ARCHITECTURE.md"
        for crate in re.findall(r"^osc\w*", read(ROOT / "crates.txt"), re.M):
            if f"`{crate}`" not in read(map_of_crates) and not crate.startswith("osc_tests_"):
                yield f"{own(map_of_crates)}: it doesn't name the crate {crate}"
    say(f"names: each name is found, on {len(looked_at)} pages")
