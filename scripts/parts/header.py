"""Whether include/nozzlefern.h is what crates/osc_c exports, and c/words.c and c/keep.c define.

It compares each call with its arguments and what it returns, and that a call takes its handle as const where its clause is that it only looks; each
structure with its fields, the size that a first member is to have, and the one without the members that may be left out; the numbers that calls answer,
those of reasons, of results and of methods; and the limits. No call may have more than six arguments. The version is that of the program, and each soname in
the header and on a page has the number of the ABI.
"""

import re

from parts.shared import ROOT, Wrong, own, pages, read

HEADER = ROOT / "include/nozzlefern.h"
CRATE = ROOT / "crates/osc_c/src"
OF_C = (ROOT / "c/words.c", ROOT / "c/keep.c")
SIZES = ROOT / "crates/osc_c/specs/Given.antt"
SHORT_SIZES = ROOT / "crates/osc_c/specs/Filled.antt"
PROGRAM = ROOT / "crates/osc_words/src/command.rt"
NUMBERS = ROOT / "crates/osc_model/src/refusals.rt"
CODES = ROOT / "crates/osc_model/src/code.rt"
NUMBERS_ONCE = ROOT / "crates/osc_model/src/limits.rt"

MOST_ARGUMENTS = 6
LEFT_OUT = "/* may be left out */"
PLAIN = {"u8": "uint8_t", "u16": "uint16_t", "u32": "uint32_t", "u64": "uint64_t", "i32": "int32_t", "usize": "size_t"}
WIDTHS = {"uint8_t": 1, "uint16_t": 2, "uint32_t": 4, "uint64_t": 8, "int32_t": 4, "size_t": 8, "const void *": 8}

# Where a limit is a number of the crates: its name there.
LIMITS = {
    "NZF_DATAGRAM_MAX": "DATAGRAM_LIMIT",
    "NZF_SEGMENT_MAX": "LONGEST_SEGMENT",
    "NZF_PAYLOAD_MAX": "LONGEST_PAYLOAD",
    "NZF_ID_MAX": "LONGEST_ID",
    "NZF_SECRET_MAX": "LONGEST_PART",
    "NZF_SALT_MAX": "LONGEST_PART",
    "NZF_CONTEXT_MAX": "LONGEST_PART",
    "NZF_HOST_MAX": "LONGEST_HOST",
}


def without_comments(text):
    text = re.sub(r"/\*.*?\*/", lambda found: " " + "\n" * found.group().count("\n"), text, flags=re.S)
    return re.sub(r"//[^\n]*", "", text)


def snake(name):
    return re.sub(r"(?<!^)([A-Z])", r"_\1", name).lower()


def c_name(rust):
    """The name in C of a type of the crate: PlainPeer is nzf_peer, DeviceHandle is nzf_device."""
    rust = re.sub(r"<'\w+>", "", rust)
    if rust in PLAIN:
        return PLAIN[rust]
    for shape in (r"Plain(\w+)$", r"(\w+)Handle$"):
        found = re.match(shape, rust)
        if found:
            return "nzf_" + snake(found.group(1))
    raise Wrong(f"{own(CRATE)}: {rust} has no name in C")


def c_of(rust, looks):
    """The types in C of one argument; `looks` is whether the call leaves what is held as it was."""
    rust = re.sub(r"&'\w+\s+", "&", rust.strip())
    if rust == "Global":
        return []
    if rust == "&[u8]":
        return ["const void *", "size_t"]
    if rust == "&mut [u8]":
        return ["void *", "size_t"]
    row = re.match(r"&\[(Plain\w+)(?:<'\w+>)?\]$", rust)
    if row:
        return ["const " + c_name(row.group(1)) + " *", "size_t"]
    if rust.startswith("&mut "):
        is_const = looks and rust.endswith("Handle")
        return [("const " if is_const else "") + c_name(rust[5:]) + " *"]
    if rust.startswith("&"):
        return ["const " + c_name(rust[1:]) + " *"]
    return [c_name(rust)]


def between(text, start):
    """What stands in the parentheses that open at this place."""
    depth, at = 1, start
    while depth:
        depth += {"(": 1, ")": -1}.get(text[at], 0)
        at += 1
    return text[start : at - 1], at


def split(text):
    parts, depth, part = [], 0, ""
    for char in text:
        depth += {"(": 1, "[": 1, "<": 1, ")": -1, "]": -1, ">": -1}.get(char, 0)
        if char == "," and depth == 0:
            parts.append(part)
            part = ""
        else:
            part += char
    return [p.strip() for p in parts + [part] if p.strip()]


def prototypes_in(text, end):
    calls = {}
    for found in re.finditer(r"\b(int32_t|uint32_t|void|const char \*) ?(nzf_\w+)\(([^)]*)\)" + end, text):
        back, name, args = found.groups()
        types = []
        for arg in split(args):
            if arg == "void":
                continue
            kind = re.match(r"((?:const )?\w+) (\*?)\w+$", arg)
            if not kind:
                raise Wrong(f"{place(name)}: {arg} is not read")
            types.append(kind.group(1) + (" *" if kind.group(2) else ""))
        calls[name] = (back.strip(), types)
    return calls


def exported():
    calls = {}
    for file in sorted(CRATE.rglob("*.rt")):
        text = without_comments(read(file))
        for found in re.finditer(r'#\[unsafe\(no_mangle\)\]\s*pub extern "C" fn (\w+)\(', text):
            args, end = between(text, found.end())
            looks = re.match(r"\s*(?:-> \w+)?\s*ensures { Looks(?:Where)? ", text[end:]) is not None
            types = []
            for arg in split(args):
                types += c_of(arg.split(":", 1)[1], looks)
            back = re.match(r"\s*->\s*(\w+)", text[end:])
            calls[found.group(1)] = (PLAIN[back.group(1)] if back else "void", types)
    for file in OF_C:
        calls.update(prototypes_in(without_comments(read(file)), r" \{"))
    return calls


def declared(header):
    return prototypes_in(header, r"(?: NZF_CALL| NZF_ANSWER| NZF_POINTERS)?;")


def fields_of(rust):
    fields = []
    for field in split(rust):
        name, kind = re.match(r"(?:pub(?:\([^)]*\))? )?(\w+): (.*)$", field).groups()
        kind = re.sub(r"&'\w+\s+", "&", kind)
        row = re.match(r"\[(\w+); (\d+)\]$", kind)
        if kind == "&[u8]":
            fields += [(name, "const void *", 0), ("length", "size_t", 0)]
        else:
            fields.append((name, c_name(row.group(1)) if row else c_name(kind), int(row.group(2)) if row else 0))
    return fields


def structures_made():
    made = {}
    for file in sorted(CRATE.rglob("*.rt")):
        text = without_comments(read(file))
        for found in re.finditer(r"#\[repr\(C\)\]\s*(?:#\[[^\]]*\]\s*)*pub struct (Plain\w+)(?:<'\w+>)? \{(.*?)\n\}", text, flags=re.S):
            made[c_name(found.group(1))] = fields_of(found.group(2))
    return made


def structures_declared(header):
    made = {}
    for found in re.finditer(r"typedef struct (nzf_\w+) \{(.*?)\} \1;", header, flags=re.S):
        fields = []
        for field in found.group(2).split(";"):
            if field.strip():
                kind, name, row = re.match(r"((?:const )?\w+ ?\*?) ?(\w+)(?:\[(\d+)\])?$", field.strip()).groups()
                fields.append((name, kind.strip(), int(row or 0)))
        made[found.group(1)] = fields
    return made


def layout(name, made):
    """The size and the alignment of a structure, where a pointer has 8 bytes."""
    size, most = 0, 1
    for _, kind, row in made[name]:
        width, align = (WIDTHS[kind], WIDTHS[kind]) if kind in WIDTHS else layout(kind, made)
        size = (size + align - 1) // align * align + width * (row or 1)
        most = max(most, align)
    return (size + most - 1) // most * most, most


def sizes_of(made):
    return {name: layout(name, made)[0] for name, fields in made.items() if fields[0][0] == "size"}


def short_sizes_of(header):
    """The sizes of the structures of the whole header without what may be left out."""
    return sizes_of(structures_declared(without_comments(re.sub(re.escape(LEFT_OUT) + r".*?(?=\n\} nzf_\w+;)", "", header, flags=re.S))))


def short_sizes(header):
    """Those of them that leave out something."""
    whole = sizes_of(structures_declared(without_comments(header)))
    return {name: size for name, size in short_sizes_of(header).items() if size != whole[name]}


def short_sizes_said():
    found = re.findall(r"^Is(\w+)Size size = IsEither \w+ (\d+) size$", read(SHORT_SIZES), re.M)
    return {"nzf_" + snake(name): int(size) for name, size in found}


def sizes_said():
    return {"nzf_" + name: int(size) for name, size in re.findall(r"^(\w+)_size = (\d+)$", read(SIZES), re.M)}


def outcomes():
    text = without_comments(read(CRATE / "calls/outcome.rt"))
    numbers = refusals()
    found = {"DONE": int(re.search(r"Outcome::Done => (\d+)", text).group(1))}
    for name, number in re.findall(r"Outcome::(\w+) => refusals::(\w+) as i32", text):
        found[snake(name).upper()] = numbers[number]
    found.update({name: int(number) for name, number in re.findall(r"^const (\w+): i32 = (\d+);", text, re.M)})
    return found


def refusals():
    return {name: int(number) for name, number in re.findall(r"pub const (\w+): u8 = (\d+);", read(NUMBERS))}


def results():
    text = read(CRATE / "calls/results.rt")
    names = {"Made": "MADE", "Unverified": "ENDED", "TimedOut": "TIMED_OUT", "Refused": "REFUSED"}
    made = {names[name]: int(number) for name, number in re.findall(r"ClientResult::(\w+)[^=]*=> bare\((\d+),", text)}
    made["ANSWER"] = int(re.search(r"ClientResult::Answer\(reply\) => \w+ \{\s*what: (\d+)", text).group(1))
    return made


def methods():
    return {name.upper(): int(number) for name, number in re.findall(r"Method::(\w+) => Code\((\d+)\)", read(CODES))}


def enumerated(header, prefix):
    return {name[len(prefix) :]: int(number) for name, number in re.findall(rf"\b({prefix}[A-Z0-9_]+) = (\d+)", header)}


def wrong_limits(header):
    said = dict(re.findall(r"\b(NZF_\w+_MAX) = (\d+)", header))
    numbers = dict(re.findall(r"pub const (\w+): \w+ = ([\d_]+);", read(NUMBERS_ONCE)))
    for name, limit in LIMITS.items():
        if int(numbers.get(limit, "-1").replace("_", "")) != int(said.get(name, -2)):
            yield f"{place(name)}: limit {name}: it isn't {limit} of {NUMBERS_ONCE.relative_to(ROOT)}"


def wrong_versions(header):
    version = re.search(r'\.version\("(\d+)\.(\d+)\.(\d+)"\)', read(PROGRAM))
    major, minor, patch = map(int, version.groups()) if version else (0, 0, 0)
    said, abi = (re.search(rf"^#define {name} (\d+)$", header, re.M) for name in ("NZF_VERSION", "NZF_ABI"))
    if not said or int(said.group(1)) != 10000 * major + 100 * minor + patch:
        yield f"{place('NZF_VERSION')}: NZF_VERSION: it isn't {major}.{minor}.{patch}, the version of {own(PROGRAM)}"
    for file in (HEADER, *pages()):
        for number, line in enumerate(read(file).split("\n"), 1):
            for soname in re.findall(r"libnozzlefern\.so\.(\d+)\b(?!\.\d)", line):
                if not abi or soname != abi.group(1):
                    yield f"{own(file)}:{number}: libnozzlefern.so.{soname}: NZF_ABI is {abi.group(1) if abi else 'none'}"


def place(name):
    """The line of the header that first has a name, its comments left out."""
    for number, line in enumerate(without_comments(read(HEADER)).split("\n"), 1):
        if re.search(rf"\b{name}\b", line):
            return f"{own(HEADER)}:{number}"
    return own(HEADER)


def differences(what, made, said, show, prefix=""):
    for name in sorted(set(made) | set(said)):
        if name not in said:
            yield f"{place(prefix + name)}: {what} {name}: the header has it not"
        elif name not in made:
            yield f"{place(prefix + name)}: {what} {name}: the crate has it not"
        elif made[name] != said[name]:
            yield f"{place(prefix + name)}: {what} {name}: the crate has {show(made[name])}, the header {show(said[name])}"


def faults(only, say):
    whole = read(HEADER)
    header = without_comments(whole)
    calls, prototypes = exported(), declared(header)
    made, said = structures_made(), structures_declared(header)
    handles = {name for name, fields in said.items() if fields == [("held", "void *", 0)]}
    said = {name: fields for name, fields in said.items() if name not in handles}
    answers = re.search(r"typedef enum nzf_outcome \{(.*?)\}", header, re.S).group(1)
    yield from differences("call", calls, prototypes, lambda c: f"{c[0]} ({', '.join(c[1])})")
    for name, (_, types) in prototypes.items():
        if len(types) > MOST_ARGUMENTS:
            yield f"{place(name)}: call {name}: it has {len(types)} arguments"
    yield from differences("structure", made, said, lambda f: "; ".join(f"{k} {n}{f'[{r}]' if r else ''}" for n, k, r in f))
    yield from differences("size of", sizes_said(), sizes_of(made), str)
    yield from differences("short size of", short_sizes_said(), short_sizes(whole), str)
    yield from differences("number", outcomes(), enumerated(answers, "NZF_"), str, "NZF_")
    yield from differences("result", results(), enumerated(header, "NZF_RESULT_"), str, "NZF_RESULT_")
    yield from differences("method", methods(), enumerated(header, "NZF_METHOD_"), str, "NZF_METHOD_")
    known = refusals()
    for name, number in enumerated(header, "NZF_REASON_").items():
        if number != known.get(name, 0 if name == "NONE" else -1):
            yield f"{place('NZF_REASON_' + name)}: reason {name}: it isn't that of the crates"
    yield from wrong_limits(header)
    yield from wrong_versions(header)
    say(f"header: {len(calls)} calls, {len(made)} structures and {len(outcomes())} numbers are those of the crate")
