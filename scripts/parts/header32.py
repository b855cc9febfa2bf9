"""The header for C as a library for 32 bits has it, made from include/nozzlefern.h.

Sizes are uint64_t, and so is a handle; each structure lies in memory as it does with 64 bits. A pointer in a structure stands before a number of 64 bits, so
that it has room for eight bytes. Assertions in the header say all this of each member, to the compiler that reads it.
"""
import re

from parts.header import WIDTHS, layout, structures_declared, without_comments


def laid_out(header):
    """Of each structure its size and where each member begins, with 64 bits."""
    made = structures_declared(without_comments(header).replace("void *held", "uint64_t held"))
    for name, fields in made.items():
        at, offsets = 0, {}
        for member, kind, row in fields:
            size, align = (WIDTHS[kind], WIDTHS[kind]) if kind in WIDTHS else layout(kind, made)
            at = (at + align - 1) // align * align
            offsets[member] = at
            at += size * (row or 1)
        yield name, layout(name, made)[0], offsets


def assertions(header):
    """Lines that compile only where each structure lies as with 64 bits, in C99 and C++."""
    yield "#define NZF_IS(name, holds) typedef char nzf_is_##name[(holds) ? 1 : -1]"
    for name, size, offsets in laid_out(header):
        short = name.removeprefix("nzf_")
        yield f"NZF_IS(size_of_{short}, sizeof({name}) == {size});"
        yield from (f"NZF_IS({short}_{member}, offsetof({name}, {member}) == {at});" for member, at in offsets.items())
    yield "#undef NZF_IS"


def replaced(text, old, new):
    """The text with `new` for `old`, which it has."""
    if old not in text:
        raise SystemExit(f"header32: the header has no {old!r}")
    return text.replace(old, new)


def header(text):
    """The header for 32 bits."""
    made = re.sub(r"\bsize_t\b", "uint64_t", text)
    made = replaced(made, "{ void *held; }", "{ uint64_t held; }")
    made = replaced(made, "#define NZF_BITS 64\n", "#define NZF_BITS 32\n")
    end = "#ifdef __cplusplus\n}\n#endif\n\n#endif\n"
    said = "/* ---- that each structure lies in memory as the library has it */\n\n" + "\n".join(assertions(text))
    return replaced(made, end, f"{said}\n\n{end}")
