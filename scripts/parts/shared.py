"""What the parts of scripts/pages share: the pages and how they are read, the program, and the contracts of the code."""

import functools
import os
import re
import subprocess
from pathlib import Path

from contracts.world import World

ROOT = Path(__file__).resolve().parent.parent.parent
PROGRAM = os.environ.get("OSC", str(ROOT / "osc"))


class Wrong(Exception):
    """Why a part can't go on: a line for each fault."""


def read(path):
    return path.read_text(encoding="utf-8")


def own(path):
    """A file as faults name it."""
    return path.relative_to(ROOT).as_posix()


# ---- pages


def pages():
    return sorted(ROOT.glob("*.md")) + sorted((ROOT / "docs").glob("*.md"))


def lines(text):
    """The lines of a page as (number, kind, line): kind is text, item, head, row, html or gap. Blocks of code and comments are left out."""
    text = re.sub(r"<!--.*?-->", lambda found: "\n" * found.group().count("\n"), text, flags=re.S)
    fence, before, listed = False, "", False
    for number, line in enumerate(text.split("\n"), 1):
        if line.lstrip().startswith("```"):
            fence, before = not fence, ""
            continue
        if fence:
            continue
        if not line.strip():
            before = ""
            yield number, "gap", ""
            continue
        if line.startswith("    ") and not before and (not listed or line.startswith("    $")):
            continue
        item = re.match(r"\s*(?:[-*]|\d+\.) ", line)
        listed = bool(item) or listed and (bool(before) or line.startswith(" "))
        before = line
        if item:
            yield number, "item", line[item.end() :]
        elif line.startswith("#"):
            yield number, "head", line.lstrip("# ")
        elif line.lstrip().startswith("|"):
            if not re.fullmatch(r"\s*\|[\s|:-]+\|\s*", line):
                yield number, "row", line.strip()
        else:
            yield number, "html" if line.startswith("<") else "text", line.strip()


# ---- what is made from the code


def filled(path, text, begin, end, made):
    """The text of a file with these lines between two marks."""
    before, found, rest = text.partition(begin + "\n")
    _, ends, after = rest.partition(end + "\n")
    if not found or not ends or begin + "\n" in rest:
        raise Wrong(f"{own(path)}: it has no mark `{begin}` with `{end}` below it")
    return before + found + "".join(line + "\n" for line in made) + ends + after


def differs(path, wanted, how):
    """Where a file isn't what is made, and how it is written; or None."""
    there = read(path) if path.exists() else ""
    if there == wanted:
        return None
    old, new = there.split("\n"), wanted.split("\n")
    at = next((at for at, pair in enumerate(zip(old, new)) if pair[0] != pair[1]), min(len(old), len(new)))
    shown = [f"`{it[at].strip()[:100]}`" if at < len(it) else "nothing" for it in (old, new)]
    return f"{own(path)}:{at + 1}: it says {shown[0]}, and it is {shown[1]}: {how} writes it"


def osc(*words, given=b""):
    """What the program prints."""
    if not os.access(PROGRAM, os.X_OK):
        raise Wrong(f"there is no program {PROGRAM}: bash scripts/build")
    told = subprocess.run([PROGRAM, *words], input=given, capture_output=True, check=False)
    if told.returncode:
        raise Wrong(f"osc {' '.join(words)}: status {told.returncode}")
    return told.stdout.decode("utf-8")


# ---- the code

# Each crate with its contracts, read once.
world = functools.cache(World)
