"""Whether the pages are short and plain: words a page, long sentences, wide tables, words that a reader stumbles over.

Words are those of text, headings, lists and tables. Blocks of code and comments are left out. Of the tables that are made from the code the cells are
looked at, and the words not counted. A `code` word and a link's text count as they are read. A sentence ends at a full stop, a question mark, an item
of a list or the end of a paragraph. No page is over its aim.
"""

import re

from parts.shared import lines, own, pages, read

# Each page, and its aim in words.
AIMS = {
    "README.md": 900,
    "CHANGELOG.md": 475,
    "CONTRIBUTING.md": 330,
    "SECURITY.md": 330,
    "docs/ARCHITECTURE.md": 2200,
    "docs/BENCH.md": 1050,
    "docs/C.md": 2000,
    "docs/DECISIONS.md": 2770,
    "docs/DEFINITIONS.md": 2300,
    "docs/FLEETS.md": 900,
    "docs/GATE.md": 700,
    "docs/GLOSSARY.md": 1000,
    "docs/LIBRARY.md": 2300,
    "docs/OPERATE.md": 1900,
    "docs/PROMISES.md": 1450,
    "docs/PROOFS.md": 3300,
    "docs/QUICKSTART.md": 1700,
    "docs/SCRIPTS.md": 1800,
}

LONGEST_SENTENCE = 30
LONGEST_CELL = 25
MOST_COLUMNS = 4

# What stops a reader, what to write instead, and where it is right all the same.
FORBIDDEN = [
    (r"(?:comes?|came|coming) of", "comes from, is the result of", r"comes? of age"),
    (r"behind", "after", r"behind (?:a|an|the|its|one) (?:forward )?prox"),
    (r"(?:for )?wants? of", "out of memory, for lack of", None),
    (r"(?:wants?|wanted|lacks?|lacked) memory", "is out of memory", None),
    (r"memory (?:is|was|may be) wanting", "memory runs out", None),
    (r"stands?|stood", "is", r"stand-ins?|stand-alone"),
    (r"anew", "again", None),
    (r"who(?:ever)? asks", "the client", None),
    (r"the say of|has (?:a|no) say", "what it decides", None),
    (r"moments?", "time", None),
    (r"(?:is|are|be) let go|lets? (?:it )?go", "is freed, is dropped", None),
    (r"by now|since then|no longer|used to be|so far", "the present alone", None),
    (r"amid", "during", None),
    (r"beforehand|thereafter|whereby|thereof|herein", "before, then, by which", None),
    (r"some [0-9]", "about", None),
    (r"20[0-9][0-9]-[0-9][0-9]-[0-9][0-9]", "no date", None),
]

SEEN = [(re.compile(rf"(?<![\w-])(?:{pattern})(?![\w-])", re.I), instead, but and re.compile(but, re.I)) for pattern, instead, but in FORBIDDEN]

# The tables that are made from the code.
TABLES = re.compile(r"<!-- (believe|folders|files|gate|proofs|settings) -->.*?<!-- /\1 -->", re.S)

# The table of comments in the code, which has the names of the code.
COMMENTS = re.compile(r"<!-- files -->.*?<!-- /files -->", re.S)


def plain(text):
    """A text as it is read: pictures and the targets of links aren't."""
    text = re.sub(r"!\[[^\]]*\]\([^)]*\)", " ", text)
    text = re.sub(r"\[([^\]]*)\]\([^)]*\)", r"\1", text)
    return text.replace("**", "").replace("*", "")


def count(text):
    """How many words a text has; a piece of code is one."""
    text = re.sub(r"`[^`]*`", " code ", plain(text))
    return sum(any(sign.isalnum() for sign in word) for word in text.split())


def cells(row):
    row = re.sub(r"`[^`]*`", lambda found: found.group().replace("|", "/"), row)
    return [cell.strip() for cell in row.strip().strip("|").split("|")]


def shown(text):
    """The lines of a page that a reader sees."""
    return [(number, "gap", "") if kind == "html" else (number, kind, line) for number, kind, line in lines(text)]


def paragraphs(page):
    """Runs of text that belong together, each with the line of its first word."""
    start, run = 0, []
    for number, kind, text in page:
        if kind == "text" and run:
            run.append(text)
            continue
        if run:
            yield start, " ".join(run)
        start, run = (number, [text]) if kind in ("text", "item", "head") else (0, [])
        if kind == "head":
            yield start, text
            run = []
    if run:
        yield start, " ".join(run)


def sentences(text):
    held = re.sub(r"`[^`]*`", lambda found: found.group().replace(".", "·").replace("?", "·").replace("!", "·"), plain(text))
    return [it for it in re.split(r"(?<=[^.][.?!])[\"')]*\s+", held) if it.strip()]


def words_of(text):
    """How many words a page has."""
    return sum(count(" ".join(cells(line)) if kind == "row" else line) for _, kind, line in shown(TABLES.sub("", text)))


def of_page(name, text):
    """Each place of a page that isn't short and plain."""
    page, words = shown(text), words_of(text)
    if words > AIMS[name]:
        yield f"{name}: {words} words, and its aim is {AIMS[name]}"
    for number, whole in paragraphs(page):
        for sentence in sentences(whole):
            if count(sentence) > LONGEST_SENTENCE:
                yield f"{name}:{number}: a sentence of {count(sentence)} words: {sentence[:60]}"
    for number, kind, line in page:
        row = cells(line) if kind == "row" else []
        if len(row) > MOST_COLUMNS:
            yield f"{name}:{number}: a table of {len(row)} columns"
        for cell in row:
            if count(cell) > LONGEST_CELL:
                yield f"{name}:{number}: a cell of {count(cell)} words: {cell[:60]}"
    for number, kind, line in shown(COMMENTS.sub(lambda made: "\n" * made.group().count("\n"), text)):
        bare = re.sub(r"`[^`]*`", "`", plain(line))
        for pattern, instead, but in SEEN:
            for found in pattern.finditer(but.sub(" ", bare) if but else bare):
                yield f"{name}:{number}: “{found.group()}”: {instead}"


def faults(only, say):
    for page in only or pages():
        name = own(page)
        if name not in AIMS:
            yield f"{name}: it has no aim in scripts/parts/prose.py"
            continue
        yield from of_page(name, read(page))
        say(f"{name}: {words_of(read(page))} words of {AIMS[name]}")
