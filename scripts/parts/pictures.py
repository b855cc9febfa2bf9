"""The pictures of docs/pictures, made from crates.txt, from names of the code, and by the program.

replay.svg is the run of examples/rows/repeated_and_replayed, restart.svg that of examples/rows/server_restarts, and loss.svg that of
examples/rows/three_copies_lost, as `osc sim --diagram=svg` draws them. floors.svg has each crate of crates.txt on its floor. post.svg is the way of a protected POST through the functions of the crates. theorem.svg
leads from the promises to the laws, the contracts and the code. keys.svg shows who holds which key. Each follows the reader's light or dark setting, and has a title and a description
for a screen reader.
"""

import re
from html import escape
from pathlib import Path

from parts.shared import ROOT, osc, own, read, world

FOLDER = ROOT / "docs/pictures"

STYLE = """
  .ground { fill: #ffffff } .band { fill: #f3f5f8 } .box { fill: #ffffff; stroke: #56657a } .strong { fill: #e4edfa; stroke: #2c5aa0 }
  .line { stroke: #56657a; fill: none } .flow { stroke: #2c5aa0; fill: none } .tip { fill: #2c5aa0 } .life { stroke: #a9b4c2; stroke-dasharray: 3 4 }
  text { fill: #1b2430; font: 14px "DejaVu Sans", Verdana, sans-serif } .code { font: 13px "DejaVu Sans Mono", Menlo, Consolas, monospace }
  .label { paint-order: stroke; stroke: #ffffff; stroke-width: 4px }
  .small { font-size: 12px } .quiet { fill: #4a5768 } .no { fill: #9c2a1f } .bold { font-weight: bold }
  @media (prefers-color-scheme: dark) {
    .ground { fill: #12171e } .band { fill: #1b232d } .box { fill: #12171e; stroke: #8a9bb0 } .strong { fill: #1d3352; stroke: #7fb0f0 }
    .line { stroke: #8a9bb0 } .flow { stroke: #7fb0f0 } .tip { fill: #7fb0f0 } .life { stroke: #4a5768 }
    .label { stroke: #12171e } text { fill: #e6ebf1 } .quiet { fill: #b3bfcc } .no { fill: #ff9d90 }
  }
"""


class Picture:
    def __init__(self, name, title, about, wide):
        self.name, self.title, self.about, self.wide = name, title, about, wide
        self.high, self.parts, self.labels = 0, [], []

    def add(self, text):
        self.parts.append(text)

    def reach(self, y):
        self.high = max(self.high, y)

    def box(self, x, y, wide, high, kind="box", round_by=4):
        self.add(f'<rect class="{kind}" x="{x}" y="{y}" width="{wide}" height="{high}" rx="{round_by}"/>')
        self.reach(y + high)

    def text(self, x, y, words, kind="", anchor="start"):
        kind = f' class="{kind}"' if kind else ""
        anchor = f' text-anchor="{anchor}"' if anchor != "start" else ""
        self.add(f'<text x="{x}" y="{y}"{kind}{anchor}>{escape(words, quote=False)}</text>')
        self.reach(y + 4)

    def line(self, x1, y1, x2, y2, kind="line"):
        self.add(f'<path class="{kind}" d="M{x1} {y1}L{x2} {y2}"/>')
        self.reach(max(y1, y2))

    def arrow(self, x1, y1, x2, y2, kind="flow"):
        """An arrow with its tip at the second point; level, or from above to below."""
        self.line(x1, y1, x2, y2, kind)
        if y1 == y2:
            back = 8 if x2 > x1 else -8
            self.add(f'<path class="tip" d="M{x2} {y2}l{-back} -4v8z"/>')
        else:
            back = 8 if y2 > y1 else -8
            self.add(f'<path class="tip" d="M{x2} {y2}l-4 {-back}h8z"/>')

    def svg(self):
        high = self.high + 16
        return "\n".join(
            [
                f'<svg xmlns="http://www.w3.org/2000/svg" viewBox="0 0 {self.wide} {high}" width="{self.wide}" height="{high}" role="img" aria-labelledby="title desc">',
                f'<title id="title">{escape(self.title, quote=False)}</title>',
                f'<desc id="desc">{escape(self.about, quote=False)}</desc>',
                f"<style>{STYLE}</style>",
                f'<rect class="ground" x="0" y="0" width="{self.wide}" height="{high}"/>',
                *self.parts,
                *self.labels,
                "</svg>",
                "",
            ]
        )


# ---- the floors


def floors_of(text):
    """The groups of crates.txt: floor or none, what the group is, its crates."""
    groups, about, goes_on = [], None, False
    for line in text.split("\n"):
        if line.startswith("#"):
            about = f"{about} {line[1:].strip()}" if goes_on else line[1:].strip()
        elif line.strip() and about is not None:
            found = re.match(r"Floor (\d+), (?:the )?([^:.]*)[:.]?", about)
            floor, name = (int(found[1]), found[2].strip()) if found else (None, re.split("[,:.]", about)[0])
            if not groups or groups[-1][:2] != (floor, name):
                groups.append((floor, name, []))
            groups[-1][2].append(re.split(r"[ :]", line)[0])
        goes_on = line.startswith("#")
    return groups


def floors():
    groups = floors_of(read(ROOT / "crates.txt"))
    there = sorted({it[0] for it in groups if it[0] is not None}, reverse=True)
    told = [f"Floor {floor}: " + "; ".join(f"{name}: {', '.join(crates)}" for at, name, crates in groups if at == floor) + "." for floor in there]
    wide, left, right = 960, 66, 944
    picture = Picture("floors", "The crates, floor by floor", "A crate uses crates below it alone. " + " ".join(told), wide)
    picture.text(16, 24, "A crate uses only crates below it, and only their public contracts.", "quiet")
    y = 40

    def band(label, rows_of, y, kind="box"):
        """A band with its groups; each group begins with its name, and goes on in the next row where it is full."""
        rows, x, row = [], left, []
        for name, crates in rows_of:
            first = True
            for crate in crates:
                size = round(len(crate) * 7.9) + 16
                ahead = round(len(name) * 6.9) + 14 if first else 0
                if x + ahead + size > right and row:
                    rows.append(row)
                    row, x = [], left
                if first:
                    row.append((x, name, None))
                    x += ahead
                row.append((x, crate, size))
                x += size + 8
                first = False
            x += 12
        rows.append(row)
        high = 14 + 34 * len(rows)
        picture.box(8, y, wide - 16, high, "band")
        picture.text(20, y + 28, label, "bold")
        for at, row in enumerate(rows):
            for x, words, size in row:
                if size is None:
                    picture.text(x, y + 28 + 34 * at, words, "small quiet")
                else:
                    picture.box(x, y + 10 + 34 * at, size, 28, kind)
                    picture.text(x + 8, y + 28 + 34 * at, words, "code")
        return y + high + 6

    for floor in there:
        y = band(str(floor), [(name, crates) for at, name, crates in groups if at == floor], y, "strong")
    beside = [(name, crates) for at, name, crates in groups if at is None]
    picture.text(16, y + 18, "No crate of the product uses these:", "quiet")
    short = {"Beside the house": "", "Rows": "rows", "Tests by what callers see": "tests"}
    merged = {}
    for name, crates in beside:
        merged.setdefault(short.get(name, name), []).extend(crates)
    band("", [("test data, benches", merged.pop("", []))] + list(merged.items()), y + 26)
    return picture


# ---- runs of scripts

# The picture, and the script of examples/rows.
RUNS = [("replay", "repeated_and_replayed"), ("restart", "server_restarts"), ("loss", "three_copies_lost")]


class Run:
    """The run of a script, as the program draws it."""

    def __init__(self, name, row):
        self.name, self.row = name, row

    def svg(self):
        return osc("sim", "--diagram=svg", given=(ROOT / "examples/rows" / self.row).read_bytes())


# ---- the way of a protected POST

COLUMNS = [
    ("client", "osc_client"),
    ("server", "osc_server"),
    ("messages", "osc_message"),
    ("contexts", "osc_authz"),
    ("protection", "osc_protect"),
    ("tree", "osc_tree"),
]

# From, to, the function or what goes over the network, what it does, what happens where that fails.
STEPS = [
    ("client", "client", "osc_client::Client::ask", "takes the next number and seals the request", ""),
    ("client", "server", None, "datagram: CON 0.02 with the option OSCORE", ""),
    ("server", "messages", "osc_message::Endpoint::on_datagram", "says whether the message is new", "the same answer again"),
    ("server", "server", "osc_server::case::case_of", "finds the case: a protected request", ""),
    ("server", "protection", "osc_protect::sealed::read_request", "reads kid, kid context and number", "4.02"),
    ("server", "contexts", "osc_authz::ServerDesk::find", "finds the live context of this kid", "4.01"),
    ("server", "contexts", "osc_context::RecipientContext::is_fresh", "looks into the replay window", "4.01: the number was used"),
    ("server", "protection", "osc_protect::request::open_request", "checks the tag and decrypts", "4.00"),
    ("server", "contexts", "osc_authz::ServerDesk::accept", "takes the number, gives the right to one reply", ""),
    ("server", "tree", "osc_tree::Tree::apply", "checks scope and request, changes the tree", "4.03, 4.05 and others, sealed"),
    ("server", "protection", "osc_protect::response::seal_reply", "seals the reply and uses up the right", ""),
    ("server", "messages", "osc_message::Endpoint::settle", "keeps the answer for a repeat", ""),
    ("server", "client", None, "datagram: ACK 2.04 with the option OSCORE", ""),
    ("client", "client", "osc_client::Client::on_datagram", "opens the answer of its request", "it counts for nothing"),
]


def shown(name):
    """A function as the picture names it: with its type, or alone."""
    parts = name.split("::")
    return "::".join(parts[-2:]) if parts[-2][0].isupper() else parts[-1]


def post():
    wide, first, step = 960, 70, 146
    told = "; ".join(f"{n}. {shown(name) + ' ' if name else ''}{does}{', else ' + fails if fails else ''}" for n, (_, _, name, does, fails) in enumerate(STEPS, 1))
    picture = Picture("post", "The way of a protected POST", "The client seals a request; the server checks it, serves it once and answers. " + told + ".", wide)
    at = {key: first + n * step for n, (key, _) in enumerate(COLUMNS)}
    top, y = 16, 74
    high = y + len(STEPS) * 46
    for key, crate in COLUMNS:
        picture.line(at[key], top + 30, at[key], high, "life")
        picture.box(at[key] - 60, top, 120, 30, "strong")
        picture.text(at[key], top + 20, crate, "code", "middle")
    for n, (frm, to, name, does, fails) in enumerate(STEPS, 1):
        x1, x2 = at[frm], at[to]
        above, below = (x2 + 4, x2 + 4) if x1 == x2 else (min(x1, x2) + 10, min(x1, x2) + 10)
        if x1 == x2:
            picture.add(f'<path class="flow" d="M{x1} {y}h26v14h-18"/><path class="tip" d="M{x1 + 2} {y + 14}l8 -4v8z"/>')
            above = below = x1 + 36
        else:
            picture.arrow(x1, y + 8, x2, y + 8)
        if name is None:
            picture.text(above, y + 2, f"{n}", "code bold label")
            picture.text(above + 24, y + 2, does, "small label")
        else:
            picture.text(above, y + 2, f"{n} {shown(name)}", "code bold label")
            told = f' <tspan class="no">else {escape(fails, quote=False)}</tspan>' if fails else ""
            picture.add(f'<text x="{below}" y="{y + 22}" class="small quiet label">{escape(does, quote=False)}{told}</text>')
        y += 46
    picture.reach(high)
    return picture


# ---- the theorem

PROMISES = [
    ("One history for all", ["osc_world::World::run.one_history"], "history"),
    ("No nonce is used twice", ["osc_world::World::run.own_nonces"], "nonces"),
    ("A client is answered", ["osc_world::World::quiet.begun", "osc_world::World::quiet.asked"], "rounds"),
    ("Owners stay apart", ["osc_world::World::run.own_answers", "osc_world::World::alone.isolated"], "owners"),
]
LAWS = {
    "history": ["osc_run::laws::one_history"],
    "nonces": ["osc_run::laws::own_nonces"],
    "rounds": ["osc_rounds::laws::an_exchange_is_made", "osc_rounds::laws::a_request_is_answered"],
    "owners": ["osc_run::laws::own_answers", "osc_model::laws::isolation"],
}
CONTRACTS = [
    ("Each step is of a known kind", ["osc_server::Server::on_datagram.kind", "osc_client::Client::on_datagram.kind", "osc_client::Client::ask.kind", "osc_proxy::Proxy::on_datagram.heard"]),
    ("Each message has one answer", ["osc_server::Server::on_datagram.heard", "osc_client::Client::on_datagram.heard", "osc_proxy::Proxy::on_tick.ticked"]),
]
BELOW = [
    ("Rights", ["osc_authz::ServerDesk::post.posted", "osc_authz::ServerDesk::accept.right", "osc_token::laws::one_token"]),
    ("Protection", ["osc_protect::request::open_request.opened", "osc_protect::response::seal_reply.number", "osc_context::laws::nonces_of_a_key"]),
    ("Freshness", ["osc_window::laws::fresh_after", "osc_context::SenderContext::take_number.number"]),
    ("Resources", ["osc_tree::Tree::apply.reply", "osc_tree::Tree::apply.tree"]),
    ("Messages", ["osc_message::Endpoint::on_datagram.heard", "osc_coap::laws::one_message"]),
]


def plain(name):
    """Whose a name is, and the name itself, with its clause."""
    path, _, clause = name.partition(".")
    parts = path.split("::")
    owner = parts[-2] if parts[-2][0].isupper() else "::".join(parts[:-1]) if parts[-2] == "laws" else parts[0]
    return owner, parts[-1] + (": " + clause if clause else "")


def theorem():
    wide = 960
    said = [f"{title} ({', '.join(names)}) rests on {', '.join(LAWS[key])}" for title, names, key in PROMISES]
    said += [f"{title}: {', '.join(names)}" for title, names in CONTRACTS + BELOW]
    picture = Picture("theorem", "From the promises down to the code", "Four levels: promises, laws, contracts of the nodes, contracts of the parts. " + "; ".join(said) + ".", wide)

    def row(y, label, cells, kind):
        """Boxes of equal width: a heading, and names below it."""
        picture.labels.append(f'<text x="16" y="{y + 2}" class="quiet label">{label}</text>')
        y += 12
        size = (wide - 16 - 12 * (len(cells) - 1) - 16) / len(cells)
        high = max((30 if head else 12) + sum(19 + 17 * (n == 0 or plain(names[n - 1])[0] != plain(name)[0]) for n, name in enumerate(names)) for head, names in cells)
        places = []
        for n, (head, names) in enumerate(cells):
            x = round(16 + n * (size + 12), 1)
            picture.box(x, y, round(size, 1), high, kind)
            at = y + 18
            if head:
                picture.text(x + 10, at + 2, head, "bold")
                at += 22
            before = None
            for name in names:
                owner, own = plain(name)
                if owner != before:
                    picture.text(x + 10, at, owner, "code quiet small")
                    at += 17
                picture.text(x + 14, at, own, "code")
                at, before = at + 19, owner
            places.append(round(x + size / 2, 1))
        return y + high, places

    def down(frm, y1, to, y2, pairs):
        for a, b in pairs:
            picture.add(f'<path class="flow" d="M{to[b]} {y2}C{to[b]} {(y1 + y2) / 2} {frm[a]} {(y1 + y2) / 2} {frm[a]} {y1 + 8}"/><path class="tip" d="M{frm[a]} {y1}l-4 8h8z"/>')

    keys = [key for _, _, key in PROMISES]
    y, top = row(20, "Promises", [(head, names) for head, names, _ in PROMISES], "strong")
    laws_at = y + 44
    end, laws = row(laws_at, "Laws", [("", LAWS[key]) for key in keys], "box")
    down(top, y, laws, laws_at + 12, [(n, n) for n in range(len(keys))])
    nodes_at = end + 44
    low, nodes = row(nodes_at, "Nodes", CONTRACTS, "box")
    down(laws, end, nodes, nodes_at + 12, [(0, 0), (1, 0), (3, 0), (2, 1)])
    parts_at = low + 44
    bottom, parts = row(parts_at, "Parts", BELOW, "box")
    down(nodes, low, parts, parts_at + 12, [(0, 0), (0, 1), (0, 2), (0, 3), (1, 3), (1, 4)])
    code_at = bottom + 40
    picture.box(16, code_at, wide - 32, 32, "band")
    picture.text(wide / 2, code_at + 21, "The code in crates/*/src: the prover checks that each function meets its contract", "", "middle")
    for at in parts:
        picture.arrow(at, code_at, at, bottom)
    picture.text(16, code_at + 54, "Promises are contracts that a caller reads. Laws are proved for all lists of steps, of any nodes.", "small quiet")
    picture.text(16, code_at + 72, "A node's contract says what one step does, and those of the parts what a step is made of.", "small quiet")
    return picture


# ---- who holds which key

# Who, where, and what it has: with a key or without.
HOLDERS = [
    ("Issuer (osc token)", (16, 40, 250, 84), True, ["the token key", "the secret of each token"]),
    ("Holder (a client)", (16, 214, 250, 104), True, ["its token, which it can't read", "the secret of its token", "the keys of its context"]),
    ("Proxy", (364, 214, 232, 104), False, ["no key", "sees addresses, sizes and times,", "and tokens, encrypted"]),
    ("Server", (694, 40, 250, 278), True, ["the token key", "out of each token: its secret,", "its scope and its times", "the keys of each context"]),
    ("Thief on the network", (364, 372, 232, 84), False, ["no key", "has what passed, and forges"]),
]


def keys():
    wide = 960
    told = "; ".join(f"{name}: {', '.join(has)}" for name, _, _, has in HOLDERS)
    about = f"{told}. The issuer gives the server the token key once, and each holder its token and secret. Holder and server exchange sealed datagrams, through the proxy."
    picture = Picture("keys", "Who holds which key", about, wide)
    for name, (x, y, w, h), is_key, has in HOLDERS:
        picture.box(x, y, w, h, "strong" if is_key else "box")
        picture.text(x + 12, y + 24, name, "bold")
        for n, words in enumerate(has):
            picture.text(x + 12, y + 46 + 20 * n, words, "small")
    picture.arrow(266, 82, 694, 82)
    picture.text(480, 74, "the token key, once, by hand", "small quiet", "middle")
    picture.arrow(141, 124, 141, 214)
    picture.text(152, 174, "a token and its secret, by hand", "small quiet")
    picture.line(266, 266, 364, 266, "flow")
    picture.arrow(596, 266, 694, 266)
    for x in (315, 645):
        picture.text(x, 254, "sealed", "small quiet", "middle")
        picture.text(x, 286, "datagrams", "small quiet", "middle")
    picture.arrow(480, 372, 480, 318)
    picture.text(492, 350, "drops, repeats, changes", "small quiet")
    picture.text(16, 484, "A token is encrypted under the token key. Holder and server each derive the keys of a context from the secret and two nonces", "small quiet")
    picture.text(16, 502, "(RFC 9203 section 4). What is sealed opens at these two alone.", "small quiet")
    return picture


# ---- all of them


def made():
    for picture in (*(Run(*it) for it in RUNS), floors(), post(), theorem(), keys()):
        yield FOLDER / f"{picture.name}.svg", picture.svg()


def faults(only, say):
    """That each function and clause that they name is in the code."""
    clauses = {}
    for name, function in world().functions():
        clauses.setdefault(name, set()).update(it.label for it in function.clauses)
    named = [name for _, _, name, _, _ in STEPS if name]
    named += [it for _, names, _ in PROMISES for it in names] + [it for names in LAWS.values() for it in names]
    named += [it for _, names in CONTRACTS + BELOW for it in names]
    here = Path(__file__).resolve()
    for name in dict.fromkeys(named):
        path, _, clause = name.partition(".")
        if path not in clauses or clause and clause not in clauses[path]:
            number = next(number for number, line in enumerate(read(here).split("\n"), 1) if f'"{name}"' in line)
            yield f"{own(here)}:{number}: there is no {name}"
    say("pictures: each is as its script makes it, and each name in them is found")
