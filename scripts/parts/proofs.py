"""The table of docs/PROOFS.md, from docs/claims.txt and the names of clauses.

A contract is a function or a law; after it stand the names of its clauses. It is looked for in the crate of its claim, or in the crate that it
begins with. A `*` stands for any letters. Where several functions have the name, those that other crates can call count.
"""

import functools
import re

from parts.shared import ROOT, Wrong, filled, own, read, world

CLAIMS = ROOT / "docs/claims.txt"
PAGE = ROOT / "docs/PROOFS.md"


def claims():
    """Crate, claim and contracts of each line, with its number."""
    crate = None
    for number, line in enumerate(read(CLAIMS).split("\n"), 1):
        if not line.strip() or line.startswith("#"):
            continue
        if line.startswith("["):
            crate = line.strip("[] ")
            continue
        claim, _, named = line.rpartition(" | ")
        yield number, crate, claim, named.split()


class Contracts:
    """The functions of each crate that have a contract: the name, the labels of the clauses, and whether other crates can call it."""

    def __init__(self):
        self.of, self.named = {}, set()
        for name, of in world().functions():
            if of.clauses:
                self.of.setdefault(name.partition("::")[0], []).append((name, [it.label for it in of.clauses], world().is_public(of)))

    def find(self, crate, named):
        """How a contract is shown, or None and what is wrong."""
        path, *clauses = named.split(".")
        of = crate
        if path.partition("::")[0] in self.of:
            of, _, path = path.partition("::")
        names = re.compile(f"{of}::(?:.*::)?{path.replace('*', '.*')}")
        found = [it for it in self.of.get(of, []) if names.fullmatch(it[0])]
        found = [it for it in found if it[2]] or found
        if not found:
            return None, f"{of} has no contract {path}"
        labels = {label for it in found for label in it[1]}
        for clause in clauses:
            if clause not in labels:
                return None, f"{of}: {path} has no clause {clause}"
        self.named.update((it[0], label) for it in found for label in (clauses or it[1]))
        shown = path.rpartition("*")[0] + found[0][0].split("::")[-1] if "*" in path else path
        return (shown if of == crate else f"{of}::{shown}", clauses), None


def cell(contracts):
    """Contracts as a cell: names with the same clauses, and the same type or module, are told together."""
    parts = []
    for shown, clauses in contracts:
        if parts and parts[-1][1] == clauses:
            parts[-1][0].append(shown)
        else:
            parts.append(([shown], clauses))
    told = []
    for names, clauses in parts:
        short, owner = [], None
        for name in names:
            front, _, last = name.rpartition("::")
            short.append(last if front and front == owner else name)
            owner = front
        told.append(", ".join(f"`{it}`" for it in short) + (": " + ", ".join(f"`{it}`" for it in clauses) if clauses else ""))
    return "; ".join(told)


@functools.cache
def table():
    """The rows of the table, and the contracts that they name."""
    contracts, rows, told, before = Contracts(), ["| Crate | Claim | Contract |", "|---|---|---|"], [], None
    for number, crate, claim, named in claims():
        shown = []
        for name in named:
            found, fault = contracts.find(crate, name)
            if fault:
                told.append(f"{own(CLAIMS)}:{number}: {fault}")
            else:
                shown.append(found)
        rows.append(f"| {'`' + crate + '`' if crate != before else ''} | {claim} | {cell(shown)} |")
        before = crate
    if told:
        raise Wrong(*told)
    return rows, contracts


def made():
    yield PAGE, filled(PAGE, read(PAGE), "<!-- proofs -->", "<!-- /proofs -->", table()[0])


def faults(only, say):
    say(f"proofs: {len(table()[0]) - 2} claims, each of its contracts is found")
    return []


def rest():
    """The clauses of public functions that no claim names, a line for each function."""
    contracts = table()[1]
    for name, labels, public in (it for functions in contracts.of.values() for it in functions):
        left = [label for label in labels if (name, label) not in contracts.named]
        if public and left and not re.match(r"osc_(tests_|fixtures|bench|example|secrets)", name):
            yield f"{name} {' '.join(it for it in left if it and ' ' not in it)}"
