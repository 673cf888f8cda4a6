#!/usr/bin/env python3
"""Respells this repository's own definitions and lemmas: words in snake case.

Run once, at the top of the repository, after the kit's port.py has run:

    python3 tools/respell.py

It renames what specs/ and proofs/ define: `names-list` to `names_list`, `isCell` to `is_cell`.
Types, modules and facts keep their capitals. Names that Rattle makes (goals, steps, invariants),
functions of src/, strings, inputs and outputs keep their spelling.
In .rt files only clauses and ghost items have such names, in .edit files the text of an edit, in .md files what
stands in backticks. Two names that would fall together stop it before anything is written.
"""
import collections
import pathlib
import re
import sys

TOKEN = r"[^\s(){}\[\]:;,.\"`]+"
SIGNATURE = re.compile(
    r"^\s*(?:(?:abbrev|unfoldable|pub|data|record|instance)\s+)*(" + TOKEN + r")\s*(?:[({].*?)?\s+:\s(.*)$"
)
RECORD = re.compile(r"^(?:pub )?record (" + TOKEN + r")")


# lemmas that would get the name of the definition that they are about
LEMMAS = {name: name.replace("-", "_") + "_lem" for name in ("counts-from", "all-cells", "term-at", "kids-at")}


def snake(name):
    """The name with words joined by `_`: a dash or a capital inside begins a word."""
    if name in LEMMAS:
        return LEMMAS[name]
    name = re.sub(r"(?<=[a-z0-9])([A-Z])", lambda m: "-" + m.group(1).lower(), name) if name[0].islower() else name
    return name.replace("-", "_")


def plain(name):
    return re.fullmatch(r"[A-Za-z][A-Za-z0-9_'-]*", name) is not None


def signatures(path):
    for line in path.read_text().splitlines():
        if line.startswith("use ") or line.lstrip().startswith("--"):
            continue
        found = SIGNATURE.match(line)
        if found and plain(found.group(1)):
            yield found.group(1), found.group(2)


def respelled(text, names, fields):
    """Each token of `text` that `names` has; after a dot only the fields of records and the items of modules."""
    def put(match):
        before, token = match.group(1), match.group(2)
        if before == "." and token not in fields:
            return match.group(0)
        return before + names.get(token, token)

    # a dash inside a name belongs to it: so a token is taken whole
    return re.sub(r"(^|[^A-Za-z0-9_'-])([A-Za-z][A-Za-z0-9_'-]*)", put, text)


def main():
    top = pathlib.Path(".")
    antt = [p for p in sorted(top.glob("crates/*/**/*.antt")) if "out" not in p.parts]
    names, fields, owners = {}, set(), collections.defaultdict(set)
    every = set()
    for path in antt:
        answers = path.name in ("Answers.antt", "Invariants.antt", "Proof.antt")
        for name, kind in signatures(path):
            every.add(name)
            if answers and kind.startswith("goal."):
                continue
            if snake(name) != name:
                names[name] = snake(name)
                owners[snake(name)].add(name)
                if not answers and re.search(r"^\s+(?:pub )?" + re.escape(name) + r" : ", path.read_text(), re.M):
                    fields.add(name)
    together = {new: old for new, old in owners.items() if len(old) > 1 or new in every}
    if together:
        sys.exit(f"fall together: {together}")
    clause = re.compile(r"^\s*(?:ghost |requires|ensures)")
    for path in antt:
        path.write_text(respelled(path.read_text(), names, fields))
    for path in sorted(top.glob("crates/*/src/**/*.rt")):
        lines = path.read_text().split("\n")
        path.write_text("\n".join(respelled(l, names, fields) if clause.match(l) else l for l in lines))
    # what port.py had respelled before, it left in edits and pages
    older = dict(names)
    for name in every | set(owners):
        camel = re.sub(r"_([a-z])", lambda m: m.group(1).upper(), name)
        for old in (name.replace("_", "-"), camel):
            if "_" in name and old != name:
                older.setdefault(old, name)
    for path in sorted(top.glob("crates/*/must-fail/*.edit")):
        path.write_text(respelled(path.read_text(), older, set(older)))
    for path in sorted([*top.glob("*.md"), *top.glob("docs/*.md")]):
        text = path.read_text()
        path.write_text(re.sub(r"`[^`\n]+`", lambda m: respelled(m.group(0), older, set(older)), text))
    print(f"respell: {len(names)} names")


main()
