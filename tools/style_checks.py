"""Two checks of the crates' style, for tools/check_docs: the width of clauses, and names that are defined twice.

A clause begins with a line `ensures NAME {`, `requires NAME {` or `ghost NAME = {` of a source file and goes on to the brace that
closes it. A definition is a `pub` item at the left edge of a file below specs/."""

import collections
import glob
import os
import re

WIDTH = 100
CLAUSE = re.compile(r"\s*(?:(?:ensures|requires)(?: \w+)? \{|ghost (?!use\b)\w+(?::| =).*\{)")
LITERAL = re.compile(r"\"(?:[^\"\\]|\\.)*\"|'(?:[^'\\]|\\.)'")
DEFINITION = re.compile(r"^(?:(?:abbrev|unfoldable|inline) )?pub (?:(?:record|data) )?(?!(?:mod|use|syntax)\b)([^\s:]+)(?=[\s:])", re.M)

# Names that two crates define on purpose, each with the reason.
MEANT_TWICE = {}


def clause_end(lines, at):
    """The number of the line with the brace that closes the clause that begins at a line."""
    level = 0
    for end in range(at, len(lines)):
        bare = LITERAL.sub("", lines[end])
        level += bare.count("{") - bare.count("}")
        if level <= 0:
            return end
    return at


def read(path):
    with open(path, encoding="utf-8") as file:
        return file.read()


def files(root, pattern):
    return sorted(glob.glob(os.path.join(glob.escape(root), pattern), recursive=True))


def crate_of(root, path):
    return os.path.relpath(path, root).split(os.sep)[1]


def wide_clauses(root):
    """A fault for each line of a clause that is too wide, and how many there are by crate."""
    faults, counts = [], collections.Counter()
    for path in files(root, "crates/*/src/**/*.rt"):
        lines, at = read(path).split("\n"), 0
        while at < len(lines):
            end = clause_end(lines, at) if CLAUSE.match(lines[at]) else at - 1
            for number in range(at, end + 1):
                if len(lines[number]) > WIDTH:
                    faults.append(f"{os.path.relpath(path, root)}:{number + 1}: a clause of {len(lines[number])} columns")
                    counts[crate_of(root, path)] += 1
            at = max(at, end) + 1
    return faults, counts


def names_twice(root):
    """A fault for each name that is defined twice and isn't meant to be, and how many there are by crate."""
    places = collections.defaultdict(list)
    for path in files(root, "crates/*/specs/**/*.antt"):
        for name in DEFINITION.findall(read(path)):
            places[name].append(path)
    faults, counts = [], collections.Counter()
    for name, paths in sorted(places.items()):
        if len(paths) < 2 or name in MEANT_TWICE:
            continue
        faults.append(f"{name}: is defined in {', '.join(os.path.relpath(path, root) for path in paths)}")
        counts.update(crate_of(root, path) for path in paths)
    for name in MEANT_TWICE:
        if len(places[name]) < 2:
            faults.append(f"{name}: may be defined twice by tools/style_checks.py, and isn't")
    return faults, counts
