#!/usr/bin/env python3
"""Checks docs/GUARANTEES.md against the sources, in both directions.

Each `crate::function`, `crate::Type::method` or `crate::Trait::method` that a row names has each clause that the row's last
column names; `the clause` is a promise without a name. And each function that a crate exports and that promises something
stands in some row with each of its promises, so that none is left out. Conditions (`requires`) may be named, and need not be.
"""
import pathlib
import re
import sys

ROOT = pathlib.Path(__file__).resolve().parent.parent
CRATES = ROOT / "crates"
BLOCK = re.compile(r"^(?:pub )?(?:unsafe )?(impl|trait)\b(.*)$")
FUNCTION = re.compile(r"^( *)(pub(?:\([a-z]+\))? )?(?:const )?fn (\w+)")
CLAUSE = re.compile(r"^\s*(ensures|requires)\*? (?:(\w+) )?\{")
UNNAMED = "the clause"
EXPORT = re.compile(r"pub use \w+::(?:\{([^}]*)\}|(\w+));")


def without_generics(text):
    """The text without its outermost parts in angle brackets."""
    kept, depth = [], 0
    for before, char in zip(" " + text, text):
        if char == "<":
            depth += 1
        elif char == ">" and before != "-":
            depth -= 1
        elif depth == 0:
            kept.append(char)
    return "".join(kept)


def owner_of(kind, rest):
    """The type or trait whose functions a block has, and the trait that it implements, if any."""
    words = without_generics(rest).split("{")[0].split(":")[0] if kind == "trait" else without_generics(rest).split("{")[0]
    words = words.split(" where ")[0].split()
    if "for" in words:
        at = words.index("for")
        return words[at + 1].split("::")[-1], words[at - 1].split("::")[-1]
    return words[0], None


class Function:
    def __init__(self, public):
        self.public = public
        self.promises = set()
        self.conditions = set()


def functions_of(crate):
    """From the path of each function of the crate to what it states; a type's or a trait's as `Type::method`."""
    found = {}
    for path in sorted((CRATES / crate / "src").rglob("*.rt")):
        owner, kind, implemented, current = None, None, None, None
        for line in path.read_text().splitlines():
            block = BLOCK.match(line)
            if block:
                kind = block.group(1)
                owner, implemented = owner_of(kind, block.group(2))
            elif line.startswith("}"):
                owner, kind, implemented = None, None, None
            function = FUNCTION.match(line)
            if function:
                inside = owner is not None and function.group(1)
                public = function.group(2) == "pub " or (inside and (kind == "trait" or implemented is not None))
                name = f"{owner}::{function.group(3)}" if inside else function.group(3)
                current = found.setdefault(name, Function(public))
            clause = CLAUSE.match(line)
            if clause and current is not None:
                wanted = current.promises if clause.group(1) == "ensures" else current.conditions
                wanted.add(clause.group(2) or UNNAMED)
    return found


def exports_of(crate):
    """The names that a crate exports."""
    root = CRATES / crate / "src" / "lib.rt"
    names = set()
    if root.exists():
        for several, one in EXPORT.findall(root.read_text()):
            names |= {name.strip() for name in (several or one).split(",") if name.strip()}
    return names


def rows_of(text):
    """The rows of the document: a line's number, the names of its first column, and the clauses of its last."""
    for number, line in enumerate(text.splitlines(), 1):
        if line.startswith("| `"):
            cells = [cell.strip() for cell in line.strip("|").split("|")]
            yield number, re.findall(r"`([\w:]+)`", cells[0]), re.findall(r"`([\w ]+)`", cells[-1])


def faults_of(text):
    """What the document says that is not there, and what it leaves out."""
    crates = {crate: functions_of(crate) for crate in sorted(p.name for p in CRATES.iterdir() if (p / "src").is_dir())}
    named = {}
    for number, names, clauses in rows_of(text):
        for name in names:
            crate, _, path = name.partition("::")
            function = crates.get(crate, {}).get(path)
            if function is None:
                yield f"line {number}: there is no {name}"
                continue
            named.setdefault(name, set()).update(clauses)
            for clause in clauses:
                named_condition = clause != UNNAMED and clause in function.conditions
                if clause not in function.promises and not named_condition:
                    yield f"line {number}: {name} has no clause {clause}"
    for crate, functions in crates.items():
        exported = exports_of(crate)
        for path, function in functions.items():
            if not function.public or path.split("::")[0] not in exported or not function.promises:
                continue
            name = f"{crate}::{path}"
            if name not in named:
                yield f"{name} is exported, and no row names it: {', '.join(sorted(function.promises))}"
                continue
            left = function.promises - named[name]
            if left:
                yield f"{name}: no row names its {', '.join(sorted(left))}"


def main():
    faults = list(faults_of((ROOT / "docs" / "GUARANTEES.md").read_text()))
    for fault in faults:
        print(f"docs/GUARANTEES.md: {fault}")
    return 1 if faults else 0


if __name__ == "__main__":
    sys.exit(main())
