#!/usr/bin/env python3
"""Checks that what the documents name is there: each word in backquotes that has the form of a name.

A name is one or more words of letters, digits and `_`, joined by `::`, `/` or `.`. Each of its words stands somewhere in the
sources, as a word of a file or as the name of a file or folder; those that `::` joins stand together in one file, where the first
is no crate.
"""
import pathlib
import re
import sys

ROOT = pathlib.Path(__file__).resolve().parent.parent
DOCUMENTS = [ROOT / "README.md", *sorted((ROOT / "docs").glob("*.md")), ROOT / "bench" / "README.md"]
SOURCES = ("crates", "docs", "tools", "bench", "examples", ".ci")
KINDS = {".rt", ".antt", ".edit", ".py", ".script", ".json", ".txt", "", ".sh"}
NAME = re.compile(r"`([A-Za-z_][\w]*(?:(?:::|/|\.)[A-Za-z_]\w*)*)`")
WORD = re.compile(r"\w+")
# Words of Rust, of the kit and of a wrong body that no source has.
FOREIGN = {"map_err", "untested", "SHA1"}


def words_of_sources():
    """The words of each source, and one set more, of the names of all files and folders."""
    names, files = set(FOREIGN), []
    for top in SOURCES:
        for path in (ROOT / top).rglob("*"):
            if "out" in path.relative_to(ROOT).parts:
                continue
            names.update(WORD.findall(path.name))
            is_source = path.is_file() and top != "docs" and path.suffix in KINDS
            if is_source and path.stat().st_size < 2_000_000:
                files.append(set(WORD.findall(path.read_text(errors="replace"))))
    return [*files, names]


def lacks(name, files, known):
    """What of the name nothing here has, None where all is there."""
    for word in re.split(r"::|/|\.", name):
        if word not in known:
            return word
    parts = [word for word in name.split("::") if not word.startswith("kl_")]
    if len(parts) > 1 and not any(file.issuperset(parts) for file in files):
        return " with ".join(parts)
    return None


def main():
    files = words_of_sources()
    known = set().union(*files)
    missing = 0
    for document in DOCUMENTS:
        for number, line in enumerate(document.read_text().splitlines(), 1):
            for name in NAME.findall(line):
                lacking = lacks(name, files, known)
                if lacking:
                    missing += 1
                    print(f"{document.relative_to(ROOT)}: line {number}: `{name}`: nothing here has the name {lacking}")
    return 1 if missing else 0


if __name__ == "__main__":
    sys.exit(main())
