#!/usr/bin/env python3
"""Times the stages of an appraisal of the proved program, as differences between scripts that stop at different places.

    bench/stages.py [ENTRIES] [--rounds N] [--against PROGRAM]

policy     an add with a policy of as many paths, less one with a policy of one path
lines      a reply whose last line is no entry, so that all lines are read and none is measured, less one of one line
the rest   the whole script, less both: each entry is measured, compared, extended and looked up

With --against, a program that prints its own stages (`policy`, `unescape`, `parse`, and `consistent`, `measured`, `extend`,
`lookup`, each in ms) is run beside it, and the ratios are printed: below 1 the proved program is faster.
"""
import argparse
import pathlib
import random
import re
import subprocess
import sys
import tempfile

from make_script import ev, path_of
from run import PROGRAM, timed


def scripts(entries, folder):
    """The five scripts, by name."""
    source = random.Random(1)
    listed = [ev.Entry("boot_aggregate", source.randbytes(32))]
    listed += [ev.Entry(path_of(source, number), source.randbytes(32)) for number in range(1, entries)]
    one = listed[:1]
    many, few = ev.add_line(ev.flat_policy(listed)), ev.add_line(ev.flat_policy(one))
    quote = ev.quote_of("sha256", "n1", listed)
    broken = ev.list_text(listed[:-1]) + "11 no entry\n"
    made = {
        "policy": many,
        "no policy": few,
        "lines": few + ev.begin_line() + ev.reply_line(quote, broken),
        "no lines": few + ev.begin_line() + ev.reply_line(quote, "11 no entry\n"),
        "whole": many + ev.begin_line() + ev.reply_line(quote, ev.list_text(listed)),
    }
    for name, text in made.items():
        (folder / name).write_text(text)
    return {name: folder / name for name in made}


def main():
    parser = argparse.ArgumentParser()
    parser.add_argument("entries", type=int, nargs="?", default=100000)
    parser.add_argument("--rounds", type=int, default=7)
    parser.add_argument("--against")
    arguments = parser.parse_args()
    with tempfile.TemporaryDirectory() as folder:
        paths = scripts(arguments.entries, pathlib.Path(folder))
        least = dict.fromkeys(paths, float("inf"))
        theirs = {}
        for _ in range(arguments.rounds):
            for name, path in paths.items():
                least[name] = min(least[name], timed([PROGRAM, "run"], path)[0])
            if arguments.against:
                with open(paths["whole"], "rb") as script:
                    printed = subprocess.run([arguments.against, "2"], stdin=script, capture_output=True, check=True).stdout
                for stage, ms in re.findall(r"^(\w+) +([\d.]+) ms", printed.decode(), re.M):
                    theirs[stage] = min(theirs.get(stage, float("inf")), float(ms))
    ms = {name: 1000 * seconds for name, seconds in least.items()}
    ours = {"policy": ms["policy"] - ms["no policy"], "lines": ms["lines"] - ms["no lines"]}
    ours["the rest"] = ms["whole"] - ms["no lines"] - ours["policy"] - ours["lines"]
    parts = {"policy": ["policy"], "lines": ["unescape", "parse"], "the rest": ["consistent", "measured", "extend", "lookup"]}
    for name, taken in ours.items():
        row = f"{name:<9} {taken:>8.1f} ms {taken * 1e6 / arguments.entries:>7.0f} ns an entry"
        if theirs:
            other = sum(theirs[part] for part in parts[name])
            row += f"   against {other:>8.1f} ms   ratio {taken / other:.2f}"
        print(row)


if __name__ == "__main__":
    sys.exit(main())
