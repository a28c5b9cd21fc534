#!/usr/bin/env python3
"""Measures what the gate costs: processor seconds of each crate's proofs, tests and wrong bodies.

    tools/gate_times.py [NAME ..]

It runs the gate, `rt ci`, in a fresh clone of the commit that is checked out, with names that of these crates and those below
them alone, and looks three times a second how long each of its provers has run. It prints what the gate says, then a table for
docs/PROVING.md. What earlier gates passed on this machine is kept and not measured: run it first on a machine where nothing is,
which does nothing else, since what runs beside it makes each processor second dearer.
"""
import collections
import os
import pathlib
import subprocess
import sys
import tempfile
import time

ROOT = pathlib.Path(__file__).resolve().parent.parent
PROVER = "rattle"
PAUSE = 0.3
TICKS = os.sysconf("SC_CLK_TCK")
KINDS = ("proofs", "tests", "wrong bodies")


def words_of(process):
    """The words of a process's command line, and none where it has ended."""
    try:
        return pathlib.Path(f"/proc/{process}/cmdline").read_bytes().decode(errors="replace").split("\0")
    except OSError:
        return []


def fields_of(process):
    """The fields of a process's state, from the third on, and none where it has ended."""
    try:
        return pathlib.Path(f"/proc/{process}/stat").read_text().rpartition(")")[2].split()
    except OSError:
        return []


def below(top):
    """The processes that stand below this one."""
    children = collections.defaultdict(list)
    for entry in os.listdir("/proc"):
        if entry.isdigit():
            fields = fields_of(entry)
            if fields:
                children[int(fields[1])].append(int(entry))
    found, waiting = [], [top]
    while waiting:
        process = waiting.pop()
        found.append(process)
        waiting += children[process]
    return found


def task_of(process):
    """The crate that a prover is run for, and what of it, None where the process is none."""
    words = words_of(process)
    if not words or not words[0].endswith(f"/{PROVER}") or "--crate-name" not in words:
        return None
    crate = words[words.index("--crate-name") + 1]
    try:
        folder = os.readlink(f"/proc/{process}/cwd")
    except OSError:
        return None
    kind = 2 if "rt-edit" in folder else 1 if "--test" in words else 0
    return crate, kind


def look(top, seen):
    """Notes how long each prover has run so far, by its number and the moment at which it started."""
    for process in below(top):
        task, fields = task_of(process), fields_of(process)
        if task and fields:
            seen[process, fields[19]] = task, (int(fields[11]) + int(fields[12])) / TICKS


def gate(names, folder):
    """Runs the gate. Answers the processor seconds by crate and kind, and whether it passed."""
    seen = {}
    child = subprocess.Popen(["rt", "ci", *names], cwd=folder)
    while child.poll() is None:
        look(child.pid, seen)
        time.sleep(PAUSE)
    seconds = collections.defaultdict(lambda: [0.0] * len(KINDS))
    for (crate, kind), spent in seen.values():
        seconds[crate][kind] += spent
    return seconds, child.returncode == 0


def lines_of(folder):
    """How many lines a crate has in src/, specs/ and proofs/."""
    files = [*folder.glob("src/**/*.rt"), *folder.glob("specs/**/*.antt"), *folder.glob("proofs/**/*.antt")]
    return sum(len(file.read_text().splitlines()) for file in files)


def show(seconds, crates):
    """Prints the table, in the order of crates.txt."""
    order = [line.split(":")[0].split()[0] for line in (ROOT / "crates.txt").read_text().splitlines() if line and line[0] != "#"]
    print("| crate | lines | proofs s | tests s | wrong bodies s | minutes |")
    print("|---|---|---|---|---|---|")
    for crate in [name for name in order if name in seconds]:
        spent = seconds[crate]
        row = " | ".join(f"{part:.0f}" for part in spent)
        print(f"| `{crate}` | {lines_of(crates / crate)} | {row} | {sum(spent) / 60:.1f} |")
    print(f"in all {sum(sum(spent) for spent in seconds.values()) / 60:.0f} processor minutes")


def main():
    with tempfile.TemporaryDirectory() as folder:
        clone = pathlib.Path(folder) / "clone"
        subprocess.run(["git", "clone", "-q", str(ROOT), str(clone)], check=True)
        seconds, passed = gate(sys.argv[1:], clone)
        show(seconds, clone / "crates")
    return 0 if passed else 1


if __name__ == "__main__":
    sys.exit(main())
