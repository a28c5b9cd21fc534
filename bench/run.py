#!/usr/bin/env python3
"""Times the proved program on scripts that must pass, and says how much memory it took.

    bench/run.py [NAME ..] [--rounds N] [--against PROGRAM] [--program PROGRAM]

A NAME is one of the following, and with none all are run, in this order:

list-1000, list-10000, list-100000     one agent and one poll, of so many entries (also list-sha1-1000 and the like)
1x5, 64x5, 1024x5                      so many agents, polls of 5 entries
1x1000, 64x1000, 1024x1000             the same, polls of 1,000 entries, so policies of 1,000 paths
policies                               1,024 agents with a policy of 1,000 paths each, polls of 5 entries
churn-64, churn-1024                   so many agents that are lost, replaced, rebooted, released and failed, in rounds
growth, churn-growth                   some 300,000 records: what a line costs in the last tenth and in the first
crowd                                  what a line costs among 1,024 agents and with one

The program is crates/keylime/out/keylime, which `rt run keylime` and `rt ci` leave there, or the one of --program. With
--against, another program is run on the same script in alternation with it, as `PROGRAM run < script`; it must print the same,
and the ratio of the two least times is printed: below 1 the proved program is faster. Times are processor time, of user and
system, the least of the rounds. Memory is the kernel's high-water mark of the program itself, read once it has played its
whole script and waits for more, so that the process that measures does not count; growths and crowd read its processor time
in the same way, within one run. Both need Linux.
"""
import argparse
import fcntl
import itertools
import os
import pathlib
import struct
import subprocess
import sys
import tempfile
import termios
import time

from make_script import Churn, Session

HERE = pathlib.Path(__file__).resolve().parent
PROGRAM = HERE.parent / "crates" / "keylime" / "out" / "keylime"
LISTS = [1000, 10000, 100000]
SHAPES = {f"list-{entries}": {"entries": entries} for entries in LISTS}
SHAPES |= {f"list-{bank}-{entries}": {"entries": entries, "bank": bank} for bank in ("sha1", "sha384") for entries in LISTS}
SHAPES |= {f"{agents}x5": {"agents": agents, "polls": 20_000, "entries": 5} for agents in (1, 64, 1024)}
SHAPES |= {f"{agents}x1000": {"agents": agents, "polls": polls, "entries": 1000} for agents, polls in ((1, 256), (64, 256), (1024, 1024))}
SHAPES["policies"] = {"agents": 1024, "polls": 2048, "entries": 5, "paths": 1000}
SHAPES |= {f"churn-{agents}": {"agents": agents, "rounds": rounds, "entries": 5} for agents, rounds in ((64, 300), (1024, 10))}
NAMES = [name for name in SHAPES if "sha" not in name] + ["growth", "churn-growth", "crowd"]


def timed(words, script):
    """Processor seconds, output and status of one run."""
    with open(script, "rb") as source, tempfile.TemporaryFile() as out:
        child = subprocess.Popen(words, stdin=source, stdout=out)
        _, status, usage = os.wait4(child.pid, 0)
        child.returncode = os.waitstatus_to_exitcode(status)
        out.seek(0)
        return usage.ru_utime + usage.ru_stime, out.read(), child.returncode


def peak_of(words, script):
    """The most bytes of memory that a run held when it had played its script."""
    with open(script, "rb") as source, subprocess.Popen(words, stdin=subprocess.PIPE, stdout=subprocess.DEVNULL) as child:
        while piece := source.read(1 << 16):
            child.stdin.write(piece)
        wait_until_played(child)
        status = pathlib.Path(f"/proc/{child.pid}/status").read_text()
    return next(int(line.split()[1]) * 1024 for line in status.splitlines() if line.startswith("VmHWM"))


def wait_until_played(child):
    """Waits until a program has taken all that it was given and sleeps: it can only be waiting for more."""
    child.stdin.flush()
    while True:
        left = struct.unpack("i", fcntl.ioctl(child.stdin, termios.FIONREAD, b"\0" * 4))[0]
        state = pathlib.Path(f"/proc/{child.pid}/stat").read_text().rpartition(")")[2].split()[0]
        if state == "Z":
            sys.exit("a program ended before its script did")
        if left == 0 and state == "S":
            return
        time.sleep(0.002)


def least(programs, script, expected, rounds):
    """The least processor time of each program on a script, the programs in alternation."""
    best = {}
    for _ in range(rounds):
        for program in programs:
            seconds, printed, status = timed([program, "run"], script)
            if status != 0 or printed != expected.read_bytes():
                sys.exit(f"{program} on {script.name}: status {status}, or it did not print what is stated")
            best[program] = min(best.get(program, seconds), seconds)
    return best


def write(folder, name, shape):
    """Writes a script and what it must print, and answers their paths, and the numbers of lines, polls and records."""
    script, expected = folder / name, folder / f"{name}.printed"
    session = (Churn if "rounds" in shape else Session)(**shape)
    with open(script, "wb") as out, open(expected, "wb") as printed:
        lines = session.write(out, printed)
    return script, expected, lines, session.polls, session.records


def mib(peak):
    return f"{peak / 2**20:.1f} MiB"


def measure(name, programs, rounds, folder):
    """One shape: time, time a poll and an entry, peak memory."""
    shape = SHAPES[name]
    script, expected, lines, polls, _ = write(folder, name, shape)
    best = least(programs, script, expected, rounds)
    seconds = best[programs[0]]
    peaks = [peak_of([program, "run"], script) for program in programs]
    row = f"{name:<16} {lines:>7} lines {seconds:>8.4f} s {lines / seconds:>9.0f} lines/s {seconds / polls * 1e6:>10.1f} us/poll"
    row += f" {seconds / polls / shape['entries'] * 1e9:>7.0f} ns/entry  peak {' against '.join(map(mib, peaks))}"
    row += f" = {peaks[0] / script.stat().st_size:.2f} x the script"
    if len(programs) > 1:
        row += f"  ratio {seconds / best[programs[1]]:.2f}"
    print(row, flush=True)


def clocked(program, script, expected, marks):
    """The processor seconds that a program has taken once it has played so many lines, for each of the marks."""
    with open(script, "rb") as source, tempfile.TemporaryFile() as out, \
            subprocess.Popen([program, "run"], stdin=subprocess.PIPE, stdout=out) as child:
        taken, before = [], 0
        for mark in marks:
            child.stdin.writelines(itertools.islice(source, mark - before))
            wait_until_played(child)
            taken.append(int(pathlib.Path(f"/proc/{child.pid}/schedstat").read_text().split()[0]) / 1e9)
            before = mark
        child.stdin.close()
        status = child.wait()
        out.seek(0)
        if status != 0 or out.read() != expected.read_bytes():
            sys.exit(f"{program} on {script.name}: status {status}, or it did not print what is stated")
        return taken


def least_clocked(programs, script, expected, marks, rounds):
    """What each program took from mark to mark, the least of the rounds, the programs in alternation."""
    best = {}
    for _ in range(rounds):
        for program in programs:
            taken = clocked(program, script, expected, marks)
            steps = [later - earlier for earlier, later in zip(taken, taken[1:])]
            best[program] = [min(pair) for pair in zip(best.get(program, steps), steps)]
    return best


def growth(name, programs, rounds, folder):
    """A line in the last tenth of a long session against one in the first, the adds not counted."""
    agents = 64
    shape = {"agents": agents, "entries": 5} | ({"polls": 150_000} if name == "growth" else {"rounds": 460})
    script, expected, lines, _, records = write(folder, name, shape)
    tenth = (lines - agents) // 10
    best = least_clocked(programs, script, expected, [agents, agents + tenth, lines - tenth, lines], rounds)
    for program in programs:
        first, _, last = best[program]
        print(f"{name:<16} {records} records, first tenth {first / tenth * 1e6:.2f} us a line, last tenth {last / tenth * 1e6:.2f}: "
              f"{last / first:.2f} times  peak {mib(peak_of([program, 'run'], script))}  {pathlib.Path(program).name}", flush=True)


def crowd(programs, rounds, folder):
    """A line among 1,024 agents against one with a single agent, the adds not counted."""
    polls, best = 20_000, {}
    for agents in (1, 1024):
        script, expected, lines, _, _ = write(folder, f"crowd-{agents}", {"agents": agents, "polls": polls, "entries": 5})
        best[agents] = least_clocked(programs, script, expected, [agents, lines], rounds)
    for program in programs:
        one, many = (best[agents][program][0] / (2 * polls) for agents in (1, 1024))
        print(f"crowd            one agent {one * 1e6:.2f} us a line, 1,024 agents {many * 1e6:.2f}: {many / one:.2f} times  "
              f"{pathlib.Path(program).name}", flush=True)


def main():
    parser = argparse.ArgumentParser(description=__doc__, formatter_class=argparse.RawDescriptionHelpFormatter)
    parser.add_argument("names", nargs="*", metavar="NAME")
    parser.add_argument("--rounds", type=int, default=5)
    parser.add_argument("--against")
    parser.add_argument("--program", default=PROGRAM)
    arguments = parser.parse_args()
    programs = [os.path.abspath(program) for program in (arguments.program, arguments.against) if program]
    for program in programs:
        if not os.path.exists(program):
            sys.exit(f"{program} is not there: `rt run keylime` at the top builds the proved program")
    for name in arguments.names or NAMES:
        if name not in SHAPES and name not in NAMES:
            sys.exit(f"{name}: no such measurement")
        with tempfile.TemporaryDirectory() as folder:
            place = pathlib.Path(folder)
            if name in SHAPES:
                measure(name, programs, arguments.rounds, place)
            elif name == "crowd":
                crowd(programs, arguments.rounds, place)
            else:
                growth(name, programs, arguments.rounds, place)


if __name__ == "__main__":
    main()
