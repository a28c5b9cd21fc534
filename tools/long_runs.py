#!/usr/bin/env python3
"""Plays long and hostile scripts on a program, and sees that each run ends as docs/FORMATS.md says, in bounded memory.

    tools/long_runs.py PROGRAM [NAME ..] [--mutants N] [--seed S]

A NAME is one of the following, and with none all are played, in this order:

journal    1,000,000 records, and 1 GiB of policies, and what is refused then
agents     1,024 agents, and the next one
paths      policies of 262,144 paths and of one path more, flat and JSON
lines      lines of 16,777,216 bytes, of several kinds, and of one byte more
inputs     no standard input, bytes without an end or without a newline, empty lines
outputs    a full device, a disk that fills up, pipes that are closed
mutants    scripts of tools/play.py with bytes and lines changed, 10,000 unless another number is given
memory     a script within ten bounds on the program's addresses, from the least with which it starts to ample
pages      a line within bounds a page apart; this is played only where it is named: the stack can find no page where the heap has
           taken the last, and then the kernel ends the program

PROGRAM is run as `PROGRAM run < script`. A line is printed for each run: what was played, the status, the peak of memory, the
time. The first run that is not as it must be ends the tool with 1; its script is kept. What must be printed is said by
tools/model.py, and stated by hand where the model would take too long.

The peak is the kernel's, and begins at that of the process that starts the program: so scripts are made in other processes. It
must not pass BASE, with PER_BYTE for each byte of the script, PER_RECORD for each line printed, which makes one record at most,
and what is said beside a script that has uncommonly many paths or JSON values. Linux alone has all that is needed here.
"""
import argparse
import collections
import contextlib
import io
import itertools
import multiprocessing
import os
import pathlib
import re
import resource
import shutil
import signal
import subprocess
import sys
import tempfile
import time

import evidence as ev
import model
import session_cases as stated
from cases import made
from long_cases import by_model, json_line, json_paths, longest_reply, memory_script, policies_of_a_gibibyte, printing, searched_reply
from mutants import follow, good_script, mutant

ROOT = pathlib.Path(__file__).resolve().parent.parent
LAST_TABLE = (ROOT / "docs" / "FORMATS.md").read_text().partition("### Exit statuses")[2]
DOCUMENTED = {int(status) for status in re.findall(r"(?m)^\| (\d+) \|", LAST_TABLE)}
MIB = 1 << 20
# A record has 184 bytes, and their list room for twice its length (bench/README.md); the others leave room beside what was measured.
BASE, PER_BYTE, PER_RECORD, PER_PATH, PER_VALUE, PER_OBJECT = 40 * MIB, 4, 2 * 184, 192, 80, 1_280
# In which a run must end.
SECONDS = 600
Ended = collections.namedtuple("Ended", "status peak seconds")


class Wrong(Exception):
    """What a run did, and what was wanted."""


def need(holds, complaint):
    if not holds:
        raise Wrong(complaint)


# ---- one run


def launch(program, source, sink, prepare=None):
    """Runs the program from one file to another; `prepare` is called in its process before it starts."""
    began = time.monotonic()
    child = subprocess.Popen([program, "run"], stdin=source, stdout=sink, stderr=subprocess.DEVNULL, preexec_fn=prepare)
    signal.signal(signal.SIGALRM, lambda *_: child.kill())
    signal.alarm(SECONDS)
    _, status, usage = os.wait4(child.pid, 0)
    signal.alarm(0)
    child.returncode = os.waitstatus_to_exitcode(status)
    return Ended(child.returncode, usage.ru_maxrss * 1024, time.monotonic() - began)


def show(title, status, peak, seconds):
    print(f"{title:<66} status {status:<3} peak {peak / MIB:>7.1f} MiB {seconds:>7.2f} s", flush=True)


def need_ended(ended, statuses, script, printed, beside=0):
    """Sees that a run ended with one of these statuses, and within its bound of memory."""
    need(ended.status in statuses, f"status {ended.status}, and {' or '.join(map(str, sorted(statuses)))} is wanted")
    with open(printed, "rb") as file:
        bound = BASE + PER_BYTE * script.stat().st_size + PER_RECORD * sum(1 for _ in file) + beside
    bound = max(bound, resource.getrusage(resource.RUSAGE_SELF).ru_maxrss * 1024)
    need(ended.peak <= bound, f"a peak of {ended.peak / MIB:.1f} MiB, and at most {bound / MIB:.1f} is wanted")


def need_alike(printed, wanted):
    """Compares lines one by one, so that it takes little memory where both are files."""
    for number, (one, other) in enumerate(itertools.zip_longest(printed, wanted), 1):
        need(one == other, f"line {number} of the output is {str(one)[:200]}, and {str(other)[:200]} is wanted")


def write_apart(make, folder):
    """Writes a script and what it must print, in a process of its own, and answers the status that it must end with."""

    def write():
        case = make()
        with open(folder / "script", "wb") as script:
            script.writelines([case.script] if isinstance(case.script, bytes) else case.script)
        (folder / "wanted").write_bytes(case.printed)
        sys.exit(case.status)

    maker = multiprocessing.get_context("fork").Process(target=write)
    maker.start()
    maker.join()
    need(maker.exitcode in DOCUMENTED, "the script could not be made")
    return maker.exitcode


def play_case(program, folder, title, make, beside=0, source=None, prepare=None):
    """Plays a made script, or what stands elsewhere; its lines, its status and its peak must be right."""
    status, script, printed = write_apart(make, folder), folder / "script", folder / "printed"
    with open(source or script, "rb") as handed, open(printed, "wb") as sink:
        ended = launch(program, handed, sink, prepare)
    show(title, *ended)
    need_ended(ended, [status], script, printed, beside)
    with open(printed, "rb") as found, open(folder / "wanted", "rb") as wanted:
        need_alike(found, wanted)


# How many of each a line has room for.
ZEROS, OBJECTS = model.LINE_BYTES // 2, model.LINE_BYTES // 7
CASES = {
    "journal": [("1,000,000 records, and what is refused then", stated.records_full),
                ("a poll that is closed as the 1,000,000th record", stated.records_full_at_a_close),
                ("1 GiB of policies, and what is refused then", policies_of_a_gibibyte)],
    "agents": [("1,024 agents, and the 1,025th", stated.agents_full)],
    "paths": [("a flat policy of 262,144 paths, and of 262,145", stated.most_paths, 2 * model.PATHS * PER_PATH),
              ("a JSON policy of 262,144 paths, and of 262,145", json_paths, 2 * model.PATHS * PER_PATH)],
    "lines": [("a comment of 16,777,216 bytes", stated.longest_comment), ("a comment of 16,777,217 bytes", stated.too_long_comment),
              ("an add of 16,777,216 bytes", stated.longest_add),
              ("an add of 16,777,217 bytes", lambda: by_model("now 1\n", stated.padded_add(model.LINE_BYTES + 1), "now 2\n")),
              ("an add of 16,777,217 bytes without its newline", lambda: by_model("now 1\n", stated.padded_add(model.LINE_BYTES + 1)[:-1])),
              ("a reply of 16,777,216 bytes, its list of newlines", longest_reply),
              ("a reply of 2,000 long paths, each searched for 32 patterns", searched_reply),
              ("a JSON policy of that length, of brackets that open", json_line("", "[")),
              ("a JSON policy of that length, of spaces", json_line('{"digests":{}', " ", "}")),
              ("a JSON policy of that length, a member of zeros", json_line('{"digests":{},"x":[0', ",0", "]}"), ZEROS * PER_VALUE),
              ("a JSON policy of that length, objects of one member",
               json_line('{"digests":{},"x":[0', ',{"":0}', "]}"), OBJECTS * PER_OBJECT),
              ("the member of zeros, refused", json_line('{"excludes":0,"digests":{},"x":[0', ",0", "]}"), ZEROS * PER_VALUE)],
    "inputs": [("a closed standard input", printing(b"", 4), 0, None, lambda: os.close(0)),
               ("zeros without an end", printing(b"fault line 1\n", 8), PER_BYTE * model.LINE_BYTES, "/dev/zero"),
               ("20,000,000 zeros", printing(b"fault line 1\n", 8, bytes(20_000_000))),
               ("1,000,000 empty lines", printing(b"", 0, b"\n" * 1_000_000)),
               ("1,000,000 empty lines, and a faulty one", printing(b"fault line 1000001\n", 3, b"\n" * 1_000_000 + b"x"))],
}


# ---- outputs


def limit(what, most):
    """Sets a limit of the system; a write past it fails, and brings no signal."""

    def prepare():
        signal.signal(signal.SIGXFSZ, signal.SIG_IGN)
        resource.setrlimit(what, (most, most))

    return prepare


def to_nothing(program, source, sink):
    return launch(program, source, sink, lambda: os.close(1))


def to_disk(room):
    return lambda program, source, sink: launch(program, source, sink, limit(resource.RLIMIT_FSIZE, room))


def to_pipe(count):
    """So many bytes are read, and then the pipe is closed."""

    def run(program, source, sink):
        with subprocess.Popen(["head", "-c", str(count)], stdin=subprocess.PIPE, stdout=sink) as reader:
            return launch(program, source, reader.stdin)

    return run


def play_outputs(program, folder):
    """What is written before writing fails must be what had to be written, as far as there was room."""
    moments = b"".join(f"now {n}\n".encode() for n in range(50_000))
    script, printed, full = folder / "script", folder / "printed", pathlib.Path("/dev/full")
    script.write_bytes((ROOT / "examples" / "fleet.script").read_bytes() + moments)
    wanted = (ROOT / "examples" / "fleet.printed").read_bytes() + moments
    runs = [("a full device", launch, full, 0), ("a closed standard output", to_nothing, printed, 0)]
    runs += [(f"a disk with room for {room:,} bytes", to_disk(room), printed, room) for room in (1, 100, 4_096, 300_000)]
    runs += [(f"a pipe that is closed behind {count:,} bytes", to_pipe(count), printed, count) for count in (0, 1, 1_000, 300_000)]
    for title, run, out, room in runs:
        printed.write_bytes(b"")
        with open(script, "rb") as source, open(out, "wb") as sink:
            ended = run(program, source, sink)
        show(title, *ended)
        need_ended(ended, [5], script, printed)
        found = printed.read_bytes()
        need(found == wanted[:room], f"the output has {len(found)} bytes, the last {found[-100:]}; the first {room} are wanted")


# ---- scripts that are changed


def play_mutant(program, script, printed):
    """Plays a script beside the model; answers its status, whether it went on to what the model can't play, and the peak."""
    with open(script, "rb") as source, open(printed, "wb") as sink:
        ended = launch(program, source, sink)
    found = printed.read_bytes()
    wanted, status = follow(script.read_bytes(), found)
    need_ended(ended, DOCUMENTED if status is None else [status], script, printed)
    need_alike(io.BytesIO(found if status is not None else found[: len(wanted)]), io.BytesIO(wanted))
    need(found.endswith(b"\n") or not found, f"a line that is not whole: {found[-300:]}")
    return (ended.status, status is None), ended.peak


def play_mutants_of(task):
    """Plays some mutants of one script: how they ended, and the highest peak."""
    program, folder, seed, count = task
    script, printed = folder / f"{seed}.script", folder / f"{seed}.printed"
    (maker, lines), ends, peak = good_script(seed), collections.Counter(), 0
    for _ in range(count):
        script.write_bytes(mutant(maker, lines))
        try:
            end, reached = play_mutant(program, script, printed)
        except Exception as fault:
            shutil.copy(script, folder / "script")
            raise Wrong(f"{type(fault).__name__}: {fault}, in a mutant of script {seed}") from None
        ends[end], peak = ends[end] + 1, max(peak, reached)
    script.unlink()
    printed.unlink()
    return ends, peak


def play_mutants(program, folder, count, seed):
    """Mutants of scripts, some of each, in four processes at a time."""
    each, ends, peak, began = 20, collections.Counter(), 0, time.monotonic()
    tasks = [(program, folder, f"{seed}.{n}", min(each, count - n * each)) for n in range(-(-count // each))]
    with multiprocessing.get_context("fork").Pool(4, os.nice, [5]) as workers:
        for some, reached in workers.imap_unordered(play_mutants_of, tasks):
            ends, peak = ends + some, max(peak, reached)
    for (status, beyond), times in sorted(ends.items()):
        more = ", on to what the model can't play" if beyond else ""
        show(f"{times:,} of {count:,} mutated scripts{more}", status, peak, time.monotonic() - began)


# ---- want of memory


def least_size(program):
    """The least bound on addresses, in pages, with which the program starts: it reads nothing, and ends with 0 or 70."""
    low, high = 0, 1 << 34
    while high - low > 4_096:
        middle, status = (low + high) // 8_192 * 4_096, None
        with contextlib.suppress(subprocess.SubprocessError, OSError):
            status = launch(program, subprocess.DEVNULL, subprocess.DEVNULL, limit(resource.RLIMIT_AS, middle)).status
        low, high = (low, middle) if status in (0, 70) else (middle, high)
    return high


def need_front(printed, wanted):
    """Sees that whole lines were printed, the first of what is wanted; a poll may have been dropped for want of memory."""
    dropped = [re.sub(rb"verdict (\d+) .* state 3", rb"dropped \1 memory state 3", line) for line in wanted]
    need_alike(printed, [other if line == other else line_wanted for line, line_wanted, other in zip(printed, wanted, dropped)])


def play_memory(program, folder):
    """A script within ten bounds, each larger by the same factor, the last as large as the peak may be. What needs memory here is
    done in other processes."""
    script, printed, wanted, statuses = folder / "script", folder / "printed", folder / "wanted", []
    write_apart(lambda: made("", memory_script(), b""), folder)
    least, ample = least_size(program), BASE + PER_BYTE * script.stat().st_size
    for size in (int(least * (ample / least) ** (step / 9)) for step in range(10)):
        with open(script, "rb") as source, open(printed, "wb") as sink:
            ended = launch(program, source, sink, limit(resource.RLIMIT_AS, size))
        write_apart(lambda: made("", script.read_bytes(), follow(script.read_bytes(), printed.read_bytes())[0]), folder)
        found, stated_lines = (file.read_bytes().splitlines(keepends=True) for file in (printed, wanted))
        dropped = sum(line.startswith(b"dropped") for line in found)
        show(f"{size / MIB:.2f} MiB of addresses: {len(found)} of {len(stated_lines)} lines, {dropped} polls dropped", *ended)
        need_ended(ended, [0, 70] if len(found) == len(stated_lines) else [70], script, printed)
        need_front(found, stated_lines)
        statuses.append(ended.status)
    need({*statuses} == {0, 70}, f"statuses {statuses}: memory must run out, and be ample")


def play_pages(program, folder):
    """The shortest script that takes more stack than a program is given at its start, within bounds a page apart."""
    script, printed, ends, peak, began = folder / "script", folder / "printed", collections.Counter(), 0, time.monotonic()
    script.write_text(ev.add_line('{"digests":{}}', kind="json"))
    least = least_size(program)
    for size in range(least, least + 64 * 4_096, 1_024):
        with open(script, "rb") as source, open(printed, "wb") as sink:
            ended = launch(program, source, sink, limit(resource.RLIMIT_AS, size))
        ends[ended.status], peak = ends[ended.status] + 1, max(peak, ended.peak)
    for status, times in sorted(ends.items()):
        show(f"{times} of {ends.total()} runs within {least / MIB:.2f} to {size / MIB:.2f} MiB", status, peak, time.monotonic() - began)
    need({*ends} <= {0, 70}, f"statuses {sorted(ends)}, and 0 and 70 alone are wanted")


# ---- all


def play_all(asked, folder):
    others = {"outputs": play_outputs, "memory": play_memory, "pages": play_pages,
              "mutants": lambda program, place: play_mutants(program, place, asked.mutants, asked.seed)}
    for name in asked.names:
        kept = pathlib.Path(tempfile.gettempdir(), f"long-{name}.script")
        try:
            for case in CASES.get(name, []):
                play_case(asked.program, folder, *case)
            others.get(name, lambda *_: None)(asked.program, folder)
        except Wrong as fault:
            shutil.copy(folder / "script", kept)
            sys.exit(f"{name}: {fault}; the script is kept as {kept}")


def main():
    names = [*CASES, "outputs", "mutants", "memory", "pages"]
    options = argparse.ArgumentParser(description=__doc__, formatter_class=argparse.RawDescriptionHelpFormatter)
    options.add_argument("program", type=lambda name: str(pathlib.Path(name).resolve()))
    options.add_argument("names", nargs="*", metavar="NAME", default=names[:-1])
    options.add_argument("--mutants", type=int, default=10_000)
    options.add_argument("--seed", default="1")
    asked = options.parse_args()
    if unknown := {*asked.names} - {*names}:
        options.error(f"no runs have the name {', '.join(unknown)}")
    with tempfile.TemporaryDirectory() as folder:
        play_all(asked, pathlib.Path(folder))


if __name__ == "__main__":
    main()
