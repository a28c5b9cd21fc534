#!/usr/bin/env python3
"""Runs the built program where the worked examples can't reach, and compares its statuses with those of docs/FORMATS.md.

    tools/check_statuses.py PROGRAM

Status 6 is not met: the system's random bytes neither fail nor end.
"""
import os
import pathlib
import re
import subprocess
import sys
import tempfile

import evidence as ev

ROOT = pathlib.Path(__file__).resolve().parent.parent
SCRIPT = (ROOT / "examples" / "session.script").read_bytes()
PRINTED = (ROOT / "examples" / "session.printed").read_bytes()
LONGEST = 16_777_216
ADD = ev.add_line(ev.POLICY).encode()
ADDED = b"installed a1 generation 1\n"
CLOSED = object()


def run(program, words, *, script=CLOSED, out=None):
    """The status and the output of a run. The script is bytes, or the path of what is read, or closed."""
    with tempfile.TemporaryFile() as source, open(out or os.devnull, "wb") as full:
        handed = source
        if isinstance(script, bytes):
            source.write(script)
            source.seek(0)
        elif script is not CLOSED:
            handed = os.open(script, os.O_RDONLY)
        closing = (lambda: os.close(0)) if script is CLOSED else None
        sink = full if out else subprocess.PIPE
        done = subprocess.run([program, *words], stdin=handed, stdout=sink, stderr=subprocess.PIPE, preexec_fn=closing)
        if isinstance(handed, int):
            os.close(handed)
    return done.returncode, done.stdout or b"", done.stderr


def cases():
    """What is run: a name, the words, what is handed over, the status, and what is printed (None: anything but nothing)."""
    given = {"script": SCRIPT}
    return [
        ("no words", [], given, 2, b""),
        ("a word too many", ["run", "x"], given, 2, b""),
        ("another word", ["walk"], given, 2, b""),
        ("an empty word", [""], given, 2, b""),
        ("help and a word", ["--help", "run"], given, 2, b""),
        ("words that are no text", ["run", b"\xff"], given, 2, b""),
        ("help", ["--help"], given, 0, None),
        ("version", ["--version"], given, 0, None),
        ("help without a standard input", ["--help"], {}, 0, None),
        ("a session", ["run"], given, 0, PRINTED),
        ("nothing to read", ["run"], {"script": b""}, 0, b""),
        ("a line that spells nothing", ["run"], {"script": ADD + b"walk\n" + ADD}, 3, ADDED + b"fault line 2\n"),
        ("a line that is too long", ["run"], {"script": ADD + b"\n" + b"x" * (LONGEST + 1)}, 8, ADDED + b"fault line 3\n"),
        ("a closed standard input", ["run"], {}, 4, b""),
        ("a folder as standard input", ["run"], {"script": "/"}, 4, b""),
        ("a full device", ["run"], {**given, "out": "/dev/full"}, 5, b""),
        ("a full device and nothing to print", ["run"], {"script": b"# nothing\n", "out": "/dev/full"}, 0, b""),
        ("a full device and a faulty line", ["run"], {"script": b"walk\n", "out": "/dev/full"}, 5, b""),
        ("help to a full device", ["--help"], {**given, "out": "/dev/full"}, 5, b""),
    ]


def wrong_statuses(program):
    for name, words, handed, status, printed in cases():
        found, said, complained = run(program, words, **handed)
        right = bool(said) if printed is None else said == printed
        if found != status or not right or complained:
            yield f"{name}: status {found} for {status}, printed {said[:60]!r}, on standard error {complained[:60]!r}"


def wrong_nonces(program):
    """Two runs that draw two nonces each must draw four that differ, of 32 lower-case digits."""
    agents = b"".join(ev.add_line("", agent=agent).encode() for agent in ("a1", "b1"))
    drawn = set()
    for _ in range(2):
        status, said, _ = run(program, ["run"], script=agents + b"begin a1\nbegin b1\n")
        nonces = re.findall(rb"^poll \d [ab]1 generation \d nonce ([0-9a-f]{32}) from 0$", said, re.M)
        if status != 0 or len(nonces) != 2:
            yield f"drawn nonces: status {status}, printed {said!r}"
        drawn.update(nonces)
    if len(drawn) != 4:
        yield f"of four drawn nonces {len(drawn)} differ"


def wrong_registers(program):
    """A registrar takes 1,024 agents, and goes on to take those that it has; no two blobs are alike."""
    agents = [f"r{n}" for n in range(1024)] + ["z", "r0", "r1023"]
    script = "".join(f"register {agent} 6531 6b31 h:9002\n" for agent in agents) + "records\n"
    status, said, _ = run(program, ["run"], script=script.encode())
    lines = said.decode().splitlines()
    blobs = [line for line in lines if re.fullmatch(r"blob r\d+ [A-Za-z0-9+/]{86}==", line)]
    named = [line.split()[1] for line in blobs]
    if status != 0 or named != agents[:1024] + agents[1025:] or len({line.split()[2] for line in blobs}) != 1026:
        yield f"1,026 registers: status {status}, {len(blobs)} blobs"
    if lines[1024:1025] != ["refused full"] or lines[-1:] != ["records 0"]:
        yield f"a full registrar: printed {lines[1024:1025]}, and {lines[-1:]} at the end"


def unlike_statuses(program):
    """The statuses that --help names must be those of the last table of docs/FORMATS.md."""
    _, said, _ = run(program, ["--help"], script=b"")
    helped = re.findall(r"^ +(\d+)  ", said.decode().partition("\nstatus\n")[2], re.M)
    told = re.findall(r"^\| (\d+) \|", (ROOT / "docs" / "FORMATS.md").read_text().partition("### Exit statuses")[2], re.M)
    if helped != told or not told:
        yield f"statuses {helped} in --help, {told} in docs/FORMATS.md"


def main():
    if len(sys.argv) != 2:
        print(__doc__, file=sys.stderr)
        return 2
    program = pathlib.Path(sys.argv[1]).resolve()
    faults = [*wrong_statuses(program), *wrong_nonces(program), *wrong_registers(program), *unlike_statuses(program)]
    for fault in faults:
        print(fault)
    return 1 if faults else 0


if __name__ == "__main__":
    sys.exit(main())
