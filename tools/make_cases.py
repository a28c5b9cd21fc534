#!/usr/bin/env python3
"""Makes the worked examples, from the public formats alone, with what each must print stated by hand.

    tools/make_cases.py            writes examples/ and the stdin and stdout of crates/kl_cases
    tools/make_cases.py --check    says whether they stand as they would be written
    tools/make_cases.py --run P    runs each whose keys meet no fault and whose nonces are given through the program P, the long
                                   ones too, which are stored nowhere

The cases are those of appraisal_cases.py, session_cases.py, desk_cases.py, policy_cases.py and registrar_cases.py.
"""
import pathlib
import subprocess
import sys

import appraisal_cases  # noqa: F401
import desk_cases  # noqa: F401
import policy_cases
import registrar_cases  # noqa: F401
import session_cases  # noqa: F401
from cases import CASES, LONG

ROOT = pathlib.Path(__file__).resolve().parent.parent
# More bytes than any stored case prints, as crates/kl_cases has it.
ROOM = 65_536


def stored_cases():
    """Those that crates/kl_cases runs: it reads lines of text, and each script is what stands up to the next mark."""
    kept = [c for c in CASES if c.stored]
    for c in kept:
        lines = c.script.decode().split("\n")
        assert lines[-1] == "" and "\r" not in c.script.decode() and not any(line.startswith("== ") for line in lines), c.name
        assert len(c.printed) < ROOM and "\n" not in c.name, c.name
    names = [c.name for c in CASES]
    assert len(set(names)) == len(names), [name for name in names if names.count(name) > 1]
    return kept


def files():
    """The bytes of every file that is written, by its place."""
    made = {}
    for c in CASES:
        if c.example:
            made[f"examples/{c.name}.script"] = c.script
            made[f"examples/{c.name}.printed"] = c.printed
    made["examples/policy.json"] = policy_cases.EXAMPLE.encode()
    kept = stored_cases()
    made["crates/kl_cases/stdin"] = b"".join(f"== {c.key_faults} {c.words} {c.name}\n".encode() + c.script for c in kept)
    made["crates/kl_cases/stdout"] = b"".join(b"== %s\n%sstatus %d\n" % (c.name.encode(), c.printed, c.status) for c in kept)
    first = next(c for c in CASES if c.name == "session")
    made["crates/keylime/stdin"], made["crates/keylime/stdout"] = first.script, first.printed
    return made


def wrongly_run(program):
    """The names of the cases that the program does not print as stated, or does not end as stated, with where they part."""
    wrong = []
    runs = [lambda c=c: c for c in CASES if c.runs_by_program()] + LONG
    for make in runs:
        c = make()
        ran = subprocess.run([program, "run"], input=c.script, stdout=subprocess.PIPE)
        if (ran.stdout, ran.returncode) != (c.printed, c.status):
            wrong.append((c.name, parting(c, ran)))
    return wrong


def parting(c, ran):
    """The first line that differs, or the two statuses."""
    stated, found = c.printed.split(b"\n"), ran.stdout.split(b"\n")
    for number, pair in enumerate(zip(stated, found), 1):
        if pair[0] != pair[1]:
            return f"line {number}: {pair[1][:200]!r} for {pair[0][:200]!r}"
    return f"{len(found)} lines for {len(stated)}, status {ran.returncode} for {c.status}"


def stale_files():
    """The files that are not as they would be written, and the examples that would not be written at all."""
    made = files()
    stale = [path for path, content in made.items()
             if not (ROOT / path).exists() or (ROOT / path).read_bytes() != content]
    there = [f"examples/{path.name}" for path in sorted((ROOT / "examples").iterdir())]
    return stale + [path for path in there if path not in made]


def main():
    match sys.argv[1:]:
        case ["--run", program]:
            wrong = wrongly_run(program)
            for name, where in wrong:
                print(f"{name} is not printed as stated: {where}")
            return 1 if wrong else 0
        case ["--check"]:
            stale = stale_files()
            for path in stale:
                print(f"{path} is not what tools/make_cases.py writes")
            return 1 if stale else 0
        case []:
            write_files()
            return 0
        case _:
            print(__doc__, file=sys.stderr)
            return 2


def write_files():
    stale = stale_files()
    for path, content in files().items():
        (ROOT / path).parent.mkdir(parents=True, exist_ok=True)
        (ROOT / path).write_bytes(content)
    kept = sum(c.stored for c in CASES)
    run = sum(c.runs_by_program() for c in CASES) + len(LONG)
    print(f"{len(CASES) + len(LONG)} cases, {kept} of them stored and {run} run by --run; {len(stale)} files changed")


if __name__ == "__main__":
    sys.exit(main())
