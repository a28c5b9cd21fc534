"""Scripts that are at a limit, or of the longest lines, and the one that tools/long_runs.py plays where memory runs out."""
import io
import json
import random

import evidence as ev
import model
import play
from cases import GOOD, Case, made

LONGEST, PATHS = model.LINE_BYTES, model.PATHS


def by_model(*lines):
    """A script of these lines, and what the model says of it."""
    script = "".join(lines).encode()
    printed, status = model.run(script, io.BytesIO())
    return made("", script, printed, status=status)


def policies_of_a_gibibyte():
    """64 policies that weigh 1 GiB less 1,024 bytes, and then 1 GiB. Each line is filled up to its length as it is written."""
    full, policy, before = "refused journalfull bytes", "replace a1 flat aa  ", len("replace a1 flat ")
    steps = [(ev.add_line("").removesuffix("\n"), 0, "installed a1 generation 1")]
    steps += [(f"{policy}{n}", LONGEST, f"installed a1 generation {n + 2}") for n in range(64)]
    steps += [(policy, LONGEST, full), ("begin a1 n1", 0, full), (policy, before + 1_025, full),
              ("state a1", 0, "state a1 1 START generation 65 accepted 0"), (policy, before + 1_024, "installed a1 generation 66"),
              ("replace a1 flat \\n", 0, full), ("reactivate a1", 0, "installed a1 generation 67"),
              ("state a1", 0, "state a1 1 START generation 67 accepted 0")]
    script = (line.ljust(length, "x").encode() + b"\n" for line, length, _ in steps)
    return Case("", script, "".join(f"{printed}\n" for _, _, printed in steps).encode())


def json_paths():
    most, more = (json.dumps({"digests": {f"{n:x}": ["aa"] for n in range(count)}}) for count in (PATHS, PATHS + 1))
    return by_model(ev.add_line(most, kind="json"), ev.replace_line(more, kind="json"), "state a1\n")


def filled(line, piece, closing=""):
    """A line of a JSON policy, or a list, with so many of a piece that it has 16,777,216 bytes, or less by less than a piece."""
    return line.removesuffix("\n") + piece * ((LONGEST + 1 - len(line) - len(closing)) // len(piece)) + closing + "\n"


def json_line(opening, piece, closing=""):
    return lambda: by_model(filled(ev.add_line(opening, kind="json"), piece, closing), "state a1\n")


def longest_reply():
    lines = [ev.reply_line(ev.quote_of("sha256", "n1", GOOD), text) for text in ("x", "xx")]
    line = next(line for line in lines if len(line) % 2)
    return by_model(ev.add_line(ev.POLICY), ev.begin_line(), filled(line, "\\n"), "state a1\n")


def searched_reply():
    """A reply with 2,000 long paths, each searched for 32 patterns, of which the last alone excludes it; most would take a search
    that goes back beyond any time."""
    entries = [ev.Entry(f"{n:04}" + "ab" * 4_000, bytes(32)) for n in range(2_000)]
    policy = json.dumps({"digests": {}, "excludes": [f"(?:[0-9ab]+)*x{n}" for n in range(31)] + ["[0-9]+"]})
    lines = [ev.add_line(policy, kind="json", v="-"), ev.begin_line(),
             ev.reply_line(ev.quote_of("sha256", "n1", entries), ev.list_text(entries))]
    printed = ["installed a1 generation 1", "poll 1 a1 generation 1 nonce n1 from 0", "verdict 1 pass 2000 current state 3"]
    return made("", "".join(lines), "".join(f"{line}\n" for line in printed))


def printing(printed, status, script=b""):
    return lambda: made("", script, printed, status=status)


def memory_script():
    """Policies that are replaced, polls of 1,000 entries that pass, and calls of the registrar. As there is no V, and `state` comes
    before polls alone, a poll that is dropped for want of memory changes no line but its own."""
    chance = random.Random(7)
    entries = [ev.Entry(f"/{chance.choice(['opt', 'usr/lib', 'srv/opt'])}/{n:x}/x", chance.randbytes(32)) for n in range(1_000)]
    kept = [entry for entry in entries if not entry.path.startswith("/opt/")]
    lines = [ev.add_line("", agent=agent, v="-") for agent in ("flat", "json")]
    for turn in range(12):
        more = [ev.Entry(f"/more/{turn}/{n}", bytes(32)) for n in range(3_000)]
        policies = {"flat": ev.flat_policy(entries + more), "json": ev.json_policy(kept + more, excludes=play.PATTERNS[: 1 + turn % 6])}
        for place, (kind, policy) in enumerate(policies.items(), 1):
            quote = ev.quote_of("sha256", f"n{turn}", entries)
            lines += [ev.replace_line(policy, kind, kind), f"state {kind}\n", ev.begin_line(f"n{turn}", kind)]
            lines += [ev.reply_line(quote, ev.list_text(entries), poll=str(2 * turn + place))]
        lines += [f"register r{turn} 6b31 6b32 h\n", f"activate r{turn} {bytes(48).hex()}\n", f"record r{turn}\n", "records\n", "pick\n"]
    return "".join(lines + ["forget r3\n"]).encode()


