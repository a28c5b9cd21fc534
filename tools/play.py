#!/usr/bin/env python3
"""Plays random scripts on a program and on tools/model.py, and compares what they print byte for byte, and the statuses.

    tools/play.py PROGRAM [--scripts N] [--seed S] [--commands add,begin,..] [--tally]

PROGRAM is run as `PROGRAM run` and is given a line at a time, since the next line may follow from what was drawn: the bytes that
it drew are read off what it printed. The first script that differs is kept, and ends the tool with 1.
"""
import argparse
import base64
import collections
import contextlib
import hashlib
import io
import json
import pathlib
import random
import re
import signal
import subprocess
import sys
import tempfile

import evidence as ev
import model

AGENTS = ["a1", "a10", "B_2", "c.3", "-", "x" * 64]
PATHS = ["boot_aggregate", "/bin/sh", "/usr/bin/two words", "/opt/x", "/srv/opt/x", "/etc/\u00fc", "/back\\slash"]
PATTERNS = ["/opt/", ".*/x", "/bin/(sh|ls)$", "/usr/[a-z]+/two", "^/srv", "/etc/.$"]
ODD_PATTERNS = ["x?", "", "(", "a)", "[", "*", "a" * 513]
# What stands now and then in place of what a member of a policy has.
VALUES = [None, "", [], {}, "x", ["aa"], {"b": ["x"], "a": ["aa", "a"]}, {"/x": []}, {"/x": "aa"}, 0, 1.5, True, ["a"] * 33]
TEXTS = ["h:9002", "two words", "\\ \n", ""]
KEYS = ["6b31", "6B32", bytes(range(64)).hex(), "00" * 100]
# What may be wrong with a reply.
FLAWS = ["nonce", "pcr10", "pcr16", "static", "length", "digest", "selection", "attestation", "signature", "text", "bank", "start",
         "list"]
WEIGHTS = {"add": 8, "replace": 2, "reactivate": 5, "stop": 1, "remove": 3, "now": 2, "begin": 12, "reply": 10, "state": 3, "lose": 5,
           "pick": 3, "notice": 2, "noticed": 2, "release": 12, "settle": 10, "register": 2, "activate": 3, "record": 1, "records": 1,
           "forget": 0.5}
# In which a script must be played; a program that does not answer is ended then.
SECONDS = 60
# What a script may be mostly about.
STORIES = [["begin", "lose", "now", "pick", "reactivate", "notice"],
           ["begin", "reply", "release", "settle", "reactivate", "notice"],
           ["register", "activate", "record", "records", "forget"], ["add", "begin", "reply", "release", "remove"],
           ["replace", "begin", "reply", "notice", "noticed"]]
# The states in which an agent is mostly named by a command.
STATES = {"add": [None], "begin": model.LIVE, "stop": model.LIVE, "release": [5, 6], "reactivate": [7, 9, 10]}


class Maker:
    """Makes lines, each from what the model's session holds."""

    def __init__(self, seed, session, names):
        self.chance, self.session, self.names = random.Random(seed), session, names
        self.agents = self.chance.sample(AGENTS, self.chance.randint(1, 4))
        story = self.chance.choice([*STORIES, names])
        self.weights = [WEIGHTS[name] * (1 if name in story else 0.1) for name in names]
        odds = [0.01, 0.05], [0.01, 0.2], [0.2, 0.6, 0.95]
        self.odds, self.odd_entries, self.missed = map(self.chance.choice, odds)

    def rarely(self, times=1):
        return self.chance.random() < self.odds * times

    def some(self, texts, most):
        return self.chance.sample(texts, self.chance.randint(0, most))

    def torn(self, text):
        """A text with a byte changed, added or taken away, or with its end cut off."""
        at = self.chance.randrange(len(text) + 1)
        new = bytes([self.chance.choice([0, 32, 48, 92, 255, self.chance.randrange(256)])])
        return text[:at] + self.chance.choice([new + text[at + 1 :], new + text[at:], text[at + 1 :], b""])

    def likely(self, name):
        """The agents, polls or releases that a command is mostly about."""
        if name in ("reply", "lose", "settle"):
            return [r.number for r in self.session.open("release" if name == "settle" else "begin")]
        if name in ("activate", "record", "forget"):
            return [agent for agent in self.agents if agent in self.session.registered]
        polled = [r.agent for r in self.session.open("begin")] if name == "begin" else []
        fit = STATES.get(name)
        return [agent for agent in self.agents if agent not in polled and (not fit or self.session.state_of(agent) in fit)]

    def line(self):
        """A command, now and then torn, or another line."""
        for _ in range(6):
            name = self.chance.choices(self.names, self.weights)[0]
            about = self.likely(name)
            if about:
                break
        other = [0, 1, 2, 2**64 - 1] if name in ("reply", "lose", "settle") else AGENTS + self.agents
        about = self.chance.choice(other if self.rarely() or not about else about)
        words = getattr(self, name, str)(about)
        line = (name if words is None else f"{name} {words}").encode()
        if self.rarely(0.3) and b"excludes" not in line:
            line = self.torn(line).replace(b"\n", b"")
        return self.chance.choice([b"", b"# a comment", b"#\xff", b"bogus"]) if self.rarely(0.1) else line

    def lines(self):
        """A script: now and then one that fills what has a limit, or whose last line lacks its newline."""
        length = self.chance.choice([20, 60, 120])
        if self.rarely(0.5):
            count = self.chance.choice([66, 66, 66, 1_026])
            crowd = ["add x{} h sha1 0x10400 - 6b - flat " + self.chance.choice(["", "aa  /x"])]
            crowd += ["begin x{} n" if count == 66 else "register x{} 6b 6b h"]
            self.agents, length = ["x0", "x63", "x64", "x1023", "x1024"], 20
            yield from (f"{form.format(n)}\n".encode() for form in crowd if form.split()[0] in self.names for n in range(count))
        yield from (f"add {self.add(agent)}\n".encode() for agent in self.agents if "add" in self.names and not self.rarely(4))
        yield from (self.line() + b"\n" for _ in range(length))
        if self.rarely(5):
            yield b"x" * 16_777_217 if self.rarely() else self.line()

    # ---- policies

    def policy(self):
        paths = [path for path in PATHS if not self.rarely(2)] + self.some(PATHS, 2)
        entries = [ev.Entry(path, hashlib.sha256(path.encode()).digest()) for path in paths]
        entries += [ev.Entry(path, bytes(self.chance.randint(1, 64))) for path in self.some(PATHS, 2)]
        kind = self.chance.choice(["flat", "json"])
        text = self.flat(entries) if kind == "flat" else self.json(entries)
        if self.rarely(4):
            text = re.sub('(?m)^[0-9a-f]+|"[0-9a-f]{2,}"', lambda digest: digest[0].upper(), text)
        return f"{kind} {ev.escape_rest(text).replace(' ', self.chance.choice([' ', chr(92) + 's']))}"

    def flat(self, entries):
        lines = ev.flat_policy(entries).split("\n")
        if self.rarely(4):
            lines.append(self.chance.choice(["aa /x", "aaa  /x", "aa  ", " aa  /x", "AA" * 65 + "  /x", "AA" * 64 + "  /x"]))
        self.chance.shuffle(lines)
        return "\n".join(lines)

    def json(self, entries):
        said = ev.json_members(entries, excludes=self.some(PATTERNS + ODD_PATTERNS * self.rarely(4), 3))
        for path in self.some([*said["digests"]], 2):
            said["digests"][path].insert(self.chance.randint(0, 1), "aa" * self.chance.randint(1, 64))
        said |= {"kl-violations": self.chance.choice(["pass", "fail"])} if self.chance.random() < 0.6 else {}
        for name in self.some([*said, "kl-violations"], 4) if self.rarely(4) else []:
            said[name] = self.chance.choice(VALUES)
        text = json.dumps(said, ensure_ascii=self.chance.random() < 0.5, indent=self.chance.choice([None, 1]))
        others = ["[]", "{", text + "x", text[:-1], "[" * 128 + "]" * 128, "[" * 127 + "]" * 127, text.replace("digests", "digest")]
        return self.chance.choice(others) if self.rarely() else text

    # ---- replies

    def entries(self):
        paths = ["boot_aggregate"] + self.chance.choices(PATHS, k=self.chance.randint(0, 4)) + ["/new"] * self.rarely()
        for path in paths:
            digest = hashlib.sha256(("other" * self.rarely() + path).encode()).digest()
            odd = self.chance.random() < self.odd_entries
            algorithm, wrong = self.chance.choice(["sha256", "sm-3_x"]), self.chance.choice([bytes(20), b"\x11" * 20])
            yield ev.Entry(path, digest, algorithm, wrong if odd else None)

    def reply(self, number):
        poll = next((r for r in self.session.open("begin") if r.number == number), None)
        if not poll:
            return f"{number} sha256 0 P r:: "
        terms, entries = self.session.under(poll)[0].terms, list(self.entries())
        flaw = self.chance.choice(FLAWS) if self.rarely(4) else ""
        public, start, bank = self.chance.choice(TEXTS), 0, terms.bank
        quote, measured = self.quote(terms, poll.nonce, flaw, public, entries), ev.list_text(entries)
        if flaw == "list":
            measured = self.torn(measured.encode()).decode("latin-1")
        if flaw == "start":
            start = self.chance.choice([1, 2, 2**64 - 1])
        if flaw == "bank":
            bank = self.chance.choice(["sha1", "SHA256", "", "sm3_256"])
        bank, public, quote = map(ev.escape_field, (bank, public, quote))
        return f"{number} {bank} {start} {public} {quote} {ev.escape_rest(measured)}"

    def quote(self, terms, nonce, flaw, public, entries):
        algorithm, size = ev.BANKS[terms.bank]
        values = {n: bytes(size) for n in range(24) if terms.mask >> n & 1} | {n: self.chance.choice(v) for n, v in terms.statics}
        cut = self.chance.randint(1, len(entries)) if self.rarely(4) else len(entries)
        values |= {10: ev.replay(terms.bank, entries[:cut]), 16: ev.binding(terms.bank, public)}
        statics = [n for n, _ in terms.statics]
        wrong = {"pcr10": [10], "pcr16": [16], "length": [10], "static": statics[self.chance.randint(0, 1) :]}
        values |= {n: b"\x55" * (size - (flaw == "length")) for n in wrong.get(flaw, [])}
        good = ev.selection(algorithm, terms.mask.to_bytes(self.chance.randint(3, 5), "little"))
        others = [[], [good, good], [ev.selection(0x12, good[3:])], [ev.selection(algorithm, b"\0\4\1\1")]]
        selections = self.chance.choice(others) if flaw == "selection" else [good]
        selections += [ev.selection(algorithm, bytes(self.chance.randint(0, 3)))] * self.rarely(4)
        changes = {"attestation": self.torn, "digest": lambda body: body[:-1] + b"\x55"}
        text = ev.Quote(terms.bank, "other" if flaw == "nonce" else nonce, values, b"other" if flaw == "signature" else terms.ak,
                        self.chance.choices([(1, 0), (1, 1), (2, 0)], [8, 1, 1])[0], selections,
                        change=changes.get(flaw, lambda body: body)).text()
        return self.torn(text.encode()).decode("latin-1") if flaw == "text" else text

    # ---- the words of other lines

    def add(self, agent):
        bank = self.chance.choice(list(ev.BANKS))
        size = ev.BANKS[bank][1]
        statics = {n: [bytes([n + 7 * k]) * size for k in range(self.chance.randint(1, 2))] for n in self.some([0, 7, 23], 2)}
        mask = sum(1 << n for n in {10, 16, self.chance.randrange(24), *statics})
        parts = [f"{n}={','.join(value.hex() for value in values)}" for n, values in statics.items()]
        if self.rarely(2):
            mask ^= 1 << self.chance.choice([0, 7, 10, 16])
            parts += self.chance.choice([parts, ["10=" + "00" * 20], ["0=" + "00" * 20], ["7=" + "00" * 48], ["24=" + "00" * 32]])
        contact, share = ev.escape_field(self.chance.choice(TEXTS)), self.chance.choice(["-", "5a" * 32, "A5" * 32])
        return f"{agent} {contact} {bank} 0x{mask:x} {';'.join(parts) or '-'} {self.chance.choice(KEYS)} {share} {self.policy()}"

    def replace(self, agent):
        return f"{agent} {self.policy()}"

    def begin(self, agent):
        nonce = "".join(self.chance.choices("abcXYZ019", k=self.chance.choice([1, 8, 64])))
        return f"{agent} {nonce}" if self.chance.random() < 0.8 else agent

    def settle(self, number):
        return f"{number} {'missed' if self.chance.random() < self.missed else 'arrived'}"

    def now(self, _):
        moments = [self.session.moment_of(install) for install in list(self.session.installed().values())[:4]]
        near = [max(moment - self.chance.randint(0, 1), 0) for moment in moments]
        return f"{self.chance.choice(near + [7] + [2**64 - 9_000, 2**64 - 1] * self.rarely())}"

    def noticed(self, _):
        return f"{self.chance.randint(0, 3) if self.rarely(2) else len(self.session.marked) + 1}"

    def pick(self, _):
        return None

    notice = records = pick

    def register(self, agent):
        ek, ak = self.chance.choices(KEYS, k=2)
        return f"{agent} {ek} {ak} {ev.escape_field(self.chance.choice(TEXTS))}"

    def activate(self, agent):
        found = self.session.registered.get(agent)
        tag = model.tag_of(agent, found.secret if found and not self.rarely(4) else bytes(32))
        tags = [tag[:-2], "", tag + " "] if self.rarely() else [tag, tag.upper()]
        return f"{agent} {ev.escape_field(self.chance.choice(tags))}"


def drawn_for(line, printed):
    """What the program drew for a line, read off what it printed; any bytes where that does not say."""
    try:
        words, told = line.decode().split(" "), printed.split(" ")
        if told[0] == "poll":
            return bytes.fromhex(told[6])
        if told[0] == "blob":
            return model.masked(bytes.fromhex(words[2]), bytes.fromhex(words[3]), base64.b64decode(told[2])[:32])
    except (ValueError, IndexError):
        pass
    return bytes(32)


def give(stdin, line):
    """Writes a line; one without a newline is the last. A program that has ended reads no more."""
    try:
        stdin.write(line)
        if line.endswith(b"\n"):
            stdin.flush()
        else:
            stdin.close()
    except BrokenPipeError:
        pass


def parting(running, seed, names, kept, tally):
    """Where a script parts from the model, or nothing; its lines go to `kept`."""
    session, status = model.Session(None), None
    for place, line in enumerate(Maker(seed, session, names).lines(), 1):
        kept.append(line)
        give(running.stdin, line)
        first = line.split(b" ")[0]
        printed = running.stdout.readline() if first in (b"begin", b"register") else None
        session.words = io.BytesIO(drawn_for(line, (printed or b"").decode()))
        text, status = model.step(session, place, line.removesuffix(b"\n"))
        if text is not None:
            printed = running.stdout.readline() if printed is None else printed
            tally[kind_of(text)] += 1
            if printed != f"{text}\n".encode():
                return f"line {place}: {printed!r} where the model has {text!r}"
        if status is not None:
            break
    if not running.stdin.closed:
        give(running.stdin, b"")
    rest, ended = running.stdout.read(), running.wait()
    return None if (rest, ended) == (b"", status or 0) else f"the end: {rest!r}, status {ended} where the model has {status or 0}"


def kind_of(text):
    """An answer without what is the script's own."""
    first = text.split(" ")[0]
    if first in ("verdict", "lost", "settled", "refused", "fault"):
        return re.sub(r" \d+(?=.* )| \d+$", lambda number: number[0] if "state" in text[: number.start()][-6:] else " n", text)
    return re.sub('.*"why":"(.*)"}', r"notice of \1", text) if first.startswith("{") else first


def main():
    options = argparse.ArgumentParser(description=__doc__, formatter_class=argparse.RawDescriptionHelpFormatter)
    options.add_argument("program")
    options.add_argument("--scripts", type=int, default=300)
    options.add_argument("--seed", default="1")
    options.add_argument("--commands", type=lambda names: names.split(","), default=list(WEIGHTS))
    options.add_argument("--tally", action="store_true", help="says how often each kind of answer was compared")
    asked, tally = options.parse_args(), collections.Counter()
    for script in range(asked.scripts):
        seed, kept = f"{asked.seed}.{script}", []
        played = subprocess.Popen([asked.program, "run"], stdin=subprocess.PIPE, stdout=subprocess.PIPE)
        with contextlib.suppress(BrokenPipeError), played as running:
            signal.signal(signal.SIGALRM, lambda *_: running.kill())
            signal.alarm(SECONDS)
            where = parting(running, seed, asked.commands, kept, tally)
        if where:
            place = pathlib.Path(tempfile.gettempdir(), f"play-{seed}.script")
            place.write_bytes(b"".join(kept))
            sys.exit(f"script {seed} differs at {where}; it is kept as {place}")
    if asked.tally:
        print(*(f"{count:8} {kind}" for kind, count in sorted(tally.items())), sep="\n")
    print(f"{asked.scripts} scripts, {tally.total()} answers, all alike")


if __name__ == "__main__":
    main()
