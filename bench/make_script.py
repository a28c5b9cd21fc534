#!/usr/bin/env python3
"""Makes a script that must pass: agents with flat policies, and polls of them in turn, each a begin and a reply.

    make_script.py ENTRIES [--agents N] [--polls P] [--paths K] [--bank sha1|sha256|sha384] [--seed N] [--without-v] > script
    make_script.py ENTRIES [--agents N] --rounds R [--bank ..] [--seed N] > script

With --rounds each agent goes through all that befalls one, in each round: it is picked, a poll is lost, another is made late by a
replacement, one passes after a reboot, V is released and arrives; for one in sixteen five deliveries are missed before, and another one
in sixteen fails, each with its notice, and is reactivated.

Each reply carries the same list of so many entries. Each agent's policy lists them all and K paths altogether (as many as
the entries, unless more are asked for), in an order of its own and with further paths of its own, so that no two policies
are one text. Paths have the lengths of a distribution's list (mean about 38 bytes), so that 100,000 entries fit into one
line of 16,777,216 bytes. What the script must print is written to FILE with --expected FILE.
"""
import argparse
import pathlib
import random
import sys

sys.path.insert(0, str(pathlib.Path(__file__).resolve().parent.parent / "tools"))
import evidence as ev  # noqa: E402

LIMIT = 16_777_216
RECORDS = 1_000_000
WEIGHT = 1 << 30
FOLDERS = ["/usr/bin", "/usr/sbin", "/etc/systemd/system", "/usr/lib/x86_64-linux-gnu", "/usr/lib/python3/dist-packages/apt",
           "/lib/modules/6.1.0-amd64/kernel/net", "/usr/share/bash completion", "/opt"]
WORDS = "agent audio cache codec config daemon event filter handler kernel loader module object policy query reader".split()


def path_of(random_, number):
    folder = random_.choice(FOLDERS)
    word = random_.choice(WORDS)
    ending = random_.choice(["", ".so", ".py", ".ko", ".so.1.2"])
    return f"{folder}/{word}-{number:x}{ending}"


def entries_of(random_, count, first=1):
    return [ev.Entry(path_of(random_, number), random_.randbytes(32)) for number in range(first, first + count)]


class Session:
    """Pairs of a line and what it prints, and the sums that the program's limits are about."""

    def __init__(self, entries, *, agents=1, polls=1, paths=0, bank="sha256", seed=1, without_v=False):
        self.random = random.Random(seed)
        self.entries = [ev.Entry("boot_aggregate", self.random.randbytes(32))] + entries_of(self.random, entries - 1)
        self.agents, self.polls, self.further = agents, polls, max(paths - entries, 0)
        self.bank, self.v, self.ending = bank, "-" if without_v else ev.V, "state 3" if without_v else "state 5"
        self.values = {10: ev.replay(bank, self.entries), 16: ev.binding(bank)}
        self.records = self.weight = 0

    def adds(self):
        for number in range(1, self.agents + 1):
            listed = self.entries + entries_of(self.random, self.further, len(self.entries))
            self.random.shuffle(listed)
            policy = ev.flat_policy(listed)
            self.keep(1, len(policy.encode()))
            yield ev.add_line(policy, agent=f"a{number}", bank=self.bank, v=self.v), f"installed a{number} generation {number}"

    def plays(self):
        rest = ev.escape_rest(ev.list_text(self.entries))
        length = len(ev.list_text(self.entries).encode())
        for poll in range(1, self.polls + 1):
            number = (poll - 1) % self.agents + 1
            nonce = f"n{poll}"
            yield f"begin a{number} {nonce}\n", f"poll {poll} a{number} generation {number} nonce {nonce} from 0"
            quote = ev.Quote(self.bank, nonce, self.values).text()
            self.keep(2, length + len(self.bank + ev.PUBLIC + quote))
            line = f"reply {poll} {self.bank} 0 {ev.PUBLIC} {quote} {rest}\n"
            yield line, f"verdict {poll} pass {len(self.entries)} current {self.ending}"

    def keep(self, records, weight):
        self.records += records
        self.weight += weight
        if self.records > RECORDS or self.weight + LIMIT > WEIGHT:
            sys.exit("more than a session may have: take fewer agents or polls")

    def write(self, script, expected=None):
        """Writes the lines to a file of bytes, and what they print to another, and answers how many lines there are."""
        lines = 0
        for part in (self.adds(), self.plays()):
            for line, printed in part:
                content = line.encode()
                if len(content) - 1 > LIMIT:
                    sys.exit(f"a line would have {len(content) - 1} bytes, over {LIMIT}: take fewer entries or paths")
                script.write(content)
                if expected is not None:
                    expected.write(printed.encode() + b"\n")
                lines += 1
        return lines


class Churn(Session):
    """All that befalls an agent, again and again. The moment is the round's, so that agents are due in the order of their ids."""

    def __init__(self, entries, *, agents=1, rounds=1, bank="sha256", seed=1):
        super().__init__(entries, agents=agents, bank=bank, seed=seed)
        self.rounds, self.installs, self.polls, self.releases, self.notices = rounds, agents, 0, 0, 0
        self.text = ev.list_text(self.entries)
        self.rest, self.policy = ev.escape_rest(self.text), ev.flat_policy(self.entries)
        self.bad = self.values | {10: bytes(ev.BANKS[bank][1])}

    def agent(self, number):
        return f"a{number:04}"

    def adds(self):
        for number in range(1, self.agents + 1):
            yield self.step(f"add {self.agent(number)} h:9002 {self.bank} 0x10400 - {ev.AK.hex()} {ev.V} flat {ev.escape_rest(self.policy)}",
                            f"installed {self.agent(number)} generation {number}", weight=len(self.policy.encode()))

    def step(self, line, printed, records=1, weight=0):
        self.keep(records, weight)
        return line + "\n", printed

    def begin(self, agent, generation):
        self.polls += 1
        return self.step(f"begin {agent} n{self.polls}", f"poll {self.polls} {agent} generation {generation} nonce n{self.polls} from 0")

    def reply(self, boot, verdict, values=None):
        quote = ev.Quote(self.bank, f"n{self.polls}", values or self.values, boot=(boot, 0)).text()
        weight = len((self.bank + ev.PUBLIC + quote + self.text).encode())
        return self.step(f"reply {self.polls} {self.bank} 0 {ev.PUBLIC} {quote} {self.rest}", f"verdict {self.polls} {verdict}", weight=weight)

    def installed(self, line, agent, weight=0):
        self.installs += 1
        return self.step(line, f"installed {agent} generation {self.installs}", weight=weight)

    def delivery(self, agent, outcome, state):
        self.releases += 1
        yield self.step(f"release {agent}", f"release {self.releases} {agent} poll {self.polls}")
        yield self.step(f"settle {self.releases} {outcome}", f"settled {self.releases} {outcome} current state {state}")

    def failed(self, agent, why):
        self.notices += 1
        text = f'{{"agent":"{agent}","generation":{self.installs},"notice":{self.notices},"type":"revocation","why":"{why}"}}'
        yield self.step("notice", text, 0)
        yield self.step(f"noticed {self.notices}", f"noticed {self.notices}", 0)
        yield self.installed(f"reactivate {agent}", agent)

    def passes(self, agent, boot):
        yield self.begin(agent, self.installs)
        yield self.reply(boot, f"pass {len(self.entries)} current state 5")

    def turn(self, boot, number, generation):
        """One agent's part of a round; it ends live, with nothing open."""
        agent, pass_text = self.agent(number), f"pass {len(self.entries)}"
        yield self.step("pick", f"due {agent}", 0)
        yield self.begin(agent, generation)
        yield self.step(f"lose {self.polls}", f"lost {self.polls} named current state 4")
        yield self.begin(agent, generation)
        yield self.installed(f"replace {agent} flat {ev.escape_rest(self.policy)}", agent, len(self.policy.encode()))
        yield self.reply(boot, f"{pass_text} stale state 1")
        yield from self.passes(agent, boot)
        yield self.step(f"state {agent}", f"state {agent} 5 PROVIDE_V generation {self.installs} accepted {len(self.entries)}", 0)
        yield self.step("pick", f"due {self.agent(number + 1) if number < self.agents else 'none'}", 0)
        kind = (number + boot) % 16
        if kind == 5:
            for count in range(1, 6):
                yield from self.delivery(agent, "missed", 7 if count == 5 else 6)
            yield from self.failed(agent, "undelivered")
            yield from self.passes(agent, boot)
        elif kind == 11:
            yield self.begin(agent, self.installs)
            yield self.reply(boot, "failed unmatched current state 7", self.bad)
            yield from self.failed(agent, "failed unmatched")
            yield from self.passes(agent, boot)
        yield from self.delivery(agent, "arrived", 3)

    def plays(self):
        generations = dict(zip(range(1, self.agents + 1), range(1, self.agents + 1)))
        for boot in range(1, self.rounds + 1):
            yield self.step(f"now {boot * 100_000}", f"now {boot * 100_000}", 0)
            for number in generations:
                yield from self.turn(boot, number, generations[number])
                generations[number] = self.installs


def main():
    parser = argparse.ArgumentParser(description=__doc__, formatter_class=argparse.RawDescriptionHelpFormatter)
    parser.add_argument("entries", type=int)
    parser.add_argument("--agents", type=int, default=1)
    parser.add_argument("--polls", type=int, default=1)
    parser.add_argument("--paths", type=int, default=0)
    parser.add_argument("--bank", default="sha256", choices=sorted(ev.BANKS))
    parser.add_argument("--seed", type=int, default=1)
    parser.add_argument("--without-v", action="store_true")
    parser.add_argument("--rounds", type=int)
    parser.add_argument("--expected")
    arguments = vars(parser.parse_args())
    expected = arguments.pop("expected")
    if arguments["rounds"] is None:
        del arguments["rounds"]
        session = Session(**arguments)
    else:
        session = Churn(**{name: arguments[name] for name in ("entries", "agents", "rounds", "bank", "seed")})
    if expected is None:
        session.write(sys.stdout.buffer)
    else:
        with open(expected, "wb") as out:
            session.write(sys.stdout.buffer, out)


if __name__ == "__main__":
    main()
