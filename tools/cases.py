"""What a worked example is, and the lists that the files of cases add theirs to."""
from dataclasses import dataclass

import evidence as ev
from evidence import BOOT_AGGREGATE, POLICY, SHELL

GOOD = [BOOT_AGGREGATE, SHELL]


@dataclass
class Case:
    """A script, what it prints and its status.

    `key_faults` is the number of the key object's call that fails, and `words` the bytes that are there to be drawn, in
    hexadecimal; `-` is none. An `example` is written to examples/ too. What is not `stored` is run by --run alone: it is too
    long to be kept, or has bytes that a file of many scripts can't have.
    """

    name: str
    script: bytes
    printed: bytes
    status: int = 0
    key_faults: str = "-"
    words: str = "-"
    example: bool = False
    stored: bool = True

    def runs_by_program(self):
        """Whether the program over the real streams must print the same: its keys do not fail, and what it draws is not known."""
        return self.key_faults == "-" and self.words == "-" and self.status != 6


CASES = []
# Functions that each make a case which is too long to be kept in memory with the others.
LONG = []


def made(name, script, printed, **more):
    as_bytes = [text if isinstance(text, bytes) else text.encode() for text in (script, printed)]
    return Case(name, *as_bytes, **more)


def case(name, script, printed, **more):
    CASES.append(made(name, script, printed, **more))


def session(name, *steps, **more):
    """A script by its steps: each is a line and the line that it prints, or a line alone that prints nothing."""
    pairs = [(step, None) if isinstance(step, str) else step for step in steps]
    script = "".join(line if line.endswith("\n") else line + "\n" for line, _ in pairs)
    case(name, script, "".join(printed + "\n" for _, printed in pairs if printed is not None), **more)


def long_case(make):
    LONG.append(make)
    return make


# ---- steps: a line with what it prints


def add(agent, generation, policy=POLICY, **more):
    return ev.add_line(policy, agent=agent, **more), f"installed {agent} generation {generation}"


def replace(agent, generation, policy=POLICY, **more):
    return ev.replace_line(policy, agent, **more), f"installed {agent} generation {generation}"


def reactivate(agent, generation):
    return f"reactivate {agent}", f"installed {agent} generation {generation}"


def stop(agent):
    return f"stop {agent}", f"stopped {agent}"


def remove(agent):
    return f"remove {agent}", f"removed {agent}"


def begin(agent, nonce, poll, generation):
    """Every poll asks for the whole list, so its line ends in `from 0`."""
    return f"begin {agent} {nonce}", f"poll {poll} {agent} generation {generation} nonce {nonce} from 0"


def reply(poll, nonce, entries, verdict, *, bank="sha256", start="0", quoted=None, **more):
    """A reply of these entries, its quote over `quoted` where that is given; `verdict` is what follows `verdict <poll> `."""
    quote = ev.quote_of(bank, nonce, entries if quoted is None else quoted, **more)
    return ev.reply_line(quote, ev.list_text(entries), poll=str(poll), bank=bank, start=start), f"verdict {poll} {verdict}"


def passes(poll, nonce, ending, **more):
    return reply(poll, nonce, GOOD, f"pass 2 {ending}", **more)


def state(agent, number, name, generation, accepted):
    return f"state {agent}", f"state {agent} {number} {name} generation {generation} accepted {accepted}"


def refused(line, why):
    """A line, or the line of a step, that is refused."""
    return line if isinstance(line, str) else line[0], f"refused {why}"
