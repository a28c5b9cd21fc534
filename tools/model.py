#!/usr/bin/env python3
"""A model of a session: what a script prints, and with which status it ends, as docs/FORMATS.md and the public standards say.

    tools/model.py run < SCRIPT        plays a script as `keylime run` does

It shares nothing with the program: what it knows of polls and releases it looks up in the list of what was kept. Its keys meet no
fault, its memory does not run out, the limit on a whole script is not met, and exclude patterns are Python's, none too large: those
that tools/play.py makes are read alike.
"""
import base64
import contextlib
import hashlib
import hmac
import itertools
import json
import math
import re
import sys
from collections import namedtuple

BANKS = {"sha1": (0x0004, hashlib.sha1), "sha256": (0x000B, hashlib.sha256), "sha384": (0x000C, hashlib.sha384)}
NAMES = {1: "START", 3: "GET_QUOTE", 4: "GET_QUOTE_RETRY", 5: "PROVIDE_V", 6: "PROVIDE_V_RETRY", 7: "FAILED", 9: "INVALID_QUOTE",
         10: "TENANT_FAILED"}
LIVE = (1, 3, 4, 5, 6)
LINE_BYTES, ENTRY_BYTES, PATTERN_BYTES = 16_777_216, 8_192, 512
ENTRIES, PATHS, PATTERNS, AGENTS, DEPTH = 131_072, 262_144, 32, 1_024, 127
RECORDS, WEIGHT, POLL_WEIGHT = 1_000_000, 1 << 30, 16 << 20
IN_A_ROW, INTERVAL, MOST = 5, 2_000, 2**64 - 1


class Fault(Exception):
    """What is the matter with a line, a text or a reply, or why a command is refused."""


def need(holds, fault):
    if not holds:
        raise Fault(fault)


@contextlib.contextmanager
def under(kind):
    """Puts the kind of a fault before it."""
    try:
        yield
    except Fault as fault:
        raise Fault(f"{kind} {fault}") from None


def lines_of(text):
    """The lines of a text: a last piece that is empty is none."""
    *lines, last = text.split(b"\n")
    return lines + [last] if last else lines


# ---- keys for tests, and tags


def value_under(key, message):
    return hmac.digest(key, message, "sha256")


def masked(ek, ak, secret):
    """The secret of a blob as it stands there, and the other way round."""
    return bytes(a ^ b for a, b in zip(secret, value_under(value_under(ek, ak), b"seal")))


def blob_of(ek, ak, secret):
    return masked(ek, ak, secret) + value_under(value_under(ek, ak), masked(ek, ak, secret))


def tag_of(agent, secret):
    return hmac.digest(secret, agent.encode(), "sha384").hex()


# ---- attestations and quotes


def read_attestation(text):
    """The nonce, the boot, the selections that name PCRs, each with bit n for PCR n, and the digest of the values."""
    at = 0

    def field(size):
        nonlocal at
        need(at + size <= len(text), f"short {at}")
        at += size
        return text[at - size : at]

    def number(size):
        return int.from_bytes(field(size), "big")

    need(number(4) == 0xFF544347, "magic")
    need(number(2) == 0x8018, "type")
    _signer, nonce, _clock = field(number(2)), field(number(2)), number(8)
    boot = number(4), number(4)
    need(number(1) in (0, 1), "safe")
    _firmware = number(8)
    selections = [(number(2), int.from_bytes(field(number(1)), "little")) for _ in range(number(4))]
    digest = field(number(2))
    need(at == len(text), f"tail {at}")
    return nonce, boot, [s for s in selections if s[1]], digest


def read_quote(text):
    """The attestation, its signature and the PCR values."""
    parts, read = text[1:].split(":"), []
    need(text.startswith("r") and len(parts) == 3, "form 0")
    for place, part in enumerate(parts, 1):
        with contextlib.suppress(ValueError):
            read.append(base64.b64decode(part.encode(), validate=True))
        need(len(read) == place and base64.b64encode(read[-1]) == part.encode(), f"form {place}")
    return read


# ---- the measurement list

ENTRY = {"pcr": rb"10 ", "hash": rb"([0-9a-f]{40}) ", "template": rb"ima-ng ",
         "digest": rb"([a-z0-9_-]{1,32}):((?:[0-9a-f]{2}){0,64}) ", "path": rb"(.+)"}
Entry = namedtuple("Entry", "violation consistent data digest path")


def read_entry(line):
    need(len(line) <= ENTRY_BYTES, "toolong")
    at, found = 0, []
    for fault, pattern in ENTRY.items():
        match = re.compile(pattern).match(line, at)
        need(match, fault)
        at, found = match.end(), [*found, *match.groups()]
    template_hash, algorithm, digest, path = found
    template_hash, digest = (bytes.fromhex(digits.decode()) for digits in (template_hash, digest))
    named = algorithm + b":\0" + digest
    sizes = [size.to_bytes(4, "little") for size in (len(named), len(path) + 1)]
    data = sizes[0] + named + sizes[1] + path + b"\0"
    return Entry(not any(template_hash), hashlib.sha1(data).digest() == template_hash, data, digest, path)


def read_list(text):
    entries = []
    for place, line in enumerate(lines_of(text)):
        with under(f"line {place}"):
            entries.append(read_entry(line))
    need(len(entries) <= ENTRIES, "listfull")
    return entries


def extended(hashed, digests):
    """The values of a PCR of zeros as it is extended, that of zeros first."""
    return itertools.accumulate(digests, lambda old, new: hashed(old + new).digest(), initial=bytes(hashed().digest_size))


# ---- policies

DIGEST = "(?:[0-9a-fA-F]{2}){1,64}"
FLAT_LINE = re.compile(f"({DIGEST})  (.+)".encode())
Policy = namedtuple("Policy", "digests excludes violations")


def why_not(policy, entry):
    """Why an entry is not allowed, or nothing."""
    if entry.violation:
        return None if policy.violations else "violation"
    if not entry.consistent:
        return "inconsistent"
    if any(pattern.match(entry.path.decode()) for pattern in policy.excludes):
        return None
    if entry.path not in policy.digests:
        return "unknown"
    return None if entry.digest in policy.digests[entry.path] else "digest"


def read_flat(text):
    digests = {}
    for place, line in enumerate(lines_of(text.encode())):
        match = FLAT_LINE.fullmatch(line)
        need(match or not line, f"line {place}")
        if match:
            digests.setdefault(match[2], set()).add(bytes.fromhex(match[1].decode()))
    need(len(digests) <= PATHS, "limit paths")
    return Policy(digests, [], False)


def read_double(text):
    need(math.isfinite(float(text)), "notjson")
    return float(text)


def read_value(text):
    """What a JSON text says; the members that a later one of their name hides have to be right too."""
    value, nested = None, DEPTH + 1
    with contextlib.suppress(ValueError, RecursionError):
        for members in (list, dict):
            value = json.loads(text, object_pairs_hook=members, parse_int=read_double, parse_float=read_double, parse_constant=int)
            json.dumps(value, ensure_ascii=False).encode()
        brackets = re.sub(r'"(?:[^"\\]|\\.)*"|[^][{}]', "", text)
        nested = max(itertools.accumulate((1 if b in "[{" else -1 for b in brackets), initial=0))
    need(nested <= DEPTH, "notjson")
    return value


def read_json(text):
    def is_texts(value):
        return isinstance(value, list) and all(isinstance(text, str) for text in value)

    said, patterns = read_value(text), []
    need(isinstance(said, dict), "kind policy")
    need("digests" in said, "missing digests")
    digests, excludes, violations = said["digests"], said.get("excludes", []), said.get("kl-violations", "fail")
    need(isinstance(digests, dict) and all(map(is_texts, digests.values())), "kind digests")
    need(len(digests) <= PATHS, "limit paths")
    for i, path in enumerate(sorted(digests)):
        for j, digest in enumerate(digests[path]):
            need(re.fullmatch(DIGEST, digest), f"digest {i} {j}")
    need(is_texts(excludes), "kind excludes")
    need(len(excludes) <= PATTERNS, "limit patterns")
    need(all(len(pattern.encode()) <= PATTERN_BYTES for pattern in excludes), "limit patternbytes")
    need(violations in ("pass", "fail"), "kind kl-violations")
    for name in ("keyrings", "ima-buf", "verification-keys"):
        need(said.get(name) in (None, "", [], {}), f"unsupported {name}")
    for i, pattern in enumerate(excludes):
        with contextlib.suppress(re.error):
            patterns.append(re.compile(pattern))
        need(len(patterns) > i, f"syntax {i}")
    return Policy({path.encode(): set(map(bytes.fromhex, digests[path])) for path in digests}, patterns, violations == "pass")


# ---- the verdict

Terms = namedtuple("Terms", "contact bank mask statics ak share policy")


def appraise(terms, nonce, bank, start, public, quote, measured):
    """The verdict on a reply, the boot that was quoted, and how many entries are accepted."""
    boot = None
    try:
        boot, pcrs = read_evidence(terms, nonce, bank, start, public, quote)
        cut = cut_of(terms, pcrs, measured.encode())
        return f"pass {cut}", boot, cut
    except Fault as fault:
        return f"{'failed' if boot else 'invalid'} {fault}", boot, 0


def read_evidence(terms, nonce, bank, start, public, quote):
    """Rules 1 to 10: the boot, and the value of each PCR."""
    algorithm, hashed = BANKS[terms.bank]
    text, signature, values = read_quote(quote)
    need(bank == terms.bank, "bank")
    with under("attest"):
        extra_data, boot, selections, digest = read_attestation(text)
    need(signature == value_under(terms.ak, text), "signature")
    need(extra_data == nonce.encode(), "nonce")
    need(selections == [(algorithm, terms.mask)], "selection")
    numbers, size = [n for n in range(24) if terms.mask >> n & 1], hashed().digest_size
    need(len(values) == len(numbers) * size, "pcrlength")
    need(digest == hashlib.sha256(values).digest(), "pcrdigest")
    pcrs = {n: values[place * size :][:size] for place, n in enumerate(numbers)}
    need(pcrs[16] == [*extended(hashed, [hashed(public.encode()).digest()])][1], "binding")
    need(start == 0, "start")
    return boot, pcrs


def cut_of(terms, pcrs, measured):
    """Rules 12 to 17: the cut."""
    for n, values in sorted(terms.statics):
        need(pcrs[n] in values, f"pcr {n}")
    entries, hashed = read_list(measured), BANKS[terms.bank][1]
    digests = (b"\xff" * len(pcrs[10]) if e.violation else hashed(e.data).digest() for e in entries)
    cut = next((count for count, value in enumerate(extended(hashed, digests)) if count and value == pcrs[10]), None)
    need(cut, "unmatched")
    for place, entry in enumerate(entries[:cut]):
        why = why_not(terms.policy, entry)
        need(not why, f"entry {place} {why}")
    return cut


# ---- the words of a line


def read_number(word):
    need(int(word) <= MOST, word)
    return int(word)


def read_statics(word):
    parts = [part.split("=") for part in word.split(";") if part != "-"]
    return [(int(pcr), [bytes.fromhex(value) for value in values.split(",")]) for pcr, values in parts]


def read_rest(text):
    parts = [part.replace(r"\s", " ").replace(r"\n", "\n") for part in text.split("\\\\")]
    need(not any("\\" in part for part in parts), text)
    return "\\".join(parts)


def write_field(text):
    return text.replace("\\", "\\\\").replace(" ", r"\s").replace("\n", r"\n") or r"\0"


STATIC = "(?:1?[0-9]|2[0-3])=SOME(?:,SOME)*".replace("SOME", "(?:[0-9a-fA-F]{40}|[0-9a-fA-F]{64}|[0-9a-fA-F]{96})")
# How each kind of word is spelled, and what reads it.
WORDS = {
    "agent": ("[A-Za-z0-9_.-]{1,64}", str),
    "nonce": ("[A-Za-z0-9]{1,64}", str),
    "bank": ("sha1|sha256|sha384", str),
    "mask": ("0x[0-9a-fA-F]{1,6}", lambda word: int(word, 16)),
    "statics": (f"-|{STATIC}(?:;{STATIC})*", read_statics),
    "key": ("(?:[0-9a-fA-F]{2}){1,512}", bytes.fromhex),
    "share": ("-|[0-9a-fA-F]{64}", str),
    "kind": ("flat|json", {"flat": read_flat, "json": read_json}.get),
    "outcome": ("arrived|missed", str),
    "number": ("0|[1-9][0-9]{0,19}", read_number),
    "field": ("[^ ]+", lambda word: "" if word == r"\0" else read_rest(word)),
    "rest": (".*", read_rest),
}
FORMS = []


def command(*forms):
    """Says which words stand behind the name of a command."""

    def enter(method):
        for kinds in map(str.split, forms):
            spelled = "".join(f" ({WORDS[kind][0]})" for kind in kinds)
            FORMS.append((re.compile(method.__name__ + spelled), method, [WORDS[kind][1] for kind in kinds]))
        return method

    return enter


def read_command(line):
    """The method that a line asks for, and what its words say."""
    for pattern, method, readers in FORMS:
        if match := pattern.fullmatch(line):
            return method, [read(word) for read, word in zip(readers, match.groups())]
    raise Fault(line)


# ---- the session

# What is kept. The kind is install, begin, close, release, settle, stop or remove; the number that of the poll or release; the
# result, of what ended, is the verdict, lost, arrived or missed.
Record = namedtuple("Record", "kind agent generation number terms weight nonce moment result boot accepted current",
                    defaults=(0, None, 0, "", 0, "", None, 0, False))
ENDS, NONE_OPEN = {"begin": "close", "release": "settle"}, {"begin": "nopoll", "release": "norelease"}
Registration = namedtuple("Registration", "ek ak contact secret active", defaults=(False,))


def results(records, kind):
    """How the current polls, or releases, of these ended."""
    return [r.result for r in records if r.kind == kind and r.current]


def in_a_row(records, kind, result):
    """How often one result stands at the end of those."""
    return len([*itertools.takewhile(result.__eq__, reversed(results(records, kind)))])


def verdicts(records):
    return [r for r in records if r.kind == "close" and r.current and r.result != "lost"]


def find(among, agent):
    need(agent in among, "noagent")
    return among[agent]


class Session:
    def __init__(self, words):
        self.words = words  # a file of the bytes to draw
        self.kept, self.notices, self.marked = [], [], []
        self.moment = 0
        self.registered = {}

    def draw(self, size):
        drawn = self.words.read(size)
        if len(drawn) < size:
            raise EOFError
        return drawn

    # What was kept says:

    def of(self, kind):
        return [r for r in self.kept if r.kind == kind]

    def under(self, install):
        """What was kept of an agent under one install, that itself first."""
        return [r for r in self.kept if r.generation == install.generation]

    def open(self, kind):
        """The polls, or the releases, that did not end."""
        ended = {r.number for r in self.of(ENDS[kind])}
        return [r for r in self.of(kind) if r.number not in ended]

    def installed(self):
        """The last install of each agent that is installed."""
        last = {r.agent: r for r in self.kept if r.kind in ("install", "remove")}
        return {agent: r for agent, r in last.items() if r.kind == "install"}

    def released_since_added(self, agent):
        backwards = (r for r in reversed(self.kept) if r.agent == agent)
        return [r.number for r in itertools.takewhile(lambda r: r.kind != "remove", backwards) if r.kind == "release"]

    def owed(self, install):
        """The pass for which V is due, or nothing."""
        last = (verdicts(self.under(install)) or [install])[-1]
        if install.terms.share == "-" or not last.accepted:
            return None
        released = self.released_since_added(install.agent)
        reached = [r.boot for r in self.of("settle") if r.result == "arrived" and r.number in released]
        return None if last.boot in reached else last

    def state_under(self, install):
        """The number of the state of an agent that is installed."""
        mine = self.under(install)
        kinds, first_words = [r.kind for r in mine], [result.split()[0] for result in results(mine, "close")]
        lost, missed, owed = in_a_row(mine, "close", "lost"), in_a_row(mine, "settle", "missed"), self.owed(install)
        where = {10: "stop" in kinds, 9: "invalid" in first_words, 7: "failed" in first_words or IN_A_ROW in (lost, missed),
                 5: owed and not missed, 6: owed, 4: lost, 1: "begin" not in kinds, 3: True}
        return next(state for state, applies in where.items() if applies)

    def state_of(self, agent):
        install = self.installed().get(agent)
        return self.state_under(install) if install else None

    def moment_of(self, install):
        """When an agent is to be polled next."""
        mine = self.under(install)
        begun = [r.moment for r in mine if r.kind == "begin"]
        return min(begun[-1] + (INTERVAL << in_a_row(mine, "close", "lost")), MOST) if begun else 0

    # What is refused, and what is kept:

    def need_state(self, agent, states):
        state = self.state_of(agent)
        need(state in states, f"state {state}")

    def find_open(self, kind, number):
        found = [r for r in self.open(kind) if r.number == number]
        need(found, f"{NONE_OPEN[kind]} {number}")
        return found[0]

    def keep(self, printed, record, records=1, weight=0):
        """Keeps a record, where there is room for it and for its end."""
        polls = self.open("begin")
        need(len(self.kept) + len(polls) + len(self.open("release")) + records <= RECORDS, "journalfull records")
        kept = sum(r.weight for r in self.kept) + POLL_WEIGHT * len(polls)
        need(not weight or kept + weight <= WEIGHT, "journalfull bytes")
        self.kept.append(record)
        return printed

    def install(self, agent, terms, weight=0):
        generation = len(self.of("install")) + 1
        record = Record("install", agent, generation, terms=terms, weight=weight)
        return self.keep(f"installed {agent} generation {generation}", record, weight=weight)

    def end(self, opened, result, **facts):
        """Keeps how a poll or a release ended, and says where that leaves its agent."""
        agent, generation = opened.agent, opened.generation
        install = self.installed().get(agent)
        current = install is not None and install.generation == generation and self.state_of(agent) in LIVE
        self.kept.append(opened._replace(kind=ENDS[opened.kind], result=result, current=current, **facts))
        state = self.state_of(agent)
        if current and state not in LIVE:
            why = {"lost": "losses", "missed": "undelivered"}.get(result, result)
            notice = {"agent": agent, "generation": generation, "notice": len(self.notices) + 1, "type": "revocation", "why": why}
            self.notices.append(notice)
        return f"{'current' if current else 'stale'} state {state or 'none'}"

    # The commands:

    @command("agent field bank mask statics key share kind rest")
    def add(self, agent, contact, bank, mask, statics, ak, share, kind, text):
        with under("policy"):
            policy = kind(text)
        need(mask >> 10 & 1 and mask >> 16 & 1, "mask")
        pcrs, size = [pcr for pcr, _ in statics], BANKS[bank][1]().digest_size
        need(all(mask >> pcr & 1 and pcr not in (10, 16) for pcr in pcrs) and len(set(pcrs)) == len(pcrs), "static")
        need(all(len(value) == size for _, values in statics for value in values), "static")
        need(agent not in self.installed(), "exists")
        need(len(self.installed()) < AGENTS, "agentsfull")
        return self.install(agent, Terms(contact, bank, mask, statics, ak, share, policy), len(text.encode()))

    @command("agent kind rest")
    def replace(self, agent, kind, text):
        with under("policy"):
            policy = kind(text)
        return self.install(agent, find(self.installed(), agent).terms._replace(policy=policy), len(text.encode()))

    @command("agent")
    def reactivate(self, agent):
        return self.install(agent, find(self.installed(), agent).terms)

    @command("agent")
    def stop(self, agent):
        install = find(self.installed(), agent)
        self.need_state(agent, LIVE)
        return self.keep(f"stopped {agent}", Record("stop", agent, install.generation))

    @command("agent")
    def remove(self, agent):
        install = find(self.installed(), agent)
        return self.keep(f"removed {agent}", Record("remove", agent, install.generation))

    @command("agent", "agent nonce")
    def begin(self, agent, nonce=None):
        nonce = nonce or self.draw(16).hex()
        generation, number = find(self.installed(), agent).generation, len(self.of("begin")) + 1
        self.need_state(agent, LIVE)
        for poll in self.open("begin"):
            need(poll.generation != generation, f"busy {poll.number}")
        printed = f"poll {number} {agent} generation {generation} nonce {nonce} from 0"
        record = Record("begin", agent, generation, number, nonce=nonce, moment=self.moment)
        return self.keep(printed, record, records=2, weight=POLL_WEIGHT)

    @command("number field number field field rest")
    def reply(self, number, *answer):
        poll = self.find_open("begin", number)
        verdict, boot, cut = appraise(self.under(poll)[0].terms, poll.nonce, *answer)
        weight = sum(len(text.encode()) for text in answer if isinstance(text, str))
        return f"verdict {number} {verdict} {self.end(poll, verdict, boot=boot, accepted=cut, weight=weight)}"

    @command("number")
    def lose(self, number):
        return f"lost {number} named {self.end(self.find_open('begin', number), 'lost')}"

    @command("agent")
    def state(self, agent):
        install, state = find(self.installed(), agent), self.state_of(agent)
        count = ([0] + [r.accepted for r in verdicts(self.under(install)) if r.accepted])[-1]
        return f"state {agent} {state} {NAMES[state]} generation {install.generation} accepted {count}"

    @command("number")
    def now(self, moment):
        self.moment = moment
        return f"now {moment}"

    @command("")
    def pick(self):
        polled = {r.generation for r in self.open("begin")}
        free = [i for i in self.installed().values() if i.generation not in polled and self.state_under(i) in LIVE]
        moment, agent = min([(self.moment_of(i), i.agent) for i in free], default=(MOST + 1, None))
        return f"due {agent if moment <= self.moment else 'none'}"

    @command("agent")
    def release(self, agent):
        install, number = find(self.installed(), agent), len(self.of("release")) + 1
        self.need_state(agent, (5, 6))
        for release in self.open("release"):
            need(release.number not in self.released_since_added(agent), f"busy {release.number}")
        owed = self.owed(install)
        record = Record("release", agent, install.generation, number, boot=owed.boot)
        return self.keep(f"release {number} {agent} poll {owed.number}", record, records=2)

    @command("number outcome")
    def settle(self, number, outcome):
        return f"settled {number} {outcome} {self.end(self.find_open('release', number), outcome)}"

    @command("")
    def notice(self):
        unmarked = self.notices[len(self.marked) :]
        return json.dumps(unmarked[0], separators=(",", ":")) if unmarked else "notice none"

    @command("number")
    def noticed(self, number):
        need(number == len(self.marked) + 1 <= len(self.notices), f"nonotice {number}")
        self.marked.append(number)
        return f"noticed {number}"

    @command("agent key key field")
    def register(self, agent, ek, ak, contact):
        secret = self.draw(32)
        need(len(self.registered.keys() - {agent}) < AGENTS, "full")
        self.registered[agent] = Registration(ek, ak, contact, secret)
        return f"blob {agent} {base64.b64encode(blob_of(ek, ak, secret)).decode()}"

    @command("agent field")
    def activate(self, agent, tag):
        found = find(self.registered, agent)
        need(tag.lower() == tag_of(agent, found.secret), "wrongtag")
        self.registered[agent] = found._replace(active=True)
        return f"active {agent}"

    @command("agent")
    def record(self, agent):
        found = find(self.registered, agent)
        need(found.active, "notactive")
        return f"record {agent} {found.ek.hex()} {found.ak.hex()} {write_field(found.contact)}"

    @command("")
    def records(self):
        active = sorted(agent for agent, found in self.registered.items() if found.active)
        return " ".join(["records", str(len(active)), *active])

    @command("agent")
    def forget(self, agent):
        find(self.registered, agent)
        del self.registered[agent]
        return f"forgotten {agent}"


def step(session, place, line):
    """What the line at this place prints, and the status where the script ends with it; each may be nothing."""
    if len(line) > LINE_BYTES:
        return f"fault line {place}", 8
    try:
        text = line.decode()
        if not text or text.startswith("#"):
            return None, None
        method, words = read_command(text)
    except (Fault, UnicodeDecodeError):
        return f"fault line {place}", 3
    try:
        return method(session, *words), None
    except Fault as why:
        return f"refused {why}", None
    except EOFError:
        return None, 6


def run(script, words):
    """What a script prints, and its status, where `words` is a file of the bytes to draw."""
    session, printed, status = Session(words), b"", None
    for place, line in enumerate(lines_of(script), 1):
        text, status = step(session, place, line)
        printed += b"" if text is None else f"{text}\n".encode()
        if status is not None:
            break
    return printed, status or 0


if __name__ == "__main__":
    if sys.argv[1:] != ["run"]:
        sys.exit(__doc__)
    with open("/dev/urandom", "rb") as drawn:
        output, ended = run(sys.stdin.buffer.read(), drawn)
    sys.stdout.buffer.write(output)
    sys.stdout.flush()
    sys.exit(ended)
