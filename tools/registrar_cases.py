"""Agents register their keys, and show by a tag that the two are of one TPM."""
import base64
import hashlib
import hmac

import evidence as ev
from cases import begin, refused, session
from session_cases import S

# What is drawn: 32 bytes for each register.
SECRETS = [bytes([n]) * 32 for n in range(1, 5)]
WORDS = [secret.hex() for secret in SECRETS]
EK, AK = b"e1", b"k1"


def value(key, message):
    """What the stand-in makes of a message under a key."""
    return hmac.new(key, message, hashlib.sha256).digest()


def tag(secret, agent="a1"):
    return hmac.new(secret, agent.encode(), hashlib.sha384).hexdigest()


# ---- steps: a line with what it prints


def register(secret, agent="a1", *, ek=EK, ak=AK, contact="h:9002"):
    key = value(ek, ak)
    masked = bytes(a ^ b for a, b in zip(secret, value(key, b"seal")))
    blob = base64.b64encode(masked + value(key, masked)).decode()
    return f"register {agent} {ek.hex()} {ak.hex()} {ev.escape_field(contact)}", f"blob {agent} {blob}"


def activate(text, agent="a1"):
    return f"activate {agent} {text}", f"active {agent}"


def kept(agent="a1", *, ek=EK, ak=AK, contact="h:9002"):
    return f"record {agent}", f"record {agent} {ek.hex()} {ak.hex()} {ev.escape_field(contact)}"


def records(*agents):
    return "records", " ".join(["records", str(len(agents)), *agents])


def forget(agent="a1"):
    return f"forget {agent}", f"forgotten {agent}"


FIRST, SECOND, THIRD, FOURTH = SECRETS
NOBODY = ("no agent registered", ["activate zz 00", "record zz", "forget zz"])

session("registered and activated", register(FIRST), register(SECOND), refused(activate(tag(FIRST)), "wrongtag"), refused("record a1", "notactive"),
        records(), activate(tag(SECOND).upper()), records("a1"), kept(), words="".join(WORDS[:2]))
session("an activation ends with a second register", register(FIRST), activate(tag(FIRST)), register(SECOND, ek=b"e2", contact="h:2"), records(),
        refused("record a1", "notactive"), refused(activate(tag(FIRST)), "wrongtag"), activate(tag(SECOND)), kept(ek=b"e2", contact="h:2"),
        words="".join(WORDS[:2]))
session("forgotten", register(FIRST), activate(tag(FIRST)), forget(), refused(forget(), "noagent"), refused("record a1", "noagent"),
        refused(activate(tag(FIRST)), "noagent"), records(), register(SECOND), refused("record a1", "notactive"), refused(activate(tag(FIRST)), "wrongtag"),
        activate(tag(SECOND)), records("a1"), words="".join(WORDS[:2]))
session(NOBODY[0], records(), *(refused(line, "noagent") for line in NOBODY[1]))
session("records in the order of bytes", *(step for agent, secret in zip(["b1", "a10", "A.2", "a1"], SECRETS) for step in [register(secret, agent)]),
        *(activate(tag(secret, agent), agent) for agent, secret in zip(["b1", "a10", "A.2"], SECRETS)), records("A.2", "a10", "b1"),
        activate(tag(FOURTH)), records("A.2", "a1", "a10", "b1"), forget("a10"), records("A.2", "a1", "b1"), words="".join(WORDS))
session("wrong tags", register(FIRST), *(refused(activate(text), "wrongtag") for text in [
    tag(FIRST)[:-1] + ("0" if tag(FIRST)[-1] != "0" else "1"), ("0" if tag(FIRST)[0] != "0" else "1") + tag(FIRST)[1:], tag(FIRST)[:-2], tag(FIRST) + "00",
    tag(FIRST)[:95], "\\0", tag(FIRST)[:94] + "zz", tag(FIRST) + "\\s", tag(FIRST, "a2"), tag(SECOND), hmac.new(FIRST, b"a1", hashlib.sha256).hexdigest()]),
    activate(tag(FIRST)), refused(activate(tag(SECOND)), "wrongtag"), records("a1"), activate(tag(FIRST)), records("a1"), words=WORDS[0])
session("keys in either case of letters and texts with escapes", (register(FIRST, ek=b"\xab\xcd", ak=b"\xef")[0].replace("abcd", "AbCD").replace("ef", "EF"),
        register(FIRST, ek=b"\xab\xcd", ak=b"\xef")[1]), activate(tag(FIRST)), kept(ek=b"\xab\xcd", ak=b"\xef"),
        register(SECOND, contact="two words\n\\"), activate(tag(SECOND)), kept(contact="two words\n\\"),
        register(THIRD, contact=""), activate(tag(THIRD)), kept(contact=""), words="".join(WORDS[:3]))
session("keys of 512 bytes", register(FIRST, ek=bytes(512), ak=b"\xff" * 512), activate(tag(FIRST)), kept(ek=bytes(512), ak=b"\xff" * 512), words=WORDS[0])
session("a key fault at registering", register(FIRST), activate(tag(FIRST)), refused(register(SECOND), "keys"), records("a1"), kept(),
        register(THIRD), records(), key_faults="2", words="".join(WORDS[:3]))
session("a key fault at the first register", refused(register(FIRST), "keys"), records(), refused("record a1", "noagent"), register(SECOND),
        key_faults="1", words="".join(WORDS[:2]))
session("31 bytes to draw for a secret", records(), (register(FIRST)[0], None), words=WORDS[0][:-2], status=6)
session("a secret is drawn for each register", register(FIRST), (register(SECOND)[0], None), words=WORDS[0] + WORDS[1][:60], status=6)
session("nonces and secrets are drawn in the order of the lines", S, ("begin a1", "poll 1 a1 generation 1 nonce " + "01" * 16 + " from 0"),
        register(bytes([1]) * 16 + bytes([2]) * 16), ("begin zz", "refused noagent"), register(bytes([3]) * 32, "b1"),
        words="01" * 32 + "02" * 32 + "03" * 32)
session("the registrar and the polls know nothing of one another", register(FIRST), refused("begin a1 n1", "noagent"), refused("state a1", "noagent"),
        S, begin("a1", "n1", 1, 1), activate(tag(FIRST)), ("remove a1", "removed a1"), records("a1"), forget(), words=WORDS[0])

NO_REGISTRAR_COMMANDS = {
    "register of three words": "register a1 6531 6b31", "register with a word more": "register a1 6531 6b31 h:9002 x", "an ek of one digit": "register a1 6 6b31 h",
    "an ek of three digits": "register a1 653 6b31 h", "an ak of no digits": "register a1 6531 zz h", "an ek of 1,026 digits": f"register a1 {'00' * 513} 6b31 h",
    "an empty ak": "register a1 6531 - h", "a bad escape in a contact": "register a1 6531 6b31 h\\t", "activate without a tag": "activate a1",
    "activate with two tags": "activate a1 00 00", "a record of nobody": "record", "a record of two": "record a1 b1", "records of one": "records a1",
    "forget of nobody": "forget", "forget of a bad id": "forget a/1", "a space behind records": "records ",
}
for name, line in NO_REGISTRAR_COMMANDS.items():
    session(f"no command: {name}", ("now 1", "now 1"), (line, "fault line 2"), status=3)
