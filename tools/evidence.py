"""Builds measurement lists, quotes and script lines from the public formats, with Python's standard library alone.

It is the outside view that examples and tests take their bytes from: nothing here comes from the proved program.
"""
import base64
import hashlib
import hmac
import json
import struct
from dataclasses import dataclass, field

BANKS = {"sha1": (0x0004, 20), "sha256": (0x000B, 32), "sha384": (0x000C, 48)}
AK = bytes.fromhex("6b31")
PUBLIC = "PUB"
V = "22" * 32


def hash_of(bank, data):
    return hashlib.new(bank, data).digest()


def extend(bank, old, with_):
    return hash_of(bank, old + with_)


@dataclass
class Entry:
    """An ima-ng entry. `hash` is the SHA-1 of its data unless it is given."""

    path: str
    digest: bytes
    alg: str = "sha256"
    hash: bytes | None = None

    def data(self):
        alg, path = self.alg.encode(), self.path.encode()
        return (
            struct.pack("<I", len(alg) + 2 + len(self.digest)) + alg + b":\0" + self.digest
            + struct.pack("<I", len(path) + 1) + path + b"\0"
        )

    def template_hash(self):
        return hashlib.sha1(self.data()).digest() if self.hash is None else self.hash

    def line(self):
        return f"10 {self.template_hash().hex()} ima-ng {self.alg}:{self.digest.hex()} {self.path}"

    def measured(self, bank):
        if self.template_hash() == bytes(20):
            return b"\xff" * BANKS[bank][1]
        return hash_of(bank, self.data())


def replay(bank, entries):
    pcr = bytes(BANKS[bank][1])
    for entry in entries:
        pcr = extend(bank, pcr, entry.measured(bank))
    return pcr


def list_text(entries):
    return "".join(entry.line() + "\n" for entry in entries)


def flat_policy(entries):
    return "".join(f"{entry.digest.hex()}  {entry.path}\n" for entry in entries)


def json_members(entries, **other):
    """The members of a JSON policy, as Keylime writes it, which names the digest of each entry; `other` ones stand in place of these."""
    members = {
        "meta": {"version": 1}, "release": 0, "digests": {entry.path: [entry.digest.hex()] for entry in entries}, "excludes": [],
        "keyrings": {}, "ima": {"ignored_keyrings": [], "log_hash_alg": "sha1", "dm_policy": None}, "ima-buf": {},
        "verification-keys": "",
    }
    return members | other


def json_policy(entries, **other):
    return json.dumps(json_members(entries, **other), separators=(",", ":"))


def selection(alg, select):
    return struct.pack(">HB", alg, len(select)) + select


def attest(nonce, pcr_digest, selections, *, magic=0xFF544347, type_=0x8018, boot=(1, 0), clock=1000):
    signer = b"\x11" * 34
    out = struct.pack(">IHH", magic, type_, len(signer)) + signer
    out += struct.pack(">H", len(nonce)) + nonce
    out += struct.pack(">QIIBQ", clock, boot[0], boot[1], 1, 1)
    out += struct.pack(">I", len(selections)) + b"".join(selections)
    return out + struct.pack(">H", len(pcr_digest)) + pcr_digest


@dataclass
class Quote:
    """A quote over PCR values by number; `change` may alter the attest bytes before they are signed."""

    bank: str
    nonce: str
    values: dict
    ak: bytes = AK
    boot: tuple = (1, 0)
    selections: list | None = None
    magic: int = 0xFF544347
    type_: int = 0x8018
    change: object = field(default=lambda body: body)

    def attest_bytes(self):
        values = self.values_bytes()
        selections = self.selections
        if selections is None:
            mask = sum(1 << n for n in self.values)
            selections = [selection(BANKS[self.bank][0], mask.to_bytes(3, "little"))]
        body = attest(
            self.nonce.encode(), hashlib.sha256(values).digest(), selections,
            magic=self.magic, type_=self.type_, boot=self.boot,
        )
        return self.change(body)

    def values_bytes(self):
        return b"".join(self.values[n] for n in sorted(self.values))

    def text(self):
        body = self.attest_bytes()
        parts = (body, hmac.new(self.ak, body, hashlib.sha256).digest(), self.values_bytes())
        return "r" + ":".join(base64.b64encode(part).decode() for part in parts)


def binding(bank, public=PUBLIC):
    return extend(bank, bytes(BANKS[bank][1]), hash_of(bank, public.encode()))


def quote_of(bank, nonce, entries, *, statics=None, **more):
    """The quote of a machine whose list is `entries`, its PCR 16 bound to the public key text."""
    values = {10: replay(bank, entries), 16: binding(bank)}
    values.update(statics or {})
    return Quote(bank, nonce, values, **more).text()


def escape_rest(text):
    return text.replace("\\", "\\\\").replace("\n", "\\n")


def escape_field(text):
    return escape_rest(text).replace(" ", "\\s") or "\\0"


def add_line(policy, *, agent="a1", contact="h:9002", bank="sha256", mask="0x10400", statics="-", ak=AK, v=V, kind="flat"):
    return f"add {agent} {contact} {bank} {mask} {statics} {ak.hex()} {v} {kind} {escape_rest(policy)}\n"


def replace_line(policy, agent="a1", kind="flat"):
    return f"replace {agent} {kind} {escape_rest(policy)}\n"


def begin_line(nonce="n1", agent="a1"):
    return f"begin {agent} {nonce}\n"


def reply_line(quote, text, *, poll="1", bank="sha256", start="0", public=PUBLIC):
    return f"reply {poll} {bank} {start} {escape_field(public)} {escape_field(quote)} {escape_rest(text)}\n"


BOOT_AGGREGATE = Entry("boot_aggregate", b"\xaa" * 32)
SHELL = Entry("/bin/sh", b"\xbb" * 32)
ENV = Entry("/usr/bin/env", b"\xcc" * 32)
UNLISTED = Entry("/opt/x", b"\xdd" * 32)
POLICY = flat_policy([BOOT_AGGREGATE, SHELL, ENV])
