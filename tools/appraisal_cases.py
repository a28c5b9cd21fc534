"""One add, one begin and one reply: each rule of the appraisal, and which of two that apply decides."""
import evidence as ev
from cases import GOOD, case, long_case, made
from evidence import BOOT_AGGREGATE, POLICY, SHELL, UNLISTED, Entry

INSTALLED = "installed a1 generation 1\n"
NONCE_32 = "abcdefghijklmnopqrstuvwxyzABCDEF"


def polled(nonce="n1"):
    return f"poll 1 a1 generation 1 nonce {nonce} from 0\n"


def parts_of(quote, entries, verdict, *, policy=POLICY, nonce="n1", add=None, **reply):
    """An add, a begin and a reply, and what they print; `verdict` is the last line's text after `verdict 1 `."""
    text = entries if isinstance(entries, str) else ev.list_text(entries)
    script = ev.add_line(policy, **(add or {})) + ev.begin_line(nonce) + ev.reply_line(quote, text, **reply)
    return script, INSTALLED + polled(nonce) + f"verdict 1 {verdict}\n"


def appraised(name, quote, entries, verdict, *, example=False, **more):
    case(name, *parts_of(quote, entries, verdict, **more), example=example)


# ---- each bank: a pass, a failure, an invalid quote
for bank in ev.BANKS:
    add = {"bank": bank}
    good = ev.quote_of(bank, "n1", GOOD)
    appraised(f"pass-{bank}", good, GOOD, "pass 2 current state 5", add=add, bank=bank, example=True)
    bad = [BOOT_AGGREGATE, UNLISTED]
    appraised(f"failure-{bank}", ev.quote_of(bank, "n1", bad), bad, "failed entry 1 unknown current state 7",
              add=add, bank=bank, example=True)
    appraised(f"invalid-{bank}", ev.quote_of(bank, "n2", GOOD), GOOD, "invalid nonce current state 9",
              add=add, bank=bank, example=True)
GOOD_QUOTE = ev.quote_of("sha256", "n1", GOOD)

# ---- refused adds
case("mask refused", ev.add_line(POLICY, mask="0x10000"), "refused mask\n")
case("mask without PCR 16", ev.add_line(POLICY, mask="0x00400"), "refused mask\n")
case("static outside the mask", ev.add_line(POLICY, statics="0=" + "00" * 32), "refused static\n")
case("static refused", ev.add_line(POLICY, statics="10=" + "00" * 32), "refused static\n")
case("static of another bank refused", ev.add_line(POLICY, mask="0x10401", statics="0=" + "00" * 20), "refused static\n")
case("mask before static", ev.add_line(POLICY, mask="0x10000", statics="10=" + "00" * 32), "refused mask\n")
case("policy line refused", ev.add_line(POLICY + "\n\nzz  /x\n", mask="0x10000"), "refused policy line 5\n")
case("begin after a refused add", ev.add_line(POLICY, mask="0x10000") + ev.begin_line(), "refused mask\nrefused noagent\n")

# ---- the rules of the appraisal
appraised("empty list", ev.quote_of("sha256", "n1", []), [], "failed unmatched current state 7")
appraised("without V", GOOD_QUOTE, GOOD, "pass 2 current state 3", add={"v": "-"})
appraised("longer list than quoted", GOOD_QUOTE, [BOOT_AGGREGATE, SHELL, UNLISTED], "pass 2 current state 5")
appraised("no newline after the last line", GOOD_QUOTE, ev.list_text(GOOD)[:-1], "pass 2 current state 5")
spaced = Entry("/a b", b"\xee" * 32)
appraised("path with space", ev.quote_of("sha256", "n1", [BOOT_AGGREGATE, spaced]), ev.list_text([BOOT_AGGREGATE, spaced])[:-1],
          "pass 2 current state 5", policy=POLICY + ev.flat_policy([spaced]))
violation = Entry("/var/log/x", bytes(32), hash=bytes(20))
appraised("violation", ev.quote_of("sha256", "n1", GOOD + [violation]), GOOD + [violation], "failed entry 2 violation current state 7")
changed = Entry("/bin/sh", b"\xbb" * 32, hash=bytes([1]) + SHELL.template_hash()[1:])
appraised("inconsistent", ev.quote_of("sha256", "n1", [BOOT_AGGREGATE, changed]), [BOOT_AGGREGATE, changed],
          "failed entry 1 inconsistent current state 7")
other = Entry("/bin/sh", b"\xbc" * 32)
appraised("another digest", ev.quote_of("sha256", "n1", [BOOT_AGGREGATE, other]), [BOOT_AGGREGATE, other],
          "failed entry 1 digest current state 7")
appraised("repeated path", ev.quote_of("sha256", "n1", [BOOT_AGGREGATE, other, SHELL]), [BOOT_AGGREGATE, other, SHELL],
          "pass 3 current state 5", policy=POLICY + ev.flat_policy([other]))
for name, selections, verdict in [
    ("three selection bytes", [ev.selection(11, bytes.fromhex("000401"))], "pass 2 current state 5"),
    ("four selection bytes", [ev.selection(11, bytes.fromhex("00040100"))], "pass 2 current state 5"),
    ("highest byte first", [ev.selection(11, bytes.fromhex("040001"))], "invalid selection current state 9"),
    ("four bytes with PCR 24", [ev.selection(11, bytes.fromhex("00040101"))], "invalid selection current state 9"),
    ("an empty selection beside", [ev.selection(4, b"\0\0\0"), ev.selection(11, bytes.fromhex("000401"))], "pass 2 current state 5"),
    ("two selections", [ev.selection(11, bytes.fromhex("000400")), ev.selection(11, bytes.fromhex("000001"))],
     "invalid selection current state 9"),
]:
    appraised(name, ev.quote_of("sha256", "n1", GOOD, selections=selections), GOOD, verdict)
for name, change, verdict in [
    ("attest of 144 bytes", lambda body: body[:144], "short 113"),
    ("attest of 100 bytes", lambda body: body[:100], "short 93"),
    ("attest of no bytes", lambda body: b"", "short 0"),
    ("attest with a byte more", lambda body: body + b"\0", "tail 145"),
    ("attest with safe 2", lambda body: body[:92] + b"\2" + body[93:], "safe"),
]:
    appraised(name, ev.quote_of("sha256", NONCE_32, GOOD, change=change), GOOD, f"invalid attest {verdict} current state 9", nonce=NONCE_32)
appraised("attest type", ev.quote_of("sha256", "n1", GOOD, type_=0x8017), GOOD, "invalid attest type current state 9")
appraised("attest magic before type", ev.quote_of("sha256", "n1", GOOD, type_=0x8017, magic=0xFF544348), GOOD,
          "invalid attest magic current state 9")
appraised("bank field", GOOD_QUOTE, GOOD, "invalid bank current state 9", bank="sha1")
appraised("another key", ev.quote_of("sha256", "n1", GOOD, ak=b"k2"), GOOD, "invalid signature current state 9")
appraised("another public key text", GOOD_QUOTE, GOOD, "invalid binding current state 9", public="PUC")
appraised("start over 0", GOOD_QUOTE, GOOD, "invalid start current state 9", start="1")
appraised("static value", ev.quote_of("sha256", "n1", GOOD, statics={0: b"\xff" * 32}), GOOD, "failed pcr 0 current state 7",
          add={"mask": "0x10401", "statics": "0=" + "00" * 32})
appraised("second value of a static", ev.quote_of("sha256", "n1", GOOD, statics={0: b"\xff" * 32}), GOOD, "pass 2 current state 5",
          add={"mask": "0x010401", "statics": "0=" + "00" * 32 + "," + "FF" * 32})
case("key fault", ev.add_line(POLICY) + ev.begin_line() + ev.reply_line(GOOD_QUOTE, ev.list_text(GOOD)),
     INSTALLED + polled() + "dropped 1 keys state 3\n", key_faults="1")
case("one key call alone", ev.add_line(POLICY) + ev.begin_line() + ev.reply_line(GOOD_QUOTE, ev.list_text(GOOD)),
     INSTALLED + polled() + "verdict 1 pass 2 current state 5\n", key_faults="2")
case("no key call before rule 4", ev.add_line(POLICY) + ev.begin_line() + ev.reply_line("x", ev.list_text(GOOD)),
     INSTALLED + polled() + "verdict 1 invalid form 0 current state 9\n", key_faults="1")

# ---- line faults, each alone
E0 = BOOT_AGGREGATE.line()
for name, line in {
    "toolong": E0 + "x" * 8192, "pcr": "11" + E0[2:], "hash": E0[:10] + "G" + E0[11:], "template": E0.replace("ima-ng", "ima-sig"),
    "digest": E0.replace("sha256:aa", "sha256:AA"), "path": E0[: E0.rindex(" ") + 1],
}.items():
    appraised(f"line fault {name}", GOOD_QUOTE, SHELL.line() + "\n" + line + "\n", f"failed line 1 {name} current state 7")

# ---- two neighbouring rules apply: the earlier one decides
quote = ev.Quote("sha256", "n1", {10: ev.replay("sha256", GOOD), 16: ev.binding("sha256")})


def neighbours(rules, quote_text, entries, verdict, **more):
    appraised(f"rules {rules}", quote_text, entries, verdict, **more)


def resigned(text, values):
    """The quote text with other values beside the attestation."""
    attest, signature, _ = text.split(":")
    return f"{attest}:{signature}:{ev.base64.b64encode(values).decode()}"


values = quote.values_bytes()
wrong_select = [ev.selection(11, bytes.fromhex("000402"))]
neighbours("1 and 2", GOOD_QUOTE[1:], GOOD, "invalid form 0 current state 9", bank="sha1")
neighbours("2 and 3", ev.quote_of("sha256", "n1", GOOD, type_=0), GOOD, "invalid bank current state 9", bank="sha1")
neighbours("3 and 4", ev.quote_of("sha256", "n1", GOOD, type_=0, ak=b"k2"), GOOD, "invalid attest type current state 9")
neighbours("4 and 5", ev.quote_of("sha256", "n2", GOOD, ak=b"k2"), GOOD, "invalid signature current state 9")
neighbours("5 and 6", ev.quote_of("sha256", "n2", GOOD, selections=wrong_select), GOOD, "invalid nonce current state 9")
neighbours("6 and 7", resigned(ev.quote_of("sha256", "n1", GOOD, selections=wrong_select), values[1:]), GOOD,
           "invalid selection current state 9")
neighbours("7 and 8", resigned(GOOD_QUOTE, values[1:]), GOOD, "invalid pcrlength current state 9")
neighbours("8 and 9", resigned(GOOD_QUOTE, values[:32] + bytes(32)), GOOD, "invalid pcrdigest current state 9")
neighbours("9 and 10", GOOD_QUOTE, GOOD, "invalid binding current state 9", public="PUC", start="1")
static = {"mask": "0x10401", "statics": "0=" + "00" * 32}
wrong_pcr = {"statics": {0: b"\xff" * 32}}
neighbours("10 and 12", ev.quote_of("sha256", "n1", GOOD, **wrong_pcr), GOOD, "invalid start current state 9", start="7", add=static)
neighbours("12 and 13", ev.quote_of("sha256", "n1", GOOD, **wrong_pcr), "x\n", "failed pcr 0 current state 7", add=static)
SHORT = Entry("p", b"", alg="a", hash=b"\x01" * 20)


@long_case
def rules_13_and_14():
    return made("rules 13 and 14", *parts_of(GOOD_QUOTE, "\n" * 131073, "failed line 0 pcr current state 7"))


@long_case
def rules_14_and_15():
    return made("rules 14 and 15", *parts_of(GOOD_QUOTE, [SHORT] * 131073, "failed listfull current state 7"))


@long_case
def list_of_131072_lines():
    return made("list of 131072 lines", *parts_of(GOOD_QUOTE, [SHORT] * 131072, "failed unmatched current state 7"))


neighbours("15 and 16", GOOD_QUOTE, [UNLISTED], "failed unmatched current state 7")
neighbours("16 and 17", ev.quote_of("sha256", "n1", [UNLISTED, SHELL]), [UNLISTED, SHELL], "failed entry 0 unknown current state 7")
