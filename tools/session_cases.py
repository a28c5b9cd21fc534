"""Sessions of many lines: many agents, replacements, stale polls, refusals, limits, and the edges of the script's language."""
import evidence as ev
from cases import GOOD, add, begin, case, long_case, made, passes, reactivate, refused, remove, replace, reply, session, state, stop
from evidence import BOOT_AGGREGATE, ENV, POLICY, SHELL, UNLISTED

BAD = [BOOT_AGGREGATE, UNLISTED]
# The first three lines of most sessions.
S = add("a1", 1)
B = begin("a1", "n1", 1, 1)
R = passes(1, "n1", "current state 5")
ALL = [BOOT_AGGREGATE, SHELL, ENV]
MOST = (1 << 64) - 1
LONGEST = 16_777_216


def bad(poll, nonce, ending):
    return reply(poll, nonce, BAD, f"failed entry 1 unknown {ending}")


def invalid(poll, ending):
    """A reply that is not even a quote: its four texts are empty, so that nothing is kept of it but the record."""
    return f"reply {poll} \\0 0 \\0 \\0 ", f"verdict {poll} invalid form 0 {ending}"


# ---- one agent, one poll after the other
session("first pass and its state", S, B, R, state("a1", 5, "PROVIDE_V", 1, 2))
session("state before and after a begin", S, state("a1", 1, "START", 1, 0), B, state("a1", 3, "GET_QUOTE", 1, 0))
session("pass without V and its state", add("a1", 1, v="-"), B, passes(1, "n1", "current state 3"), state("a1", 3, "GET_QUOTE", 1, 2))
# Each poll asks for the whole list, and the last pass says how much of it is accepted; a failure leaves that as it was.
session("accepted is the last pass's cut", S, B, R, begin("a1", "n2", 2, 1), reply(2, "n2", ALL, "pass 3 current state 5"),
        state("a1", 5, "PROVIDE_V", 1, 3), begin("a1", "n3", 3, 1), passes(3, "n3", "current state 5"), state("a1", 5, "PROVIDE_V", 1, 2),
        begin("a1", "n4", 4, 1), bad(4, "n4", "current state 7"), state("a1", 7, "FAILED", 1, 2))
session("an invalid quote leaves what is accepted", S, B, R, begin("a1", "n2", 2, 1), invalid(2, "current state 9"),
        state("a1", 9, "INVALID_QUOTE", 1, 2))
session("a start is 0 though a list is accepted", S, B, R, begin("a1", "n2", 2, 1),
        reply(2, "n2", ALL, "invalid start current state 9", start="2"))
session("another boot's whole list", S, B, R, begin("a1", "n2", 2, 1), passes(2, "n2", "current state 5", boot=(2, 0)),
        begin("a1", "n3", 3, 1), passes(3, "n3", "current state 5", boot=(1, 7)))
session("the same nonce twice", S, B, R, begin("a1", "n1", 2, 1), passes(2, "n1", "current state 5"))
session("the quote of the poll before", S, B, R, begin("a1", "n2", 2, 1),
        (passes(2, "n1", "")[0], "verdict 2 invalid nonce current state 9"))

# ---- failed and invalid agents, until they are reactivated
session("failure and reactivate", S, B, bad(1, "n1", "current state 7"), state("a1", 7, "FAILED", 1, 0), refused("begin a1 n2", "state 7"),
        refused("stop a1", "state 7"), reactivate("a1", 2), state("a1", 1, "START", 2, 0), begin("a1", "n2", 2, 2),
        passes(2, "n2", "current state 5"), state("a1", 5, "PROVIDE_V", 2, 2))
session("invalid quote and reactivate", S, B, reply(1, "n2", GOOD, "invalid nonce current state 9"),
        state("a1", 9, "INVALID_QUOTE", 1, 0), refused("begin a1 n2", "state 9"), refused("stop a1", "state 9"), reactivate("a1", 2),
        begin("a1", "n2", 2, 2), passes(2, "n2", "current state 5"))
session("reactivate an agent that passed", S, B, R, reactivate("a1", 2), state("a1", 1, "START", 2, 0))
session("reactivate makes an open poll stale", S, B, reactivate("a1", 2), begin("a1", "n2", 2, 2), passes(1, "n1", "stale state 3"),
        passes(2, "n2", "current state 5"))

# ---- stop
session("stop", S, B, stop("a1"), refused("begin a1 n2", "state 10"), refused("stop a1", "state 10"), passes(1, "n1", "stale state 10"),
        state("a1", 10, "TENANT_FAILED", 1, 0))
session("stop before a poll and after a pass", S, stop("a1"), reactivate("a1", 2), begin("a1", "n1", 1, 2),
        passes(1, "n1", "current state 5"), stop("a1"), state("a1", 10, "TENANT_FAILED", 2, 2), reactivate("a1", 3),
        state("a1", 1, "START", 3, 0))
session("a poll from before a stop stays stale", S, B, stop("a1"), reactivate("a1", 2), bad(1, "n1", "stale state 1"))

# ---- replacements: a late poll is appraised under the policy that it was begun under, and changes nothing
session("late pass", S, B, replace("a1", 2), passes(1, "n1", "stale state 1"), state("a1", 1, "START", 2, 0), begin("a1", "n2", 2, 2))
session("late failure", S, B, replace("a1", 2), bad(1, "n1", "stale state 1"), state("a1", 1, "START", 2, 0))
session("late invalid quote", S, B, replace("a1", 2), reply(1, "n2", GOOD, "invalid nonce stale state 1"), state("a1", 1, "START", 2, 0))
FEW = ev.flat_policy([BOOT_AGGREGATE])
session("late pass under the policy before", S, B, replace("a1", 2, FEW), begin("a1", "n2", 2, 2), passes(1, "n1", "stale state 3"),
        reply(2, "n2", GOOD, "failed entry 1 unknown current state 7"))
session("late failure under the policy before", add("a1", 1, FEW), B, replace("a1", 2), begin("a1", "n2", 2, 2),
        reply(1, "n1", GOOD, "failed entry 1 unknown stale state 3"), passes(2, "n2", "current state 5"))
session("two polls of an agent", S, B, replace("a1", 2), begin("a1", "n2", 2, 2), refused("begin a1 n3", "busy 2"),
        passes(2, "n2", "current state 5"), passes(1, "n1", "stale state 5"), state("a1", 5, "PROVIDE_V", 2, 2))
session("failure and then a stale pass", S, B, replace("a1", 2), begin("a1", "n2", 2, 2), bad(2, "n2", "current state 7"),
        passes(1, "n1", "stale state 7"), state("a1", 7, "FAILED", 2, 0))
session("three generations of polls", S, B, replace("a1", 2), begin("a1", "n2", 2, 2), replace("a1", 3), begin("a1", "n3", 3, 3),
        invalid(1, "stale state 3"), bad(2, "n2", "stale state 3"), passes(3, "n3", "current state 5"))
session("replace in each state", S, replace("a1", 2), state("a1", 1, "START", 2, 0), begin("a1", "n1", 1, 2), replace("a1", 3),
        state("a1", 1, "START", 3, 0), begin("a1", "n2", 2, 3), passes(2, "n2", "current state 5"), replace("a1", 4),
        state("a1", 1, "START", 4, 0), begin("a1", "n3", 3, 4), bad(3, "n3", "current state 7"), replace("a1", 5),
        state("a1", 1, "START", 5, 0), begin("a1", "n4", 4, 5), invalid(4, "current state 9"), replace("a1", 6),
        state("a1", 1, "START", 6, 0), stop("a1"), replace("a1", 7), state("a1", 1, "START", 7, 0), passes(1, "n1", "stale state 1"))
session("a replacement keeps the other terms", add("a1", 1, FEW, v="-", bank="sha1", mask="0x10401", statics="0=" + "00" * 20),
        replace("a1", 2), begin("a1", "n1", 1, 2), passes(1, "n1", "current state 3", bank="sha1", statics={0: bytes(20)}),
        begin("a1", "n2", 2, 2), reply(2, "n2", GOOD, "failed pcr 0 current state 7", bank="sha1", statics={0: b"\1" * 20}))

# ---- remove
session("remove and add again", S, B, remove("a1"), add("a1", 2), begin("a1", "n2", 2, 2), passes(1, "n1", "stale state 3"))
session("remove alone", S, B, remove("a1"), passes(1, "n1", "stale state none"), refused("state a1", "noagent"))
session("added again and not polled", S, B, remove("a1"), add("a1", 2), bad(1, "n1", "stale state 1"))
session("added again with other terms", S, B, remove("a1"), add("a1", 2, ak=b"k2"), begin("a1", "n2", 2, 2),
        passes(1, "n1", "stale state 3"), passes(2, "n2", "current state 5", ak=b"k2"))
session("remove in each state", S, remove("a1"), add("a1", 2), begin("a1", "n1", 1, 2), remove("a1"), add("a1", 3),
        begin("a1", "n2", 2, 3), passes(2, "n2", "current state 5"), remove("a1"), add("a1", 4), begin("a1", "n3", 3, 4),
        bad(3, "n3", "current state 7"), remove("a1"), add("a1", 5), begin("a1", "n4", 4, 5), invalid(4, "current state 9"),
        remove("a1"), add("a1", 6), stop("a1"), remove("a1"), refused("remove a1", "noagent"), passes(1, "n1", "stale state none"))

# ---- refusals
session("busy", S, B, refused("begin a1 n1", "busy 1"), R)
session("no agent", *(refused(line, "noagent") for line in [
    "state zz", "begin zz n1", "reactivate zz", "stop zz", "remove zz", "replace zz flat ", ev.replace_line(POLICY, "zz")]))
session("another case of letters is another agent", S, refused("state A1", "noagent"), add("A1", 2))
session("an agent is there once", S, refused(S, "exists"), refused(ev.add_line("", v="-"), "exists"), state("a1", 1, "START", 1, 0))
NO_POLLS = [f"reply {n} \\0 0 \\0 \\0 " for n in (0, 1, 2, 7, MOST)]
session("no poll", *(refused(line, f"nopoll {line.split()[1]}") for line in NO_POLLS))
session("a poll closes once", S, B, R, refused(R, "nopoll 1"), refused(R, "nopoll 1"), refused(NO_POLLS[0], "nopoll 0"),
        refused(NO_POLLS[2], "nopoll 2"), refused(NO_POLLS[4], f"nopoll {MOST}"))
session("a refused reply asks no key", S, refused(R, "nopoll 1"), B, R, key_faults="2")
# The policy's faults come first, then the mask, the statics, and at last what the agents that are there forbid.
NO_LINE, NO_MASK, NO_STATIC = "zz\n", {"mask": "0x10000"}, {"statics": "10=" + "00" * 32}
for name, first in {"on an agent that is not there": [], "on an agent that is there": [S]}.items():
    session(f"the order of an add's refusals {name}", *first,
            refused(ev.add_line(NO_LINE, **NO_MASK, **NO_STATIC), "policy line 0"),
            refused(ev.add_line(POLICY + NO_LINE, **NO_STATIC), "policy line 3"),
            refused(ev.add_line(POLICY, **NO_MASK, **NO_STATIC), "mask"),
            refused(ev.add_line(POLICY, **NO_STATIC), "static"),
            refused(ev.add_line(POLICY), "exists") if first else add("a1", 1))
session("refused replacements", S, B, refused("replace a1 flat zz", "policy line 0"), refused(ev.replace_line(POLICY + "\nx", "a1"), "policy line 4"),
        refused("replace zz flat zz", "policy line 0"), refused("replace zz flat ", "noagent"), state("a1", 3, "GET_QUOTE", 1, 0), R)

# ---- generations and polls are numbered over all agents, and what is refused draws no number
session("generations over three agents", S, add("b1", 2), replace("a1", 3), reactivate("b1", 4), refused(ev.add_line(POLICY), "exists"),
        refused(ev.add_line(POLICY, agent="c1", mask="0x0"), "mask"), remove("a1"), add("a1", 5), add("c1", 6), refused("reactivate d1", "noagent"),
        replace("b1", 7), stop("c1"), reactivate("c1", 8), state("a1", 1, "START", 5, 0), state("b1", 1, "START", 7, 0),
        state("c1", 1, "START", 8, 0))
session("two agents interleaved", S, add("b1", 2), B, begin("b1", "m1", 2, 2), passes(2, "m1", "current state 5"),
        state("a1", 3, "GET_QUOTE", 1, 0), state("b1", 5, "PROVIDE_V", 2, 2), begin("b1", "m2", 3, 2), refused("begin a1 n2", "busy 1"), R,
        bad(3, "m2", "current state 7"), begin("a1", "n2", 4, 1), refused("begin b1 m3", "state 7"), passes(4, "n2", "current state 5"),
        state("b1", 7, "FAILED", 2, 2))
session("a reply to another agent's poll", S, add("b1", 2, ak=b"k2"), B, begin("b1", "n1", 2, 2),
        (passes(2, "n1", "")[0], "verdict 2 invalid signature current state 9"), R, state("b1", 9, "INVALID_QUOTE", 2, 0))
session("two agents of one key", S, add("b1", 2), B, begin("b1", "m1", 2, 2),
        (passes(2, "n1", "")[0], "verdict 2 invalid nonce current state 9"), R)
session("ids of all kinds", *(add(agent, number) for number, agent in enumerate(["a", "-", "_", ".", "0"], 1)), add("Z9-_.", 6),
        add("a" * 64, 7), begin("a" * 64, "N" * 64, 1, 7), begin("-", "0", 2, 2))

session("the example of docs/FORMATS.md", add("a1", 1, v="-"), add("b1", 2, contact="h:9003", ak=b"k2", v="-"), begin("a1", "n1", 1, 1),
        begin("b1", "n2", 2, 2), replace("a1", 3), begin("a1", "n3", 3, 3), passes(2, "n2", "current state 3", ak=b"k2"),
        passes(1, "n1", "stale state 3"), refused(R, "nopoll 1"), refused("begin a1 n4", "busy 3"), stop("a1"),
        refused("begin a1 n4", "state 10"), passes(3, "n3", "stale state 10"), reactivate("a1", 4), state("a1", 1, "START", 4, 0),
        remove("b1"), refused("state b1", "noagent"))

# ---- moments
session("moments", ("now 0", "now 0"), ("now 5000", "now 5000"), (f"now {MOST}", f"now {MOST}"), S, B, ("now 3", "now 3"), R)

# ---- key faults
session("key fault and a further poll", S, B, (R[0], "dropped 1 keys state 3"), refused(R, "nopoll 1"), state("a1", 3, "GET_QUOTE", 1, 0),
        begin("a1", "n2", 2, 1), passes(2, "n2", "current state 5"), key_faults="1")
session("key fault after a pass", S, B, R, begin("a1", "n2", 2, 1), (passes(2, "n2", "")[0], "dropped 2 keys state 5"),
        state("a1", 5, "PROVIDE_V", 1, 2), key_faults="2")
session("key fault of a late poll", S, B, replace("a1", 2), (R[0], "dropped 1 keys state 1"), key_faults="1")
session("key fault of a removed agent's poll", S, B, remove("a1"), (R[0], "dropped 1 keys state none"), key_faults="1")
session("key fault of a stopped agent's poll", S, B, stop("a1"), (R[0], "dropped 1 keys state 10"), key_faults="1")
session("key fault of one of two agents", S, add("b1", 2), B, begin("b1", "m1", 2, 2), passes(2, "m1", "current state 5"),
        (R[0], "dropped 1 keys state 3"), state("b1", 5, "PROVIDE_V", 2, 2), key_faults="2")

# ---- drawn nonces
DRAWN = [bytes(range(16 * n, 16 * n + 16)).hex() for n in range(3)]


def drawn(agent, n, poll, generation):
    """A begin without a nonce, which takes the n-th 16 bytes from 0."""
    return f"begin {agent}", f"poll {poll} {agent} generation {generation} nonce {DRAWN[n]} from 0"


session("drawn nonce", S, drawn("a1", 0, 1, 1), passes(1, "000102030405060708090a0b0c0d0e0f", "current state 5"), words=DRAWN[0])
session("15 bytes to draw", S, ("begin a1", None), words=DRAWN[0][:-2], status=6)
session("no bytes to draw", "# nothing", ("now 4", "now 4"), ("begin zz", None), ("now 5", None), status=6)
session("17 bytes to draw", S, drawn("a1", 0, 1, 1), reactivate("a1", 2), ("begin a1", None), words=DRAWN[0] + "ff", status=6)
session("a draw before a refusal", S, add("b1", 2), drawn("a1", 0, 1, 1), refused("begin a1", "busy 1"), drawn("b1", 2, 2, 2),
        words="".join(DRAWN))
session("a draw for no agent", refused("begin zz", "noagent"), S, drawn("a1", 1, 1, 1), stop("a1"), refused("begin a1", "state 10"),
        ("begin a1", None), words="".join(DRAWN), status=6)
session("a given nonce draws nothing", S, B, refused("begin a1 n2", "busy 1"), R, drawn("a1", 0, 2, 1), words=DRAWN[0])
session("lines that spell no command draw nothing", S, "# begin a1", "", drawn("a1", 0, 1, 1), ("begin a1 ", "fault line 5"),
        words=DRAWN[0] + DRAWN[1], status=3)

# ---- limits
EMPTY = {"policy": "", "v": "-"}
CROWD = [add(f"b{n}", n + 1, **EMPTY) for n in range(65)]
BEGUN = [begin(f"b{n}", f"n{n}", n + 1, n + 1) for n in range(64)]
session("sixty-five polls", *CROWD, *BEGUN, refused("begin b64 n64", "journalfull bytes"))
# A poll weighs 16 MiB of the 1 GiB while it is open, a policy what its text weighs, and a verdict what its evidence weighs.
session("sixty-four polls and a byte", add("b0", 1, "\n", v="-"), *CROWD[1:64], *BEGUN[:63], refused("begin b63 n63", "journalfull bytes"))
session("weights at sixty-four polls", *CROWD, *BEGUN, refused("begin b0 x", "busy 1"), refused(ev.add_line("\n", agent="c1"), "journalfull bytes"),
        add("c1", 66, ""), refused(ev.replace_line("\n", "b0"), "journalfull bytes"), replace("b0", 67, ""), reactivate("b1", 68),
        refused("replace zz flat \\n", "noagent"), refused(ev.add_line("\n", agent="b0"), "exists"), refused("begin zz n1", "noagent"),
        stop("b2"), refused("begin b2 x", "state 10"), remove("b3"), refused("begin b3 x", "noagent"),
        refused("begin b64 n64", "journalfull bytes"), invalid(5, "current state 9"), refused("begin b4 x", "state 9"),
        begin("b64", "n64", 65, 65), refused("begin c1 x", "journalfull bytes"), refused(invalid(5, ""), "nopoll 5"),
        invalid(6, "current state 9"), begin("b0", "x", 66, 67), invalid(1, "stale state 3"), invalid(2, "stale state 1"),
        invalid(3, "stale state 10"), invalid(4, "stale state none"))
session("a verdict's evidence weighs", *CROWD, *BEGUN, (passes(1, "n0", "")[0], "verdict 1 failed entry 0 unknown current state 7"),
        refused("begin b64 n64", "journalfull bytes"), invalid(2, "current state 9"), begin("b64", "n64", 65, 65))
session("a dropped poll weighs nothing", *CROWD, *BEGUN, (passes(1, "n0", "")[0], "dropped 1 keys state 3"), begin("b64", "n64", 65, 65),
        key_faults="1")


@long_case
def agents_full():
    steps = [add(f"b{n}", n + 1, **EMPTY) for n in range(1024)]
    steps += [refused(ev.add_line(POLICY, agent="z"), "agentsfull"), refused(ev.add_line(POLICY, agent="b0"), "exists"),
              refused(ev.add_line(POLICY, agent="z", mask="0x0"), "mask"), replace("b7", 1025), begin("b7", "n1", 1, 1025), remove("b5"),
              add("z", 1026), refused(ev.add_line(POLICY, agent="b5"), "agentsfull"), passes(1, "n1", "current state 3")]
    return made("1,025 agents", *lines_of(steps))


def lines_of(steps):
    return "".join(line.removesuffix("\n") + "\n" for line, _ in steps), "".join(printed + "\n" for _, printed in steps)


def reactivated(times):
    """An agent that is installed once and reactivated so many times, so that as many records and one more stand."""
    return [S] + [reactivate("a1", n + 2) for n in range(times)]


@long_case
def records_full():
    steps = reactivated(999_998) + [
        refused("begin a1 n1", "journalfull records"), reactivate("a1", 1_000_000), refused("reactivate a1", "journalfull records"),
        refused("begin a1 n1", "journalfull records"), refused("stop a1", "journalfull records"), refused("remove a1", "journalfull records"),
        refused("replace a1 flat ", "journalfull records"), refused(ev.add_line("", agent="b1"), "journalfull records"),
        refused(S, "exists"), refused("replace b1 flat ", "noagent"), refused("reply 1 \\0 0 \\0 \\0 ", "nopoll 1"),
        ("now 7", "now 7"), state("a1", 1, "START", 1_000_000, 0)]
    return made("1,000,001 records", *lines_of(steps))


@long_case
def records_full_at_a_close():
    steps = reactivated(999_997) + [
        begin("a1", "n1", 1, 999_998), refused("reactivate a1", "journalfull records"), refused("begin a1 n2", "busy 1"),
        refused("stop a1", "journalfull records"), bad(1, "n1", "current state 7"), refused("stop a1", "state 7"),
        refused("reactivate a1", "journalfull records"), state("a1", 7, "FAILED", 999_998, 0)]
    return made("a poll closes as the 1,000,000th record", *lines_of(steps))


def short_paths(count):
    """A policy of so many distinct paths."""
    return "".join(f"aa  {n:x}\n" for n in range(count))


@long_case
def most_paths():
    steps = [add("a1", 1, short_paths(262_144) + "bb  0\n"), refused(ev.replace_line(short_paths(262_145)), "policy limit paths"),
             refused(ev.add_line(short_paths(262_145), mask="0x0"), "policy limit paths"),
             refused(ev.replace_line(short_paths(262_145) + "x"), "policy line 262145"), state("a1", 1, "START", 1, 0)]
    return made("262,145 paths", *lines_of(steps))


# ---- the edges of a script
case("empty script", "", "")
session("empty lines and comments", "", "#", "# a script", S, "", "#begin a1 n1", B, "")
session("a fault names its line of all", "", "# a script", ("now 1", "now 1"), ("walk", "fault line 4"), (S[0], None), status=3)
session("add alone", S)
session("begin without its words", ("begin", "fault line 1"), status=3)
session("nothing is done after a fault", S, ("begin a1 n1 ", "fault line 2"), (B[0], None), (R[0], None), status=3)
NO_COMMANDS = {
    "a space first": " now 1", "two spaces": "now  1", "a space last": "now 1 ", "a space alone": " ", "a word in capitals": "NOW 1",
    "a comment behind a space": " # x", "a comment behind a command": "now 1 # x", "a number with a sign": "now +1",
    "a number with a zero first": "now 01", "a number over 64 bits": f"now {MOST + 1}", "a number without digits": "now ",
    "no number": "now", "a tab": "now\t1", "a state of nobody": "state", "a state of two": "state a1 b1", "an id with a slash": "state a/1",
    "an id of 65 letters": "state " + "a" * 65, "an id with an umlaut": "state ä", "a nonce with a dash": "begin a1 n-1",
    "a nonce of 65 letters": "begin a1 " + "n" * 65, "a begin of three words": "begin a1 n1 n2", "stop of nobody": "stop",
    "stop with a reason": "stop a1 now", "remove of nobody": "remove ", "reactivate of two": "reactivate a1 b1",
    "replace without a kind": "replace a1", "replace without a rest": "replace a1 flat", "replace of json without a rest": "replace a1 json",
    "a kind in capitals": "replace a1 JSON {}", "add without a rest": S[0].split(" flat ")[0] + " flat",
    "add of a short V": ev.add_line(POLICY, v="22"), "add without a key": ev.add_line(POLICY, ak=b""),
    "add in another bank": ev.add_line(POLICY, bank="sha512"), "a mask without 0x": ev.add_line(POLICY, mask="10400"),
    "a mask of capital X": ev.add_line(POLICY, mask="0X10400"), "a mask of seven digits": ev.add_line(POLICY, mask="0x0010400"),
    "a static PCR of two digits": ev.add_line(POLICY, statics="00=" + "00" * 32), "a static PCR of 24": ev.add_line(POLICY, statics="24=" + "00" * 32),
    "a static of 31 bytes": ev.add_line(POLICY, statics="0=" + "00" * 31), "a backslash in a contact": ev.add_line(POLICY, contact="h\\x"),
    "an empty text in a rest": "replace a1 flat \\0", "a backslash last": "replace a1 flat \\", "reply without a rest": "reply 1 sha256 0 PUB q",
    "reply to no number": "reply one sha256 0 PUB q ", "reply from no number": "reply 1 sha256 x PUB q ",
    "reply to 2^64": f"reply {MOST + 1} sha256 0 PUB q ",
}
for name, line in NO_COMMANDS.items():
    session(f"no command: {name}", ("now 1", "now 1"), (line, "fault line 2"), status=3)
# What is no command of this part.
for line in ["take 1", "deliver 1", "journal"]:
    session(f"not yet: {line.split()[0]}", (line, "fault line 1"), status=3)
session("fields with escapes", add("a1", 1, contact="\\0"), add("b1", 2, contact="a\\sb\\n\\\\"), add("c1", 3, contact="ä=;,"))
session("digits in either case", (ev.add_line(POLICY.upper().replace("BOOT_AGGREGATE", "boot_aggregate").replace("/BIN/SH", "/bin/sh"),
                                              mask="0x01040F", ak=b"\xab\xcd").replace("abcd", "aBCd"), "installed a1 generation 1"))


def edge(name, script, printed, **more):
    """A script whose bytes can't stand in a file of many."""
    case(name, script, printed, stored=False, **more)


SB = S[0] + B[0] + "\n"
SB_PRINTED = f"{S[1]}\n{B[1]}\n"
edge("begin alone without a newline", "begin", "fault line 1\n", status=3)
edge("first pass without its last newline", SB + R[0].removesuffix("\n"), SB_PRINTED + R[1] + "\n")
edge("a comment without its newline", "now 1\n# x", "now 1\n")
edge("a last line that is drawn for nobody", "begin zz", "refused noagent\n")
QUOTE_END = len(" ".join(R[0].split(" ")[:6]))
FIRST_END = R[0].index("\\n") + 2
edge("a script that ends in a reply's quote", SB + R[0][:QUOTE_END - 9], SB_PRINTED + "fault line 3\n", status=3)
edge("a script that ends behind a reply's quote", SB + R[0][:QUOTE_END], SB_PRINTED + "fault line 3\n", status=3)
edge("a script that ends in a reply's escape", SB + R[0][:FIRST_END - 1], SB_PRINTED + "fault line 3\n", status=3)
edge("a script that ends in a reply's list", SB + R[0][:FIRST_END], SB_PRINTED + "verdict 1 failed unmatched current state 7\n")
edge("a script that ends in a reply's line", SB + R[0][:FIRST_END + 9], SB_PRINTED + "verdict 1 failed line 1 hash current state 7\n")
edge("a carriage return before the newline", "now 1\r\n", "fault line 1\n", status=3)
edge("a line of a carriage return", "now 1\n\r\n", "now 1\nfault line 2\n", status=3)
edge("a comment with a carriage return", "# now 1\r\n#\r\nnow 2\n", "now 2\n")
edge("a comment that is no UTF-8", b"now 1\n# \xff\nnow 2\n", "now 1\nfault line 2\n", status=3)
edge("a contact that is no UTF-8", S[0].encode().replace(b"h:", b"\xc3:"), "fault line 1\n", status=3)
edge("a zero byte", "now 1\0\n", "fault line 1\n", status=3)
edge("a mark of the byte order", "\ufeffnow 1\n", "fault line 1\n", status=3)
edge("newlines alone", "\n" * 100_000 + "x", "fault line 100001\n", status=3)


@long_case
def longest_comment():
    return made("a comment of 16,777,216 bytes", "now 1\n#" + "x" * (LONGEST - 1) + "\nnow 2\n", "now 1\nnow 2\n")


@long_case
def longest_last_comment():
    return made("a last comment of 16,777,216 bytes", "#" * LONGEST, "")


@long_case
def too_long_comment():
    return made("a comment of 16,777,217 bytes", "now 1\n#" + "x" * LONGEST + "\nnow 2\n", "now 1\nfault line 2\n", status=8)


@long_case
def too_long_last_comment():
    return made("a last comment of 16,777,217 bytes", "now 1\n\n" + "#" * (LONGEST + 1), "now 1\nfault line 3\n", status=8)


@long_case
def too_long_nonsense():
    return made("a line of 16,777,217 bytes that spells nothing", b"\xff" * (LONGEST + 1) + b"\n", "fault line 1\n", status=8)


@long_case
def far_too_long():
    return made("a line of 40,000,000 bytes", "now 1\n" + "x" * 40_000_000 + "\nnow 2\n", "now 1\nfault line 2\n", status=8)


def padded_add(length):
    """An add of a line of this length, its policy filled up by empty lines."""
    lines = [ev.add_line(POLICY, contact=contact, v="-").removesuffix("\n") for contact in ("h", "hh")]
    line = next(line for line in lines if (length - len(line)) % 2 == 0)
    return line + "\\n" * ((length - len(line)) // 2) + "\n"


@long_case
def longest_add():
    longest = padded_add(LONGEST)
    return made("an add of 16,777,216 bytes", longest + B[0] + "\n" + R[0], f"{S[1]}\n{B[1]}\nverdict 1 pass 2 current state 3\n")


@long_case
def too_long_add():
    return made("an add of 16,777,218 bytes", B[0] + "\n" + padded_add(LONGEST + 2) + B[0], "refused noagent\nfault line 2\n", status=8)


# ---- the example: three agents, a replacement, a stale verdict, a removal
WEB = ev.flat_policy([BOOT_AGGREGATE, SHELL, ENV, UNLISTED])
session(
    "session",
    "# three agents, each with its own policy, key and share",
    add("web-1", 1), add("web-2", 2, v="-"), add("db.example", 3, FEW, bank="sha384"),
    refused(ev.add_line(POLICY, agent="web-1"), "exists"),
    "",
    "# each is polled; the polls stay open side by side",
    begin("web-1", "q1", 1, 1), begin("web-2", "q2", 2, 2), begin("db.example", "q3", 3, 3), refused("begin web-1 q4", "busy 1"),
    passes(2, "q2", "current state 3"),
    "",
    "# a replacement while a poll is open: its reply is judged under the policy before, and changes nothing",
    replace("web-1", 4, WEB),
    reply(1, "q1", [BOOT_AGGREGATE, UNLISTED], "failed entry 1 unknown stale state 1"), state("web-1", 1, "START", 4, 0),
    ("now 60000", "now 60000"), begin("web-1", "q5", 4, 4), reply(4, "q5", [BOOT_AGGREGATE, UNLISTED], "pass 2 current state 5"),
    state("web-1", 5, "PROVIDE_V", 4, 2),
    "",
    "# a failure lasts until the agent is installed anew",
    reply(3, "q3", GOOD, "failed entry 1 unknown current state 7", bank="sha384"),
    refused("begin db.example q6", "state 7"), replace("db.example", 5), begin("db.example", "q7", 5, 5),
    "",
    "# a removal: the open poll closes as stale",
    remove("db.example"), passes(5, "q7", "stale state none", bank="sha384"), refused("state db.example", "noagent"),
    "",
    "# an operator's stop",
    stop("web-2"), refused("begin web-2 q8", "state 10"), state("web-2", 10, "TENANT_FAILED", 2, 2), reactivate("web-2", 6),
    example=True,
)
