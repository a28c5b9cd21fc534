"""Lost polls and when an agent is polled next, failures and their notices, and the key share V: released, delivered, missed."""
import json

import evidence as ev
from cases import GOOD, add, begin, passes, reactivate, refused, remove, replace, reply, session, state, stop
from evidence import BOOT_AGGREGATE, POLICY
from session_cases import B, MOST, R, S, bad, invalid


# ---- steps: a line with what it prints


def now(moment):
    return f"now {moment}", f"now {moment}"


def due(agent):
    return "pick", f"due {agent}"


def lose(poll, ending):
    return f"lose {poll}", f"lost {poll} named {ending}"


def notice(number, agent, generation, why):
    """The members of a notice stand in the order of their names."""
    text = {"agent": agent, "generation": generation, "notice": number, "type": "revocation", "why": why}
    return "notice", json.dumps(text, separators=(",", ":"))


NO_NOTICE = "notice", "notice none"
NONE_DUE = "pick", "due none"


def noticed(number):
    return f"noticed {number}", f"noticed {number}"


def release(number, agent, poll):
    return f"release {agent}", f"release {number} {agent} poll {poll}"


def settle(number, outcome, ending):
    return f"settle {number} {outcome}", f"settled {number} {outcome} {ending}"


def losses(agent, first, generation, count):
    """So many lost polls of an agent, one after the other, from this poll on; the fifth in a row is a failure."""
    steps = []
    for n in range(count):
        steps += [begin(agent, f"l{first + n}", first + n, generation), lose(first + n, f"current state {7 if n == 4 else 4}")]
    return steps


# ---- losses: five in a row are a failure, and a finding ends the count
session("five losses", S, *losses("a1", 1, 1, 5), notice(1, "a1", 1, "losses"), refused("begin a1 n6", "state 7"),
        refused("stop a1", "state 7"), state("a1", 7, "FAILED", 1, 0), reactivate("a1", 2), state("a1", 1, "START", 2, 0))
session("four losses, a pass and four losses", S, *losses("a1", 1, 1, 4), begin("a1", "n5", 5, 1), passes(5, "n5", "current state 5"),
        begin("a1", "n6", 6, 1), lose(6, "current state 5"), state("a1", 5, "PROVIDE_V", 1, 2), begin("a1", "n7", 7, 1),
        lose(7, "current state 5"), begin("a1", "n8", 8, 1), lose(8, "current state 5"), begin("a1", "n9", 9, 1),
        lose(9, "current state 5"), NO_NOTICE, begin("a1", "n10", 10, 1), lose(10, "current state 7"), notice(1, "a1", 1, "losses"))
session("losses after a pass without V", add("a1", 1, v="-"), B, passes(1, "n1", "current state 3"), begin("a1", "n2", 2, 1),
        lose(2, "current state 4"), state("a1", 4, "GET_QUOTE_RETRY", 1, 2), begin("a1", "n3", 3, 1), passes(3, "n3", "current state 3"))
session("a dropped poll neither counts nor ends a count", S, *losses("a1", 1, 1, 4), begin("a1", "n5", 5, 1),
        (passes(5, "n5", "")[0], "dropped 5 keys state 4"), begin("a1", "n6", 6, 1), lose(6, "current state 7"),
        notice(1, "a1", 1, "losses"), key_faults="1")
session("late losses count for nothing", S, *losses("a1", 1, 1, 4), begin("a1", "n5", 5, 1), replace("a1", 2), lose(5, "stale state 1"),
        begin("a1", "n6", 6, 2), lose(6, "current state 4"), NO_NOTICE)
session("an install ends the count of losses", S, *losses("a1", 1, 1, 4), reactivate("a1", 2), *losses("a1", 5, 2, 4), replace("a1", 3),
        *losses("a1", 9, 3, 4), NO_NOTICE)
session("a loss of a removed and of a stopped agent", S, B, add("b1", 2), begin("b1", "m1", 2, 2), remove("a1"), stop("b1"),
        lose(1, "stale state none"), lose(2, "stale state 10"), NO_NOTICE)
session("losses of two agents", S, add("b1", 2), *losses("a1", 1, 1, 4), *losses("b1", 5, 2, 5), notice(1, "b1", 2, "losses"),
        begin("a1", "n10", 10, 1), lose(10, "current state 7"), noticed(1), notice(2, "a1", 1, "losses"))
session("no poll to lose", refused("lose 1", "nopoll 1"), S, B, refused("lose 2", "nopoll 2"), refused("lose 0", "nopoll 0"),
        refused(f"lose {MOST}", f"nopoll {MOST}"), lose(1, "current state 4"), refused("lose 1", "nopoll 1"), refused(R, "nopoll 1"))

# ---- who is polled next: the least moment, then the least id
session("pick", now(5000), S, due("a1"), B, NONE_DUE, lose(1, "current state 4"), now(8999), NONE_DUE, now(9000), due("a1"))
session("back-off", now(10), S, B, lose(1, "current state 4"), begin("a1", "n2", 2, 1), lose(2, "current state 4"), now(4010), NONE_DUE,
        now(8009), NONE_DUE, now(8010), due("a1"), begin("a1", "n3", 3, 1), lose(3, "current state 4"), now(24_009), NONE_DUE,
        now(24_010), due("a1"), begin("a1", "n4", 4, 1), lose(4, "current state 4"), now(56_009), NONE_DUE, now(56_010), due("a1"))
session("pick of nobody", NONE_DUE, S, remove("a1"), NONE_DUE, add("a1", 2), stop("a1"), NONE_DUE, reactivate("a1", 3), due("a1"))
session("pick by moment, then by id", now(100), add("c", 1), add("a", 2), add("b", 3), due("a"), begin("a", "n1", 1, 2), due("b"),
        begin("b", "n2", 2, 3), due("c"), begin("c", "n3", 3, 1), NONE_DUE, passes(2, "n2", "current state 5"), NONE_DUE,
        now(2099), NONE_DUE, now(2100), due("b"), passes(1, "n1", "current state 5"), due("a"), passes(3, "n3", "current state 5"),
        now(3000), begin("a", "n4", 4, 2), due("b"), begin("b", "n5", 5, 3), due("c"), lose(4, "current state 5"),
        passes(5, "n5", "current state 5"), now(5000), due("c"), begin("c", "n6", 6, 1), due("b"))
session("a finding is polled again 2,000 ms after its begin", now(1), S, B, now(7), R, now(2000), NONE_DUE, now(2001), due("a1"))
# The row of losses that counts is the one since the last finding: after a pass there is none, whatever was lost before.
session("the due moment counts the losses in a row", now(0), S, B, lose(1, "current state 4"), begin("a1", "n2", 2, 1),
        passes(2, "n2", "current state 5"), now(1999), NONE_DUE, now(2000), due("a1"))
session("a replacement makes an agent due at once", now(9), S, B, NONE_DUE, replace("a1", 2), due("a1"), begin("a1", "n2", 2, 2),
        NONE_DUE, lose(1, "stale state 3"), NONE_DUE, lose(2, "current state 4"), now(4009), due("a1"))
session("a failed agent is not due", S, B, bad(1, "n1", "current state 7"), now(MOST), NONE_DUE, reactivate("a1", 2), due("a1"))
session("a moment past the greatest number", now(MOST - 3999), S, B, lose(1, "current state 4"), now(MOST - 1), NONE_DUE, now(MOST),
        due("a1"), begin("a1", "n2", 2, 1), lose(2, "current state 4"), due("a1"))
session("a moment that is set back", now(9000), S, B, lose(1, "current state 4"), now(12_999), NONE_DUE, now(0), NONE_DUE, now(13_000),
        due("a1"))
session("the moment of a begin counts, and not that of its end", now(10), S, B, now(20_000), lose(1, "current state 4"), due("a1"),
        now(4_009), NONE_DUE, now(4_010), due("a1"))

# ---- failures and their notices
session("nonce and notice", S, B, reply(1, "n2", GOOD, "invalid nonce current state 9"), notice(1, "a1", 1, "invalid nonce"),
        refused("noticed 2", "nonotice 2"), noticed(1), NO_NOTICE)
session("no notice", NO_NOTICE, refused("noticed 0", "nonotice 0"), refused("noticed 1", "nonotice 1"), S, B, R, NO_NOTICE)
session("a late failure has no notice", S, B, replace("a1", 2), bad(1, "n1", "stale state 1"), NO_NOTICE)
session("a notice stands until it is marked", S, B, bad(1, "n1", "current state 7"), notice(1, "a1", 1, "failed entry 1 unknown"),
        notice(1, "a1", 1, "failed entry 1 unknown"), refused("noticed 0", "nonotice 0"), refused("noticed 2", "nonotice 2"), noticed(1),
        refused("noticed 1", "nonotice 1"), NO_NOTICE)
session("notices in the order of failures", S, add("b1", 2), add("c1", 3), begin("a1", "n1", 1, 1), begin("b1", "n2", 2, 2),
        begin("c1", "n3", 3, 3), invalid(2, "current state 9"), bad(3, "n3", "current state 7"), bad(1, "n1", "current state 7"),
        notice(1, "b1", 2, "invalid form 0"), refused("noticed 2", "nonotice 2"), noticed(1), notice(2, "c1", 3, "failed entry 1 unknown"),
        noticed(2), remove("a1"), notice(3, "a1", 1, "failed entry 1 unknown"), noticed(3), NO_NOTICE)
session("two failures of one agent have two notices", S, B, bad(1, "n1", "current state 7"), reactivate("a1", 2), begin("a1", "n2", 2, 2),
        invalid(2, "current state 9"), notice(1, "a1", 1, "failed entry 1 unknown"), noticed(1), notice(2, "a1", 2, "invalid form 0"))
session("a failed agent's late poll makes no second notice", S, B, replace("a1", 2), begin("a1", "n2", 2, 2), bad(2, "n2", "current state 7"),
        bad(1, "n1", "stale state 7"), noticed(1), NO_NOTICE)
session("a stop is no failure", S, B, stop("a1"), invalid(1, "stale state 10"), NO_NOTICE)

# ---- releases of V
session("early release", S, refused("release a1", "state 1"), refused("settle 4 missed", "norelease 4"), refused("release zz", "noagent"))
session("release and replace", S, B, R, release(1, "a1", 1), refused("release a1", "busy 1"), replace("a1", 2),
        settle(1, "arrived", "stale state 1"), begin("a1", "n2", 2, 2), passes(2, "n2", "current state 3"), refused("release a1", "state 3"))
session("released and arrived", S, B, R, release(1, "a1", 1), state("a1", 5, "PROVIDE_V", 1, 2), settle(1, "arrived", "current state 3"),
        refused("release a1", "state 3"), refused("settle 1 arrived", "norelease 1"), begin("a1", "n2", 2, 1),
        passes(2, "n2", "current state 3"), refused("release a1", "state 3"))
session("another boot wants V again", S, B, R, release(1, "a1", 1), settle(1, "arrived", "current state 3"), begin("a1", "n2", 2, 1),
        passes(2, "n2", "current state 5", boot=(2, 0)), release(2, "a1", 2), settle(2, "arrived", "current state 3"),
        begin("a1", "n3", 3, 1), passes(3, "n3", "current state 3", boot=(1, 0)), begin("a1", "n4", 4, 1),
        passes(4, "n4", "current state 5", boot=(2, 1)))
session("undelivered", S, B, R, *(step for n in range(1, 6) for step in (
        release(n, "a1", 1), settle(n, "missed", f"current state {7 if n == 5 else 6}"))), notice(1, "a1", 1, "undelivered"),
        refused("release a1", "state 7"), refused("begin a1 n2", "state 7"))
session("an arrival ends the count of missed ones", S, B, R, *(step for n in range(1, 5) for step in (
        release(n, "a1", 1), settle(n, "missed", "current state 6"))), release(5, "a1", 1), settle(5, "arrived", "current state 3"),
        begin("a1", "n2", 2, 1), passes(2, "n2", "current state 5", boot=(2, 0)), release(6, "a1", 2), settle(6, "missed", "current state 6"),
        NO_NOTICE)
session("a pass does not end the count of missed ones", S, B, R, *(step for n in range(1, 5) for step in (
        release(n, "a1", 1), settle(n, "missed", "current state 6"))), begin("a1", "n2", 2, 1), passes(2, "n2", "current state 6"),
        release(5, "a1", 2), settle(5, "missed", "current state 7"), notice(1, "a1", 1, "undelivered"))
session("late deliveries that were missed count for nothing", S, B, R, *(step for n in range(1, 5) for step in (
        release(n, "a1", 1), settle(n, "missed", "current state 6"))), release(5, "a1", 1), reactivate("a1", 2),
        settle(5, "missed", "stale state 1"), begin("a1", "n2", 2, 2), passes(2, "n2", "current state 5"), NO_NOTICE)
session("no V, no release", add("a1", 1, v="-"), B, passes(1, "n1", "current state 3"), refused("release a1", "state 3"))
session("V waits for a pass of the installed generation", S, B, R, replace("a1", 2), refused("release a1", "state 1"),
        begin("a1", "n2", 2, 2), refused("release a1", "state 3"), bad(2, "n2", "current state 7"), refused("release a1", "state 7"))
session("no V behind a late pass", S, B, replace("a1", 2), passes(1, "n1", "stale state 1"), refused("release a1", "state 1"),
        begin("a1", "n2", 2, 2))
session("no V after a later failure", S, B, R, begin("a1", "n2", 2, 1), bad(2, "n2", "current state 7"), refused("release a1", "state 7"))
session("V while a poll is open or was lost", S, B, R, begin("a1", "n2", 2, 1), release(1, "a1", 1), lose(2, "current state 5"),
        settle(1, "missed", "current state 6"), release(2, "a1", 1), settle(2, "arrived", "current state 4"))
session("a stopped and a removed agent's release", S, B, R, release(1, "a1", 1), add("b1", 2), begin("b1", "n2", 2, 2),
        passes(2, "n2", "current state 5"), release(2, "b1", 2), stop("a1"), refused("release a1", "state 10"), remove("b1"),
        settle(2, "arrived", "stale state none"), settle(1, "missed", "stale state 10"))
session("a release from before the agent was added again", S, B, R, release(1, "a1", 1), remove("a1"), add("a1", 2),
        begin("a1", "n2", 2, 2), passes(2, "n2", "current state 5"), release(2, "a1", 2), settle(1, "arrived", "stale state 5"),
        refused("release a1", "busy 2"), settle(2, "arrived", "current state 3"))
session("an arrival before a removal does not count after it", S, B, R, release(1, "a1", 1), settle(1, "arrived", "current state 3"),
        remove("a1"), add("a1", 2), begin("a1", "n2", 2, 2), passes(2, "n2", "current state 5"))
session("a release from before a replacement is open still", S, B, R, release(1, "a1", 1), replace("a1", 2), begin("a1", "n2", 2, 2),
        passes(2, "n2", "current state 5"), refused("release a1", "busy 1"), settle(1, "missed", "stale state 5"), release(2, "a1", 2))
session("a late arrival reaches the boot of a later pass", S, B, R, release(1, "a1", 1), reactivate("a1", 2), begin("a1", "n2", 2, 2),
        passes(2, "n2", "current state 5"), refused("release a1", "busy 1"), settle(1, "arrived", "stale state 3"),
        refused("release a1", "state 3"))
session("V reached the boot of a pass, and then a newer pass is of another", S, B, R, release(1, "a1", 1), begin("a1", "n2", 2, 1),
        passes(2, "n2", "current state 5", boot=(2, 0)), settle(1, "arrived", "current state 5"), release(2, "a1", 2),
        begin("a1", "n3", 3, 1), passes(3, "n3", "current state 3"), settle(2, "arrived", "current state 3"))
session("releases are numbered over all agents", S, add("b1", 2), B, R, begin("b1", "n2", 2, 2), passes(2, "n2", "current state 5"),
        release(1, "b1", 2), release(2, "a1", 1), settle(2, "arrived", "current state 3"), settle(1, "arrived", "current state 3"))
session("no release to settle", refused("settle 1 arrived", "norelease 1"), S, B, R, release(1, "a1", 1),
        refused("settle 0 missed", "norelease 0"), refused("settle 2 missed", "norelease 2"), refused(f"settle {MOST} arrived", f"norelease {MOST}"),
        settle(1, "missed", "current state 6"), refused("settle 1 arrived", "norelease 1"))
session("late pass and release", S, B, replace("a1", 2), passes(1, "n1", "stale state 1"), refused("release a1", "state 1"),
        begin("a1", "n2", 2, 2), passes(2, "n2", "current state 5"), release(1, "a1", 2))

# ---- what is no command
for name, line in {
    "lose without a number": "lose", "lose of two": "lose 1 2", "lose of a number with a zero first": "lose 01", "pick of an agent": "pick a1",
    "pick with a space": "pick ", "notice with a number": "notice 1", "noticed without a number": "noticed", "release of nobody": "release",
    "release of two": "release a1 b1", "settle without an outcome": "settle 1", "settle withdrawn": "settle 1 withdrawn-end",
    "settle in capitals": "settle 1 Missed", "settle without a number": "settle arrived", "settle with a space": "settle 1 missed ",
}.items():
    session(f"no command: {name}", ("now 1", "now 1"), (line, "fault line 2"), status=3)


# ---- the example: a fleet's day
session(
    "fleet",
    "# two agents; V is due to each that passes",
    now(0), add("web-1", 1), add("web-2", 2, ev.flat_policy([BOOT_AGGREGATE])),
    due("web-1"), begin("web-1", "q1", 1, 1), due("web-2"), begin("web-2", "q2", 2, 2), NONE_DUE,
    "",
    "# the one passes and gets V; the first delivery does not come through",
    passes(1, "q1", "current state 5"), release(1, "web-1", 1), settle(1, "missed", "current state 6"),
    release(2, "web-1", 1), settle(2, "arrived", "current state 3"),
    "",
    "# the other fails, which is told until it is marked",
    reply(2, "q2", [BOOT_AGGREGATE, ev.SHELL], "failed entry 1 unknown current state 7"), refused("release web-2", "state 7"),
    notice(1, "web-2", 2, "failed entry 1 unknown"), noticed(1), NO_NOTICE,
    "",
    "# a poll that is lost is tried again later, and later still",
    now(2000), due("web-1"), begin("web-1", "q3", 3, 1), lose(3, "current state 4"), now(5999), NONE_DUE, now(6000), due("web-1"),
    "",
    "# a reboot: the pass is of another boot, to which V has not come",
    begin("web-1", "q4", 4, 1), passes(4, "q4", "current state 5", boot=(2, 0)), release(3, "web-1", 4),
    settle(3, "arrived", "current state 3"),
    example=True,
)
