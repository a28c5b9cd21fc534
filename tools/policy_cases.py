"""JSON policies: what they allow, why a text is none, and the first of two causes."""
import json

import evidence as ev
from cases import GOOD, add, begin, long_case, made, passes, refused, replace, reply, session, state
from evidence import POLICY, UNLISTED, Entry
from session_cases import lines_of

FULL = ev.json_policy(GOOD)
B = begin("a1", "n1", 1, 1)


def added(text):
    return add("a1", 1, text, kind="json")


def none(said, why, **more):
    """An add whose policy, a text or the value that is written as one, is refused."""
    text = said if isinstance(said, str) else json.dumps(said)
    return refused(ev.add_line(text, kind="json", **more), f"policy {why}")


def with_(**members):
    """The usual members, with these in place of some; a name has `_` for `-`."""
    return ev.json_members(GOOD, **{name.replace("_", "-"): value for name, value in members.items()})


def policy(**members):
    return json.dumps(with_(**members))


def apart(name, *judged):
    """An agent for each policy and entry, since a failure lasts: its list is the two good entries and this one."""
    steps = []
    for number, (said, entry, verdict) in enumerate(judged, 1):
        agent = f"a{number}"
        steps += [add(agent, number, said, kind="json"), begin(agent, f"n{number}", number, number),
                  reply(number, f"n{number}", GOOD + [entry], f"{verdict} current state {5 if verdict.startswith('pass') else 7}")]
    session(name, *steps)


# ---- what a policy allows
session("a JSON policy of the usual members", added(FULL), B, passes(1, "n1", "current state 5"),
        replace("a1", 2, json.dumps(with_(), indent=2) + "\n", kind="json"), begin("a1", "n2", 2, 2), passes(2, "n2", "current state 5"))
# The first digit of its template hash is another.
GENUINE = UNLISTED.template_hash()
FORGED = Entry(UNLISTED.path, UNLISTED.digest, hash=bytes([GENUINE[0] ^ 0x10]) + GENUINE[1:])
OPT = policy(excludes=["/opt/"])
apart("an excluded path must be consistent", (OPT, UNLISTED, "pass 3"), (OPT, FORGED, "failed entry 2 inconsistent"))
# A pattern excludes a path that it matches from the first byte on, also one whose digest is none of those that are known for it.
TMP, VAR_TMP, OTHER_SHELL = (Entry(path, b"\xdd" * 32) for path in ("/tmp/x", "/var/tmp/x", "/bin/sh"))
STARTS, SHELLS = policy(excludes=["/usr/", "/tmp/"]), policy(excludes=[".*/sh$"])
apart("an exclude holds at the start of a path", (STARTS, TMP, "pass 3"), (STARTS, VAR_TMP, "failed entry 2 unknown"),
      (SHELLS, OTHER_SHELL, "pass 3"), (STARTS, OTHER_SHELL, "failed entry 2 digest"))
VIOLATION = Entry("/var/log/x", bytes(32), hash=bytes(20))
apart("violations under a JSON policy", (policy(kl_violations="pass"), VIOLATION, "pass 3"),
      (policy(kl_violations="pass"), UNLISTED, "failed entry 2 unknown"),
      (policy(kl_violations="fail", excludes=["/var/"]), VIOLATION, "failed entry 2 violation"),
      (policy(excludes=["/var/"]), VIOLATION, "failed entry 2 violation"))
# A path with an empty list is known, and no digest is; of two members of one name the last one counts.
BOOT, SH = (entry.digest.hex() for entry in GOOD)
TWICE = '{"digests":{},"digests":{"boot_aggregate":["cc","%s"],"/bin/sh":["cc"],"/bin/sh":["%s"]}}' % (BOOT, SH.upper())
session("digests of a JSON policy", added(TWICE), B, passes(1, "n1", "current state 5"),
        replace("a1", 2, json.dumps({"digests": {"boot_aggregate": [BOOT], "/bin/sh": []}}), kind="json"), begin("a1", "n2", 2, 2),
        reply(2, "n2", GOOD, "failed entry 1 digest current state 7"), replace("a1", 3, '{"digests":{}}', kind="json"),
        begin("a1", "n3", 3, 3), reply(3, "n3", GOOD, "failed entry 0 unknown current state 7"))

# ---- why a text is no policy, the first cause; nothing is installed
session("what is no JSON policy", none("", "notjson"), none("{", "notjson"), none(POLICY, "notjson"), none(FULL + "x", "notjson"),
        none("[]", "kind policy"), none("7", "kind policy"), none("null", "kind policy"), none("{}", "missing digests"),
        none({"excludes": ["("], "keyrings": 1}, "missing digests"), refused("state a1", "noagent"))
# Arrays and objects count alike, and so do those of a member that is not looked at.
LISTS = {deep: "[" * deep + "]" * deep for deep in (126, 127, 128)}
OBJECTS = {deep: '{"a":' * deep + "0" + "}" * deep for deep in (127, 128)}
session("JSON nested 127 and 128 deep", none(LISTS[128], "notjson"), none(LISTS[127], "kind policy"), none(OBJECTS[128], "notjson"),
        none(OBJECTS[127], "missing digests"), none('{"meta":%s}' % LISTS[127], "notjson"), none('{"meta":%s}' % LISTS[126], "missing digests"),
        none('{"digests":{},"meta":%s}' % LISTS[127], "notjson"), added('{"digests":{},"meta":%s}' % LISTS[126]))
session("JSON members of another kind", *(none(with_(digests=value), "kind digests") for value in ([], "", None, {"/a": "aa"}, {"/a": [1]})),
        *(none(with_(excludes=value), "kind excludes") for value in ({}, "/opt/", None, [["/opt/"]], ["/opt/", 1])),
        *(none(with_(kl_violations=value), "kind kl-violations") for value in (True, "Pass", "", None)))
# Paths count in the order of their bytes, and their digests as they stand.
session("JSON digests that are none", none('{"digests":{"/a":["aa"],"/b":["bb","c"]}}', "digest 1 1"),
        none('{"digests":{"/b":["bb","c"],"/a":["aa"]}}', "digest 1 1"), none('{"digests":{"/b":["x"],"/a":["aa",""]}}', "digest 0 1"),
        none({"digests": {"/a": ["00" * 65]}}, "digest 0 0"), none({"digests": {"/a": ["00" * 64, "0g"]}}, "digest 0 1"),
        added(json.dumps({"digests": {"/a": ["00" * 64]}})))
session("JSON members that are not supported", none(with_(keyrings={"k": []}), "unsupported keyrings"),
        none(with_(ima_buf={"b": []}, verification_keys="k"), "unsupported ima-buf"), none(with_(verification_keys=[""]), "unsupported verification-keys"),
        none(with_(keyrings=0), "unsupported keyrings"), added(policy(keyrings=None, ima_buf="", verification_keys={}, meta=7, generator=[])),
        begin("a1", "n1", 1, 1), passes(1, "n1", "current state 5"))
session("exclude patterns that are none", none(with_(excludes=["("]), "syntax 0"), none(with_(excludes=["/opt/", "/tmp/", "*", "("]), "syntax 2"),
        none(with_(excludes=["\\w{1000}", "("]), "toolarge 0"), none(with_(excludes=["x"] * 33), "limit patterns"),
        none(with_(excludes=["x", "x" * 513]), "limit patternbytes"), added(policy(excludes=["x"] * 31 + ["/" + "x" * 511])))
session("the order of a JSON policy's faults",
        none({"digests": {"/a": ["x"]}, "excludes": 0, "kl-violations": 0, "keyrings": 1}, "digest 0 0"),
        none({"digests": {}, "excludes": ["("] * 32 + [0], "kl-violations": 0, "keyrings": 1}, "kind excludes"),
        none({"digests": {}, "excludes": ["("] * 32 + ["x" * 513], "kl-violations": 0, "keyrings": 1}, "limit patterns"),
        none({"digests": {}, "excludes": ["(", "x" * 513], "kl-violations": 0, "keyrings": 1}, "limit patternbytes"),
        none({"digests": {}, "excludes": ["("], "kl-violations": 0, "keyrings": 1}, "kind kl-violations"),
        none({"digests": {}, "excludes": ["("], "kl-violations": "pass", "keyrings": 1}, "unsupported keyrings"),
        none({"digests": {}, "excludes": ["("]}, "syntax 0", mask="0x0"), refused(ev.add_line('{"digests":{}}', kind="json", mask="0x0"), "mask"))


def short_paths(count, first="aa", more=""):
    """A policy of so many distinct paths, of which `0` stands twice: `first` is the digest that counts for it."""
    return '{"digests":{"0":["bb"],"0":["%s"]%s}%s}' % (first, "".join(f',"{n:x}":["aa"]' for n in range(1, count)), more)


@long_case
def most_json_paths():
    """Too many paths come before a digest that is none, before the other members' faults, and before what the desk forbids."""
    steps = [added(short_paths(262_144)), none(short_paths(262_144, "x"), "digest 0 0"),
             none(short_paths(262_145, "x", ',"excludes":0'), "limit paths"),
             refused(ev.replace_line(short_paths(262_145), kind="json"), "policy limit paths"), state("a1", 1, "START", 1, 0)]
    return made("262,145 paths of a JSON policy", *lines_of(steps))


# ---- replacements by either kind
session("a JSON policy replaces a flat one", add("a1", 1), B, replace("a1", 2, policy(excludes=["/opt/"]), kind="json"),
        reply(1, "n1", GOOD + [UNLISTED], "failed entry 2 unknown stale state 1"), begin("a1", "n2", 2, 2),
        reply(2, "n2", GOOD + [UNLISTED], "pass 3 current state 5"), replace("a1", 3), begin("a1", "n3", 3, 3),
        reply(3, "n3", GOOD + [UNLISTED], "failed entry 2 unknown current state 7"))
session("refused JSON replacements", refused("replace zz json {}", "policy missing digests"), refused("replace zz json ", "policy notjson"),
        refused(ev.replace_line(FULL, "zz", "json"), "noagent"), added(FULL), B, refused("replace a1 json []", "policy kind policy"),
        refused(ev.replace_line(FULL, "a1", "flat"), "policy line 0"), state("a1", 3, "GET_QUOTE", 1, 0), passes(1, "n1", "current state 5"))
session("two agents under one JSON policy", added(FULL), add("b1", 2, FULL, kind="json"), B, begin("b1", "m1", 2, 2), passes(1, "n1", "current state 5"),
        replace("a1", 3, FULL, kind="json"), passes(2, "m1", "current state 5"), begin("a1", "n2", 3, 3), passes(3, "n2", "current state 5"))

# ---- the example: excludes, a violation that passes, and a policy that is refused
LOG = Entry("/srv/log/x", bytes(32), hash=bytes(20))
# It is a file of its own too. A script's line has its very bytes, since it has neither a newline nor a backslash.
EXAMPLE = policy(excludes=["/opt/"], kl_violations="pass")
assert ev.escape_rest(EXAMPLE) == EXAMPLE
session(
    "json",
    "# a policy as Keylime writes it: two known files, one directory that is left out, and violations that pass",
    added(EXAMPLE), B,
    reply(1, "n1", GOOD + [UNLISTED, LOG], "pass 4 current state 5"),
    "",
    "# what is left out is not asked for a digest, but must be consistent",
    begin("a1", "n2", 2, 1), reply(2, "n2", GOOD + [FORGED], "failed entry 2 inconsistent current state 7"),
    "",
    "# a pattern begins at a path's first byte",
    replace("a1", 2, policy(excludes=["opt/"]), kind="json"), begin("a1", "n3", 3, 2),
    reply(3, "n3", GOOD + [UNLISTED], "failed entry 2 unknown current state 7"),
    "",
    "# what is not supported is refused, and so is a pattern that is none; the policy before stays",
    refused(ev.replace_line(policy(keyrings={"k": []}), "a1", "json"), "policy unsupported keyrings"),
    refused(ev.replace_line(policy(excludes=["/tmp/", "("]), "a1", "json"), "policy syntax 1"),
    state("a1", 7, "FAILED", 2, 0),
    example=True,
)
