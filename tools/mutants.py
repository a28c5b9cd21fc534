"""Changes bytes and lines of the scripts of tools/play.py, and says what the model prints for what comes of that."""
import contextlib
import io

import model
import play

KINDS = {"tear": 6, "flip": 6, "double": 2, "join": 1, "repeat": 2, "swap": 3, "cut": 1}


def good_script(seed):
    """A maker of tools/play.py, and the lines of a script of it that ends with status 0."""
    session, lines = model.Session(None), []
    maker = play.Maker(seed, session, list(play.WEIGHTS))
    session.words = io.BytesIO(maker.chance.randbytes(1 << 18))
    for place, line in enumerate(maker.lines(), 1):
        line = line.removesuffix(b"\n")
        lines += [line] if model.step(session, place, line)[1] is None else []
    return maker, lines


def mutate(maker, lines):
    """Changes one thing: bits or bytes of a line, a newline, whole lines, or where the script ends."""
    chance = maker.chance
    at, other = chance.randrange(len(lines)), chance.randrange(len(lines))
    line, place = lines[at], chance.randrange(len(lines[at]) + 1)
    front, byte, behind = line[:place], line[place : place + 1], line[place + 1 :]
    kind = chance.choices([*KINDS], KINDS.values())[0]
    if kind == "swap":
        lines[at], lines[other] = lines[other], line
    elif kind == "cut":
        lines[at:] = [front]
    else:
        flipped = bytes(b ^ 1 << chance.randrange(8) for b in byte)
        changed = {"tear": [maker.torn(line)], "flip": [front + flipped + behind], "double": [front + byte + byte + behind],
                   "repeat": [line, line], "join": [b"".join(lines[at : at + 2])]}
        lines[at : at + 1 + (kind == "join")] = changed[kind]


def mutant(maker, lines):
    """A script of these lines with some changes; its last newline may lack."""
    changed = [*lines]
    for _ in range(maker.chance.choice([1, 1, 1, 2, 4])):
        mutate(maker, changed)
    return b"\n".join(changed) + b"\n" * maker.chance.randint(0, 1)


def has_known_patterns(line):
    """Whether a line's policy has no exclude patterns but those of tools/play.py, which the model reads as a program does."""
    with contextlib.suppress(ValueError, model.Fault):
        policy = line.decode().split(" json ", 1)[1:]
        said = model.read_value(model.read_rest(policy[0])) if policy and "excludes" in policy[0] else None
        patterns = said.get("excludes") if isinstance(said, dict) else None
        known = play.PATTERNS + play.ODD_PATTERNS
        return not isinstance(patterns, list) or all(pattern in known for pattern in patterns if isinstance(pattern, str))
    return True


def follow(script, printed):
    """What the model prints where it draws what was drawn for these lines, and its status, which is none at what it can't play."""
    session, texts, told = model.Session(None), [], printed.decode(errors="replace").split("\n")
    for place, line in enumerate(model.lines_of(script), 1):
        if not has_known_patterns(line):
            return b"".join(texts), None
        session.words = io.BytesIO(play.drawn_for(line, "".join(told[len(texts) :][:1])))
        text, status = model.step(session, place, line)
        texts += [] if text is None else [f"{text}\n".encode()]
        if status is not None:
            return b"".join(texts), status
    return b"".join(texts), 0
