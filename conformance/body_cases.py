"""Bodies and parts of paths for differential.py, made from a seeded generator."""
import json

OTHERS = [None, True, 0, -1, 1.5, "", "x", [], {}, [0], [None], [[]], {"name": 1}]
BAD_BODIES = [b"", b"{", b"[]", b"null", b"true", b'"x"', b"\xff", b"{}x", b'{"a":"\\ud800"}', b'{"a":1e999}', b"[" * 200, b'{"a":' + b"[" * 127 + b"]" * 127 + b"}", b'\xef\xbb\xbf{}']


def one_of(rng, good, bad, wild):
    """One that is absent, none, good or bad."""
    chance = rng.random()
    if chance < wild:
        return {"": rng.choice(bad if rng.random() < 0.7 else OTHERS)}
    if chance < wild + 0.06:
        return {"": None}
    return {"": rng.choice(good)} if chance < wild + 0.7 else {}


def members(rng, wild, **kinds):
    """An object of such members, each given as its good and its bad values, in some order."""
    found = {name: it[""] for name, (good, bad) in kinds.items() if (it := one_of(rng, good, bad, wild))}
    if rng.random() < 0.1:
        found[rng.choice(["note", "other", "Conf", "max_tries"])] = rng.choice(OTHERS)
    return dict(rng.sample(sorted(found.items()), len(found)))


def needed(rng, wild, **kinds):
    """The same, where each member is mostly there."""
    return {**{name: rng.choice(good) for name, (good, _) in kinds.items()}, **members(rng, wild, **kinds)} if rng.random() > wild / 2 else {}


def spelled(rng, value, wild):
    """The bytes of a body."""
    if rng.random() < wild / 2:
        return rng.choice(BAD_BODIES)
    text = json.dumps(value, ensure_ascii=rng.random() < 0.5, indent=rng.choice([None, None, None, 1]))
    if rng.random() < 0.05:
        text = text.replace("{", '{"dry_run": 1, "state": "queued", "dag_run_id": [], ', 1) if len(text) > 2 else text
    return (rng.choice(["", "", " ", "\r\n\t"]) + text + rng.choice(["", "", "\n"])).encode()


def part(rng, text, wild):
    """A part of a path, some of its bytes percent-encoded: those that no target holds, and now and then others."""
    chance = rng.choice([0, 0, 0, 0.2, 1])

    def piece(byte):
        if chr(byte) in "/?% #\"\\" or byte < 33 or byte > 126 or rng.random() < chance:
            return b"%%%02X" % byte if rng.random() < 0.5 else b"%%%02x" % byte
        return bytes([byte])

    made = b"".join(piece(it) for it in text.encode())
    return rng.choice([b"", b"~", b"%7E", b"%7e", b"%ff", b"%", b"a%20b", b"a%2Fb", b"%00", b"\xc3\xa9", b"x" * 251, made + b"/"]) if rng.random() < wild / 2 else made
