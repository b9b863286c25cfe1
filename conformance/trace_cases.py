"""Traces for differential.py: steps of several sessions, of the scheduler and of executors, made beside a world of the oracle's own, with its answers;
and some in which an answer was altered, or which have not the form of a trace.
"""
import json

import mixed_cases
from oracle_config import read_config
from oracle_names import DAY, HOUR, LAST, MICROS, instant_of, isoformat
from oracle_table import route
from oracle_world import KINDS, World, step_in

BEGIN = instant_of("2024-01-01T00:00:00Z")
STARTS = ["2023-12-30T00:00:00Z", "2023-12-31T23:30:00.5Z", "2024-01-01T00:00:00Z", "2024-01-02T06:00:00+02:00"]
PAUSES = [0, 0, 1, 60, 300, HOUR, 6 * HOUR, DAY]
OUTCOMES = ["success", "success", "failed", "skipped"]
ODD = [None, True, -1, 1.5, 2**64, 2**32, "", "x", [], {}, 299]


class Tracer(mixed_cases.Mixer):
    """Makes one trace over a configuration: what a mixer asks is asked by some session, in one step or two, with other steps between."""

    def __init__(self, rng, config, tokens, has):
        for row in config["dags"]:
            if row.get("schedule") is not None:
                # so that a tick has not too many points to go through, one by one
                row["start_date"] = rng.choice(STARTS)
                row["schedule"] = rng.choice(["@hourly", "@daily", "@weekly", "@monthly", 5 * HOUR])
        super().__init__(rng, config, tokens, BEGIN, has)
        self.config, self.sessions, self.clock = config, rng.choice([1, 1, 2, 3]), BEGIN
        self.world = World(read_config(json.dumps(config).encode(), has), self.sessions, has)
        self.plane, self.steps, self.claims = self.world.plane, [], []
        self.wild = rng.choice([0, 0.02, 0.1])

    def take(self, step):
        """The step is taken, and its answer kept."""
        answer = step_in(step, self.sessions, self.has)(self.world)
        self.steps.append([step, answer])
        return answer

    def moment(self):
        """The clock, some time later as a rule."""
        self.clock = min(LAST, self.clock + self.rng.choice(PAUSES) * MICROS)
        return isoformat(self.clock)

    def ask(self, method, target, token, body):
        """What a request asks for, by a session; nothing where it is no operation, or no text."""
        operation, _ = route(target.partition(b"?")[0], method, self.has)
        try:
            words = {"token": token and token.decode(), "method": method.decode(), "target": target.decode(), "body": (body or b"").decode()}
        except UnicodeDecodeError:
            return b""
        session = self.rng.randrange(self.sessions)
        if operation is None:
            return b""
        if not operation.on_policy:
            self.act(session, words)
        elif operation.method == "GET":
            self.take({"me": session, "token": words["token"], "target": words["target"]})
        else:
            last = self.plane.version()
            at = last if self.chance(0.8) else self.rng.randint(max(0, last - 2), last + 1)
            self.take({"publish": session, "at": at, **words})
        return b""

    def act(self, session, words):
        """A look and an act; now and then without the look, or with other steps between."""
        if self.chance(0.9):
            self.take({"look": session})
        if self.chance(0.1):
            self.other()
        self.take({"act": session, **words, "now": self.moment()})

    def other(self):
        """A tick, a claim, a report or a look."""
        kind = self.rng.choice(["tick", "tick", "claim", "claim", "report", "report", "look"])
        if kind == "look":
            self.take({"look": self.rng.randrange(self.sessions)})
        elif kind == "tick":
            self.take({"tick": self.moment()})
        elif kind == "claim":
            told = self.take({"claim": self.moment()})["body"].split(" ")
            self.claims += [told] if len(told) == 3 else []
        else:
            number, task, tries = self.rng.choice(self.claims[-3:] * 3 + [["1", "t", "1"], ["9", "gone", "1"]])
            tries = int(tries) + self.rng.choice([0] * 9 + [1])
            report = {"run": int(number), "task": task, "try": tries, "outcome": self.rng.choice(OUTCOMES)}
            self.take({"report": report, "now": self.moment()})

    def trace(self):
        """The bytes of a trace that agrees, that most likely differs, or that has a fault of form."""
        rng = self.rng
        for _ in range(rng.choice([0, 3, 15, 40, 80])):
            self.request()
            for _ in range(rng.choice([0, 0, 1, 3])):
                self.other()
        made, chance = {"config": self.config, "sessions": self.sessions, "steps": json.loads(json.dumps(self.steps))}, rng.random()
        if made["steps"] and chance < 0.4:
            alter(rng, rng.choice(made["steps"]))
        elif chance < 0.55:
            spoil(rng, made)
        return json.dumps(made, ensure_ascii=rng.random() < 0.5).encode("utf-8", "surrogatepass")


def alter(rng, pair):
    """The answer is another: of another number, status or text, null where it was none, and the other way round."""
    if pair[1] is None or rng.random() < 0.1:
        pair[1] = None if pair[1] else {"status": 200, "version": 0, "seq": 0, "body": ""}
        return
    name = rng.choice(sorted(pair[1]))
    value = pair[1][name]
    if name == "body":
        at = rng.randrange(len(value) + 1)
        pair[1][name] = value[:at] + rng.choice(["", "x", "0", '"']) + value[at + rng.choice([0, 1]) :]
    else:
        pair[1][name] = rng.choice([None, 0, 1, 2**32, 204, 299]) if name != "status" else rng.choice([200, 204, 403, 404, 507, 0, 299, 2**40])


def spoil(rng, made):
    """The trace is none: of a step, of an answer, or of the whole a member is gone, odd, or one too many."""
    if not made["steps"] or rng.random() < 0.2:
        made[rng.choice(sorted(made))] = rng.choice([*ODD, {"users": []}])
        return
    pair = rng.choice(made["steps"])
    kind = rng.randrange(6)
    if kind == 0:
        pair.append(None)
    elif kind == 1:
        pair[rng.randrange(2)] = rng.choice(ODD)
    elif kind == 2:
        pair[0][rng.choice(KINDS)] = rng.choice([0, None, "2024-01-01T00:00:00Z"])
    else:
        row = pair[1] if kind == 3 and pair[1] else pair[0]
        name = rng.choice(sorted(row))
        row[name] = rng.choice([*ODD, "PUT", "/api/v1/version", "/api/v1/nowhere", "/own/me", "2024-01-01"])
        if rng.random() < 0.3:
            del row[name]
