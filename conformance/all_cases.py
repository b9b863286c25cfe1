"""The cases of differential.py, in order: the examples, the calls, the worked connections, and what lies at the limits, once each; then random ones."""
import json
import os
import sys

import config_cases
import fault_cases
import mixed_cases
import oracle
import oracle_names
import policy_cases
import request_cases
import state_cases
import trace_cases
import worked_calls
import worked_cases
import worked_forms
import worked_messages
import worked_policies
import worked_traces
from oracle_table import having
from worked_rows import exchanges

ROOT = os.path.dirname(os.path.dirname(os.path.realpath(__file__)))
sys.path.insert(0, os.path.join(ROOT, "tools"))
import trace_of  # noqa: E402

NOW = "2024-01-01T00:00:00Z"
CONFIGS = {"viewer": "base.json", "pause": "base.json", "backfill": "daily.json"}  # the examples that are not over team.json
CUT_SHORT = ("refusals",)  # the examples whose last message is refused, so that the program ends with status 1
MOMENTS = [
    *["2024-01-01T00:00:00.000001+00:00", "2024-01-01 00:00:00z", "20240101T000000Z", "2024-01-01T00Z", "2024-02-29T00:00Z", "2023-02-29T00:00Z"],
    *["1970-01-01T00:00:00Z", "1969-12-31T23:59:59Z", "1969-12-31T23:59:59.9999999Z", "1970-01-01T01:00:00+01:00", "1970-01-01T00:00:00+01:00"],
    *["9998-12-31T23:59:59.9999999Z", "9999-01-01T00:00:00Z", "2024-13-01T00:00:00Z", "2024-01-01T24:00:00Z", "2024-01-01T23:59:60Z", "2024-01-01T23:59:61Z"],
    *["2024-01-01T00:00:00", "2024-01-01", "", "now", "0", " 2024-01-01T00:00:00Z", "2024-01-01T00:00:00Z ", "2024-01-01T00:00:00,5Z", "2024-01-01T00:00:00.Z"],
    *["+002024-01-01T00:00:00Z", "2024-01-01T00:00:00.1234567891Z", "2024-01-01T00:00:00-0530", "2024-01-01T00:00:00+25:59", "2024-01-01T00:00:00+26:00"],
    *["2024-01-01T00:00:00+01:60", "2024-1-01T00:00:00Z", "2024-01-01T00:00:00\u00a0Z", "-000000-01-01T00:00:00Z", "-002024-01-01T00:00:00Z"],
]


def examples():
    """Of each example its name, the words of the program, its requests, and its answers as they stand in examples/expected/."""
    folder = os.path.join(ROOT, "examples")
    for stem in sorted(it[: -len(".http")] for it in os.listdir(folder) if it.endswith(".http")):
        with open(os.path.join(folder, stem + ".http"), "rb") as file:
            data = file.read()
        with open(os.path.join(folder, "expected", stem + ".out"), "rb") as file:
            expected = file.read()
        yield stem, ["once", os.path.join(folder, CONFIGS.get(stem, "team.json")), NOW], data, expected


def worked_connections():
    """Of each connection of steps that was worked out by hand its title, what the program has, its configuration, its moment, its input, and how the program
    ends: its exit status, standard output and standard error."""
    for title, has, now, members, steps in worked_cases.CONNECTIONS + worked_policies.CONNECTIONS:
        asked, wanted = (b"".join(texts) for texts in zip(*exchanges(steps)))
        yield title, has, json.dumps({**worked_traces.BASE, **members}).encode(), now, asked, (0, wanted, b"")


def worked():
    """The same of these, of messages and of configurations."""
    yield from worked_connections()
    for title, asked, status, wanted in worked_messages.CASES:
        yield f"message: {title}", "landed", json.dumps(worked_traces.BASE).encode(), NOW, asked, (status, wanted, b"")
    for title, config, asked, wanted in worked_calls.CONFIGURATIONS:
        yield f"configuration: {title}", "landed", config, NOW, asked, wanted


def traces_of_connections():
    """Of each connection that was worked out by hand its title, and the bytes of its trace."""
    for title, _, config, now, asked, (_, wanted, _) in worked_connections():
        yield title, trace_of.written(config, trace_of.trace_of(now, asked, wanted, lambda said: None))


def played(folder):
    """Of all that was worked out by hand, each configuration or trace in a file of its own in this folder: the title, what the program has, the words, the
    input, and how the program ends."""

    def written(data):
        path = os.path.join(folder, f"worked{len(os.listdir(folder))}.json")
        with open(path, "wb") as file:
            file.write(data)
        return path

    for title, has, config, now, asked, wanted in worked():
        yield f"worked: {title}", has, ["once", written(config), now], asked, wanted
    for title, trace in traces_of_connections():
        yield f"worked: trace: {title}", "landed", ["verify", written(trace)], b"", worked_traces.AGREES
    for title, trace, wanted in worked_calls.TRACES + worked_traces.TRACES + worked_forms.FORMS:
        yield f"worked: trace: {title}", "landed", ["verify", written(trace)], b"", wanted
    for words, wanted in worked_calls.WORDS:
        yield f"worked: words {words}", "landed", words, b"", wanted


def check_examples(it):
    """The examples, against the files that stand beside them."""
    for stem, words, data, expected in examples():
        if oracle.run(words, data)[1] != expected:
            sys.exit(f"examples/expected/{stem}.out is not what the oracle writes")
        it.case(f"example {stem}", words, data)


def check_worked(it, folder):
    """What was worked out by hand, against the bytes that were."""
    for title, has, words, asked, wanted in played(folder):
        if oracle.run(words, asked, having(has)) != wanted:
            sys.exit(f"differential.py: the oracle does not write what was worked out: {title}")
        it.case(title, words, asked)


def check_calls(it, folder, write):
    base = os.path.join(ROOT, "examples", "base.json")
    no_end = b"GET / HT"
    for words in ([], ["once"], ["once", base], ["once", base, NOW, "x"], ["Once", base, NOW], ["verify", base], ["once", "", NOW]):
        it.case(f"call {words}", words, no_end)
    for words in (["0"], ["0", "0"], ["0", "17"], ["65536", "1"], ["-1", "1"], ["+1", "1"], ["x", "1"], ["0", "1x"], ["", "1"], ["0", ""], ["0", "1", "1"], ["9" * 40, "1"], ["0", "9" * 40]):
        it.case(f"serve {words}", ["serve", base, *words], b"")
    for words in (["0", "1"], ["65535", "16"], ["00", "016"]):
        it.case(f"serve {words} under no file", ["serve", os.path.join(folder, "none"), *words], b"")
    it.case("serve under a folder", ["serve", folder, "0", "1"], b"")
    it.case("serve under what is no configuration", ["serve", write(b"{")[1], "0", "1"], b"")
    for moment in MOMENTS:
        it.case(f"moment {moment!r}", ["once", base, moment], request_cases.PLAIN)
    it.case("no such file", ["once", os.path.join(folder, "none"), NOW], no_end)
    it.case("a folder", ["once", folder, NOW], no_end)
    it.case("a bad moment before a bad file", ["once", os.path.join(folder, "none"), "x"], no_end)


def fixed_cases(it, folder, write):
    """The examples, the calls, the worked connections, and what lies at the limits: once each."""
    check_examples(it)
    check_calls(it, folder, write)
    words = ["once", os.path.join(ROOT, "examples", "base.json"), NOW]
    with open(words[1], "rb") as file:
        base = json.load(file)
    for n, data in enumerate(request_cases.fixed_inputs(b"test")):
        it.case(f"limit of requests {n}", words, data)
    check_worked(it, folder)
    for n, data in enumerate(state_cases.fixed()):
        it.case(f"each operation {n}", words, data)
    for n, data in enumerate(state_cases.fixed_rows()):
        it.case(f"pools and variables {n}", words, data)
    for n, data in enumerate(config_cases.fixed_configs()):
        it.case(f"limit of configurations {n}", write(data), request_cases.list_request(b"test"))
    for n, (data, requests) in enumerate(policy_cases.fixed_full()):
        it.case(f"full lists {n}", write(data), requests)
    for n, (members, requests) in enumerate(fault_cases.fixed(base)):
        it.case(f"changes of the policy {n}", write(json.dumps({**base, **members}).encode()), requests)


class Random:
    """The random cases, one after another: a quarter each configurations with faults (every other one a trace, where the program verifies these), hostile
    requests, operations on few names, and long connections in which users and roles come and go, of which every other one is replayed (where the program
    has what these want; else operations again)."""

    def __init__(self, rng, it, write, seed):
        self.rng, self.it, self.write, self.seed, self.has = rng, it, write, seed, it.has

    def case(self, n):
        if n % 20 == 0:
            made, self.tokens = config_cases.good(self.rng, self.has)
            self.good = config_cases.written(self.rng, made)
        long = self.operations if "set_user" not in self.has else self.replayed if n % 8 == 6 and {"list_entries", "pages"} <= self.has else self.mixed
        traces = "verify" in self.has and n % 8 == 3
        kinds = [self.hostile, self.operations, long, self.traced if traces else self.configuration]
        if n % 8 == 1:
            self.state, self.users = state_cases.config(self.rng, self.has)
            self.wide = config_cases.written(self.rng, self.state)
        kinds[n % 4](f"seed {self.seed}, case {n}")

    def configuration(self, name):
        data = request_cases.list_request(self.rng.choice(config_cases.TOKENS))
        self.it.case(name, self.write(config_cases.faulty(self.rng, self.has, lambda made: policy_cases.add_fault(self.rng, made))), data)

    def hostile(self, name):
        self.it.case(name, self.write(self.good), request_cases.connection(self.rng, self.tokens))

    def operations(self, name):
        data = state_cases.Asker(self.rng, self.state, self.users, self.has).connection()
        self.it.case(name, [*self.write(self.wide)[:2], self.rng.choice(state_cases.NOWS)], data)

    def traced(self, name):
        made, tokens = state_cases.config(self.rng, self.has)
        self.it.case(name, ["verify", self.write(trace_cases.Tracer(self.rng, made, tokens, self.has).trace())[1]], b"")

    def mixer(self):
        """Who makes a long connection, and the words of the program that is to answer it."""
        made, tokens = state_cases.config(self.rng, self.has)
        now = self.rng.choice(state_cases.NOWS)
        mixer = mixed_cases.Mixer(self.rng, made, tokens, oracle_names.instant_of(now), self.has)
        return mixer, [*self.write(config_cases.written(self.rng, made))[:2], now]

    def mixed(self, name):
        mixer, words = self.mixer()
        self.it.case(name, words, mixer.connection())

    def replayed(self, name):
        """A connection that ends in looks at all that stands, which the replay of its event logs is to give, too."""
        mixer, words = self.mixer()
        data, looks = mixer.with_looks()
        self.it.case(name, words, data, looks)
