#!/usr/bin/env python3
"""Compares afplane with the oracle, a plain second reading of what it is to do, byte for byte.

  python3 conformance/differential.py                       2,000 cases of seed 1, after the examples and the limits
  python3 conformance/differential.py --cases 20000 --seed 7
  python3 conformance/differential.py --program 'PATH/PROGRAM'
  python3 conformance/differential.py --has dags,variables  a program that has not all that the oracle takes it to have, or more
  python3 conformance/differential.py --baseline            the plain Rust program that bench.py measures beside afplane
  python3 conformance/differential.py --write FOLDER --random-only --cases 300
                                                      the cases as files, for a program that is not proved yet

A case is one run of the program: words, a configuration and an input of one or more requests, as they should be
or hostile, few or hundreds that build on one another. Exit status, standard output and standard error must be the oracle's. The first difference is shown,
with as few of its requests as it needs, and its configuration and input are left in conformance/out/ with the command that shows it again. Standard error tells
how many answers of each status were compared. Each answer to a whole request is also held against docs/openapi.json, where its validator is installed
(openapi-spec-validator): an answer that it does not have fails its case. The last line is `N passed, N failed`, and the status 0 only where
nothing failed.
"""
import argparse
import collections
import importlib.machinery
import importlib.util
import os
import random
import re
import shlex
import subprocess
import sys
import tempfile

import with_model  # noqa: F401
import oracle
import oracle_bodies
import oracle_config
import oracle_names
import replay
from all_cases import NOW, ROOT, Random, fixed_cases
from oracle_table import GROUPS, having

PROGRAM = os.path.join(ROOT, "crates", "afplane", "out", "afplane")
OUT = os.path.join(ROOT, "conformance", "out")
SECONDS = 30
MOST_TRIES = 300
MOST_CONFIG = 100_000


def ran(program, words, data):
    try:
        it = subprocess.run([*program, *words], input=data, stdout=subprocess.PIPE, stderr=subprocess.PIPE, timeout=SECONDS)
    except subprocess.TimeoutExpired as late:
        return "no end", late.stdout or b"", late.stderr or b""
    return it.returncode, it.stdout, it.stderr


def first_difference(wanted, got):
    at = next((i for i, (a, b) in enumerate(zip(wanted, got)) if a != b), min(len(wanted), len(got)))
    return f"byte {at}: wanted .. {wanted[max(0, at - 120):at + 200]!r}\n{' ' * len(f'byte {at}:')} got    .. {got[max(0, at - 120):at + 200]!r}"


def statuses(text):
    return re.findall(rb"HTTP/1\.1 (\d\d\d) ", text)


def whole_pieces(data):
    """The requests of an input that are whole, one by one, before any that is refused."""
    pieces, at = [], 0
    try:
        while at < len(data):
            end = oracle.head_end(data, at)
            end += oracle.Request(data[at:end]).length
            pieces.append(data[at:end])
            at = end
    except oracle.Turned:
        pass
    return pieces


def pieces_of(data):
    """The requests of an input, one by one, and last what is none."""
    pieces = whole_pieces(data)
    rest = data[sum(map(len, pieces)) :]
    return [*pieces, rest] if rest else pieces


def openapi():
    """tools/dev/check_openapi as a module; none where it has no validator."""
    loader = importlib.machinery.SourceFileLoader("check_openapi", os.path.join(ROOT, "tools", "dev", "check_openapi"))
    module = importlib.util.module_from_spec(importlib.util.spec_from_loader(loader.name, loader))
    try:
        loader.exec_module(module)
    except SystemExit:
        return None
    return module


class Described:
    """Whether answers are ones that docs/openapi.json has for their requests."""

    def __init__(self, module):
        self.module, self.answers = module, 0

    def fault(self, data, out):
        """The first answer to a whole request that the document does not have, and why; or nothing."""
        asked = [piece.lstrip(b"\r\n").decode(self.module.BYTES).split(" ")[:2] for piece in whole_pieces(data)]
        came = self.module.messages(out.decode(self.module.BYTES))
        for method, target in asked:
            first, fields = next(came, ("", {}))
            if not first:
                return None
            body, status = came.send(method), int(first.split(" ")[1])
            if fields.get("Connection") == "close" and self.module.response_to(method, target, status) is None:
                return None
            self.answers += 1
            for fault in self.module.faults_of(method, target, status, fields, body):
                return f"{method} {target}: {first}: {fault}"
        return None


class Files:
    """In place of a program: the cases as files for `rt try --cases`, which builds what is not proved yet and runs it on each."""

    def __init__(self, folder, has):
        self.folder, self.has, self.passed, self.failed, self.answers, self.configs = folder, has, 0, 0, collections.Counter(), {}
        os.makedirs(os.path.join(folder, "cases"))

    def case(self, name, words, data, looks=0):
        if len(words) != 3 or not os.path.isfile(words[1]) or not words[2].isprintable():
            return
        with open(words[1], "rb") as file:
            config = file.read()
        if len(config) > MOST_CONFIG:
            return
        stem = self.configs.setdefault(config, f"c{len(self.configs)}.json")
        with open(os.path.join(self.folder, stem), "wb") as file:
            file.write(config)
        out = oracle.run(words, data, self.has)[1]
        self.passed += 1
        self.answers.update(statuses(out))
        path = os.path.join(self.folder, "cases", f"n{self.passed}")
        for end, text in (("", data), (".args", f"{words[0]}\n{stem}\n{words[2]}\n".encode()), (".stdout", out)):
            with open(path + end, "wb") as file:
                file.write(text)

    def command(self):
        given = " ".join(f"--data {it}={os.path.join(self.folder, it)}" for it in self.configs.values())
        return f"rt try {given} --cases {os.path.join(self.folder, 'cases')}"


class Comparison:
    def __init__(self, program, has, described):
        self.program, self.has, self.passed, self.failed, self.answers = program, has, 0, 0, collections.Counter()
        self.described, self.replayed = described, 0

    def case(self, name, words, data, looks=0):
        """Runs one case; `words` name the configuration's file; where its last requests are looks at all that stands, how many these are."""
        wanted, got = oracle.run(words, data, self.has), ran(self.program, words, data)
        self.answers.update(statuses(wanted[1]))
        if wanted == got:
            fault = self.described and self.described.fault(data, got[1])
            fault = f"an answer that docs/openapi.json does not have: {fault}" if fault else looks and self.replay_fault(words, data, got[1], looks)
            self.passed += not fault
            self.failed += bool(fault)
            if fault and self.failed == 1:
                print(f"The first fault ({name}): {fault}")
            return
        self.failed += 1
        if self.failed > 1:
            return
        if len(pieces_of(data)) > 1 and got[0] != "no end":
            data = self.smaller(words, data)
            wanted, got = oracle.run(words, data, self.has), ran(self.program, words, data)
        os.makedirs(OUT, exist_ok=True)
        kept = [os.path.join(OUT, "difference.json"), os.path.join(OUT, "difference.http")]
        shown = list(words)
        if len(words) > 1 and os.path.isfile(words[1]):
            with open(words[1], "rb") as old, open(kept[0], "wb") as new:
                new.write(old.read())
            shown[1] = kept[0]
        with open(kept[1], "wb") as file:
            file.write(data)
        print(f"The first difference ({name}):\n  {shlex.join([*self.program, *shown])} < {kept[1]}")
        print(f"  input ({len(data)} bytes): {data[:600]!r}{' ..' if len(data) > 600 else ''}")
        for part, a, b in zip(("status", "standard output", "standard error"), wanted, got):
            if a == b:
                print(f"  {part}: the same")
            elif part == "status":
                print(f"  status: wanted {a}, got {b}")
            else:
                print(f"  {part}: wanted {len(a)} bytes, got {len(b)}, with {b.count(b'HTTP/1.1 ')} answers for {a.count(b'HTTP/1.1 ')}")
                print(f"    {first_difference(a, b)}")

    def replay_fault(self, words, data, out, looks):
        """Why what the program told last is not what its event logs make of the opening state; or nothing."""
        self.replayed += 1
        with open(words[1], "rb") as file:
            return replay.fault(file.read(), oracle_names.instant_of(words[2]), replay.exchanges(data, out), looks, self.has)

    def smaller(self, words, data):
        """The same input without requests that the difference does not need."""
        pieces = pieces_of(data)
        size, tries = max(1, len(pieces) // 2), 0
        while tries < MOST_TRIES:
            at, dropped = 0, False
            while at < len(pieces) and len(pieces) > 1 and tries < MOST_TRIES:
                fewer, tries = b"".join(pieces[:at] + pieces[at + size :]), tries + 1
                if oracle.run(words, fewer, self.has) != ran(self.program, words, fewer):
                    pieces, dropped = pieces[:at] + pieces[at + size :], True
                else:
                    at += size
            if size == 1 and not dropped:
                break
            size = max(1, size // 2)
        return b"".join(pieces)


def answer_as_baseline():
    """Has the oracle answer as the baseline is to: with its own usage line, and with no instant but of RFC 3339's form."""
    form = re.compile(r"\d{4}-\d\d-\d\d[Tt ]\d\d:\d\d:\d\d(?:[.,]\d{1,9})?(?:[Zz]|[+-]\d\d(?::\d\d)?)", re.ASCII)
    read = oracle_names.instant_of
    for it in (oracle, oracle_bodies, oracle_config, oracle_names):
        it.instant_of = lambda text: read(text) if form.fullmatch(text) else None
    oracle.USAGE = "usage: baseline once CONFIG NOW"


def arguments():
    options = argparse.ArgumentParser(description=__doc__, formatter_class=argparse.RawDescriptionHelpFormatter)
    options.add_argument("--program", default=None, metavar="COMMAND", help="in place of the built program")
    options.add_argument("--cases", type=int, default=2000, help="random cases (0 to 10,000,000)")
    options.add_argument("--seed", type=int, default=1)
    options.add_argument("--has", type=having, default=None, metavar="NAMES", help=f"what the program has: {', '.join(GROUPS)}, or single names")
    options.add_argument("--baseline", action="store_true", help="compile baseline.rs, and compare that")
    options.add_argument("--write", metavar="FOLDER", help="write the cases as files for `rt try --cases` into a new folder, and run nothing")
    options.add_argument("--random-only", action="store_true", help="without the examples and the limits")
    args = options.parse_args()
    args.has = args.has or having("baseline" if args.baseline else "landed")
    if args.write and os.path.exists(args.write):
        sys.exit(f"differential.py: {args.write} is there already; --write makes a new folder")
    if not 0 <= args.cases <= 10_000_000:
        sys.exit("differential.py: --cases is 0 to 10,000,000")
    return args


def program_of(args):
    """The words by which the program is called that is compared."""
    if args.baseline:
        sys.path.append(os.path.join(ROOT, "bench"))
        import bench

        bench.build_baseline()
        answer_as_baseline()
        return [bench.BASELINE]
    if not args.program and not os.path.exists(PROGRAM):
        sys.exit("differential.py: the program isn't built: run ./afplane build, or name one by --program")
    return shlex.split(args.program) if args.program else [PROGRAM]


def play(args, it):
    """All cases, one after another."""
    with tempfile.TemporaryDirectory(prefix="afplane-cases-") as folder:
        config = os.path.join(folder, "config.json")

        def write(data):
            with open(config, "wb") as file:
                file.write(data)
            return ["once", config, NOW]

        if not args.random_only:
            fixed_cases(it, folder, write)
        before = it.passed + it.failed
        print(f"{before} fixed cases, {it.failed} failed", file=sys.stderr)
        cases = Random(random.Random(args.seed), it, write, args.seed)
        for n in range(args.cases):
            cases.case(n)


def main():
    args = arguments()
    if args.write:
        it = Files(os.path.abspath(args.write), args.has)
    else:
        program, module = program_of(args), None if args.baseline else openapi()
        it = Comparison(program, args.has, Described(module) if module else None)
    play(args, it)
    told = ", ".join(f"{count} of {status.decode()}" for status, count in sorted(it.answers.items()))
    print(f"{sum(it.answers.values())} answers: {told}", file=sys.stderr)
    if args.write:
        print(it.command())
        sys.exit()
    if it.described:
        print(f"{it.described.answers} answers held against docs/openapi.json", file=sys.stderr)
    print(f"{it.replayed} connections replayed", file=sys.stderr)
    print(f"{it.passed} passed, {it.failed} failed")
    sys.exit(1 if it.failed else 0)


if __name__ == "__main__":
    main()
