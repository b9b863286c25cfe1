#!/usr/bin/env python3
"""Whether what a user may not read shows in the answers to that user: pairs of connections to afplane that differ in hidden rows alone. These are DAGs that the
user does not read, with all that is theirs; and runs, with their instances, of DAGs that the user reads and whose runs the user does not.

  python3 conformance/blindness.py [--pairs 1000] [--seed 1] [--program PATH]
  python3 conformance/blindness.py --model          the reference model in place of the program

Each pair is two runs of the program (blind_pairs.py; first, once each, the two configurations of blind_cases.py for readers of several kinds). On each side an
admin makes changes, each of which is to be done; then the reader asks for DAGs, tasks, runs, instances and backfills, and the admin for all DAGs and runs. The
answers to the reader are to be the same on both sides, byte for byte but for the numbers in X-Policy-Version and X-Plane-Seq. The first that are not are shown,
and both sides are left in conformance/out/. Where fewer than three of four pairs differ in what the admin sees, the pairs are no test, and that fails too.
The last line is `N passed, M failed`, and the status 1 where M is not 0.
"""
import argparse
import json
import os
import random
import re
import shlex
import sys
import tempfile

import with_model  # noqa: F401
import blind_cases
import blind_pairs
import oracle
from blind_cases import ADMIN, NOW
from differential import OUT, PROGRAM, ran
from oracle_names import instant_of
from worked_rows import request

LOOKS = ["GET /dags", "GET /dags/~/dagRuns"]
NUMBERS = re.compile(rb"(\r\nX-(?:Policy-Version|Plane-Seq): )[0-9]+(?=\r\n)")
LENGTH = re.compile(rb"\r\nContent-Length: ([0-9]+)\r\n")
SHOWN = 3  # so many differences are shown
FIXED = 1 + len(blind_cases.KINDS) + len(blind_cases.RUN_KINDS)  # so many pairs are fixed


class Failed(Exception):
    """Why a pair fails."""


# ---- Two ways to run a connection ------------------------------------------------------------------------------
# Each gives for a configuration and an input the exit status, standard output and standard error.


def by_program(program, folder):
    path = os.path.join(folder, "config.json")

    def run(config, data):
        with open(path, "wb") as file:
            file.write(config)
        return ran(program, ["once", path, NOW], data)

    return run


def by_model(config, data):
    out, closed = oracle.answers(oracle.Plane(config, instant_of(NOW)), data)
    return 0 if closed else 1, out, b""


# ---- One pair --------------------------------------------------------------------------------------------------


def answers_of(out):
    """The answers of a connection, one by one."""
    found, at = [], 0
    while at < len(out):
        end = out.find(b"\r\n\r\n", at)
        length = LENGTH.search(out, at, end + 2) if end >= 0 else None
        end += 4 + (int(length[1]) if length else 0)
        if not out.startswith(b"HTTP/1.1 ", at) or end > len(out) or end < at:
            raise Failed(f"no whole answer stands at byte {at} of the output: {out[at:at + 200]!r}")
        found.append(out[at:end])
        at = end
    return found


def without_numbers(answer):
    """An answer without the two numbers that may differ."""
    head, empty, body = answer.partition(b"\r\n\r\n")
    return NUMBERS.sub(rb"\1", head + b"\r\n") + empty + body


def data_of(pair, side):
    """The input of one side, and how many requests of it are the admin's changes, the reader's and the admin's looks."""
    parts = [(ADMIN, side.changes), (pair.reader, [(it, "") for it in pair.asked]), (ADMIN, [(it, "") for it in LOOKS])]
    data = b"".join(request(name, asked, body) for name, part in parts for asked, body in part)
    return data, [len(part) for _, part in parts]


def check_changes(side, answers):
    """Each change was done, and each of the state was counted."""
    seq = 0
    for (asked, body), answer in zip(side.changes, answers):
        status, counted = answer[9:12], re.search(rb"\r\nX-Plane-Seq: ([0-9]+)\r\n", answer)
        if status not in (b"200", b"204"):
            raise Failed(f"a change of the admin was not done: {asked} {body}: {answer!r}")
        if not asked.startswith(("POST /roles", "POST /users")):
            seq += 1
            if counted is None or int(counted[1]) != seq:
                raise Failed(f"a change of the admin is not counted as number {seq}: {asked} {body}: {answer!r}")


def answers_on(run, pair, side):
    """The answers to the reader and those to the admin's looks; Failed where the admin's changes were not done."""
    data, counts = data_of(pair, side)
    status, out, said = run(json.dumps(side.config).encode(), data)
    if status != 0 or said:
        raise Failed(f"status {status}, and on standard error: {said!r}")
    answers = answers_of(out)
    if len(answers) != sum(counts):
        raise Failed(f"{len(answers)} answers to {sum(counts)} requests")
    check_changes(side, answers)
    return answers[counts[0] : -counts[2]], answers[-counts[2] :]


def check(run, pair):
    """Whether the admin sees a difference; Failed where the reader does."""
    (told, looks), (others, other_looks) = (answers_on(run, pair, side) for side in pair.sides)
    for asked, one, other in zip(pair.asked, told, others):
        if without_numbers(one) != without_numbers(other):
            raise Failed(f"{pair.reader}: {asked}\n  on one side   {one!r}\n  on the other  {other!r}")
    return [it.partition(b"\r\n\r\n")[2] for it in looks] != [it.partition(b"\r\n\r\n")[2] for it in other_looks]


def pairs(count, seed):
    """The fixed pairs, and so many random ones."""
    yield blind_cases.of_base()
    yield from blind_cases.with_and_without()
    yield from blind_cases.with_and_without_runs()
    for n in range(count):
        kind = blind_pairs.KINDS[n % len(blind_pairs.KINDS)]
        yield blind_pairs.Maker(random.Random(f"{seed} {n}"), kind).pair(f"seed {seed}, pair {n}, reader of the kind {kind!r}")


# ---- All of them -----------------------------------------------------------------------------------------------


def keep(pair):
    """Leaves both sides of a pair as files, and says how to run them."""
    os.makedirs(OUT, exist_ok=True)
    for name, side in zip(("one", "other"), pair.sides):
        stem = os.path.join(OUT, f"blind_{name}")
        for end, text in ((".json", json.dumps(side.config).encode()), (".http", data_of(pair, side)[0])):
            with open(stem + end, "wb") as file:
                file.write(text)
        print(f"  ./afplane once {stem}.json {NOW} < {stem}.http")


def play(run, count, seed, told=print):
    """How many pairs passed, how many failed, and in how many the admin sees a difference."""
    passed = failed = differ = 0
    for pair in pairs(count, seed):
        try:
            differ += check(run, pair)
            passed += 1
        except Failed as why:
            failed += 1
            if failed <= SHOWN:
                told(f"FAILED {pair.title}: {why}")
            if failed == 1 and told is print:
                keep(pair)
    if not failed and differ * 4 < passed * 3:
        told(f"FAILED: of {passed} pairs {differ} differ in what the admin sees")
        failed += 1
    return passed, failed, differ


def arguments():
    options = argparse.ArgumentParser(description=__doc__, formatter_class=argparse.RawDescriptionHelpFormatter)
    options.add_argument("--pairs", type=int, default=1000, help="random pairs, after the fixed ones")
    options.add_argument("--seed", type=int, default=1)
    options.add_argument("--program", default=None, metavar="PATH", help="in place of the built program; words behind it are its first arguments")
    options.add_argument("--model", action="store_true", help="the reference model in place of the program")
    args = options.parse_args()
    if not args.model and not args.program and not os.path.exists(PROGRAM):
        sys.exit("blindness.py: the program is not built: run ./afplane build, or name one by --program")
    return args


def main():
    args = arguments()
    with tempfile.TemporaryDirectory(prefix="afplane-blind-") as folder:
        run = by_model if args.model else by_program(shlex.split(args.program or PROGRAM), folder)
        passed, failed, differ = play(run, args.pairs, args.seed)
    print(f"the admin sees a difference in {differ} pairs", file=sys.stderr)
    print(f"{passed} passed, {failed} failed")
    sys.exit(1 if failed else 0)


if __name__ == "__main__":
    main()
