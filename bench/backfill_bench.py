#!/usr/bin/env python3
"""What 100 runs of 20 tasks cost afplane that one request makes, beside 100 that are triggered one by one.

  python3 bench/backfill_bench.py                    processor time, in 31 rounds
  python3 bench/backfill_bench.py --count            instructions, counted by valgrind; other work on the machine doesn't touch them
  python3 bench/backfill_bench.py --program PATH --rounds 11

Both loads are played by afplane, since the plain program of bench.py has no backfills. They give one DAG of 20 tasks its first 900 runs: by nine
requests that backfill a hundred days each, or by 900 that trigger a run each. What the first hundred runs cost isn't measured, and the other 800 are
told by the hundred. How a load is played and measured is told in bench.py. Before that, the answers to both are compared with the model's.
"""
import argparse
import os
import statistics
import sys
import tempfile
from datetime import date, timedelta

import bench
from bench_loads import Load, ask, config, ids_of, trigger

HUNDRED, TIMES = 100, 9
# Of the configuration's DAGs this one runs at each midnight, first on that day.
DAG, FIRST = ids_of(100)[1], date(2024, 2, 1)


# ---- Loads -------------------------------------------------------------------------------------------------


def backfill(n):
    """The n-th hundred of days."""
    start = FIRST + timedelta(days=HUNDRED * n)
    ends = {"start_date": start, "end_date": start + timedelta(days=HUNDRED - 1)}
    return ask(f"/dags/{DAG}/backfills", "POST", {name: f"{day}T00:00:00Z" for name, day in ends.items()}, top="/own")


def loads():
    """Each load, and how many of its requests make a hundred runs. The first hundred runs are there when what is measured begins."""
    made, triggers = lambda: config(dags=100, tasks=20, role="User"), [trigger(DAG, n) for n in range(HUNDRED * TIMES)]
    yield Load("backfill 100 runs of 20 tasks in one request", made, [backfill(n) for n in range(TIMES)]), 1
    yield Load("trigger 100 runs of the same DAG", made, triggers[HUNDRED - 1 :], triggers[: HUNDRED - 1]), HUNDRED


# ---- Running -----------------------------------------------------------------------------------------------


def check(program, words, load, made):
    """Ends with a message where the answers are not the model's, or make other than 900 runs."""
    data = b"".join(load.requests())
    told, _ = bench.oracle.answers(bench.oracle.Plane(made, bench.instant_of(bench.NOW)), data)
    if not bench.all_well(told, len(load.requests())) or told.count(b'"dag_run_id"') != HUNDRED * TIMES:
        sys.exit(f"backfill_bench.py: by the model not all runs are made: {load.name}")
    if bench.answers_of(program, words, data) != told:
        sys.exit(f"backfill_bench.py: {program} and the model differ: {load.name}")


def show(name, figures, unit):
    print(f"{name:<46} {statistics.median(figures):>14,.0f} {unit}", flush=True)


def main():
    options = argparse.ArgumentParser(description=__doc__, formatter_class=argparse.RawDescriptionHelpFormatter)
    options.add_argument("--program", default=bench.PROGRAM, help="in place of the built program")
    options.add_argument("--rounds", type=int, default=31, help="31")
    options.add_argument("--count", action="store_true", help="instructions, by valgrind, in place of times")
    args = options.parse_args()
    program, every = os.path.realpath(args.program), list(loads())
    if not os.access(program, os.X_OK):
        sys.exit(f"backfill_bench.py: {program} is not there or can't be run: build afplane first, by ./afplane build")
    with tempfile.TemporaryDirectory(prefix="afplane-bench-") as folder:
        path, made = os.path.join(folder, "config.json"), every[0][0].config()
        with open(path, "wb") as file:
            file.write(made)
        words = ["once", path, bench.NOW]
        for load, _ in every:
            check(program, words, load, made)
        measure, found = bench.counted if args.count else bench.timed, [[] for _ in every]
        for turn in range(1 if args.count else args.rounds):
            for place in (0, 1) if turn % 2 == 0 else (1, 0):
                load, times = every[place]
                found[place].append(measure(program, words, load) * times)
    print(f"{'Instructions' if args.count else f'Processor time, medians of {args.rounds} rounds,'} by 100 runs; load {os.getloadavg()[0]:.1f}.\n")
    for (load, _), figures in zip(every, found):
        show(load.name, figures, "" if args.count else "ns")
    low, middle, high = bench.quartiles([a / b for a, b in zip(*found)])
    print(f"{'the first in parts of the second':<46} {middle:>14.2f}" + ("" if args.count else f"  [{low:.2f} to {high:.2f}]"))


if __name__ == "__main__":
    main()
