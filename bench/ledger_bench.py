#!/usr/bin/env python3
"""What requests cost afplane's ledger without messages, beside the plain Rust program's operations (ledger_baseline.rs), and what its entries take.

  python3 bench/ledger_bench.py                    processor time; some minutes
  python3 bench/ledger_bench.py --count            instructions, counted by valgrind; other work on the machine doesn't touch them
  python3 bench/ledger_bench.py --only page        the loads with one of these words in their names
  python3 bench/ledger_bench.py --memory           the memory of 1,000,000 entries, by resident size
  python3 bench/ledger_bench.py --build            proves and builds the program of bench/ledger/ anew, and measures nothing

A connection ends with its 1,000th request, so what a longer history costs is played by a program of its own, bench/ledger/, over the proved crates
af_audit and af_ops: it asks the ledger for operations, with their queries and bodies as texts, as one user with a token. How it is measured
is told in sched_bench.py. Before the rounds each load is played once with numbers that depend on each byte which is told.
"""
import os
import resource

from building import OUT, build, build_plain
from sched_bench import Load, Player, options_of, same, tell

PROGRAMS = [os.path.join(OUT, "ledger"), os.path.join(OUT, "ledger_baseline")]
LIMIT, MANY = 4_000_000, 65_536


def load(name, opening, runs, lines, number, most=1_000):
    before = [f"names {runs + 5_000}", f"fill {runs}", "whole 1", *(it.lstrip("*") for it in lines(0)), "whole 0"]
    return Load(name, (*opening, LIMIT), number, lambda turn: lines(turn + 1), most, "us", before)


def loads():
    yield load("a page of 100 of 65,536 runs of a DAG", (1, 1), MANY, lambda turn: [f"*runs 0 {turn * 6_151} 7919 100"], 100)
    yield load("a page of 100 of 65,536 runs of all DAGs", (16, 1), MANY, lambda turn: [f"*all {turn * 6_151} 7919 100"], 100)
    yield load("a page of 100 of 65,537 entries", (16, 1), MANY, lambda turn: [f"*logs {turn * 6_151} 7919 100"], 100)
    yield load("reads and changes, 100 DAGs, 1,000 runs", (100, 5), 1_000, lambda turn: [f"*mix {turn * 250} 250"], 250)
    yield load("pause and unpause, 100 DAGs", (100, 5), 1_000, lambda turn: [f"*pause {turn * 500} 500"], 500)
    yield load("mark a run of 1,000", (100, 5), 1_000, lambda turn: [f"*mark {turn * 500} 500"], 500)
    yield load("change a variable", (100, 5), 1_000, lambda turn: [f"*set {turn * 500 + 1} 500"], 500)
    yield load("trigger a run, 1,000 to 4,000 there", (100, 5), 1_000, lambda turn: ["*fill 100"], 100, 30)


def resident(player):
    with open(f"/proc/{player.process.pid}/statm") as file:
        return int(file.read().split()[1]) * resource.getpagesize()


def tell_memory(count):
    print(f"Bytes an entry, by resident size, of {count:,} entries; load {os.getloadavg()[0]:.1f}.\n")
    print(f"{'':<46} {'afplane':>12} {'baseline':>12}")
    for name, word in (("a DAG is paused", "pause"), ("a run is marked", "mark"), ("a variable gets a text of thirteen letters", "set")):
        found, told = [], []
        for it in PROGRAMS:
            player = Player(it, (100, 5, LIMIT))
            player.round(["names 1000", "fill 1000", f"{word} 0 1000"])
            before = resident(player)
            told.append(player.round([f"{word} 1000 {count}"])[0])
            found.append((resident(player) - before) / count)
            player.end()
        same(Load(name, (), 1, None), "none", told)
        print(f"{name:<46} {found[0]:>12,.1f} {found[1]:>12,.1f} bytes  {found[0] / found[1]:>6.2f}", flush=True)


def main():
    options = options_of(__doc__)
    options.add_argument("--memory", action="store_true", help="the memory of entries, in place of times")
    options.add_argument("--entries", type=int, default=1_000_000, help="how many entries; 1,000,000")
    args = options.parse_args()
    if args.build or not os.path.exists(PROGRAMS[0]):
        build("ledger", "af_audit af_graph af_listing af_names af_ops af_policy af_sched json sha2")
        if args.build:
            return
    build_plain("ledger_baseline")
    if args.memory:
        tell_memory(args.entries)
    else:
        tell(args, loads(), PROGRAMS)


if __name__ == "__main__":
    main()
