#!/usr/bin/env python3
"""What ticks, claims and look-ups cost afplane's scheduler, beside a plain Rust program with hash maps (sched_baseline.rs).

  python3 bench/sched_bench.py                    processor time; some minutes
  python3 bench/sched_bench.py --count            instructions, counted by valgrind; other work on the machine doesn't touch them
  python3 bench/sched_bench.py --only tick        the loads with one of these words in their names
  python3 bench/sched_bench.py --starts 8         the programs are started eight times for each load
  python3 bench/sched_bench.py --build            proves and builds the program of bench/sched/ anew, and measures nothing

No request reaches the scheduler yet, so a program of its own plays the loads, bench/sched/, over the proved crates af_sched and
af_runs. It takes lines from standard input, and answers each by a number, which depends on all that was done; so does the plain
one, and the numbers have to be the same. Both stay in memory while a load lasts. In each round both do what comes before,
then what is measured, the order changing from round to round; the kernel's count of the processor time that a process ran
from its sleep before that line to its sleep after it is what is told. Figures are medians of the rounds, and a ratio is
that of one round, its median and quartiles. With --count it is instructions, of two runs the difference.
"""
import argparse
import fcntl
import os
import statistics
import struct
import subprocess
import sys
import termios
import time

from bench import instructions, processor_time, quartiles
from building import OUT, build, build_plain

PROGRAMS = [os.path.join(OUT, "sched"), os.path.join(OUT, "sched_baseline")]
DAY, START = 86_400, 1_704_067_200
NOON, FAR = START + DAY // 2, START + 2_000 * DAY


def fail(text):
    sys.exit(f"sched_bench.py: {text}")


# ---- Loads -------------------------------------------------------------------------------------------------


class Load:
    """An opening (DAGs, tasks of each, ended runs of each, DAGs of heavier tasks), what each round does, and how many operations are measured in it.

    A round is a function of its number to lines; those that begin with a star are measured. What is played before all rounds are lines, too."""

    def __init__(self, name, opening, number, lines, most=1_000, unit="ns", before=()):
        self.name, self.opening, self.number, self.lines, self.most, self.unit, self.before = name, opening, number, lines, most, unit, list(before)


def loads():
    for runs in (0, 100, 1_000):
        yield Load(f"an idle tick, {runs:,} ended runs each", (1_024, 1, runs, 0), 50, lambda turn: [f"*tick {NOON} 50"], unit="us")
    # A tick's new runs are listed by DAG when memory is next reserved, which the loads with "listed" do before they tick again.
    ticks = lambda turn, *more: [*more, f"*tick {START + (turn + 1) * DAY} 1", "digest", "end"]
    for runs in (0, 977):
        name = f"a tick, 1,024 DAGs due, {1_024 * runs:,} ended"
        yield Load(name, (1_024, 1, runs, 0), 1, ticks, unit="us")
        yield Load(f"{name}, listed", (1_024, 1, runs, 0), 1, lambda turn: ticks(turn, "*list"), unit="us")
    # sixteen DAGs of 64,536 runs, each of which gets a thousand more
    many = (16, 1, 64_536, 0)
    yield Load("trigger a run", many, 100, lambda turn: [f"names {64_536 + turn // 16 * 100} 1 1000000000 100", f"*trigger {turn % 16} {64_536 + turn // 16 * 100}"], 160)
    yield Load("look a run up", many, 1_000, lambda turn: [f"names {turn * 131 % 64_536} 7919 64536 1000", f"*find {turn % 16}"])
    yield Load("a page of 100 runs of a DAG", many, 100, lambda turn: [f"*pages {turn % 16} {turn * 6_151} 7919 100"])
    queued = lambda turn, line: [f"tick {START + (turn + 1) * DAY} 1", f"*{line}", "digest", "end"]
    for heavier, name in ((0, "a claim, 10,000 queued"), (1, "a claim, 10,000 lighter ones queued")):
        yield Load(name, (1_000, 10, 0, heavier), 100, lambda turn: queued(turn, f"claim {NOON} 100"), unit="us")
    yield Load("1,024 claims and reports", (1_024, 1, 100, 0), 1, lambda turn: queued(turn, f"work {NOON} 1024"), unit="us")
    behind = (1_024, 1, 100, 0)
    yield Load("a tick, 16 points due of 1,024 DAGs", behind, 1, lambda turn: [f"*tick {FAR} 1", "digest", "end"], 100, unit="us")
    yield Load("a tick, 16 points due of 1,024 DAGs, listed", behind, 1, lambda turn: ["*list", f"*tick {FAR} 1", "digest", "end"], 100, unit="us")
    yield Load("the next such tick, listed", behind, 1, lambda turn: ["list", f"tick {FAR} 1", "*list", f"*tick {FAR} 1", "digest", "end"], 50, unit="us")


# ---- Running -----------------------------------------------------------------------------------------------


class Player:
    """A program with an opening, and the lines that it is given."""

    def __init__(self, program, opening):
        reads, self.writes = os.pipe()
        self.process = subprocess.Popen([program, *map(str, opening)], stdin=reads, stdout=subprocess.PIPE, stderr=subprocess.PIPE)
        os.close(reads)

    def play(self, line):
        os.write(self.writes, f"{line}\n".encode())
        told = self.process.stdout.readline()
        if not told:
            fail(f"{self.process.args[0]} ended at {line!r}: {self.process.stderr.read()[-300:]!r}")
        return int(told)

    def rest(self):
        """The processor time once the process sleeps at its next read."""
        before = None
        while True:
            if struct.unpack("i", fcntl.ioctl(self.writes, termios.FIONREAD, b"\0" * 4))[0] == 0:
                with open(f"/proc/{self.process.pid}/stat") as file:
                    asleep = file.read().rsplit(")", 1)[1].split()[0] == "S"
                now = processor_time(self.process.pid) if asleep else None
                if now is not None and now == before:
                    return now
                before = now
            time.sleep(0.0002)

    def round(self, lines):
        """What was answered, and the nanoseconds of what is measured."""
        told, spent = [], 0
        for line in lines:
            if line[0] != "*":
                told.append(self.play(line))
                continue
            start = self.rest()
            told.append(self.play(line[1:]))
            spent += self.rest() - start
        return told, spent

    def end(self):
        os.close(self.writes)
        self.process.communicate()


def same(load, turn, told):
    if told[0] != told[1]:
        fail(f"the programs differ in round {turn} of {load.name}: {told[0]} and {told[1]}")


def measure(load, rounds, programs, starts=1):
    """A line of the table. Where memory lies differs from start to start, and what look-ups cost with it: so programs can be started more than once."""
    pairs = []
    for _ in range(starts):
        both = [Player(it, load.opening) for it in programs]
        same(load, "none", [it.round(load.before)[0] for it in both])
        for turn in range(min(rounds, load.most)):
            told, spent = [None, None], [0, 0]
            for place in (0, 1) if turn % 2 == 0 else (1, 0):
                told[place], spent[place] = both[place].round(load.lines(turn))
            same(load, turn, told)
            pairs.append(spent)
        for it in both:
            it.end()
    by = load.number * (1_000 if load.unit == "us" else 1)
    ours, theirs = (statistics.median(it[place] for it in pairs) / by for place in (0, 1))
    low, middle, high = quartiles([a / b for a, b in pairs])
    digits = 1 if load.unit == "us" else 0
    return f"{load.name:<46} {ours:>12,.{digits}f} {theirs:>12,.{digits}f} {load.unit}  {middle:>6.2f}  [{low:.2f} to {high:.2f}]"


def count(load, programs):
    """A line of the table, in instructions: those of a run to the end of what the second round measures, less those of one to its beginning."""
    lines = load.lines(1)
    last = max(place for place, line in enumerate(lines) if line[0] == "*")
    first = min(place for place, line in enumerate(lines) if line[0] == "*")
    before = load.before + load.lines(0) + lines[:first]
    short, whole = (("\n".join(it.lstrip("*") for it in those) + "\n").encode() for those in (before, before + lines[first : last + 1]))
    words, found = [str(it) for it in load.opening], []
    for program in programs:
        found.append((instructions(program, words, whole) - instructions(program, words, short)) / load.number)
    return f"{load.name:<46} {found[0]:>14,.0f} {found[1]:>14,.0f}  {found[0] / found[1]:>6.2f}"


def options_of(words):
    """What the words of a call ask for."""
    options = argparse.ArgumentParser(description=words, formatter_class=argparse.RawDescriptionHelpFormatter)
    options.add_argument("--build", action="store_true", help="prove and build the program, and measure nothing")
    options.add_argument("--rounds", type=int, default=31, help="1 to 1,000; 31")
    options.add_argument("--starts", type=int, default=1, help="how often the programs are started, for so many rounds each; 1")
    options.add_argument("--count", action="store_true", help="instructions, by valgrind, in place of times")
    options.add_argument("--only", default="", metavar="WORDS", help="the loads with one of these words in their names")
    return options


def tell(args, every, programs):
    """The table of these loads."""
    every = [it for it in every if any(word in it.name for word in args.only.split(","))]
    print(f"{'Instructions' if args.count else f'Processor time, {args.starts} by {args.rounds} rounds,'} by operation; load {os.getloadavg()[0]:.1f}.\n")
    print(f"{'':<46} {'afplane':>12} {'baseline':>12}")
    for it in every:
        print(count(it, programs) if args.count else measure(it, args.rounds, programs, args.starts), flush=True)


def main():
    args = options_of(__doc__).parse_args()
    if args.build or not os.path.exists(PROGRAMS[0]):
        build("sched", "af_graph af_names af_runs af_sched")
        if args.build:
            return
    build_plain("sched_baseline")
    tell(args, loads(), PROGRAMS)


if __name__ == "__main__":
    main()
