#!/usr/bin/env python3
"""What a request costs afplane, beside a small Rust program that does the same work (baseline.rs).

  python3 bench/bench.py                    processor time; some minutes
  python3 bench/bench.py --quick            under a minute, less steady
  python3 bench/bench.py --count            instructions, counted by valgrind; other work on the machine doesn't touch them
  python3 bench/bench.py --only pause,tasks what has one of these words in its name
  python3 bench/bench.py --list             the names
  python3 bench/bench.py --program PATH

Both programs are run as `once CONFIG NOW` in turn, in one series of rounds, the order changing from round to
round. A run is fed what comes before and one request by a pipe and left to fall asleep at its next read, then the
others, and left to fall asleep again. The processor time that the kernel counted between the two sleeps, by request,
is the cost of a further request; that up to the first sleep is the start-up. Output goes to /dev/null. Each figure is a
median of rounds, and a ratio is of two runs of one round, with quartiles in brackets. With --count it is the
difference of the instructions of two runs, of what came before with one request and with all. Before anything is
measured, both programs' answers are compared with the oracle's, byte for byte, or with each other's where the oracle does
not answer the operation.
"""
import argparse
import fcntl
import os
import re
import shutil
import statistics
import struct
import subprocess
import sys
import tempfile
import termios
import time

from bench_loads import loads

HERE = os.path.dirname(os.path.realpath(__file__))
sys.path.append(os.path.join(HERE, "..", "model"))
import oracle  # noqa: E402
from oracle_names import instant_of  # noqa: E402
from oracle_table import having  # noqa: E402

PROGRAM = os.path.join(HERE, "..", "crates", "afplane", "out", "afplane")
BASELINE = os.path.join(HERE, "out", "baseline")
NOW = "2024-01-01T00:00:00Z"
SECONDS = 120
# Under valgrind the C library is not to fill and copy by `rep`, of which callgrind counts each byte.
PLAIN = {"GLIBC_TUNABLES": "glibc.cpu.x86_rep_stosb_threshold=1000000000:glibc.cpu.x86_rep_movsb_threshold=1000000000"}
# What the oracle is asked for: all that the baseline has.
HAS = having("baseline")


# ---- Running -----------------------------------------------------------------------------------------------


def fail(text):
    sys.exit(f"bench.py: {text}")


def build_baseline():
    rustc = shutil.which("rustc")
    if rustc is None:
        fail("rustc is not found; the baseline, bench/baseline.rs, is compiled by it")
    os.makedirs(os.path.dirname(BASELINE), exist_ok=True)
    words = [rustc, "--edition", "2021", "-C", "opt-level=3", "-o", BASELINE, os.path.join(HERE, "baseline.rs")]
    it = subprocess.run(words, stderr=subprocess.PIPE)
    if it.returncode:
        fail(f"the baseline doesn't compile:\n{it.stderr.decode(errors='replace')}")


def answers_of(program, words, data):
    try:
        it = subprocess.run([program, *words], input=data, stdout=subprocess.PIPE, stderr=subprocess.PIPE, timeout=SECONDS)
    except (OSError, subprocess.TimeoutExpired) as fault:
        fail(f"{program} can't be run: {fault}")
    if it.stderr:
        fail(f"{program} says {it.stderr[:200].decode(errors='replace')}")
    return it.stdout


def all_well(answers, count):
    told = answers.count(b"HTTP/1.1 200 OK\r\n") + answers.count(b"HTTP/1.1 204 No Content\r\n")
    return answers.count(b"HTTP/1.1 ") == told == count


def check(program, words, load, made):
    """Whether the load is to be measured: False where afplane doesn't answer one of its operations yet."""
    requests = load.requests()
    data, count = b"".join(requests), len(requests)
    theirs, ours = answers_of(BASELINE, words, data), answers_of(program, words, data)
    if not all_well(theirs, count):
        fail(f"the baseline refuses a request of {load.name}: {re.search(rb'HTTP/1.1 [^2].*', theirs)}")
    told, _ = oracle.answers(oracle.Plane(made, instant_of(NOW), HAS), data)
    for name, other in (("the oracle", told), (program, ours)):
        if b'"no such path"' in other and other is not theirs:
            if other is ours:
                print(f"left out, since {program} doesn't have its operations: {load.name}", file=sys.stderr)
                return False
        elif other != theirs:
            at = next((i for i, (a, b) in enumerate(zip(theirs, other)) if a != b), min(len(theirs), len(other)))
            nth = theirs.count(b"HTTP/1.1 ", 0, at + 9)
            fail(
                f"{name} and the baseline differ in answer {nth} of {load.name}, {requests[nth - 1].split(b' HTTP')[0].decode()}:\n"
                f"  {name}: {other[max(0, at - 80):at + 80]!r}\n  the baseline: {theirs[max(0, at - 80):at + 80]!r}"
            )
    return True


def processor_time(pid):
    """Nanoseconds that the process ran."""
    with open(f"/proc/{pid}/schedstat") as file:
        return int(file.read().split()[0])


def time_asleep(ran, pipe):
    """The processor time once the process has read all of the pipe and sleeps at its next read."""
    late, before = time.monotonic() + SECONDS, None
    while time.monotonic() < late:
        if ran.poll() is not None:
            fail(f"{ran.args[0]} ended with status {ran.returncode} before its input did")
        if struct.unpack("i", fcntl.ioctl(pipe, termios.FIONREAD, b"\0" * 4))[0] == 0:
            with open(f"/proc/{ran.pid}/stat") as file:
                asleep = file.read().rsplit(")", 1)[1].split()[0] == "S"
            now = processor_time(ran.pid) if asleep else None
            if now is not None and now == before:
                return now
            before = now
        time.sleep(0.0002)
    fail(f"{ran.args[0]} doesn't come to rest within {SECONDS} seconds")


def write_all(pipe, data):
    while data:
        data = data[os.write(pipe, data) :]


def timed(program, words, load):
    """Nanoseconds of processor time: of a start-up with its request, or of a further request."""
    reads, writes = os.pipe()
    try:
        fcntl.fcntl(writes, fcntl.F_SETPIPE_SZ, 1 << 20)
    except OSError:
        pass  # a smaller pipe will do
    with open(os.devnull, "wb") as nowhere:
        ran = subprocess.Popen([program, *words], stdin=reads, stdout=nowhere, stderr=nowhere)
    os.close(reads)
    try:
        write_all(writes, b"".join(load.lead + load.play[:1]))
        start = time_asleep(ran, writes)
        if load.figure == "start":
            return start
        write_all(writes, b"".join(load.play[1:]))
        return (time_asleep(ran, writes) - start) / (len(load.play) - 1)
    except BrokenPipeError:
        fail(f"{program} closed its input early")
    finally:
        os.close(writes)
        if ran.wait(SECONDS) != 0:
            fail(f"{program} ended with status {ran.returncode}")


def instructions(program, words, data):
    """How many instructions a run takes, from its first to its last."""
    call = ["valgrind", "--tool=callgrind", "--callgrind-out-file=/dev/null", program, *words]
    it = subprocess.run(call, input=data, stdout=subprocess.DEVNULL, stderr=subprocess.PIPE, env={**os.environ, **PLAIN})
    found = re.search(rb"Collected : ([0-9]+)", it.stderr)
    if it.returncode or found is None:
        fail(f"valgrind can't run {program}: {it.stderr[-600:].decode(errors='replace')}")
    return int(found[1])


def counted(program, words, load):
    first = instructions(program, words, b"".join(load.lead + load.play[:1]))
    if load.figure == "start":
        return first
    return (instructions(program, words, b"".join(load.requests())) - first) / (len(load.play) - 1)


# ---- Tables ------------------------------------------------------------------------------------------------


def quartiles(values):
    values = sorted(values)
    return [values[round(q * (len(values) - 1))] for q in (0.25, 0.5, 0.75)]


def show_times(load, times):
    """A line of the table; `times` has a pair, afplane's and the baseline's, for each round."""
    unit, by = ("ms", 1e6) if load.figure == "start" else ("ns", 1)
    ours, theirs = (statistics.median(it[i] for it in times) / by for i in (0, 1))
    low, middle, high = quartiles([a / b for a, b in times])
    digits = 2 if unit == "ms" else 0
    return f"{load.name:<36} {ours:>14,.{digits}f} {theirs:>14,.{digits}f} {unit}  {middle:>6.2f}  [{low:.2f} to {high:.2f}]"


def arguments():
    options = argparse.ArgumentParser(description=__doc__, formatter_class=argparse.RawDescriptionHelpFormatter)
    options.add_argument("--program", default=PROGRAM, help="in place of the built program")
    options.add_argument("--rounds", type=int, default=None, help="1 to 1,000; 31, or 5 with --quick")
    options.add_argument("--quick", action="store_true")
    options.add_argument("--count", action="store_true", help="instructions, by valgrind, in place of times")
    options.add_argument("--only", default="", metavar="WORDS", help="the loads with one of these words in their names")
    options.add_argument("--list", action="store_true", help="print the loads' names")
    args = options.parse_args()
    args.rounds = args.rounds if args.rounds is not None else 5 if args.quick else 31
    if not 1 <= args.rounds <= 1000:
        fail("--rounds is 1 to 1,000")
    return args


def program_of(args):
    """The program that is measured, once all is there that measuring needs."""
    if args.count and shutil.which("valgrind") is None:
        fail("valgrind is not found")
    if not os.path.exists(f"/proc/{os.getpid()}/schedstat"):
        fail("this system doesn't tell a process's time in /proc/PID/schedstat")
    program = os.path.realpath(args.program)
    if not os.access(program, os.X_OK):
        fail(f"{program} is not there or can't be run: build afplane first, by ./afplane build")
    build_baseline()
    return program


def checked(program, every, folder):
    """The words of each load that is to be measured, whose configuration stands in the folder then."""
    words = {}
    for number, it in enumerate(every):
        made, path = it.config(), os.path.join(folder, f"{number}.json")
        with open(path, "wb") as file:
            file.write(made)
        if check(program, ["once", path, NOW], it, made):
            words[it] = ["once", path, NOW]
    print(f"{len(words)} loads: the answers of both programs are right", file=sys.stderr)
    return words


def tell_counts(program, words):
    print(f"Instructions by request, and of the start-up.\n\n{'':<36} {'afplane':>14} {'baseline':>14}   ratio")
    for it in words:
        ours, theirs = (counted(each, words[it], it) for each in (program, BASELINE))
        print(f"{it.name:<36} {ours:>14,.0f} {theirs:>14,.0f}  {ours / theirs:>6.2f}", flush=True)


def tell_times(program, words, rounds):
    taken = {it: [] for it in words}
    for turn in range(rounds):
        for number, it in enumerate(words):
            pair = [0, 0]
            for place in (0, 1) if (turn + number) % 2 == 0 else (1, 0):
                pair[place] = timed((program, BASELINE)[place], words[it], it)
            taken[it].append(pair)
    print(f"Processor time by request, and of the start-up; medians of {rounds} rounds; load {os.getloadavg()[0]:.1f}.\n")
    print(f"{'':<36} {'afplane':>14} {'baseline':>14}      {'ratio':>6}  quartiles")
    for it, times in taken.items():
        print(show_times(it, times))


def main():
    args = arguments()
    every = [it for it in loads() if any(word in it.name for word in args.only.split(","))]
    if args.list:
        print(*(it.name for it in every), sep="\n")
        return
    program = program_of(args)
    with tempfile.TemporaryDirectory(prefix="afplane-bench-") as folder:
        words = checked(program, every, folder)
        if args.count:
            tell_counts(program, words)
        else:
            tell_times(program, words, args.rounds)


if __name__ == "__main__":
    main()
