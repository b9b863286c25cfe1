#!/usr/bin/env python3
"""What the server does over sockets, beside a plain threaded Rust server that does the same work (serve_baseline.rs).

  python3 bench/serve_bench.py                     requests/s and p99 at 1, 4 and 16 connections; some minutes
  python3 bench/serve_bench.py --quick             a minute, less steady
  python3 bench/serve_bench.py --only readers      the loads with one of these words in their names
  python3 bench/serve_bench.py --count             instructions by request, by valgrind, without the kernel's; other work doesn't touch them
  python3 bench/serve_bench.py --memory            resident memory by entry and by version, and by DAG, run and user
  python3 bench/serve_bench.py --under-lock        beside a plain server that makes its texts under its lock
  python3 bench/serve_bench.py --keep-versions     beside a plain server that keeps all versions of the policy, as afplane does
  python3 bench/serve_bench.py --plain             the plain server in afplane's place, which shows what the machine alone makes of a ratio
  python3 bench/serve_bench.py --program PATH

Both servers run as `serve CONFIG PORT WORKERS` with as many workers as there are connections, and are asked in turn, in rounds of under a second whose
order changes. A figure is the median of the rounds, and a ratio is of one round, with quartiles in brackets. A ratio differs from start to start, so the
servers are started several times, and each start has its share of the rounds. Before anything is timed each request is
asked of both servers once, one after another, and their answers are compared byte for byte, those of the first connection with the model's too;
where one differs, the load is not timed. The time of a request is from its write to the last byte of its answer (serve_load.rs).
"""
import argparse
import contextlib
import json
import os
import re
import socket
import statistics
import subprocess
import sys
import tempfile
import time

from building import OUT, build_plain
import serve_loads as loads

HERE = os.path.dirname(os.path.realpath(__file__))
sys.path.append(os.path.join(HERE, "..", "model"))
import oracle  # noqa: E402
from oracle_names import instant_of  # noqa: E402

PROGRAM = os.path.join(HERE, "..", "crates", "afplane", "out", "afplane")
BASELINE, LOADER = os.path.join(OUT, "serve_baseline"), os.path.join(OUT, "serve_load")
TICKS = os.sysconf("SC_CLK_TCK")
PAGE = os.sysconf("SC_PAGE_SIZE")
SECONDS = 60
# A connection ends with its 1,000th request. So many are sent at once where nothing is timed.
MOST, BATCH = 999, 50


def fail(text):
    sys.exit(f"serve_bench.py: {text}")


# ---- Servers -----------------------------------------------------------------------------------------------


class Server:
    """A running server, which can be asked."""

    def __init__(self, name, program, config, workers, before=(), errors=None):
        self.name = name
        words = [*before, program, "serve", config, "0", str(workers)]
        self.process = subprocess.Popen(words, stdin=subprocess.DEVNULL, stdout=subprocess.PIPE, stderr=errors)
        line = self.process.stdout.readline()
        found = re.fullmatch(rb"listening on 127\.0\.0\.1:(\d+)\n", line)
        if not found:
            self.stop()
            fail(f"{program} does not listen, but says {line!r}, and ends with status {self.process.returncode}")
        self.port = int(found[1])

    def ask(self, requests):
        """The answers to requests, which are sent some at a time, on one connection after another."""
        answers = []
        for at in range(0, len(requests), MOST):
            with socket.create_connection(("127.0.0.1", self.port), SECONDS) as stream:
                stream.setsockopt(socket.IPPROTO_TCP, socket.TCP_NODELAY, 1)
                for part in batched(requests[at : at + MOST], BATCH):
                    stream.sendall(b"".join(part))
                    answers += whole_answers(stream, len(part))
                # The server's worker is free before the next connection opens.
                stream.shutdown(socket.SHUT_WR)
                stream.recv(1)
        return answers

    def seen(self):
        """How many versions and entries there are."""
        return numbers_of(self.ask([loads.Asked("/api/v1/dags?limit=0", 1).bytes])[0])

    def processor_time(self):
        """Nanoseconds that its threads ran; none of them ends."""
        total, folder = 0, f"/proc/{self.process.pid}/task"
        for it in os.listdir(folder):
            with open(f"{folder}/{it}/schedstat") as file:
                total += int(file.read().split()[0])
        return total

    def resident(self):
        with open(f"/proc/{self.process.pid}/statm") as file:
            return int(file.read().split()[1]) * PAGE

    def stop(self):
        self.process.kill()
        self.process.wait()
        self.process.stdout.close()


def batched(rows, most):
    """The rows, so many at a time."""
    return [rows[at : at + most] for at in range(0, len(rows), most)]


def whole_answers(stream, count):
    """Reads so many answers, behind which nothing comes: of each a head, and as many bytes as it says."""
    data, at, answers = b"", 0, []
    while len(answers) < count:
        head = data.find(b"\r\n\r\n", at)
        length = re.search(rb"\r\nContent-Length: (\d+)", data[at:head]) if head >= 0 else None
        end = head + 4 + int(length[1] if length else 0)
        if 0 <= head and end <= len(data):
            answers.append(data[at:end])
            at = end
            continue
        more = stream.recv(1 << 16)
        if not more:
            fail(f"a connection ended within an answer: {data[at:][:200]!r}")
        data += more
    if at != len(data):
        fail(f"more came than the answers: {data[at:][:200]!r}")
    return answers


def numbers_of(answer):
    """The version and the number of entries that an answer names."""
    found = re.search(rb"\r\nX-Policy-Version: (\d+)\r\nX-Plane-Seq: (\d+)\r\n", answer)
    if not found:
        fail(f"an answer without version and number: {answer[:200]!r}")
    return int(found[1]), int(found[2])


class Loader:
    """A process that plays a load on a server, and goes on where it stopped."""

    def __init__(self, server, records):
        self.file = tempfile.NamedTemporaryFile(prefix="afplane-bench-")
        self.file.write(records)
        self.file.flush()
        words = [LOADER, f"127.0.0.1:{server.port}", self.file.name]
        self.process = subprocess.Popen(words, stdin=subprocess.PIPE, stdout=subprocess.PIPE, text=True)

    def told(self, word, connections, much):
        """Runs for so many seconds, or plays so many requests on each connection."""
        self.process.stdin.write(f"{word} {connections} {much}\n")
        self.process.stdin.flush()
        line = self.process.stdout.readline()
        if not line:
            fail("serve_load ended")
        told = json.loads(line)
        if told["errors"] or told["wrong"]:
            fail(f"{told['errors']} errors and {told['wrong']} answers of the wrong status; the first: {told['first']}")
        return told

    def processor_time(self):
        with open(f"/proc/{self.process.pid}/stat") as file:
            user, system = file.read().rpartition(")")[2].split()[11:13]
        return (int(user) + int(system)) / TICKS

    def stop(self):
        self.process.stdin.close()
        self.process.wait()
        self.process.stdout.close()
        self.file.close()


@contextlib.contextmanager
def running(named, config, workers):
    """Servers of these names and programs."""
    with tempfile.NamedTemporaryFile(prefix="afplane-bench-", suffix=".json") as file:
        file.write(config)
        file.flush()
        servers = []
        try:
            for name, program in named:
                servers.append(Server(name, program, file.name, workers))
            yield servers
        finally:
            for it in servers:
                it.stop()


# ---- Answers -----------------------------------------------------------------------------------------------


def same(asked, answers):
    """Ends where answers differ or have another status than is wanted; `answers` has names and bytes."""
    (first, wanted), *others = answers
    line = asked.bytes.split(b"\r\n")[0].decode()
    if not wanted.startswith(b"HTTP/1.1 %d " % asked.status):
        fail(f"{first} answers {line} by {wanted.partition(bytes([13]))[0].decode()}, not {asked.status}")
    for name, it in others:
        if it != wanted:
            at = next((i for i, (a, b) in enumerate(zip(it, wanted)) if a != b), min(len(it), len(wanted)))
            show = slice(max(0, at - 60), at + 80)
            fail(f"answers to {line} differ:\n  {name}: {it[show]!r}\n  {first}: {wanted[show]!r}")


def check(named, load, connections):
    """Asks what comes before and what connections play, one request after another, and ends where answers differ; those of the first are the model's."""
    config = loads.config()
    plane = oracle.Plane(config, instant_of("2024-01-01T00:00:00Z"))
    parts = [loads.before(), *(list(load.plays(it)) for it in range(connections))]
    with running(named, config, 1) as servers:
        for number, part in enumerate(parts):
            told = [(it.name, it.ask([asked.bytes for asked in part])) for it in servers]
            if number < 2:
                told.append(("the model", [oracle.answers(plane, asked.bytes)[0] for asked in part]))
            for at, asked in enumerate(part):
                same(asked, [(name, answers[at]) for name, answers in told])


# ---- Times -------------------------------------------------------------------------------------------------


def machine():
    """Seconds that all processors were busy."""
    with open("/proc/stat") as file:
        user, nice, system, _, _, irq, soft, _ = map(int, file.readline().split()[1:9])
    return (user + nice + system + irq + soft) / TICKS


def round_of(server, loader, connections, seconds):
    """One round: requests/s, times in microseconds, processor time in microseconds a request, and how many processors others kept busy."""
    before = server.processor_time(), loader.processor_time(), machine(), time.monotonic()
    told = loader.told("run", connections, seconds)
    after = server.processor_time(), loader.processor_time(), machine(), time.monotonic()
    ran, own, busy, took = (b - a for a, b in zip(before, after))
    count = max(1, told["requests"])
    return {
        "rate": told["requests"] / told["seconds"],
        "p50": told["p50"] / 1e3,
        "p99": told["p99"] / 1e3,
        "processor": ran / count / 1e3,
        "others": max(0.0, (busy - own - ran / 1e9) / took),
        "moved": told["moved"],
        "changes": told["changes"],
    }


def quartiles(values):
    """The quartiles of some values, the median between them."""
    low, middle, high = statistics.quantiles(values, n=4, method="inclusive") if len(values) > 1 else [*values] * 3
    return low, middle, high


def ratio(ours, theirs, figure):
    """The median of the rounds' ratios and its quartiles, as a text."""
    low, middle, high = quartiles([a[figure] / b[figure] for a, b in zip(ours, theirs)])
    return f"{middle:.2f} [{low:.2f} to {high:.2f}]"


def row_of(name, connections, ours, theirs):
    """A row of the table, of the rounds of both servers."""
    medians = [[statistics.median(it[figure] for it in them) for them in (ours, theirs)] for figure in ("rate", "p99", "processor")]
    (rate, p99, ran), told = medians, [ratio(ours, theirs, it) for it in ("rate", "p50", "p99", "processor")]
    shown = f"{rate[0]:,.0f}, {rate[1]:,.0f}", f"{p99[0]:,.0f}, {p99[1]:,.0f} us", f"{ran[0]:.1f}, {ran[1]:.1f} us"
    cells = [f"{name}, {connections}", shown[0], told[0], told[1], shown[1], told[2], shown[2], told[3]]
    return "| " + " | ".join(cells) + " |"


HEAD = """| Load, connections | requests/s | ratio | p50, ratio | p99 | ratio | processor time a request | ratio |
|---|---|---|---|---|---|---|---|"""


def time_start(named, load, connections, args, turns):
    """The rounds of both servers, from one start of them. An odd first turn starts the second server first."""
    order = (0, 1) if turns.start % 2 == 0 else (1, 0)
    with running([named[it] for it in order], loads.config(), connections) as started:
        servers = [started[it] for it in order]
        for it in servers:
            it.ask([asked.bytes for asked in loads.before()])
        loaders = [Loader(it, load.records()) for it in servers]
        rounds = [[], []]
        try:
            for it in loaders:
                it.told("run", connections, 0.3)
            for turn in turns:
                for place in (0, 1) if turn % 2 == 0 else (1, 0):
                    rounds[place].append(round_of(servers[place], loaders[place], connections, args.seconds))
        finally:
            for it in loaders:
                it.stop()
    return rounds


def parts_of(count, parts):
    """The numbers from 0 on, so many, in so many parts of about one length."""
    ends = [count * it // parts for it in range(parts + 1)]
    return [range(start, end) for start, end in zip(ends, ends[1:]) if start < end]


def time_load(named, load, connections, args):
    """The rounds of both servers, which are started so often."""
    rounds = [[], []]
    for turns in parts_of(args.rounds, args.starts):
        for all_of_it, part in zip(rounds, time_start(named, load, connections, args, turns)):
            all_of_it += part
    return rounds


def tell_times(named, args):
    every, others = [], []
    print(f"afplane, then the plain server; medians of {args.rounds} rounds of {args.seconds:g} s, of {args.starts} starts; workers as many as connections.\n\n{HEAD}", flush=True)
    for load in [it for it in (loads.READERS, loads.CHANGES) if any(word in it.name for word in args.only.split(","))]:
        check(named, load, max(args.connections))
        for connections in args.connections:
            ours, theirs = time_load(named, load, connections, args)
            print(row_of(load.name, connections, ours, theirs), flush=True)
            every.append({"load": load.name, "connections": connections, "ours": ours, "theirs": theirs})
            others += [it["others"] for it in ours + theirs]
    if others:
        low, middle, high = quartiles(others)
        print(f"\nMeanwhile other processes kept {middle:.1f} [{low:.1f} to {high:.1f}] of {os.cpu_count()} processors busy; load {os.getloadavg()[0]:.1f}.")
    moved = sum(it["moved"] for rows in every for it in rows["ours"])
    made = sum(it["changes"] for rows in every for it in rows["ours"])
    if made:
        print(f"Of {made:,} changes of the policy {moved:,} were told first that the policy had moved, and were asked again.")
    if args.json:
        with open(args.json, "w") as file:
            json.dump(every, file, indent=1)


# ---- Instructions ------------------------------------------------------------------------------------------


def collected(text):
    """The number of instructions that callgrind tells."""
    found = re.search(rb"Collected : ([0-9]+)", text)
    if not found:
        fail(f"valgrind says {text[-600:].decode(errors='replace')}")
    return int(found[1])


def instructions(program, load, rounds):
    """What a server with one worker runs, from its start to the end of so many rounds of requests."""
    with tempfile.NamedTemporaryFile(suffix=".json") as config, tempfile.TemporaryFile() as errors:
        config.write(loads.config())
        config.flush()
        server = Server("", program, config.name, 1, ["valgrind", "--tool=callgrind", "--callgrind-out-file=/dev/null"], errors)
        try:
            server.ask([asked.bytes for asked in loads.before()])
            loader = Loader(server, load.records(1))
            loader.told("play", 1, rounds * loads.ROUND)
            loader.stop()
            server.process.terminate()
            server.process.wait()
            errors.seek(0)
            return collected(errors.read())
        finally:
            server.stop()


def tell_counts(named):
    print("Instructions by request over a socket, without the kernel's: one connection, one worker.\n")
    print("| Load | afplane | plain | ratio |\n|---|---|---|---|")
    for load in (loads.READERS, loads.CHANGES, loads.PAUSES, loads.POLICIES):
        ours, theirs = ((instructions(program, load, 6) - instructions(program, load, 1)) / (5 * loads.ROUND) for _, program in named)
        print(f"| {load.name} | {ours:,.0f} | {theirs:,.0f} | {ours / theirs:.2f} |", flush=True)


# ---- Memory ------------------------------------------------------------------------------------------------


def grown(server, loader, connections, count):
    """Bytes by which the resident size grew in so many requests, and how many versions and entries were made."""
    before, (versions, entries) = server.resident(), server.seen()
    loader.told("play", connections, count // connections)
    after, (versions_after, entries_after) = server.resident(), server.seen()
    return after - before, versions_after - versions, entries_after - entries


def each(total, count):
    """Bytes of each; none where there are none."""
    return f"{total / count:,.1f}" if count else "-"


def tell_growth(named, args):
    print(f"Growth of the resident size in {args.requests:,} requests on {args.memory_connections} connections, after a tenth as many.\n")
    print("| Server, load | bytes | versions | entries | bytes by version | by entry | by request |\n|---|---|---|---|---|---|---|")
    for name, program in named:
        for load in (loads.READERS, loads.PAUSES, loads.POLICIES, loads.CHANGES):
            with running([(name, program)], loads.config(), args.memory_connections) as (server,):
                server.ask([asked.bytes for asked in loads.before()])
                loader = Loader(server, load.records())
                try:
                    loader.told("play", args.memory_connections, args.requests // 10 // args.memory_connections)
                    size, versions, entries = grown(server, loader, args.memory_connections, args.requests)
                finally:
                    loader.stop()
            by = [each(size, versions) if not entries else "-", each(size, entries) if not versions else "-", each(size, args.requests)]
            print(f"| {name}, {load.name} | {size:,} | {versions:,} | {entries:,} | {' | '.join(by)} |", flush=True)


def resident_of(name, program, config, asked=None, connections=4):
    """The resident size once a server of this configuration has started, and once it has answered these requests."""
    with running([(name, program)], config, connections) as (server,):
        server.seen()
        before = server.resident()
        if asked is None:
            return before, before
        loader = Loader(server, b"".join(it.record(n % connections) for n, it in enumerate(asked)))
        try:
            loader.told("play", connections, len(asked) // connections)
        finally:
            loader.stop()
        return before, server.resident()


def tell_rows(named, args):
    print("\nResident size by row: of servers that start with more or fewer rows, or that are asked for rows.\n")
    print("| Row | from, to | " + " | ".join(it[0] for it in named) + " |\n|---|---|" + "---|" * len(named))

    def row(text, least, most, bytes_of):
        print(f"| {text} | {least:,}, {most:,} | {' | '.join(each(bytes_of(it), most - least) for it in named)} |", flush=True)

    def started(least, most):
        def bytes_of(it):
            return resident_of(*it, most)[0] - resident_of(*it, least)[0]
        return bytes_of

    def asked(rows, **more):
        def bytes_of(it):
            before, after = resident_of(*it, loads.config(**more), rows)
            return after - before
        return bytes_of

    for tasks in (1, 5, 20):
        few, many = (loads.config(dags=it, tasks=tasks) for it in (112, 1_024))
        row(f"a DAG of {tasks} tasks" if tasks > 1 else "a DAG of a task", 112, 1_024, started(few, many))
    row("a user", 1_000, 65_536, started(loads.config(users=1_000), loads.config(users=65_536)))
    for tasks in (1, 5):
        made = [loads.trigger(n, n % loads.WITH_RUNS) for n in range(args.runs)]
        row(f"a run of {tasks} tasks, with its entry" if tasks > 1 else "a run of a task, with its entry", 0, args.runs, asked(made, tasks=tasks))


# ---- The program -------------------------------------------------------------------------------------------


def arguments():
    options = argparse.ArgumentParser(description=__doc__, formatter_class=argparse.RawDescriptionHelpFormatter)
    options.add_argument("--program", default=PROGRAM, help="in place of the built program")
    options.add_argument("--plain", action="store_true", help="the plain server in afplane's place")
    options.add_argument("--under-lock", action="store_true", help="the plain server makes its texts under the lock, as a simpler one does")
    options.add_argument("--keep-versions", action="store_true", help="the plain server keeps all versions of the policy, as afplane does")
    options.add_argument("--connections", default="1,4,16", help="1 to 16 each; 1,4,16")
    options.add_argument("--rounds", type=int, default=None, help="63, or 9 with --quick")
    options.add_argument("--starts", type=int, default=None, help="how often the servers are started for these rounds; 9, or 3 with --quick")
    options.add_argument("--seconds", type=float, default=0.2, help="of a round, under one; 0.2")
    options.add_argument("--quick", action="store_true")
    options.add_argument("--only", default="", metavar="WORDS", help="the loads with one of these words in their names")
    options.add_argument("--json", help="where to write every round")
    options.add_argument("--count", action="store_true", help="instructions, by valgrind, in place of times")
    options.add_argument("--memory", action="store_true", help="resident memory in place of times")
    options.add_argument("--requests", type=int, default=1_000_000, help="how many requests the growth is of; 1,000,000")
    options.add_argument("--memory-connections", type=int, default=4, help="4")
    options.add_argument("--runs", type=int, default=100_000, help="how many runs are made; 100,000")
    args = options.parse_args()
    args.connections = [int(it) for it in args.connections.split(",")]
    args.rounds = args.rounds or (9 if args.quick else 63)
    args.starts = args.starts or (3 if args.quick else 9)
    if not all(1 <= it <= loads.CONNECTIONS for it in args.connections) or not 0 < args.seconds < 1:
        fail("connections are 1 to 16, and a round takes less than a second")
    if not 1 <= args.starts <= args.rounds:
        fail("the servers are started at least once, and no more often than there are rounds")
    return args


def main():
    args = arguments()
    program = BASELINE if args.plain else os.path.realpath(args.program)
    chosen = [name for name in ("under_lock", "keep_versions") if getattr(args, name)]
    build_plain("serve_baseline", *(word for name in chosen for word in ("--cfg", name)))
    build_plain("serve_load")
    if not os.access(program, os.X_OK):
        fail(f"{program} is not there or can't be run: build afplane first, by ./afplane build")
    named = [("afplane", program), ("plain", BASELINE)]
    if args.count:
        tell_counts(named)
    elif args.memory:
        tell_growth(named, args)
        tell_rows(named, args)
    else:
        tell_times(named, args)


if __name__ == "__main__":
    main()
