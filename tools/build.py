#!/usr/bin/env python3
"""Proves and builds the program, crate by crate: the part of `./afplane build` that plans and runs `rt`.

    tools/build.py              build what is not built
    tools/build.py --plan       print how long a build from nothing is expected to take here, and its schedule
    tools/build.py --seconds    print the processor seconds of the last build of each crate, in the form of the table below
    tools/build.py --checks     print how many checks the gate is to run at a time here

A crate is started once all crates below it are built: the one with the longest chain of work above it first, and a second beside it if processors and
memory allow. More than two starve each other. `rt` keeps others out of the folders of all crates below the one that it builds, so the second crate is built
in out/beside, a copy of the sources with links to the libraries that are built; its own out/ moves there and back.

It says when a crate starts, how far the build is, and how many minutes are to go: the schedule that is left, simulated with the table below at the speed
seen so far. What `rt` says is in out/afplane-build/CRATE.log. What an interrupted build has proved is kept, so the next call continues.
Status: 0 built, 70 a crate is not proved or not built, 130 and 143 ended by SIGINT and SIGTERM.
"""
import fcntl
import hashlib
import json
import os
import pathlib
import re
import shutil
import signal
import subprocess
import sys
import time

TOP = pathlib.Path(__file__).resolve().parents[1]
PROGRAM = "afplane"
PARTS = ("src", "specs", "proofs")

# Processor seconds (user and system) of a crate's build, measured on 2026-11-30 on four virtual processors that other work kept busy; of af_http
# they are estimated. On a faster machine the estimate falls as crates are built. The last lines of each CRATE.log give the seconds of that build.
SECONDS = {
    "af_names": 139, "af_base": 195, "af_role": 421, "af_policy": 1679, "af_mask": 69, "af_prefixes": 17, "af_word": 58, "af_board": 245, "af_tally": 67,
    "af_listing": 86, "af_graph": 292, "af_runs": 592, "af_pool": 169, "af_vars": 101, "af_sched": 813, "af_ops": 2570, "af_blind": 28, "af_audit": 670,
    "af_world": 724, "af_plane": 1620, "af_http": 530, "af_trace": 684, "af_server": 2445, "afplane": 1153,
}  # fmt: skip
USUAL_SECONDS = 100
# Gigabytes that a crate's check takes with one job. Each further job takes one more.
GIGABYTES = {"af_ops": 5, "af_server": 4, "afplane": 4}
USUAL_GIGABYTES = 3
# Gigabytes that are left to other programs.
SPARE = 1
# The share of a crate's seconds in which one thread works alone, whatever the number of jobs.
ALONE = 0.2
MOST_JOBS, SIDE_BY_SIDE = 8, 2
# Seconds of the table that the first estimate counts as, beside those of the crates that were built.
TRUST = 600


def say(text):
    print(f"afplane: {text}", file=sys.stderr, flush=True)


def crates_in(text):
    """Of the program and each library that it stands on, the lowest first, the crates right below it, by the text of crates.txt."""
    rows = re.findall(r"(?m)^(\w+)[^:#\n]*:([^#\n]*)", text)
    below = {name: [it for it in words.split() if it in dict(rows)] for name, words in rows}
    wanted = [PROGRAM]
    for it in wanted:
        wanted += [dep for dep in below[it] if dep not in wanted]
    return {name: below[name] for name, _ in rows if name in wanted}


def all_below(crates, name):
    """All crates below this one."""
    return set(crates[name]).union(*(all_below(crates, it) for it in crates[name]))


def chains_of(crates, seconds):
    """Of each crate the seconds of the longest chain of crates that begins with it and goes up."""
    found = {}
    for name in reversed(list(crates)):
        found[name] = seconds[name] + max((found[it] for it in found if name in crates[it]), default=0)
    return found


def processors_here():
    return len(os.sched_getaffinity(0))


def free_here():
    """Gigabytes of memory that are free, under the limit of the control group too."""
    found = [number_in("/proc/meminfo", r"MemAvailable:\s+(\d+)", 1024)]
    limit = number_in("/sys/fs/cgroup/memory.max", r"(\d+)")
    if limit is not None:
        found.append(limit - (number_in("/sys/fs/cgroup/memory.stat", r"anon (\d+)") or 0))
    return min((it for it in found if it is not None), default=0) / 1e9


def number_in(path, pattern, unit=1):
    try:
        at = re.search(pattern, pathlib.Path(path).read_text(encoding="utf-8"))
    except OSError:
        return None
    return int(at[1]) * unit if at else None


def checks_at_once(processors, free):
    """How many checks the gate runs at a time, with one job each: at most one a processor; two from 6 GB on, else 6 GB each, as the largest takes."""
    return min(processors, max(1 if free < 6 else 2, int(free) // 6))


def gigabytes_of(crate, jobs):
    return GIGABYTES.get(crate, USUAL_GIGABYTES) + jobs - 1


def used_by(jobs):
    """How many processors a check with so many jobs uses on average."""
    return 1 / (ALONE + (1 - ALONE) / jobs)


def rates_of(running, processors):
    """Of each running crate, given with its jobs, how many of its seconds pass in one second."""
    used = {crate: used_by(jobs) for crate, jobs in running.items()}
    share = min(1, processors / max(sum(used.values()), 1))
    return {crate: it * share for crate, it in used.items()}


def next_crate(ready, running, chains, processors, room):
    """The crate to start now and its jobs, or none. `running` has the jobs of each running crate, `room` is the memory that these leave, in gigabytes."""
    if len(running) >= min(SIDE_BY_SIDE, processors):
        return None
    most, used = min(MOST_JOBS, processors), sum(map(used_by, running.values()))
    for crate in sorted(ready, key=lambda it: -chains[it]):
        if running:
            # what the other one leaves, or half of the processors: each has times in which one thread works alone
            least = min(most, 2) if all(chains[crate] > chains[it] for it in running) else 1
            jobs = max([least, min(most, processors // 2), *(it for it in range(1, most + 1) if used + used_by(it) <= processors)])
        else:
            jobs = most if len(ready) == 1 else max(min(most, 2), most - 1)
        while jobs > 1 and gigabytes_of(crate, jobs) > room:
            jobs -= 1
        if not running or gigabytes_of(crate, jobs) <= room:
            return crate, jobs
    return None


def schedule_of(crates, seconds, processors, memory, running=None, built=()):
    """When each crate starts, with how many jobs, and when all is built, if a crate takes these seconds. `running` has jobs and seconds left of what runs."""
    chains, clock, starts = chains_of(crates, seconds), 0, []
    running, built = {it: list(of) for it, of in (running or {}).items()}, set(built)
    waiting = [it for it in crates if it not in built and it not in running]
    while waiting or running:
        while True:
            ready = [it for it in waiting if built.issuperset(crates[it])]
            room = memory - sum(gigabytes_of(it, jobs) for it, (jobs, _) in running.items())
            found = next_crate(ready, {it: jobs for it, (jobs, _) in running.items()}, chains, processors, room)
            if not found:
                break
            starts.append((clock, *found))
            waiting.remove(found[0])
            running[found[0]] = [found[1], seconds[found[0]]]
        rates = rates_of({it: jobs for it, (jobs, _) in running.items()}, processors)
        step = min(left / rates[it] for it, (_, left) in running.items())
        clock += step
        for it in running:
            running[it][1] -= rates[it] * step
        for it in [it for it, (_, left) in running.items() if left < 1e-6]:
            del running[it]
            built.add(it)
    return starts, clock


class Beside:
    """out/beside, where the second crate is built. A crate's out/ that is there is brought back by whoever builds next."""

    def __init__(self, top, crates):
        self.top, self.crates, self.room, self.held = top, crates, top / "out/beside", {}
        self.close()

    def take(self, crate):
        """The folder in which the crate is built there, or none if something works in the crate's own."""
        own = os.open(self.top / "crates" / crate, os.O_RDONLY)
        try:
            fcntl.flock(own, fcntl.LOCK_EX | fcntl.LOCK_NB)
        except BlockingIOError:
            os.close(own)
            return None
        self.held[crate] = own
        for it in [*all_below(self.crates, crate), crate]:
            for part in PARTS:
                if (self.top / "crates" / it / part).is_dir() and not (self.room / "crates" / it / part).exists():
                    shutil.copytree(self.top / "crates" / it / part, self.room / "crates" / it / part)
            library, linked = self.top / "crates" / it / "out/rlib", self.room / "crates" / it / "out/rlib"
            if it != crate and library.is_dir() and not linked.exists():
                shutil.copytree(library, linked, copy_function=link_or_copy)
        if (self.top / "HANDLES").is_file():
            shutil.copy(self.top / "HANDLES", self.room / "HANDLES")
        # the list of crates may name none that is not there
        lines = (self.top / "crates.txt").read_text(encoding="utf-8").splitlines()
        (self.room / "crates.txt").write_text("".join(f"{it}\n" for it in lines if (self.room / "crates" / (it.split() or ["#"])[0].rstrip(":")).is_dir()))
        own, there = self.top / "crates" / crate / "out", self.room / "crates" / crate / "out"
        if own.is_dir():
            shutil.rmtree(there, ignore_errors=True)
            os.rename(own, there)
        return there.parent

    def leave(self, crate):
        own, there = self.top / "crates" / crate / "out", self.room / "crates" / crate / "out"
        if there.is_dir() and not own.exists():
            os.rename(there, own)
        if crate in self.held:
            os.close(self.held.pop(crate))

    def close(self):
        for it in self.crates:
            self.leave(it)
        shutil.rmtree(self.room, ignore_errors=True)


def link_or_copy(one, other):
    try:
        os.link(one, other)
    except OSError:
        shutil.copy2(one, other)


class Build:
    """A build that is under way."""

    def __init__(self, top):
        self.top, self.logs = top, top / "out/afplane-build"
        self.crates = crates_in((top / "crates.txt").read_text(encoding="utf-8"))
        self.seconds = {it: SECONDS.get(it, USUAL_SECONDS) for it in self.crates}
        self.sums, self.built, self.running, self.began = {}, set(), {}, time.time()
        self.spent, self.known = TRUST, TRUST
        self.memory = free_here() - SPARE
        self.beside = Beside(top, self.crates)
        for it in self.crates:
            if self.is_kept(it):
                self.seconds[it] = 1
        self.chains = chains_of(self.crates, self.seconds)

    def sum_of(self, crate):
        """A sum of all that the crate is made from."""
        if crate not in self.sums:
            found = hashlib.sha256(" ".join(map(self.sum_of, self.crates[crate])).encode())
            for part in PARTS:
                for path in sorted((self.top / "crates" / crate / part).rglob("*")):
                    if path.is_file():
                        found.update(f"{path.relative_to(self.top)} {hashlib.sha256(path.read_bytes()).hexdigest()}\n".encode())
            self.sums[crate] = found.hexdigest()
        return self.sums[crate]

    def is_kept(self, crate):
        """Whether an earlier build built this text of the crate, and its library is still there: then it takes a second or so."""
        record = self.logs / f"{crate}.sum"
        return record.is_file() and record.read_text() == self.sum_of(crate) and (self.top / "crates" / crate / "out/rlib").is_dir()

    def speed(self):
        """How long what was built has taken, over what it was expected to take."""
        return self.spent / self.known

    def minutes_to_go(self):
        left = {it: [one.jobs, max(self.seconds[it] - one.passed / self.speed(), self.seconds[it] / 20)] for it, one in self.running.items()}
        _, seconds = schedule_of(self.crates, self.seconds, processors_here(), self.memory, left, self.built)
        return minutes(seconds * self.speed())

    def room(self):
        """Gigabytes that the running crates leave: what was free when they started, less what they may take; and no more than is free now."""
        free = free_here()
        return min([free, *(one.free - gigabytes_of(it, one.jobs) for it, one in self.running.items())]) - SPARE

    def start(self, crate, jobs):
        """Starts a crate, in place if nothing else is built there. It says whether it could."""
        folder, is_beside = self.top / "crates" / crate, any(not one.is_beside for one in self.running.values())
        had = (folder / "out/incremental").is_dir()
        if is_beside:
            folder = self.beside.take(crate)
            if not folder:
                return False
        words = ["rt", "run" if crate == PROGRAM else "lib", "--jobs", str(jobs)]
        if crate == PROGRAM:
            # `rt run` runs what it has built: with no input, once answers nothing and ends with status 0
            words += ["--", "once", str(self.top / "examples/base.json"), "2024-01-01T00:00:00Z"]
        self.running[crate] = Running(crate, jobs, words, folder, self.logs / f"{crate}.log", is_beside, had)
        number, passed = len(self.built) + len(self.running), minutes(time.time() - self.began)
        say(f"{number} of {len(self.crates)}: {crate} ({passed} min so far, about {self.minutes_to_go()} min to go)")
        return True

    def start_all(self):
        """Starts what can be started now."""
        refused = set()
        while True:
            ready = [it for it, below in self.crates.items() if not ({it} & (self.built | self.running.keys() | refused)) and self.built.issuperset(below)]
            found = next_crate(ready, {it: one.jobs for it, one in self.running.items()}, self.chains, processors_here(), self.room())
            if not found:
                return
            if not self.start(*found):
                refused.add(found[0])

    def wait(self):
        """Waits until a crate ends, and says which ended with a fault, if any."""
        while True:
            before = time.time()
            time.sleep(0.1)
            rates = rates_of({it: one.jobs for it, one in self.running.items()}, processors_here())
            for it, one in self.running.items():
                one.passed += rates[it] * (time.time() - before)
            ended = [it for it, one in self.running.items() if one.has_ended()]
            if ended:
                return [it for it in ended if not self.end(it)]

    def end(self, crate):
        """Takes in that a crate has ended, and says whether it is built."""
        one = self.running.pop(crate)
        one.note()
        if one.is_beside:
            self.beside.leave(crate)
        if one.status:
            return False
        self.built.add(crate)
        (self.logs / f"{crate}.sum").write_text(self.sum_of(crate))
        # a crate whose work was kept says nothing of the speed
        if not one.had_work and one.passed * 4 > self.seconds[crate]:
            self.spent, self.known = self.spent + one.passed, self.known + self.seconds[crate]
        return True

    def stop(self):
        """Ends what runs, and leaves each crate's work where it belongs."""
        for one in self.running.values():
            one.stop()
        self.beside.close()

    def run(self):
        say(f"proving and building the program, {len(self.crates)} crates (logs: {self.logs})")
        while len(self.built) < len(self.crates):
            self.start_all()
            for crate in self.wait():
                log = self.logs / f"{crate}.log"
                sys.stderr.write("".join(log.read_text(errors="replace").splitlines(True)[-15:]))
                say(f"{crate} is not proved or not built; the whole report is in {log}")
                say(f"what was proved is kept: the same call continues from {crate}, also if memory ran out beside other work")
                return 70
        return 0


class Running:
    """A crate that is being built: its process, its jobs, what was free when it started, and how many seconds of the table have passed for it."""

    def __init__(self, crate, jobs, words, folder, log, is_beside, had_work):
        self.crate, self.jobs, self.is_beside, self.had_work = crate, jobs, is_beside, had_work
        self.free, self.began, self.passed, self.status, self.used = free_here(), time.time(), 0, None, 0
        self.log = log
        with open(log, "wb") as file:
            self.process = subprocess.Popen(words, cwd=folder, stdin=subprocess.DEVNULL, stdout=file, stderr=subprocess.STDOUT)

    def has_ended(self):
        if self.status is None:
            pid, status, usage = os.wait4(self.process.pid, os.WNOHANG)
            if pid:
                self.process.returncode = self.status = -status if os.WIFSIGNALED(status) else os.WEXITSTATUS(status)
                self.used = usage.ru_utime + usage.ru_stime
        return self.status is not None

    def note(self):
        """Adds to the log what the crate took."""
        with open(self.log, "a", encoding="utf-8") as file:
            beside = ", beside another crate" if self.is_beside else ""
            took = f"{time.time() - self.began:.0f} s, {self.used:.0f} processor seconds"
            print(f"afplane: {self.crate}: status {self.status}, {took}, {self.jobs} jobs{beside}", file=file)

    def stop(self):
        if not self.has_ended():
            self.process.terminate()
            self.process.wait()


def minutes(seconds):
    return int((seconds + 59) // 60)


def ended_by(number, _):
    sys.exit(128 + number)


def build(top):
    for it in (signal.SIGINT, signal.SIGTERM, signal.SIGHUP):
        signal.signal(it, ended_by)
    (top / "out/afplane-build").mkdir(parents=True, exist_ok=True)
    # one build at a time
    with open(top / "out/afplane-build/lock", "w") as lock:
        try:
            fcntl.flock(lock, fcntl.LOCK_EX | fcntl.LOCK_NB)
        except BlockingIOError:
            say("waiting for another build of this clone to end")
            fcntl.flock(lock, fcntl.LOCK_EX)
        for it in (top / "out").glob("afplane-built.*"):
            it.unlink()
        # the time of this file says what has changed since the build began
        begun = top / f"out/afplane-built.{os.getpid()}"
        begun.touch()
        it = Build(top)
        try:
            status = it.run()
            if not status:
                begun.replace(top / "out/afplane-built")
                say(f"proved and built: {top}/crates/{PROGRAM}/out/{PROGRAM}")
            return status
        except OSError as why:
            say(f"the build cannot go on: {why}")
            return 70
        finally:
            for number in (signal.SIGINT, signal.SIGTERM, signal.SIGHUP):
                signal.signal(number, signal.SIG_IGN)
            it.stop()
            if begun.exists():
                begun.unlink()


def plan(top):
    crates = crates_in((top / "crates.txt").read_text(encoding="utf-8"))
    starts, clock = schedule_of(crates, {it: SECONDS.get(it, USUAL_SECONDS) for it in crates}, processors_here(), free_here() - SPARE)
    for at, crate, jobs in starts:
        print(f"{at / 60:6.1f} min  {crate}, {jobs} jobs")
    print(f"{clock / 60:6.1f} min  built")


def seconds_of(top):
    """The processor seconds of the last build of each crate, by the crate's log."""
    found = {}
    for crate in crates_in((top / "crates.txt").read_text(encoding="utf-8")):
        log = top / f"out/afplane-build/{crate}.log"
        text = log.read_text(errors="replace") if log.is_file() else ""
        at = re.search(rf"afplane: {crate}: status 0, \d+ s, (\d+) processor seconds, .*\n\Z", text)
        found.update({crate: int(at[1])} if at else {})
    return found


def main(words):
    if words == ["--plan"]:
        return plan(TOP)
    if words == ["--seconds"]:
        return print(json.dumps(seconds_of(TOP)))
    if words == ["--checks"]:
        return print(checks_at_once(processors_here(), free_here()))
    if words:
        print(__doc__.strip(), file=sys.stderr)
        return 2
    return build(TOP)


if __name__ == "__main__":
    sys.exit(main(sys.argv[1:]))
