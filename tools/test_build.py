#!/usr/bin/env python3
"""Tests of build.py: its schedule, and whole builds by a fake `rt` that holds the locks of the real one.

    python3 tools/test_build.py
"""
import fcntl
import os
import pathlib
import re
import shutil
import signal
import subprocess
import sys
import tempfile
import time
import unittest
from unittest import mock

sys.dont_write_bytecode = True
HERE = pathlib.Path(__file__).resolve().parent
TOP = HERE.parent
sys.path.insert(0, str(HERE))
import build  # noqa: E402

CRATES = build.crates_in((TOP / "crates.txt").read_text(encoding="utf-8"))
SECONDS = {it: build.SECONDS.get(it, build.USUAL_SECONDS) for it in CRATES}
# The crates of the fake repository that is built whole.
LIST = """# a list
af_names:
af_base: af_names json
af_role: af_base af_names
af_graph: af_base af_names
af_policy may_wait=1: af_role
af_ops: af_policy af_graph af_names
af_ops_tests tests_may=Threads: af_ops
afplane may_wait=1: af_ops json
"""
FEW = build.crates_in(LIST)

# As rt: it keeps others out of the crate's folder and of all below it, and needs the libraries below. It notes when it begins and ends, and with which jobs.
RT = r"""
import fcntl, os, pathlib, re, sys, time
room, here = pathlib.Path(os.environ["ROOM"]), pathlib.Path.cwd()
rows = dict(re.findall(r"(?m)^(\w+)[^:\n]*:(.*)$", (here.parents[1] / "crates.txt").read_text()))
for name in rows:
    assert (here.parent / name / "src").is_dir(), f"{name} is not there"
def below(name):
    found = [it for it in rows[name].split() if it in rows]
    return set(found).union(*map(below, found))
def note(text):
    with open(room / "calls", "a") as file:
        file.write(f"{here.name} {text}\n")
def ends(text):
    note(text)
    sys.exit(1)
for it in sorted(below(here.name) | {here.name}):
    lock = os.open(here.parent / it, os.O_RDONLY)
    try:
        fcntl.flock(lock, fcntl.LOCK_EX | fcntl.LOCK_NB)
    except BlockingIOError:
        ends(f"waits for {it}")
for it in below(here.name):
    stamp = here.parent / it / "out/rlib/stamp"
    if not stamp.is_file() or stamp.read_text() != (here.parent / it / "src/lib.rt").read_text():
        ends(f"has no library {it}")
kept = here / "out/incremental/module"
note(f"begins {sys.argv[1]} {sys.argv[3]} {'beside' if here.parents[1].name == 'beside' else 'in place'} {'again' if kept.exists() else 'anew'}")
print("some words of rt")
kept.parent.mkdir(parents=True, exist_ok=True)
kept.write_text("x")
while (room / "holds").exists() and here.name in (room / "holds").read_text().split():
    time.sleep(0.05)
if (room / "fails").exists() and here.name in (room / "fails").read_text().split():
    print("goal 7 is open")
    ends("fails")
(here / "out/rlib").mkdir(exist_ok=True)
(here / "out/rlib/stamp").write_text((here / "src/lib.rt").read_text())
(here / "out/afplane").write_text("built")
note("ends")
"""
CALL = """
import sys; sys.path.insert(0, {tools!r}); import build, pathlib
build.processors_here = lambda: {processors}
build.free_here = lambda: {free}
sys.exit(build.build(pathlib.Path({top!r})))
"""


def schedule(processors, free, **seconds):
    return build.schedule_of(CRATES, {**SECONDS, **seconds}, processors, free)


class Plans(unittest.TestCase):
    """The schedule, without a build."""

    def test_what_is_built(self):
        text = "# a list\nlow:\nlow_tests: low\nhigh may_wait=3: low json # more\nother: low\nafplane: high json\n"
        self.assertEqual(build.crates_in(text), {"low": [], "high": ["low"], "afplane": ["high"]})
        self.assertEqual(build.all_below(build.crates_in(text), "afplane"), {"low", "high"})
        self.assertEqual(build.chains_of(build.crates_in(text), {"low": 1, "high": 20, "afplane": 300}), {"low": 321, "high": 320, "afplane": 300})

    def test_every_crate_of_the_table_is_built(self):
        self.assertEqual(set(build.SECONDS), set(CRATES), "SECONDS of tools/build.py and crates.txt name other crates")
        self.assertLessEqual(set(build.GIGABYTES), set(CRATES))

    def test_order_memory_and_jobs(self):
        for processors, free in ((1, 7), (2, 3), (2, 7), (2, 14), (4, 7), (4, 10), (4, 22), (8, 30), (64, 200)):
            with self.subTest(processors=processors, free=free):
                starts, clock = schedule(processors, free)
                self.assertEqual(sorted(it for _, it, _ in starts), sorted(CRATES))
                # when each ends is found by the schedule of a build that has only what was started before
                begun = {it: at for at, it, _ in starts}
                for at, it, jobs in starts:
                    self.assertIn(jobs, range(1, min(8, processors) + 1))
                    self.assertTrue(jobs == 1 or build.gigabytes_of(it, jobs) <= free, it)
                    for low in CRATES[it]:
                        self.assertGreater(at, begun[low])
                work = sum(SECONDS.values())
                self.assertGreaterEqual(clock * processors, work * 0.999, "more than the processors can do")
                self.assertLessEqual(clock, work * 1.001)

    def test_at_most_two_that_fit(self):
        chains = {"af_ops": 9, "af_names": 5, "af_base": 4}
        ready = list(chains)
        self.assertEqual(build.next_crate(ready, {}, chains, 4, 20), ("af_ops", 3))
        self.assertEqual(build.next_crate(["af_ops"], {}, chains, 4, 20), ("af_ops", 4))
        self.assertEqual(build.next_crate(["af_ops"], {}, chains, 16, 100), ("af_ops", 8))
        self.assertEqual(build.next_crate(ready, {}, chains, 1, 20), ("af_ops", 1))
        self.assertEqual(build.next_crate(["af_names"], {"af_ops": 3}, chains, 4, 20), ("af_names", 2))
        # the longer chain gets more, whoever was first
        self.assertEqual(build.next_crate(["af_ops"], {"af_names": 2}, chains, 4, 20), ("af_ops", 3))
        self.assertEqual(build.next_crate(["af_ops"], {"af_names": 1}, chains, 2, 20), ("af_ops", 2))
        self.assertIsNone(build.next_crate(["af_base"], {"af_ops": 1, "af_names": 1}, chains, 64, 200))
        self.assertIsNone(build.next_crate(["af_base"], {"af_ops": 1}, chains, 1, 20))
        self.assertIsNone(build.next_crate([], {}, chains, 4, 20))
        # memory: af_ops takes 5 GB and one for each further job, the others 3
        self.assertEqual(build.next_crate(ready, {}, chains, 4, 6.5), ("af_ops", 2))
        self.assertEqual(build.next_crate(ready, {}, chains, 4, 1), ("af_ops", 1), "one is built, whatever there is")
        self.assertEqual(build.next_crate(["af_ops", "af_base"], {"af_names": 2}, chains, 4, 4.9), ("af_base", 2))
        self.assertIsNone(build.next_crate(["af_ops", "af_base"], {"af_names": 2}, chains, 4, 2.9))

    def test_how_long_it_takes(self):
        chain = {"a": [], "b": ["a"], "afplane": ["b"]}
        # alone on four processors with four jobs a crate uses 2.5 of them
        starts, clock = build.schedule_of(chain, {"a": 100, "b": 50, "afplane": 100}, 4, 20)
        self.assertEqual([(round(at), it, jobs) for at, it, jobs in starts], [(0, "a", 4), (40, "b", 4), (60, "afplane", 4)])
        self.assertAlmostEqual(clock, 100)
        self.assertAlmostEqual(build.schedule_of(chain, {"a": 100, "b": 50, "afplane": 100}, 1, 20)[1], 250)
        # what runs has a part left, and what is built none
        _, clock = build.schedule_of(chain, {"a": 100, "b": 50, "afplane": 100}, 4, 20, {"b": [4, 25]}, ["a"])
        self.assertAlmostEqual(clock, 50)
        # two side by side: three jobs use 2.14 processors, two 1.67
        wide = {"a": [], "b": [], "afplane": ["a", "b"]}
        starts, clock = build.schedule_of(wide, {"a": 150, "b": 100, "afplane": 10}, 4, 20)
        self.assertEqual([(at, it, jobs) for at, it, jobs in starts[:2]], [(0, "a", 3), (0, "b", 2)])
        self.assertAlmostEqual(clock, 150 * (0.2 + 0.8 / 3) + 10 * 0.4)
        # two that want more than there is share it
        self.assertEqual(sum(build.rates_of({"a": 2, "b": 2}, 2).values()), 2)

    def test_side_by_side_pays(self):
        self.assertLess(schedule(4, 16)[1], 0.95 * sum(SECONDS.values()) / build.used_by(4))

    def test_checks_of_the_gate(self):
        rows = [(1, 30, 1), (2, 30, 2), (2, 14, 2), (2, 6, 2), (2, 5.9, 1), (2, 1, 1), (1, 1, 1), (4, 17.9, 2), (4, 23, 3), (4, 30, 4), (16, 96, 16), (16, 30, 5)]
        for processors, free, checks in rows:
            self.assertEqual(build.checks_at_once(processors, free), checks, (processors, free))
        ran = subprocess.run([sys.executable, str(HERE / "build.py"), "--checks"], stdout=subprocess.PIPE, universal_newlines=True)
        self.assertIn(int(ran.stdout), range(1, len(os.sched_getaffinity(0)) + 1))

    def test_this_machine(self):
        self.assertEqual(build.processors_here(), len(os.sched_getaffinity(0)))
        free = int(re.search(r"MemAvailable: +(\d+)", pathlib.Path("/proc/meminfo").read_text())[1]) / 1e6
        self.assertGreater(build.free_here(), 0)
        self.assertLess(build.free_here(), 2 * free)
        ran = subprocess.run([sys.executable, str(HERE / "build.py"), "--plan"], stdout=subprocess.PIPE, universal_newlines=True)
        self.assertEqual(len(ran.stdout.splitlines()), len(CRATES) + 1)


class Case(unittest.TestCase):
    def setUp(self):
        kept = tempfile.TemporaryDirectory(prefix="a b-")
        self.addCleanup(kept.cleanup)
        self.room = pathlib.Path(kept.name)
        self.top = self.room / "top"
        (self.room / "bin").mkdir()
        (self.room / "bin/rt").write_text(f"#!{sys.executable}{RT}")
        (self.room / "bin/rt").chmod(0o755)
        for it in [*FEW, "af_ops_tests"]:
            (self.top / "crates" / it / "src").mkdir(parents=True)
            (self.top / "crates" / it / "src/lib.rt").write_text(f"of {it}")
        (self.top / "crates.txt").write_text(LIST)
        (self.top / "HANDLES").write_text("none")

    def begun(self, processors=4, free=16.0):
        words = [sys.executable, "-c", CALL.format(tools=str(HERE), top=str(self.top), processors=processors, free=free)]
        env = {**os.environ, "ROOM": str(self.room), "PATH": f"{self.room}/bin:{os.environ['PATH']}"}
        ran = subprocess.Popen(words, stdin=subprocess.DEVNULL, stdout=subprocess.PIPE, stderr=subprocess.PIPE, universal_newlines=True, env=env)
        self.addCleanup(ran.stdout.close)
        self.addCleanup(ran.stderr.close)
        self.addCleanup(ran.kill)
        return ran

    def ended(self, ran):
        """Exit status and standard error. Nothing is left but what a build leaves."""
        out, err = ran.communicate(timeout=60)
        self.assertEqual(out, "")
        self.assertFalse((self.top / "out/beside").exists())
        self.assertEqual([it.name for it in (self.top / "out").glob("afplane-built.*")], [])
        return ran.returncode, err

    def calls(self):
        path = self.room / "calls"
        return [it.split(" ", 1) for it in path.read_text().splitlines()] if path.exists() else []

    def wait_for(self, *line):
        for _ in range(200):
            if list(line) in [[it, text[: len(line[-1])]] for it, text in self.calls()]:
                return
            time.sleep(0.05)
        self.fail(f"it has not come to {line}: {self.calls()}")

    def wait_for_work(self, crate):
        """Waits until the crate has kept some work, in place or beside."""
        for _ in range(200):
            if any((top / "crates" / crate / "out/incremental/module").exists() for top in (self.top, self.top / "out/beside")):
                return
            time.sleep(0.05)
        self.fail(f"{crate} has kept no work: {self.calls()}")

    def hold(self, *crates):
        (self.room / "holds").write_text(" ".join(crates))


class Whole(Case):
    def test_a_build(self):
        self.hold("af_role", "af_graph")
        ran = self.begun()
        for it in ("af_role", "af_graph"):
            self.wait_for(it, "begins")
        self.hold()
        status, err = self.ended(ran)
        self.assertEqual(status, 0, err)
        running, most, places = set(), 0, set()
        for name, text in self.calls():
            word, *more = text.split()
            self.assertIn(word, ("begins", "ends"), f"{name} {text}")
            if word == "begins":
                self.assertEqual(more[0], "run" if name == "afplane" else "lib")
                running.add(name)
                places.add(" ".join(more[2:-1]))
            else:
                running.remove(name)
            most = max(most, len(running))
        self.assertEqual((most, places), (2, {"in place", "beside"}))
        self.assertEqual(sorted(name for name, text in self.calls() if text == "ends"), sorted(FEW))
        # all is where rt left it
        for it in FEW:
            self.assertEqual((self.top / "crates" / it / "out/rlib/stamp").read_text(), f"of {it}")
            self.assertTrue((self.top / "crates" / it / "out/incremental/module").exists())
            log = (self.top / f"out/afplane-build/{it}.log").read_text()
            self.assertRegex(log, rf"\Asome words of rt\nafplane: {it}: status 0, \d+ s, \d+ processor seconds, \d jobs(, beside another crate)?\n\Z")
        # the seconds of the build, in the form of the table; none of a crate that was not built
        (self.top / "out/afplane-build/af_ops.log").write_text("afplane: af_ops: status 1, 9 s, 1234 processor seconds, 2 jobs\n")
        (self.top / "out/afplane-build/af_role.log").write_text("x\nafplane: af_role: status 0, 9 s, 1234 processor seconds, 2 jobs, beside another crate\n")
        seconds = build.seconds_of(self.top)
        self.assertEqual([*seconds], [it for it in FEW if it != "af_ops"])
        self.assertEqual(seconds["af_role"], 1234)
        self.assertLess(seconds["af_names"], 30)
        self.assertTrue((self.top / "out/afplane-built").exists())
        self.assertLess((self.top / "out/afplane-built").stat().st_mtime, (self.top / "crates/af_names/out/rlib/stamp").stat().st_mtime)

    def test_one_processor_builds_one_at_a_time(self):
        self.assertEqual(self.ended(self.begun(processors=1))[0], 0)
        words = [text.split() for _, text in self.calls()]
        self.assertEqual([it[0] for it in words], ["begins", "ends"] * len(FEW))
        self.assertEqual({" ".join(it[3:-1]) for it in words[::2]}, {"in place"})

    def test_little_memory_builds_one_at_a_time(self):
        self.assertEqual(self.ended(self.begun(free=5.5))[0], 0)
        words = [text.split() for _, text in self.calls()]
        self.assertEqual([it[0] for it in words], ["begins", "ends"] * len(FEW))

    def test_a_fault_ends_it_and_the_same_call_continues(self):
        (self.room / "fails").write_text("af_role")
        self.hold("af_role", "af_graph")
        ran = self.begun()
        # only once both have begun does one of them fail
        for it in ("af_role", "af_graph"):
            self.wait_for(it, "begins")
            self.wait_for_work(it)
        self.hold("af_graph")
        status, err = self.ended(ran)
        self.assertEqual(status, 70)
        self.assertIn("\ngoal 7 is open\n", err)
        self.assertIn(f"afplane: af_role is not proved or not built; the whole report is in {self.top}/out/afplane-build/af_role.log\n", err)
        self.assertNotIn(["af_graph", "ends"], self.calls(), "the other one is ended")
        self.assertFalse((self.top / "out/afplane-built").exists())
        before = len(self.calls())
        (self.room / "fails").unlink()
        self.hold()
        self.assertEqual(self.ended(self.begun())[0], 0)
        begins = {name: text.rpartition(" ")[2] for name, text in self.calls()[before:] if text.startswith("begins")}
        self.assertEqual((begins["af_role"], begins["af_graph"], begins["af_policy"]), ("again", "again", "anew"))

    def test_signals(self):
        for sent in (signal.SIGINT, signal.SIGTERM):
            self.hold("af_role", "af_graph")
            ran = self.begun()
            for it in ("af_role", "af_graph"):
                self.wait_for(it, "begins")
                self.wait_for_work(it)
            ran.send_signal(sent)
            self.assertEqual(self.ended(ran)[0], 128 + sent)
            for it in ("af_role", "af_graph"):
                self.assertTrue((self.top / "crates" / it / "out/incremental/module").exists(), it)
            # what it started has ended: nobody works in the folders
            for it in FEW:
                with open_folder(self.top / "crates" / it) as folder:
                    fcntl.flock(folder.number, fcntl.LOCK_EX | fcntl.LOCK_NB)
            self.assertNotIn("ends", [text for name, text in self.calls() if name in ("af_role", "af_graph")])
            (self.room / "calls").unlink()

    def test_what_a_killed_build_left_beside_is_brought_back(self):
        self.hold("af_role", "af_graph")
        ran = self.begun()
        for it in ("af_role", "af_graph"):
            self.wait_for(it, "begins")
            self.wait_for_work(it)
        ran.kill()
        ran.wait()
        self.hold()
        beside = [it for it in ("af_role", "af_graph") if not (self.top / "crates" / it / "out").exists()]
        self.assertEqual(len(beside), 1)
        (self.room / "calls").unlink()
        # what it had started may be at its end only now
        time.sleep(1)
        self.assertEqual(self.ended(self.begun())[0], 0)
        (text,) = [text for name, text in self.calls() if name == beside[0] and text.startswith("begins")]
        self.assertTrue(text.endswith(" again"), text)

    def test_two_builds(self):
        self.hold("af_names")
        first = self.begun()
        self.wait_for("af_names", "begins")
        second = self.begun()
        self.assertEqual(second.stderr.readline(), "afplane: waiting for another build of this clone to end\n")
        self.hold()
        self.assertEqual((first.wait(60), second.wait(60)), (0, 0))
        self.assertTrue(self.ended(first)[1].endswith("afplane\n"))
        self.ended(second)
        self.assertEqual([it for it in self.calls() if not it[1].startswith(("begins", "ends"))], [])

    def test_another_rt_in_the_crate(self):
        """A crate in which somebody works is built in place, where rt waits, and not beside."""
        self.hold("af_role")
        with open_folder(self.top / "crates/af_graph") as folder:
            fcntl.flock(folder.number, fcntl.LOCK_EX)
            ran = self.begun()
            self.wait_for("af_role", "begins")
            time.sleep(0.5)
            self.assertNotIn("af_graph", [name for name, _ in self.calls()])
            self.assertTrue((self.top / "crates/af_graph/src").is_dir())
        self.hold()
        self.assertEqual(self.ended(ran)[0], 0)

    def test_how_far_it_is(self):
        status, err = self.ended(self.begun())
        steps = re.findall(r"afplane: (\d+) of (\d+): (\w+) \((\d+) min so far, about (\d+) min to go\)\n", err)
        self.assertEqual([(int(n), int(of)) for n, of, *_ in steps], [(n + 1, len(FEW)) for n in range(len(FEW))])
        self.assertEqual({it[3] for it in steps[:-1]} - {"0", "1"}, set())
        seconds = {it: SECONDS[it] for it in FEW}
        self.assertEqual(int(steps[0][4]), build.minutes(build.schedule_of(FEW, seconds, 4, 15)[1]))
        # what a call has built is known to the next, which expects seconds for it
        err = self.ended(self.begun())[1]
        self.assertLess(int(re.search(r"about (\d+) min to go", err)[1]), SECONDS["afplane"] * 0.4 / 60 + 2)
        (self.top / "crates/af_policy/src/lib.rt").write_text("changed")
        err = self.ended(self.begun())[1]
        above = sum(SECONDS[it] for it in ("af_policy", "af_ops", "afplane")) * 0.4 / 60
        self.assertAlmostEqual(int(re.search(r"about (\d+) min to go", err)[1]), above, delta=2)


class Speed(Case):
    def test_a_slow_machine_is_told(self):
        """What is left is rescaled by the speed of what was built; what was kept says nothing."""
        (self.top / "out/afplane-build").mkdir(parents=True)
        with mock.patch.object(build, "processors_here", lambda: 4), mock.patch.object(build, "free_here", lambda: 16):
            it = build.Build(self.top)

            def built(crate, passed, had_work=False):
                it.running[crate] = mock.Mock(jobs=3, passed=passed, is_beside=False, status=0, had_work=had_work, free=16)
                self.assertTrue(it.end(crate))

            built("af_names", 1)
            self.assertEqual(it.speed(), 1)
            built("af_base", 1000, had_work=True)
            self.assertEqual(it.speed(), 1)
            built("af_role", 2 * SECONDS["af_role"])
            built("af_policy", 2 * SECONDS["af_policy"])
            known = SECONDS["af_role"] + SECONDS["af_policy"]
            self.assertAlmostEqual(it.speed(), (600 + 2 * known) / (600 + known))
            left = build.schedule_of(FEW, {name: SECONDS[name] for name in FEW}, 4, 15, built={"af_names", "af_base", "af_role", "af_policy"})[1]
            self.assertEqual(it.minutes_to_go(), build.minutes(left * it.speed()))
            self.assertGreater(it.minutes_to_go(), build.minutes(left))
            # one that runs has less to go, and at least a twentieth
            it.running["af_ops"] = mock.Mock(jobs=4, passed=500, free=16)
            half = it.minutes_to_go()
            it.running["af_ops"].passed = 100_000
            self.assertLess(it.minutes_to_go(), half)


class open_folder:
    def __init__(self, path):
        self.number = os.open(path, os.O_RDONLY)

    def __enter__(self):
        return self

    def __exit__(self, *_):
        os.close(self.number)


if __name__ == "__main__":
    sys.exit(unittest.main())
