"""What refusals.py takes for right: the fixed 503 after any answer, and no other end.

  python3 conformance/refusals_test.py
"""
import contextlib
import io
import os
import pathlib
import shutil
import subprocess
import sys
import tempfile
import unittest
from unittest import mock

import with_model  # noqa: F401
import oracle
import refusals
from oracle_table import OPERATIONS, having, route
from refusal_cases import CHANGES, EXAMPLES, FAULTS, READINGS, request
from refusals import NOW, NO_MEMORY, OUT_OF_MEMORY, REFUSED, fronts_of, is_right

BASE = os.path.join(EXAMPLES, "base.json")


class Right(unittest.TestCase):
    def ends(self, *requests):
        """A test of how a run on these requests may end: with so many answers, and then these bytes."""
        whole = oracle.run(["once", BASE, NOW], b"".join(requests))
        fronts = fronts_of(whole[1])
        self.assertEqual(fronts[-1], whole[1])
        self.assertEqual(len(fronts), len(requests) + 1)
        return lambda count, rest, status=1, err=b"": is_right(whole, fronts, status, fronts[count] + rest, err)

    def test_changes(self):
        pause, role = request("PATCH /dags/b", '{"is_paused":true}'), request("POST /roles", '{"name":"X","actions":[]}')
        gone, look = request("DELETE /users/zoe"), request("GET /eventLogs")
        ends = self.ends(pause, role, gone, pause, look)
        self.assertTrue(ends(5, b"", 0))
        self.assertFalse(ends(5, b""))
        self.assertFalse(ends(4, b"", 0))
        self.assertEqual([ends(n, NO_MEMORY) for n in range(5)], [True] * 5)
        lost = NO_MEMORY.replace(b"503 Service Unavailable", b"500 Internal Server Error").replace(b"out of memory", b"done, reply lost")
        self.assertEqual([ends(n, lost) for n in range(5)], [False] * 5)
        self.assertFalse(ends(1, NO_MEMORY, 0))
        self.assertFalse(ends(1, NO_MEMORY, 1, b"x"))
        self.assertFalse(ends(1, NO_MEMORY[:-1]))
        self.assertFalse(ends(1, b"x" + NO_MEMORY))

    def test_configuration(self):
        ends = self.ends(request("GET /own/me"))
        self.assertTrue(ends(0, b"", 3, REFUSED))
        self.assertFalse(ends(1, b"", 3, REFUSED))

    def test_words(self):
        """A test that is refused memory says so; other ends of a test are none of it."""
        for text in (b"Error: OutOfMemory", b"Error: Reply(OutOfMemory)", b"\nthe id of a run: OutOfMemory\n", b"two tasks: AllocFailed { .. }", b"left: Err(OutOfMemory)\nright: Ok(1)"):
            self.assertTrue(OUT_OF_MEMORY.search(text), text)
        for text in (b"added once", b"Error: RunExists", b"the id of a run: BadName", b"left: Err(RunExists)\nright: Ok(1)", b"what stands after a tick", AGAIN):
            self.assertFalse(OUT_OF_MEMORY.search(text), text)

    def test_cases(self):
        """Each change of the state, each operation on the policy and the event logs have a case under their own name; what is to be refused is."""
        named = {name for name, *_ in CHANGES} | {name for name, *_ in READINGS}
        for it in OPERATIONS:
            if it.on_policy or it.event or it.name == "list_entries":
                self.assertIn(it.name, named)
        for name, asked, *_ in [*CHANGES, *READINGS]:
            method, path = asked.split(" ")
            path = path if path.startswith("/own/") else "/api/v1" + path
            operation, _ = route(path.partition("?")[0].encode(), method.encode(), having("landed"))
            self.assertEqual(operation.name, name, asked)
        out = oracle.run(["once", BASE, NOW], b"".join(request(*it) for it in FAULTS))[1]
        told = [int(it[:3]) for it in out.decode().split("HTTP/1.1 ")[1:]]
        self.assertEqual(told, [400, 400, 403, 400, 400, 400, 404, 409, 404, 409, 409, 204, 409, 400, 401, 400])


# What a test says that had no memory again for what it asked after a refusal, though there is memory then: a plain failure, and not a fault that says so.
AGAIN = b"assertion failed: out of memory is told again, where there is memory\n"
# A program of tests: each makes some allocations, of which one is refused and told on the pipe; what it does then depends on its name.
TESTS = """#!%s
import os, sys
ENDS = ["lies", "hangs", "fails", "is_refused_again", "never_goes_on", "makes_none"]
NAMES = ["refused::a_good_one", "refused::threads", *("refused::one_that_" + it for it in ENDS), "other::a_good_one"]
if sys.argv[1:] == ["--list"]:
    print("".join(f"{it}: test\\n" for it in NAMES))
    sys.exit()
name, number = sys.argv[1], int(os.environ["REFUSE"])
counts = os.path.join(os.path.dirname(sys.argv[0]), "counts")
with open(counts, "a") as file:
    file.write(f"{name} {number}\\n")
with open(counts) as file:
    turn = file.read().count(f"{name} {number}\\n")
# (the threads make seven allocations, but for each second run, which makes four)
made = 7 if name.endswith("threads") and turn %% 2 == 0 else 0 if name.endswith("none") else 4
met = 0 < number <= made
os.write(int(os.environ["REFUSE_FD"]), b"x" * (met if number else made))
if met and name.endswith("hangs") and number == 2:
    while True:
        pass
if met and name.endswith("again") and number == 2:
    print(%r, end="")
    sys.exit(101)
if name.endswith("fails") or met and (number == 3 or name.endswith("never_goes_on")):
    print("Error: OutOfMemory" if met and not name.endswith("lies") else "Error: RunExists")
    sys.exit(101)
print("test result: ok")
""" % (sys.executable, AGAIN.decode())
# Four threads that make a thousand allocations each. The status is how many failed.
THREADS = """
#include <pthread.h>
#include <stdatomic.h>
#include <stdio.h>
#include <stdlib.h>
static atomic_int failed;
static void *play(void *unused)
{
    for (int it = 0; it < 1000; it++) {
        void *volatile made = it % 2 ? malloc(8) : realloc(NULL, 8);
        failed += made == NULL;
        free(made);
    }
    return unused;
}
int main(void)
{
    pthread_t threads[4];
    for (int it = 0; it < 4; it++)
        pthread_create(&threads[it], NULL, play, NULL);
    for (int it = 0; it < 4; it++)
        pthread_join(threads[it], NULL);
    return failed;
}
"""


class Tests(unittest.TestCase):
    """The tests of crates, whose allocations are refused in turn."""

    def setUp(self):
        kept = tempfile.TemporaryDirectory()
        self.addCleanup(kept.cleanup)
        self.top = pathlib.Path(kept.name)

    def built(self):
        folder = self.top / "crates" / "some" / "out"
        folder.mkdir(parents=True)
        program = folder / "some_tests"
        program.write_text(TESTS)
        program.chmod(0o755)

    def play(self, *words, **more):
        """How many runs were right and wrong, and the lines that were printed."""
        with contextlib.redirect_stdout(io.StringIO()) as said:
            counts = refusals.refuse_tests("", words, 1, top=self.top, **more)
        return counts, said.getvalue().rstrip("\n").split("\n")

    def test_words(self):
        self.built()
        self.assertEqual(self.play("a_good")[0], (2 * (4 + refusals.TRIES), 0))
        self.assertEqual(self.play("refused::a")[0], (4 + refusals.TRIES, 0))
        self.assertEqual(self.play("other", "refused::a")[0], (2 * (4 + refusals.TRIES), 0))
        counts, said = self.play("nothing")
        self.assertEqual(counts, (0, 0))
        self.assertIn("no test with ('nothing',) in its name is built", said[0])

    def test_threads(self):
        """A run that makes few allocations is no end of a test that makes more: three are refused in each second run."""
        self.built()
        self.assertEqual(self.play("threads")[0], (4 + 2 * 3 + refusals.TRIES, 0))

    def test_wrong_ends(self):
        self.built()
        counts, said = self.play("lies")
        self.assertEqual(counts, (3 + refusals.TRIES, 1))
        self.assertIn("refused::one_that_lies, allocation 3 refused: status 101, b'Error: RunExists\\n'", said)
        with mock.patch.object(refusals, "SECONDS", 3):
            counts, said = self.play("hangs")
        self.assertEqual(counts, (3 + refusals.TRIES, 1))
        self.assertIn("allocation 2 refused: it did not end", said[0])
        counts, said = self.play("fails")
        self.assertEqual(counts, (4, refusals.TRIES + 1))
        self.assertIn("refused::one_that_fails, nothing refused: status 101", said[0])

    def test_out_of_memory_again(self):
        """What is asked after a refusal has memory: a test that is told otherwise is wrong, though it was refused an allocation."""
        self.built()
        counts, said = self.play("refused_again")
        self.assertEqual(counts, (3 + refusals.TRIES, 1))
        self.assertEqual(said[0], f"refused::one_that_is_refused_again, allocation 2 refused: status 101, {AGAIN!r}")

    def test_what_shows_nothing(self):
        """A test that is named has to go on after a refusal in some run; where all are played, it may always end there, or make no allocation."""
        self.built()
        for word, right, what in (
            ("never_goes_on", 4, "of 4 runs that were refused an allocation it passed in none"),
            ("makes_none", 0, "it was refused nothing in any run"),
        ):
            counts, said = self.play(word)
            self.assertEqual(counts, (right + refusals.TRIES, 1))
            self.assertEqual(said[0], f"refused::one_that_{word}: {what}, so it shows nothing of what stands after a refusal")
            with contextlib.redirect_stdout(io.StringIO()):
                program = str(self.top / "crates" / "some" / "out" / "some_tests")
                it = refusals.refuse_each_of_test(program, f"refused::one_that_{word}", "")
            self.assertEqual((it.right, it.wrong), (right + refusals.TRIES, 0))

    def test_the_first_allocations_of_each(self):
        """After so many a run that is refused nothing ends the runs of a test; how many are left out is said."""
        self.built()
        counts, said = self.play("a_good", "threads", most=2)
        self.assertEqual(counts, (3 * (2 + 1), 0))
        left = "".join(f"; of {it} 2 allocations are left out" for it in ("refused::a_good_one", "refused::threads", "other::a_good_one"))
        self.assertEqual(said, [f"some_tests: 3 tests, 9 runs as they must be, 0 not{left}"])
        for most, right in ((4, 4 + 1), (5, 4 + refusals.TRIES)):
            self.assertEqual(self.play("refused::a", most=most), ((right, 0), [f"some_tests: 1 tests, {right} runs as they must be, 0 not"]))
        counts, said = self.play("fails", most=1)
        self.assertEqual(counts, (1, 2))
        self.assertIn("refused::one_that_fails, nothing refused: status 101", said[0])
        for words in (["--most", "3"], ["--least", "3"]):
            ran = subprocess.run([sys.executable, refusals.__file__, *words], capture_output=True, text=True)
            self.assertEqual((ran.returncode, ran.stdout), (2, ""))
            self.assertIn("--least and --most need --tests", ran.stderr)

    def test_a_program_that_is_refused_nothing(self):
        """A library that the program does not load refuses nothing, and that is no success."""
        program, data = [sys.executable, oracle.__file__], request("GET /own/me")
        with contextlib.redirect_stdout(io.StringIO()) as said:
            self.assertEqual(refusals.refuse_each(program, "", having("landed"), "a case", "base.json", data), (0, 1))
        self.assertIn("a case: no allocation was refused\n", said.getvalue())

    def test_fewer_tests_than_the_least(self):
        self.built()
        good = 2 * (4 + refusals.TRIES)
        for least, wrong in ((0, 0), (2, 0), (3, 1)):
            counts, said = self.play("a_good", least=least)
            self.assertEqual(counts, (good, wrong))
            self.assertEqual(said[-1] == "refusals: 2 tests were played, and there have to be 3 at least", bool(wrong), said)
        self.assertEqual(self.play("nothing", least=1)[0], (0, 1))

    def test_the_counts_of_threads(self):
        """One allocation of all threads is refused, whichever it is; without a compiler nothing can be, and the program says so."""
        if shutil.which("cc") is None:
            return self.without_a_compiler()
        source, program = self.top / "threads.c", self.top / "threads"
        source.write_text(THREADS)
        subprocess.run(["cc", "-O1", "-pthread", "-o", program, source], check=True)
        with mock.patch.object(refusals, "OUT", str(self.top)):
            library = refusals.build()
        for number in (1, 2, 1999, 3999, 4000):
            self.assertEqual(refusals.run([str(program)], [], b"", library, number), (1, b"", b"", True), number)
        self.assertEqual(refusals.run([str(program)], [], b"", library, 4001), (0, b"", b"", False))
        self.assertEqual(refusals.run([str(program)], [], b"", library, 0), (0, b"", b"", 4000))

    def without_a_compiler(self):
        with mock.patch.dict(os.environ, {"PATH": ""}):
            ran = subprocess.run([sys.executable, refusals.__file__, "--tests"], capture_output=True, text=True)
        self.assertEqual((ran.returncode, ran.stdout), (2, "refusals: a C compiler (cc) is not installed\n"))

    def test_no_compiler(self):
        self.without_a_compiler()


if __name__ == "__main__":
    unittest.main()
