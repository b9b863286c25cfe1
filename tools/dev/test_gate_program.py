#!/usr/bin/env python3
"""Tests of gate-program, run-tests and .ci/run: what counts as failed. In place of the program stands the model, or one that answers otherwise.

    python3 tools/dev/test_gate_program.py
"""
import fnmatch
import hashlib
import importlib.machinery
import importlib.util
import os
import pathlib
import re
import shutil
import subprocess
import sys
import tempfile
import unittest
from unittest import mock

sys.dont_write_bytecode = True
HERE = pathlib.Path(__file__).resolve().parent
TOP = HERE.parents[1]


def module_of(name):
    loader = importlib.machinery.SourceFileLoader(name.replace("-", "_"), str(HERE / name))
    module = importlib.util.module_from_spec(importlib.util.spec_from_loader(loader.name, loader))
    loader.exec_module(module)
    return module


GATE = module_of("gate-program")
TESTS = """
import unittest
class A(unittest.TestCase):
    def test_good(self):
        pass
    def test_bad(self):
        for n in range(3):
            with self.subTest(n):
                self.assertEqual(n, 1)
    @unittest.skip("no reason")
    def test_skipped(self):
        pass
    @unittest.expectedFailure
    def test_unexpected(self):
        pass
"""


class Case(unittest.TestCase):
    def setUp(self):
        kept = tempfile.TemporaryDirectory()
        self.addCleanup(kept.cleanup)
        self.room = pathlib.Path(kept.name)

    def script(self, name, text):
        path = self.room / name
        path.write_text(f"#!/bin/sh\n{text}\n")
        path.chmod(0o755)
        return path

    def call(self, *words, **env):
        """Exit status and the lines of standard output."""
        env = {**os.environ, **{name: str(value) for name, value in env.items()}}
        ran = subprocess.run([str(it) for it in words], stdin=subprocess.DEVNULL, stdout=subprocess.PIPE, env=env, universal_newlines=True)
        return ran.returncode, ran.stdout.rstrip("\n").split("\n")


class Counts(Case):
    def test_of_a_command(self):
        rows = [
            (0, "5 passed, 0 failed", (5, 0)),
            (1, "5 passed, 2 failed", (5, 2)),
            (1, "5 passed, 0 failed", (5, 1)),
            (0, "0 passed, 0 failed", (0, 1)),
            (0, "", (0, 1)),
            (1, "Traceback", (0, 1)),
            (0, "x 5 passed, 0 failed", (0, 1)),
            (0, "5 passed, 0 failed (af_names and the crates below alone: not the gate)", (5, 0)),
        ]
        for status, last, wanted in rows:
            self.assertEqual(GATE.count_of(status, last), wanted, last)

    def test_of_unit_tests(self):
        (self.room / "test_a.py").write_text(TESTS)
        status, lines = self.call(sys.executable, HERE / "run-tests", self.room, "test_*.py")
        self.assertEqual((status, lines[-1]), (1, "1 passed, 3 failed"))
        self.assertIn("no reason", "\n".join(lines))
        (self.room / "test_a.py").write_text(TESTS.partition("    def test_bad")[0])
        self.assertEqual((self.call(sys.executable, HERE / "run-tests", self.room, "test_*.py")[1])[-1], "1 passed, 0 failed")
        (self.room / "test_b.py").write_text("import nothing_of_this_name\n")
        status, lines = self.call(sys.executable, HERE / "run-tests", self.room, "test_*.py")
        self.assertEqual((status, lines[-1]), (1, "1 passed, 1 failed"))
        (self.room / "test_b.py").write_text(TESTS.replace("no reason", "there/afplane is not built"))
        rows = [((), "2 passed, 3 failed"), (("--without-program",), "2 passed, 2 failed")]
        for words, last in rows:
            status, lines = self.call(sys.executable, HERE / "run-tests", *words, self.room, "test_*.py")
            self.assertEqual((status, lines[-1]), (1, last))
        self.assertIn("skipped, which is not counted: test_skipped (test_b.A", "\n".join(lines))
        status, lines = self.call(sys.executable, HERE / "run-tests", self.room, "none_*.py")
        self.assertEqual((status, lines[-1]), (1, "0 passed, 0 failed"))


class Gate(Case):
    def gate(self, program, *words, only="examples"):
        return self.call(sys.executable, HERE / "gate-program", "--program", program, "--only", only, *words)

    def test_the_model_passes(self):
        program = self.script("program", f'exec "{sys.executable}" "{TOP}/model/oracle.py" "$@"')
        status, lines = self.gate(program, "--after", "0", "69 passed, 0 failed")
        self.assertEqual(status, 0)
        self.assertIn(f"{program}: SHA-256 {hashlib.sha256(program.read_bytes()).hexdigest()}", lines)
        passed = int(lines[-1].split()[0])
        self.assertGreater(passed, 69 + 12)
        self.assertEqual(lines[-1], f"{passed} passed, 0 failed")

    def test_a_wrong_program_fails(self):
        status, lines = self.gate(self.script("program", f'cat "{TOP}/examples/expected/viewer.out"'))
        self.assertEqual(status, 1)
        passed, _, failed, _ = lines[-1].split(" ")
        self.assertEqual(passed, "1")
        self.assertGreater(int(failed), 12)

    def test_concurrent_clients(self):
        """Two minutes of them are a part of the gate, and a program that does not serve fails it."""
        program = self.script("program", "exit 2")
        (part,) = [it for it in GATE.parts_for(str(program)) if "concurrent clients" in it.name]
        self.assertEqual(part.words[1:], ["conformance/many_clients.py", "--program", str(program), "--seconds", "120", "--seed", "1"])
        status, lines = self.gate(program, only="concurrent")
        self.assertEqual((status, lines[-1]), (1, "0 passed, 1 failed"))
        self.assertIn("the server does not say where it listens: b''; standard error: ''", lines)

    def refused_memory(self):
        (part,) = [it for it in GATE.parts_for("program") if it.name == "refused memory"]
        return part

    def test_refused_memory(self):
        """The tests of refused memory are a part of the gate, and it fails where none is built."""
        with mock.patch.dict(os.environ, {"CI": ""}):
            part = self.refused_memory()
        self.assertEqual(part.words[1:], ["conformance/refusals.py", "--tests", "--only", "memory::", "--least", str(GATE.MEMORY_TESTS), "--jobs", "2"])
        self.assertFalse(part.asks)
        part.words[4] = "no test has these words"
        passed, failed, said = GATE.run(part, str(self.room / "none"))
        self.assertEqual((passed, failed), (0, int(shutil.which("cc") is not None)), said)

    def test_how_many_tests_of_refused_memory_there_are(self):
        """The gate asks for as many as the sources have: what is below a module `memory` is in a file of this name, or in a folder of it."""
        count = 0
        for path in TOP.glob("crates/*/src/**/*.rt"):
            text = path.read_text(encoding="utf-8")
            self.assertNotRegex(text, r"\bmod \w*memory\s*\{", path)
            if any(it.endswith("memory") for it in path.relative_to(TOP).with_suffix("").parts):
                count += len(re.findall(r"(?m)^ *#\[test\]", text))
        self.assertEqual(GATE.MEMORY_TESTS, count)

    def test_no_compiler(self):
        """Without a C compiler the tests of refused memory are not run, and where CI is set they have to be."""
        for ci, wanted, first in (("", (0, 0), "not run: "), ("true", (0, 1), "")):
            with mock.patch.dict(os.environ, {"CI": ci, "PATH": str(self.room)}):
                passed, failed, said = GATE.run(self.refused_memory(), str(self.room / "none"))
            self.assertEqual((passed, failed), wanted)
            self.assertTrue(said.startswith(f"{first}refusals: a C compiler (cc) is not installed"), said)

    def test_what_is_not_installed(self):
        """Status 2 counts as nothing only with the words for it, and only of a part that may lack something."""
        lacking = "echo 'there: a thing is not installed'; exit 2"
        rows = [(True, lacking, (0, 0)), (False, lacking, (0, 1)), (True, "echo usage; exit 2", (0, 1)), (True, lacking.replace("2", "1"), (0, 1))]
        for may_lack, text, wanted in rows:
            part = GATE.Part("some", asks=False, may_lack=may_lack)
            part.words = [str(self.script("part", text))]
            passed, failed, said = GATE.run(part, "none")
            self.assertEqual((passed, failed), wanted, said)
        for ci, names in (("", ["refused memory", "the page in a browser", "openapi"]), ("true", ["openapi"])):
            with mock.patch.dict(os.environ, {"CI": ci}):
                self.assertEqual([it.name for it in GATE.parts_for("program") if it.may_lack], names)

    def test_each_file_of_tests_is_played_once(self):
        for parts in (GATE.parts_for("program"), GATE.parts_without_program()):
            played = []
            for it in parts:
                if "tools/dev/run-tests" in it.words:
                    folder, pattern = it.words[-2:]
                    played += [f"{folder}/{path.name}" for path in (TOP / folder).glob("*.py") if fnmatch.fnmatch(path.name, pattern)]
            files = [path for path in TOP.glob("**/*.py") if re.fullmatch(r"test_.*|.*_test", path.stem) and not {"out", "ui"} & set(path.parts)]
            self.assertEqual(sorted(played), sorted(str(it.relative_to(TOP)) for it in files if it.name != "test_tools.py"))

    def test_without_a_program(self):
        """What needs neither the program nor the toolchain is run, and no program is asked, whether one is built or not."""
        parts = GATE.parts_without_program()
        names = [it.name for it in parts]
        self.assertEqual([it for it in names if not it.startswith("tests of ")], ["openapi", "examples and worked connections, by the model"])
        self.assertFalse(any(it.asks for it in parts))
        self.assertFalse(os.path.exists(GATE.NO_PROGRAM))
        self.assertNotIn(GATE.PROGRAM, [word for it in parts for word in it.words])
        for it in parts:
            if it.name.startswith("tests of "):
                self.assertIn("--without-program", it.words)
        self.assertEqual(parts[-1].words[1:3], ["conformance/play.py", "--program"])
        for it in parts[-2:]:
            self.assertTrue(it.words[-1].endswith(" model/oracle.py"), it.words)
        program = GATE.Part("some", asks=False)
        program.words = [str(self.script("part", 'echo "asks $AFPLANE_PROGRAM"; echo "4 passed, 0 failed"; exit 1'))]
        with mock.patch.object(GATE, "parts_without_program", lambda: [program]), mock.patch.object(sys, "argv", ["gate-program", "--without-program"]):
            with mock.patch("builtins.print") as said:
                self.assertEqual(GATE.main(), 1)
        said = [str(it.args[0]) for it in said.call_args_list]
        self.assertEqual(said[-1], "4 passed, 1 failed")
        self.assertIn(f"asks {GATE.NO_PROGRAM}\n", said[-2])

    def test_no_browser(self):
        """Without a browser the page is not tested, and where CI is set that is a failure."""
        program = self.script("program", "exit 2")
        for ci, wanted, first in (("", (0, 0), "not run: "), ("true", (0, 1), "")):
            with mock.patch.dict(os.environ, {"CI": ci, "PATH": str(self.room)}):
                (part,) = [it for it in GATE.parts_for(str(program)) if it.name == "the page in a browser"]
                self.assertEqual(part.words[1:], ["conformance/ui/run"])
                passed, failed, said = GATE.run(part, str(program))
            self.assertEqual((passed, failed), wanted)
            self.assertTrue(said.startswith(f"{first}ui: chromium is not installed"), said)

    def test_no_program(self):
        status, lines = self.gate(self.room / "none", "--after", "0", "69 passed, 0 failed")
        self.assertEqual((status, lines[-1]), (1, "69 passed, 1 failed"))

    def test_a_failed_proof(self):
        for status, line, wanted in (("1", "60 passed, 2 failed", "60 passed, 2 failed"), ("2", "rt: no crates.txt", "0 passed, 1 failed")):
            self.assertEqual(self.gate(self.room / "none", "--after", status, line, only="no part")[0], 1)
            self.assertEqual(self.gate(self.room / "none", "--after", status, line, only="no part")[1][-1], wanted)


class Whole(Case):
    """.ci/run in a repository that has it alone, with a fake `rt` and a fake of what plays the program."""

    def test_what_is_called(self):
        for it in ("repository/.ci", "repository/tools/dev", "bin"):
            (self.room / it).mkdir(parents=True)
        shutil.copy(TOP / ".ci/run", self.room / "repository/.ci/run")
        (self.room / "repository/tools/build.py").write_text("import sys\nprint(5 if sys.argv[1:] == ['--checks'] else 'other words')\n")
        self.script("repository/tools/dev/install-gate", "exit 3")
        (self.room / "repository/tools/dev/gate-program").write_text("import os, sys\nprint(sys.argv[1:], os.getcwd())\nsys.exit(5)\n")
        self.script("bin/rt", 'echo "$* $RT_JOBS $PWD"; echo "3 passed, 4 failed"; exit 1')
        path = f"{self.room}/bin:{os.environ['PATH']}"
        top = str((self.room / "repository").resolve())
        for given, jobs in (({}, "5"), ({"RT_JOBS": "7"}, "7")):
            given = {"PATH": path, "RT_JOBS": "", **given}
            status, lines = self.call("bash", self.room / "repository/.ci/run", **given)
            self.assertEqual(status, 5)
            self.assertEqual(lines, [f"ci {jobs} {top}", "3 passed, 4 failed", f"{['--after', '1', '3 passed, 4 failed']} {top}"])


class Installing(Case):
    """install-gate asks apt-get only where CI is set and the browser is missing, and never fails."""

    def test_when_it_installs(self):
        for it in ("sh", "env"):
            (self.room / it).symlink_to(shutil.which(it))
        asked = self.room / "asked"
        self.script("apt-get", f'echo "$*" >>"{asked}"; exit 1')
        def calls(**env):
            asked.write_text("")
            status, lines = self.call(HERE / "install-gate", PATH=self.room, **env)
            self.assertEqual((status, lines), (0, [""]))
            return asked.read_text().splitlines()
        self.assertEqual(calls(CI=""), [])
        self.assertEqual(calls(CI="true"), ["update -qq"])
        self.script("apt-get", f'echo "$*" >>"{asked}"')
        self.assertEqual(calls(CI="true"), ["update -qq", "install -y -qq chromium chromium-driver python3-selenium"])
        (self.room / "apt-get").unlink()
        self.assertEqual(calls(CI="true"), [])


if __name__ == "__main__":
    sys.exit(unittest.main())
