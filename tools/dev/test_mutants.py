#!/usr/bin/env python3
"""Tests of the mutants without the prover: each edit of mutants/ and of crates/*/must-fail/ can be applied; and of the tool that tries them.

    python3 tools/dev/test_mutants.py
"""
import os
import pathlib
import re
import shutil
import subprocess
import sys
import tempfile
import unittest

sys.dont_write_bytecode = True
from edits import Unusable, applied, edits_in  # noqa: E402

HERE = pathlib.Path(__file__).resolve().parent
TOP = HERE.parents[1]
CRATES = TOP / "crates"
# The crates whose mutants the gate tries. A crate with one is proved once more for it, so they are the ones that are cheap to prove.
IN_THE_GATE = {"af_board", "af_journal", "af_listing", "af_mask", "af_role", "af_word"}


def text_of(path):
    with open(path, encoding="utf-8", newline="") as file:
        return file.read()


class Repository(unittest.TestCase):
    def test_each_mutant_applies(self):
        files = sorted((TOP / "mutants").iterdir())
        self.assertTrue(files)
        for path in files:
            self.assertEqual(path.suffix, ".edits", f"mutants/{path.name} is no file CRATE.edits")
            self.assertTrue((CRATES / path.stem / "src").is_dir(), f"mutants/{path.name} is of no crate")
            found = edits_in(text_of(path))
            self.assertTrue(found, f"mutants/{path.name} has no mutant")
            for name, edit in found.items():
                self.assertRegex(name, r"\A[A-Za-z0-9_-][A-Za-z0-9_.-]*\Z", f"mutants/{path.name}")
                self.check(f"mutants/{path.name}, {name}", edit, CRATES / path.stem)

    def test_each_edit_of_the_gate_applies(self):
        files = sorted(CRATES.glob("*/must-fail/*.edit"))
        self.assertTrue(files)
        for path in files:
            self.check(str(path.relative_to(TOP)), text_of(path), path.parents[1])

    def test_the_gate_tries_those_of_cheap_crates(self):
        files = sorted(CRATES.glob("*/must-fail/*"))
        self.assertEqual({it.parts[-3] for it in files}, IN_THE_GATE)
        self.assertIn(len(files), range(24, 33))
        pages = [TOP / "CONTRIBUTING.md", *sorted((TOP / "docs").glob("*.md"))]
        said = [(page, it) for page in pages for it in re.split(r"\n\n|\n- ", text_of(page)) if "The gate tries" in it]
        self.assertIn(pages[0], [page for page, _ in said])
        for page, it in said:
            self.assertEqual(set(re.findall(r"`(af_\w+)`", it)), IN_THE_GATE, page.name)

    def test_no_mutant_is_in_both_places(self):
        for path in CRATES.glob("*/must-fail/*.edit"):
            others = TOP / "mutants" / f"{path.parts[-3]}.edits"
            self.assertNotIn(path.stem, edits_in(text_of(others)) if others.exists() else {}, path.parts[-3])

    def check(self, where, edit, folder):
        with self.subTest(where):
            try:
                applied(edit, folder)
            except Unusable as why:
                self.fail(f"{where} cannot be applied: {why}")


class Edits(unittest.TestCase):
    def setUp(self):
        kept = tempfile.TemporaryDirectory()
        self.addCleanup(kept.cleanup)
        self.folder = pathlib.Path(kept.name)
        (self.folder / "src").mkdir()
        (self.folder / "src/lib.rt").write_text("one two\n  two: one\nthree\n", encoding="utf-8")

    def test_what_an_edit_makes(self):
        edit = "file: src/lib.rt\nold: three\nnew: two\nold:   two: one\nnew:\nold: one two\nnew: two: one\n"
        self.assertEqual(applied(edit, self.folder), {"src/lib.rt": "two: one\n\ntwo\n"})
        # the first pair makes the second's old text stand once
        self.assertEqual(applied("file: src/lib.rt\nold: two: one\nnew: x\nold: two\nnew: y\n", self.folder), {"src/lib.rt": "one y\n  x\nthree\n"})

    def test_what_is_refused(self):
        rows = [
            ("old: three\nnew: x\n", "not in its place"),
            ("file: src/lib.rt\nnew: x\n", "not in its place"),
            ("file: src/lib.rt\nold: three\nnew: x\nnew: y\n", "not in its place"),
            ("file: src/lib.rt\nold: three\nnew: x\nand more\n", "none of an edit"),
            ("file: src/lib.rt\nold: two\nnew: x\n", "2 times"),
            ("file: src/lib.rt\nold: four\nnew: x\n", "0 times"),
            ("file: src/lib.rt\nold: three\nnew: x\nold: three\nnew: y\n", "0 times"),
            ("file: src/lib.rt\n", "no pair"),
            ("file: src/lib.rt\nold: three\nnew: x\nold: one two\n", "has no new one"),
            ("file: src/lib.rt\nold: three\nnew: three\n", "changes nothing"),
            ("file: src/none.rt\nold: three\nnew: x\n", "no file src/none.rt"),
            ("file: src/../lib.rt\nold: three\nnew: x\n", "no path below"),
            ("file: crates.txt\nold: three\nnew: x\n", "no path below"),
        ]
        for edit, why in rows:
            with self.subTest(edit):
                self.assertRaisesRegex(Unusable, why, applied, edit, self.folder)

    def test_how_a_file_of_many_is_read(self):
        self.assertEqual(edits_in("## a\nfile: x\nold: ## b\nnew: c\n\n## b_2\nfile: y\n"), {"a": "file: x\nold: ## b\nnew: c\n", "b_2": "file: y\n"})
        self.assertRaisesRegex(Unusable, "no heading", edits_in, "file: x\n## a\n")
        self.assertRaisesRegex(Unusable, "two mutants named a", edits_in, "## a\nfile: x\n## a\nfile: y\n")


# Says of each edit that it was refused, but of those with `kept` in their names; and notes what there is.
RT = """#!/bin/sh
ls crates >>"$ROOM/crates"
for it in crates/$2/must-fail/*; do
    cat "$it" >>"$ROOM/edits"
    case $it in *kept*) say="NOT REFUSED: the crate is still proved" ;; *) say="refused, as it must be: x" ;; esac
    echo "rt: must-fail $2/${it##*/}: $say"
done
"""


class Tool(unittest.TestCase):
    def setUp(self):
        kept = tempfile.TemporaryDirectory()
        self.addCleanup(kept.cleanup)
        self.room = pathlib.Path(kept.name)
        self.top = self.room / "top"
        files = {
            "crates.txt": "low:\nhigh: low json\nbeside:\n",
            "HANDLES": "Handles allowed: none.\n",
            "mutants/low.edits": "## one\nfile: src/lib.rt\nold: a\nnew: b\n\n## is_kept\nfile: src/lib.rt\nold: a\nnew: c\n",
            "mutants/high.edits": "## two\nfile: src/lib.rt\nold: a\nnew: d\n",
            "mutants/beside.edits": "## three\nfile: src/lib.rt\nold: a\nnew: e\n",
            **{f"crates/{it}/src/lib.rt": "a\n" for it in ("low", "high", "beside")},
            "crates/low/must-fail/gate.edit": "file: src/lib.rt\nold: a\nnew: f\n",
        }
        for path, text in files.items():
            (self.top / path).parent.mkdir(parents=True, exist_ok=True)
            (self.top / path).write_text(text)
        (self.top / "tools/dev").mkdir(parents=True)
        for it in ("mutants", "edits.py"):
            shutil.copy(HERE / it, self.top / "tools/dev" / it)
        (self.room / "bin").mkdir()
        (self.room / "bin/rt").write_text(RT)
        (self.room / "bin/rt").chmod(0o755)

    def call(self, *words):
        """Exit status and the lines of standard output."""
        env = {**os.environ, "PATH": f"{self.room}/bin:{os.environ['PATH']}", "ROOM": str(self.room)}
        how = {"stdout": subprocess.PIPE, "stderr": subprocess.DEVNULL, "universal_newlines": True, "env": env}
        ran = subprocess.run([sys.executable, str(self.top / "tools/dev/mutants"), *words], **how)
        return ran.returncode, ran.stdout.splitlines()

    def test_a_crate(self):
        status, lines = self.call("low")
        kept = "low/is_kept.edit: NOT REFUSED: the crate is still proved"
        self.assertEqual((status, lines), (1, [kept, "low/one.edit: refused, as it must be: x", "1 refused, 1 not"]))
        self.assertEqual((self.room / "edits").read_text(), "file: src/lib.rt\nold: a\nnew: c\nfile: src/lib.rt\nold: a\nnew: b\n")
        self.assertEqual((self.room / "crates").read_text(), "low\n")
        self.assertEqual(self.call("high"), (0, ["high/two.edit: refused, as it must be: x", "1 refused, 0 not"]))
        self.assertEqual(self.call("none")[0], 2)
        self.assertEqual(self.call()[0], 2)

    def test_since_a_commit(self):
        def git(*words):
            subprocess.run(["git", "-c", "user.name=x", "-c", "user.email=x@example.org", *words], cwd=str(self.top), check=True, stdout=subprocess.DEVNULL)

        git("init", "-q")
        git("add", "-A")
        git("commit", "-qm", "x")
        self.assertEqual(self.call("--since", "HEAD")[0], 2)
        for path in ("mutants/high.edits", "crates/high/src/lib.rt"):
            before = (self.top / path).read_text()
            (self.top / path).write_text(before + "\n")
            self.assertEqual(self.call("--since", "HEAD"), (0, ["high/two.edit: refused, as it must be: x", "1 refused, 0 not"]))
            (self.top / path).write_text(before)
        (self.top / "crates/low/src/more.rt").write_text("b\n")
        self.assertEqual(self.call("--since", "HEAD")[1][-1], "2 refused, 1 not")
        self.assertEqual(self.call("--all")[1][-1], "3 refused, 1 not")


if __name__ == "__main__":
    sys.exit(unittest.main())
