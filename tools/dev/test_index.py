#!/usr/bin/env python3
"""Tests of the index of what is proved: that docs/ has it as the sources are, and how the tool reads them.

    python3 tools/dev/test_index.py
"""
import functools
import importlib.machinery
import importlib.util
import io
import pathlib
import re
import subprocess
import sys
import tempfile
import unittest

sys.dont_write_bytecode = True
HERE = pathlib.Path(__file__).resolve().parent
TOP = HERE.parents[1]

_loader = importlib.machinery.SourceFileLoader("af_index", str(HERE / "index"))
_spec = importlib.util.spec_from_loader(_loader.name, _loader)
index = importlib.util.module_from_spec(_spec)
sys.modules[_loader.name] = index
_loader.exec_module(index)


@functools.lru_cache(maxsize=None)
def crates_here():
    return index.crates_in(TOP)


@functools.lru_cache(maxsize=None)
def pages_here():
    return index.pages_in(TOP)


SOURCE = r'''
// A comment with a brace { and pub fn not_a_function().
ghost use Rattle.af_x.specs.Rows.{IsRow, row_of as its_row};

/// A row. It has a second sentence.
///
/// And a second paragraph.
#[derive(Drop)]
pub struct Row<'a> {
    text: &'a str,
}

impl<'a> Model for Row<'a> {
    ghost Value = { List N };
}

impl<'a, T: Into<Option<u8>>> Row<'a> {
    /// Opens a row of `{`, e.g. an
    /// empty one. More is not shown.
    pub fn open(text: &'a str) -> Row<'a>
        requires { 0 < length text.now }
        requires short { length text.now < 9 }
        ensures row { IsRow (record { a = 1; b = { 2 } }) }
        ensures { its_row result ≡ text.now }
    {
        let c = '{';
        let s = "} pub fn no() ensures { }";
        let b = b'}';
        Row { text }
    }

    /// Its bytes.
    pub fn bytes(&self) -> &[u8; 32]
        ensures bytes { its_row result.now ≡ [ 1; 2 ] }
    {
        &[0; 32]
    }

    /// No contract.
    pub fn bare(&self) -> u8 {
        1
    }

    /// Not public.
    fn hidden(&self)
        ensures { IsRow self.now }
    {}

    /// Public in the crate alone.
    pub(crate) fn inner(&self)
        ensures { IsRow self.now }
    {}

    /// The last.
    pub const fn last(
        &self,
        more: (u8, u8),
    ) -> u8
        ensures value { result ≡ 1 }
    { 1 }
}

impl From<Wrong<u8>> for Row<'_> {
    ghost from_gives = { λ wrong row. IsRow row };

    fn from(wrong: Wrong<u8>) -> Self { Row { text: "" } }
}

impl From<[u8; 2]> for Row<'_> {
    ghost from_gives = { λ bytes row. IsRow row };
}

impl fmt::Display for Row<'_> {
    /// The text.
    fn fmt(&self, f: &mut Formatter) -> fmt::Result
        ensures text { IsRow self.now }
    { Ok(()) }
}

impl Private {
    pub fn open() ensures { IsRow 0 } {}
}

impl Rows for [u8; 2] {
    ghost rows = { IsRow };

    fn count(&self) -> u8 { 2 }
}

/// What rows have.
pub trait Rows {
    ghost rows: { Self → Type 0 };

    /// How many. There may be none.
    fn count(&self) -> u8
        ensures { IsRow result };
}

mod tests {
    pub fn exported() ensures { IsRow 1 } {}
}

/// A law of rows.
pub fn rows_are_rows()
    ensures { IsRow }
{}

/// A law with two clauses.
pub fn two_laws<T: Rows>()
    ensures one { IsRow }
    ensures other { its_row 1 }
{
    rows_are_rows();
}

/// No law, since it gives something.
pub fn one() -> u8
    ensures { IsRow }
{ 1 }

/// Not exported.
pub fn not_exported(a: u8)
    ensures { IsRow }
{}
'''


def read(is_public, *exported):
    return index.Source(SOURCE, "src/row.rt", set(exported), is_public).found


class Repository(unittest.TestCase):
    def test_the_index_is_that_of_the_sources(self):
        said = io.StringIO()
        self.assertEqual(index.main(["--check"], out=said), 0, said.getvalue())

    def test_crates(self):
        names = [it.name for it in crates_here()]
        wanted = [it.name for it in sorted((TOP / "crates").iterdir()) if it.name != "afplane" and not it.name.endswith("_tests") and (it / "src").is_dir()]
        self.assertEqual(names, wanted)

    def test_each_crate_has_a_promise_and_something_to_show(self):
        for crate in crates_here():
            with self.subTest(crate.name):
                self.assertRegex(crate.promise, r"\A[A-Z].*\.\Z")
                self.assertTrue(crate.functions or crate.laws)

    def test_links_lead_to_files(self):
        for name, text in pages_here().items():
            page = TOP / "docs" / name
            for target in re.findall(r"\]\(([^)\s]+)\)", text):
                self.assertTrue((page.parent / target).resolve().is_file(), f"{name}: {target}")

    def test_no_line_is_too_long(self):
        for name, text in pages_here().items():
            with self.subTest(name):
                self.assertEqual([it for it in text.split("\n") if len(it) > 160], [])

    def test_functions_that_promises_name(self):
        """By hand, one of each form: a method, a law, a function of a module, of a trait, a relation of an impl."""
        crates = {it.name: it for it in crates_here()}
        for crate, name, labels in (
            ("af_board", "Board::publish", ["receipt", "last", "was", "added", "looked", "err"]),
            ("af_server", "once", ["once", "long"]),
            ("af_http", "Service::answer", ["_"]),
            ("af_ops", "prepare", ["told", "rows", "room", "exact"]),
        ):
            with self.subTest(name):
                (one,) = [it for it in crates[crate].functions if it.name == name]
                self.assertLessEqual(set(labels), set(one.ensures))
        (law,) = [it for it in crates["af_world"].laws if it.name == "denials_name_the_first"]
        self.assertEqual(law.states, ("af_world", "specs/Laws.antt", "DenialsNameTheFirst"))
        self.assertEqual([it.ensures for it in crates["af_server"].functions if it.name.startswith("Worker as Service")], [["answers"]])


class Chains(unittest.TestCase):
    """What docs/PROOFS.md cites is in the sources."""

    LABELS = r"(?: \(((?:`\w+`(?:, )?)+)\))?"

    @classmethod
    def setUpClass(cls):
        text = (TOP / "docs/PROOFS.md").read_text(encoding="utf-8")
        cls.chains, _, cls.notes = (" ".join(it.split()) for it in text.partition("\n## What no clause says\n"))
        crates = crates_here()
        cls.labels = {}
        for crate in crates:
            for one in [*crate.laws, *crate.functions]:
                cls.labels.setdefault((crate.name, one.name), set()).update(one.ensures)
        cls.pages = {f"../crates/{it.name}/{file}": {one.name for one in found} for it in crates for file, _, found in it.pages}

    def test_functions_and_clauses(self):
        cited = re.findall(rf"`(af_\w+)::([^`]+)`{self.LABELS}", self.chains)
        self.assertGreater(len(cited), 40)
        for crate, name, labels in cited:
            with self.subTest(f"{crate}::{name}"):
                self.assertIn((crate, name), self.labels)
                self.assertLessEqual(set(re.findall(r"\w+", labels)), self.labels[crate, name])

    def test_clauses_in_notes(self):
        cited = re.findall(rf"`((?:[A-Z]\w+::)\w+)`{self.LABELS}", f"{self.chains} {self.notes}")
        self.assertGreater(len(cited), 8)
        for name, labels in cited:
            with self.subTest(name):
                found = [there for (_, it), there in self.labels.items() if it == name]
                self.assertTrue(not labels or any(set(re.findall(r"\w+", labels)) <= there for there in found))

    def test_definitions(self):
        cited = re.findall(r"\[((?:`\w+`(?:, )?)+)\]\((\.\./crates/[^)]+)\)", self.chains)
        self.assertGreater(len(cited), 25)
        for names, page in cited:
            with self.subTest(names):
                self.assertLessEqual(set(re.findall(r"\w+", names)), self.pages[page])


class Sources(unittest.TestCase):
    def test_public_functions_with_contracts(self):
        found = [(it.name, it.ensures, it.requires) for it in read(False, "Row", "Rows", "rows_are_rows", "two_laws", "one")]
        self.assertEqual(found, [
            ("Row::open", ["row", "_"], ["_", "short"]),
            ("Row::bytes", ["bytes"], []),
            ("Row::last", ["value"], []),
            ("Row as From<Wrong<u8>>", ["from_gives"], []),
            ("Row as From<[u8; 2]>", ["from_gives"], []),
            ("Row::fmt", ["text"], []),
            ("Rows::count", ["_"], []),
            ("rows_are_rows", ["_"], []),
            ("two_laws", ["one", "other"], []),
            ("one", ["_"], []),
        ])

    def test_what_is_not_exported_is_left_out(self):
        self.assertEqual([it.name for it in read(False)], [])
        self.assertEqual([it.name for it in read(True)], ["rows_are_rows", "two_laws", "one", "not_exported"])

    def test_comments(self):
        found = {it.name: it.comment for it in read(True, "Row", "Rows")}
        self.assertEqual(found["Row::open"], "Opens a row of `{`, e.g. an empty one. More is not shown.")
        self.assertEqual(found["Row::fmt"], "The text.")
        self.assertEqual(found["Rows::count"], "How many. There may be none.")
        self.assertEqual(found["Row as From<Wrong<u8>>"], "")

    def test_laws(self):
        found = {it.name: (it.is_law, it.states) for it in read(True)}
        self.assertEqual(found, {
            "rows_are_rows": (True, ("af_x", "specs/Rows.antt", "IsRow")),
            "two_laws": (True, ()),
            "one": (False, ()),
            "not_exported": (False, ()),
        })

    def test_definitions_cited(self):
        found = {it.name: [name for _, _, name in it.cites] for it in read(True, "Row")}
        self.assertEqual(found["Row::open"], ["IsRow", "row_of"])
        self.assertEqual(found["two_laws"], ["IsRow", "row_of"])
        self.assertEqual(found["Row as From<Wrong<u8>>"], ["IsRow"])
        self.assertEqual(found["Row::last"], [])

    def test_exports(self):
        text = "//! One. Two.\n//! Three.\n//!\n//! Four.\nmod a;\npub mod laws;\npub use a::{\n    B, c,\n};\npub use d::E;\npub(crate) use f::G;\n// pub use h::I;\n"
        self.assertEqual(index.exports_of(text), ({"B", "c", "E"}, {"laws"}))
        self.assertEqual(index.promise_of(text), "One. Two. Three.")


class Definitions(unittest.TestCase):
    def test_definitions(self):
        text = """-- What is here
-- (a rule).
use Rattle.std.specs.Prelude.{N}

-- ---- a heading

-- a row. Its
-- second sentence
pub record IsRow (row : N) : Type 0 where
  -- a field
  pub value : N

abbrev pub bare : N → N
bare n = n

-- not public
abbrev own : N → N

-- an operator
infixl 10 ◌>>=◌
abbrev pub ◌>>=◌ : N → N

module _ {S : Type 0} where
  -- what there may be
  pub data Kind : Type 0 where
    first : Kind

-- what each does
-- * one: adds
--   one
-- * two: adds two
unfoldable pub front : N
"""
        head, found = index.definitions_in(text)
        self.assertEqual(head, "What is here (a rule).")
        self.assertEqual([(it.name, it.comment) for it in found], [
            ("IsRow", "a row. Its second sentence"),
            ("bare", ""),
            ("◌>>=◌", "an operator"),
            ("Kind", "what there may be"),
            ("front", "what each does\n* one: adds one\n* two: adds two"),
        ])

    def test_no_comment_at_the_top(self):
        self.assertEqual(index.definitions_in("use A.{B}\n-- a\nabbrev pub b : N\n"), ("", [index.Definition("b", "a")]))


class Texts(unittest.TestCase):
    def test_first_sentence(self):
        for text, first in (
            ("", ""),
            ("One", "One"),
            ("One. Two.", "One."),
            ("A, e.g. A. Then B.", "A, e.g. A."),
            ("Reads .. Then not.", "Reads .. Then not."),
            ("It is 1.5 and af. more. `Code` next.", "It is 1.5 and af. more."),
            ("Why? Because.", "Why?"),
            ("(An aside.) More.", "(An aside.)"),
        ):
            with self.subTest(text):
                self.assertEqual(index.first_sentence(text), first)

    def test_escaped(self):
        self.assertEqual(index.escaped("a * b of `a * b` and <T> [x]_"), r"a \* b of `a * b` and \<T\> \[x\]\_")

    def test_entry(self):
        self.assertEqual(index.entry("a", "", "", ""), "- `a`")
        self.assertEqual(index.entry("a", " (`b`)", "c", "d"), "- `a` (`b`): c d")
        self.assertEqual(index.entry("a", "", "what each does\n* one: b\n* two: c", "[`d`]"), "- `a`: what each does [`d`]\n  - one: b\n  - two: c")

    def test_wrapped(self):
        words = " ".join(["word"] * 31 + ["12345"] + ["+", "1", "2.", "- end"])
        lines = index.wrapped(f"- {words}", "  ").split("\n")
        self.assertEqual(" ".join(it.strip() for it in lines), f"- {words}")
        self.assertGreater(len(lines), 1)
        for it in lines[1:]:
            self.assertRegex(it, r"\A  \w+")

    def test_a_mark_begins_no_line(self):
        text = "x" * 158 + " + 1"
        self.assertEqual(index.wrapped(text), f"{'x' * 158} +\n1")


class Trees(unittest.TestCase):
    """The tool on a small tree of its own."""

    def setUp(self):
        kept = tempfile.TemporaryDirectory()
        self.addCleanup(kept.cleanup)
        self.top = pathlib.Path(kept.name)
        self.plant()

    def plant(self):
        self.put("crates/af_x/src/lib.rt", "//! Rows.\nmod row;\npub use row::Row;\n")
        self.put("crates/af_x/src/row.rt", "ghost use Rattle.af_x.specs.Rows.{IsRow};\nimpl Row {\n    /// Opens.\n    pub fn open()\n        ensures row { IsRow }\n    {}\n}\n")
        self.put("crates/af_x/src/worked.rt", "/// Worked.\npub fn row_by_the_rule()\n    ensures { IsRow }\n{}\n")
        self.put("crates/af_x/specs/Rows.antt", "-- Rows (a rule).\n\n-- a row\nabbrev pub IsRow : Type 0\n")
        self.put("crates/af_x_tests/src/lib.rt", "//! Tests.\n")
        index.write(self.top)

    def put(self, path, text):
        (self.top / path).parent.mkdir(parents=True, exist_ok=True)
        (self.top / path).write_text(text, encoding="utf-8")

    def edit(self, path, old, new):
        text = (self.top / path).read_text(encoding="utf-8")
        self.assertEqual(text.count(old), 1)
        self.put(path, text.replace(old, new))

    def check(self):
        said = io.StringIO()
        return index.main(["--check"], self.top, said), said.getvalue()

    def test_pages(self):
        self.assertEqual(sorted(it.name for it in (self.top / "docs").rglob("*.md")), ["INDEX.md", "af_x.md"])
        self.assertEqual((self.top / "docs/index/af_x.md").read_text(encoding="utf-8"), """\
# af_x

Rows.

*Written by `tools/dev/index` from the crate's sources; [how to read it](../INDEX.md).*

## Functions

### [src/row.rt](../../crates/af_x/src/row.rt)

- `Row::open` (`row`): Opens.

## Definitions

### [specs/Rows.antt](../../crates/af_x/specs/Rows.antt)

Rows (a rule).

- `IsRow`: a row [`Row::open`]

## Worked examples

[src/worked.rt](../../crates/af_x/src/worked.rt)
""")

    def test_fresh(self):
        self.assertEqual(self.check(), (0, ""))

    def test_a_line_elsewhere_changes_nothing(self):
        self.edit("crates/af_x/src/row.rt", "impl Row {\n", "// A comment.\n\nimpl Row {\n    fn other() {}\n\n")
        self.assertEqual(self.check(), (0, ""))

    def test_a_stale_page_names_the_command(self):
        for path, old, new in (
            ("crates/af_x/src/row.rt", "/// Opens.", "/// Opens a row."),
            ("crates/af_x/src/row.rt", "ensures row", "ensures other"),
            ("crates/af_x/specs/Rows.antt", "-- a row", "-- one row"),
            ("crates/af_x/src/lib.rt", "pub use row::Row;", ""),
            ("docs/index/af_x.md", "Opens.", "Closes."),
        ):
            with self.subTest(new):
                self.plant()
                self.edit(path, old, new)
                status, said = self.check()
                self.assertEqual(status, 1)
                self.assertIn("docs/index/af_x.md: line ", said)
                self.assertEqual(said.split("\n")[-2], "the index differs from the sources: run tools/dev/index, and commit what it writes")
                index.write(self.top)
                self.assertEqual(self.check(), (0, ""))

    def test_a_page_too_many_or_too_few(self):
        self.put("docs/index/af_gone.md", "# af_gone\n")
        (self.top / "docs/INDEX.md").unlink()
        status, said = self.check()
        self.assertEqual(status, 1)
        self.assertEqual(said.split("\n")[:2], ["docs/index/af_gone.md: no crate has this page", "docs/INDEX.md: missing"])
        index.write(self.top)
        self.assertEqual(self.check(), (0, ""))
        self.assertFalse((self.top / "docs/index/af_gone.md").exists())

    def test_arguments(self):
        done = subprocess.run([sys.executable, str(HERE / "index"), "--chek"], capture_output=True, text=True, check=False)
        self.assertEqual((done.returncode, done.stdout), (2, ""))
        self.assertIn("--check", done.stderr)


if __name__ == "__main__":
    sys.exit(unittest.main())
