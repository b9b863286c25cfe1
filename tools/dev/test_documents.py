#!/usr/bin/env python3
"""Tests of the documents: links lead somewhere, definitions are where it is said, what is said twice has the same words, and no line and no
sentence is too long. What PROOFS.md says of clauses is in test_index.py.

    python3 tools/dev/test_documents.py
"""
import json
import pathlib
import re
import sys
import unittest

TOP = pathlib.Path(__file__).resolve().parents[2]
sys.dont_write_bytecode = True
sys.path.insert(0, str(TOP / "model"))
import oracle  # noqa: E402

CRATES = TOP / "crates"
FOLDERS = ("model", "conformance", "bench", "examples")
DOCUMENTS = [TOP / "README.md", *sorted((TOP / "docs").glob("*.md")), *sorted(page for it in FOLDERS for page in (TOP / it).rglob("*.md"))]

# All pages: those above, and those at the top but the first page. The tables of results are measured, not written.
PAGES = [*DOCUMENTS, *sorted(it for it in TOP.glob("*.md") if it.name != "README.md")]
RESULTS = TOP / "bench/results"

# Written by tools/dev/index from the sources, with the sentences that stand there.
INDEX = [TOP / "docs/INDEX.md", *sorted((TOP / "docs/index").glob("*.md"))]
MOST_COLUMNS, MOST_WORDS = 160, 40
ITEM = re.compile(r"(?:[-*]|\d+\.) ")
# Names of zsh's own, which a command that is pasted into it must not set: `path`, say, is `PATH` as a list.
OF_ZSH = """aliases argv cdpath commands fignore fpath functions histchars history jobstates mailpath manpath module_path options parameters path pipestatus
    prompt psvar signals status watch""".split()
ONE = f"(?:{'|'.join(OF_ZSH)})"
SETS_ONE = re.compile(rf"(?:^|[\s;&|({{]){ONE}\+?=|\bfor\s+{ONE}\b|\bread\s+(?:[\w-]+\s+)*{ONE}\b")
NOT_AN_END = {"e.g.", "i.e.", "etc.", "cf.", "vs.", "no."}


def text_of(path):
    return path.read_text(encoding="utf-8")


def words_of(text):
    """The text on one line, without the marks of a quotation."""
    return " ".join(re.sub(r"(?m)^> ?", "", text).split())


def quotations(text):
    return [words_of(it) for it in re.findall(r"(?m)(?:^>.*\n)+", text)]


def anchor_of(heading):
    """The anchor that a reader of Markdown makes of a heading, of a link in it by its text."""
    heading = re.sub(r"\[([^\]]*)\]\([^)]*\)", r"\1", heading)
    return re.sub(r"[^\w\- ]", "", heading.strip().lower()).replace(" ", "-")


def anchors_in(path):
    return {anchor_of(it) for it in re.findall(r"(?m)^#+ (.*)$", text_of(path))}


def rows_below(page, head):
    """Of each row of the tables with this head the crate of the heading above it, and the cells."""
    rows, crate, within = [], None, False
    for line in text_of(TOP / page).split("\n"):
        heading = re.match(r"## (af_\w+)", line)
        crate = heading[1] if heading else crate
        within = line == head or within and line.startswith("|")
        if within and line != head and not line.startswith("|---"):
            rows.append((crate, [it.strip() for it in line[1:].rstrip("| ").split("|")]))
    return rows


def lines_of(text):
    """Each line of a page, and whether it is code: between fences, or indented where no list is open."""
    found, fenced, listed = [], False, False
    for line in text.split("\n"):
        fence = line.lstrip().startswith("```")
        fenced = fenced != fence
        if not fence and not fenced and line.strip():
            listed = bool(ITEM.match(line.lstrip())) or listed and line.startswith(" ")
        found.append((line, fence or fenced or line.startswith("    ") and not listed))
    return found


def pieces_of(text):
    """The paragraphs, items, headings and cells of a page, each on one line, without its code and its block quotes."""
    found, paragraph = [], []
    for line, is_code in lines_of(text):
        line = line.strip()
        if is_code or not line or line[0] in "#|>" or ITEM.match(line):
            found.append(" ".join(paragraph))
            paragraph = []
        if is_code or line.startswith(">"):
            continue
        if line.startswith(("|", "#")):
            found += re.split(r"(?<!\\)\|", line.lstrip("#"))
        else:
            paragraph.append(ITEM.sub("", line, count=1) if ITEM.match(line) else line)
    return [it.strip() for it in [*found, " ".join(paragraph)] if it.strip()]


def sentences_of(piece):
    """The words of each sentence; a link is its text, code is one word, and two dots leave something out."""
    text = re.sub(r"!?\[([^\]]*)\]\([^)]*\)", r"\1", piece)
    text = re.sub(r"\.\.+", "", re.sub(r"`[^`]*`", "code", text))
    found = [[]]
    for word in text.split():
        if re.search(r"\w", word):
            found[-1].append(word)
        if re.search(r"[.!?][\"')*_]*$", word) and word.strip("(\"'*_").lower() not in NOT_AN_END:
            found.append([])
    return [it for it in found if it]


class Documents(unittest.TestCase):
    def test_the_promise_has_one_wording(self):
        explained = quotations(text_of(TOP / "docs/GUARANTEES.md"))
        promised = quotations(text_of(TOP / "README.md"))
        self.assertEqual(len(explained), 2)
        self.assertIn(explained[0], promised)
        for it in promised:
            self.assertIn(it, explained)

    def test_operations_are_counted(self):
        """The first page and that of the API say how many operations there are: those below /api/v1, which are Airflow's, and those of this project."""
        paths = json.loads(text_of(TOP / "docs/openapi.json"))["paths"]
        asked = [path for path, item in paths.items() for it in item if it in ("get", "post", "patch", "delete")]
        own = [it for it in asked if it.startswith("/own/")]
        words = ["no", "one", "two", "three", "four", "five"]
        self.assertEqual({it.split("/")[1] for it in asked}, {"api", "own"})
        counted = re.search(r"\[(\d+) of Airflow's operations\]\(docs/API.md\) under `/api/v1`, and (\d+) of its own", text_of(TOP / "README.md"))
        self.assertEqual(counted.groups(), (str(len(asked) - len(own)), str(len(own))))
        counted = re.search(r"implements (\d+) operations .*\n(\w+) more, below `/own`", text_of(TOP / "docs/API.md"))
        self.assertEqual(counted.groups(), (str(len(asked) - len(own)), words[len(own)].capitalize()))

    def test_each_crate_has_a_row(self):
        crates = [it.name for it in sorted(CRATES.iterdir()) if (it / "src").is_dir() and not it.name.endswith(("_tests", "_bench")) and it.name != "afplane"]
        rows = [cells[0].strip("`") for _, cells in rows_below("docs/ARCHITECTURE.md", "| Crate | What it is for | What contracts see |")]
        self.assertEqual(sorted(rows), sorted([*crates, "afplane"]))

    def test_links_lead_somewhere(self):
        for page in {*PAGES, *INDEX}:
            for target in re.findall(r"\]\(([^)\s]+)\)", text_of(page)):
                path, _, anchor = target.partition("#")
                if "://" in path:
                    continue
                there = (page.parent / path).resolve() if path else page
                self.assertTrue(there.exists(), f"{page.name}: {target}")
                if anchor:
                    self.assertIn(anchor, anchors_in(there), f"{page.name}: {target}")

    def test_rules_of_questions_stand_where_it_is_said(self):
        page = text_of(TOP / "docs/QUESTIONS.md")
        notes = re.findall(r"(?m)^\[\^(\w+)\]: (.*)\.$", page)
        self.assertGreater(len(notes), 15)
        self.assertEqual(re.findall(r"\[\^(\w+)\](?!:)", page), [name for name, _ in notes])
        for name, rules in notes:
            with self.subTest(note=name):
                found = re.findall(r"((?:`\w+`(?:, )?)+) in (af_\w+/specs/\w+\.antt)", rules)
                self.assertEqual("; ".join(f"{names} in {path}" for names, path in found), rules)
                for names, path in found:
                    for name in re.findall(r"\w+", names):
                        self.assertRegex(text_of(CRATES / path), rf"(?m)^\s*(?:[a-z]+ )*{name}(?!\w)")

    def test_each_rule_of_questions_has_a_note(self):
        rules = text_of(TOP / "docs/QUESTIONS.md").partition("\n## Rules\n")[2]
        sections = re.findall(r"(?ms)^### (.*?)\n(.*?)(?=^##|^\[\^|\Z)", rules)
        self.assertGreater(len(sections), 15)
        for question, answer in sections:
            with self.subTest(question=question):
                self.assertRegex(answer.strip(), r"\[\^\w+\]$")

    def test_code_blocks_of_json_are_json(self):
        for page in PAGES:
            for block in re.findall(r"(?ms)^```json\n(.*?)^```", text_of(page)):
                json.loads(block)

    def test_commands_set_no_name_of_zsh(self):
        for page in PAGES:
            # (what is fenced is HTTP and JSON)
            commands = [line for line, is_code in lines_of(text_of(page)) if is_code and line.startswith("    ")]
            with self.subTest(page=str(page.relative_to(TOP))):
                self.assertEqual([it for it in commands if SETS_ONE.search(it)], [])

    def test_no_line_is_too_long(self):
        for page in PAGES:
            with self.subTest(page=str(page.relative_to(TOP))):
                lines = enumerate(lines_of(text_of(page)), 1)
                self.assertEqual([number for number, (line, is_code) in lines if len(line) > MOST_COLUMNS and not (is_code and is_json(line))], [])

    def test_no_sentence_is_too_long(self):
        for page in PAGES:
            if RESULTS in page.parents or page in INDEX:
                continue
            with self.subTest(page=str(page.relative_to(TOP))):
                sentences = [it for piece in pieces_of(text_of(page)) for it in sentences_of(piece)]
                self.assertEqual([" ".join(it) for it in sentences if len(it) > MOST_WORDS], [])


def is_json(line):
    """Whether a line is a text of JSON, as the program writes it."""
    try:
        json.loads(line)
    except ValueError:
        return False
    return True


class Splitting(unittest.TestCase):
    """What is taken for a line of code, a piece and a sentence."""

    PAGE = """# A head. Line

One two three. Four, e.g. five `six. seven` .. [eight nine](ten.md)!
Eleven

    code that is indented. And more

> Quoted. Words

- an item
  that goes on

  1. one below

    still the item below
| a cell | another. cell |

```text
fenced. code
```
"""

    def test_code(self):
        code = [line.strip() for line, is_code in lines_of(self.PAGE) if is_code]
        self.assertEqual(code, ["code that is indented. And more", "```text", "fenced. code", "```"])

    def test_pieces(self):
        pieces = pieces_of(self.PAGE)
        self.assertEqual(pieces[0], "A head. Line")
        self.assertEqual(pieces[1][:14], "One two three.")
        self.assertEqual(pieces[2:], ["an item that goes on", "one below", "still the item below", "a cell", "another. cell"])

    def test_what_sets_a_name_of_zsh(self):
        for it in ("ask() { who=$1 path=$2; }", "status=$?", "    path+=/bin", "for path in *; do", "while read -r x path; do", "a && (argv=1)"):
            self.assertTrue(SETS_ONE.search(it), it)
        for it in ("to=$1", "curl '/x?path=1'", "--path=x", "echo $path", "PATH=/bin", 'curl -d \'{"status":1}\'', "xpath=1", "export PATH=x"):
            self.assertFalse(SETS_ONE.search(it), it)

    def test_sentences(self):
        counts = [len(it) for it in sentences_of(pieces_of(self.PAGE)[1])]
        self.assertEqual(counts, [3, 6, 1])


class FirstPage(unittest.TestCase):
    def test_the_answer_is_the_models(self):
        request, answer = (it.replace("\n", "\r\n").encode() for it in re.findall(r"(?ms)^```http\n(.*?)\n```$", text_of(TOP / "README.md")))
        plane = oracle.Plane((TOP / "examples/demo.json").read_bytes())
        self.assertEqual(oracle.answers(plane, request), (answer, True))


class Configuration(unittest.TestCase):
    """The examples of docs/CONFIGURATION.md are members that a configuration may have."""

    def test_examples(self):
        page = text_of(TOP / "docs/CONFIGURATION.md")
        whole = re.search(r"(?ms)^```json\n(.*?)^```", page)[1]
        rows = re.findall(r"(?m)^\| (.*) \| `(\".*)` \| .* \|$", page)
        self.assertEqual(len(rows), 30)
        for first, example in rows:
            named = first.split(" | ")[0].strip("`")
            config = json.loads(whole)
            with self.subTest(member=named):
                (name, value), = json.loads("{%s}" % example).items()
                row, wanted = row_of(config, named)
                self.assertEqual(name, wanted)
                row[name] = value
                oracle.Plane(json.dumps(config).encode())


def row_of(config, named):
    """The row of a configuration in which a member stands, and the member's name."""
    pair, dag = config["roles"][0]["actions"][0], config["dags"][0]
    if named in ("A", "R"):
        return pair["action" if named == "A" else "resource"], "name"
    if "[]" in named:
        listed, _, name = named.partition("[].")
        return config[listed][-1], name
    if named.endswith("_limit"):
        return config, named
    of_task = ("task_id", "upstream", "pool", "pool_slots", "priority_weight", "retries", "retry_delay", "trigger_rule", "script")
    return dag["tasks"][1] if named in of_task else dag, named


class Calls(unittest.TestCase):
    """The functions, clauses and types that documents name are those of the sources."""

    @classmethod
    def setUpClass(cls):
        sources = [text_of(it) for folder in ("src", "specs") for it in CRATES.glob(f"*/{folder}/**/*") if it.suffix in (".rt", ".antt")]
        cls.words = set(re.findall(r"\w+", " ".join(sources))) | {it.stem for it in CRATES.glob("*/proofs/**/*.antt")}

    def test_names_are_there(self):
        pages = ("ARCHITECTURE", "DECISIONS", "GUARANTEES", "PROOFS", "TOOLCHAIN")
        for page in (TOP / "README.md", *(TOP / "docs" / f"{it}.md" for it in pages)):
            text = re.sub(r"(?ms)^```.*?^```", "", text_of(page))
            for name in re.findall(r"`([A-Za-z_][\w:]*)`", text):
                for part in name.split("::"):
                    with self.subTest(page=page.name, name=name):
                        self.assertTrue(part in self.words or part in FOREIGN or (CRATES / part).is_dir())


class Requirements(unittest.TestCase):
    """What each operation requires is said alike by the table of operations, by docs/API.md in its table and its sections, and by docs/openapi.json."""

    @classmethod
    def setUpClass(cls):
        table = text_of(CRATES / "af_ops/specs/Table.antt")
        routes = re.findall(r"(?m)^route_of endpoint\.\w+ = \w+ (\w+) template\.\w+(.*)$", table)
        cls.routes = sorted((method.upper(), cls.needs_of(needs)) for method, needs in routes)
        cls.api = text_of(TOP / "docs/API.md")
        cls.paths = json.loads(text_of(TOP / "docs/openapi.json"))["paths"]

    @staticmethod
    def needs_of(needs):
        """The requirements of a row of the table, as documents write them."""
        spelled = []
        for kind, action, resource in re.findall(r"(at_some_dag|at_dag|at_runs|on_all) (?:action\.)?(\w+) ?(\w*)", needs):
            words = re.sub(r"(?<=[a-z])(?=[A-Z])", " ", resource).replace("Dag ", "DAG ")
            spelled.append(f"{({'on_all': words, 'at_runs': 'DAG Runs'}).get(kind, 'DAGs')}.can_{action.lower()}")
        return spelled

    @staticmethod
    def named_in(text):
        """The permissions that a text names, in order, each once; what stands in brackets explains."""
        names = "DAGs|DAG Runs|Task Instances|Pools|Variables|Audit Logs|Roles|Users"
        return [*dict.fromkeys(re.findall(rf"(?:{names})\.can_\w+", re.sub(r"\([^)]*\)", "", text)))]

    def test_they_are_said_alike(self):
        rows = re.findall(r"(?m)^\| \[`([A-Z]+) ([^`]+)`\]\([^)]*\) \| [^|]* \| ([^|]*) \|$", self.api)
        told = []
        for method, path, said in rows:
            with self.subTest(method=method, path=path):
                needs = told[-1][1] if said == "the same" else self.named_in(said)
                told.append((method, needs))
                section = self.api.partition(f"\n### {method} {path}\n")[2].partition("\n### ")[0]
                self.assertEqual(self.named_in(re.search(r"(?m)^- \*\*Requires\*\* (.*)$", section)[1]), needs)
                self.assertEqual(self.named_in(self.paths[path][method.lower()]["description"]), needs)
        self.assertEqual(sorted(told), self.routes)


# What documents name that is in no source: the ends of the names of crates of tests and of worked examples, what was not taken, and a word of ./afplane.
FOREIGN = {"_tests", "_by_the_rule", "Tape", "check"}


if __name__ == "__main__":
    sys.exit(unittest.main())
