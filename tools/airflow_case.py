"""What the tests of from_airflow.py share: calls of it on files of a folder of their own."""
import contextlib
import io
import json
import os
import pathlib
import sys
import tempfile
import unittest

sys.dont_write_bytecode = True
import from_airflow  # noqa: E402

TOOL = pathlib.Path(__file__).resolve().with_name("from_airflow.py")
TOP = TOOL.parents[1]
SAMPLES = TOP / "examples" / "airflow"
README = (SAMPLES / "README.md").read_text(encoding="utf-8")
PROGRAM = pathlib.Path(os.environ.get("AFPLANE_PROGRAM", TOP / "crates/afplane/out/afplane"))
ADMIN = {"username": "root", "roles": ["Admin"]}


def flat(name, resource, action):
    return {"name": name, "resource": resource, "action": action}


def granted(config, name):
    """The permissions of a role of a configuration, as texts, in their order."""
    (role,) = (it for it in config["roles"] if it["name"] == name)
    return [f"{it['resource']['name']}.{it['action']['name']}" for it in role["actions"]]


class Case(unittest.TestCase):
    def setUp(self):
        kept = tempfile.TemporaryDirectory()
        self.addCleanup(kept.cleanup)
        self.folder = pathlib.Path(kept.name)
        self.config = self.folder / "afplane.json"

    def file(self, name, value):
        """A file of this text, of these bytes, or of this value as JSON."""
        path = self.folder / name
        text = value if isinstance(value, (str, bytes)) else json.dumps(value)
        path.write_bytes(text if isinstance(text, bytes) else text.encode())
        return str(path)

    def call(self, *words):
        """The status, and what standard output and standard error have."""
        out, err = io.StringIO(), io.StringIO()
        with contextlib.redirect_stdout(out), contextlib.redirect_stderr(err):
            try:
                status = from_airflow.main([str(it) for it in words])
            except SystemExit as ended:
                status = ended.code
        return status, out.getvalue(), err.getvalue()

    def convert(self, *words, **files):
        """The configuration from these files, the tokens by name, and what is told."""
        given = [it for name, value in files.items() for it in (f"--{name}", self.file(name, value))]
        status, out, err = self.call(*given, *words, self.config)
        self.assertEqual(status, 0, err)
        tokens = dict(line.split("\t") for line in out.splitlines())
        return json.loads(self.config.read_text()), tokens, err

    def refused(self, *words, **files):
        """What is told where nothing is written."""
        given = [it for name, value in files.items() for it in (f"--{name}", self.file(name, value))]
        status, out, err = self.call(*given, *words, self.config)
        self.assertEqual((status, out), (1, ""), err)
        self.assertEqual([it.name for it in self.folder.iterdir() if it.name.startswith("afplane")], [])
        return err
