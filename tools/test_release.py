#!/usr/bin/env python3
"""Tests of release, on a small repository with a fake program.

    python3 tools/test_release.py
"""
import hashlib
import os
import pathlib
import shutil
import subprocess
import sys
import tarfile
import tempfile
import unittest

TOOL = pathlib.Path(__file__).resolve().with_name("release")
PROGRAM = b"#!/bin/sh\necho fake\n"
NAME = "afplane-1-x86_64-linux"


class Release(unittest.TestCase):
    def setUp(self):
        kept = tempfile.TemporaryDirectory()
        self.addCleanup(kept.cleanup)
        self.top = pathlib.Path(kept.name) / "top"
        for path in ("LICENSE", "README.md", "examples/base.json", "examples/expected/viewer.out", "crates.txt", "crates/afplane/src/main.rt"):
            self.write(path, f"{path}\n".encode())
        self.write(".gitignore", b"out/\n")
        self.write("afplane", b"#!/bin/sh\necho afplane 1\n", 0o755)
        (self.top / "tools").mkdir()
        shutil.copy(TOOL, self.top / "tools/release")
        self.git("init", "-q")
        self.commit()

    def write(self, path, data, mode=0o644):
        (self.top / path).parent.mkdir(parents=True, exist_ok=True)
        (self.top / path).write_bytes(data)
        (self.top / path).chmod(mode)

    def git(self, *words):
        own = ["-c", "user.name=x", "-c", "user.email=x@example.org"]
        return subprocess.run(["git", *own, *words], cwd=self.top, stdout=subprocess.PIPE, check=True, universal_newlines=True).stdout.strip()

    def commit(self):
        self.git("add", "-A")
        self.git("commit", "-qm", "x")

    def build(self):
        self.write("crates/afplane/out/afplane", PROGRAM, 0o755)
        self.write("out/afplane-built", b"")

    def call(self, *words):
        """Exit status, standard output and standard error."""
        ran = subprocess.run([sys.executable, str(self.top / "tools/release"), *map(str, words)], stdout=subprocess.PIPE, stderr=subprocess.PIPE, universal_newlines=True)
        return ran.returncode, ran.stdout, ran.stderr

    def test_what_is_packed(self):
        self.build()
        status, out, err = self.call()
        self.assertEqual((status, err), (0, ""))
        path, *said = out.rstrip("\n").split("\n")
        self.assertEqual(path, str(self.top.resolve() / f"out/{NAME}.tar.gz"))
        digest = hashlib.sha256(PROGRAM).hexdigest()
        for it in (digest, self.git("rev-parse", "HEAD"), "./afplane build"):
            self.assertIn(it, " ".join(said))
        with tarfile.open(path) as tar:
            names = ["LICENSE", "README.md", "SHA256SUMS", "afplane", "examples/base.json", "examples/expected/viewer.out"]
            self.assertEqual(tar.getnames(), [f"{NAME}/{it}" for it in names])
            self.assertEqual({it.name.split("/", 1)[1] for it in tar.getmembers() if it.mode & 0o111}, {"afplane"})
            held = {it: tar.extractfile(f"{NAME}/{it}").read() for it in names}
        self.assertEqual(held["afplane"], PROGRAM)
        self.assertEqual(held["examples/base.json"], b"examples/base.json\n")
        lines = held.pop("SHA256SUMS").decode().rstrip("\n").split("\n")
        self.assertEqual([it for it in lines if it.startswith("#")], [f"# {it}" for it in said])
        sums = [it for it in lines if not it.startswith("#")]
        self.assertEqual(sums, [f"{hashlib.sha256(data).hexdigest()}  {name}" for name, data in held.items()])

    def test_the_same_bytes_again(self):
        self.build()
        self.assertEqual(self.call(self.top / "out/one")[0], 0)
        os.utime(self.top / "README.md", (1, 1))
        self.assertEqual(self.call(self.top / "out/two")[0], 0)
        one, two = ((self.top / f"out/{it}/{NAME}.tar.gz").read_bytes() for it in ("one", "two"))
        self.assertEqual(one, two)

    def test_what_is_refused(self):
        def refused(why, *words):
            status, out, err = self.call(*words)
            self.assertEqual((status, out), (1, ""))
            self.assertIn(why, err)
            self.assertFalse((self.top / f"out/{NAME}.tar.gz").exists())

        refused("not built")
        self.write("crates/afplane/out/afplane", PROGRAM, 0o755)
        refused("not built")
        self.build()
        made = (self.top / "out/afplane-built").stat().st_mtime
        os.utime(self.top / "crates/afplane/src/main.rt", (made + 5, made + 5))
        refused("crates/afplane/src/main.rt has changed")
        refused("no program", "--program", self.top / "README.md")
        os.utime(self.top / "crates/afplane/src/main.rt", (made - 5, made - 5))
        self.write("README.md", b"other\n")
        refused("differ from the last commit")
        (self.top / "LICENSE").unlink()
        self.commit()
        refused("LICENSE is missing")

    def test_a_program_from_elsewhere(self):
        self.write("out/elsewhere", PROGRAM + b"#", 0o755)
        status, out, _ = self.call("--program", self.top / "out/elsewhere", self.top / "out/x")
        self.assertEqual(status, 0)
        self.assertIn(hashlib.sha256(PROGRAM + b"#").hexdigest(), out)
        with tarfile.open(self.top / f"out/x/{NAME}.tar.gz") as tar:
            self.assertEqual(tar.extractfile(f"{NAME}/afplane").read(), PROGRAM + b"#")


if __name__ == "__main__":
    sys.exit(unittest.main())
