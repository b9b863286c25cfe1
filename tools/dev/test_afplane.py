#!/usr/bin/env python3
"""Tests of the script ./afplane, without the toolchain: a fake `rt` notes how it is called.

    python3 tools/dev/test_afplane.py
"""
import os
import pathlib
import re
import shutil
import signal
import socket
import subprocess
import sys
import tempfile
import time
import unittest

TOP = pathlib.Path(__file__).resolve().parents[2]
EXAMPLES = TOP / "examples"
NOW = "2024-01-01T00:00:00Z"
CHECK = "afplane: 'afplane check CONFIG' says which row and member is wrong, and what was expected\n"
PORT = "afplane: cannot listen on 127.0.0.1:8080: the port is in use\n"
COMMANDS = "sh awk basename cat chmod date dirname env find grep mkdir mktemp mv python3 readlink rm sed sleep tail touch tr wc"
ENDED = "\nchecked: ended status={0}\nraces: not looked for\nrun=ended status={0} runners=1 races=unchecked proved=no\n"

# Notes its folder and its arguments, a line for each call. `try` also keeps its input and the file of --data; `run` makes the program.
RT = r"""#!/bin/sh
echo "$(basename "$PWD") $*" >>"$ROOM/calls"
case $1 in
try)
    cat >"$ROOM/input"
    cat "${3#given=}" >"$ROOM/data"
    cat "$ROOM/out"
    cat "$ROOM/said" >&2
    exit "$(cat "$ROOM/status")"
    ;;
lib) [ "$(basename "$PWD")" != "$(cat "$ROOM/fails" 2>/dev/null)" ] || { echo "goal 7 is open" && exit 1; } ;;
run)
    mkdir -p out
    printf '#!/bin/sh\necho "built $*"\ncat\nexit 1\n' >out/afplane
    chmod +x out/afplane
    ;;
esac
"""

# Stands in for a server that `rt try` runs: a process below it listens, and what that prints comes once it has ended. If there is a file `leaves`,
# it ends before that process does.
SERVER = r"""
import os, pathlib, signal, socket, sys, time
room = pathlib.Path(os.environ["ROOM"])
with open(room / "calls", "a") as file:
    print(os.path.basename(os.getcwd()), *sys.argv[1:], file=file)
(room / "data").write_bytes(open(sys.argv[sys.argv.index("--data") + 1].partition("=")[2], "rb").read())
ends, begins = os.pipe()
child = os.fork()
if child == 0:
    time.sleep(float((room / "slow").read_text()) if (room / "slow").exists() else 0)
    listener = socket.create_server(("127.0.0.1", int(sys.argv[-2])))
    os.close(begins)
    while (room / "leaves").exists():
        signal.pause()
    os.read(ends, 1)
    os._exit(0)
signal.signal(signal.SIGTERM, lambda *_: (os.close(begins), (room / "leaves").exists() or os.waitpid(child, 0), os._exit(143)))
while not (room / "over").exists():
    signal.sigtimedwait([], 0.1)
os.close(begins)
os.waitpid(child, 0)
sys.stdout.write((room / "out").read_text())
sys.stderr.write((room / "said").read_text())
sys.exit(int((room / "status").read_text()))
"""


class Case(unittest.TestCase):
    def setUp(self):
        kept = tempfile.TemporaryDirectory(prefix="a b-")
        self.addCleanup(kept.cleanup)
        self.room = pathlib.Path(kept.name)
        self.top, self.bin = self.room / "top", self.room / "bin"
        self.bin.mkdir()
        for it in COMMANDS.split():
            (self.bin / it).symlink_to(shutil.which(it))
        self.top.mkdir()
        for it in ("model", "examples"):
            (self.top / it).symlink_to(TOP / it)
        (self.top / "tools").mkdir()
        for it in ("afplane", "crates.txt", "tools/build.py"):
            shutil.copy(TOP / it, self.top / it)
        for it in self.crates():
            (self.top / "crates" / it / "src").mkdir(parents=True)
            (self.top / "crates" / it / "src/lib.rt").touch()

    def crates(self):
        """The program's crates, the lowest first."""
        rows = re.findall(r"(?m)^(\w+)[^:#\n]*:(.*)$", (TOP / "crates.txt").read_text(encoding="utf-8"))
        wanted = {"afplane"}
        for name, below in reversed(rows):
            wanted.update(below.split() if name in wanted else [])
        return [name for name, _ in rows if name in wanted]

    def with_rt(self, status=0, out="", said=None):
        (self.bin / "rt").write_text(RT)
        (self.bin / "rt").chmod(0o755)
        for name, text in (("status", status), ("out", out), ("said", ENDED.format(status) if said is None else said)):
            (self.room / name).write_text(str(text))

    def with_short_sleep(self):
        """Fifteen seconds are 0.3, and one is 0.1."""
        (self.bin / "sleep").unlink()
        (self.bin / "sleep").write_text(f'#!/bin/sh\ncase $1 in 15) set 0.3 ;; 1) set 0.1 ;; *) exit 1 ;; esac\nexec "{shutil.which("sleep")}" "$1"\n')
        (self.bin / "sleep").chmod(0o755)

    def call(self, *words, data=b"", script=None):
        """Exit status, standard output and standard error."""
        env = {"PATH": str(self.bin), "ROOM": str(self.room), "TMPDIR": str(self.room)}
        words = [str(script or self.top / "afplane"), *map(str, words)]
        ran = subprocess.run(words, input=data, stdout=subprocess.PIPE, stderr=subprocess.PIPE, cwd=self.room, env=env, timeout=60)
        self.assertEqual([it.name for it in self.room.glob("tmp.*")], [], "a temporary folder is left")
        return ran.returncode, ran.stdout.decode(), ran.stderr.decode()

    def calls(self):
        path = self.room / "calls"
        return path.read_text().splitlines() if path.exists() else []


class Words(Case):
    def test_help_and_version(self):
        status, out, err = self.call("--help")
        self.assertEqual((status, err), (0, ""))
        for it in ("serve CONFIG PORT WORKERS", "once CONFIG NOW", "verify TRACE", "check CONFIG", "model once CONFIG NOW", "ui PORT SERVER-PORT", "build", "test", f"cd {self.top}"):
            self.assertIn(it, out)
        self.assertEqual(self.call("--version"), (0, "afplane 1\n", ""))

    def test_help_on_a_command(self):
        for it in ("serve", "once", "verify", "check", "model", "ui", "build", "test"):
            self.assertEqual(self.call(it, "--help"), self.call("--help"))

    def test_now(self):
        self.with_rt()
        for it in ("now", "", "2024-01-01", "2024-01-01T00:00:00", "00:00:00Z", "1704067200"):
            for words in (("once",), ("model", "once")):
                status, out, err = self.call(*words, EXAMPLES / "base.json", it)
                self.assertEqual((status, out), (2, ""))
                self.assertIn(f"afplane: NOW is a timestamp with its offset, such as {NOW}, found '{it}'\n", err)
        self.assertEqual(self.calls(), [])
        for it in (NOW, "2024-01-01 00:00:00.5+01:00", "20240101t00z", "+002024-01-01T00:00-00:30:15[!UTC][u-ca=iso]"):
            self.assertEqual(self.call("model", "once", EXAMPLES / "base.json", it)[0], 0)
        status, out, err = self.call("model", "once", EXAMPLES / "base.json", "2024-02-30T00:00:00Z")
        self.assertEqual((status, out), (2, ""))
        self.assertTrue(err.endswith(f"afplane: NOW is not a timestamp with its offset, such as {NOW}\n"), err)

    def test_usage(self):
        serves = [("serve",), ("serve", "c", "8080"), ("serve", "c", "8080", "4", "x"), ("model", "serve", "c", "1"), ("model", "serve", "c", "8080", "4", "x")]
        for words in ((), ("once",), ("once", "c"), ("once", "c", NOW, "x"), ("verify",), ("build", "x"), ("test", "x"), ("check",), ("model",), ("help",), *serves):
            with self.subTest(words):
                status, out, err = self.call(*words)
                self.assertEqual((status, out), (2, ""))
                self.assertTrue(err.startswith("usage: afplane once CONFIG NOW | "), err)
        self.assertIn("afplane: there is no command 'chekc'\n", self.call("chekc", "c")[2])
        self.assertIn("afplane: once takes a configuration and a timestamp", self.call("once", "c")[2])
        self.assertIn("afplane: serve takes a configuration, a port and a number of workers", self.call("serve", "c", "8080")[2])

    def test_port_and_workers(self):
        self.with_rt()
        for name, bounds, wrong in (("PORT", "0 to 65535", ("", "-1", "65536", "80x", "0x50", "1e3", "99999999999")), ("WORKERS", "1 to 16", ("", "0", "000", "17", "4.0"))):
            for it in wrong:
                words = (it, "4") if name == "PORT" else ("8080", it)
                for before in ((), ("model",)):
                    status, out, err = self.call(*before, "serve", EXAMPLES / "demo.json", *words)
                    self.assertEqual((status, out), (2, ""))
                    self.assertIn(f"afplane: {name} is a number from {bounds}, found '{it}'\n", err)
        self.assertEqual(self.calls(), [])


class Model(Case):
    def test_check(self):
        self.assertEqual(self.call("check", EXAMPLES / "base.json"), (0, "accepted\n", ""))
        bad = self.room / "bad.json"
        bad.write_text('{"users": [], "roles": [{"name": "r", "actions": []}, {"name": "", "actions": []}]}')
        line = 'afplane: configuration refused: name: roles[1].name (role ""): expected 1 to 64 printable ASCII characters, found ""\n'
        self.assertEqual(self.call("check", "bad.json"), (3, "", line))
        self.assertEqual(self.call("model", "once", "bad.json", NOW)[2].splitlines()[1:], ["afplane: configuration refused: name", CHECK.rstrip()])
        bad.write_text('{"dag": [], "users": [{"username": "a", "roles": [{"name": "Admin"}], "token_sha256": "%064d"}]}' % 0)
        line = "afplane: dag: ignored, since a configuration has only roles, users, pools, variables, dags, history_limit, version_limit\n"
        self.assertEqual(self.call("check", "bad.json"), (0, "accepted\n", line))
        status, out, err = self.call("check", "none.json")
        self.assertEqual((status, out), (3, ""))
        self.assertTrue(err.startswith("afplane: configuration refused: unreadable: "), err)

    def test_model(self):
        said = "afplane: the reference model answers, not the proved program\n"
        data = (EXAMPLES / "viewer.http").read_bytes()
        expected = (EXAMPLES / "expected/viewer.out").read_bytes().decode()
        self.assertEqual(self.call("model", "once", EXAMPLES / "base.json", NOW, data=data), (0, expected, said))
        self.assertEqual(self.call("model", "verify", EXAMPLES / "base.json"), (3, "", said + "afplane: configuration refused: trace\n"))
        self.assertEqual(self.call("model", "once", EXAMPLES / "base.json", "now")[0], 2)

    def test_server(self):
        said = "afplane: the reference model answers, not the proved program\n"
        (self.top / "conformance").mkdir()
        (self.top / "conformance/other.py").write_text("SAID = 'listening'")
        server = self.top / "conformance/stand_in.py"
        server.write_text("import sys, other\nprint(other.SAID, *sys.argv[1:])\nsys.exit(7)")
        found = self.call("model", "serve", EXAMPLES / "demo.json", "0", "16")
        self.assertEqual(found, (7, f"listening serve {EXAMPLES}/demo.json 0 16\n", said))
        server.write_text("raise OSError('Address already in use')")
        self.assertEqual(self.call("model", "serve", EXAMPLES / "demo.json", "80", "1"), (1, "", said + "afplane: Address already in use\n"))
        (self.room / "bad.json").write_text("{}")
        status, out, err = self.call("model", "serve", "bad.json", "0", "4")
        self.assertEqual((status, out), (3, ""))
        self.assertTrue(err.startswith("afplane: configuration refused: admin: "), err)
        server.write_text("import os, signal\nos.kill(os.getpid(), signal.SIGINT)")
        self.assertEqual(self.call("model", "serve", EXAMPLES / "demo.json", "0", "4"), (-signal.SIGINT, "", said))

    def test_no_python(self):
        (self.bin / "python3").unlink()
        for words in (("check", EXAMPLES / "base.json"), ("test",)):
            status, out, err = self.call(*words)
            self.assertEqual((status, out), (70, ""))
            self.assertIn("python3", err)
        said = "afplane: the command python3, which serves the page, is not on PATH\n"
        self.assertEqual(self.call("ui", "0", "8080"), (70, "", said))

    def test_the_tests(self):
        """What needs no toolchain is a part of gate-program, whose output and status are the script's."""
        (self.top / "tools/dev").mkdir()
        (self.top / "tools/dev/gate-program").write_text("import sys\nprint(sys.argv[1:], '3 passed, 1 failed')\nsys.exit(1)\n")
        self.assertEqual(self.call("test"), (1, "['--without-program'] 3 passed, 1 failed\n", ""))


class Unproved(Case):
    def once(self, *words, data=b"GET / HTTP/1.1\r\n\r\n"):
        return self.call("once", *(words or (EXAMPLES / "base.json", NOW)), data=data)

    def test_what_rt_try_gets(self):
        self.with_rt(out="HTTP/1.1 200 OK\n")
        (self.room / "my config=1.json").write_text("{}")
        status, out, err = self.once("my config=1.json", NOW)
        self.assertEqual((status, out), (0, "HTTP/1.1 200 OK\n"))
        self.assertEqual(err, "afplane: compiling from source, with run-time checks and not proved: a minute or two on an idle machine; './afplane build' proves and builds it once\n")
        (call,) = self.calls()
        self.assertRegex(call, rf"\Aafplane try --data given=\S.*/given -- once given {NOW}\Z")
        self.assertEqual((self.room / "data").read_text(), "{}")
        self.assertEqual((self.room / "input").read_bytes(), b"GET / HTTP/1.1\r\n\r\n")

    def test_signs_of_life(self):
        """While the program is compiled, a line each 15 seconds, which a fake `sleep` makes shorter."""
        self.with_rt(out="HTTP/1.1 200 OK\n")
        (self.bin / "rt").write_text(RT.replace("cat >", f"'{shutil.which('sleep')}' 1\n    cat >", 1))
        self.with_short_sleep()
        status, out, err = self.once()
        self.assertEqual((status, out), (0, "HTTP/1.1 200 OK\n"))
        signs = err.splitlines()[1:]
        self.assertEqual(signs[:2], ["afplane: no answer yet, after 15 s", "afplane: no answer yet, after 30 s"])
        self.assertEqual(signs, [f"afplane: no answer yet, after {15 * (n + 1)} s" for n in range(len(signs))])

    def test_verify(self):
        self.with_rt(out="agrees\n")
        (self.room / "t.json").write_text("[]")
        self.assertEqual(self.call("verify", "t.json", data=b"not read")[:2], (0, "agrees\n"))
        self.assertRegex(self.calls()[0], r"\Aafplane try --data given=\S.*/given -- verify given\Z")
        self.assertEqual((self.room / "input").read_bytes(), b"")

    def test_statuses(self):
        for status in (0, 1, 2, 3):
            own = "afplane: configuration refused: shape\n" * (status == 3)
            self.with_rt(status, "out", own + "interpreter: no-answer: x\n" + ENDED.format(status))
            found, out, err = self.once()
            self.assertEqual((found, out), (status, "out"))
            more = {2: f"afplane: NOW is not a timestamp with its offset, such as {NOW}\n", 3: CHECK}
            self.assertEqual("".join(err.splitlines(keepends=True)[1:]), own + more.get(status, ""))

    def test_no_answer(self):
        self.with_rt(1, "", "src/main.rt:3: error: no such name\nrun=none proved=no\n")
        status, out, err = self.once()
        self.assertEqual((status, out), (70, ""))
        self.assertIn("no such name", err)

    def test_unreadable(self):
        self.with_rt()
        for it in ("none.json", "", self.room):
            self.assertEqual(self.once(it, NOW), (3, "", "afplane: configuration refused: unreadable\n"))
        self.assertEqual(self.calls(), [])

    def test_no_rt(self):
        for words in (("once", EXAMPLES / "base.json", NOW), ("verify", "t"), ("build",)):
            status, out, err = self.call(*words)
            self.assertEqual((status, out), (70, ""))
            self.assertIn("release", err)
            self.assertIn("afplane model once CONFIG NOW", err)

    def test_by_a_link(self):
        self.with_rt(out="x")
        (self.room / "link").symlink_to(self.top / "afplane")
        self.assertEqual(self.call("once", EXAMPLES / "base.json", NOW, script=self.room / "link")[:2], (0, "x"))


def with_default_signals():
    """A process that is about to run a program is ended by signals again."""
    for it in (signal.SIGTERM, signal.SIGINT, signal.SIGHUP):
        signal.signal(it, signal.SIG_DFL)


class Serving(Case):
    """serve, where the program is not built."""

    def with_server(self, status=1, out="", said=None):
        self.with_rt(status, out, said)
        (self.bin / "rt").write_text(f"#!{sys.executable}{SERVER}")

    def begun(self, port, workers="4"):
        """The server, once it has said where it listens."""
        env = {"PATH": str(self.bin), "ROOM": str(self.room), "TMPDIR": str(self.room)}
        words = [str(self.top / "afplane"), "serve", str(EXAMPLES / "demo.json"), str(port), workers]
        # whoever starts the tests may ignore signals, as a shell does for what it runs in the background
        pipes = {"stdout": subprocess.PIPE, "stderr": subprocess.PIPE, "universal_newlines": True, "preexec_fn": with_default_signals}
        server = subprocess.Popen(words, cwd=self.room, env=env, **pipes)
        self.addCleanup(server.kill)
        line = server.stdout.readline()
        self.assertRegex(line, r"\Alistening on 127\.0\.0\.1:[0-9]+\n\Z")
        self.port = int(line.rpartition(":")[2])
        return server

    def ended(self, server):
        """Exit status, the rest of standard output, and standard error, without the line that it compiles. Nothing is left."""
        out, err = server.communicate(timeout=30)
        self.assertTrue(err.startswith("afplane: compiling from source, with run-time checks and not proved"), err)
        self.assertEqual([*self.room.glob("tmp.*")], [], "a temporary folder is left")
        for left in range(50, 0, -1):
            with socket.socket() as peer:
                if peer.connect_ex(("127.0.0.1", self.port)):
                    break
            self.assertGreater(left, 1, "the server goes on")
            time.sleep(0.1)
        return server.returncode, out, "".join(err.splitlines(keepends=True)[1:])

    def test_a_signal_ends_it(self):
        self.with_server()
        for sent, status in ((signal.SIGTERM, 143), (signal.SIGINT, 130), (signal.SIGHUP, 129)):
            server = self.begun(0)
            socket.create_connection(("127.0.0.1", self.port), 10).close()
            server.send_signal(sent)
            self.assertEqual(self.ended(server), (status, "", ""))
        self.assertEqual((self.room / "data").read_bytes(), (EXAMPLES / "demo.json").read_bytes())
        for call in self.calls():
            self.assertRegex(call, r"\Aafplane try --seconds 31536000 --data given=\S.*/given -- serve given 0 4\Z")

    def test_the_port_that_is_asked_for(self):
        self.with_server()
        with socket.create_server(("127.0.0.1", 0)) as taken:
            free = taken.getsockname()[1]
        server = self.begun(f"000000{free}", "016")
        self.assertEqual(self.port, free)
        server.terminate()
        self.assertEqual(self.ended(server)[0], 143)
        self.assertTrue(self.calls()[0].endswith(f" -- serve given 000000{free} 016"))

    def test_what_rt_leaves_is_ended(self):
        self.with_server()
        (self.room / "leaves").touch()
        server = self.begun(0)
        server.terminate()
        self.assertEqual(self.ended(server)[0], 143)

    def test_signs_of_life(self):
        """There are some until it listens, and none from then on."""
        self.with_server()
        self.with_short_sleep()
        (self.room / "slow").write_text("1")
        server = self.begun(0)
        first, *signs = os.read(server.stderr.fileno(), 65536).decode().splitlines()
        self.assertIn("compiling from source", first)
        self.assertIn("afplane: not listening yet, after 15 s", signs)
        self.assertEqual(signs, [f"afplane: not listening yet, after {15 * (n + 1)} s" for n in range(len(signs))])
        time.sleep(1)
        server.terminate()
        self.assertEqual((*server.communicate(timeout=30), server.returncode), ("", "", 143))

    def test_it_ends_by_itself(self):
        self.with_server(1, "listening on 127.0.0.1:9\n", "afplane: no more\ninterpreter: no-answer: x\n" + ENDED.format(1))
        server = self.begun(0)
        (self.room / "over").touch()
        self.assertEqual(self.ended(server), (1, "", "afplane: no more\n"))

    def test_it_does_not_begin(self):
        for status, said, more in ((1, PORT, ""), (3, "afplane: configuration refused: shape\n", CHECK)):
            self.with_rt(status, "", said + ENDED.format(status))
            (self.bin / "rt").write_text(RT.replace("${3#given=}", "${5#given=}"))
            found, out, err = self.call("serve", EXAMPLES / "demo.json", "0", "4")
            self.assertEqual((found, out), (status, ""))
            self.assertEqual("".join(err.splitlines(keepends=True)[1:]), said + more)
        self.assertEqual(self.call("serve", "none.json", "0", "4"), (3, "", "afplane: configuration refused: unreadable\n"))

    def test_no_answer(self):
        self.with_rt(1, "", "src/main.rt:3: error: no such name\nrun=none proved=no\n")
        (self.bin / "rt").write_text(RT.replace("${3#given=}", "${5#given=}"))
        status, out, err = self.call("serve", EXAMPLES / "demo.json", "0", "4")
        self.assertEqual((status, out), (70, ""))
        self.assertIn("no such name", err)


class Build(Case):
    """build, on the machine as it is; test_build.py tests what it does on others."""

    def steps(self, err):
        return [(int(n), int(of), crate, int(to_go)) for n, of, crate, to_go in re.findall(r"afplane: (\d+) of (\d+): (\w+) \(\d+ min so far, about (\d+) min to go\)", err)]

    def test_build(self):
        self.with_rt()
        status, out, err = self.call("build")
        self.assertEqual((status, out), (0, ""), err)
        crates, calls = self.crates(), self.calls()
        built = [it.split()[0] for it in calls]
        self.assertEqual(sorted(built), sorted(crates))
        below = dict(re.findall(r"(?m)^(\w+)[^:#\n]*:(.*)$", (TOP / "crates.txt").read_text(encoding="utf-8")))
        for n, it in enumerate(built):
            self.assertLessEqual({dep for dep in below[it].split() if dep in crates}, set(built[:n]), it)
        for it in calls[:-1]:
            self.assertRegex(it, r"\A\w+ lib --jobs [1-8]\Z")
        self.assertRegex(calls[-1], rf"\Aafplane run --jobs [1-8] -- once {re.escape(str(self.top))}/examples/base\.json {NOW}\Z")
        steps = self.steps(err)
        # (of two that start at once, either may be the first to note its call)
        self.assertEqual([it[:2] for it in steps], [(n + 1, len(crates)) for n in range(len(crates))])
        self.assertEqual(sorted(it[2] for it in steps), sorted(crates))
        to_go = [it[3] for it in steps]
        # (with other crates built, the same rules may give a longer schedule: from one step to the next it may rise)
        self.assertLess(max(to_go[len(to_go) // 2 :]), to_go[0], to_go)
        self.assertIn(to_go[0], range(10, 200))
        self.assertGreater(to_go[-1], 0)
        # from now on the program answers, and rt is not called
        self.assertEqual(self.call("once", "c", NOW, data=b"in"), (1, f"built once c {NOW}\nin", ""))
        self.assertEqual(self.call("serve", "c", "0", "4"), (1, "built serve c 0 4\n", ""))
        self.assertEqual(self.call("build")[0], 0)
        self.assertEqual(self.calls(), calls)

    def test_a_stale_build_answers_unproved(self):
        self.with_rt(out="tried")
        self.assertEqual(self.call("build")[0], 0)
        for path in (f"crates/{self.crates()[0]}/src/lib.rt", "crates.txt"):
            made = (self.top / "out/afplane-built").stat().st_mtime
            os.utime(self.top / path, (made + 5, made + 5))
            count = len(self.calls())
            self.assertEqual(self.call("once", EXAMPLES / "base.json", NOW)[:2], (0, "tried"))
            self.assertEqual([it.split()[1] for it in self.calls()[count:]], ["try"])
            os.utime(self.top / path, (made - 5, made - 5))

    def test_a_change_of_tests_is_none(self):
        self.with_rt()
        self.assertEqual(self.call("build")[0], 0)
        made = (self.top / "out/afplane-built").stat().st_mtime
        crate = f"crates/{self.crates()[0]}"
        for path in (f"{crate}_tests/src/lib.rt", f"{crate}/must-fail/x.edit", f"{crate}/out/x"):
            (self.top / path).parent.mkdir(parents=True)
            (self.top / path).touch()
            os.utime(self.top / path, (made + 5, made + 5))
        self.assertEqual(self.call("once", "c", NOW)[0], 1)

    def test_a_build_that_fails_goes_on(self):
        self.with_rt()
        fails = "af_role"
        (self.room / "fails").write_text(fails)
        status, out, err = self.call("build")
        self.assertEqual((status, out), (70, ""))
        self.assertIn("goal 7 is open", err)
        self.assertIn(f"{fails} is not proved or not built; the whole report is in {self.top}/out/afplane-build/{fails}.log", err)
        calls = [it.split()[0] for it in self.calls()]
        self.assertIn(fails, calls)
        self.assertNotIn("af_policy", calls)
        self.assertEqual(list((self.top / "out").glob("afplane-built*")), [])
        (self.room / "fails").unlink()
        self.assertEqual(self.call("build")[0], 0)
        self.assertEqual(self.call("once", "c", NOW)[0], 1)

    def test_a_crate_that_is_not_in_the_table(self):
        self.with_rt()
        before = self.steps(self.call("build")[2])[0][3]
        path = self.top / "crates.txt"
        # it stands on the longest chain, so all its seconds count
        path.write_text(re.sub(r"(?m)^(afplane[^:\n]*:)", r"af_new: af_server\n\1 af_new", path.read_text()))
        (self.top / "crates/af_new/src").mkdir(parents=True)
        shutil.rmtree(self.top / "out/afplane-build")
        (number, of, crate, to_go) = self.steps(self.call("build")[2])[0]
        self.assertEqual((number, of), (1, len(self.crates()) + 1))
        self.assertIn(to_go - before, (0, 1, 2))

    def test_no_python(self):
        self.with_rt()
        (self.bin / "python3").unlink()
        status, out, err = self.call("build")
        self.assertEqual((status, out), (70, ""))
        self.assertIn("python3", err)


if __name__ == "__main__":
    sys.exit(unittest.main())
