#!/usr/bin/env python3
"""Tests of trace_of.py: traces that were written out by hand, of connections as they should be, cut short, and that do not fit.

    python3 tools/test_trace_of.py

The last test hands the traces of the examples to the program; it needs it built, in crates/afplane/out/afplane or where the variable
AFPLANE_PROGRAM says, and is skipped where it is not, or where it does not check traces yet.
"""
import contextlib
import io
import json
import os
import pathlib
import subprocess
import sys
import tempfile
import unittest

sys.dont_write_bytecode = True
import trace_of  # noqa: E402

TOP = pathlib.Path(__file__).resolve().parents[1]
EXAMPLES = TOP / "examples"
CONFIGS = {"viewer": "base.json", "pause": "base.json", "backfill": "daily.json"}  # of the examples that are not over team.json
PROGRAM = pathlib.Path(os.environ.get("AFPLANE_PROGRAM", TOP / "crates/afplane/out/afplane"))
NOW = "2024-01-01T00:00:00Z"
DENIED = '{"detail":"missing permission DAGs.can_read","status":403,"title":"Forbidden","type":"about:blank"}'
NOBODY = '{"detail":"authentication required","status":401,"title":"Unauthorized","type":"about:blank"}'
GONE = '{"detail":"no such path","status":404,"title":"Not Found","type":"about:blank"}'
BAD_HEAD = '{"detail":"bad request head","status":400,"title":"Bad Request","type":"about:blank"}'
NO_MEMORY = '{"detail":"out of memory","status":503,"title":"Service Unavailable","type":"about:blank"}'
VERSION = '{"git_version":null,"version":"afplane 1"}'
TASKS = '{"tasks":[],"total_entries":0}'


def asked(first, token=None, body="", more=""):
    """A request, with the token of its only Authorization line and further lines."""
    fields = f"Authorization: Bearer {token}\r\n" if token else ""
    fields += f"Content-Length: {len(body.encode())}\r\n" if body else ""
    return f"{first} HTTP/1.1\r\nHost: h\r\n{fields}{more}\r\n{body}"


def told(status, body="", version=None, seq=None, more="", reason="Reason"):
    """An answer; of no body it has no length."""
    fields = f"Content-Type: application/json\r\nContent-Length: {len(body.encode())}\r\n" if body else ""
    fields += f"X-Policy-Version: {version}\r\n" if version is not None else ""
    fields += f"X-Plane-Seq: {seq}\r\n" if seq is not None else ""
    return f"HTTP/1.1 {status} {reason}\r\n{fields}{more}\r\n{body}"


CLOSE = "Connection: close\r\n"


class Case(unittest.TestCase):
    maxDiff = None

    def setUp(self):
        kept = tempfile.TemporaryDirectory()
        self.addCleanup(kept.cleanup)
        self.folder = pathlib.Path(kept.name)

    def file(self, name, data):
        path = self.folder / name
        path.write_bytes(data if isinstance(data, bytes) else data.encode())
        return str(path)

    def call(self, *words):
        """The status, and what standard output and standard error have."""
        out, err = io.TextIOWrapper(io.BytesIO(), encoding="utf-8"), io.StringIO()
        with contextlib.redirect_stdout(out), contextlib.redirect_stderr(err):
            status = trace_of.main(list(words))
            out.flush()
        return status, out.buffer.getvalue().decode(), err.getvalue()

    def run_on(self, requests, answers, config="{}"):
        return self.call(self.file("c.json", config), NOW, self.file("r.http", requests), self.file("a.out", answers))

    def gives(self, steps, requests, answers, said=""):
        """These steps come of the requests and the answers, and this is told besides."""
        status, out, err = self.run_on(requests, answers)
        self.assertEqual((status, err), (0, said and f"trace_of.py: {said}\n"))
        self.assertEqual(json.loads(out), {"config": {}, "sessions": 1, "steps": steps})

    def fails(self, said, requests, answers, config="{}"):
        self.assertEqual(self.run_on(requests, answers, config), (1, "", f"trace_of.py: {said}\n"))


class Traces(Case):
    def test_a_denial(self):
        """The whole text of the trace of one denial, over the sample configuration."""
        requests = self.file("r.http", asked("GET /api/v1/dags", "bar"))
        answers = self.file("a.out", told(403, DENIED, 0, 0))
        base = (EXAMPLES / "base.json").read_text(encoding="utf-8")
        body = DENIED.replace('"', '\\"')
        wanted = (
            '{"config":' + base.strip() + ',"sessions":1,"steps":[\n[{"look":0},null],\n'
            '[{"act":0,"token":"bar","method":"GET","target":"/api/v1/dags","body":"","now":"2024-01-01T00:00:00Z"},'
            '{"status":403,"version":0,"seq":0,"body":"' + body + '"}]\n]}\n'
        )
        self.assertEqual(self.call(str(EXAMPLES / "base.json"), NOW, requests, answers), (0, wanted, ""))

    def test_each_kind_of_step(self):
        """Readings and changes of the state, readings and changes of the policy; the version of a change is that before it."""
        requests = asked("PATCH /api/v1/dags/b", "abc", '{"is_paused":true}') + asked("GET /api/v1/eventLogs?limit=1", "admin")
        requests += asked("GET /own/me", "foo") + asked("POST /own/dags/b/sync", "admin", "{}") + asked("DELETE /api/v1/users/bob", "admin")
        requests += asked("PATCH /api/v1/roles/Viewer", "admin", '{"actions":[]}') + asked("GET /api/v1/users/a%20b", "admin")
        requests += asked("DELETE /api/v1/variables/k", "admin")
        answers = told(200, '{"x":1}', 0, 1) + told(200, '{"y":2}', 0, 1) + told(200, '{"z":3}', 0) + told(200, '{"s":4}', 1) + told(204, "", 2)
        answers += told(409, '{"d":5}', 2) + told(404, '{"n":6}', 2) + told(204, "", 2, 2)
        act = {"act": 0, "token": "admin", "body": "", "now": NOW}
        self.gives(
            [
                [{"look": 0}, None],
                [{"act": 0, "token": "abc", "method": "PATCH", "target": "/api/v1/dags/b", "body": '{"is_paused":true}', "now": NOW}, {"status": 200, "version": 0, "seq": 1, "body": '{"x":1}'}],
                [{"look": 0}, None],
                [{**act, "method": "GET", "target": "/api/v1/eventLogs?limit=1"}, {"status": 200, "version": 0, "seq": 1, "body": '{"y":2}'}],
                [{"me": 0, "token": "foo", "target": "/own/me"}, {"status": 200, "version": 0, "seq": None, "body": '{"z":3}'}],
                [{"publish": 0, "at": 0, "token": "admin", "method": "POST", "target": "/own/dags/b/sync", "body": "{}"}, {"status": 200, "version": 1, "seq": None, "body": '{"s":4}'}],
                [{"publish": 0, "at": 1, "token": "admin", "method": "DELETE", "target": "/api/v1/users/bob", "body": ""}, {"status": 204, "version": 2, "seq": None, "body": ""}],
                [{"publish": 0, "at": 2, "token": "admin", "method": "PATCH", "target": "/api/v1/roles/Viewer", "body": '{"actions":[]}'}, {"status": 409, "version": 2, "seq": None, "body": '{"d":5}'}],
                [{"me": 0, "token": "admin", "target": "/api/v1/users/a%20b"}, {"status": 404, "version": 2, "seq": None, "body": '{"n":6}'}],
                [{"look": 0}, None],
                [{**act, "method": "DELETE", "target": "/api/v1/variables/k"}, {"status": 204, "version": 2, "seq": 2, "body": ""}],
            ],
            requests,
            answers,
        )

    def test_what_is_no_step(self):
        """The version, paths and methods that are not there; an answer to HEAD has a length and no body."""
        requests = asked("GET /api/v1/version") + asked("GET /nope", "a") + asked("PUT /api/v1/dags", "a") + asked("HEAD /own/me", "a") + asked("GET /api/v1/roles/", "a")
        requests += asked("POST /api/v1/dags/~/dagRuns", "a", "{}") + asked("GET /api/v1/users/%C3%A9", "a") + asked(f"GET /api/v1/roles/{'r' * 65}", "a")
        requests += asked("DELETE /own/me", "a") + asked("GET /own/dags/b/sync", "a") + asked("GET /api/v1/dags/b/dagRuns/~", "a") + asked("get /api/v1/dags", "a")
        requests += asked("GET /api/v1/dags/%7e/dagRuns", "a")
        head = f"HTTP/1.1 405 Method Not Allowed\r\nContent-Type: application/problem+json\r\nContent-Length: {len(GONE)}\r\nAllow: GET\r\n\r\n"
        answers = told(200, VERSION) + told(404, GONE) + told(405, GONE, more="Allow: GET\r\n") + head + told(404, GONE) * 8 + told(200, TASKS, 0, 0)
        act = {"act": 0, "token": "a", "method": "GET", "target": "/api/v1/dags/%7e/dagRuns", "body": "", "now": NOW}
        self.gives([[{"look": 0}, None], [act, {"status": 200, "version": 0, "seq": 0, "body": TASKS}]], requests, answers)

    def test_every_path(self):
        """Each path is of one kind, with each of its methods, and with no other."""
        run, pool = "/api/v1/dags/b/dagRuns/r:1", "/api/v1/pools/a%2Fb%20%25"
        state = [("GET", "/api/v1/dags"), ("GET", "/api/v1/dags/b"), ("PATCH", "/api/v1/dags/b"), ("GET", "/api/v1/dags/b/tasks")]
        state += [("GET", "/api/v1/dags/b/dagRuns"), ("POST", "/api/v1/dags/b/dagRuns"), ("GET", run), ("PATCH", run), ("DELETE", run), ("POST", run + "/clear")]
        state += [("GET", run + "/taskInstances"), ("GET", run + "/taskInstances/t"), ("POST", "/api/v1/dags/b/clearTaskInstances")]
        state += [("GET", "/api/v1/pools"), ("POST", "/api/v1/pools"), ("GET", pool), ("PATCH", pool), ("DELETE", pool), ("GET", "/api/v1/eventLogs")]
        state += [(it, "/api/v1/variables/k" if it in ("PATCH", "DELETE") else "/api/v1/variables") for it in ("GET", "POST", "PATCH", "DELETE")]
        state += [("POST", "/own/dags/b/backfills")]
        policy = [("GET", "/own/me"), ("POST", "/own/dags/b/sync")]
        policy += [(it, f"/api/v1/{rows}{'/x' if it in ('PATCH', 'DELETE') else ''}") for rows in ("roles", "users") for it in ("GET", "POST", "PATCH", "DELETE")]
        for method, path in state + policy:
            body = "{}" if method in ("POST", "PATCH") else ""
            whole = {"token": "a", "method": method, "target": path, "body": body}
            step = {"act": 0, **whole, "now": NOW} if (method, path) in state else {"publish": 0, "at": 0, **whole}
            step = {"me": 0, "token": "a", "target": path} if method == "GET" and (method, path) in policy else step
            looks = [[{"look": 0}, None]] if "act" in step else []
            with self.subTest(method=method, path=path):
                self.gives([*looks, [step, {"status": 403, "version": 0, "seq": 0, "body": DENIED}]], asked(f"{method} {path}", "a", body), told(403, DENIED, 0, 0))
        for method, path in [("PATCH", "/api/v1/dags"), ("DELETE", "/api/v1/dags/b"), ("POST", "/api/v1/eventLogs"), ("POST", "/own/me"), ("GET", "/api/v1/dags/b/clearTaskInstances")]:
            with self.subTest(method=method, path=path):
                self.gives([], asked(f"{method} {path}", "a"), told(405, GONE, more="Allow: X\r\n"))

    def test_tokens(self):
        """A token is what follows Bearer and blanks in the only Authorization line; else there is none."""
        lines = [
            ("authorization:\tbEaReR   two words \r\n", "two words"),
            ("Authorization: Bearer Bearer x\r\n", "Bearer x"),
            ("Authorization: Bearer na\u00efve\r\n", "na\u00efve"),
            ("Authorization: Bearer\r\n", None),
            ("Authorization: Bearer\tx\r\n", None),
            ("Authorization: Basic x\r\n", None),
            ("Authorization: Bearer x\r\nAuthorization: Bearer x\r\n", None),
            ("", None),
        ]
        for line, token in lines:
            with self.subTest(line=line):
                step = {"me": 0, "token": token, "target": "/own/me"}
                self.gives([[step, {"status": 401, "version": 0, "seq": None, "body": NOBODY}]], asked("GET /own/me", more=line), told(401, NOBODY, 0))

    def test_other_spellings(self):
        """Lines that end in LF, empty lines before a request, a body that is not read, and one past ASCII."""
        requests = b"\r\n\nGET /own/me?x HTTP/1.1\nhost:h\ncontent-length: 03\n\nGET" + asked("POST /api/v1/roles", "a", "\u00e9\"\n").encode()
        answers = told(401, NOBODY, 0) + told(400, '"\u00e9"', 0)
        steps = [
            [{"me": 0, "token": None, "target": "/own/me?x"}, {"status": 401, "version": 0, "seq": None, "body": NOBODY}],
            [{"publish": 0, "at": 0, "token": "a", "method": "POST", "target": "/api/v1/roles", "body": "\u00e9\"\n"}, {"status": 400, "version": 0, "seq": None, "body": '"\u00e9"'}],
        ]
        self.gives(steps, requests, answers)

    def test_the_configuration_stands_as_it_is(self):
        config = ' {"a" : 1.0, "a":-0,\r\n "\u00e9":[1e3]} \n'
        _, out, _ = self.run_on("", "", config)
        self.assertEqual(out, '{"config":{"a" : 1.0, "a":-0,\r\n "\u00e9":[1e3]},"sessions":1,"steps":[\n\n]}\n')


class Ends(Case):
    ME = [{"me": 0, "token": "a", "target": "/own/me"}, {"status": 200, "version": 0, "seq": None, "body": "{}"}]

    def test_closed(self):
        """What stands behind a request whose answer closes the connection is not looked at."""
        rest = "\x00 no request at all"
        self.gives([self.ME], asked("GET /own/me", "a", more=CLOSE) + rest, told(200, "{}", 0, more=CLOSE))
        self.gives([self.ME], asked("GET /own/me", "a").replace("HTTP/1.1", "HTTP/1.0") + rest, told(200, "{}", 0, more=CLOSE))

    def test_refused_as_a_message(self):
        said = "request 2 was refused as a message, and the connection ended"
        begun, ok = asked("GET /own/me", "a"), told(200, "{}", 0)
        for rest in ("GET /own/me HTTP/1.1\r\n\r\n", "GET /own/me HTTP/1.1\r\nHost", "x", asked("GET /own/me", more="Content-Length: 99999\r\n") + begun, asked("X\t/ y")):
            with self.subTest(rest=rest):
                self.gives([self.ME], begun + rest, ok + told(400, BAD_HEAD, more=CLOSE), said)
        for more in (BAD_HEAD, ""):
            head = f"HTTP/1.1 400 Bad Request\r\nContent-Length: {len(BAD_HEAD)}\r\n{CLOSE}\r\n"
            self.gives([self.ME], begun + "HEAD /own/me HTTP/1.1\r\n\r\n", ok + head + more, said)

    def test_no_memory(self):
        begun, ok = asked("GET /own/me", "a"), told(200, "{}", 0)
        rest = asked("PATCH /api/v1/dags/b", "a", "{}") + begun
        said = "request 2 found no memory: nothing was done, and the connection ended"
        self.gives([self.ME], begun + rest, ok + told(503, NO_MEMORY, more=CLOSE), said)

    def test_fewer_answers(self):
        said = "there is no answer to request 2, and to what stands behind it"
        self.gives([self.ME], asked("GET /own/me", "a") * 3, told(200, "{}", 0), said)
        self.gives([self.ME], asked("GET /own/me", "a") + "\r\n\n", told(200, "{}", 0))
        self.gives([], "", "")

    def test_what_does_not_fit(self):
        ok, one = told(200, "{}", 0), asked("GET /own/me", "a")
        self.fails(f"there are more answers than requests: no request stands for that at byte {len(ok)}", one, ok + ok)
        self.fails(f"the answers: no answer begins at byte {len(ok)}", one * 2, ok + "x")
        self.fails("the answers: no answer begins at byte 0", one, ok.replace("HTTP/1.1", "HTTP/1.0"))
        self.fails("the answers: that which begins at byte 0 is cut off", one, ok[:-1])
        self.fails("the answers: in that which begins at byte 0, X-PLANE-SEQ is no number".replace("X-PLANE-SEQ", "x-plane-seq"), one, told(200, "{}", 0, "+1"))
        closing = told(200, "{}", 0, more=CLOSE)
        self.fails(f"there are answers behind the one that closes the connection, at byte {len(closing)}", one * 2, closing + ok)
        self.fails("request 1 can not be read, and its answer is no refusal of a message", "GET /own/me\r\n\r\n", ok)
        self.fails("request 1 can not be read, and its answer is no refusal of a message", asked("GET /own/me", more="Content-Length: 5\r\n"), ok)

    def test_what_a_trace_has_no_place_for(self):
        bad = told(401, NOBODY, 0)
        token = asked("GET /own/me", "X").encode().replace(b"X", b"\xff")
        self.fails("the token of request 1 is no UTF-8, so a trace has no place for it", token, bad)
        body = asked("POST /api/v1/roles", "a", "X").encode().replace(b"\r\nX", b"\r\n\xff")
        self.fails("the body of request 1 is no UTF-8, so a trace has no place for it", body, bad)
        self.fails("the answer at byte 0 is no UTF-8, so a trace has no place for it", asked("GET /own/me"), told(200, "X", 0).encode().replace(b"\r\nX", b"\r\n\xff"))

    def test_configurations(self):
        for config in ("", "[]", "{", "null", b"\xef\xbb\xbf{}", "[" * 100_000):
            with self.subTest(config=config[:9]):
                self.fails("the configuration is no JSON object", "", "", config)
        self.fails("the configuration is no UTF-8, so a trace has no place for it", "", "", b'{"\xff":1}')
        self.fails("the trace would be longer than 16 MiB, and is not written", "", "", '{"a":"' + "x" * 16 * 1024 * 1024 + '"}')

    def test_calls(self):
        usage = "usage: trace_of.py CONFIG NOW REQUESTS ANSWERS > TRACE\n"
        for words in ([], ["c", NOW, "r"], ["c", NOW, "r", "a", "t"]):
            self.assertEqual(self.call(*words), (2, "", usage))
        for word in ("-h", "--help"):
            self.assertEqual(self.call(word), (0, trace_of.__doc__.strip() + "\n", ""))
        config, none = self.file("c.json", "{}"), str(self.folder / "none")
        self.assertEqual(self.call(config, NOW, none, config), (1, "", f"trace_of.py: {none}: can not be read: No such file or directory\n"))


class Examples(Case):
    def trace(self, stem, config):
        words = (str(EXAMPLES / config), NOW, str(EXAMPLES / f"{stem}.http"), str(EXAMPLES / "expected" / f"{stem}.out"))
        status, out, err = self.call(*words)
        self.assertEqual(status, 0, err)
        return out

    def test_policies(self):
        """The kinds of the steps of a morning, with the version that each change was decided under."""
        steps = [it for it, _ in json.loads(self.trace("policies", "team.json"))["steps"] if "look" not in it]
        kinds = [f"publish {it['at']}" if "publish" in it else next(iter(it)) for it in steps]
        wanted = ["me", "act", "me", "publish 0", "act", "me", "publish 1", "publish 1", "publish 2", "act", "publish 3", "me", "act", "me"]
        self.assertEqual(kinds, wanted + ["publish 4"] * 6 + ["me", "publish 5", "me", "act"])

    def test_verified(self):
        """The program finds that the answers of the examples are those that its definitions give, and that others are not."""
        if not PROGRAM.exists():
            self.skipTest("the program is not built")
        for path in sorted((EXAMPLES / "expected").glob("*.out")):
            trace = self.trace(path.stem, CONFIGS.get(path.stem, "team.json"))
            changed = trace.replace('"version":0', '"version":1', 1)
            for text, status, said in ((trace, 0, "agrees\n"), *[(changed, 1, "differs\n")] * (changed != trace)):
                ran = subprocess.run([PROGRAM, "verify", self.file("t.json", text)], capture_output=True, text=True)
                if ran.returncode == 2:
                    self.skipTest("the program does not check traces yet")
                self.assertEqual((ran.returncode, ran.stdout, ran.stderr), (status, said, ""), path.stem)


if __name__ == "__main__":
    unittest.main()
