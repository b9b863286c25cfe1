#!/usr/bin/env python3
"""afplane once more, plain and slow, to compare its answers with.

  python3 model/oracle.py CONFIG NOW < requests > answers
  python3 model/oracle.py --has dags,variables CONFIG NOW < requests > answers

It is written from the words that say what afplane does, not from its code: it reads the configuration
(oracle_config.py), then the HTTP/1.1 requests of standard input, and answers them one after another (oracle_table.py has
the operations, oracle_verdict.py the order of the rules, oracle_state.py and oracle_policy.py what is done). Its exit
status and its words on standard error are the program's own. `--has` names the operations that there are: `landed` (where
nothing is said), which is all that the program has, or fewer of them: `dags`, `backfill`, `pools`, `variables`, `limits`,
`pages`, `audit`, `policy`, `verify`, `serve`, `baseline`, or single ones. Traces are verified too (oracle_world.py). Of `serve` it judges the arguments and the
configuration alone.
"""
import re
import sys

from oracle_config import MOST_BYTES, Refused, read_config
from oracle_json import compact
from oracle_names import instant_of
from oracle_table import LANDED, having
from oracle_verdict import Plane as OpenPlane, decide, told
from oracle_world import verify

USAGE = "usage: afplane once CONFIG NOW | serve CONFIG PORT WORKERS | verify TRACE"
MOST_HEAD, MOST_FIELDS, MOST_BODY, MOST_REQUESTS = 16384, 64, 65536, 1000

TOKEN = rb"[!#$%&'*+\-.^_`|~0-9A-Za-z]+"
FIRST_LINE = re.compile(rb"(" + TOKEN + rb") ([\x21-\x7e\x80-\xff]+) HTTP/1\.([01])\r?\n")
FIELD_LINE = re.compile(rb"(" + TOKEN + rb"):([\t\x20-\x7e\x80-\xff]*)\r?\n")
BEARER = re.compile(rb"(?i:bearer) +([^ ].*)", re.DOTALL)


def answer_text(decided, closes=False, without_body=False):
    status, body, more = decided
    fields = []
    if body is not None:
        body = compact(body)
        kind = "application/json" if status.startswith("200") else "application/problem+json"
        fields = [f"Content-Type: {kind}", f"Content-Length: {len(body)}"]
    fields += more
    if closes:
        fields.append("Connection: close")
    return "\r\n".join([f"HTTP/1.1 {status}", *fields, "", ""]).encode() + (b"" if without_body or body is None else body)


BAD_HEAD = told(400, "bad request head")
INCOMPLETE = told(400, "incomplete request")
LARGE_HEAD = told(431, "request head too large")
LARGE_BODY = told(413, "body too large")
CODED_BODY = told(501, "transfer coding not supported")


# ---- Messages ------------------------------------------------------------------------------------------------


class Turned(Exception):
    """A request that is refused as a message: what is told, and whether it is a HEAD, which gets no body."""


class Request:
    """A head that was read whole: what it asks for, and how long its body is."""

    def __init__(self, head):
        lines = [it + b"\n" for it in head.split(b"\n")[:-2]]
        first, fields = FIRST_LINE.fullmatch(lines[0]), [FIELD_LINE.fullmatch(it) for it in lines[1:]]
        if first is None or None in fields:
            raise Turned(BAD_HEAD, False)
        self.method, self.target, minor = first.groups()
        try:
            self.target.decode("utf-8")
        except UnicodeDecodeError:
            raise Turned(BAD_HEAD, False) from None
        self.bare = self.method == b"HEAD"
        values = {}
        for it in fields:
            values.setdefault(it[1].lower(), []).append(it[2].strip(b" \t"))
        lengths = values.get(b"content-length", [])
        if minor == b"1" and len(values.get(b"host", [])) != 1 or len(lengths) > 1:
            raise Turned(BAD_HEAD, self.bare)
        if lengths and re.fullmatch(rb"[0-9]+", lengths[0]) is None:
            raise Turned(BAD_HEAD, self.bare)
        if b"transfer-encoding" in values:
            raise Turned(CODED_BODY, self.bare)
        digits = (lengths[0] if lengths else b"0").lstrip(b"0") or b"0"
        if len(digits) > 5 or int(digits) > MOST_BODY:
            raise Turned(LARGE_BODY, self.bare)
        self.length = int(digits)
        options = b",".join(values.get(b"connection", [])).split(b",")
        self.closes = minor == b"0" or any(it.strip(b" \t").lower() == b"close" for it in options)
        self.token = None
        if len(values.get(b"authorization", [])) == 1:
            spelled = BEARER.fullmatch(values[b"authorization"][0])
            self.token = spelled and spelled[1]


def head_end(data, at):
    """Where the head that begins there ends."""
    end = re.compile(rb"\n\r?\n").search(data, at, at + MOST_HEAD + 1)
    if end is None:
        raise Turned(LARGE_HEAD if len(data) - at > MOST_HEAD else INCOMPLETE, False)
    if data.count(b"\n", at, end.end()) > MOST_FIELDS + 2:
        raise Turned(LARGE_HEAD, False)
    return end.end()


def answers(plane, data):
    """All that is written on a connection, and whether it ended as it should."""
    out, at = [], 0
    for turn in range(1, MOST_REQUESTS + 1):
        at = re.compile(rb"(\r?\n)*").match(data, at).end()
        if at == len(data):
            return b"".join(out), True
        try:
            end = head_end(data, at)
            asked = Request(data[at:end])
            at = end + asked.length
            if at > len(data):
                raise Turned(INCOMPLETE, asked.bare)
        except Turned as why:
            refusal, bare = why.args
            out.append(answer_text(refusal, closes=True, without_body=bare))
            return b"".join(out), False
        closes = asked.closes or turn == MOST_REQUESTS
        decided = decide(plane, asked.method, asked.target, asked.token, data[end:at])
        out.append(answer_text(decided, closes, asked.bare))
        if closes:
            return b"".join(out), True
    return b"".join(out), True


# ---- The program -------------------------------------------------------------------------------------------

def Plane(config, now=0, has=LANDED):
    """What stands when the program has read its configuration."""
    return OpenPlane(read_config(config, has), now, has)


def run(words, data, has=LANDED):
    """Exit status, standard output and standard error of the program called with these words."""
    verifies = "verify" in has and len(words) == 2 and words[0] == "verify"
    serves = "serve" in has and asks_to_serve(words)
    if not verifies and not serves and (len(words) != 3 or words[0] != "once" or instant_of(words[2]) is None):
        return 2, b"", f"{USAGE}\n".encode()
    try:
        held = file_of(words[1])
        if verifies:
            return (0, b"agrees\n", b"") if verify(held, has) else (1, b"differs\n", b"")
        if serves:
            read_config(held, has)
            return 70, b"", b"oracle.py: the model opens no port\n"
        plane = Plane(held, instant_of(words[2]), has)
    except Refused as why:
        return 3, b"", f"afplane: configuration refused: {why}\n".encode()
    out, closed = answers(plane, data)
    return 0 if closed else 1, out, b""


def asks_to_serve(words):
    """Whether they call for a server: a configuration, a port, and how many workers."""
    numbers = words[2:]
    if len(words) != 4 or words[0] != "serve" or any(re.fullmatch("[0-9]+", it) is None for it in numbers):
        return False
    port, workers = (int(it.lstrip("0")[:6] or "0") for it in numbers)
    return port <= 65535 and 1 <= workers <= 16


def file_of(path):
    """The bytes of a file, or so many that it is too long."""
    try:
        with open(path, "rb") as file:
            return file.read(MOST_BYTES + 1)
    except (OSError, ValueError) as why:
        raise Refused("unreadable", "", f"one that can be read ({getattr(why, 'strerror', None) or why})") from why


def main():
    words, has = sys.argv[1:], LANDED
    if words[:1] == ["--has"] and len(words) > 1:
        try:
            has = having(words[1])
        except ValueError as why:
            sys.exit(f"oracle.py: {why}")
        words = words[2:]
    words = words if words[:1] in (["once"], ["verify"], ["serve"]) else ["once", *words]
    status, out, said = run(words, sys.stdin.buffer.read(), has)
    sys.stdout.buffer.write(out)
    sys.stderr.buffer.write(said)
    sys.stdout.flush()
    sys.exit(status)


if __name__ == "__main__":
    main()
