"""What the tests of the oracle share. It puts conformance/ on the path of modules, whose worked connections and random ones they play: imported first."""
import json
import os
import sys

import oracle
from oracle_names import instant_of
from oracle_table import having

TOP = os.path.dirname(os.path.dirname(os.path.realpath(__file__)))
sys.path.append(os.path.join(TOP, "conformance"))

BASE = os.path.join(TOP, "examples", "base.json")
NOW = "2024-01-01T00:00:00Z"


def one_answer(plane, data):
    """Status, what is told, version and number of entries of the answer to one request; none for a field that is not there."""
    text, closed = oracle.answers(plane, data)
    assert closed
    head, _, body = text.decode().partition("\r\n\r\n")
    status, *lines = head.split("\r\n")
    fields = dict(it.split(": ", 1) for it in lines)
    assert int(fields.get("Content-Length", 0)) == len(body.encode())
    numbers = [int(fields[it]) if it in fields else None for it in ("X-Policy-Version", "X-Plane-Seq")]
    status = int(status.split(" ")[1])
    return status, body if status < 300 else json.loads(body)["detail"], *numbers


def opened(has, now=NOW, members=()):
    """What stands when base.json, with some members changed, has been read."""
    with open(BASE, "rb") as file:
        config = json.dumps({**json.load(file), **dict(members)}).encode()
    return oracle.Plane(config, instant_of(now), having(has))
