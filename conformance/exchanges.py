"""Requests and answers of sessions, and rows of event logs, as history.py reads them."""
import functools
import itertools
import json
import re
from dataclasses import dataclass

import with_model  # noqa: F401
import oracle
from oracle_names import LAST, instant_of, isoformat
from oracle_table import route
from oracle_verdict import decide

DONE = (200, 204)
NUMBER = rb"\r\n%s: ([0-9]+)\r\n"
TIMED = re.compile(r"(?:run exists: manual__|date taken: )(.+)")
operation_of = functools.lru_cache(maxsize=4096)(route)


class Differs(Exception):
    """What is wrong with a history."""


@dataclass
class Exchange:
    """A request and its whole answer. Optional: when the request was sent and when the answer had been received, by one clock for all clients."""

    request: bytes
    answer: bytes
    sent: object = None
    received: object = None


class First:
    """The first so many items of a list, without a copy; more may be added, and the list stays as it is."""

    def __init__(self, items, count):
        self.items, self.count, self.added = items, count, []

    def __len__(self):
        return self.count + len(self.added)

    def __iter__(self):
        return itertools.chain(itertools.islice(self.items, self.count), self.added)

    def __getitem__(self, place):
        """The last item, which is asked for by -1."""
        if place != -1 or not len(self):
            raise IndexError(place)
        return self.added[-1] if self.added else self.items[self.count - 1]

    def append(self, item):
        self.added.append(item)


class Asked:
    """An exchange in its place: what it asks for, and what its answer names."""

    def __init__(self, session, turn, exchange, has):
        self.session, self.turn, self.exchange = session, turn, exchange
        self.seen = 0  # the latest version that an earlier answer of its session names
        self.refusal = self.request = self.operation = None
        data = exchange.request[re.match(rb"(?:\r?\n)*", exchange.request).end() :]
        try:
            end = oracle.head_end(data, 0)
            self.request, self.body = oracle.Request(data[:end]), data[end:]
            if len(self.body) != self.request.length:
                raise oracle.Turned(oracle.INCOMPLETE, self.request.bare)
            self.operation, _ = operation_of(self.request.target.partition(b"?")[0], self.request.method, has)
        except oracle.Turned as why:
            self.refusal = why.args
        head, _, body = exchange.answer.partition(b"\r\n\r\n")
        self.status = int(head[9:12]) if re.match(rb"HTTP/1\.1 [0-9]{3} ", head) else None
        self.version, self.seq = (number_in(head, it) for it in (b"X-Policy-Version", b"X-Plane-Seq"))
        self.detail = detail_in(body) if self.status == 409 else ""

    def __str__(self):
        first = self.exchange.request.partition(b"\n")[0].decode("latin-1").strip()
        return f"session {self.session}, request {self.turn}, {first}"

    def is_last(self):
        """Whether the connection closes after it, since a connection has so many requests at most."""
        return self.turn == oracle.MOST_REQUESTS

    def changes(self):
        """Whether it asks for a change, and the answer is that of one that is done."""
        return self.operation is not None and self.status in DONE and self.request.method != b"GET"

    def now(self):
        """The timestamp at which it was decided, where its answer names that; else one at which no run was triggered."""
        found = TIMED.fullmatch(self.detail)
        now = instant_of(found[1]) if found else None
        return LAST if now is None else now

    def written(self, plane):
        """What the model writes where the plane stands so."""
        if self.refusal:
            return oracle.answer_text(self.refusal[0], closes=True, without_body=self.refusal[1])
        return self.text_of(decide(plane, self.request.method, self.request.target, self.request.token, self.body))

    def text_of(self, decided):
        return oracle.answer_text(decided, self.request.closes or self.is_last(), self.request.bare)

    def expect(self, wanted):
        if self.exchange.answer != wanted:
            raise Differs(f"{self}\n  answered {self.exchange.answer!r}\n  by the model {wanted!r}")


def number_in(head, name):
    found = re.search(NUMBER % name, head + b"\r\n")
    return found and int(found[1])


def detail_in(body):
    try:
        detail = json.loads(body)["detail"]
    except (ValueError, TypeError, KeyError):
        return ""
    return detail if type(detail) is str else ""


# ---- The order within sessions ---------------------------------------------------------------------------------


def check_order(session):
    """Within one session neither versions nor numbers fall. Each exchange gets the latest version that was named before it."""
    seen, seq = 0, 0
    for it in session:
        it.seen = seen
        if it.version is not None and it.version < seen:
            raise Differs(f"{it}: names version {it.version}, after version {seen} in its session")
        if it.seq is not None and it.seq < seq:
            raise Differs(f"{it}: names number {it.seq}, after number {seq} in its session")
        seen, seq = max(seen, it.version or 0), max(seq, it.seq or 0)


def check_times(asked):
    """No number is below one whose answer had been received before the request was sent."""
    timed = [it for it in asked if it.seq is not None and it.exchange.sent is not None]
    answered, place, latest = sorted(timed, key=lambda it: it.exchange.received), 0, None
    for it in sorted(timed, key=lambda it: it.exchange.sent):
        while place < len(answered) and answered[place].exchange.received < it.exchange.sent:
            latest = answered[place] if latest is None or latest.seq < answered[place].seq else latest
            place += 1
        if latest and latest.seq > it.seq:
            raise Differs(f"{it}: names number {it.seq}, and was sent after number {latest.seq} had been received: {latest}")


# ---- The event logs --------------------------------------------------------------------------------------------


def rows_of_pages(bodies):
    """The rows of the event logs, of the bodies of all their pages in order."""
    rows, total = [], 0
    for it in map(json.loads, bodies):
        rows, total = rows + it["event_logs"], it["total_entries"]
    if len(rows) < total:
        raise Differs(f"the event logs have {total} entries, and {len(rows)} of them were read")
    return rows


def entries_in(rows):
    """The entries as the model has them."""
    found = []
    for number, row in enumerate(rows, 1):
        entry = {**row, "when": instant_of(row["when"])}
        if row["event_log_id"] != number or entry["when"] is None or isoformat(entry["when"]) != row["when"]:
            raise Differs(f"entry {number} is not the next one, or has no timestamp: {row}")
        found.append(entry)
    return found
