"""How the memory of a server grows while it is asked: by the entries and versions that are made, and by little else.

    with Watch(server, token, seconds=600) as watch:
        ..                              # clients ask the server
    watch.samples                       # when, how much memory, how many entries and versions
    watch.fault()                       # None, or that it grew by more than these take

A `Sample` has seconds since the beginning, bytes of resident memory, and the counts at that moment. The requests that ask for the counts are sessions of their
own (`watch.sessions`), so that history.py compares their answers too.
"""
import threading
import time
from dataclasses import dataclass

import with_model  # noqa: F401
from exchanges import number_in
from request_cases import head
from serving import EMPTY, Broken, Client

# What an entry, and a version of the policy of crowd_cases.py, may take at most: about twice what was measured on 2026-11-28 (bench/README.md). An entry
# takes 275 bytes. In the load of four minutes, which is of this policy, a version took 2 KB; one of 1,000 users and 28 roles takes twice that. And what else
# memory may grow by: runs that are kept, texts of variables, and what the allocator holds back.
ENTRY_BYTES, VERSION_BYTES, SPARE_BYTES = 600, 4200, 4 << 20
SAMPLES = 10


@dataclass
class Sample:
    seconds: float
    memory: int
    entries: int
    versions: int

    def __str__(self):
        return f"after {self.seconds:.0f} s: {self.memory / 1e6:.1f} MB, {self.entries} entries, {self.versions} versions"


def counts_of(port, token, sessions):
    """How many entries and versions there are. The exchange that asks for them is added to the sessions, as one of its own."""
    with Client(port) as client:
        exchange = client.ask(head(b"GET /api/v1/eventLogs?limit=0 HTTP/1.1", [b"Host: h", b"Authorization: Bearer " + token]))
    sessions.append([exchange])
    answer = exchange.answer.partition(EMPTY)[0]
    return [number_in(answer, it) or 0 for it in (b"X-Plane-Seq", b"X-Policy-Version")]


def growth(first, last):
    """By how many bytes, entries and versions a server grew between two samples."""
    return last.memory - first.memory, last.entries - first.entries, last.versions - first.versions


def said_of(first, last):
    """The growth between two samples, in words."""
    grown, entries, versions = growth(first, last)
    return f"memory grew by {grown / 1e6:.1f} MB with {entries} entries and {versions} versions"


def fault_of(first, last, version=VERSION_BYTES):
    """That memory grew by more than the entries and versions between two samples may take, or None. `version`: bytes that one may take."""
    grown, entries, versions = growth(first, last)
    most = entries * ENTRY_BYTES + versions * version + SPARE_BYTES
    return f"{said_of(first, last)}, which take {most / 1e6:.1f} MB at most" if grown > most else None


class Watch(threading.Thread):
    """Looks at a server at even times, the last one at the end. The first sample that counts is the second: by then all buffers have been used."""

    def __init__(self, server, token, seconds, samples=SAMPLES):
        super().__init__(daemon=True)
        self.server, self.token, self.seconds, self.count = server, token, seconds, samples
        self.samples, self.sessions, self.broken, self.began, self.ended = [], [], None, None, threading.Event()

    def __enter__(self):
        self.began = time.monotonic()
        self.start()
        return self

    def __exit__(self, kind, *_):
        if kind is not None:
            self.ended.set()
        self.join()

    def run(self):
        try:
            for turn in range(self.count + 1):
                if self.ended.wait(max(0, self.began + self.seconds * turn / self.count - time.monotonic())):
                    return
                entries, versions = counts_of(self.server.port, self.token, self.sessions)
                self.samples.append(Sample(time.monotonic() - self.began, self.server.memory(), entries, versions))
        except (Broken, OSError) as why:
            self.broken = f"its memory and counts cannot be read: {why!r}"

    def said(self):
        """Each sample, and by how much memory grew after the first."""
        yield from map(str, self.samples)
        if len(self.samples) > 2:
            yield f"from {self.samples[1].seconds:.0f} s on, {said_of(self.samples[1], self.samples[-1])}"

    def fault(self):
        """What is wrong, or None."""
        return self.broken or fault_of(self.samples[1], self.samples[-1])
