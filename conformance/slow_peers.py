#!/usr/bin/env python3
"""Shows that slow and silent peers hold no worker of the built server for ever, and that no answer is lost where a connection ends.

  python3 conformance/slow_peers.py
  python3 conformance/slow_peers.py --program 'PATH/PROGRAM'

Each case has a server of its own, and all play at once, so it takes half a minute. What a case measures stands in its line. The last line is `N passed, M failed`,
and the status is 0 only where M is 0. Times are measured, so the machine should not be busy.
"""
import argparse
import contextlib
import json
import shlex
import shutil
import signal
import socket
import sys
import threading
import time
from concurrent.futures import ThreadPoolExecutor

import with_model  # noqa: F401
import oracle
from blind_cases import BASE
from serving import PROGRAM, ROOM, Broken, Client, Serving
from worked_rows import request

PATIENCE, SERVED_WITHIN, ENDED_AFTER = 10, 11, 9.5  # seconds: what a peer is given; from and until when it has to be over
CONFIG = json.dumps({**BASE, "variables": [{"key": "long", "value": "v" * 60_000}]}).encode()
LIST, LONG, CHANGE = request("vera", "GET /dags"), request("adam", "GET /variables/long"), request("adam", "PATCH /dags/b", '{"is_paused":true}')
SLEEP, TIMES = 60, 5


class Wrong(Exception):
    """What a case found."""


def model(data):
    """All that is to be written on a connection."""
    return oracle.answers(oracle.Plane(CONFIG), data)[0]


def expect(holds, what):
    if not holds:
        raise Wrong(what)


def bytes_of(data):
    return [data[it : it + 1] for it in range(len(data))]


def peer(port, room=None):
    """A connection that nothing is sent on yet. `room`: how many bytes it takes at most before it is read."""
    stream = socket.socket()
    if room:
        stream.setsockopt(socket.SOL_SOCKET, socket.SO_RCVBUF, room)
    stream.settimeout(SLEEP)
    stream.connect(("127.0.0.1", port))
    return stream


def ended(stream):
    """What still comes on a connection up to its end. A reset is an end."""
    data = b""
    try:
        while piece := stream.recv(ROOM):
            data += piece
    except ConnectionResetError:
        pass
    except OSError as why:
        raise Wrong(f"the connection does not end: {why!r}") from why
    return data


def all_of(stream):
    """All that comes up to an end in good order."""
    data = b""
    try:
        while piece := stream.recv(ROOM):
            data += piece
    except OSError as why:
        raise Wrong(f"after {data.count(b'HTTP/1.1 ')} answers: {why!r}") from why
    return data


def compare(came, data):
    wanted = model(data)
    if came != wanted:
        counts = [it.count(b"HTTP/1.1 ") for it in (came, wanted)]
        at = next((n for n, (a, b) in enumerate(zip(came, wanted)) if a != b), min(len(came), len(wanted)))
        raise Wrong(f"{counts[0]} answers came and {counts[1]} should; byte {at}: {came[at : at + 100]!r}, by the model {wanted[at : at + 100]!r}")


def next_one(port, began):
    """A client that comes now, when all workers were taken since a moment. It has to be answered soon enough, and rightly; the seconds that it took."""
    taken = time.monotonic()
    with Client(port, seconds=SLEEP) as client:
        answer = client.ask(LIST).answer
        now = time.monotonic()
        compare(answer, LIST)
        expect(now - taken <= SERVED_WITHIN, f"the next client was answered after {now - taken:.1f} s")
        expect(now - began >= ENDED_AFTER, f"the next client was answered after {now - began:.1f} s: not all workers were held, or not for {PATIENCE} s")
    return now - taken


# ---- Peers that are slow or silent ------------------------------------------------------------------------------


def silent_peers(server, workers):
    """Every worker is held: by a peer that sends nothing, by parts of a head and of a body, and by one that had an answer."""
    parts = [b"", LIST[:40], CHANGE[:-5], LIST]
    began = time.monotonic()
    with contextlib.ExitStack() as kept:
        streams = [kept.enter_context(peer(server.port)) for _ in range(workers)]
        for number, it in enumerate(streams):
            it.sendall(parts[number % len(parts)])
            if parts[number % len(parts)] == LIST:
                compare(it.recv(ROOM), LIST)
        took = next_one(server.port, began)
        told = b"".join(map(ended, streams))
    expect(told == b"", f"silent peers were told {told[:200]!r}")
    return f"the next client was answered after {took:.1f} s"


def trickling_peer(pieces, pause):
    """A peer that sends a piece every few seconds: its request is never whole in time."""

    def play(server, workers):
        def trickle():
            for it in pieces:
                send_all(stream, it)
                time.sleep(pause)

        began = time.monotonic()
        with peer(server.port) as stream:
            threading.Thread(target=trickle, daemon=True).start()
            took = next_one(server.port, began)
            told = ended(stream)
        expect(told == b"", f"the peer was told {told[:200]!r}")
        return f"ended, and the next client answered, after {took:.1f} s"

    return play


def peer_that_never_reads(server, workers):
    """It asks for more than all buffers hold, and takes nothing."""
    began = time.monotonic()
    with peer(server.port, room=4096) as stream:
        threading.Thread(target=send_all, args=[stream, LONG * 900], daemon=True).start()
        time.sleep(0.1)
        took = next_one(server.port, began)
        data = ended(stream)
    expect(model(LONG * 900).startswith(data), "what did arrive is not the beginning of the answers")
    return f"ended, and the next client answered, after {took:.1f} s; {len(data)} bytes had arrived"


def patient_peer(server, workers):
    """Requests with seconds between them are no reason to end, since each comes in time after the answer before it."""
    with Client(server.port, seconds=SLEEP) as client:
        for pause in (8, 8, 8, 0):
            compare(client.ask(LIST).answer, LIST)
            time.sleep(pause)
        client.finish()
    return "three pauses of 8 s were waited for"


def request_in_pieces(server, workers):
    """Each request comes in two parts, seconds apart, and each is whole within its time."""
    with Client(server.port, seconds=SLEEP) as client:
        for _ in range(3):
            client.send(LIST[:50])
            time.sleep(6)
            client.send(LIST[50:])
            compare(client.answer(), LIST)
        client.finish()
    return "three requests took 6 s each to arrive"


def read_of(stream, length, rate=1e9):
    """So many bytes, or those up to an end, and no more than so many a second."""
    data, began = bytearray(), time.monotonic()
    while len(data) < length and (piece := stream.recv(ROOM)):
        data += piece
        time.sleep(max(0, len(data) / rate - (time.monotonic() - began)))
    return bytes(data)


def slow_reader(server, workers):
    """It asks for many long answers in one write, and takes nine of them a second, so that all take longer than one peer is waited for."""
    began, many = time.monotonic(), LONG * 180
    with peer(server.port, room=ROOM) as stream:
        threading.Thread(target=send_all, args=[stream, many], daemon=True).start()
        compare(read_of(stream, len(model(many)), rate=len(model(LONG)) * 9), many)
    return f"180 long answers were taken in {time.monotonic() - began:.1f} s"


# ---- A server that is stopped and continued ---------------------------------------------------------------------


def interrupt(server):
    """A read or a write that waits ends, for the system, though the peer did nothing."""
    for _ in range(3):
        server.tell(signal.SIGSTOP)
        time.sleep(0.1)
        server.tell(signal.SIGCONT)
        time.sleep(0.1)


def interrupted_reads(server, workers):
    with Client(server.port, seconds=SLEEP) as client:
        for _ in range(3):
            interrupt(server)
            client.send(LIST[:50])
            interrupt(server)
            client.send(LIST[50:])
            compare(client.answer(), LIST)
        client.finish()
    return "three requests were answered"


def interrupted_writes(server, workers):
    with peer(server.port, room=ROOM) as stream:
        threading.Thread(target=send_all, args=[stream, LONG * 100], daemon=True).start()
        time.sleep(0.5)
        interrupt(server)
        compare(read_of(stream, len(model(LONG * 100))), LONG * 100)
    return "100 long answers were whole"


# ---- Ends of connections ----------------------------------------------------------------------------------------


def send_all(stream, data):
    try:
        stream.sendall(data)
    except OSError:
        pass


def pipeline(data, pause=0.0, half=False, room=None):
    """All requests in one write; what comes is read up to the end, after a pause. `half`: the peer ends its own side first."""

    def play(server, workers):
        for _ in range(TIMES):
            with peer(server.port, room) as stream:
                sender = threading.Thread(target=send_all, args=[stream, data], daemon=True)
                sender.start()
                if half:
                    sender.join(SLEEP)
                    stream.shutdown(socket.SHUT_WR)
                time.sleep(pause)
                compare(all_of(stream), data)
        return f"{model(data).count(b'HTTP/1.1 ')} answers, {TIMES} times"

    return play


CLOSING, REFUSED = LIST.replace(b"Host: h\r\n", b"Host: h\r\nConnection: close\r\n"), b"GET / HTTP/1.1\r\n\r\n"
CASES = [
    ("every worker held by a silent peer", 4, silent_peers),
    ("sixteen workers held", 16, silent_peers),
    ("a head that trickles", 1, trickling_peer(bytes_of(LIST[:20]), 2)),
    ("a body that trickles", 1, trickling_peer([CHANGE[:-15], *bytes_of(CHANGE[-15:])], 1.5)),
    ("a peer that never reads", 1, peer_that_never_reads),
    ("a patient peer", 1, patient_peer),
    ("requests in pieces", 1, request_in_pieces),
    ("a slow reader of many answers", 1, slow_reader),
    ("a server stopped and continued in reads", 1, interrupted_reads),
    ("a server stopped and continued in writes", 1, interrupted_writes),
    ("1,500 requests in one write", 1, pipeline(LIST * 1500)),
    ("the same, read late", 1, pipeline(LIST * 1500, pause=0.5)),
    ("5,000 requests in one write", 1, pipeline(LIST * 5000)),
    ("300 requests and a half-close", 1, pipeline(LIST * 300, half=True)),
    ("the same, read late", 1, pipeline(LIST * 300, pause=0.5, half=True)),
    ("900 requests and a half-close in a request", 1, pipeline(LIST * 900 + LIST[:30], half=True)),
    ("long answers to a slow reader with a half-close", 1, pipeline(LONG * 40, pause=0.3, half=True, room=4096)),
    ("a request that closes, and more behind it", 1, pipeline(LIST * 10 + CLOSING + LIST * 3000)),
    ("a request that is refused, and more behind it", 1, pipeline(LIST * 10 + REFUSED + LIST * 3000)),
]


def tried(program, workers, play):
    """What a case measured, and what is wrong, or None."""
    said = ""
    try:
        with Serving(program, CONFIG, workers) as server:
            said = play(server, workers)
            # (the worker is free again)
            with Client(server.port) as client:
                compare(client.ask(LIST).answer, LIST)
        return said, server.fault()
    except (Wrong, Broken, OSError) as why:
        return said, str(why) or repr(why)


def main():
    parser = argparse.ArgumentParser(description=__doc__, formatter_class=argparse.RawDescriptionHelpFormatter)
    parser.add_argument("--program", default=PROGRAM, help="the program and its first words, as a shell would read them")
    parser.add_argument("--only", default="", metavar="WORD", help="the cases with this word in their names")
    asked = parser.parse_args()
    program = shlex.split(asked.program)
    if shutil.which(program[0]) is None:
        sys.exit(f"slow_peers.py: there is no program {program[0]}; ./afplane build makes it")
    cases, passed, failed = [it for it in CASES if asked.only in it[0]], 0, 0
    with ThreadPoolExecutor(len(cases) or 1) as threads:
        for name, (said, wrong) in zip([it[0] for it in cases], threads.map(lambda it: tried(program, *it[1:]), cases)):
            passed, failed = passed + (not wrong), failed + bool(wrong)
            print(f"{name}: {wrong or said}", flush=True)
    print(f"{passed} passed, {failed} failed")
    return 1 if failed or not passed else 0


if __name__ == "__main__":
    sys.exit(main())
