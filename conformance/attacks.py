"""What attackers do, for hostile.py: each function plays one connection. What it is told must be what the model writes.

The requests of attackers do not ask for the state: an answer that is lost would leave open which version of the policy it named. Two attacks that read all their
answers do; they leave their exchanges to history.py.
"""
import contextlib
import functools
import json
import random
import socket
import struct
import threading
import time
from concurrent.futures import ThreadPoolExecutor

import with_model  # noqa: F401
import crowd_cases
import limit_cases
import oracle
import request_cases
from config_cases import role_row
from exchanges import Exchange
from request_cases import PLAIN, head, sized, with_body
from serving import ROOM, Broken, Client

SLEEP = 60  # seconds until an attack is no longer waited for
# Seconds from the turn of a peer that sends nothing, or takes nothing: from when it may be ended, and when it has to be. Its turn is the moment from which the
# server gives it ten seconds; how long it waited for a worker before does not count.
ENDED_AFTER, ENDED_WITHIN = 9.5, 11
LAST_RECEIVED = 52  # where the kernel's account of a connection says how many milliseconds ago data came
TOKEN = crowd_cases.token("adam")
# Changes that would show in the event logs if a part of them were enough.
CHANGES = [
    with_body(b"PATCH /api/v1/dags/b HTTP/1.1", TOKEN, b'{"is_paused":true}'),
    with_body(b"POST /api/v1/dags/_/dagRuns HTTP/1.1", TOKEN, b'{"dag_run_id":"cut"}'),
    with_body(b"POST /api/v1/variables HTTP/1.1", TOKEN, b'{"key":"cut","value":"%s"}' % (b"v" * 3000)),
    with_body(b"PATCH /api/v1/users/vi HTTP/1.1", TOKEN, b'{"roles":[{"name":"Admin"}]}'),
]
# A long answer that says nothing of the state: nobody knows which version a request on the state found whose answer was lost.
LONG = head(b"GET /api/v1/roles/Wide HTTP/1.1", [b"Host: h", b"Authorization: Bearer " + TOKEN])
STATELESS = [PLAIN, head(b"GET /nosuch HTTP/1.1", [b"Host: h"]), head(b"PUT /api/v1/dags HTTP/1.1", [b"Host: h"]), head(b"HEAD /api/v1/version HTTP/1.1", [b"Host: h"])]
BODIES = list(limit_cases.bodies(TOKEN))


def config_of(now):
    """That of the clients that behave, and a role whose text is long."""
    made = json.loads(crowd_cases.config(now))
    made["roles"].append(role_row("Wide", *(("can_read", f"DAG:d{it}") for it in range(900))))
    return json.dumps(made).encode()


PLANE = oracle.Plane(config_of(0))


class Wrong(Exception):
    """What an attack was told, and should not be."""


class Untimely(Wrong):
    """A peer that was ended too early, or too late."""


class Turn(random.Random):
    """The chance and the number of one connection, and where it leaves what outlives it: streams that stay open, and sessions for history.py."""

    def __init__(self, seed, number, kept, sessions):
        super().__init__(f"{seed} {number}")
        self.number, self.kept, self.sessions = number, kept, sessions


@functools.lru_cache(maxsize=256)
def model(data):
    """All that is written on a connection whose requests do not turn on what stands."""
    return oracle.answers(PLANE, data)[0]


def ends_by_itself(data):
    """Whether the server ends the connection after this, though the peer has not ended its side: whatever follows changes nothing."""
    return model(data + b"x" * 70_000) == model(data)


@contextlib.contextmanager
def opened(port):
    with socket.create_connection(("127.0.0.1", port), SLEEP) as stream:
        stream.setsockopt(socket.IPPROTO_TCP, socket.TCP_NODELAY, 1)
        yield stream


def reset(stream):
    """Closes with a reset in place of an end."""
    stream.setsockopt(socket.SOL_SOCKET, socket.SO_LINGER, struct.pack("ii", 1, 0))
    stream.close()


def send(stream, data):
    """Sends as much as is taken: the server may close before."""
    try:
        stream.sendall(data)
    except (BrokenPipeError, ConnectionResetError):
        pass


def all_of(stream):
    """What comes up to the end. A reset counts as one: an attack that goes on after an answer that closes may meet it."""
    data = b""
    try:
        while piece := stream.recv(ROOM):
            data += piece
    except ConnectionResetError:
        pass
    return data


def ask(port, data, pieces=None, pause=0.0, stays=False):
    """Sends it whole or in pieces with a pause after each, and half-closes, unless it is to stay open; what comes must be the model's."""
    with opened(port) as stream:
        for it in pieces or [data]:
            send(stream, it)
            time.sleep(pause)
        if not stays:
            with contextlib.suppress(OSError):
                stream.shutdown(socket.SHUT_WR)
        compare(data, all_of(stream))


def is_taken(stream):
    """Asks something, and reads the answer: so a worker has the connection. The moment at which the answer came, which is the peer's turn."""
    send(stream, PLAIN)
    came = b""
    while len(came) < len(model(PLAIN)) and (piece := stream.recv(ROOM)):
        came += piece
    compare(PLAIN, came)
    # (this thread may have been told late, since others run)
    account = stream.getsockopt(socket.IPPROTO_TCP, socket.TCP_INFO, LAST_RECEIVED + 4)
    return time.monotonic() - struct.unpack_from("=I", account, LAST_RECEIVED)[0] / 1000


def in_time(began, what):
    """That a peer is ended now, so long after its turn as it should be."""
    took = time.monotonic() - began
    if not ENDED_AFTER <= took <= ENDED_WITHIN:
        raise Untimely(f"{what} was ended {took:.1f} s after its turn, and not between {ENDED_AFTER} and {ENDED_WITHIN} s")


def end_of(stream, began):
    """Waits for the end of a silent peer, whose turn came at a moment; nothing may be told it."""
    if came := all_of(stream):
        raise Wrong(f"a silent peer was told {came[:300]!r}")
    in_time(began, "a silent peer")


def compare(data, came):
    wanted = model(data)
    if came != wanted:
        raise Wrong(f"{data[:200]!r} ({len(data)} bytes) was answered {came[:300]!r} ({len(came)} bytes), by the model {wanted[:300]!r} ({len(wanted)} bytes)")


# ---- Resets and peers that are gone ------------------------------------------------------------------------------


def reset_in_a_request(port, turn):
    data = turn.choice(CHANGES)
    with opened(port) as stream:
        send(stream, data[: turn.randrange(len(data))])
        if turn.random() < 0.3:
            time.sleep(turn.random() / 50)
        reset(stream)


def reset_in_an_answer(port, turn):
    with opened(port) as stream:
        send(stream, LONG * turn.choice([1, 3, 30]))
        if turn.random() < 0.7:
            stream.recv(turn.choice([1, 100, 5000]))
        reset(stream)


def reset_before_it_is_taken(port, turn):
    """Nothing is sent. Often no worker is free, and the connection is gone before one takes it."""
    with opened(port) as stream:
        reset(stream)


def gone_peer(port, turn):
    """It ends in a request, and is not there to be told so; or it ends at once."""
    data = turn.choice(CHANGES)
    with opened(port) as stream:
        send(stream, data[: turn.choice([0, turn.randrange(len(data))])])
        if turn.random() < 0.5:
            stream.shutdown(socket.SHUT_RD)


def half_open_peer(port, turn):
    """It ends its sending side in a request, is told so, and never closes: the server has to be rid of it all the same."""
    data = turn.choice(CHANGES)
    part, stream = data[: turn.randrange(1, len(data))], socket.create_connection(("127.0.0.1", port), SLEEP)
    turn.kept.append(stream)
    send(stream, part)
    stream.shutdown(socket.SHUT_WR)
    compare(part, all_of(stream))


# ---- Odd messages -------------------------------------------------------------------------------------------------


def a_byte_a_write(port, turn):
    data = b"".join(turn.choices(STATELESS, k=3))
    ask(port, data, [data[it : it + 1] for it in range(len(data))])


def a_change_a_byte_a_write(port, turn):
    """It is done, once, as if it had come whole."""
    data = with_body(b"POST /api/v1/variables HTTP/1.1", TOKEN, b'{"key":"whole %d","value":"v"}' % turn.number)
    with Client(port, SLEEP) as client:
        for it in range(len(data)):
            client.send(data[it : it + 1])
        turn.sessions.append([Exchange(data, client.answer())])
        client.finish()


def a_body_at_the_limit(port, turn):
    """Of an operation that reads its body. Another request follows, or one whose body is too long, which ends the connection."""
    data = BODIES[turn.number % len(BODIES)]
    with Client(port, SLEEP) as client:
        turn.sessions.append(client.ask_all([data, turn.choice([LONG, data.replace(b"65536", b"65537", 1) + b"["])]))
        if not client.is_closed:
            client.finish()


def at_each_limit(port, turn):
    """Each case in three ways: in one write; cut where the limit is; cut anywhere, or without an end where the server is to end the connection by itself."""
    _, data, _ = limit_cases.CASES[turn.number // 3 % len(limit_cases.CASES)]
    way, stays = turn.number % 3, ends_by_itself(data)
    at = turn.choice(limit_cases.EDGES) if way == 1 else turn.randrange(len(data))
    ask(port, data, [data[:at], data[at:]] if way else None, 0.005 * (way == 1), stays and way == 2)


def past_a_limit(port, turn):
    """A head or a body as long as it may be, or longer, and as many lines as there may be, or more; with something odd beside it."""
    n = turn.randint(-2, 3)
    lines = [b"N%d: x" % it for it in range(63 + n)]
    long = lambda size: with_body(turn.choice([b"GET", b"HEAD", b"PUT"]) + b" /api/v1/version HTTP/1.1", b"x", turn.choice([b"[", b"\xff", b"x"]) * size)
    data = turn.choice([
        lambda: sized(16385 + n),
        lambda: head(b"GET /api/v1/version HTTP/1.1", [b"Host: h", *lines]),
        lambda: long(65536 + n),
        lambda: head(b"GET /%s HTTP/1.1" % (turn.choice([b"%FF", b"%", b"a"]) * 5000), [b"Host: h"]),
        lambda: turn.choice([PLAIN, b""]) + head(b"GET /api/v1/version HTTP/1.1", [b"Host: h", turn.choice(request_cases.BODY_LINES + request_cases.BAD_LINES)]),
    ])()  # fmt: skip
    data += turn.choice([b"", PLAIN])
    ask(port, data, None if turn.random() < 0.7 else [data[:100], data[100:]])


def cut_or_random(port, turn):
    """Input that ends anywhere, or is no HTTP."""
    data = turn.choice([
        lambda: PLAIN * 3,
        lambda: bytes(turn.randrange(256) for _ in range(turn.choice([1, 30, 3000]))),
        lambda: b"\x16\x03\x01\x02\x00\x01\x00\x01\xfc\x03\x03" + bytes(turn.randrange(256) for _ in range(500)),
        lambda: b"PRI * HTTP/2.0\r\n\r\nSM\r\n\r\n",
        lambda: turn.choice([b"\0", b"\r", b"\n", b"\r\n"]) * turn.choice([1, 1000, 70_000]),
    ])()  # fmt: skip
    ask(port, data[: turn.randint(0, len(data))] if turn.random() < 0.5 else data)


# ---- Peers that take too much, or nothing --------------------------------------------------------------------------


def ten_thousand_requests(port, turn):
    """In one write; a thousand are answered. They are read as they come, or late."""
    data = turn.choice(STATELESS[:2]) * 10_000
    with opened(port) as stream:
        sender = threading.Thread(target=send, args=[stream, data], daemon=True)
        sender.start()
        time.sleep(turn.choice([0, 0.3]))
        came = all_of(stream)
        reset(stream)
        sender.join(SLEEP)
    if came != model(data):
        raise Wrong(f"of 10,000 requests {came.count(b'HTTP/1.1 ')} were answered, in {len(came)} bytes and not {len(model(data))}")


def never_reads(port, turn):
    """It takes one answer. Then it asks for more than all buffers hold, takes nothing, and is ended."""
    with socket.socket() as stream:
        # (small buffers, also of the server, whose size follows from that of a segment: they are full at once)
        stream.setsockopt(socket.SOL_SOCKET, socket.SO_RCVBUF, 4096)
        stream.setsockopt(socket.IPPROTO_TCP, socket.TCP_MAXSEG, 536)
        stream.settimeout(SLEEP)
        stream.connect(("127.0.0.1", port))
        began = is_taken(stream)
        try:
            while time.monotonic() < began + SLEEP:
                stream.sendall(LONG)
        except (BrokenPipeError, ConnectionResetError):
            return in_time(began, "a reader that never reads")
        except OSError as why:
            raise Wrong(f"a reader that never reads is not ended: {why!r}") from why
        raise Wrong("a reader that never reads is not ended")


def part_of_a_change(turn):
    """Nothing, or the beginning of a request."""
    data = turn.choice(CHANGES)
    return data[: turn.choice([0, turn.randrange(len(data))])]


def silent(port, turn):
    """It is answered, and then sends nothing, or a part of a request, and is ended."""
    with opened(port) as stream:
        began = is_taken(stream)
        send(stream, part_of_a_change(turn))
        end_of(stream, began)


def silent_from_the_start(port, turn):
    """It sends nothing, or a part of a request, and is ended. Nobody knows when a worker took it, but that was not before now."""
    began = time.monotonic()
    with opened(port) as stream:
        send(stream, part_of_a_change(turn))
        came = all_of(stream)
    if came:
        raise Wrong(f"a silent peer was told {came[:300]!r}")
    if (took := time.monotonic() - began) < ENDED_AFTER:
        raise Untimely(f"a silent peer was ended {took:.1f} s after it came")


def each_held(port, workers):
    """Each worker, all of which are idle, is held by a silent peer. After how many seconds the next client was answered, and what is wrong, or None."""
    began, took = time.monotonic(), None
    with contextlib.ExitStack() as kept, ThreadPoolExecutor(workers) as pool:
        ends = []
        for number in range(workers):
            came, stream = time.monotonic(), kept.enter_context(opened(port))
            data = CHANGES[number % len(CHANGES)]
            send(stream, data[: (0, 40, len(data) - 1)[number % 3]])
            ends.append(pool.submit(end_of, stream, came))
        try:
            came = time.monotonic()
            with Client(port, SLEEP) as client:
                compare(PLAIN, client.ask(PLAIN).answer)
            took = time.monotonic() - came
            if took > ENDED_WITHIN or time.monotonic() - began < ENDED_AFTER:
                raise Wrong(f"the next client was answered after {took:.1f} s")
            for it in ends:
                it.result()
        except (Wrong, Broken, OSError) as why:
            return took, f"with each of {workers} workers held by a silent peer: {str(why) or repr(why)}"
    return took, None


# ---- All of them ----------------------------------------------------------------------------------------------------

WORKERS = 16
# Which attacks there are, how many connections each makes, and by how many threads.
ATTACKS = [
    (reset_in_a_request, 500, 4),
    (reset_in_an_answer, 500, 4),
    (reset_before_it_is_taken, 300, 2),
    (gone_peer, 300, 2),
    (half_open_peer, 200, 2),
    (a_byte_a_write, 30, 2),
    (a_change_a_byte_a_write, 20, 1),
    (a_body_at_the_limit, 2 * len(BODIES), 1),
    (at_each_limit, 3 * len(limit_cases.CASES), 2),
    (past_a_limit, 200, 2),
    (cut_or_random, 300, 2),
    (ten_thousand_requests, 6, 1),
    (never_reads, 4, 4),
    (silent, WORKERS, WORKERS),
    (silent_from_the_start, WORKERS, WORKERS),
]
