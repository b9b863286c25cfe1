"""Connections at and past each limit of a message, and at the edges of what counts. None asks for the state, so the answers are always the same.

`CASES` are rows of a name, the bytes that are sent, and the statuses of the answers. These were written out by hand, from the rules in docs/API.md:

- A head may have 16,384 bytes before the last line feed of its empty line, so 16,385 in all, and 64 lines between the first one and the empty one. Empty lines
  before it do not count. More is 431, and so are 16,385 bytes without an empty line. Many lines without an empty one are cut input: 400.
- A body may have 65,536 bytes; a length above that is 413 before any byte of it is read.
- A connection has a thousand requests.
- What is cut is 400, also a single carriage return. After each refusal the connection ends.
"""
import with_model  # noqa: F401
from request_cases import PLAIN, head, sized, with_body

VERSION, LINES = b" /api/v1/version HTTP/1.1", [b"N%d: x" % it for it in range(70)]
MOST_HEAD, MOST_LINES, MOST_BODY, MOST_REQUESTS = 16385, 64, 65536, 1000


def of_body(length, size, method=b"GET", fill=b"["):
    """A request whose head names a length, and so many bytes of a body."""
    return head(method + VERSION, [b"Host: h", b"Content-Length: " + length]) + fill * size


def lined(count, method=b"GET", ends=b"\r\n"):
    """A head with so many lines between the first one and the empty one."""
    return head(method + VERSION, [b"Host: h", *LINES[: count - 1]], ends)


def cases():
    for ends in (b"\r\n", b"\n"):
        how = "CR LF" if ends == b"\r\n" else "LF"
        yield from ((f"a head of {size} bytes, {how}", sized(size, ends) + PLAIN, [200, 200]) for size in range(MOST_HEAD - 2, MOST_HEAD + 1))
        yield from ((f"a head of {size} bytes, {how}", sized(size, ends) + PLAIN, [431]) for size in (MOST_HEAD + 1, MOST_HEAD + 2, 40_000))
        yield from ((f"{count} lines, {how}", lined(count, ends=ends) + PLAIN, [200, 200]) for count in (MOST_LINES - 1, MOST_LINES))
        yield from ((f"{count} lines, {how}", lined(count, ends=ends) + PLAIN, [431]) for count in (MOST_LINES + 1, MOST_LINES + 2))
        yield f"70 lines and no end, {how}", lined(70, ends=ends)[: -len(ends)], [400]
        yield f"9,000 empty lines and a head, {how}", ends * 9000 + sized(MOST_HEAD, ends) + PLAIN, [200, 200]
        yield f"9,000 empty lines and a long head, {how}", ends * 9000 + sized(MOST_HEAD + 1, ends), [431]
        yield f"requests and empty lines, {how}", (PLAIN + ends * 3) * 3, [200, 200, 200]
    yield from ((f"{size} bytes without a line", b"x" * size, [400]) for size in (1, MOST_HEAD - 2, MOST_HEAD - 1))
    yield from ((f"{size} bytes without a line", b"x" * size, [431]) for size in (MOST_HEAD, MOST_HEAD + 1, 70_000))
    yield "a long path", head(b"GET /%s HTTP/1.1" % (b"%FF" * 5000), [b"Host: h"]) + PLAIN, [404, 200]
    yield "a single carriage return", PLAIN + b"\r", [200, 400]
    yield "HEAD with 65 lines", lined(MOST_LINES + 1, b"HEAD"), [431]
    yield "HEAD without Host", head(b"HEAD" + VERSION, []) + PLAIN, [400]
    yield "HEAD with a coding", head(b"HEAD" + VERSION, [b"Host: h", b"Transfer-Encoding: chunked"]), [501]
    yield "HEAD with half a body", of_body(b"10", 5, b"HEAD"), [400]
    for fill in (b"[", b"\xff"):
        yield from ((f"a body of {size} bytes", of_body(b"%d" % size, size, fill=fill) + PLAIN, [200, 200]) for size in (MOST_BODY - 1, MOST_BODY))
        yield from ((f"a body of {size} bytes", of_body(b"%d" % size, size, fill=fill) + PLAIN, [413]) for size in (MOST_BODY + 1, MOST_BODY + 2))
    yield "a body of which the last byte lacks", of_body(b"65536", MOST_BODY - 1), [400]
    yield "a body that is too long, of which nothing comes", of_body(b"65537", 0), [413]
    yield "HEAD with a body that is too long", of_body(b"65537", 0, b"HEAD"), [413]
    yield "a length with zeros before it", of_body(b"0" * 40 + b"65536", MOST_BODY) + PLAIN, [200, 200]
    yield "a length of forty digits", of_body(b"9" * 40, 10), [413]
    yield "a coding and a length that is too long", head(b"POST" + VERSION, [b"Host: h", b"Transfer-Encoding: x", b"Content-Length: 65537"]), [501]
    yield from ((f"{count} requests", PLAIN * count, [200] * min(count, MOST_REQUESTS)) for count in (999, 1000, 1001, 1200))
    yield "999 requests and one past a limit", PLAIN * 999 + sized(MOST_HEAD + 1), [200] * 999 + [431]


CASES = list(cases())
# Where a message reaches a limit: there it is cut in two writes.
EDGES = [MOST_HEAD - 1, MOST_HEAD, MOST_HEAD + 1, MOST_BODY, -1, -2]


def bodies(token):
    """Changes of the state with a body at the limit, whose answers name how many entries there are."""
    for method, path in ((b"PATCH", b"dags/b"), (b"POST", b"variables"), (b"PATCH", b"users/vi"), (b"POST", b"roles")):
        for fill in (b"[", b"\xff", b'{"a":'):
            body = (fill * MOST_BODY)[:MOST_BODY]
            yield with_body(b"%s /api/v1/%s HTTP/1.1" % (method, path), token, body)
