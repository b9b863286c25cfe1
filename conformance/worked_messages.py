"""Inputs of connections over examples/base.json that were written out by hand, with each byte that answers them: messages in each of their forms, what is
no message, and the limits of both (RFC 9112; docs/API.md).

A row is its name, the input, the exit status of the program, and its answers. The status is 1 where the connection ends with a refusal.
"""
from request_cases import PLAIN, head, sized, with_body
from worked_rows import answer, dag_row, listed

VERSION_HEAD = "HTTP/1.1 200 OK\r\nContent-Type: application/json\r\nContent-Length: 42\r\n%s\r\n{\"git_version\":null,\"version\":\"afplane 1\"}"
VERSION, LAST_VERSION = (VERSION_HEAD % it for it in ("", "Connection: close\r\n"))
ALL_DAGS = answer("GET /dags", 200, listed("dags", 3, dag_row("a", "true"), dag_row("b"), dag_row("c")), 0, 0).decode()
NO_TOKEN = answer("GET /dags", 401, "authentication required", 0, 0).decode()
BAD_LIMIT = answer("GET /dags", 400, "bad parameter: limit", 0, 0).decode()
BAD_BODY = answer("POST /dags/b/dagRuns", 400, "bad body", 0, 0).decode()
NO_PATH = answer("GET /own", 404, "no such path", None, None).decode()
BAD_METHOD = answer("PUT /dags", 405, "GET", None, None).decode()
BAD_METHOD_OF_HEAD = answer("HEAD /dags", 405, "GET", None, None).decode()


def refused(status, title, detail):
    """The answer after which the connection ends, and the same without its body."""
    body = f'{{"detail":"{detail}","status":{status},"title":"{title}","type":"about:blank"}}'
    first = f"HTTP/1.1 {status} {title}\r\nContent-Type: application/problem+json\r\nContent-Length: {len(body)}\r\nConnection: close\r\n\r\n"
    return first + body, first


INCOMPLETE, INCOMPLETE_OF_HEAD = refused(400, "Bad Request", "incomplete request")
BAD_HEAD, BAD_HEAD_OF_HEAD = refused(400, "Bad Request", "bad request head")
TOO_LARGE, _ = refused(431, "Request Header Fields Too Large", "request head too large")
CODING, CODING_OF_HEAD = refused(501, "Not Implemented", "transfer coding not supported")
BODY_TOO_LARGE, BODY_TOO_LARGE_OF_HEAD = refused(413, "Content Too Large", "body too large")

GET_VERSION, GET_DAGS = b"GET /api/v1/version HTTP/1.1", b"GET /api/v1/dags HTTP/1.1"


def asked(*lines, rest=b""):
    """A message of these lines, and what comes behind it."""
    return head(lines[0], lines[1:]) + rest


def version(*lines, rest=b""):
    """The same, which asks for the version and names a host."""
    return asked(GET_VERSION, b"Host: h", *lines, rest=rest)


def dags(*lines):
    return asked(GET_DAGS, b"Host: h", *lines)


MESSAGES = [
    ("nothing is asked", b"", []),
    ("a request", PLAIN, [VERSION]),
    ("two requests", PLAIN + PLAIN, [VERSION, VERSION]),
    ("empty lines before a request, and lines that end without CR", b"\r\n\n\r\n" + PLAIN.replace(b"\r", b"") + b"\r\n", [VERSION]),
    ("another method", asked(b"PUT /api/v1/dags HTTP/1.1", b"Host: h"), [BAD_METHOD]),
    ("HEAD", asked(b"HEAD /api/v1/dags HTTP/1.1", b"Host: h"), [BAD_METHOD_OF_HEAD]),
    ("a method in small letters", asked(b"get /api/v1/dags HTTP/1.1", b"Host: h"), [BAD_METHOD]),
    ("a path that ends with a slash", asked(b"GET /api/v1/dags/ HTTP/1.1", b"Host: h"), [NO_PATH]),
    ("a path without its first slash", asked(b"GET api/v1/dags HTTP/1.1", b"Host: h"), [NO_PATH]),
    ("a part of a path", asked(b"GET /own HTTP/1.1", b"Host: h"), [NO_PATH]),
    ("a part of a path, by another method", asked(b"PUT /own HTTP/1.1", b"Host: h"), [NO_PATH]),
    ("one's own path below the API's", asked(b"GET /api/v1/own/me HTTP/1.1", b"Host: h"), [NO_PATH]),
    ("a sync below the API's path", asked(b"POST /api/v1/own/dags/b/sync HTTP/1.1", b"Host: h"), [NO_PATH]),
    ("two question marks", asked(b"GET /api/v1/dags?limit=1?x HTTP/1.1", b"Host: h", b"Authorization: Bearer test"), [BAD_LIMIT]),
    ("a scheme in other letters, and spaces", dags(b"authorization:bEARER   test "), [ALL_DAGS]),
    ("a tab behind the scheme", dags(b"Authorization: Bearer\ttest"), [NO_TOKEN]),
    ("no space behind the scheme", dags(b"Authorization: Bearertest"), [NO_TOKEN]),
    ("two tokens", dags(b"Authorization: Bearer test", b"Authorization: Bearer test"), [NO_TOKEN]),
    ("a token that is cut", dags(b"Authorization: Bearer tes"), [NO_TOKEN]),
    ("no token", dags(), [NO_TOKEN]),
    ("HTTP/1.0", asked(b"GET /api/v1/version HTTP/1.0", rest=GET_VERSION + b"\r\n"), [LAST_VERSION]),
    ("a request that closes", version(b"Connection: close", rest=b"GET /"), [LAST_VERSION]),
    ("a request that closes, in a list", version(b"Connection: x", b"Connection: keep-alive , CLOSE"), [LAST_VERSION]),
    ("a body of no bytes", version(b"Content-Length: 0"), [VERSION]),
    ("a body of no bytes, in two digits", version(b"Content-Length: 00"), [VERSION]),
    ("a body like a request", version(b"content-length: 005", rest=b"GET /" + PLAIN), [VERSION, VERSION]),
    ("a body of empty lines, and a body on no path",
     asked(b"DELETE /api/v1/dags HTTP/1.1", b"Host: h", b"Content-Length: 4", rest=b"\r\n\r\n")
     + asked(b"PUT /own HTTP/1.1", b"Host: h", b"Content-Length: 1", rest=b"{"), [BAD_METHOD, NO_PATH]),
    ("a body of brackets, as long as it may be", with_body(b"POST /api/v1/dags/b/dagRuns HTTP/1.1", b"abc", b"[" * 65_536), [BAD_BODY]),
    ("the longest body", version(b"Content-Length: 65536", rest=b"\n" * 65_536 + PLAIN), [VERSION, VERSION]),
    ("the longest head", sized(16_385), [VERSION]),
    ("the longest head behind empty lines", b"\r\n" * 3 + sized(16_385), [VERSION]),
    ("64 fields", version(*[b"X: y"] * 63), [VERSION]),
    ("a thousand requests, and one more", PLAIN * 1001, [VERSION] * 999 + [LAST_VERSION]),
]  # fmt: skip

REFUSALS = [
    ("no host", asked(GET_VERSION), [BAD_HEAD]),
    ("two hosts", version(b"Host: h"), [BAD_HEAD]),
    ("HEAD without a host", asked(b"HEAD /api/v1/version HTTP/1.1"), [BAD_HEAD_OF_HEAD]),
    ("a body that is cut", version(b"Content-Length: 5", rest=b"abcd"), [INCOMPLETE]),
    ("HEAD with a body that is cut", asked(b"HEAD /api/v1/version HTTP/1.1", b"Host: h", b"Content-Length: 5", rest=b"abcd"), [INCOMPLETE_OF_HEAD]),
    ("two lengths", version(b"Content-Length: 1", b"Content-Length: 1", rest=b"x"), [BAD_HEAD]),
    ("an empty length", version(b"Content-Length:"), [BAD_HEAD]),
    ("a length with a sign", version(b"Content-Length: +1", rest=b"x"), [BAD_HEAD]),
    ("a list of lengths", version(b"Content-Length: 1, 1", rest=b"x"), [BAD_HEAD]),
    ("a coding", version(b"Transfer-Encoding: chunked"), [CODING]),
    ("a coding, and a body that is too long", asked(b"GET /api/v1/version HTTP/1.0", b"Transfer-Encoding:", b"Content-Length: 65537"), [CODING]),
    ("HEAD with a coding", asked(b"HEAD /api/v1/version HTTP/1.1", b"Host: h", b"Transfer-Encoding: chunked"), [CODING_OF_HEAD]),
    ("a coding, and a length that is none", version(b"Transfer-Encoding: chunked", b"Content-Length: x"), [BAD_HEAD]),
    ("a body that is too long", version(b"Content-Length: 65537"), [BODY_TOO_LARGE]),
    ("a length of many digits", asked(b"GET /own HTTP/1.1", b"Host: h", b"Content-Length: 18446744073709551616" + b"0" * 20 + b"65536"), [BODY_TOO_LARGE]),
    ("HEAD with a body that is too long", asked(b"HEAD /own HTTP/1.1", b"Host: h", b"Content-Length: 65537"), [BODY_TOO_LARGE_OF_HEAD]),
    ("HTTP/2.0", asked(b"GET /api/v1/version HTTP/2.0", b"Host: h"), [BAD_HEAD]),
    ("a request line without a version, behind a request", PLAIN + b"GET /\r\n\r\n", [VERSION, BAD_HEAD]),
    ("an empty line that is cut", b"\r\n\r", [INCOMPLETE]),
    ("a head that is too long", sized(16_386), [TOO_LARGE]),
    ("the first 16,384 bytes of a head that is too long", sized(16_386)[:16_384], [INCOMPLETE]),
    ("the first 16,385 bytes of a head that is too long", sized(16_386)[:16_385], [TOO_LARGE]),
    ("65 fields", version(*[b"X: y"] * 64), [TOO_LARGE]),
    *((f"the first {size} bytes of a request", PLAIN[:size], [INCOMPLETE]) for size in (1, 3, len(PLAIN) - 1)),
]  # fmt: skip

# In one list, with the exit status of the program.
CASES = [(*it[:2], status, "".join(it[2]).encode()) for status, rows in ((0, MESSAGES), (1, REFUSALS)) for it in rows]
