"""Request texts for differential.py: some as they should be, some hostile, all made from a seeded generator."""

DAGS = [b"a", b"b", b"c", b"a.b", b"A", b"_", b"z" * 250, b"z" * 251, b"gone", b"team.report", b"%61", b"%2e", b"~", b"%7E", b"a%2Fb", b"%ff", b"%", b"%zz", b"a%20b", b"a+b", b"..", b"\xc3\xa9"]
BODIES = [
    *[b'{"is_paused":true}', b'{"is_paused":false}', b' {"is_paused" : true , "x":[1]}\n', b'{"is_paused":true,"is_paused":false}'],
    *[b"", b"{}", b"{", b"null", b"[]", b"true", b'{"is_paused":null}', b'{"is_paused":1}', b'{"is_paused":"true"}', b'{"Is_paused":true}'],
    *[b'{"is_paused":true}x', b"\xff", b'{"\\u0069s_paused":true}', b'{"is_paused":true,"x":"\\ud800"}', b'{"is_paused":true,"x":1e999}', b"GET /api/v1/version HTTP/1.1\r\n\r\n"],
]
METHODS = [b"HEAD", b"PUT", b"POST", b"PATCH", b"DELETE", b"OPTIONS", b"get", b"G!T", b"HEAD ", b"", b"GE\tT", b"GET(", b"\xc3\xa9"]
TARGETS = [
    *[b"/api/v1/dags?limit=1", b"/api/v1/dags?", b"/api/v1/version?x=1", b"/api/v1/dags??", b"/?/api/v1/dags"],
    *[b"/api/v1/dags/", b"//api/v1/dags", b"/api/v1/dags#x", b"/api/v1/%64ags", b"/api/v1/Dags", b"/api/v1/dags/a"],
    *[b"*", b"http://h/api/v1/dags", b"/", b"?", b"/own/me", b"/api/v1/pools", b"api/v1/dags", b"/api/v1/version/"],
    *[b"/\xc3\xa9", b"/\xff", b"/\xc3", b"/\xed\xa0\x80", b"/\x7f", b"/\x00", b"/a b", b"", b'/"<>^`{|}\\', b"/a\tb"],
]
VERSIONS = [b"HTTP/1.0", b"HTTP/1.0", b"HTTP/1.0", b"HTTP/1.2", b"HTTP/2.0", b"HTTP/0.9", b"http/1.1", b"HTTP/1.1 ", b"HTTP/1.", b"HTTP/11", b""]
SCHEMES = [b"bearer ", b"BEARER ", b"bEaReR   ", b"Bearer  ", b"Bearer\t", b"Bearer \t", b"Bearer", b"Basic ", b"", b"Bearer: ", b"Bearer,"]
CONNECTIONS = [
    *[b"close", b"Close", b"CLOSE ", b"\tclose", b"keep-alive, close", b"close,", b",close", b"a,\tclose\t,b"],
    *[b"keep-alive", b"Keep-Alive", b"closed", b"x close", b"clo\tse", b'"close"', b"close;x", b"", b",", b"upgrade"],
]
EXTRAS = [
    *[b"Accept: */*", b"X:", b"X:\t", b"x-long: " + b"v" * 700, b"!#$%&'*+-.^_`|~09aZ: y", b"X: a\tb", b"X: \xff\x80", b"X: a:b"],
    *[b"Expect: 100-continue", b"Hosts: h", b"Hos: h", b"Authorisation: Bearer test", b"Cookie: a=b; c", b"Upgrade: h2c"],
]
BAD_LINES = [
    *[b" X: y", b"\tfolded", b"X : y", b"X\t: y", b"X y", b":y", b": ", b"X: a\x00b", b"X: a\x7fb", b"X: a\x1fb", b"\xc3\xa9: y"],
    *[b"X: a\rb", b"X:\ra", b"X\r: a", b"X(: y", b"X@: y", b"X", b"\r", b"X: a\r", b'"X": y', b"X\x00: y", b" "],
]
BODY_LINES = [
    *[b"Content-Length: 0", b"content-length: 5", b"Content-Length:", b"CONTENT-LENGTH: x", b"Content-Length: 65537", b"Content-Length: 00"],
    *[b"Content-Length: 65536", b"Content-Length: " + b"9" * 40, b"Content-Length: " + b"0" * 40 + b"1", b"Content-Length: +1", b"Content-Length: 1, 1"],
    *[b"Content-Length: -1", b"Content-Length: 1 ", b"Content-Length: 0x1", b"Content-Length: 1\t"],
    *[b"Transfer-Encoding: chunked", b"transfer-encoding:", b"Transfer-Encoding: identity"],
]
PLAIN = b"GET /api/v1/version HTTP/1.1\r\nHost: h\r\n\r\n"


def head(first, fields, ends=b"\r\n"):
    return b"".join(it + ends for it in [first, *fields, b""])


def list_request(token, fields=()):
    return head(b"GET /api/v1/dags HTTP/1.1", [b"Host: h", b"Authorization: Bearer " + token, *fields])


def with_body(first, token, body, fields=()):
    return head(first, [b"Host: h", b"Authorization: Bearer " + token, b"Content-Length: %d" % len(body), *fields]) + body


def on_one_dag(rng, token, wild):
    """One DAG is shown, or paused, or not."""
    path = b"/api/v1/dags/" + rng.choice(DAGS if rng.random() < wild else DAGS[:6])
    path += odd([b"/", b"?x=1", b"/x"], rng, wild / 3, b"")
    if rng.random() < 0.4:
        return head(odd(METHODS, rng, wild / 3, b"GET") + b" " + path + b" HTTP/1.1", [b"Host: h", b"Authorization: Bearer " + token])
    body = rng.choice(BODIES if rng.random() < wild else BODIES[:3])
    return with_body(odd(METHODS, rng, wild / 3, b"PATCH") + b" " + path + b" HTTP/1.1", token, body)


def odd(make, rng, chance, plain):
    return rng.choice(make) if rng.random() < chance else plain


def request(rng, tokens, wild):
    """One request; `wild` is how likely each of its parts is an odd one."""
    wrong = [b"nope", b"", b" ", b"\xff"]
    token = odd(wrong, rng, wild, rng.choice(tokens))
    if rng.random() < 0.5:
        return on_one_dag(rng, token, wild)
    target = odd(TARGETS, rng, wild, rng.choice([b"/api/v1/dags"] * 4 + [b"/api/v1/version"]))
    gap = odd([b"  ", b"\t", b""], rng, wild / 6, b" ")
    first = gap.join([odd(METHODS, rng, wild, b"GET"), target, odd(VERSIONS, rng, wild / 2, b"HTTP/1.1")])
    fields = []
    for _ in range(odd([0, 2, 3], rng, wild / 3, 1)):
        fields.append(odd([b"HOST:", b"host: h ", b"hOsT:\t", b"Host: a b"], rng, wild, b"Host: h"))
    if rng.random() < 0.9:
        name = odd([b"authorization:", b"AUTHORIZATION: ", b"Authorization:\t ", b"Authorization :"], rng, wild / 2, b"Authorization: ")
        fields.append(name + odd(SCHEMES, rng, wild, b"Bearer ") + token + odd([b" ", b"\t ", b" x"], rng, wild / 2, b""))
    if rng.random() < wild / 6:
        fields.append(b"Authorization: Bearer " + rng.choice(tokens))
    for _ in range(odd([1, 1, 2], rng, wild / 2, 0)):
        fields.append(odd([b"connection:", b"CONNECTION: "], rng, wild, b"Connection: ") + rng.choice(CONNECTIONS))
    for _ in range(odd([1, 2, 5], rng, wild, 0)):
        fields.append(rng.choice(EXTRAS))
    if rng.random() < wild / 8:
        fields.append(rng.choice(BAD_LINES))
    if rng.random() < wild / 8:
        fields.append(rng.choice(BODY_LINES))
    if rng.random() < wild / 6:
        fields += [b"N%d: x" % i for i in range(rng.randint(62, 66) - len(fields))]
    rng.shuffle(fields)
    text = head(first, fields)
    if rng.random() < wild / 6:
        fields.append(b"P:" + b"p" * (rng.randint(16381, 16389) - len(text)))
        text = head(first, fields)
    if rng.random() < wild:
        ends = [b"\n", b"\n", b"\r\n", b"\r\r\n", b"\n\r"][: 5 if rng.random() < wild / 4 else 3]
        text = b"".join(it + rng.choice(ends) for it in text.split(b"\r\n")[:-1])
    return odd([b"\r\n", b"\n", b"\n\r\n\n", b"\r\n" * 9000, b"\r", b"\r\r\n", b" \r\n", b"\r\nX"][: rng.choice([4, 8])], rng, wild / 3, b"") + text


def ended(rng, data):
    """The input whole, cut, or followed by something else."""
    end = rng.random()
    if end < 0.12:
        return data[: rng.randint(0, len(data))]
    if end < 0.2:
        return data[: len(data) - rng.randint(0, 6)]
    if end < 0.3:
        return data + rng.choice([b"\r", b"\n", b"\r\n", b"\r\n\r", b"G", b"GET / HTTP/1.1\r\n\r", b"x" * 16384, b"x" * 16385, b"x\n" * 9000, b"A: b\n" * 70])
    if end < 0.34:
        at = rng.randrange(len(data) + 1)
        return data[:at] + bytes([rng.choice([0, 9, 10, 13, 32, 58, 127, 128, 255, rng.randrange(256)])]) + data[at + rng.randint(0, 1) :]
    return data


def connection(rng, tokens):
    """The input of one run: some requests."""
    wild = rng.choice([0.02, 0.05, 0.1, 0.3, 0.5])
    return ended(rng, b"".join(request(rng, tokens, wild) for _ in range(rng.choice([1, 1, 2, 3, 5, 8, 12]))))


def sized(size, ends=b"\r\n"):
    """A good request whose head has this many bytes, the empty line among them."""
    empty = head(b"GET /api/v1/version HTTP/1.1", [b"Host: h", b"P: "], ends)
    return head(b"GET /api/v1/version HTTP/1.1", [b"Host: h", b"P: " + b"p" * (size - len(empty))], ends)


def fixed_inputs(token):
    """Inputs at the limits, tried once each."""
    yield from fixed_lengths(list_request(token))
    yield from fixed_heads(token, list_request(token))
    yield from fixed_bodies(token, list_request(token))


def fixed_lengths(listing):
    """Input that is cut, many requests, long heads."""
    yield from (PLAIN[:n] for n in range(len(PLAIN) + 1))
    yield PLAIN + PLAIN
    yield from (listing * n + b"rest" for n in (999, 1000, 1001))
    yield from (sized(n, ends) + PLAIN for n in range(16383, 16389) for ends in (b"\r\n", b"\n"))
    yield from (sized(n, b"\n")[:-1] + ends for n in range(16384, 16389) for ends in (b"\r", b"\r\n", b""))
    yield from (b"\r\n" * 9000 + sized(n) for n in (16385, 16386))
    yield from (b"x" * n for n in (16383, 16384, 16385, 40000))
    for n in range(62, 67):
        lines = [b"N%d: x" % i for i in range(n - 1)]
        yield head(b"GET /api/v1/version HTTP/1.1", [b"Host: h", *lines]) + PLAIN
        yield head(b"GET /api/v1/version HTTP/1.1", [b"Host: h", *lines])[:-2]
        yield head(b"HEAD /api/v1/version HTTP/1.1", lines) + PLAIN


def fixed_heads(token, listing):
    """Field lines, targets, methods and versions, one after another."""
    for line in [*BAD_LINES, *BODY_LINES, *EXTRAS]:
        yield list_request(token, [line]) + PLAIN
        yield listing.replace(b"GET", b"HEAD", 1).replace(b"\r\n\r\n", b"\r\n" + line + b"\r\n\r\n") + PLAIN
    for target in TARGETS:
        yield b"".join(head(method + b" " + target + b" HTTP/1.1", [b"Host: h"]) for method in (b"GET", b"HEAD", b"PUT"))
    for method in METHODS:
        yield head(method + b" /api/v1/dags HTTP/1.1", [b"Host: h"]) + PLAIN
    for version in VERSIONS:
        yield head(b"GET /api/v1/version " + version, [b"Host: h"]) + PLAIN
        yield head(b"GET /api/v1/version " + version, []) + PLAIN
    for value in CONNECTIONS:
        yield list_request(token, [b"Connection: " + value]) + PLAIN
        yield list_request(token, [b"Connection: a", b"connection: " + value]) + PLAIN
    yield b"".join(listing.replace(b"Bearer ", it) for it in SCHEMES)


def fixed_bodies(token, listing):
    """A change and a look at what stands, with bodies of all kinds and lengths."""
    pause = with_body(b"PATCH /api/v1/dags/b HTTP/1.1", b"abc", BODIES[0])
    shown = head(b"GET /api/v1/dags/b HTTP/1.1", [b"Host: h", b"Authorization: Bearer abc"])
    yield from ((pause + shown)[:n] for n in range(len(pause + shown) + 1))
    yield pause + pause + shown + pause.replace(b"true", b"false").replace(b": 18", b": 19") + shown + listing
    for name in DAGS:
        yield b"".join((pause + shown).replace(b"dags/b", b"dags/" + name).replace(b"abc", it) for it in (b"abc", token, b"foo", b"hello", b"nope"))
    for body in BODIES:
        yield b"".join(with_body(method + b" /api/v1/dags/b HTTP/1.1", it, body) + shown for method in (b"PATCH", b"GET", b"PUT", b"HEAD") for it in (b"abc", b"hello", token))
        yield with_body(b"PATCH /api/v1/dags/nosuch HTTP/1.1", b"abc", body) + PLAIN
    for size in (65535, 65536, 65537):
        yield with_body(b"PATCH /api/v1/dags/b HTTP/1.1", b"abc", b"[" * size) + PLAIN
        yield with_body(b"GET /api/v1/version HTTP/1.1", b"abc", b"x" * size) + PLAIN
        yield with_body(b"HEAD /api/v1/version HTTP/1.1", b"abc", b"x" * (size - 1)) + PLAIN
    for line in BODY_LINES:
        yield pause.replace(b"Content-Length: 18", line) + PLAIN
        yield pause.replace(b"Host: h", b"Host: h\r\n" + line) + PLAIN
