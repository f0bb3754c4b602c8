"""Requests as nobody should send them: heads and bodies drawn from their grammar, and bytes of good requests that are altered by a draw."""
import json
import re

SPOTS = [b"\r\n", b"\n", b"\r", b"\r\n\r\n", b" ", b"\t", b":", b"\0", b"\x7f", b"\xff", b"\xc3\xa9", b"\xed\xa0\x80", b'"', b"{", b"}", b"[", b"]",
         b",", b"\\u0000", b"\\ud800", b"\\", b"0", b"-1", b"1e9", b"00", b"1000000001", b"99999999999999999999", b"/", b"//", b"?", b"#", b"%2e",
         b"null", b"true", b"Content-Length: 5\r\n", b"Content-Length: 70000\r\n", b"Transfer-Encoding: chunked\r\n", b"Host: x\r\n",
         b"Expect: 100-continue\r\n", b"Authorization: LabSession " + b"0" * 64 + b"\r\n", b"HTTP/1.0", b"HTTP/2.0", b"GET ", b"POST ", b"DELETE "]
TOKEN = "!#$%&'*+-.^_`|~09azAZ"
METHODS = ["GET", "POST", "GET", "POST", "PUT", "HEAD", "DELETE", "OPTIONS", "get", "!"]
PLACES = ["", "/open", "/close", "/password", "/persons", "/issue", "/confirm", "/roles", "/retire", "/unlock", "/forms", "/forms/water/1",
          "/records", "/records/1", "/records/1/versions/1", "/entries", "/amendments", "/signatures", "/records?from=1&to=9", "/trail?from=1&to=100",
          "/copy?from=1&to=100", "/copy?from=2&to=1", "/records/0", "/", "/x", "/records/1/versions/99"]
LABS = ["aqua", "aqua", "aqua", "brick", "zinc", "Aqua", "a" * 13, ""]
FIELDS = ["Host", "host", "Authorization", "Content-Length", "Transfer-Encoding", "Expect", "Accept", "X-" + "y" * 60, "Cookie"]


# ---- drawn from the grammar


def some(draw, letters, most):
    return "".join(draw.choice(letters) for _ in range(draw.randint(1, most)))


def value_of(draw, name, length, tokens):
    ready = {"content-length": [str(length), f"00{length}", str(length + 1), "-1", "x"], "expect": ["100-continue", "100-Continue", "200-ok"],
             "authorization": [f"LabSession {draw.choice(tokens)}", "LabSession x", "Bearer y"], "transfer-encoding": ["chunked", "identity"]}
    return draw.choice(ready.get(name.lower(), ["d", "", " ", "\t", "é" * draw.randint(1, 40)]))


def json_of(draw, depth=0):
    """A value of JSON: one of a kind that bodies have, more often than others."""
    def one():
        return draw.choice(["ann", "dan", "water", "S1", "lead", "", "é" * 61, "x" * 1001, "7.50", 1, 0, -1, 10**9, 2**63, 1.5, True, None])
    if depth > 2 or draw.random() < 0.5:
        return one()
    names = ["code", "password", "record", "version", "key", "value", "unit", "reason", "digest", "meaning", "form", "fields", "name", "roles"]
    count = draw.randint(0, 5)
    return draw.choice([lambda: [json_of(draw, depth + 1) for _ in range(count)],
                        lambda: {name: json_of(draw, depth + 1) for name in draw.sample(names, count)}])()


def drawn(draw, tokens):
    """A request whose head is in the grammar, with a body that is JSON, or none."""
    body = b"" if draw.random() < 0.3 else json.dumps(json_of(draw), ensure_ascii=draw.random() < 0.5).encode()
    lab = f"/labs/{draw.choice(LABS)}" if draw.random() < 0.95 else f"/{some(draw, TOKEN, 30)}"
    lines = [f"{draw.choice(METHODS)} {lab}{draw.choice(PLACES)} HTTP/1.{draw.choice('1110')}"]
    names = draw.sample(FIELDS, draw.randint(0, 4)) + ["Host", "Content-Length"] * (draw.random() < 0.8)
    lines += [f"{name}: {value_of(draw, name, len(body), tokens)}" for name in names]
    end = draw.choice(["\r\n", "\r\n", "\r\n", "\n"])
    return (draw.choice(["", "", "\r\n", "\n\n"]) + "".join(line + end for line in [*lines, ""])).encode() + body


# ---- altered


def placed(draw, request):
    return draw.randrange(len(request) + 1)


def flipped(draw, request, _):
    at = draw.randrange(len(request))
    return request[:at] + bytes([request[at] ^ 1 << draw.randrange(8)]) + request[at + 1:]


def put(draw, request, _):
    at = placed(draw, request)
    return request[:at] + draw.choice(SPOTS) + request[at:]


def removed(draw, request, _):
    at = placed(draw, request)
    return request[:at] + request[at + draw.choice([1, 1, 2, 5, 20, 100]):]


def doubled(draw, request, _):
    at = placed(draw, request)
    part = request[at:at + draw.choice([1, 2, 10, 100])]
    return request[:at] + part * draw.choice([2, 3, 50]) + request[at + len(part):]


def cut(draw, request, _):
    return request[:placed(draw, request)]


def spliced(draw, request, other):
    return request[:placed(draw, request)] + other[placed(draw, other):]


def lengthened(draw, request, _):
    """More fields than there may be, or a head that is too long."""
    head, end, rest = request.partition(b"\r\n")
    line = draw.choice([b"A: b\r\n", b"X: " + b"y" * 200 + b"\r\n"])
    return head + end + line * draw.choice([10, 60, 63, 64, 65, 200]) + rest


def nested(draw, request, _):
    """A body of arrays in arrays, with its length."""
    head = request.partition(b"\r\n")[0]
    depth = draw.choice([100, 127, 128, 1000, 30_000])
    body = b"[" * depth + b"]" * draw.choice([0, depth])
    return b"%s\r\nHost: d\r\nContent-Length: %d\r\n\r\n%s" % (head, len(body), body)


ALTERED = [flipped, flipped, put, put, removed, doubled, cut, spliced, lengthened, nested]


def altered(draw, requests):
    """A good request: as it is; or altered one to four times; or its body alone, of which it states the length."""
    request, kind = draw.choice(requests), draw.choice(["good", "all", "all", "body", "body", "body"])
    head, end, body = request.partition(b"\r\n\r\n")
    part = body if kind == "body" else request
    for _ in range(0 if kind == "good" or not part else draw.choice([1, 1, 2, 4])):
        part = draw.choice(ALTERED)(draw, part or b"\r\n", draw.choice(requests))[:100_000]
    if kind != "body":
        return part
    return re.sub(rb"Content-Length: \d+", b"Content-Length: %d" % len(part), head) + end + part
