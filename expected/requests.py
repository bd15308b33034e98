#!/usr/bin/env python3
"""What `cases_http` must print, made from the words of the definitions of requests and replies alone.

    python3 expected/requests.py     writes the connections, and what is to be printed of them

A head is judged by a regular expression here. Between the connections of the file stands `%`.
"""
import os, re

TOP = os.path.dirname(os.path.dirname(os.path.abspath(__file__)))
FOLDER = os.path.join(TOP, "crates/cases_http")
STATUS = {"head_too_large": 431, "bad_head": 400, "not_implemented": 501, "bad_length": 400, "length_required": 411, "body_too_large": 413}
PHRASES = {200: "OK", 400: "Bad Request", 404: "Not Found", 405: "Method Not Allowed", 409: "Conflict", 411: "Length Required",
           413: "Payload Too Large", 422: "Unprocessable Entity", 431: "Request Header Fields Too Large", 501: "Not Implemented",
           503: "Service Unavailable", 507: "Insufficient Storage"}
FIXED = [(404, "not_found"), (405, "method_not_allowed"), (400, "bad_body"), (404, "unknown_element"), (503, "keeper"), (507, "no_memory")]
TOKEN = rb"[!#$%&'*+\-.^_`|~0-9A-Za-z]+"
FIELD = rb"(" + TOKEN + rb"):([\t\x20-\x7e\x80-\xff]*)\r?\n"
HEAD = re.compile(rb"(?:\r?\n)*(" + TOKEN + rb") ([\x21-\x7e\x80-\xff]+) HTTP/1\.([01])\r?\n((?:" + FIELD + rb")*)\r?\n")


def refusal_text(code):
    return '{"refusal":"%s"}' % code


def is_utf8(text):
    try:
        text.decode()
        return True
    except UnicodeDecodeError:
        return False


def taken(held):
    """A request with the rest, the code of a refusal, or None where the bytes are less than a request."""
    window = held[:16384]
    start = next((n for n, byte in enumerate(window) if byte not in b"\r\n"), len(window))
    empty = re.compile(rb"\n\r?\n").search(window, start)
    if not empty:
        return None if len(held) < 16384 else "head_too_large"
    head, behind = held[:empty.end()], held[empty.end():]
    if head[start:].count(b"\n") > 66:
        return "head_too_large"
    parts = HEAD.fullmatch(head)
    if not parts or not is_utf8(parts[2]):
        return "bad_head"
    fields = [(name.lower(), value.strip(b" \t")) for name, value in re.findall(FIELD, parts[4])]
    named = lambda name: [value for other, value in fields if other == name]
    lengths = named(b"content-length")
    if parts[3] == b"1" and len(named(b"host")) != 1:
        return "bad_head"
    if named(b"transfer-encoding"):
        return "not_implemented"
    if lengths and (len(lengths) > 1 or not re.fullmatch(rb"[0-9]{1,10}", lengths[0])):
        return "bad_length"
    if not lengths and parts[1] == b"POST":
        return "length_required"
    count = int(lengths[0]) if lengths else 0
    if count > 1048576:
        return "body_too_large"
    if len(behind) < count:
        return None
    members = [member.strip(b" \t").lower() for value in named(b"connection") for member in value.split(b",")]
    return parts[1], parts[2], parts[3] == b"0" or b"close" in members, behind[:count], behind[count:]


def route(method, target):
    takes = {b"/diagram": b"GET", b"/model": b"GET", b"/command": b"POST", b"/stop": b"POST"}
    key = re.fullmatch(rb"/element/([^/]+)", target)
    wanted = b"GET" if key else takes.get(target)
    if wanted is None:
        return "not found"
    if method != wanted:
        return f"only {wanted.decode()}"
    return f"element {key[1].decode()}" if key else target[1:].decode()


def talk(held):
    shown = []
    for _ in range(20):
        found = taken(held)
        if found is None:
            return shown + ["ended"]
        if isinstance(found, str):
            return shown + [f"{STATUS[found]} {refusal_text(found)}"]
        method, target, close, body, held = found
        shown.append(f"{method.decode()} {target.decode()} {str(close).lower()} [{body.decode()}] {route(method, target)}")
        if close:
            return shown
    return shown


def reply(status, allow, close, body):
    lines = [f"HTTP/1.1 {status} {PHRASES[status]}", "Content-Type: application/json", f"Content-Length: {len(body)}"]
    lines += [f"Allow: {allow}"] * (allow is not None) + ["Connection: close"] * close
    return "\r\n".join(lines + ["", body])


def replies():
    yield from (reply(status, None, status == 400, "{}") for status in PHRASES)
    yield reply(405, "POST", True, "")
    yield from (reply(status, None, False, refusal_text(code)) for status, code in FIXED)
    yield reply(200, None, False, '{"stopped":true}')
    for close in (False, True):
        yield reply(507, None, close, refusal_text("no_memory"))
        yield reply(503, None, close, refusal_text("keeper"))


def text(connections):
    shown = []
    for connection in connections.split(b"%"):
        shown += talk(connection) + ["same"] * (3 if len(connection) < 2000 else 2)
    return "".join(f"{line}\n" for line in shown + list(replies()))


def lines(path):
    """The lines for a file of connections."""
    with open(path, "rb") as file:
        return text(file.read()).splitlines()


HOST = b"Host: h\r\n"


def get(target, *fields, method=b"GET", version=b"1.1", body=b""):
    return method + b" " + target + b" HTTP/" + version + b"\r\n" + HOST + b"".join(field + b"\r\n" for field in fields) + b"\r\n" + body


def post(target, body, *fields):
    return get(target, b"Content-Length: " + str(len(body)).encode(), *fields, method=b"POST", body=body)


def sized(head, size):
    """The head with a field that brings it to this size."""
    return head[:-2] + b"x: " + b"a" * (size - len(head) - 5) + b"\r\n\r\n"


TARGETS = [b"/diagram", b"/model", b"/element/3.4", b"/element/", b"/element/a/b", b"/element", b"/diagram?x=1", b"/diagram/", b"/stop", b"/command", b"*", b"/element/\xc3\xa9"]
CONNECTIONS = [
    b"", b"\r\n", b"GET", get(b"/diagram")[:-1], b"\r" * 3 + b"\n",
    b"".join(get(target) for target in TARGETS),
    b"".join(post(target, b"") for target in TARGETS),
    get(b"/diagram", method=b"get") + get(b"/diagram", method=b"PUT") + get(b"/command", method=b"DELETE"),
    post(b"/command", b"{}") + get(b"/model") + post(b"/stop", b"", b"Connection: close") + get(b"/model"),
    post(b"/command", b"{}")[:-1],
    post(b"/command", get(b"/model")) + get(b"/diagram"),
    get(b"/diagram", b"Content-Length: 3", body=b"abc") + get(b"/model"),
    b"\r\n\n\r\n" + get(b"/diagram") + b"\n" + get(b"/model"),
    b"GET /diagram HTTP/1.1\nHost: h\n\nGET /model HTTP/1.1\nHost: h\r\n\nGET /stop HTTP/1.1\r\nHost: h\n\r\n",
    b"GET /diagram HTTP/1.0\r\n\r\n" + get(b"/model"),
    b"GET /diagram HTTP/1.0\r\n" + HOST + HOST + b"\r\n",
    b"GET /diagram HTTP/1.1\r\n\r\n", b"GET /diagram HTTP/1.1\r\n" + HOST + b"HOST: h\r\n\r\n", b"GET /diagram HTTP/1.2\r\n" + HOST + b"\r\n",
    b"GET /diagram HTTP/1.1\r\nhOsT:\r\n\r\n", b"GET  /diagram HTTP/1.1\r\n" + HOST + b"\r\n", b"GET /diagram\r\n\r\n", b"GET /\xff HTTP/1.1\r\n" + HOST + b"\r\n",
    b"GET /diagram HTTP/1.1\r\n" + HOST + b"a : b\r\n\r\n", b"GET /diagram HTTP/1.1\r\n" + HOST + b"a: \x01\r\n\r\n", b"GET /diagram HTTP/1.1\r\n" + HOST + b" a: b\r\n\r\n",
    b"GET /diagram HTTP/1.1\r\n" + HOST + b"a: \xff\t b \r\n\r\n", b"GET /diagram HTTP/1.1\r\n" + HOST + b"a\r\n\r\n", b"GET /diagram HTTP/1.1\r\n" + HOST + b"a: b\r\r\n\r\n",
    get(b"/diagram", b"Connection: keep-alive, Close") + get(b"/model"), get(b"/diagram", b"connection: a,\t CLOSE \t,b") + get(b"/model"),
    get(b"/diagram", b"Connection: closes, clos, , x close") + get(b"/model", b"Connection: ,", b"Connection: close") + get(b"/model"),
    get(b"/diagram", b"Transfer-Encoding: chunked"), get(b"/diagram", b"transfer-ENCODING:", b"Content-Length: x"),
    b"GET /diagram HTTP/1.1\r\nTransfer-Encoding: chunked\r\n\r\n",
    get(b"/diagram", b"Content-Length: 0", b"Content-Length: 0"), get(b"/diagram", b"Content-Length:"), get(b"/diagram", b"Content-Length: 00000000001", body=b"a"),
    get(b"/diagram", b"CONTENT-length: \t0000000001 ", body=b"a") + get(b"/model"), get(b"/diagram", b"Content-Length: +1", body=b"a"), get(b"/diagram", b"Content-Length: 1 1", body=b"a"),
    get(b"/diagram", b"Content-Length: -0"), get(b"/diagram", b"Content-Length: 1048576", body=b"a"), get(b"/diagram", b"Content-Length: 1048577"), get(b"/diagram", b"Content-Length: 9999999999"),
    get(b"/nowhere", method=b"POST"), get(b"/command", b"Content-Length: x", method=b"POST"), get(b"/command", method=b"post") + get(b"/command", method=b"PUT"),
    get(b"/diagram", *[b"a: b"] * 63) + get(b"/model"), get(b"/diagram", *[b"a: b"] * 64), b"\n" * 100 + get(b"/diagram", *[b"a: b"] * 63), get(b"/diagram", *[b"a: b"] * 70, b"Content-Length: x"),
    sized(get(b"/diagram"), 16384) + get(b"/model"), sized(get(b"/diagram"), 16385), b"\r\n" * 8192, b"\n" * (16384 - len(get(b"/diagram"))) + get(b"/diagram"), b"a" * 16383, b"a" * 16384,
    get(b"/diagram", *[b"a: b"] * 64)[:-1], b"".join(get(b"/model") for _ in range(25)),
    post(b"/command", b"b" * 40000) + get(b"/model"),
]


def main():
    connections = b"%".join(CONNECTIONS)
    with open(os.path.join(FOLDER, "data/connections.http"), "wb") as file:
        file.write(connections)
    with open(os.path.join(FOLDER, "stdout"), "wb") as file:
        file.write(text(connections).encode())


if __name__ == "__main__":
    main()
