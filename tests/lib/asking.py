"""One way to ask a server: a request of some members, in the session of a token, and the status and the members of its reply."""
import json
import re


def request_of(method, path, members=None, token=None, host="d"):
    """The bytes of a request."""
    content = b"" if members is None else json.dumps(members, ensure_ascii=False, separators=(",", ":")).encode()
    head = [f"{method} {path} HTTP/1.1", f"Host: {host}"]
    head += [f"Authorization: LabSession {token}"] if token else []
    head += [f"Content-Length: {len(content)}"] if method == "POST" else []
    return "\r\n".join([*head, "", ""]).encode() + content


def parted(reply):
    """The status of a reply, and the bytes of its body. Where it isn't whole, that is a fault of the connection."""
    head, behind, body = reply.partition(b"\r\n\r\n")
    length = re.search(rb"\r\nContent-Length: (\d+)", head)
    if not behind or (length and len(body) < int(length[1])):
        raise ConnectionError(f"no whole reply: {reply!r:.200}")
    return int(head.split()[1]), body


def read(reply):
    """The status of a reply, and its members."""
    status, members = parted(reply)
    return status, json.loads(members)


def ask(server, method, path, members=None, token=None):
    """The status and the members of a server's reply."""
    return read(server.answer(request_of(method, path, members, token)))
