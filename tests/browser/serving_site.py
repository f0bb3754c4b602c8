"""labdesk-pages as its user meets it, what the site sends with each reply, and what the files of the pages hold."""
import contextlib
import gzip
import re
import shutil
import signal
import socket
import subprocess
import time

from room import PATIENCE, TOP, Asker, Served, Stop, same, say
from served import site_client

MOST_BYTES, MOST_SENT = 345_000, 125_000
# The one module that keeps something, and how it may: the code of a laboratory, which is no secret, under one key.
KEEPER, KEEPS = "lab.js", (r"const KEY = 'koghdise lab';", r"localStorage\.getItem\(KEY\)", r"localStorage\.setItem\(KEY, lab\)")
TYPES = {".html": "text/html; charset=utf-8", ".css": "text/css; charset=utf-8", ".js": "text/javascript; charset=utf-8", ".svg": "image/svg+xml"}
POLICY = ("default-src 'self'; base-uri 'none'; form-action 'none'; frame-ancestors 'none'; object-src 'none'; "
          "require-trusted-types-for 'script'; trusted-types 'none'")
HEADERS = {"Content-Security-Policy": POLICY, "Referrer-Policy": "no-referrer", "X-Content-Type-Options": "nosniff",
           "Cross-Origin-Opener-Policy": "same-origin", "Cross-Origin-Resource-Policy": "same-origin",
           "Strict-Transport-Security": "max-age=31536000", "Permissions-Policy": "camera=(), geolocation=(), microphone=()"}
# What no file of the pages may hold: what keeps something, makes markup of a text, or reaches another host.
FORBIDDEN = (r"localStorage", r"sessionStorage", r"indexedDB", r"document\.cookie", r"innerHTML", r"outerHTML", r"insertAdjacentHTML",
             r"document\.write", r"\beval\(", r"new Function", r"setAttribute\(['\"]style", r"https?://(?!www\.w3\.org/)", r"@import", r"\bXMLHttpRequest\b",
             r"\bWebSocket\b", r"sendBeacon", r"serviceWorker")
INLINE = (r"<style", r"\sstyle=", r"\son\w+=", r"<script(?![^>]*\ssrc=)", r"javascript:", r"<base\b", r"<iframe", r"<object")


def pages():
    return sorted(one for one in (TOP / "pages").rglob("*") if one.is_file() and one.name != "README.md")


def fetched(tls, path, method="GET", headers=None):
    """The status, the headers and the body of a reply of nginx."""
    client = site_client(tls, patience=PATIENCE)
    client.request(method, path, headers=headers or {})
    reply = client.getresponse()
    return reply.status, reply.headers, reply.read()


def look_at_headers(served):
    """Each reply of the site has the headers, also that of the server and a refusal."""
    for path, status, kept in (("/pages/", 200, "no-cache"), ("/labs/aqua", 200, "no-store"), ("/labs/none", 404, "no-store"),
                               ("/labs/aqua/persons", 401, "no-store"), ("/pages/none.js", 404, "no-cache"), ("/none", 404, "no-store")):
        there, headers, _ = fetched(served.tls, path)
        lacking = [name for name, value in HEADERS.items() if headers.get_all(name) != [value]]
        same(f"GET {path}", (there, lacking, headers.get("Cache-Control"), headers.get("Set-Cookie")), (status, [], kept, None))
    there, headers, _ = fetched(served.tls, "/")
    same("GET / leads to the pages", (there, headers.get("Location")), (302, "/pages/"))
    same("POST to a page", fetched(served.tls, "/pages/", "POST")[0], 403)
    # (http.client sends no path with dots cleaned)
    for path in ("/pages/../labdesk", "/pages/..%2flabdesk", "/pages/README.md%00", "/pages/.git/config"):
        say(fetched(served.tls, path)[0] in (400, 403, 404), f"GET {path} gives nothing")
    there, headers, body = fetched(served.tls, "/pages/main.js")
    same("a page that the browser has isn't sent again", fetched(served.tls, "/pages/main.js", headers={"If-None-Match": headers["ETag"]})[0], 304)


def look_at_one_connection(served):
    """More requests than nginx takes of a connection, if nobody tells it how many, come by one: a browser may lose one where it ends."""
    ran = subprocess.run(["curl", "-sk", "-o", "/dev/null", "-w", "%{num_connects} %{http_code}\n", f"https://127.0.0.1:{served.tls}/pages/none.js?[1-1100]"],
                         capture_output=True, text=True, timeout=PATIENCE)
    lines = [line.split() for line in ran.stdout.splitlines()]
    same("connections of 1,100 requests, and their replies", (sum(int(one) for one, _ in lines), {code for _, code in lines}, len(lines)), (1, {"404"}, 1100))


def look_at_files(served):
    """Each file of the pages comes as it is, with its type; together they are small, and none holds what it mustn't."""
    wrong, total = [], 0
    for page in pages():
        status, headers, body = fetched(served.tls, f"/{page.relative_to(TOP)}")
        total += len(body)
        if (status, headers["Content-Type"], body) != (200, TYPES.get(page.suffix), page.read_bytes()):
            wrong.append((page.name, status, headers["Content-Type"]))
        text = page.read_text()
        if page.name == KEEPER:
            for one in KEEPS:
                text, count = re.subn(one, "", text)
                wrong += [(page.name, one, count)] if count != 1 else []
        wrong += [(page.name, one) for one in FORBIDDEN if page.suffix != ".svg" and re.search(one, text)]
        wrong += [(page.name, one) for one in INLINE if page.suffix == ".html" and re.search(one, text)]
    say(not wrong, f"{len(pages())} files of the pages, each as it is and without what it mustn't hold {wrong[:4] or ''}")
    say(total < MOST_BYTES, f"together they have {total:,} bytes, fewer than {MOST_BYTES:,}")


def look_at_compression(served):
    """Pages are sent compressed to who takes that, and are the same then; no reply of the server is, nor is a refusal."""
    wrong, sent = [], 0
    for page in pages():
        _, headers, body = fetched(served.tls, f"/{page.relative_to(TOP)}", headers={"Accept-Encoding": "gzip"})
        sent += len(body)
        is_small = page.stat().st_size < 256
        if (headers["Content-Encoding"], headers["Vary"]) != ((None, None) if is_small else ("gzip", "Accept-Encoding")):
            wrong.append((page.name, headers["Content-Encoding"], headers["Vary"]))
        elif not is_small and gzip.decompress(body) != page.read_bytes():
            wrong.append((page.name, "isn't the same"))
        if not is_small and fetched(served.tls, f"/{page.relative_to(TOP)}")[1]["Content-Encoding"] is not None:
            wrong.append((page.name, "is compressed unasked"))
    say(not wrong, f"each page is sent compressed to who takes that, with Vary, and as it is to others {wrong[:3] or ''}".rstrip())
    say(sent < MOST_SENT, f"together {sent:,} bytes are sent, fewer than {MOST_SENT:,}")
    cid = Asker(served.port, "aqua", "cid", "correct horse 3")
    found = []
    for path in ("/labs/aqua", "/labs/none", "/labs/aqua/persons", "/labs/aqua/trail?from=1&to=100", "/none"):
        headers = {"Accept-Encoding": "gzip", "Authorization": f"LabSession {cid.token}"}
        found += [path for one in (fetched(served.tls, path, headers=headers)[1],) if one["Content-Encoding"] or one["Vary"]]
    same("no reply of the server is compressed", found, [])
    there, headers, _ = fetched(served.tls, "/pages/main.js", headers={"Accept-Encoding": "gzip"})
    again = fetched(served.tls, "/pages/main.js", headers={"Accept-Encoding": "gzip", "If-None-Match": headers["ETag"]})[0]
    same("a page that the browser has compressed isn't sent again", (there, again), (200, 304))


# ---- labdesk-pages


def ran(*words):
    one = subprocess.run([str(TOP / "labdesk-pages"), *map(str, words)], capture_output=True, text=True, timeout=PATIENCE, stdin=subprocess.DEVNULL)
    return one.returncode, one.stdout, one.stderr


def is_shut(port):
    with contextlib.suppress(OSError), socket.create_connection(("127.0.0.1", port), timeout=1):
        return False
    return True


def until_shut(*ports):
    until = time.monotonic() + PATIENCE
    while time.monotonic() < until:
        if all(is_shut(port) for port in ports):
            return True
        time.sleep(0.05)
    return False


def look_at_words(program, room):
    status, printed, told = ran("--help")
    say((status, told) == (0, "") and printed.startswith("Serve the pages on this machine"), "labdesk-pages --help")
    same("words that are none", ran("--labdesk")[::2], (2, "labdesk-pages: the arguments are '[--labdesk P] [FILE]'; '--help' says more\n"))
    none = room / "none"
    status, printed, told = ran("--labdesk", program, none)
    say((status, printed) == (1, "") and "not_a_desk_file" in told and f"didn't start over {none}" in told, f"a file that isn't there: {told!r}")
    same("a program that isn't there", ran("--labdesk", none)[::2], (1, f"labdesk-pages: {none} doesn't run\n"))


def look_at_sample(program):
    """Without a file: the sample laboratory is there, and all of it is gone at Ctrl-C."""
    served = Served(program)
    say("sample laboratory, aqua, in a temporary file" in served.printed, "without a FILE it says that this is a sample laboratory")
    persons = re.findall(r"^  (\w+) +(\S.*?)  +([a-z, ]+)$", served.printed, re.M)[1:]
    try:
        opened = [code for code, password, _ in persons if Asker(served.port, "aqua", code, password).token]
    except Exception as fault:
        opened = [str(fault)]
    same("each person whom it prints has a session by the printed password", opened, ["ann", "bob", "cid", "dan", "eve", "fay", "gus", "hal"])
    hal = Asker(served.port, "aqua", "hal", dict(one[:2] for one in persons)["hal"])
    states = [one["state"] for one in hal.get("records?from=1&to=100")["records"]]
    same("its records are in each state", sorted(states), ["open", "rejected", "released", "reviewed", "signed"])
    there = served.stop()
    say(there[0] == 0 and "server and nginx are stopped" in there[1], f"Ctrl-C ends it: {there}")
    say(until_shut(served.port, served.tls) and not served.room.exists(), "nobody listens any more, and its folder is gone")


def look_at_ends(program):
    """Another signal ends it as well, and where it is killed, the server and nginx end too."""
    for by, what in ((signal.SIGTERM, "a signal to end"), (signal.SIGKILL, "its killing")):
        served = Served(program)
        status, _ = served.stop(by)
        say(status == (0 if by == signal.SIGTERM else -by) and until_shut(served.port, served.tls), f"{what} ends server and nginx, too")
        shutil.rmtree(served.room, ignore_errors=True)


def look_at_the_starter(program, room):
    try:
        look_at_words(program, room)
        look_at_sample(program)
        look_at_ends(program)
    except Stop as fault:
        say(False, str(fault))
