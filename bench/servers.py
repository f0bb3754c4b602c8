#!/usr/bin/env python3
"""How many sessions a second are opened by one, two and four servers behind one site, each with a laboratory and a file of its own.

    bench/servers.py [PROGRAM [COUNT]]   prints a table for docs/PERFORMANCE.md; without a program, over the one that is proved

It starts `labdesk serve` over four new files, and nginx before them with the site of packaging/nginx and a map that names each laboratory's
server, as docs/SECOND-MACHINE.md has it. At each of the first one, two and four laboratories four people open COUNT sessions in all, 40 where
no number is given, one after the other, from addresses of known networks. An opening costs a password, which takes a core. It wants a machine
with nothing else to do, and four cores.
"""
import contextlib
import datetime
import json
import os
import pathlib
import subprocess
import sys
import tempfile
import threading
import time

TOP = pathlib.Path(__file__).resolve().parent.parent
sys.dont_write_bytecode = True
from children import proved_program  # noqa: E402
from people import Client, script  # noqa: E402

LABS, PEOPLE = ("aqua", "brick", "clay", "dune"), 4
FOUNDING = (TOP / "examples/founding.json").read_bytes()


def found(room, program, lab):
    file = room / lab
    subprocess.run([program, "found", "--file", file, "--lab", lab], input=FOUNDING, stdout=subprocess.DEVNULL, check=True)
    return file


def write_maps(room, ports):
    """Which server has which laboratory; and each person has a network of their own."""
    (room / "keys").mkdir(mode=0o700)
    (room / "keys/servers.map").write_text("".join(f"~^/labs/{lab}(/|$) 127.0.0.1:{port};\n" for lab, port in zip(LABS, ports)))
    known = "".join(f"    {address(at, person)} network-{at}-{person};\n" for at in range(len(LABS)) for person in range(PEOPLE))
    (room / "keys/known.geo").write_text(f"geo $labdesk_network {{\n{known}}}\n")


def address(at, person):
    return f"127.0.{1 + at}.{10 + person}"


def open_all(port, at, person, count):
    """Opens so many sessions at a laboratory."""
    founder = json.loads(FOUNDING)["founders"][person % 3]
    client = Client(port, address(at, person), tls=True)
    for _ in range(count):
        client.there = client.there or client.connected()
        client.there.request("POST", f"/labs/{LABS[at]}/open", json.dumps({"code": founder["code"], "password": founder["password"]}))
        reply = client.there.getresponse()
        text = reply.read()
        assert reply.status == 200, (reply.status, text)


def rate(port, servers, count):
    """Sessions a second that are opened at the first so many laboratories."""
    workers = [threading.Thread(target=open_all, args=(port, at, person, count // PEOPLE)) for at in range(servers) for person in range(PEOPLE)]
    begun = time.monotonic()
    for one in workers:
        one.start()
    for one in workers:
        one.join()
    return servers * (count // PEOPLE) * PEOPLE / (time.monotonic() - begun)


def main(words):
    program, count = os.path.abspath(words[0]) if words else proved_program(), int(words[1]) if len(words) > 1 else 40
    pages = script("labdesk-pages")
    with tempfile.TemporaryDirectory() as name, contextlib.ExitStack() as stack:
        room = pathlib.Path(name)
        ports = [stack.enter_context(pages.server_over(found(room, program, lab), program))[1] for lab in LABS]
        write_maps(room, ports)
        _, port = stack.enter_context(pages.nginx_before(room, ports[0]))
        print("| Servers | Sessions a second | of one server |\n|---|---|---|")
        one = None
        for servers in (1, 2, 4):
            there = rate(port, servers, count)
            one = one or there
            print(f"| {servers} | {there:.1f} | {there / one:.1f} times |", flush=True)
    print(f"\n{count} sessions at each; {datetime.date.today()}, load {os.getloadavg()[0]:.1f}")


if __name__ == "__main__":
    main(sys.argv[1:])
