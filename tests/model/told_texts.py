"""What tests/told compares: words of a command line and inputs, and what labdesk writes and tells on them, whole, and its status.

The texts are those of docs/FORMATS.md, docs/HTTP.md and docs/REFUSALS.md; digests and seals are those of tests/copies.
"""
from streams import FOUNDERS, compact

BODY = compact({"founders": [dict(zip(("code", "name", "password"), one)) for one in FOUNDERS], "name": "Aqua Lab"})
TRY = "\nFor more information, try '--help'.\n"


def head(status, moment, length):
    return (f"HTTP/1.1 {status}\r\nDate: {moment}\r\nContent-Type: application/json\r\nContent-Length: {length}\r\n"
            "Connection: close\r\n\r\n")


CARD = "GET /labs/aqua HTTP/1.1\r\nHost: d\r\n\r\n"
ZINC_CARD = "GET /labs/zinc HTTP/1.1\r\nHost: d\r\n\r\n"
AT_100, AT_101, AT_102 = (f"Thu, 01 Jan 1970 00:01:4{second} GMT" for second in range(3))
CARD_AT_100, CARD_AT_101, CARD_AT_102 = (head("200 OK", at, 32) + '{"lab":"aqua","name":"Aqua Lab"}' for at in (AT_100, AT_101, AT_102))
NO_ZINC = '{"error":"no_such_lab","number":40}'
ZINC_AT_100, ZINC_AT_101 = (head("404 Not Found", at, 35) + NO_ZINC for at in (AT_100, AT_101))
BAD_HEAD_AT_100 = head("400 Bad Request", AT_100, 32) + '{"error":"bad_head","number":80}'
LAST_CARD = head("200 OK", "Fri, 31 Dec 9999 23:59:59 GMT", 40) + '{"lab":"b-2-of-brick","name":"Aqua Lab"}'

HELP = {
    "": """\
Signed laboratory records

Usage: labdesk <COMMAND>

Commands:
  found     Found a laboratory in a file, as standard input describes it
  serve     Serve the laboratories of a file on a port of this machine
  copy      Write the inspection copy of a laboratory's records to standard output
  migrate   Move the laboratories of a file of schema 2 into a new file
  check     Check the inspection copy on standard input, and print the result
  replay    Run the events on standard input, and write their answers to standard output
  rehearse  Found a laboratory in memory, as standard input describes it, and print its card
  help      Print this message or the help of the given subcommand(s)

Options:
  -h, --help     Print help
  -V, --version  Print version

docs/FORMATS.md describes what each command reads and prints. An example:

    labdesk found --file laboratories --lab aqua < examples/founding.json
    labdesk serve --file laboratories --port 8080
""",
    "found": """\
Found a laboratory in a file, as standard input describes it

Usage: labdesk found --file <F> --lab <L> < FOUNDING

Options:
      --file <F>  Path of the file of laboratories
      --lab <L>   Code of the laboratory
  -h, --help      Print help

It founds a laboratory in the file, at the moment of the clock, and prints `founded` and its
code. It makes the file if there is none; if the founding is refused, the new file stays. The input
is a JSON object: the laboratory's `name`, and three `founders`, each with `code`, `name` and
`password`. docs/FORMATS.md describes it. An example:

    labdesk found --file laboratories --lab aqua < examples/founding.json
""",
    "serve": """\
Serve the laboratories of a file on a port of this machine

Usage: labdesk serve [OPTIONS] --file <F> --port <P>

Options:
      --file <F>   Path of the file of laboratories
      --port <P>   Port of this machine; 0 means any free port
      --count <K>  Number of connections to serve [default: 1000000]
  -h, --help       Print help

It prints `listening` and its address once clients can connect. It serves K connections, one at
a time, and then it ends. docs/HTTP.md describes requests and replies. An example:

    labdesk serve --file laboratories --port 8080
""",
    "copy": """\
Write the inspection copy of a laboratory's records to standard output

Usage: labdesk copy --file <F> --lab <L> --from <A> --to <B>

Options:
      --file <F>  Path of the file of laboratories
      --lab <L>   Code of the laboratory
      --from <A>  Number of the first record, 1 or more
      --to <B>    Number of the last record, up to 1000000000
  -h, --help      Print help

It writes the inspection copy of the laboratory's records from A to B to standard output.
docs/COPIES.md describes a copy. An example:

    labdesk copy --file laboratories --lab aqua --from 1 --to 100 > copy.csv
""",
    "migrate": """\
Move the laboratories of a file of schema 2 into a new file

Usage: labdesk migrate --old <F> --new <G>

Options:
      --old <F>  Path of the old file
      --new <G>  Path of the new file
  -h, --help     Print help

It moves every laboratory of an old file, which has schema 2, into a new file, and prints
`migrated` and the number of laboratories. Versions keep their texts, digests and signatures. It
reads the old file with its log, and leaves the old file as it is, byte for byte. It makes the new
file; a file that is already there must be empty. If the move fails, delete the new file before
you try again. docs/FORMATS.md describes the move. An example:

    labdesk migrate --old laboratories --new laboratories-3
""",
    "check": """\
Check the inspection copy on standard input, and print the result

Usage: labdesk check < COPY

Options:
  -h, --help  Print help

It prints `good` and the numbers of records, versions, entries and signatures in the copy, or
`bad`, the first flaw and its row. The input is CSV, as `labdesk copy` writes it. docs/COPIES.md
describes it. An example:

    labdesk check < copy.csv
""",
    "replay": """\
Run the events on standard input, and write their answers to standard output

Usage: labdesk replay < EVENTS

Options:
  -h, --help  Print help

An event is a line, followed by as many bytes as the last number of the line says:

    found <lab> <seconds> <word> <length>
    call <seconds> <word> <length>

docs/FORMATS.md describes the input. An example:

    labdesk replay < examples/two-laboratories.events
""",
    "rehearse": """\
Found a laboratory in memory, as standard input describes it, and print its card

Usage: labdesk rehearse --lab <L> --moment <S> < FOUNDING

Options:
      --lab <L>     Code of the laboratory
      --moment <S>  Seconds since 1970-01-01T00:00:00Z
  -h, --help        Print help

It founds the laboratory in memory, at moment 0. Then it asks for the laboratory's card over a
socket of this machine, at moment S, and prints the reply. The input is a JSON object, like that of
`labdesk found`. docs/FORMATS.md describes it. An example:

    labdesk rehearse --lab aqua --moment 100 < examples/founding.json
""",
}
VERSION = "labdesk 0.6.0\nfor rattle-kit-13f logic dac8208d650f15bf\n"


def missing(usage, *words):
    return "error: the following required arguments were not provided:\n" + "".join(f"  {one}\n" for one in words) + f"\nUsage: {usage}\n" + TRY


def unexpected(word, usage):
    return f"error: unexpected argument '{word}' found\n\nUsage: {usage}\n{TRY}"


def unknown(word, similar):
    return f"error: unrecognized subcommand '{word}'\n\n  tip: a similar subcommand exists: '{similar}'\n\nUsage: labdesk <COMMAND>\n{TRY}"


def invalid(value, name, why):
    return f"error: invalid value '{value}' for '{name}': {why}\n{TRY}"


NONE = ("error: 'labdesk' requires a subcommand but one was not provided\n  [subcommands: found, serve, copy, migrate, check, replay, rehearse, help]"
        f"\n\nUsage: labdesk <COMMAND>\n{TRY}")
MIGRATE = "labdesk migrate --old <F> --new <G>"
REHEARSE = "labdesk rehearse --lab <L> --moment <S> < FOUNDING"
BACKWARDS = ("error: the number after '--from' is greater than the number after '--to'\n\nUsage: labdesk copy --file <F> --lab <L> --from <A> --to <B>\n"
             + TRY)
TWICE = f"error: the argument '--lab <L>' cannot be used multiple times\n\nUsage: {REHEARSE}\n{TRY}"
NO_VALUE = f"error: a value is required for '--moment <S>' but none was supplied\n{TRY}"
NO_INTEGER, NO_DIGIT = "cannot parse integer from empty string", "invalid digit found in string"

# Words, and what is told of them, by status 2; nothing is written.
WRONG = [
    ("", NONE), ("relay", unknown("relay", "replay")), ("chek", unknown("chek", "check")),
    ("--file", unexpected("--file", "labdesk <COMMAND>")),
    ("replay twice", unexpected("twice", "labdesk replay < EVENTS")), ("check copy.csv", unexpected("copy.csv", "labdesk check < COPY")),
    ("found --file laboratories", missing("labdesk found --file <F> --lab <L> < FOUNDING", "--lab <L>")),
    ("migrate --old laboratories", missing(MIGRATE, "--new <G>")), ("migrate", missing(MIGRATE, "--old <F>", "--new <G>")),
    ("migrate laboratories laboratories-3", unexpected("laboratories", MIGRATE)),
    ("rehearse", missing(REHEARSE, "--lab <L>", "--moment <S>")), ("rehearse --lab=aqua --moment", NO_VALUE),
    ("rehearse aqua", unexpected("aqua", REHEARSE)), ("rehearse --lab=aqua --moment=5 --lab=brick", TWICE),
    *((f"rehearse --lab=aqua --moment={value}", invalid(value, "--moment <S>", why)) for value, why in (
        ("253402300800", "253402300800 is not in 0..=253402300799"), ("-1", "-1 is not in 0..=253402300799"), ("soon", NO_DIGIT))),
    *((f"copy --file=laboratories --lab={lab} --from=6 --to=5", BACKWARDS) for lab in ("aqua", "Aqua")),
    *((f"copy --file=laboratories --{name}={value}", invalid(value, told, why)) for name, told, value, why in (
        ("from", "--from <A>", "0", "0 is not in 1..=1000000000"), ("to", "--to <B>", "1000000001", "1000000001 is not in 1..=1000000000"),
        ("to", "--to <B>", "", NO_INTEGER))),
    *((f"serve --file=laboratories --port={value}", invalid(value, "--port <P>", why)) for value, why in (
        ("65536", "65536 is not in 0..=65535"), ("-1", "-1 is not in 0..=65535"), ("http", NO_DIGIT))),
    *((f"serve --file=laboratories --count={value}", invalid(value, "--count <K>", f"{value} is not in 1..=1000000000"))
      for value in ("0", "1000000001")),
]

# ---- copies

HEADER = "kind,lab,record,version,key,value,unit,person,name,moment,reason,digest,seal\n"
COPY = "copy,aqua,1,5,2,,,hal,Aqua Lab,1970-01-01T01:23:20Z,,,\n"
RECORD = "record,aqua,1,1,water,S1,,,,,,,\n"
DIGEST = "79610b0b80020b06ccc32eb56d5e2930ad6cea239d32569de11013459ebf2b0c"
VERSION_ROW = f"version,aqua,1,1,2,released,,dan,,1970-01-01T00:16:40Z,,{DIGEST},\n"
ENTRY = "entry,aqua,1,1,lead,7.50,mg/L,dan,,1970-01-01T00:18:20Z,,,\n"
AUTHORSHIP = (f"signature,aqua,1,1,,authorship,,dan,Dan Dür,1970-01-01T00:21:40Z,,{DIGEST},"
              "1c8e7fd30b53aa0e5bda156f0022749d864919e7f8f0948876ff97164e2ab74d\n")
REVIEW = (f"signature,aqua,1,1,,review,,eve,Eve Eden,1970-01-01T00:23:20Z,,{DIGEST},"
          "26e9a430a37b913129c8ded320b17ea91311925b45f56d1ef105fd44b28d16de\n")
END, EMPTY_END = "end,aqua,1,1,1,2,,,,,,,\n", "end,aqua,0,0,0,0,,,,,,,\n"
FRONT = HEADER + COPY + RECORD + VERSION_ROW
EMPTY_COPY = HEADER + COPY + EMPTY_END

# Copies, and what is written of each, and the status.
COPIES = [
    (FRONT + ENTRY + AUTHORSHIP + REVIEW + END, "good 1 1 1 2\n", 0), (EMPTY_COPY, "good 0 0 0 0\n", 0),
    # Another value, signatures exchanged, and one left out; the end cut; and what is no copy.
    (FRONT + ENTRY.replace("7.50", "7.51") + AUTHORSHIP + REVIEW + END, "bad digest 4\n", 1),
    (FRONT + ENTRY + REVIEW + AUTHORSHIP + END, "bad one_person 4\n", 1), (FRONT + ENTRY + AUTHORSHIP + END, "bad order 7\n", 1),
    (FRONT + ENTRY + AUTHORSHIP + REVIEW, "bad no_end\n", 1), (HEADER + COPY + "end,aqua", "bad bad_row 3\n", 1), ("", "bad no_end\n", 1),
    ("kind,lab\n", "bad bad_row 1\n", 1),
]
# The copy of records of which there is none, which nobody asked for, at second 6000.
COPY_OF_NONE = HEADER + "copy,aqua,7,9,2,,,,Aqua Lab,1970-01-01T01:40:00Z,,,\n" + EMPTY_END

# ---- events

AQUA, BRICK = "found aqua 0 1 218\n" + BODY, "found brick 0 1 219\n" + BODY.replace("Aqua", "Brick")
CARD_EVENT, ZINC_EVENT = "call 100 9 36\n" + CARD, "call 100 17 36\n" + ZINC_CARD
BOTH = "founded aqua\nfounded brick\n"
# Two foundings that are refused, which is sooner done.
REFUSED, BOTH_REFUSED = "found aqua 0 1 218\n" + "{".ljust(218) + "found brick 0 1 219\n" + "{".ljust(219), "refused 88 bad_body\n" * 2
# What is no event.
NO_EVENTS = [
    "\n", "found", "call 100 9 0", "lost 100 9 0\n", "Call 100 9 0\n", " call 100 9 0\n", "call  100 9 0\n", "call 100 9 0 \n",
    "call 100 9 0\r\n", "call 100 9\n", "call 100 9 0 0\n", "call 100 9 -1\n", "call +100 9 0\n", "call 100 0x9 0\n",
    "call 253402300800 9 0\n", "call 9223372036854775808 9 0\n", "call 18446744073709551617 9 0\n", "call 100 18446744073709551609 0\n",
    "call 100 9 1000001\n", "call 100 9 3\nab", "found 0 1 0\n", "found Aqua 0 1 0\n", "found aquamarine-12 0 1 0\n",
    "found \u00e9gide 0 1 0\n", "found  0 1 0\n",
]


def long_founding(length):
    """A founding whose line has so many bytes before its line feed."""
    return "found aqua 0 1 " + "0" * (length - 18) + "218\n" + BODY


# Events, and what is answered and told, and the status.
REPLAYS = [
    (AQUA + BRICK + CARD_EVENT + ZINC_EVENT, BOTH + CARD_AT_100 + ZINC_AT_100, "", 0),
    (AQUA + AQUA + CARD_EVENT, "founded aqua\nrefused 64 lab_exists\n" + CARD_AT_100, "", 0),
    ('found aqua 0 1 19\n{"name":"Aqua Lab"}found aqua 0 1 33\n{"founders":[],"name":"Aqua Lab"}', "refused 88 bad_body\n" * 2, "", 0),
    ("", "", "", 0), (BODY, "", "labdesk: bad_event\n", 1),
    ("found aqua 101 1 218\n" + BODY + CARD_EVENT,
     "founded aqua\n" + head("503 Service Unavailable", AT_100, 36) + '{"error":"clock_behind","number":41}', "", 0),
    ("found aqua 00000000000000000000000000 000000000000000000000001 0218\n" + BODY
     + "found brick 253402300799 18446744073709551608 00000000000219\n" + BODY.replace("Aqua", "Brick"), BOTH, "", 0),
    ("found aqua 0 1 1000000\n" + BODY.ljust(1_000_000) + BRICK, BOTH, "", 0),
    (long_founding(1_000) + BRICK, BOTH, "", 0), (BRICK + long_founding(1_001), "founded brick\n", "labdesk: bad_event\n", 1),
    # An event that is none, with others before and behind it, and at the end; a length that isn't there needs no others behind it.
    *((ZINC_EVENT + event + behind, ZINC_AT_100, "labdesk: bad_event\n", 1)
      for event in NO_EVENTS for behind in ("", ZINC_EVENT) if not (behind and event.endswith("ab"))),
]
