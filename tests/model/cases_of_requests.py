"""Cases of tests/model/named_cases.py on the bytes of requests, of foundings and of copies: a request in each spelling that docs/HTTP.md has for it
and cut at each of its bytes, what stands in other places of a head, bodies that are amiss at more than one member, and the texts of
foundings. What is wanted was written by hand as RFC 9110, RFC 9112 and RFC 8259 read, or comes from tests/model/laboratory.py.
"""
import json

import laboratory
from bodies import changes, pairs_of, text_of
from streams import FOUNDERS, LEAD, NOTE, WORDS, compact, lines, request_of

# By name, with what each begins with, as tests/model/named_cases.py names it, and how it goes on.
CASES = {}
HEAD, POST = b"GET /labs/aqua HTTP/1.1\r\nHost: d\r\n", b"POST /labs/aqua/open HTTP/1.1\r\nHost: d\r\n"
# The words of a session whose token has each digit.
FIRST = 0x0123456789ABCDEF
TOKEN = "0123456789abcdef0123456789abcdf00123456789abcdf10123456789abcdf2"


def case(start):
    def note(play):
        CASES[play.__name__] = (start, play)
        return play
    return note


def is_card(s, *requests, lab="aqua"):
    for request in requests:
        s.get(100, None, "", lab=lab, request=request)


def refused(s, number, *requests, moment=100):
    for request in requests:
        s.refuse(moment, request, number)


def posted(target, content, *fields, version="1.1"):
    content = content if isinstance(content, bytes) else content.encode()
    return lines(f"POST {target} HTTP/{version}", "Host: d", *fields, f"Content-Length: {len(content)}", rest=content)


# ---- heads


@case("two_laboratories")
def heads_in_other_spellings(s):
    long = HEAD + b"A:" + b"a" * 8152 + b"\r\n\r\n"
    assert len(long) == 8192
    is_card(s, b"\r\n\n\r\rGET /labs/aqua HTTP/1.1\r\nHost: d\n\r\n", b"GET /labs/aqua HTTP/1.1\r\nhOsT:\r\n\r\n", long, long + b"a" * 9000,
            HEAD + b"A: b\n" * 63 + b"\r\n", HEAD + b"A: b\r\n\r\nx\r\n\r\n", HEAD + b"Content-Length: " + b"0" * 1000 + b"\r\n\r\nabcdef",
            HEAD + b"Content-Length: " + b"0" * 1000 + b"5\r\n\r\nabcdef")
    is_card(s, b"\r\nGET /labs/brick?a=/b HTTP/1.0\n\nmore", lab="brick")
    refused(s, 81, HEAD + b"A:" + b"a" * 8153 + b"\r\n\r\n", b"\n" + long, b" " * 8192, b"\r" * 8192 + HEAD, HEAD + b"A: b\n" * 64 + b"\r\n",
            HEAD + b"A: b\n" * 64, HEAD + b"A: b\n" * 64 + b"A:", HEAD + b"A: b\n" * 64 + b"\r\n\r\n")
    refused(s, 80, b" " * 8191, HEAD + b"A: b\n" * 63 + b"A:", b" " + HEAD + b"\r\n", b"GET /labs/aq\xffua HTTP/1.1\r\nHost: d\r\n\r\n",
            b"GET /labs/aqua HTTP/1.1\r\nHost : d\r\n\r\n", b"GET /labs/aqua HTTP/1.1\r\nHost: d\0\r\n\r\n", b"nonsense\r\n\r\n",
            b"GET /labs/aqua HTTP/1.1\r\nhost:d\r\nHost: d\r\n\r\n")


@case("two_laboratories")
def fields_are_looked_at_in_their_order(s):
    for front in (HEAD, POST):
        for number, told in (
            (80, b"Authorization:\nauthorization: b"), (80, b"Content-Length: 0\r\ncontent-length: 0"),
            (80, b"Transfer-Encoding: chunked\nAuthorization:\nAuthorization:"),
            (80, b"Transfer-Encoding: chunked\nContent-Length: 2\nContent-Length: 2"), (82, b"Transfer-Encoding: chunked"),
            (82, b"Content-Length: +5\ntransfer-encoding:"), (84, b"Content-Length: 65537"), (85, b"Content-Length: 1"),
        ):
            refused(s, number, front + told + b"\r\n\r\n")
    for length in (b"+5", b"-5", b"", b"5a", b"5, 5", b"5 5", b"0x5", b"five"):
        refused(s, 80, HEAD + b"Content-Length: " + length + b"\r\n\r\nabcdeabcde")
    for count in (5, 20, 30, 5000):
        refused(s, 84, POST + b"Content-Length: " + b"9" * count + b"\r\n\r\nabcdef")
    refused(s, 83, POST + b"A: b\r\n\r\n", POST + b"\r\n{}")
    refused(s, 82, POST + b"Transfer-Encoding: chunked\r\n\r\n0\r\n\r\n")
    # Who doesn't post needs no length.
    refused(s, 86, *[method + b" / HTTP/1.0\r\n\r\nabc" for method in (b"PUT", b"post", b"POSTS")])


@case("two_laboratories")
def bodies_come_whole(s):
    content = b'{"code":"ann","password":"correct horse 1"}'
    front = POST + b"Content-Length: "
    for request in (front + b"0" * 1000 + b"43\r\n\r\n" + content + b"more", front + b"43\r\n\r\n" + content + content,
                    front + b"65536\r\n\r\n" + content[:-1] + b" " * 65493 + b"}"):
        s.post_text(100, None, "/open", content.decode(), wants={"due": False}, request=request)
    refused(s, 88, front + b"0" * 1000 + b"\r\n\r\n" + content, front + b"0" * 1000 + b"5\r\n\r\n" + content,
            front + b"65536\r\n\r\n{" + b" " * 65534 + b"}")
    refused(s, 85, front + b"65536\r\n\r\n{" + b" " * 65534, front + b"65536\r\n\r\n", front + b"44\r\n\r\n" + content)


@case("founders")
def a_request_that_is_cut_is_none(s):
    s.open(10, "ann", words=FIRST)
    whole = (b"\r\n\nPOST /labs/aqua/close?x HTTP/1.1\r\nHost: d\r\nauthorization:\t labSession " + TOKEN.encode() + b" \t\n"
             b"Expect: 100-continue\r\nContent-length:\t2 \r\n\r\n{}")
    for count in range(len(whole)):
        refused(s, 80 if count < len(whole) - 2 else 85, whole[:count], moment=10)
    # All of it is read, and whatever follows is not.
    s.post(10, "ann", "/close", request=whole, wants={"session": 3})
    s.open(10, "ann")
    other = whole.replace(TOKEN.encode(), laboratory.token_of(s.tokens["aqua", "ann"]).hex().encode())
    s.post(10, "ann", "/close", request=other + b"GET / HTTP/1.1\r\n" * 3, wants={"session": 4})


@case("two_laboratories")
def an_interim_answer_is_due_where_a_client_waits(s):
    """Of a call the bytes are there already, and none is due: over sockets tests/cases_on_files wants one."""
    for fields, length in (
        (b"Expect: 100-continue\nContent-Length: 1", 1), (b"expect:\t100-Continue \nContent-Length: 65536", 65536),
        (b"Expect: x\nExpect: 100-continue\nContent-Length: 1", 1), (b"Expect: 100-continue", 0),
        (b"Expect: 100-continue\nContent-Length: 0", 0), (b"Expect: 100-continue, x\nContent-Length: 1", 1),
        (b"Expect: x\nContent-Length: 1", 1), (b"A: 100-continue\nContent-Length: 1", 1), (b"Expect:\nContent-Length: 1", 1),
        (b"Content-Length: 1", 1),
    ):
        is_card(s, HEAD + fields + b"\r\n\r\n" + b"x" * length)
    is_card(s, b"GET /labs/aqua HTTP/1.0\r\nExpect: 100-continue\r\nContent-Length: 1\r\n\r\nx")


@case("founders")
def what_names_a_session(s):
    s.open(10, "ann", words=FIRST)
    for number, value in (
        (200, f"LabSession {TOKEN}"), (200, f"labsession {TOKEN}"), (200, f"LABSESSION {TOKEN}"), (200, f"\t LabSession {TOKEN} \t "),
        (22, f"LabSession  {TOKEN}"), (22, f"LabSession\t{TOKEN}"), (22, f"LabSession{TOKEN}"), (22, f"LabSession 0{TOKEN}"),
        (22, f"Bearer {TOKEN}"), (22, f"LabSessions {TOKEN}"), (22, TOKEN), (22, "LabSession "), (22, "LabSession  "),
        (22, f"LabSession {TOKEN[:16]}"), (22, f"LabSession {TOKEN[:10]}ABCDEF{TOKEN[16:]}"), (22, f"LabSession {TOKEN[:15]}g{TOKEN[16:]}"),
        (22, f"LabSession {TOKEN[1:]}"), (22, f"LabSession {TOKEN} x"), (22, f"LabSession \t {TOKEN}"), (22, "LabSession \t a\t"), (22, "Lab"),
    ):
        s.tokens["aqua", "spelled"] = FIRST if number == 200 else None
        request = lines("GET /labs/aqua/persons HTTP/1.1", "Host: d", f"Authorization:{' ' * (value[:1] != chr(9))}{value}", "Expect:")
        s.get(10, "spelled", "/persons", wants=None if number == 200 else number, request=request)
    s.get(10, None, "/persons", wants=22, request=lines("GET /labs/aqua/persons HTTP/1.1", "Host: d", "A: b"))
    is_card(s, lines("GET /labs/aqua HTTP/1.1", "Host: d", f"authorization: LabSession {TOKEN}"))


@case("two_laboratories")
def dates_are_those_of_the_calendar(s):
    for moment, date in (
        (0, "Thu, 01 Jan 1970 00:00:00 GMT"), (784_111_777, "Sun, 06 Nov 1994 08:49:37 GMT"), (951_782_400, "Tue, 29 Feb 2000 00:00:00 GMT"),
        (4_102_444_800, "Fri, 01 Jan 2100 00:00:00 GMT"), (253_402_300_799, "Fri, 31 Dec 9999 23:59:59 GMT"),
    ):
        s.get(moment, None, "")
        assert f"\r\nDate: {date}\r\n".encode() in s.answers[-1]


# ---- places


@case("founders")
def places_in_other_spellings(s):
    for place in ("/copy/", "/records/4294967297", "/records/18446744073709551617", "/records/5/versions/0", "/records/5/versions/01",
                  "/records/{record}", "/forms/water/1/", "/forms/{form}/1", "/forms/Water/1"):
        for method in ("GET", "PUT"):
            refused(s, 86, f"{method} /labs/aqua{place} HTTP/1.0\r\n\r\n".encode(), moment=10)
    for target in ("/labs/thirteen-char", "/labs/2aqua/persons", "/labs/AQUA"):
        for method in ("GET", "PUT"):
            refused(s, 86, f"{method} {target} HTTP/1.0\r\n\r\n".encode(), moment=10)
    for method, place, allow in (("PUT", "/persons", "GET, POST"), ("DELETE", "/records?x", "GET, POST"), ("get", "/trail", "GET"),
                                 ("POST", "/copy", "GET"), ("HEAD", "/copy", "GET"), ("post", "/open", "POST")):
        s.refuse(10, f"{method} /labs/aqua{place} HTTP/1.0\r\nContent-Length: 0\r\n\r\n".encode(), 87, allow)
    # What no one has is looked for, to the last number.
    for place, number in (("/records/1000000000", 44), ("/records/1000000000/versions/12", 44), ("/records/5/versions/1000000000", 44),
                          ("/forms/water_2/3", 42), ("/forms/water/1000000000", 42)):
        s.get(10, "ann", place, wants=number)
    s.get(10, None, "/persons", lab="aqua-2", wants=40)
    s.post(10, "ann", "/entries", record=1_000_000_000, key="lead", value="7.50", unit="mg/L", wants=44)
    s.post(10, "ann", "/signatures", record=1, version=1_000_000_000, digest="0" * 64, meaning="authorship", password="correct horse 1",
           code="ann", wants=44)


@case("founders")
def a_code_with_a_hyphen_and_a_key_with_a_line(s):
    s.found(20, "aqua-2", "The Second", FOUNDERS)
    s.get(20, None, "", lab="aqua-2", wants='{"lab":"aqua-2","name":"The Second"}')
    s.open(20, "ann", lab="aqua-2")
    assert len(s.get(20, "ann", "/persons", lab="aqua-2")["persons"]) == 3
    for number in range(3):
        s.post(20, "ann", "/forms", form="water_2", fields=[LEAD, NOTE][: 1 + number % 2], wants={"version": number + 1})
    s.get(20, "ann", "/forms/water_2/3", wants={"form": "water_2", "version": 3})
    s.get(20, "ann", "/trail?from=7&to=7")


@case("founders")
def a_query_elsewhere_is_passed_over(s):
    def at(method, place, content=None):
        return request_of("aqua", method, place, content, s.tokens["aqua", "ann"])
    is_card(s, lines("GET /labs/aqua?from=0&to=/ HTTP/1.1", "Host: d"))
    s.get(100, "ann", "/records/5", wants=44, request=at("GET", "/records/5?from=7&to=8"))
    water = '{"form":"water","sample":"S1"}'
    s.post_text(100, "ann", "/records", water, wants={"record": 1}, request=at("POST", "/records?from=1&to=2", water))
    s.get(100, "ann", "/records/1", wants={"sample": "S1"}, request=at("GET", "/records/1?from=7&to=8"))
    s.post_text(100, "ann", "/close", "{}", request=at("POST", "/close?from=1", "{}"))


@case("setup")
def the_body_of_what_is_read_is_passed_over(s):
    s.open(1200, "hal")
    for place in ("", "/persons", "/forms/water/1", "/records/1", "/records/1/versions/1", "/records?from=1&to=100", "/trail?from=1&to=100"):
        s.get(1200, "hal", place, request=request_of("aqua", "GET", place, "no JSON", s.tokens["aqua", "hal"]))
    s.copy(1200, "hal", 1, 100, content="no JSON")


# ---- copies


@case("setup")
def a_copy_is_csv(s):
    s.open(5000, "hal")
    s.copy(5000, "hal", 3, 5)
    assert s.answers[-1] == (
        b"HTTP/1.1 200 OK\r\nDate: Thu, 01 Jan 1970 01:23:20 GMT\r\nContent-Type: text/csv\r\nContent-Length: 156\r\nConnection: close\r\n\r\n"
        b"kind,lab,record,version,key,value,unit,person,name,moment,reason,digest,seal\n"
        b"copy,aqua,3,5,2,,,hal,Aqua Lab,1970-01-01T01:23:20Z,,,\nend,aqua,0,0,0,0,,,,,,,\n")
    for first, last in ((1, 100), (1, 1), (2, 101), (1_000_000_000, 1_000_000_000), (999_999_901, 1_000_000_000)):
        s.copy(5000, "hal", first, last)
    s.open(5000, "dan")
    ask = s.tokens["aqua", "dan"], "copy", (1, 100), None
    s.ask(5000, "aqua", *ask, request_of("aqua", "GET", "/copy?from=1&to=100", None, ask[0]), '{"error":"role_wanted","number":24,"rule":"P22"}')
    for query in ("", "?", "?from=1", "?from=1&to=101", "?from=0&to=1", "?from=2&to=1", "?from=1&to=4294967297", "?to=2&from=1", "?from=1&to=2#"):
        for place in ("/copy", "/records", "/trail"):
            refused(s, 88, request_of("aqua", "GET", place + query, None, s.tokens["aqua", "hal"]), moment=5000)


@case("nothing")
def quotes_of_a_copy_are_doubled_and_its_length_is_in_bytes(s):
    s.found(0, "aqua", 'Aqua, "Lab" é€', FOUNDERS)
    s.open(100, "ann")
    s.post(100, "ann", "/roles", code="bob", roles=["inspector"])
    s.open(5000, "bob")
    s.copy(5000, "bob", 3, 5)
    assert s.answers[-1] == (
        b"HTTP/1.1 200 OK\r\nDate: Thu, 01 Jan 1970 01:23:20 GMT\r\nContent-Type: text/csv\r\nContent-Length: 169\r\nConnection: close\r\n\r\n"
        b"kind,lab,record,version,key,value,unit,person,name,moment,reason,digest,seal\n"
        b'copy,aqua,3,5,2,,,bob,"Aqua, ""Lab"" \xc3\xa9\xe2\x82\xac",1970-01-01T01:23:20Z,,,\nend,aqua,0,0,0,0,,,,,,,\n')
    s.get(5000, None, "", wants=r'{"lab":"aqua","name":"Aqua, \"Lab\" é€"}')


@case("setup")
def copies_of_what_is_signed(s):
    """A record that is released, one that is signed, and a version that amends with a reason in quotes."""
    s.sign(1300, "dan", 1, 1, "authorship", code="dan")
    s.open(1310, "eve")
    s.sign(1320, "eve", 1, 1, "review", code="eve", wants={"state": "released"})
    s.post(1330, "dan", "/records", form="water", sample="S2", wants={"record": 2})
    s.post(1340, "dan", "/entries", record=2, key="lead", value="7.50", unit="mg/L")
    s.sign(1350, "dan", 2, 1, "authorship", wants={"state": "signed"})
    s.open(1400, "hal")
    for first, last, end in ((1, 1, "1,1,1,2"), (1, 5, "2,2,2,3"), (2, 2, "1,1,1,1")):
        s.copy(1410, "hal", first, last)
        assert s.answers[-1].endswith(f"\nend,aqua,{end},,,,,,,\n".encode())
    states = [(one["record"], one["state"]) for one in s.get(1420, "dan", "/records?from=1&to=100")["records"]]
    assert states == [(1, "released"), (2, "signed")]
    altered = [{"key": "lead", "value": "7.5", "unit": "mg/L"}]
    s.post(1440, "dan", "/amendments", record=1, reason='misread: "7,50"', altered=altered, wants={"version": 2})
    s.copy(1450, "hal", 1, 1)
    assert b',"misread: ""7,50""",' in s.answers[-1] and s.answers[-1].endswith(b"\nend,aqua,1,2,2,2,,,,,,,\n")


@case("setup")
def managers_and_inspectors_take_copies_and_nobody_else(s):
    for moment, who in enumerate(("ann", "eve", "fay", "gus", "hal"), 1200):
        s.open(moment, who)
    s.post(1212, "ann", "/roles", code="eve", roles=[])
    for who in ("gus", "hal"):
        s.copy(1213, who, 1, 1)
        assert s.answers[-1].partition(b"\r\n\r\n")[2].count(b"\n") == 6
    for moment, who in enumerate(("dan", "ann", "eve", "fay"), 1220):
        s.get(moment, who, "/copy?from=1&to=1", wants='{"error":"role_wanted","number":24,"rule":"P22"}')


# ---- bodies


@case("founders")
def bodies_in_other_spellings(s):
    s.post_text(10, "ann", "/password", r'{"new":"\u00e9 1 \ud83d\ude00 horse","old":"correct horse 1"}')
    s.passwords["aqua", "ann"] = "é 1 \U0001f600 horse"
    s.post_text(10, None, "/open", ' {"c\\u006fde" :\t"ann",\r\n"password":"\\u00e9 1 \\uD83D\\uDE00 \\u0068orse"}\n', wants={"due": False})
    s.post_text(10, None, "/open", '{"code":"ann","password":"é 1 \U0001f600 horse"}', wants={"due": False})
    s.post_text(10, "ann", "/roles", '{"code":"cid","roles":["inspector","administrator","manager"]}',
                wants='{"code":"cid","roles":["manager","administrator","inspector"]}')
    s.post_text(10, "ann", "/roles", '{"code":"cid","roles":[]}', wants='{"code":"cid","roles":[]}')
    refused(s, 88, *[request_of("aqua", "POST", "/roles", '{"code":"cid","roles":%s}' % roles, s.tokens["aqua", "ann"])
                     for roles in ('["owner"]', "[1]", '["analyst",null]', '["analyst","reviewer","analyst"]')], moment=10)
    for content in ("{}{}", "\ufeff{}", "{}x", "nul"):
        refused(s, 88, request_of("aqua", "POST", "/close", content, s.tokens["aqua", "ann"]), moment=10)
    refused(s, 88, posted("/labs/aqua/open", b'{"code":"ann","password":"\xff"}'), moment=10)
    refused(s, 88, posted("/labs/aqua/retire", b"{}", version="1.0"), posted("/labs/aqua/open", b"{}"), moment=10)
    refused(s, 1, posted("/labs/aqua/retire", b'{"code":"Ann"}', version="1.0"), moment=10)
    s.post_text(10, "ann", "/close", " { } ")


@case("founders")
def of_several_faults_of_a_body_the_first_is_told(s):
    date, nothing = '{"key":"a","label":"A","required":%s,"kind":"date"}', '{"key":"a","value":"","unit":"%s"}'
    for number, place, content in (
        # The form, also of all elements, before any name.
        (88, "/open", '{"code":"","password":1}'), (88, "/amendments", '{"record":1,"reason":"","altered":[1]}'),
        (88, "/forms", '{"form":"Water","fields":[%s]}' % (date % "1")),
        (88, "/forms", '{"form":"w","fields":[{"key":"a","label":"A","required":true,"kind":"date","size":1}]}'),
        (88, "/forms", '{"form":"w","fields":[{"key":"a","label":"A","required":true,"kind":"choice","choices":["b",1]}]}'),
        # Names before what is wrong with keys and fields.
        (1, "/amendments", '{"record":1,"altered":[%s,%s]}' % (nothing % "", nothing % " ")), (1, "/forms", '{"form":"Water","fields":[]}'),
        (1, "/amendments", '{"record":1,"reason":"","altered":[]}'), (1, "/forms", '{"form":"Water","fields":[%s]}' % (date % "true")),
        (1, "/forms", '{"form":"w","fields":[{"key":"a","label":"A","required":true,"kind":"choice","choices":[""]}]}'),
        (4, "/amendments", '{"record":1,"altered":[%s,%s]}' % (nothing % "", nothing % "")), (3, "/forms", '{"form":"water","fields":[]}'),
        (6, "/forms", '{"form":"w","fields":[{"key":"a","label":"A","required":true,"kind":"number","unit":"","decimals":7}]}'),
        (6, "/forms", '{"form":"w","fields":[{"key":"n","label":"N","required":true,"kind":"text","size":4294967295}]}'),
    ):
        refused(s, number, request_of("aqua", "POST", place, content, s.tokens["aqua", "ann"]), moment=10)


@case("founders")
def a_signature_of_each_meaning_has_exactly_its_members(s):
    told = "record:number version:number digest:digest meaning:meaning password:text code?:code"
    for meaning, who, password in (("authorship", "ann", "correct horse 1"), ("review", "bob", "correct horse 2"), ("approval", "ann", "correct horse 1")):
        good = {"record": 9, "version": 1, "digest": "00112233445566778899aabbccddeeff" * 2, "meaning": meaning, "password": password, "code": who}
        for change, number in [*changes(told), (lambda pairs: [*pairs, ("reason", '"blurred"')], 88)]:
            text = text_of(change(pairs_of(good)))
            if number is None:
                s.post_text(10, who, "/signatures", text, wants=44 if '"code":' in text else 57)
            else:
                refused(s, number, request_of("aqua", "POST", "/signatures", text, s.tokens["aqua", who]), moment=10)


# ---- foundings


def founds(s, lab, content, number=None):
    """A founding by this text, and how it is answered."""
    if number is None:
        whole = json.loads(content)
        founders = [tuple(one[name] for name in ("code", "name", "password")) for one in whole["founders"]]
        s.labs[lab] = laboratory.found(lab, 0, FIRST, whole["name"], founders)
        s.passwords.update(((lab, code), password) for code, _, password in founders)
    answer = f"founded {lab}\n" if number is None else f"refused {number} {WORDS[number]}\n"
    s.add(f"found {lab} 0 {FIRST} {len(content.encode())}", content.encode(), answer.encode())


@case("nothing")
def bodies_of_foundings(s):
    persons = [dict(zip(("code", "name", "password"), one)) for one in FOUNDERS]
    texts = [compact(one) for one in persons]

    def whole(founders):
        return '{"founders":[%s],"name":"Aqua Lab"}' % ",".join(founders)
    for content in ("", "{", "null", "[]", "{}", whole([]), whole(texts[:2]), whole([texts[0], *texts]), '{"founders":{},"name":"Aqua Lab"}',
                    whole(texts) + "x", whole(texts).replace("Aqua", r"\ud800")):
        founds(s, "zinc", content, 88)
    founds(s, "zinc", whole([texts[0], texts[1], texts[1]]), 27)
    founds(s, "zinc", whole([texts[0], texts[1], texts[2].replace("correct horse 3", "")]), 25)
    for number, (change, fault) in enumerate(changes("code:code name:name password:text")):
        founds(s, "zinc" if fault else f"aqua-{number}", whole([texts[0], text_of(change(pairs_of(persons[1]))), texts[2]]), fault)
    for number, (change, fault) in enumerate(changes("founders:founders name:name")):
        founds(s, "zinc" if fault else f"brick-{number}", text_of(change([("founders", "[" + ",".join(texts) + "]"), ("name", '"Brick Lab"')])), fault)
    s.get(100, None, "", lab="zinc", wants=40)
    for lab in s.labs:
        s.get(100, None, "", lab=lab, wants={"lab": lab})
        for code in ("ann", "bob", "cid") if lab == "aqua-0" else ("bob",):
            s.open(100, code, lab=lab)
        names = [(one["code"], one["name"]) for one in s.get(100, "bob", "/persons", lab=lab)["persons"]]
        assert names == [one[:2] for one in FOUNDERS]
