"""Cases of foundings, passwords and accounts, which tests/model/named_cases.py plays: each limit to the second and the byte, on both sides, and of
several refusals the first. tests/cases_on_files compares the rows that each leaves, with their salts and verifiers.
"""
from streams import FOUNDERS, compact

RIGHT, WRONG = "dan password 1", "dan password 2"


def foundings_that_are_refused_found_nothing(s):
    ann, bob, cid = FOUNDERS

    def refuse(number, word, *founders, name="Aqua Lab", content=None):
        persons = [dict(zip(("code", "name", "password"), one)) for one in founders]
        content = (content or compact({"founders": persons, "name": name})).encode()
        s.add(f"found aqua 400 {s.words()} {len(content)}", content, f"refused {number} {word}\n".encode())
    refuse(88, "bad_body", content="{")
    refuse(1, "bad_name", ann, bob, cid, name="")
    refuse(27, "code_taken", ("bob", *ann[1:]), bob, cid)
    refuse(27, "code_taken", ("cid", *ann[1:]), bob, cid)
    refuse(27, "code_taken", ann, bob, ("bob", *cid[1:]))
    # 11 bytes are one too few, 129 one too many. A code of two comes before a password.
    refuse(25, "bad_password", (*ann[:2], "correct hor"), bob, cid)
    refuse(25, "bad_password", ann, (*bob[:2], "0123456789" * 12 + "012345678"), cid)
    refuse(25, "bad_password", ann, bob, (*cid[:2], "correct hor"))
    refuse(27, "code_taken", ("bob", "Ann Ames", "correct hor"), bob, cid)
    s.get(450, None, "", wants=40)
    s.found(500, "aqua", "Aqua Lab", FOUNDERS, words=1)
    s.found(600, "aqua", "Another Lab", FOUNDERS, wants=64)
    s.get(499, None, "", wants=41)
    s.get(500, None, "", wants='{"lab":"aqua","name":"Aqua Lab"}')


def the_card_asks_for_no_session(s):
    s.get(7862400, "dan", "", wants={"lab": "aqua"})
    s.get(7862400, "dan", "/persons", wants=22)


def zeros_behind_a_password_change_nothing(s):
    """HMAC fills a key of up to 64 bytes with zeros, so a password of 14 bytes is known again with up to 50 of them behind it."""
    for zeros, wants in ((0, None), (1, None), (50, None), (51, 20)):
        s.open(1200, "dan", password=RIGHT + "\0" * zeros, wants=wants)


def a_new_password_is_another_of_12_to_128_bytes(s):
    def change(old, new, number=None):
        s.post(1200, "dan", "/password", wants=number, old=old, new=new)
        if number is None:
            s.open(1200, "dan", password=new)
            s.passwords["aqua", "dan"] = new
    longer = RIGHT + "\0"
    change(RIGHT, "eleven byte", 25)
    change(RIGHT, RIGHT, 26)
    change(longer, longer, 26)
    change(longer, RIGHT)
    change(RIGHT, longer)
    change(RIGHT, "Dan password 1")
    change("Dan password 1", "twelve bytes")
    for bad in ("a" * 11, "a" * 129, "é" * 65):
        change("twelve bytes", bad, 25)
    for old, new in (("twelve bytes", "a" * 12), ("a" * 12, "a" * 128), ("a" * 128, "é" * 6)):
        change(old, new)
    # A change forgets failed passwords, and the session's mark.
    s.sign(1300, "dan", 1, 1, "authorship", code="dan")
    for _ in range(3):
        s.open(1300, "dan", password=WRONG, wants=20)
    s.change(1310, "dan", RIGHT)


def a_wrong_old_password_comes_before_a_bad_new_one_and_locks(s):
    for _ in range(5):
        s.post(1200, "dan", "/password", old=WRONG, new="eleven byte", wants=20)
    s.post(1200, "dan", "/password", old=WRONG, new="eleven byte", wants=22)
    s.open(2999, "dan", wants=20)
    s.open(3000, "dan", password=WRONG, wants=20)


def both_halves_of_a_one_time_password_one_after_the_other(s):
    first, second = "00000000000000150000000000000016", "000000000000001f0000000000000020"
    s.open(1200, "ann")
    s.open(1200, "bob")
    s.post(1200, "ann", "/persons", code="ivy", name="Ivy Inn", roles=[])
    s.post(1200, "ann", "/issue", code="ivy", words=21, wants={"half": first})
    s.post(1200, "bob", "/confirm", code="ivy", words=31, wants={"half": second})
    for wrong in (first, second + first, first + second + "\0", first + second[:-1]):
        s.open(1200, "ivy", password=wrong, wants=20)
    s.open(1200, "ivy", password=first + second, wants={"due": True})
    s.get(1200, "ivy", "/persons", wants=23)
    s.open(1200 + 604800, "ivy", password=first + second, wants={"due": True})
    s.open(1201 + 604800, "ivy", password=first + second, wants=20)


def asks_stand_for_seven_days(s):
    """bob asks for cid, who is an administrator too, for dan and for eve."""
    for who in ("ann", "bob", "cid"):
        s.open(1200, who)
    for code in ("cid", "dan", "eve"):
        s.post(1200, "bob", "/issue", code=code)
    s.post(1200, "bob", "/issue", code="dan")
    for who in ("ann", "bob", "cid"):
        s.open(1100 + 604800, who)
    for moment, asked, confirmed in ((1200 + 604800, 30, 31), (1201 + 604800, None, 32)):
        s.post(moment, "bob", "/confirm", code="cid", wants=confirmed)
        s.post(moment, "cid", "/issue", code="cid", wants=29)
        s.post(moment, "cid", "/confirm", code="cid", wants=29)
        if asked is None:
            s.post(moment, "ann", "/confirm", code="cid", wants=32)
        else:
            s.post(moment, "bob", "/issue", code="dan")
            s.post(moment, "ann", "/confirm", code="eve")
        s.post(moment, "ann", "/issue", code="cid", wants=asked)


def accounts_of_who_is_locked(s):
    """What an administrator does of an account leaves its failed passwords and its lock, but for unlocking."""
    for who in ("ann", "bob", "hal"):
        s.open(1200, who)
    s.post(1200, "ann", "/persons", code="joe", name="Joe Jay", roles=[])
    for who, count in (("dan", 5), ("gus", 5), ("cid", 5), ("eve", 4), ("fay", 3)):
        for _ in range(count):
            s.open(1200, who, password=WRONG, wants=20)
    for roles in (["administrator"], [], ["reviewer", "manager"]):
        s.post(1210, "ann", "/roles", code="dan", roles=roles)
        s.read_all("hal")
    for code in ("dan", "eve"):
        first = s.post(1220, "ann", "/issue", code=code)["half"]
        s.passwords["aqua", code] = first + s.post(1220, "bob", "/confirm", code=code)["half"]
    s.open(1220, "dan", wants=20)
    s.open(1220, "eve", wants={"due": True})
    for code in ("gus", "cid"):
        s.post(1230, "ann", "/retire", code=code)
        s.open(1230, code, wants=20)
    s.read_all("hal")
    for code in ("dan", "fay", "joe"):
        s.post(1240, "ann", "/unlock", code=code)
    s.open(1240, "joe", password="", wants=20)
    s.open(1240, "dan", wants={"due": True})


def a_failed_signing_without_the_code_locks(s):
    """In a session in which something was signed no code is wanted, and a failed password counts all the same; and so does the right
    one with another's code."""
    s.sign(1200, "dan", 1, 1, "authorship", code="dan")
    for count in range(2):
        s.post(1210, "dan", "/records", form="water", sample=f"T{count}")
        s.post(1210, "dan", "/entries", record=2 + count, key="lead", value="7.50", unit="mg/L")
    for _ in range(4):
        s.sign(1300, "dan", 2, 1, "authorship", password=WRONG, wants=20)
    s.sign(1300, "dan", 2, 1, "authorship")
    for code in (None, "eve", "dan", None):
        s.sign(1300, "dan", 3, 1, "authorship", password=RIGHT if code == "eve" else WRONG, code=code, wants=20)
    s.sign(1300, "dan", 3, 1, "authorship", code="eve", wants=20)
    s.sign(1300, "dan", 3, 1, "authorship", wants=22)


def an_opening_is_refused_for_its_password_first(s):
    """A wrong password comes before a token that is there already. Of who has no password none is right."""
    words = s.tokens["aqua", "dan"]
    s.open(1150, "ann")
    s.open(1200, "dan", password=WRONG, wants=20)
    s.open(1200, "dan", password="", wants=20)
    s.open(1201, "zed", password=RIGHT, wants=20)
    s.post(1202, "ann", "/persons", code="joe", name="Joe Jay", roles=["analyst"])
    s.open(1203, "joe", password="", wants=20)
    s.open(1204, "dan", password=WRONG, words=words, wants=20)
    s.open(1205, "dan", words=words, wants='{"error":"random_repeated","number":21}')
    s.post(1206, "dan", "/password", old=WRONG, new="dan password 3", wants=20)
    s.post(1207, "dan", "/password", old=RIGHT, new="11 bytes on", wants=25)
    s.post(1208, "dan", "/password", old=RIGHT, new="b" * 129, wants=25)
    s.post(1209, "dan", "/password", old=RIGHT, new=RIGHT, wants=26)
    s.change(1210, "dan", "b" * 128)
    s.change(1211, "dan", "12 bytes now")


def accounts_that_are_not_there_or_ones_own(s):
    """Of nobody and of who is retired each command answers alike, and nobody does any of them of themselves."""
    s.open(1150, "ann")
    s.open(1150, "bob")
    s.open(1150, "fay")
    s.post(1200, "ann", "/persons", code="dan", name="Dan Day", roles=["analyst"], wants=27)
    s.post(1201, "ann", "/retire", code="hal", wants={"code": "hal"})
    s.post(1202, "ann", "/persons", code="hal", name="Hal Hill", roles=["inspector"], wants=27)
    for moment, place in enumerate(("/issue", "/confirm", "/roles", "/retire", "/unlock"), 1203):
        roles = ["manager"] if place == "/roles" else None
        for code, number in (("zed", 33), ("hal", 33), ("ann", 29)):
            s.post(moment, "ann", place, code=code, roles=roles, wants=number)
    s.post(1210, "ann", "/confirm", code="dan", wants=32)
    s.post(1211, "ann", "/issue", code="dan")
    s.post(1212, "ann", "/issue", code="dan")
    s.post(1213, "bob", "/issue", code="dan", wants=30)
    s.post(1214, "ann", "/confirm", code="dan", wants=31)
    s.post(1215, "ann", "/roles", code="fay", roles=[], wants='{"code":"fay","roles":[]}')
    s.get(1216, "fay", "/records/1", wants={"number": 24, "rule": "P18"})
    s.reader = "gus"


def an_administrator_is_kept_like_anybody(s):
    """Enrolled like others, given roles, given a password, locked, unlocked and retired; who is none any more does none of it, and
    two who were founders are retired by the third."""
    for who in ("ann", "bob"):
        s.open(1150, who)
    for moment, roles in enumerate(([], ["reviewer"], ["manager"], ["inspector"], ["reviewer", "analyst"]), 1190):
        s.post(moment, "ann", "/persons", code=f"p{moment}", name="Somebody", roles=roles, wants={"code": f"p{moment}"})
    s.post(1200, "ann", "/persons", code="kim", name="Kim King", roles=["administrator"], wants={"code": "kim"})
    s.post(1201, "ann", "/roles", code="kim", roles=["inspector", "administrator"], wants={"roles": ["administrator", "inspector"]})
    first = s.post(1202, "ann", "/issue", code="cid")["half"]
    s.passwords["aqua", "cid"] = first + s.post(1203, "bob", "/confirm", code="cid")["half"]
    for moment in range(1204, 1209):
        s.open(moment, "cid", password="correct horse 9", wants=20)
    s.post(1209, "ann", "/unlock", code="cid", wants={"code": "cid"})
    s.post(1210, "ann", "/roles", code="bob", roles=["analyst"], wants={"roles": ["analyst"]})
    s.post(1211, "bob", "/unlock", code="cid", wants={"number": 24, "rule": "P9"})
    s.post(1212, "ann", "/roles", code="bob", roles=["reviewer", "administrator"], wants={"roles": ["reviewer", "administrator"]})
    s.post(1213, "bob", "/retire", code="bob", wants=29)
    s.post(1214, "bob", "/retire", code="ann", wants={"code": "ann"})
    s.get(1215, "ann", "/persons", wants=22)
    s.post(1216, "bob", "/retire", code="cid", wants={"code": "cid"})
    s.post(1217, "bob", "/retire", code="kim", wants={"code": "kim"})
    s.post(1218, "bob", "/retire", code="kim", wants=33)
    assert [one["code"] for one in s.get(1219, "bob", "/persons")["persons"] if one["retired"]] == ["ann", "cid", "kim"]


def who_is_retired_is_so_for_good(s):
    """Their sessions are closed, their code is given once, and nobody retires them again."""
    s.open(1150, "bob")
    s.post(1201, "bob", "/retire", code="dan", wants={"code": "dan"})
    s.get(1202, "dan", "/records/1", wants=22)
    s.open(1203, "dan", wants=20)
    s.post(1204, "bob", "/persons", code="dan", name="Dan Day", roles=["analyst"], wants=27)
    s.post(1205, "bob", "/retire", code="dan", wants=33)
    s.post(1206, "bob", "/retire", code="zed", wants=33)
    s.post(1207, "bob", "/unlock", code="eve", wants={"code": "eve"})
    s.post(1208, "bob", "/close", wants={"session": 9})
    s.get(1209, "bob", "/persons", wants=22)


def what_a_due_password_refuses_comes_before_the_role(s):
    s.open(86000, "hal")
    s.change(86399, "hal", "hal password 2")
    s.open(7862399, "hal", wants={"due": False})
    s.post(7862400, "hal", "/persons", code="ivy", name="Ivy Inn", roles=[], wants=23)
    s.change(7862403, "hal", "hal password 3")
    s.post(7862404, "hal", "/persons", code="ivy", name="Ivy Inn", roles=[], wants={"number": 24, "rule": "P3"})


def the_fifth_failed_password_at_a_signing_locks(s):
    """Guessing by signing is guessing (21 CFR 11.300(d))."""
    for moment in range(1300, 1305):
        s.sign(moment, "dan", 1, 1, "authorship", code="dan", password=WRONG, wants=20)
    s.get(1305, "dan", "/records/1", wants=22)
    s.open(1306, "dan", wants=20)


FROM_NOTHING = [foundings_that_are_refused_found_nothing]
FROM_SETUP = [
    the_card_asks_for_no_session, zeros_behind_a_password_change_nothing, a_new_password_is_another_of_12_to_128_bytes,
    a_wrong_old_password_comes_before_a_bad_new_one_and_locks, both_halves_of_a_one_time_password_one_after_the_other,
    asks_stand_for_seven_days, accounts_of_who_is_locked, a_failed_signing_without_the_code_locks,
    an_opening_is_refused_for_its_password_first, accounts_that_are_not_there_or_ones_own, an_administrator_is_kept_like_anybody,
    who_is_retired_is_so_for_good, what_a_due_password_refuses_comes_before_the_role, the_fifth_failed_password_at_a_signing_locks]
