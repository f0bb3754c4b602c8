"""Each refusal of docs/REFUSALS.md that a page can meet: a reply with it is put in the place of the server's, and the page shows its text, and
points to the field that it is about."""
import re

from room import TOP, Stop, same, say

REFUSING = """
if (!window.refusing) {
    const real = window.fetch.bind(window);
    window.refusing = [];
    window.fetch = async (place, about) => {
        const [one] = window.refusing;
        if (!one || one.method !== about.method || !place.includes(one.place)) return real(place, about);
        window.refusing.shift();
        return new Response(JSON.stringify(one.reply), { status: one.status });
    };
}
window.refusing.push(arguments[0]);
"""
TOLD = """
const done = arguments[arguments.length - 1];
import("/pages/texts.js").then(({ texts }) => done([texts.refusals, texts.rules]));
"""
# The text of a refusal, the names of the controls that are told to be wrong, what has the focus, and the title's first word.
SHOWN = """
const shown = [...document.querySelectorAll(`main [data-refusal="${arguments[0]}"]`)].at(-1);
if (!shown) return null;
const wrong = [...document.querySelectorAll("main [aria-invalid]")].map((one) => one.name);
const about = shown.closest("[data-field]")?.dataset.field ?? "";
return [shown.innerText.replace(/\\s+/g, " "), wrong, document.activeElement.name || document.activeElement.dataset.refusal || "", shown.dataset.number, about];
"""
# What some refusals have beside their word, and what the page makes of that.
FURTHER = {"role_wanted": ({"rule": "P13"}, "Rule P13"), "record_exists": ({"record": 7}, "7"), "not_altered": ({"key": "lead"}, "It is Lead."),
           "stale_digest": ({"digest": "ab" * 32}, "abab")}
# Refusals of the request itself, which any command can meet; no control is at fault.
OF_REQUESTS = ["bad_head", "head_too_long", "transfer_coding", "length_wanted", "body_too_long", "short_body", "method"]
# What no page can meet at a form of its own: a dialog asks for the password then.
ASKED = {"no_session": "password", "password_due": "new"}
NEW = {"form": "soil", "key": "lead", "label": "Lead"}
WORD = "correct horse battery"
# Of each form: its place, what is clicked first, what is typed, what sends it, the request, and the words with the control of each.
FORMS = [
    ("#/records/5", None, {"value": "7.5"}, "enter_a_value", "POST /entries",
     {"bad_value": "value", "wrong_unit": "value", "out_of_range": "value", "no_such_field": "value", "bad_body": "value", "not_open": "value",
      "no_such_record": "value", "lab_full": "value", "role_wanted": "value", "clock_behind": "value", "reason_wanted": "reason"}),
    ("#/records/4/amending", None, {"value_lead": "7.6", "reason": "misread"}, "amend_a_record", "POST /amendments",
     {"not_altered": "value_lead", "nothing_altered": "value_lead", "reason_wanted": "reason", "bad_name": "reason", "amendment_open": None, "lab_full": None,
      "no_such_record": None, "no_such_field": None}),
    ("#/records/3/versions/1/review", None, {"code": "pat", "password": WORD}, "sign_a_version", "POST /signatures",
     {"entries_missing": None, "stale_digest": None, "already_signed": None, "own_work": None, "not_author": None, "not_signed": None, "no_such_version": None,
      "approval_not_wanted": None, "code_wanted": "code", "bad_name": "code", "credentials": "password"}),
    ("#/records/3/versions/1/rejection", None, {"reason": "no blank", "code": "pat", "password": WORD}, "sign_a_version", "POST /signatures",
     {"reason_wanted": "reason"}),
    ("#/opening", None, {"form": "water", "sample": "Well 9"}, "open_a_record", "POST /records",
     {"no_such_form": "form", "record_exists": "sample", "lab_full": None, "role_wanted": None, **dict.fromkeys(OF_REQUESTS)}),
    ("#/making", None, NEW, "make_a_form", "POST /forms",
     {"no_fields": None, "too_many_fields": None, "nothing_altered": None, "lab_full": None}),
    ("#/making", None, {**NEW, "min": "8", "max": "7"}, "make_a_form", "POST /forms", {"bad_field": "min"}),
    ("#/making", None, {**NEW, "key": "Lead"}, "make_a_form", "POST /forms", {"bad_name": "key"}),
    ("#/making", "add_field", {"form": "soil"}, "make_a_form", "POST /forms", {"key_twice": "key"}),
    ("#/enrolling", None, {"code": "zoe", "name": "Zoe Zimt"}, "enrol_a_person", "POST /persons", {"code_taken": "code", "lab_full": None, "role_wanted": None}),
    ("#/persons/new", None, {}, "ask_for_a_one_time_password", "POST /issue", {"issue_open": None, "own_issue": None, "no_such_person": None}),
    ("#/persons/new", None, {}, "confirm_a_one_time_password", "POST /confirm", {"no_issue": None, "same_person": None}),
    ("#/persons/new", None, {}, "set_a_persons_roles", "POST /roles", {"own_issue": None, "no_such_person": None}),
    ("#/persons/new", "retire_a_person", {}, "retire_a_person_surely", "POST /retire", {"own_issue": None, "no_such_person": None}),
    ("#/password", None, {"old": WORD, "new": WORD + " 2", "again": WORD + " 2"}, "change_the_password", "POST /password",
     {"credentials": "old", "bad_password": "new", "same_password": "new"}),
]
# Where nobody is signed in.
OUTSIDE = [
    ("#/", None, {"lab": "open", "code": "pat", "password": WORD}, "open_a_session", "POST /open",
     {"credentials": "password", "bad_name": "code", "random_repeated": None, "lab_full": None, "storage": None, "memory": None}),
    ("#/", None, {"lab": "open", "code": "pat", "password": WORD}, "open_a_session", "GET /labs/open",
     {"no_such_lab": "lab", "no_route": "lab", "clock_behind": None}),
]


def statuses():
    """The words of docs/REFUSALS.md that a reply can have, each with its number and its status."""
    rows = re.findall(r"^\| (\d+) \| `(\w+)` \| (\d{3}) \|", (TOP / "docs/REFUSALS.md").read_text(), re.M)
    return {word: (int(number), int(status)) for number, word, status in rows}


class Refuser:
    def __init__(self, lab):
        self.lab, self.screen, self.words = lab, lab.screen, statuses()
        self.texts, self.rules = self.screen.driver.execute_async_script(TOLD)
        self.met, self.flaws = set(), []

    def reply(self, word, request):
        method, place = request.split()
        number, status = self.words[word]
        further = FURTHER.get(word, ({}, ""))[0]
        self.screen.run(REFUSING, {"method": method, "place": place, "status": status, "reply": {"error": word, "number": number, **further}})

    def form(self, place, first, typed, command, request, wanted):
        """Each word in turn at one form."""
        self.come(place)
        if first:
            self.screen.do(first)
        for word, control in wanted.items():
            self.put(typed)
            self.reply(word, request)
            self.screen.do(command)
            self.look(word, control, place)
        self.lab.drop()

    def come(self, place):
        """(whoever is at a place already comes there anew)"""
        if self.screen.place() == place:
            self.lab.go("#/checking")
        self.lab.go(place)

    def put(self, typed):
        for name, value in typed.items():
            control = self.screen.one(f'main [name="{name}"]')
            if control.get_attribute("value") != value:
                self.screen.put(control, value)

    def look(self, word, control, place):
        self.screen.wait(lambda: self.screen.run(SHOWN, word), f"{word} is shown at {place}")
        text, wrong, focused, number, about = self.screen.run(SHOWN, word)
        wanted = self.texts[word]["when"]
        good = wanted in text and f"({word} {self.words[word][0]})" in text and number == str(self.words[word][0])
        good = good and FURTHER.get(word, ({}, ""))[1] in text
        if control:
            good = good and control in wrong and focused == control and (about == control or control == "reason")
        else:
            good = good and not wrong and focused == word
        self.met.add(word)
        if not good:
            self.flaws.append((word, place, text[:160], wrong, focused, about))


def look_at_refusals(lab):
    """Of each form each word."""
    refuser = Refuser(lab)
    for forms, who in ((FORMS, "pat"), (OUTSIDE, None)):
        if who:
            lab.come(who)
        else:
            lab.screen.load()
        for one in forms:
            before = len(refuser.flaws)
            try:
                refuser.form(*one)
            except Stop as fault:
                refuser.flaws.append((one[0], one[3], str(fault)[:300]))
            same(f"{one[3]} at {one[0]}: {', '.join(one[5])}: each with its text, at its field", refuser.flaws[before:], [])
    asked_for(refuser)
    same("each refusal that a reply can have is met at a page", sorted(set(refuser.words) - refuser.met), [])


def asked_for(refuser):
    """Where the session has ended or the password is due, a dialog asks."""
    lab, screen = refuser.lab, refuser.screen
    for word, control in ASKED.items():
        lab.come("pat")
        refuser.reply(word, "GET /records")
        screen.run("location.hash = '#/records'")
        there = screen.one(f'#again [name="{control}"]')
        say(screen.run("return document.activeElement.closest('dialog')?.open === true", None) and there, f"{word}: a dialog asks for {control}")
        refuser.met.add(word)
