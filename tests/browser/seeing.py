"""What stands on the screen, read as the server's replies are made, so that both can be compared."""
from room import same

# (what is folded is opened meanwhile)
HELP = """
const folded = [...document.querySelectorAll("details.on-paper:not([open])")];
for (const one of folded) one.open = true;
const shortened = [...document.querySelectorAll("[data-folded]")];
for (const one of shortened) one.removeAttribute("data-folded");
const part = (name, within = document) => within.querySelector(`[data-part="${name}"]`);
const text = (name, within) => { const found = part(name, within); return found?.checkVisibility() ? found.textContent : null; };
const at = (name, within) => part(name, within)?.getAttribute("datetime") ?? null;
const word = (name, within) => part(name, within)?.getAttribute(`data-${name}`) ?? null;
const each = (selector, within, read) => [...within.querySelectorAll(selector)].filter((one) => one.checkVisibility()).map(read);
"""
FOLD = """
for (const one of folded) one.open = false;
for (const one of shortened) one.setAttribute("data-folded", "");
"""
RECORDS = """
return each("tr[data-record]", document, (row) => ({
    record: Number(row.dataset.record), sample: text("sample", row), form: text("form", row), current: Number(text("current", row)), state: word("state", row),
}));
"""
VERSION = """
const article = [...document.querySelectorAll("article[data-version]")].at(-1);
const seals = [...article.querySelectorAll("[data-part=seal]")];
const [values, entries] = article.querySelectorAll("table").length > 1 ? article.querySelectorAll("table") : [article.querySelector("table"), null];
return {
    record: Number(article.dataset.record), version: Number(article.dataset.version), state: word("state", article), digest: text("digest", article),
    sample: text("sample", article), reason: text("reason", article.querySelector("dl")) ?? "", moment: at("opened", article),
    values: each("tr[data-key]", values, (row) => [row.dataset.key, text("value", row)]).filter(([, value]) => value !== null),
    overwritten: each("tr[data-key]", values, (row) => [row.dataset.key, each("[data-part=overwritten]", row, (one) => one.textContent)])
        .filter(([, list]) => list.length > 0),
    altered: each("tr.altered-row", values, (row) => row.dataset.key),
    rows: entries ? each("tr[data-entry]", entries, (row) => [text("value", row), text("person", row), at("moment", row), text("reason", row) ?? "",
        row.querySelector("s") !== null]) : [],
    signatures: each("li[data-signature]", article, (one) => [one.dataset.signature, text("name", one), text("person", one), at("moment", one),
        text("reason", one) ?? "", seals.shift()?.textContent]),
};
"""
PERSONS = """
return each("tr[data-person]", document, (row) => [row.dataset.person, text("name", row), word("account", row)]);
"""
TRAIL = """
return each("tr[data-row]", document, (row) => [Number(row.dataset.row), at("moment", row), text("person", row), word("action", row), text("subject", row)]);
"""
FORM = """
return { form: text("form"), fields: each("tr[data-key]", document, (row) => [row.dataset.key, text("label", row)]) };
"""


def seen(screen, what):
    """What is on the screen; of a list all that is loaded, and of a version what is older, too, also what a press shows."""
    while what in (RECORDS, TRAIL, PERSONS) and screen.all('[data-do="show_more"]'):
        screen.do("show_more")
    return screen.run(f"{HELP} const shown = (() => {{ {what} }})(); {FOLD} return shown;")


def with_unit(one):
    return f"{one['value']} {one['unit']}".rstrip(" ") if one["unit"] else one["value"]


def version_of(asker, record, version):
    """A version as the server tells it, in the shape in which the screen is read."""
    last = asker.get(f"records/{record}/versions/{version}")
    rows = [row for number in range(1, version + 1) for row in asker.get(f"records/{record}/versions/{number}")["rows"]]
    before = {}
    for row in rows:
        before.setdefault(row["key"], []).append(with_unit(row))
    return {
        **{name: last[name] for name in ("record", "version", "state", "digest", "sample", "reason", "moment")},
        "values": [[one["key"], with_unit(one)] for one in last["values"]],
        "overwritten": [[one["key"], before[one["key"]][:-1]] for one in last["values"] if len(before[one["key"]]) > 1],
        "altered": last["altered"] if version > 1 else [],
        "rows": [[with_unit(row), row["person"], row["moment"], row["reason"], any(row["key"] == one["key"] for one in last["rows"][place + 1:])]
                 for place, row in enumerate(last["rows"])],
        "signatures": [[one["meaning"], one["name"], one["person"], one["moment"], one["reason"], one["seal"]] for one in last["signatures"]],
    }


def compare_version(screen, asker, record, version, what):
    same(f"{what}: record {record}, version {version}, as the server tells it", seen(screen, VERSION), version_of(asker, record, version))


def compare_records(screen, asker, what, states=None):
    """All records, the newest first; or those of some states, the oldest first."""
    rows = [one for one in asker.get("records?from=1&to=100")["records"] if not states or one["state"] in states]
    wanted = [{name: one[name] for name in ("record", "sample", "form", "current", "state")} for one in rows]
    first = "oldest" if states else "newest"
    same(f"{what}: {len(rows)} records, the {first} first, as the server tells them", seen(screen, RECORDS), wanted if states else wanted[::-1])


def compare_persons(screen, asker, what):
    wanted = [[one["code"], one["name"], "retired" if one["retired"] else "locked" if one["locked"] else "usable"] for one in asker.get("persons")["persons"]]
    same(f"{what}: {len(wanted)} persons, as the server tells them", seen(screen, PERSONS), wanted)


def compare_trail(screen, asker, what, first, last, keep=lambda row: True):
    rows = [row for row in asker.get(f"trail?from={first}&to={last}")["trail"] if keep(row)]
    there = seen(screen, TRAIL)
    wanted = [[row["number"], row["moment"], row["person"], row["action"], row["subject"]] for row in reversed(rows)]
    # (the founding has no person; the page says so in words)
    there = [[number, moment, "" if action == "found" else person, action, subject] for number, moment, person, action, subject in there]
    same(f"{what}: {len(wanted)} rows of the trail, as the server tells them", there, wanted)


def compare_form(screen, asker, form, version, what):
    wanted = asker.get(f"forms/{form}/{version}")
    same(f"{what}: {form} {version}, as the server tells it", seen(screen, FORM),
         {"form": form, "fields": [[one["key"], one["label"]] for one in wanted["fields"]]})
