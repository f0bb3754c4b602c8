"""The words of docs/REFUSALS.md beside the texts that the pages have for them."""
import re

from modules import texts
from said import TOP, same, say


def words_of_document(statuses=r"\d{3}", part=""):
    """The words of docs/REFUSALS.md, each with its number, of which the status is such a one."""
    text = (TOP / "docs/REFUSALS.md").read_text()
    rows = re.findall(rf"^\| (\d+) \| `(\w+)` \| (?:{statuses}) \|", text[text.index(part):], re.M)
    return {word: int(number) for number, word in rows}


def look_at_words(node):
    [[given]] = node.call_all([("texts", None, [])])
    told, replies = given["texts"]["refusals"], words_of_document()
    say(len(replies) > 50, f"docs/REFUSALS.md has {len(replies)} words that a reply can have")
    same("the pages have a text for each of them", sorted(set(replies) - set(told)), [])
    incomplete = [word for word, one in told.items() if not (one["when"].endswith(".") and one["what_to_do"].endswith("."))]
    same("each of these texts says when, and what to do", incomplete, [])
    modules = "\n".join(text for name, text in texts().items() if name != "texts")
    own = sorted(word for word in set(told) - set(replies) if not re.search(rf"'{word}'", modules) and word != "unknown")
    same("each word that no reply has is the pages' own", own, [])
    flaws = words_of_document("exit 1", "## Inspection copies")
    same("the pages have a text for each flaw of a copy", sorted(given["texts"]["copies"]["flaws"]), sorted(flaws))
    rules = set(re.findall(r"\bP\d+\b", (TOP / "docs/PERSONS.md").read_text()))
    same("and for each rule of the policy", sorted(given["texts"]["rules"]), sorted(rules))
