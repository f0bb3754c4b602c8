"""The texts on the pages of a PDF as chromium prints it."""
import re
import zlib


def objects_of(pdf):
    """By their numbers: of each object its dictionary, and its stream, unpacked."""
    found = {}
    for number, body in re.findall(rb"(?<![0-9])(\d+) 0 obj\b(.*?)\bendobj", pdf, re.S):
        head, _, stream = body.partition(b"stream\n")
        stream = stream.rpartition(b"\nendstream")[0]
        found[int(number)] = head.decode("latin-1"), zlib.decompress(stream) if b"FlateDecode" in head and stream else stream
    return found


def characters_of(table):
    """What a font's glyphs stand for, by its table."""
    known = {}
    for block in re.findall(rb"beginbfchar(.*?)endbfchar", table, re.S):
        for glyph, text in re.findall(rb"<(\w+)>\s*<(\w+)>", block):
            known[int(glyph, 16)] = bytes.fromhex(text.decode()).decode("utf-16-be")
    for block in re.findall(rb"beginbfrange(.*?)endbfrange", table, re.S):
        for first, last, text in re.findall(rb"<(\w+)>\s*<(\w+)>\s*<(\w+)>", block):
            for glyph in range(int(first, 16), int(last, 16) + 1):
                known[glyph] = chr(int(text, 16) + glyph - int(first, 16))
    return known


def fonts_of(objects, head):
    """The tables of the fonts that a page names."""
    fonts = {}
    for name, number in re.findall(r"/(F\d+) (\d+) 0 R", head):
        table = re.search(r"/ToUnicode (\d+) 0 R", objects[int(number)][0])
        fonts[name] = characters_of(objects[int(table[1])][1]) if table else {}
    return fonts


def text_of(stream, fonts):
    """The characters of a page's stream, in the order in which they are drawn."""
    text, font = [], {}
    for name, glyphs, end in re.findall(rb"/(F\d+) [\d.]+ Tf|<([0-9A-Fa-f]+)>|(\bET\b)", stream):
        if name:
            font = fonts.get(name.decode(), {})
        elif end:
            text.append(" ")
        else:
            text += [font.get(int(glyphs[at:at + 4], 16), "?") for at in range(0, len(glyphs), 4)]
    return "".join(text)


def texts_of_pages(pdf):
    objects = objects_of(pdf)
    pages = [head for head, _ in objects.values() if re.search(r"/Type /Page\b", head)]
    found = []
    for head in pages:
        numbers = re.findall(r"\d+", re.search(r"/Contents (\[[^]]*\]|\d+ 0 R)", head)[1])[::2]
        stream = b"\n".join(objects[int(number)][1] for number in numbers)
        found.append(text_of(stream, fonts_of(objects, head)))
    return found
