"""The picture of the boxes in docs/ARCHITECTURE.md, which tests/map draws from crates.txt.

A box stands above those whose crates it uses, and a line leads down to each of them, but for those that its other lines lead to anyway.
Where a line bends, ' has come from above, . goes on down, and + does both. A line that goes down crosses others, and doesn't meet them.
"""
import itertools
import re
import textwrap

import documents

PAGE, MARKERS = "docs/ARCHITECTURE.md", ("<!-- boxes -->", "<!-- end of boxes -->")
PICTURE = re.compile(f"(?<=^{MARKERS[0]}\n).*?(?=^{MARKERS[1]}$)", re.M | re.S)
LEGEND = """

A line leads from a box down to one whose crates it uses.
The table says which ones further down it uses, too.
"""
# A map that is made up here, and the picture that it has: a line that passes a layer, lines that cross, boxes where two lines end.
MADE_UP = """
# Low: a box that Far uses, with no line of its own.
lab_low: jiff

# Side: a box of which the layer above has the line alone.
lab_side: jiff

# Mid: two crates.
lab_mid: lab_low
lab_mid_more: lab_low lab_mid

# Far: the highest.
lab_far: lab_low lab_side lab_mid

# Near: a box that nothing uses.
lab_near: lab_low lab_side
"""
ITS_PICTURE = f"""```text
           far, 1 crate
  .--------------+
  |        mid, 2 crates  near, 1 crate
  '---.          |              |
      |          '----------.   |
      | .-------------------|-.-'
side, 1 crate         low, 1 crate{LEGEND}```
"""
# What a picture may be altered by: in place of the first such text stands another one.
ALTERED = {
    "another number of crates": (r"\d+", "998"),
    "a line that breaks off": (r"\|", " "),
    "no end": (f"{MARKERS[1]}\n", ""),
}


# ---- how it is drawn: each row and column that isn't blank has its sign


def lines_of(stands):
    """Of each box those that lines lead down to: those that it stands on, but for what another one of them reaches."""
    lines, reached = {}, {}
    for box, ones in stands.items():
        lines[box] = [one for one in ones if not any(one in reached[other] for other in ones)]
        reached[box] = set(ones).union(*(reached[one] for one in ones))
    return lines


def layers_of(lines):
    """The layers, the highest first. Each has its boxes, and the lines that pass there, called by the box that they lead to; of each of these
    it has what comes below it in the next layer."""
    height = {}
    for box, ones in lines.items():
        height[box] = max((height[one] + 1 for one in ones), default=0)
    layers = [{} for _ in range(max(height.values()) + 1)]
    for box, ones in lines.items():
        layers[height[box]][box] = ones
        for one in ones:
            for layer in layers[height[one] + 1:height[box]]:
                layer[one] = [one]
    return layers[::-1]


def columns_of(layers, wide):
    """Of each layer the columns of what is in it. It stands below what leads to it, or else in the order of crates.txt, the last first."""
    whole = wide * max(map(len, layers))
    above, columns = {}, {}
    for layer in layers:
        led = {name: [columns[one] for one in above if name in above[one]] or [whole] for name in layer}
        order = sorted(reversed(list(layer)), key=lambda name: sum(led[name]) / len(led[name]))
        above, columns = layer, {name: whole * (2 * at + 1) // (2 * len(order)) for at, name in enumerate(order)}
        yield columns


def free_column(owner, line, middle):
    """The column nearest to a middle that no other line has."""
    near = (middle + shift for far in itertools.count(0, 2) for shift in (far, -far))
    return next(column for column in near if owner.setdefault(column, line) == line)


def draw_joint(signs, row, starts, ends):
    """Draws the row of a line where what comes from above meets what goes on down."""
    columns = {*starts, *ends}
    for column in range(min(columns), max(columns)):
        signs.setdefault((row, column), "-")
    for column in columns:
        signs[row, column] = "|" if len(columns) == 1 else "'" if column not in ends else "." if column not in starts else "+"


def draw_lines(signs, top, layer, columns, below):
    """Draws the lines from a layer to the next, whose columns are `below`. Those that lead to the same are one line. Gives the row of the
    next, and the columns in which lines come to what is in it."""
    starts = {}
    for name, column in columns.items():
        starts.setdefault(tuple(layer[name]), []).append(column)
    owner = {column: line for line, some in starts.items() for column in some}
    ends = {line: [free_column(owner, line, below[name]) for name in line] for line in starts}
    bent = [line for line in starts if len({*starts[line], *ends[line]}) > 1]
    bottom = top + max(1, len(bent))
    for line, some in starts.items():
        joint = top + (bent.index(line) if line in bent else 0)
        signs.update({(row, column): "|" for column in some for row in range(top, joint)})
        signs.update({(row, column): "|" for column in ends[line] for row in range(joint + 1, bottom)})
        draw_joint(signs, joint, some, ends[line])
    return bottom, {name: [column for line in starts for one, column in zip(line, ends[line]) if one == name] for name in below}


def drawn(world):
    """The picture of the boxes of crates.txt, as it stands between its markers."""
    names, stands = [box for box, _ in world.boxes], documents.stands_on(world, world.boxes)
    layers = layers_of(lines_of({box: [one for one in names[:at] if one in stands[box]] for at, box in enumerate(names)}))
    shown = {box: f"{documents.shown(box)}, {len(crates)} crate{'s' * (len(crates) != 1)}" for box, crates in world.boxes}
    places = list(columns_of(layers, max(map(len, shown.values())) + 2))
    signs, row, come = {}, 0, {}
    for layer, columns, below in zip(layers, places, [*places[1:], None]):
        for box, column in columns.items():
            if layer[box] == [box]:
                draw_joint(signs, row, come[box], [column])
            else:
                signs.update({(row, column - len(shown[box]) // 2 + at): sign for at, sign in enumerate(shown[box])})
        if below:
            row, come = draw_lines(signs, row + 1, layer, columns, below)
    right = max(column for _, column in signs) + 1
    text = "\n".join("".join(signs.get((at, column), " ") for column in range(right)).rstrip() for at in range(row + 1))
    return f"```text\n{textwrap.dedent(text)}{LEGEND}```\n"


# ---- whether the page has it


def told_otherwise(page, world):
    """What the page's picture has otherwise than crates.txt."""
    found, wanted = PICTURE.findall(page), drawn(world)
    if len(found) != 1:
        yield f"{PAGE} doesn't have one picture between {' and '.join(MARKERS)}"
    elif found[0] != wanted:
        pairs = itertools.zip_longest(found[0].splitlines(), wanted.splitlines(), fillvalue="no line")
        there, other = next(pair for pair in pairs if pair[0] != pair[1])
        yield f"{PAGE}: its picture has {there!r}, and that of crates.txt {other!r} (`tests/map --write-picture` puts it there)"


def altered_passes(world, made_up):
    """Whether an altered picture would pass as the one of crates.txt; and whether the made-up map gets another one than its own."""
    page = f"{MARKERS[0]}\n{drawn(world)}{MARKERS[1]}\n"
    for what, (old, new) in ALTERED.items():
        if not any(told_otherwise(re.sub(old, new, page, count=1), world)):
            yield f"of a picture with {what} nothing is said"
    if drawn(made_up) != ITS_PICTURE:
        yield f"the made-up map gets another picture:\n{drawn(made_up)}"


def write(top, world):
    """Puts the picture between the markers of the page."""
    page = documents.text_of(f"{top}/{PAGE}")
    with open(f"{top}/{PAGE}", "w", encoding="utf-8") as file:
        file.write(PICTURE.sub(lambda _: drawn(world), page))
