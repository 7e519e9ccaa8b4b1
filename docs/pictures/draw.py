#!/usr/bin/env python3
"""Draws the pictures of this folder. Needs nothing but Python.

    draw.py             writes layers.svg and, for each NAME.columns, NAME.svg
    draw.py --check     says whether the stored pictures are the ones it would write

layers.svg comes from crates.txt, whose comment lines name the rooms that the
crates below them stand in. NAME.svg is the flow graph of examples/NAME: the
code text is cut from its script.lua, all else comes from NAME.columns.

NAME.columns is chart's columns as text, a column a line: its name, a colon,
and its numbers, with anything between them. Only cells that chart writes
stand there. Read here are

    first, second       per node, its successors; 4294967295 for none
    reachable           per node, 0 or 1
    code span           per code, start + 2^32 * end
    code node           per code, its node

and other columns are passed over. `compare columns < sheet.bin` prints such a
text from luck (compare/README.md).

All sums are over whole numbers, so that every Python draws the same.
"""

import html
import pathlib
import re
import sys

HERE = pathlib.Path(__file__).resolve().parent
ROOT = HERE.parent.parent

FONT = 13
SMALL = 11
ROW_GAP = 30
BOX_GAP = 26
MARGIN = 20
EXITS = ["End", "Break", "ReturnValue", "ReturnEmpty", "Error"]
ENTRY = 5
ABSENT = 4294967295
COLUMNS = ["first", "second", "reachable", "code span", "code node"]


# Text

def text_width(text, size):
    """Room for a text in any usual sans-serif, in pixels."""
    hundredths = 0
    for letter in text:
        if letter in "iljtfr.,:;'|!()[]{} -/\"":
            hundredths += 42
        elif letter in "mwMW@%":
            hundredths += 98
        elif letter.isupper() or letter in "+=<>#_~":
            hundredths += 80
        else:
            hundredths += 65
    return (hundredths * size + 99) // 100


def cut(text, room):
    text = " ".join(text.split())
    return text if len(text) <= room else text[:room - 2].rstrip() + " .."


def folded(text, width, size):
    """A text in lines that have room in so many pixels, as far as its words let it."""
    lines = []
    for word in text.split():
        if lines and text_width(f"{lines[-1]} {word}", size) <= width:
            lines[-1] += f" {word}"
        else:
            lines.append(word)
    return lines


# Layout: rows from top to bottom, in each row boxes and, where a line passes, places of width 0.

class Box:
    def __init__(self, width, height, draw=None):
        self.width, self.height, self.draw = width, height, draw
        self.row = self.x = self.y = 0


class Line:
    """From a box to a box, through the places of its way; upward lines are laid downward."""

    def __init__(self, tail, head, style="line"):
        self.tail, self.head, self.style = tail, head, style
        self.way = []
        self.upward = False


def upward_lines(boxes, lines, roots):
    """Marks the lines that close a circle, found from the roots and then from the other boxes."""
    out = {box: [line for line in lines if line.tail is box] for box in boxes}
    state = {}

    def visit(box):
        state[box] = "open"
        for line in out[box]:
            if state.get(line.head) == "open":
                line.upward = True
            elif line.head not in state:
                visit(line.head)
        state[box] = "done"

    for box in roots + boxes:
        if box not in state:
            visit(box)


def downward(line):
    return (line.head, line.tail) if line.upward else (line.tail, line.head)


def rows_from_top(lines):
    """Each box below everything that leads to it."""
    changed = True
    while changed:
        changed = False
        for line in lines:
            above, below = downward(line)
            if above is not below and below.row <= above.row:
                below.row = above.row + 1
                changed = True


def rows_of(boxes, lines):
    """The rows, with a place in every row that a line passes."""
    rows = [[] for _ in range(max(box.row for box in boxes) + 1)]
    for box in boxes:
        rows[box.row].append(box)
    for line in lines:
        above, below = downward(line)
        line.way = [above]
        if above is below:
            continue
        for row in range(above.row + 1, below.row):
            place = Box(0, 0)
            place.row = row
            rows[row].append(place)
            line.way.append(place)
        line.way.append(below)
    return rows


def neighbours(lines):
    above, below = {}, {}
    for line in lines:
        for one, other in zip(line.way, line.way[1:]):
            below.setdefault(one, []).append(other)
            above.setdefault(other, []).append(one)
    return above, below


def crossings(rows, below):
    count = 0
    for upper, lower in zip(rows, rows[1:]):
        at = {box: place for place, box in enumerate(lower)}
        ends = [at[other] for box in upper for other in sorted(below.get(box, []), key=at.get)]
        count += sum(1 for i, one in enumerate(ends) for other in ends[i + 1:] if one > other)
    return count


def order_by_middles(rows, above, below, turn):
    """Orders each row by the middle of its neighbours, going down in even turns and up in odd ones."""
    links = above if turn % 2 == 0 else below
    for row in rows if turn % 2 == 0 else rows[::-1]:
        at = {box: place for other in rows for place, box in enumerate(other)}

        def middle(box):
            places = [at[other] for other in links.get(box, [])] or [at[box]]
            return 1000 * sum(places) // len(places)

        row.sort(key=middle)


def swap_neighbours(rows, below):
    """Swaps boxes that stand side by side as long as that takes crossings away."""
    fewest = crossings(rows, below)
    better = True
    while better:
        better = False
        for row in rows:
            for at in range(len(row) - 1):
                row[at], row[at + 1] = row[at + 1], row[at]
                count = crossings(rows, below)
                if count < fewest:
                    fewest, better = count, True
                else:
                    row[at], row[at + 1] = row[at + 1], row[at]


def move_long_lines(rows, lines, below):
    """Moves all places of a line to the left or right end of their rows where that takes crossings away."""
    fewest = crossings(rows, below)
    for line in lines:
        places = line.way[1:-1]
        for end in (0, len(rows)):
            kept = [list(row) for row in rows]
            for spot in places:
                row = rows[spot.row]
                row.remove(spot)
                row.insert(end and len(row), spot)
            count = crossings(rows, below)
            if count < fewest:
                fewest = count
            else:
                rows[:] = kept


def order_rows(rows, lines):
    """Leaves the order with the fewest crossings of those tried: from the left and from the right."""
    above, below = neighbours(lines)
    best, fewest = None, None
    for start in ([list(row) for row in rows], [row[::-1] for row in rows]):
        for turn in range(12):
            order_by_middles(start, above, below, turn)
            tried = [list(row) for row in start]
            swap_neighbours(tried, below)
            move_long_lines(tried, lines, below)
            count = crossings(tried, below)
            if fewest is None or count < fewest:
                best, fewest = tried, count
    rows[:] = best


def crossed_long_lines(rows, above):
    """Steps of a line that cross a step between two places: those give way, so that long lines stay straight."""
    crossed = set()
    for upper, lower in zip(rows, rows[1:]):
        at = {box: place for place, box in enumerate(upper)}
        steps = [(at[other], place, other, box) for place, box in enumerate(lower) for other in above.get(box, [])]
        for x0, x1, other, box in steps:
            for y0, y1, long_other, long_box in steps:
                inner = long_other.width == 0 and long_box.width == 0
                if inner and (x0 - y0) * (x1 - y1) < 0:
                    crossed.add((other, box))
    return crossed


def columns_of(rows, above, crossed):
    """Boxes that stand straight below each other: each box with the middle one of those above it, left ones first."""
    root = {box: box for row in rows for box in row}
    taken = set()
    for upper, lower in zip(rows, rows[1:]):
        at = {box: place for place, box in enumerate(upper)}
        free = 0
        for box in lower:
            near = sorted(above.get(box, []), key=at.get)
            for other in near[(len(near) - 1) // 2:len(near) // 2 + 1]:
                if root[box] is box and other not in taken and at[other] >= free and (other, box) not in crossed:
                    root[box] = root[other]
                    taken.add(other)
                    free = at[other] + 1
    return root


def leftmost(rows, root):
    """Every column as far left as the gaps let it, then as near to what is right of it."""
    gaps = {}
    for row in rows:
        for one, other in zip(row, row[1:]):
            pair = root[one], root[other]
            gaps[pair] = max(gaps.get(pair, 0), (one.width + other.width) // 2 + BOX_GAP)
    x = {column: 0 for column in dict.fromkeys(root.values())}
    for _ in x:
        for (one, other), gap in gaps.items():
            x[other] = max(x[other], x[one] + gap)
    right = {}
    for (one, other), gap in gaps.items():
        right.setdefault(one, []).append((other, gap))
    for column in sorted(right, key=lambda column: -x[column]):
        x[column] = max(x[column], min(x[other] - gap for other, gap in right[column]))
    return {box: x[column] for box, column in root.items()}


def place(rows, lines):
    """Brandes and Koepf's way: four layouts, from each corner, and the middle of them."""
    above, below = neighbours(lines)
    crossed = crossed_long_lines(rows, above)
    crossed |= {(box, other) for other, box in crossed}
    layouts = []
    for down in (True, False):
        for left in (True, False):
            turned = [row if left else row[::-1] for row in (rows if down else rows[::-1])]
            x = leftmost(turned, columns_of(turned, above if down else below, crossed))
            layouts.append((left, x if left else {box: -at for box, at in x.items()}))

    def sides(x):
        return min(x[box] - box.width // 2 for box in x), max(x[box] + box.width // 2 for box in x)

    narrow = min((sides(x) for _, x in layouts), key=lambda pair: pair[1] - pair[0])
    spread = {box: [] for row in rows for box in row}
    for left, x in layouts:
        shift = narrow[0] - sides(x)[0] if left else narrow[1] - sides(x)[1]
        for box in x:
            spread[box].append(x[box] + shift)
    for box, xs in spread.items():
        box.x = (sorted(xs)[1] + sorted(xs)[2]) // 2
    start = min(box.x - box.width // 2 for box in spread)
    y = MARGIN
    for row in rows:
        height = max(box.height for box in row)
        for box in row:
            box.x += MARGIN - start
            box.y = y + height // 2
        y += height + ROW_GAP
    return max(box.x + box.width // 2 for box in spread) + MARGIN, y - ROW_GAP


# SVG

STYLE = """
text{font-family:sans-serif;font-size:%dpx;fill:#1b1f24}
.small{font-size:%dpx;fill:#57606a}
.box{fill:#fff;stroke:#57606a}
.number{fill:#eaeef2}
.exit{fill:#ddf4ff;stroke:#0969da}
.off{fill:#f6f8fa;stroke:#8c959f;stroke-dasharray:4 3}
.offtext{fill:#6e7781}
.line{fill:none;stroke:#424a53;stroke-width:1.3}
.second{fill:none;stroke:#bc4c00;stroke-width:1.3}
.offline{fill:none;stroke:#8c959f;stroke-width:1.3;stroke-dasharray:4 3}
""" % (FONT, SMALL)

ROOM_STYLE = """
.room{fill:#f6f8fa;stroke:#afb8c1}
.name{font-weight:bold}
"""


def write_text(x, y, words, style="", anchor="middle"):
    style = f' class="{style}"' if style else ""
    return f'<text x="{x}" y="{y}" text-anchor="{anchor}"{style}>{html.escape(words, quote=False)}</text>'


def rectangle(x, y, width, height, style, corner=5):
    return f'<rect x="{x}" y="{y}" width="{width}" height="{height}" rx="{corner}" class="{style}"/>'


def port(box, others, which):
    """Where the which-th of the lines on one side of a box meets it, by where the others lie."""
    order = sorted(range(len(others)), key=lambda at: (others[at].x, at))
    step = min(28, max(box.width - 16, 0) // max(len(others), 1))
    return box.x + (2 * order.index(which) - len(others) + 1) * step // 2


def draw_lines(lines):
    down, up = {}, {}
    for line in lines:
        if len(line.way) > 1:
            down.setdefault(line.way[0], []).append(line)
            up.setdefault(line.way[-1], []).append(line)
    for line in lines:
        if line.tail is line.head:
            x, y = line.tail.x + line.tail.width // 2, line.tail.y
            yield (f'<path class="{line.style}" marker-end="url(#{line.style})" '
                   f'd="M{x},{y - 6} C{x + 26},{y - 18} {x + 26},{y + 18} {x + 1},{y + 6}"/>')
            continue
        first, last = line.way[0], line.way[-1]
        x0 = port(first, [other.way[1] for other in down[first]], down[first].index(line))
        x1 = port(last, [other.way[-2] for other in up[last]], up[last].index(line))
        points = [(x0, first.y + first.height // 2)]
        for spot in line.way[1:-1]:
            points += [(spot.x, spot.top), (spot.x, spot.bottom)]
        points.append((x1, last.y - last.height // 2))
        if line.upward:
            points.reverse()
        x, y = points[0]
        path = f"M{x},{y}"
        for (xa, ya), (xb, yb) in zip(points, points[1:]):
            path += f" L{xb},{yb}" if xa == xb else f" C{xa},{(ya + yb) // 2} {xb},{(ya + yb) // 2} {xb},{yb}"
        yield f'<path class="{line.style}" marker-end="url(#{line.style})" d="{path}"/>'


def draw_rows(rows, lines):
    for row in rows:
        tall = max(box.height for box in row)
        for box in row:
            box.top, box.bottom = box.y - tall // 2, box.y + tall // 2
    yield from draw_lines(lines)
    for row in rows:
        for box in row:
            if box.draw:
                yield from box.draw(box)


def picture(title, rows, lines, width, height, notes, style=STYLE):
    width = max([width] + [text_width(note, SMALL) + 2 * MARGIN for note in notes])
    foot = height + MARGIN
    height = foot + 16 * len(notes) + MARGIN // 2
    parts = [f'<svg xmlns="http://www.w3.org/2000/svg" width="{width}" height="{height}" '
             f'viewBox="0 0 {width} {height}" role="img">',
             f"<title>{html.escape(title, quote=False)}</title>", f"<style>{style}</style>", "<defs>"]
    for line, colour in (("line", "#424a53"), ("second", "#bc4c00"), ("offline", "#8c959f")):
        parts.append(f'<marker id="{line}" viewBox="0 0 8 8" refX="8" refY="4" markerWidth="8" markerHeight="8" '
                     f'markerUnits="userSpaceOnUse" orient="auto"><path d="M0,0 L8,4 L0,8 z" fill="{colour}"/></marker>')
    parts += ["</defs>", f'<rect width="{width}" height="{height}" fill="#fff"/>']
    parts += draw_rows(rows, lines)
    for at, note in enumerate(notes):
        parts.append(write_text(MARGIN, foot + 16 * at + 4, note, "small", "start"))
    return "\n".join(parts + ["</svg>"]) + "\n"


# The layers of crates, room by room

def name_in(line):
    """A line's crate: its first word, as behind it may stand what the crate is (`waldimu staticlib: ..`)."""
    return line.partition(":")[0].split()[0]


def read_crates(text):
    """Each crate with those that it uses."""
    crates = {}
    for line in text.splitlines():
        name, colon, uses = line.partition("#")[0].partition(":")
        if colon:
            crates[name_in(name)] = uses.split()
    return crates


def read_rooms(text):
    """Each room with its crates and what it is for: the last comment line above a crate names its room."""
    rooms, heading = {}, ""
    for line in text.splitlines():
        if line.startswith("#"):
            heading = line[1:]
        elif ":" in line:
            room, _, purpose = heading.partition(":")
            crates = rooms.setdefault(room.strip(), (purpose.strip(), []))[1]
            crates.append(name_in(line))
    return rooms


def rooms_below(crates, rooms):
    """Each room with the other rooms that its crates use."""
    room_of = {name: room for room, (_, names) in rooms.items() for name in names}
    below = {}
    for room, (_, names) in rooms.items():
        used = [room_of[used] for name in names for used in crates[name] if used in room_of]
        below[room] = [other for other in dict.fromkeys(used) if other != room]
    return below


def below_all(uses, name):
    """Everything that name uses, straight or through others."""
    seen = set()
    for used in uses[name]:
        seen |= {used} | below_all(uses, used)
    return seen


def lay_out(boxes, uses):
    """Boxes in layers, each above all that it uses, those of a layer equally high.

    What a box also reaches through others has no line.
    """
    lines, height = [], {}
    for name, below in uses.items():
        height[name] = 1 + max([height[used] for used in below], default=-1)
        for used in below:
            if not any(used in below_all(uses, other) for other in below):
                lines.append(Line(boxes[name], boxes[used]))
    for name in uses:
        boxes[name].row = max(height.values()) - height[name]
    rows = rows_of(list(boxes.values()), lines)
    for row in rows:
        tall = max(box.height for box in row)
        for box in row:
            box.height = box.height and tall
    order_rows(rows, lines)
    return (rows, lines) + place(rows, lines)


def crate_box(name, kit):
    width = max(text_width(name, FONT) + 24, text_width(kit, SMALL) + 24, 96)

    def draw(box):
        yield rectangle(box.x - width // 2, box.y - box.height // 2, width, box.height, "box")
        yield write_text(box.x, box.y - 3 if kit else box.y + 5, name)
        if kit:
            yield write_text(box.x, box.y + 14, kit, "small")

    return Box(width, 44 if kit else 28, draw)


def room_box(room, purpose, names, crates):
    """A room's name, what it is for, and below that its crates in their layers."""
    boxes, uses = {}, {}
    for name in names:
        kit = [used for used in crates[name] if used not in crates]
        boxes[name] = crate_box(name, "kit: " + " ".join(kit) if kit else "")
        uses[name] = [used for used in crates[name] if used in names]
    rows, lines, width, tall = lay_out(boxes, uses)
    head = [room] + folded(purpose, width - 2 * MARGIN, SMALL)

    def draw(box):
        left, top = box.x - width // 2, box.y - box.height // 2
        yield rectangle(left, top, width, box.height, "room", 8)
        for at, words in enumerate(head):
            yield write_text(left + MARGIN, top + 20 + 15 * at, words, "small" if at else "name", "start")
        for spot in [spot for row in rows for spot in row]:
            spot.x += left
            spot.y += top + 15 * len(head)
        yield from draw_rows(rows, lines)

    return Box(width, 15 * len(head) + tall + MARGIN, draw)


def layers():
    text = (ROOT / "crates.txt").read_text()
    crates, rooms = read_crates(text), read_rooms(text)
    boxes = {room: room_box(room, purpose, names, crates) for room, (purpose, names) in rooms.items()}
    rows, lines, width, tall = lay_out(boxes, rooms_below(crates, rooms))
    return picture("The crates in rooms and layers", rows, lines, width, tall, [
        "An arrow leads from a crate to one that it uses, in its room, and from a room to one whose crates it uses.",
        "What is also reached through others has no arrow."], STYLE + ROOM_STYLE)


# The flow graph of a script

def read_columns(text):
    columns = {}
    for line in text.splitlines():
        name, colon, cells = line.partition(":")
        if colon:
            columns[name.strip()] = [int(cell) for cell in re.findall(r"\d+", cells)]
    missing = [name for name in COLUMNS if name not in columns]
    if missing:
        sys.exit("no column of the name " + ", ".join(missing))
    return columns


def node_box(number, words, note, style):
    """The node's number, its code or name, and a note behind it."""
    left = text_width(str(number), SMALL) + 12
    middle = text_width(words, FONT) + 16 if words else 0
    right = text_width(note, SMALL) + 8 if note else 0
    width, height = max(left + middle + right, 48), 26
    left = left if words else width
    lettering = "offtext" if style == "off" else ""

    def draw(box):
        x, y = box.x - width // 2, box.y - height // 2
        yield rectangle(x, y, width, height, style)
        if words:
            yield rectangle(x + 1, y + 1, left - 2, height - 2, "number", 4)
        yield write_text(x + left // 2, box.y + 4, str(number), "small")
        if words:
            yield write_text(x + left + 8, box.y + 5, words, lettering, "start")
        if note:
            yield write_text(x + width - 8, box.y + 4, note, "small", "end")

    return Box(width, height, draw)


def graph_boxes(columns, script):
    words = {}
    for span, node in zip(columns["code span"], columns["code node"]):
        start, end = span % 2**32, span >> 32
        text = cut(script[start:end], 34)
        line = f"line {script.count(chr(10), 0, start) + 1}"
        before = words.get(node)
        words[node] = (f"{before[0]} / {text}", before[1]) if before else (text, line)
    boxes = []
    for node, reached in enumerate(columns["reachable"]):
        text, note = words.get(node, ("", ""))
        style = "box"
        if node < len(EXITS):
            text, style = "exit " + EXITS[node], "exit"
        if node == ENTRY:
            text = "entry"
        if not reached:
            style = "off"
            note = f"{note}, unreachable" if note else note
        boxes.append(node_box(node, text, note, style))
    return boxes


def graph_lines(columns, boxes):
    lines = []
    for column, style in (("first", "line"), ("second", "second")):
        for node, target in enumerate(columns[column]):
            if target != ABSENT:
                reached = columns["reachable"][node]
                lines.append(Line(boxes[node], boxes[target], style if reached else "offline"))
    return lines


def below_the_code_before(columns, boxes, lines):
    """A node that nothing leads to is laid below the code before it; these lines are not drawn."""
    led_to = {line.head for line in lines}
    nodes = columns["code node"]
    return [Line(boxes[before], boxes[node]) for before, node in zip(nodes, nodes[1:])
            if boxes[node] not in led_to]


def append_apart(rows, boxes, width, tall):
    """Boxes without lines stand in a row of their own below the others."""
    x = MARGIN
    for box in boxes:
        box.x, box.y = x + box.width // 2, tall + ROW_GAP // 2 + box.height // 2
        x += box.width + BOX_GAP
    if not boxes:
        return width, tall
    rows.append(boxes)
    return max(width, x - BOX_GAP + MARGIN), tall + ROW_GAP // 2 + boxes[0].height


def graph(name):
    columns = read_columns((HERE / f"{name}.columns").read_text())
    script = (ROOT / "examples" / name / "script.lua").read_bytes().decode("ascii")
    boxes = graph_boxes(columns, script)
    lines = graph_lines(columns, boxes)
    unseen = below_the_code_before(columns, boxes, lines)
    upward_lines(boxes, lines + unseen, [boxes[ENTRY]])
    rows_from_top(lines + unseen)
    last = max(box.row for box in boxes[len(EXITS):]) + 1
    for box in boxes[:len(EXITS)]:
        box.row = last
    joined = {box for line in lines + unseen for box in (line.tail, line.head)}
    rows = rows_of([box for box in boxes if box in joined], lines + unseen)
    order_rows(rows, lines + unseen)
    width, tall = place(rows, lines + unseen)
    width, tall = append_apart(rows, [box for box in boxes if box not in joined], width, tall)
    return picture(f"The flow graph of examples/{name}/script.lua", rows, lines, width, tall, [
        "Node number, code, line of the script. Nodes without code are bare numbers.",
        "Dark lines lead to the first successor, orange ones to the second.",
        "Dashed boxes and lines are unreachable: no path from the entry leads there."])


def main():
    pictures = {"layers.svg": layers()}
    for columns in sorted(HERE.glob("*.columns")):
        pictures[columns.stem + ".svg"] = graph(columns.stem)
    for name, drawn in pictures.items():
        path = HERE / name
        if sys.argv[1:] == ["--check"]:
            if not path.is_file() or path.read_text() != drawn:
                sys.exit(f"docs/pictures/{name} is out of date: run docs/pictures/draw.py")
        else:
            path.write_text(drawn)
    if sys.argv[1:] == ["--check"]:
        print(f"docs/pictures: {len(pictures)} pictures are up to date")


if __name__ == "__main__":
    main()
