#!/usr/bin/env python3
"""Makes a picture, as SVG, of a diagram that Workbench prints.

    workbench draw META SPEC MODEL | python3 examples/picture.py --viewpoint SPEC > picture.svg
    python3 examples/picture.py [--viewpoint SPEC] [DIAGRAM] > picture.svg

A diagram tells no kinds: they are those of the mappings of the viewpoint. Without it an element with others in it is a list where all of
these have the shape `item`, else a container, and nothing stands on a border.

Positions count from the place where the content of the parent begins. What has none is laid in rows, mapping by mapping, below what has one;
of up to six mappings those with edges between them stand near each other. An element is filled with a tint of its colour, an edge drawn in it; a name that is no colour of SVG gives gray. The shapes
`ellipse`, `circle`, `diamond` and `round` of nodes, and `dashed` and `dotted` of edges, are drawn as they say, every other one as a rectangle or a line.
"""
import argparse
import collections
import itertools
import json
import math
import re
import sys
import unicodedata
from xml.sax.saxutils import escape

MARGIN, GAP, WIDE_GAP, BETWEEN_BANDS, PADDING = 24, 16, 60, 40, 10
LINE, HEADER, ITEM, BORDER, BORDER_LABEL = 15, 24, 20, 18, 70
# an element that has a position leaves room for the next of a grid of 120 by 80
PLACED, FREE = 104, 168


# ---- texts

def width_of(text):
    """About what a text takes in a sans-serif font of 12 pixels."""
    return sum(12 if unicodedata.east_asian_width(c) in "WF" else 4 if c in " .,:;'|!ijl()[]" else 10 if c in "MWmw@" else 7 for c in text)


def bold_width_of(text):
    return width_of(text) * 1.15


def fitted(text, room):
    """The text, or its beginning and dots."""
    text = " ".join(text.split())
    if width_of(text) <= room:
        return text
    while text and width_of(text) > room - 9:
        text = text[:-1]
    return text.rstrip() + "\u2026"


def in_lines(text, room, most=3):
    """The words in at most three lines."""
    lines, words = [], text.split()
    while words and len(lines) < most - 1:
        line = [words.pop(0)]
        while words and width_of(" ".join([*line, words[0]])) <= room:
            line.append(words.pop(0))
        lines.append(" ".join(line))
    return [fitted(line, room) for line in [*lines, " ".join(words)] if line]


def spelled(text):
    """A text for XML, which has no control characters."""
    return escape(re.sub("[^\t\n\r\x20-\ud7ff\ue000-\ufffd\U00010000-\U0010ffff]", "\ufffd", text), {'"': "&quot;"})


# ---- elements and their places

class Box:
    """An element with its place and size; x and y count from the content of its parent, and once all is laid from the picture's corner."""

    def __init__(self, element, kind):
        self.element, self.kind, self.key = element, kind, element["key"]
        self.inner, self.on_border = [], []
        self.x, self.y, self.width, self.height, self.lines = 0, 0, 0, 0, []

    def center(self):
        return self.x + self.width / 2, self.y + self.height / 2

    def holds(self, x, y):
        return self.x <= x <= self.x + self.width and self.y <= y <= self.y + self.height


def kinds_by_key(diagram, viewpoint):
    """The kind of each element. The number of its mapping is the last but one in its key."""
    elements = {element["key"]: element for element in diagram["elements"]}
    if viewpoint:
        mappings = viewpoint["diagram"]["mappings"]
        kinds = {key: mappings[int(re.split("[-.]", key)[-2])]["kind"] for key in elements}
    else:
        shapes = {}
        for element in elements.values():
            shapes.setdefault(element["parent"], set()).add(element["shape"])
        kinds = {key: "node" if key not in shapes else "list" if shapes[key] == {"item"} else "container" for key in elements}
    for key, element in elements.items():
        if kinds.get(element["parent"]) == "list" and kinds[key] != "border":
            kinds[key] = "item"
    return kinds


def boxes_of(diagram, viewpoint):
    """All boxes by their keys, each below its parent, and those on top."""
    kinds = kinds_by_key(diagram, viewpoint)
    boxes = {element["key"]: Box(element, kinds[element["key"]]) for element in diagram["elements"]}
    for box in boxes.values():
        if box.element["parent"] is not None:
            parent = boxes[box.element["parent"]]
            (parent.on_border if box.kind == "border" else parent.inner).append(box)
    return boxes, [box for box in boxes.values() if box.element["parent"] is None]


def measure(box, ties):
    """The size of a box, and the places of those in it and on its border."""
    for other in [*box.inner, *box.on_border]:
        measure(other, ties)
    label, most = box.element["label"], PLACED if box.element["position"] else FREE
    if box.kind == "border":
        box.width = box.height = BORDER
    elif box.kind == "container":
        box.lines = [fitted(label, 400)]
        right, bottom = lay(box.inner, GAP, ties)
        box.width = max(90, bold_width_of(box.lines[0]) + 2 * PADDING, right + 2 * PADDING)
        box.height = HEADER + max(30, bottom + 2 * PADDING)
    elif box.kind == "list":
        widths = [bold_width_of(label), *(width_of(item.element["label"]) for item in box.inner)]
        box.width = min(most, max(90, *(width + 2 * PADDING for width in widths)))
        box.lines = [fitted(label, (box.width - 2 * PADDING) / 1.15)]
        box.height = HEADER + max(10, ITEM * len(box.inner)) + 4
        for place, item in enumerate(box.inner):
            item.x, item.y, item.width, item.height = 0, HEADER + place * ITEM, box.width, ITEM
            item.lines = [fitted(item.element["label"], box.width - 2 * PADDING)]
    elif box.kind == "node":
        is_wide = box.element["shape"] in ("ellipse", "circle", "diamond")
        room = PLACED - (36 if is_wide else 16)
        box.lines = in_lines(label, room)
        box.width = max(64, max(map(width_of, box.lines), default=0) + PLACED - room)
        box.height = max(40, LINE * len(box.lines) + (26 if is_wide else 16))
        if box.element["shape"] == "circle":
            box.width = box.height = min(80, max(box.width, box.height))
    stand_on_border(box)


def stand_on_border(box):
    """Those on the border stand where it is nearest to their positions, and else one below the other at the right."""
    for place, other in enumerate(box.on_border):
        x, y = other.element["position"] or (box.width, 12 + place * (BORDER + 6))
        x, y = min(max(x, 0), box.width), min(max(y, 0), box.height)
        ways = {(0, y): x, (box.width, y): box.width - x, (x, 0): y, (x, box.height): box.height - y}
        x, y = min(ways, key=ways.get)
        other.x, other.y = x - BORDER / 2, y - BORDER / 2


def lay(boxes, between, ties):
    """Places boxes beside each other; gives how far they reach to the right and down. None is left of or above 0."""
    placed = [box for box in boxes if box.element["position"]]
    for box in placed:
        box.x, box.y = box.element["position"]
    left, top = min([0, *(box.x for box in placed)]), min([0, *(box.y for box in placed)])
    for box in placed:
        box.x, box.y = box.x - left, box.y - top
    bottom = max((box.y + box.height for box in placed), default=-between)
    free = [box for box in boxes if not box.element["position"]]
    most = max(560, 1.6 * math.sqrt(sum((box.width + GAP) * (box.height + GAP) for box in free)))
    for mapping, band in bands(free, ties):
        bottom = lay_in_rows(band, bottom + between, most, WIDE_GAP if ties[mapping, mapping] else GAP)
    return max((box.x + reach_of(box) for box in boxes), default=0), max(bottom, 0)


def reach_of(box):
    """Its width with what stands on its right border."""
    return box.width + (BORDER / 2 + BORDER_LABEL if box.on_border else 0)


def bands(boxes, ties):
    """The boxes of each mapping, in the order of their first, or in that in which the ties are shortest."""
    found = {}
    for box in boxes:
        found.setdefault(mapping_of(box.key.split("-")[-1]), []).append(box)
    orders = itertools.permutations(found) if len(found) <= 6 else [tuple(found)]
    length = lambda order: sum(times * abs(order.index(one) - order.index(other)) for (one, other), times in ties.items() if one in order and other in order)
    return [(mapping, found[mapping]) for mapping in min(orders, key=length)]


def mapping_of(pair):
    return pair.split(".")[0]


def ties_of(edges):
    """How many edges lead from one mapping to another, counted for the two elements under one parent that hold their ends."""
    found = collections.Counter()
    for edge in edges:
        for one, other in zip(edge["source"].split("-"), edge["target"].split("-")):
            if one != other:
                found[mapping_of(one), mapping_of(other)] += 1
                break
    return found


def lay_in_rows(boxes, y, most, gap):
    """From left to right, in a further row where one is full; gives where the last ends."""
    x, bottom = 0, y
    for box in boxes:
        if x > 0 and x + box.width > most:
            x, y = 0, bottom + GAP
        box.x, box.y = x, y
        x, bottom = x + reach_of(box) + gap, max(bottom, y + box.height)
    return bottom


def settle(boxes, x, y):
    """Counts all places from the corner of the picture."""
    for box in boxes:
        box.x, box.y = box.x + x, box.y + y
        inset = (PADDING, HEADER + PADDING) if box.kind == "container" else (0, 0)
        settle(box.inner, box.x + inset[0], box.y + inset[1])
        settle(box.on_border, box.x, box.y)


# ---- edges

def exit_of(box, x, y):
    """Where a line from the middle of a box towards a point leaves it; an item of a list is left at its sides."""
    a, b = box.center()
    dx, dy = x - a, y - b
    if box.kind == "item":
        return (box.x + box.width if dx > 0 else box.x), b
    if (dx, dy) == (0, 0):
        return a, box.y
    if box.element["shape"] in ("ellipse", "circle"):
        reach = 1 / math.hypot(dx / (box.width / 2), dy / (box.height / 2))
    elif box.element["shape"] == "diamond":
        reach = 1 / (abs(dx) / (box.width / 2) + abs(dy) / (box.height / 2))
    else:
        reach = 1 / max(abs(dx) / (box.width / 2), abs(dy) / (box.height / 2))
    return a + dx * reach, b + dy * reach


def line_of(source, target, bend):
    """The beginning, the middle that the line bends towards, and the end of an edge."""
    (a, b), (c, d) = source.center(), target.center()
    if source is target:
        bottom = source.y + source.height
        return (a - 8, bottom), (a, bottom + 50), (a + 8, bottom)
    length = math.hypot(c - a, d - b) or 1
    sign = 1 if source.key <= target.key else -1
    middle = ((a + c) / 2 - sign * bend * (d - b) / length, (b + d) / 2 + sign * bend * (c - a) / length)
    if target.holds(a, b):
        end = exit_of(target, *middle)
        return exit_of(source, *end), ((a + end[0]) / 2, (b + end[1]) / 2), end
    return exit_of(source, *middle), middle, exit_of(target, *middle)


def bends(edges):
    """How far each edge bends aside, so that those between the same two elements are told apart."""
    groups = {}
    for number, edge in enumerate(edges):
        groups.setdefault(tuple(sorted((edge["source"], edge["target"]))), []).append(number)
    found = {number: 36 * (place - (len(group) - 1) / 2) for group in groups.values() for place, number in enumerate(group)}
    return [found[number] for number in range(len(edges))]


# ---- the text of the picture

def number(value):
    return f"{value:.1f}".rstrip("0").rstrip(".")


def points(*pairs):
    return " ".join(f"{number(x)},{number(y)}" for x, y in pairs)


def tint(color):
    """Where the name is no colour, the first of the two counts."""
    return f"fill:gray;fill:{color};fill-opacity:0.3"


def outline(box):
    x, y, width, height = (number(value) for value in (box.x, box.y, box.width, box.height))
    a, b = box.center()
    shape = box.element["shape"]
    if box.kind == "node" and shape in ("ellipse", "circle"):
        return f'<ellipse cx="{number(a)}" cy="{number(b)}" rx="{number(box.width / 2)}" ry="{number(box.height / 2)}"'
    if box.kind == "node" and shape == "diamond":
        return f'<polygon points="{points((a, box.y), (box.x + box.width, b), (a, box.y + box.height), (box.x, b))}"'
    return f'<rect x="{x}" y="{y}" width="{width}" height="{height}" rx="{10 if box.kind == "node" and shape == "round" else 2}"'


def text_at(x, y, text, more=""):
    return f'<text x="{number(x)}" y="{number(y)}"{more}>{spelled(text)}</text>'


def shape_of(box):
    """A box with its label, without those in it. Under the tint it is white."""
    color, name = box.element["color"], spelled(f"{box.element['mapping']} {box.key}: {box.element['label']}")
    yield f'<g><title>{name}</title>'
    if box.kind == "item":
        yield f'{outline(box)} style="{tint(color)}"/>' if color != "white" else f'{outline(box)} fill="white" fill-opacity="0"/>'
    else:
        yield f'{outline(box)} fill="white"/>{outline(box)} stroke="#333" style="{tint(color)}"/>'
    if box.kind in ("container", "list"):
        yield f'<path d="M{number(box.x)} {number(box.y + HEADER)}h{number(box.width)}" stroke="#333"/>'
        yield f'<rect x="{number(box.x + 0.5)}" y="{number(box.y + HEADER + 0.5)}" width="{number(box.width - 1)}" height="{number(box.height - HEADER - 1)}" fill="white" fill-opacity="0.6"/>'
        yield text_at(box.x + box.width / 2, box.y + HEADER / 2 + 4, box.lines[0], ' text-anchor="middle" font-weight="bold"')
    elif box.kind == "item":
        yield text_at(box.x + PADDING, box.y + ITEM / 2 + 4, box.lines[0])
    elif box.kind == "border":
        yield text_at(box.x + BORDER + 3, box.y + BORDER / 2 + 3, fitted(box.element["label"], BORDER_LABEL - 6), ' font-size="10" class="halo"')
    for place, line in enumerate(box.lines if box.kind == "node" else []):
        x, y = box.center()
        yield text_at(x, y + 4 + LINE * (place - (len(box.lines) - 1) / 2), line, ' text-anchor="middle"')
    yield "</g>"


def below(boxes):
    for box in boxes:
        yield box
        yield from below(box.inner)


def holding_ends(edges):
    """The keys of what lies around an end of an edge: edges are drawn over these, and under all else."""
    ends = {tuple(edge[end].split("-")) for edge in edges for end in ("source", "target")}
    return {"-".join(pairs[:n]) for pairs in ends for n in range(1, len(pairs))}


def arrow(start, end):
    """The head of an edge at its end."""
    angle = math.atan2(end[1] - start[1], end[0] - start[0])
    back = lambda turn: (end[0] - 9 * math.cos(angle + turn), end[1] - 9 * math.sin(angle + turn))
    return points(end, back(0.4), back(-0.4))


def edge_lines(edge, start, middle, end):
    color, dashes = edge["color"], {"dashed": ' stroke-dasharray="6 4"', "dotted": ' stroke-dasharray="2 3"'}.get(edge["shape"], "")
    yield f'<g><title>{spelled(edge["mapping"] + " " + edge["key"] + ": " + edge["label"])}</title>'
    yield f'<path d="M{points(start)} Q{points(middle, end)}" fill="none" style="stroke:gray;stroke:{color}"{dashes}/>'
    yield f'<polygon points="{arrow(middle, end)}" style="fill:gray;fill:{color}"/></g>'


def edge_label(edge, start, middle, end):
    x, y = ((start[n] + 2 * middle[n] + end[n]) / 4 for n in (0, 1))
    return text_at(x, y + 4, fitted(edge["label"], 140), ' text-anchor="middle" font-size="11" class="halo"')


def notes(diagram):
    """What is switched on, and the first problems."""
    yield f"revision {diagram['revision']}" + "".join(f", {name} {' '.join(diagram[name])}" for name in ("layers", "filters") if diagram[name])
    for problem in diagram["problems"][:5]:
        yield f"{problem['at']}: {problem['fault']}"
    if len(diagram["problems"]) > 5:
        yield f"and {len(diagram['problems']) - 5} problems more"


def picture(diagram, viewpoint=None):
    boxes, top = boxes_of(diagram, viewpoint)
    ties = ties_of(diagram["edges"])
    for box in top:
        measure(box, ties)
    lay(top, BETWEEN_BANDS, ties)
    settle(top, 0, 0)
    edges = [(edge, *line_of(boxes[edge["source"]], boxes[edge["target"]], bend)) for edge, bend in zip(diagram["edges"], bends(diagram["edges"]))]
    around = holding_ends(diagram["edges"])
    all_boxes = list(below(top))
    is_under = lambda box: box.key in around or box.kind == "item" and box.element["parent"] in around
    flat = [box for box in all_boxes if is_under(box)]
    upper = [box for box in all_boxes if not is_under(box)] + [other for box in all_boxes for other in below(box.on_border)]
    right = max([200, *(box.x + box.width + (BORDER_LABEL if box.kind == "border" else 0) for box in [*flat, *upper])])
    bottom = max([0, *(box.y + box.height for box in [*flat, *upper])])
    told = list(notes(diagram))
    width, height = right + 2 * MARGIN, bottom + 2 * MARGIN + LINE * (len(told) + 1)
    yield (f'<svg xmlns="http://www.w3.org/2000/svg" viewBox="{number(-MARGIN)} {number(-MARGIN)} {number(width)} {number(height)}" width="{number(width)}" '
           f'height="{number(height)}" font-family="DejaVu Sans, Helvetica, Arial, sans-serif" font-size="12" fill="#111">')
    yield "<style>.halo{paint-order:stroke;stroke:#fafafa;stroke-width:3px}</style>"
    yield f'<rect x="{number(-MARGIN)}" y="{number(-MARGIN)}" width="{number(width)}" height="{number(height)}" fill="#fafafa"/>'
    for box in flat:
        yield from shape_of(box)
    for edge in edges:
        yield from edge_lines(*edge)
    for box in upper:
        yield from shape_of(box)
    yield from (edge_label(*edge) for edge in edges if edge[0]["label"])
    for place, note in enumerate(told):
        yield text_at(0, bottom + 2 * LINE + LINE * place, note, f' font-size="10" fill="{"#666" if place == 0 else "#b00"}"')
    yield "</svg>"


def loaded(name):
    with open(name, encoding="utf-8") as file:
        return json.load(file)


def main():
    words = argparse.ArgumentParser(description="Makes a picture, as SVG, of a diagram.")
    words.add_argument("diagram", nargs="?", help="the file of a diagram; without it, the standard input")
    words.add_argument("--viewpoint", help="the viewpoint, which tells the kinds of elements")
    words = words.parse_args()
    diagram = loaded(words.diagram) if words.diagram else json.load(sys.stdin)
    sys.stdout.reconfigure(encoding="utf-8")
    print("\n".join(picture(diagram, loaded(words.viewpoint) if words.viewpoint else None)))


if __name__ == "__main__":
    main()
