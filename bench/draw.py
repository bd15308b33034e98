#!/usr/bin/env python3
"""Draws libraries of 2,000 and 20,000 objects with the proved program, and diagrams near the limits and of a tenth of that, and prints what each costs.

Usage, from the top of the checkout, after `(cd crates/workbench && rt run)` has built the program:
    python3 bench/draw.py [WORDS OF A NAME]
Wanted are at most twelve times the instructions for ten times as much, 5 seconds and 1,000 megabytes; what passes that is marked by `!`.
"""
import json, os, sys, tempfile
from costs import TOP, cost, run
from models import METAMODEL, library, link

PROGRAM = os.path.join(TOP, "crates/workbench/out/workbench")
MOST_TIMES, MOST_SECONDS, MOST_MEGABYTES = 12, 5, 1000


# ---- models

def counted(**counts):
    """A library of so many authors, books and so on."""
    objects, number = {1: {"class": "Library", "id": 1, "slots": {}}}, 2
    for name, count in counts.items():
        objects[1]["slots"][name] = list(range(number, number + count))
        for o in objects[1]["slots"][name]:
            objects[o] = {"class": name[:-1].capitalize(), "id": o, "slots": {"title" if name == "books" else "name": f"{name[:-1]} {o}"}}
        number += count
    return objects


def file_of(objects):
    return {"next": len(objects) + 1, "objects": [objects[number] for number in sorted(objects)], "roots": [1]}


def books(count):
    return file_of(counted(books=count - 1))


def shelves(count):
    """Four books to an author."""
    authors = count // 5
    objects = counted(authors=authors, books=count - 1 - authors)
    for place, book in enumerate(objects[1]["slots"]["books"]):
        objects[book]["slots"]["pages"] = 100 + place % 400
        link(objects, book, "author", 2 + place % authors, "books")
    return file_of(objects)


def pairs(count):
    """Each book has an author of its own."""
    objects = counted(authors=(count - 1) // 2, books=(count - 1) // 2)
    for author, book in zip(objects[1]["slots"]["authors"], objects[1]["slots"]["books"]):
        link(objects, book, "author", author, "books")
    return file_of(objects)


def few_authors(count):
    return file_of(counted(authors=10, books=count - 11))


# ---- viewpoints

def style(label=None, color="white"):
    return {"shape": "box", "color": color, **({"label": label} if label else {})}


def node(name, domain, candidates, label=None, kind="node", **members):
    return {"name": name, "kind": kind, "domain": domain, "candidates": candidates, "style": style(label), **members}


def edge(name, sources, targets, finder):
    return {"name": name, "kind": "edge", "sources": [sources], "targets": [targets], "targetFinder": finder, "style": style()}


def viewpoint(top, *mappings):
    return {"viewpoint": "V", "diagram": {"name": "D", "domain": "Library", "layers": [{"name": "Base"}], "top": top.split(), "mappings": list(mappings)}}


def city():
    with open(os.path.join(TOP, "examples/library/viewpoint.json"), encoding="utf-8") as file:
        return json.load(file)


BOOK, AUTHOR = node("Book", "Book", "feature:books"), node("Author", "Author", "feature:authors")
SHELVES = viewpoint(
    "Book Author",
    node("Book", "Book", "feature:books", "feature:title", borders=["By"], styles=[{"when": "aql:self.pages > 300", "style": style("feature:title", "red")}]),
    node("By", "Author", "feature:author", "feature:name", kind="border"),
    node("Author", "Author", "feature:authors", "feature:name", kind="container", children=["Work"]),
    node("Work", "Book", "feature:books", "feature:title"))
STYLED = viewpoint("Book", {**BOOK, "style": style("feature:title"), "styles": [{"when": "aql:false", "style": style()}] * 9})

# what is drawn: the viewpoint, the model of so many objects, and how many
TASKS = {
    "books on top": (viewpoint("Book", node("Book", "Book", "feature:books", "feature:title")), books, (2000, 20000)),
    "books with borders and styles, authors with works": (SHELVES, shelves, (2000, 20000)),
    "a city library with loans as edges": (city(), library, (2000, 20000)),
    "units up to the limit, nine styles a book": (STYLED, books, (1000, 10000)),
    "an edge from each book to its author": (viewpoint("Book Author", BOOK, AUTHOR, edge("By", "Book", "Author", "feature:author")), pairs, (1999, 19999)),
    "edges up to the limit, ten authors with each book": (viewpoint("Book Author", BOOK, AUTHOR, edge("All", "Author", "Book", "aql:self.eContainer().books")),
                                                         few_authors, (920, 9101)),
}


def put(folder, name, value):
    path = os.path.join(folder, name)
    with open(path, "w") as file:
        json.dump(value, file, separators=(",", ":"))
    return path


def shown(path):
    """How many elements and edges were drawn, or what was printed in their place."""
    with open(path, encoding="utf-8") as file:
        text = file.read()
    if not text.startswith("{"):
        return text.strip()
    picture = json.loads(text)
    return f"{len(picture['elements']):,} elements, {len(picture['edges']):,} edges"


def marked(value, most, form):
    return format(value, form) + ("!" if value > most else "")


def main():
    print("| What is drawn | Objects | Drawn | Instructions | Times | Seconds | Megabytes |\n|---|---|---|---|---|---|---|")
    with tempfile.TemporaryDirectory() as folder:
        for name, (view, model, sizes) in TASKS.items():
            if not all(word in name for word in sys.argv[1:]):
                continue
            before = None
            for count in sizes:
                words = [PROGRAM, "draw", METAMODEL, put(folder, "view", view), put(folder, "model", model(count))]
                out = os.path.join(folder, "out")
                status, seconds, megabytes = run(words, out)
                value, unit = cost(words, folder)
                times = marked(value / before, MOST_TIMES, ".1f") if before else ""
                before = before or value
                print(f"| {name} | {count:,} | {shown(out)}{f', status {status}' if status else ''} | {value:,.{0 if unit == 'instructions' else 2}f}{'' if unit == 'instructions' else ' s'} | {times} | "
                      f"{marked(seconds, MOST_SECONDS, '.2f')} | {marked(megabytes, MOST_MEGABYTES, '.0f')} |", flush=True)


if __name__ == "__main__":
    main()
