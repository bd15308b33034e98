#!/usr/bin/env python3
"""Runs the longest tools on a session with the proved program `cases_session`, and prints what they take.

Usage, from the top of the checkout, after `rt ci` has built the programs of cases:
    python3 bench/tools.py
A library of 10,000 objects, 5,000 books and 4,999 authors, has one tool that makes 10,000 edits: it gives each book a title and each author a name in two
`for` loops, and then sets the library's name. A second tool asks for one edit more, and is refused. Wanted are at most 10 seconds for each run of the program,
with reading its files, the picture and the model after it; what passes that is marked by `!`.
"""
import json, os, tempfile
from costs import TOP, run
from draw import marked, put

PROGRAM = os.path.join(TOP, "crates/cases_session/out/cases_session")
METAMODEL = os.path.join(TOP, "crates/cases_session/data/library.metamodel.json")
BOOKS, AUTHORS, EDITS, MOST_SECONDS = 5000, 4999, 10000, 10


def library():
    """Library 1 with books 2 to 5,001 and authors 5,002 to 10,000."""
    books = list(range(2, BOOKS + 2))
    authors = list(range(BOOKS + 2, BOOKS + AUTHORS + 2))
    objects = [{"class": "Library", "id": 1, "slots": {"authors": authors, "books": books}}]
    objects += [{"class": "Book", "id": n, "slots": {}} for n in books] + [{"class": "Author", "id": n, "slots": {}} for n in authors]
    return {"next": len(objects) + 1, "objects": objects, "roots": [1]}


def tool(name, more):
    """A tool that edits each book and each author once, and the library so often."""
    each = lambda items, feature: {"op": "for", "items": items, "iterator": "x", "do": [
        {"op": "set", "feature": feature, "value": "aql:'n'"}]}
    return {"name": name, "kind": "node_creation", "do": [each("aql:container.books", "title"), each("aql:container.authors", "name")]
            + [{"op": "set", "feature": "name", "value": "aql:'n'"}] * more}


def viewpoint():
    left = EDITS - BOOKS - AUTHORS
    return {"viewpoint": "Tools", "diagram": {"name": "Map", "domain": "Library", "layers": [{"name": "Base"}], "top": ["Member"], "mappings": [
        {"name": "Member", "kind": "node", "domain": "Member", "candidates": "feature:members", "style": {"shape": "square", "color": "white", "label": "feature:name"}}],
        "tools": [tool("Whole", left), tool("OneMore", left + 1)]}}


def case(steps):
    return [{"name": "bench", "shows": "", "metamodel": ["metamodel"], "viewpoint": ["view"], "model": ["model"], "steps": steps}]


def command(name):
    return {"command": {"command": "tool", "tool": name, "arguments": {"container": None}, "revision": 0}}


def main():
    with tempfile.TemporaryDirectory() as folder:
        put(folder, "view", viewpoint())
        put(folder, "model", library())
        with open(METAMODEL, encoding="utf-8") as file, open(os.path.join(folder, "metamodel"), "w", encoding="utf-8") as to:
            to.write(file.read())
        os.chdir(folder)
        print("| Run | Status and reply | Seconds | Megabytes |\n|---|---|---|---|")
        for name, steps in (("opening alone", []), ("10,000 edits", [command("Whole")]), ("10,001 edits", [command("OneMore")])):
            put(folder, "steps", case(steps))
            out = os.path.join(folder, "out")
            status, seconds, megabytes = run([PROGRAM, "steps"], out)
            with open(out, encoding="utf-8") as file:
                reply = file.read().split("\n")[1].split(" ")[:2] if steps else []
            print(f"| {name} | {status} {' '.join(reply)} | {marked(seconds, MOST_SECONDS, '.1f')} | {megabytes:.0f} |", flush=True)


if __name__ == "__main__":
    main()
