#!/usr/bin/env python3
"""Reads, writes and edits libraries of 2,000 and 20,000 objects with a proved program, and prints what each run costs.

Usage, from the top of the checkout, after `rt ci` has built the program of `cases_models`:
    python3 bench/models.py
A library has books, authors, members, and loans with a book and a member each. Instructions are counted with valgrind's callgrind where it
is installed; seconds are those of one run. What `write` and `set` cost beyond reading is the difference to `read`.
"""
import json, os, tempfile
from costs import TOP, cost, run

PROGRAM = os.path.join(TOP, "crates/cases_models/out/cases_models")
METAMODEL = os.path.join(TOP, "crates/cases_models/data/library.metamodel.json")


def numbers_of(count):
    """The numbers of the objects behind the first, by kind: of twenty, one is an author, six are books, four are members and nine are loans."""
    kinds = ["Author"] + ["Book"] * 6 + ["Member"] * 4 + ["Loan"] * 9
    return {kind: [number for number in range(2, count + 1) if kinds[number % 20] == kind] for kind in set(kinds)}


def library(count):
    objects = {1: {"class": "Library", "id": 1, "slots": {"name": "City"}}}
    numbers = numbers_of(count)
    for kind, of_kind in numbers.items():
        objects[1]["slots"][kind.lower() + "s"] = of_kind
        for number in of_kind:
            objects[number] = {"class": kind, "id": number, "slots": {}}
    for place, book in enumerate(numbers["Book"]):
        objects[book]["slots"]["title"] = f"Book {book}"
        link(objects, book, "author", numbers["Author"][place % len(numbers["Author"])], "books")
    for place, loan in enumerate(numbers["Loan"]):
        link(objects, loan, "book", numbers["Book"][place * 7919 % len(numbers["Book"])], "loans")
        link(objects, loan, "member", numbers["Member"][place * 104729 % len(numbers["Member"])], "loans")
    for number in numbers["Author"] + numbers["Member"]:
        objects[number]["slots"]["name"] = f"Name {number}"
    return {"next": count + 1, "objects": [objects[number] for number in sorted(objects)], "roots": [1]}


def link(objects, one, feature, other, back):
    objects[one]["slots"][feature] = other
    objects[other]["slots"].setdefault(back, []).append(one)


def scripts(count):
    """What is asked: nothing but the reading, the text, a thousand edits of the books of loans."""
    loans, books = numbers_of(count)["Loan"], numbers_of(count)["Book"]
    edits = [f"set {loans[number * 7919 % len(loans)]} Loan.book @{books[number * 104729 % len(books)]}" for number in range(1000)]
    return {"read": "", "write": "write", "set": "\n".join(edits)}


def main():
    first = {}
    with tempfile.TemporaryDirectory() as folder:
        for count in (2000, 20000):
            path = os.path.join(folder, f"{count}.json")
            with open(path, "w") as file:
                json.dump(library(count), file, separators=(",", ":"))
            for task, script in scripts(count).items():
                asked = os.path.join(folder, task)
                with open(asked, "w") as file:
                    file.write(script)
                words = [PROGRAM, METAMODEL, path, asked]
                done = run(words)
                value, unit = cost(words, folder)
                first.setdefault(task, value)
                print(f"{count:6} objects, {task:5}: status {done.status}, {done.seconds:.2f} s, {value:,} {unit}, {value / first[task]:.1f} times the first", flush=True)


if __name__ == "__main__":
    main()
