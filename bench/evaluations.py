#!/usr/bin/env python3
"""Evaluates expressions over libraries of 100, 1,000 and 10,000 books with a proved program, and prints what each costs.

Usage, from the top of the checkout, after `(cd crates/cases_evaluation && rt run)` has built the program:
    python3 bench/evaluations.py
Half of the books have a loan. What reading the model costs is taken off: it is the cost of a run without expressions. Printing the reads
is counted.
"""
import json, os, tempfile
from costs import TOP, cost, run
from models import METAMODEL, link

PROGRAM = os.path.join(TOP, "crates/cases_evaluation/out/cases_evaluation")
EXPRESSIONS = ["self.books->select(b | b.loans->isEmpty())->size()", "self.eAllContents()->size()", "self.books.title->size()"]


def library(books):
    """A library of so many books, half as many loans, and one member."""
    objects = {1: {"class": "Library", "id": 1, "slots": {"members": [2], "books": [], "loans": []}},
               2: {"class": "Member", "id": 2, "slots": {"name": "Ann"}}}
    for book in range(3, books + 3):
        objects[1]["slots"]["books"].append(book)
        objects[book] = {"class": "Book", "id": book, "slots": {"title": f"Book {book}"}}
    for loan in range(books + 3, books + 3 + books // 2):
        objects[1]["slots"]["loans"].append(loan)
        objects[loan] = {"class": "Loan", "id": loan, "slots": {}}
        link(objects, loan, "book", 2 * (loan - books) - 3, "loans")
        link(objects, loan, "member", 2, "loans")
    return {"next": len(objects) + 1, "objects": list(objects.values()), "roots": [1]}


def write(folder, name, text):
    path = os.path.join(folder, name)
    with open(path, "w") as file:
        file.write(text)
    return path


def main():
    with tempfile.TemporaryDirectory() as folder:
        nothing = write(folder, "nothing", "")
        before = {}
        for books in (100, 1000, 10000):
            model = write(folder, f"{books}.json", json.dumps(library(books), separators=(",", ":")))
            reading, unit = cost([PROGRAM, METAMODEL, model, nothing], folder)
            for expression in EXPRESSIONS:
                words = [PROGRAM, METAMODEL, model, write(folder, "expression", f"1 {expression}\n")]
                done = run(words)
                value = cost(words, folder)[0] - reading
                times = f", {value / before[expression]:.1f} times the one before" if expression in before else ""
                before[expression] = value
                print(f"{books:6} books, {expression}: status {done.status}, {done.seconds:.2f} s with reading, {value:,} {unit}{times}", flush=True)


if __name__ == "__main__":
    main()
