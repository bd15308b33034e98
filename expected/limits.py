#!/usr/bin/env python3
"""Asks a proved program about models at their limits, and compares what it answers with what is recomputed.

Usage, from the top of the checkout, after `(cd crates/cases_models && rt run)` has built the program:
    python3 expected/limits.py
"""
import json, os, subprocess, sys, tempfile
from models import DATA, answer, text_of
from plain_files import read
from plain_models import Metamodel

PROGRAM = os.path.join(DATA, "../out/cases_models")
TOWN = os.path.join(DATA, "town.metamodel.json")


def model(objects):
    """The text of a model whose objects are all roots."""
    listed = [{"class": kind, "id": o, "slots": slots} for o, (kind, slots) in enumerate(objects, 1)]
    return json.dumps({"next": len(listed) + 1, "objects": listed, "roots": [x["id"] for x in listed]}, ensure_ascii=False, separators=(",", ":"))


def named(name):
    return model([("Book", {"name": name})])


def marked(marks):
    return model([("Desk", {}), ("Desk", {"marks": marks})])


FULL = marked(list(range(20000)))
EMPTY = model([])
CASES = [(EMPTY, [f"read {text}" for text in (
    named("a" * 65536), named("a" * 65537), named("é" * 32768), named("é" * 32768 + "a"),
    model([("Desk", {})] * 20000), model([("Desk", {})] * 20001),
    FULL, marked(list(range(20001))), marked(list(range(19999)) + [7]), marked([2 ** 63 - 1, -2 ** 63]))]),
    (FULL, ["add 2 Desk.marks 20000", "add 2 Desk.marks 7", "take 2 Desk.marks 5", "add 2 Desk.marks 20000", "add 2 Desk.marks 5", "readers"]),
    (EMPTY, ["repeat 20000 create root - Desk", "create root - Desk", "remove 7", "create root - Desk", "next", "readers"])]


def shortened(text):
    return text if len(text) < 60 else f"{text[:40]}.. ({len(text)})"


def main():
    wrong = 0
    with tempfile.TemporaryDirectory() as folder:
        for text, lines in CASES:
            names = [os.path.join(folder, name) for name in ("model", "script")]
            for name, content in zip(names, (text, "".join(line + "\n" for line in lines))):
                with open(name, "w", encoding="utf-8") as file:
                    file.write(content)
            told = subprocess.run([PROGRAM, TOWN, *names], capture_output=True, text=True, encoding="utf-8").stdout.splitlines()
            m = read(Metamodel(json.loads(text_of(TOWN))), text)
            wanted = [f"{line} => {answer(m, line)}" for line in lines]
            wrong += told != wanted
            for line, found in zip(lines, told):
                print(f"{shortened(line)} => {found.removeprefix(line + ' => ')}")
            for one, other in zip(told, wanted):
                if one != other:
                    print(f"not what is recomputed: {other.rpartition(' => ')[2]}")
    sys.exit(1 if wrong else 0)


if __name__ == "__main__":
    main()
