#!/usr/bin/env python3
"""Checks viewpoints of 64 and 256 mappings, tools and operations at the limits, with the proved program, and prints what each run costs.

Usage, from the top of the checkout, after `(cd crates/workbench && rt run)` has built the program:
    python3 bench/checks.py
Each mapping has 32 conditional styles, each of as many tools has 256 operations, and expressions have 100 bytes.
"""
import json, os, subprocess, tempfile, time

from costs import TOP, cost
from draw import PROGRAM

METAMODEL = os.path.join(TOP, "crates/cases_program/data/library.metamodel.json")


def expression(variable):
    """A condition of 100 bytes."""
    text = f"aql:{variable}.loans->exists(l | l.book = {variable} and l.member <> null) and {variable}.title <> ''"
    return text + " " * (100 - len(text))


def mapping(number):
    style = {"shape": "a", "color": "b", "label": expression("self")}
    return {"name": f"M{number}", "kind": "node", "domain": "Book", "candidates": expression("self"), "style": style,
            "styles": [{"when": expression("self"), "style": style} for _ in range(32)]}


def tool(number):
    inside = [{"op": "set", "feature": "title", "value": expression("element")} for _ in range(255)]
    return {"name": f"T{number}", "kind": "delete", "do": [{"op": "if", "condition": expression("element"), "do": inside}]}


def viewpoint(count):
    return {"viewpoint": "V", "diagram": {
        "name": "D", "domain": "Library", "layers": [{"name": f"L{n}"} for n in range(64)],
        "top": [f"M{n}" for n in range(count)], "mappings": [mapping(n) for n in range(count)],
        "filters": [{"name": f"F{n}", "mappings": [f"M{n}"], "hides": expression("self")} for n in range(min(count, 64))],
        "tools": [tool(n) for n in range(count)]}}


def main():
    first = None
    with tempfile.TemporaryDirectory() as folder:
        for count in (64, 256):
            path = os.path.join(folder, f"{count}.json")
            with open(path, "w") as file:
                json.dump(viewpoint(count), file, separators=(",", ":"))
            words = [PROGRAM, "check", METAMODEL, path]
            start = time.perf_counter()
            run = subprocess.run(words, capture_output=True, text=True)
            seconds = time.perf_counter() - start
            value, unit = cost(words, folder)
            first = first or value
            print(f"{count:4} mappings, {os.path.getsize(path):,} bytes: status {run.returncode}, {run.stdout.strip()[:60]}, {seconds:.1f} s, "
                  f"{value:,} {unit}, {value / first:.1f} times the first")


if __name__ == "__main__":
    main()
