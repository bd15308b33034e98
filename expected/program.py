#!/usr/bin/env python3
"""What the program `cases_program` must print: for each case the names that the shelf is asked for, the status, and what the sink gets.

Names, status and text stand in the case, as it is told from outside. What a case draws is drawn by `diagrams.py`: its status, its text,
where that is not `picture`, and what the case says of the diagram have to hold of it. Of a long text its MD5 is printed.

    python3 expected/program.py crates/cases_program/data/cases.json
"""
import hashlib, json, os, sys

import diagrams

TOO_LARGE = "diagram too large\n"
LONG = 16384


def loaded(folder, name):
    with open(os.path.join(folder, name), encoding="utf-8") as file:
        return file.read()


def numbered(text, *more):
    """A text, and then in fives: a first and a last number, the texts before and after each number from one to the other, with commas
    between, and a further text."""
    while more:
        first, last, before, after, end, *more = more
        text += ",".join(f"{before}{number}{after}" for number in range(int(first), int(last) + 1)) + end
    return text


MADE = {"text": lambda text: text, "spaces": lambda count: " " * int(count), "numbered": numbered}


def held(folder, case):
    """What the shelf holds, by name: files of the folder, or made ones. Of two files of one name the first counts."""
    return {name: MADE[file](*told) if told else loaded(folder, file) for name, file, *told in reversed(case["files"])}


def draws(case):
    return case["words"][0:1] == ["draw"] and (case["expect"]["status"] == 0 or case["expect"]["sink"] == TOO_LARGE)


def drawn(folder, case):
    """The text of a case that draws, where all that is told of it holds."""
    files, expect = held(folder, case), case["expect"]
    diagram = diagrams.diagram_of(*(json.loads(files[word]) for word in case["words"][1:]))
    status, text = diagrams.printed(diagram)
    wrong = list(diagrams.differing(expect.get("diagram", {}), diagram)) if diagram else []
    if status != expect["status"] or expect["sink"] not in ("picture", text):
        wrong.append(f"status {status}, {text}")
    if wrong:
        raise SystemExit(f"{case['name']}: {'; '.join(wrong)}")
    return text


def shown(text):
    size = len(text.encode())
    return [f"sink {size}", text] if size <= LONG else [f"sink {size} md5 {hashlib.md5(text.encode()).hexdigest()}"]


def lines(path):
    folder = os.path.dirname(path)
    for case in json.loads(loaded(folder, os.path.basename(path))):
        yield case["name"]
        yield " ".join(["asked", *case["expect"]["asked"]])
        yield f"status {case['expect']['status']}"
        yield from shown(drawn(folder, case) if draws(case) else case["expect"]["sink"])


if __name__ == "__main__":
    for path in sys.argv[1:]:
        for line in lines(path):
            print(line)
