#!/usr/bin/env python3
"""Parses and prints expressions of 100 to 4,096 bytes with a proved program, and prints what each run costs.

Usage, from the top of the checkout, after `(cd crates/cases_syntax && rt run)` has built the program:
    python3 bench/expressions.py
Instructions are counted with valgrind's callgrind where it is installed; else seconds over repeated runs.
"""
import os, tempfile
from costs import TOP, cost

PROGRAM = os.path.join(TOP, "crates/cases_syntax/out/cases_syntax")


def chain(size):
    return ("a+" * size)[: size - 1].rstrip("+") + "+b"


def features(size):
    return ("a" + ".bc" * size)[:size].rstrip(".")


def text(size):
    return "'" + "x\\n" * ((size - 2) // 3) + "'"


def calls(size):
    part = "->select(x | x.y > 1)"
    return "a" + part * ((size - 1) // len(part))


def nests(size):
    part = "(" * 60 + "a" + ")" * 60
    return "+".join([part] * max(1, size // (len(part) + 1)))


SHAPES = {"a chain of sums": chain, "a chain of features": features, "a text": text, "calls": calls, "nests": nests}


def main():
    with tempfile.TemporaryDirectory() as folder:
        path = os.path.join(folder, "expression")
        for shape, make in SHAPES.items():
            costs = []
            for size in (100, 400, 1000, 4000):
                with open(path, "w") as file:
                    file.write(make(size))
                value, unit = cost([PROGRAM, path], folder)
                costs.append(value)
            shown = ", ".join(f"{value:,}" for value in costs)
            print(f"{shape:20} {shown} {unit}; 4,000 bytes cost {costs[3] / costs[1]:.1f} times 400")


if __name__ == "__main__":
    main()
