#!/usr/bin/env python3
"""Runs commands on a session over a library with the proved program `cases_session`, and prints what a command costs beside the opening, and what a hundred undo steps hold.

Usage, from the top of the checkout, after `rt ci` has built the programs of cases:
    python3 bench/sessions.py
A command of this program is run, and then the picture and the model are written and digested; so is the opened session, in a look. Wanted are at most
twice the cost of the opening for a command, and 1,000 megabytes for a hundred steps; what passes that is marked by `!`.
"""
import json, os, subprocess, sys, tempfile
from costs import TOP, cost, run
from draw import city, marked, put
from models import METAMODEL, library, numbers_of

PROGRAM = os.path.join(TOP, "crates/cases_session/out/cases_session")
COUNT, COMMANDS = 2000, 10
MOST_TIMES, MOST_MEGABYTES = 2, 1000


def case(steps):
    return [{"name": "bench", "shows": "", "metamodel": ["metamodel"], "viewpoint": ["view"], "model": ["model"], "steps": steps}]


def command(revision, **members):
    return {"command": {**members, "revision": revision}}


BOOKS = numbers_of(COUNT)["Book"]
# a command by its number, from 0
KINDS = {
    "move": lambda k: command(k, command="move", key=f"0.{BOOKS[k]}", x=k, y=k),
    "set": lambda k: command(k, command="set", object=BOOKS[k], feature="title", value=f"T{k}"),
    "create": lambda k: command(k, command="create", **{"class": "Member"}, **{"in": 1}, feature="members"),
    "layer": lambda k: command(k, command="layer", layer="Lending", active=k % 2 == 1),
}


def main():
    with tempfile.TemporaryDirectory() as folder:
        put(folder, "view", city())
        put(folder, "model", library(COUNT))
        with open(METAMODEL, encoding="utf-8") as file, open(os.path.join(folder, "metamodel"), "w", encoding="utf-8") as to:
            to.write(file.read())
        os.chdir(folder)
        put(folder, "none", case([]))
        put(folder, "look", case([{"look": {}}]))
        read, unit = cost([PROGRAM, "none"], folder)
        print(f"opening a city library of {COUNT:,} objects, with reading its files: {read:,} {unit}; with a look at it: {cost([PROGRAM, 'look'], folder)[0]:,}")
        print("| Command | One of them | Times the opening |\n|---|---|---|")
        for name, made in KINDS.items():
            put(folder, "steps", case([made(k) for k in range(COMMANDS)]))
            each = (cost([PROGRAM, "steps"], folder)[0] - read) / COMMANDS
            print(f"| `{name}` | {each:,.0f} | {marked(each / read, MOST_TIMES, '.2f')} |", flush=True)
        put(folder, "steps", case([command(k, command="arrange") for k in range(101)] + [command(101 + k, command="undo") for k in range(100)]))
        status, seconds, megabytes = run([PROGRAM, "steps"], os.path.join(folder, "out"))
        print(f"101 times `arrange`, 100 times `undo`: status {status}, {seconds:.1f} s, {marked(megabytes, MOST_MEGABYTES, '.0f')} MB")


if __name__ == "__main__":
    main()
