#!/usr/bin/env python3
"""The bodies of commands and what each is, for the program `cases_commands`.

    python3 expected/commands.py > crates/cases_commands/data/commands.bodies

A line is a body. What a body is, is found anew from the words of the definitions: a table of members for each command.
"""
import json, re, sys
from plain_files import Refused, is_name, json_of

LAST_NUMBER = 4294967295
LAST_REVISION = 9007199254740991


class Wrong(Exception):
    pass


# ---- what a member is: each gives the words for it


def wanted(holds):
    if not holds:
        raise Wrong()


def number(value):
    wanted(type(value) is int and 0 <= value <= LAST_NUMBER)
    return str(value)


def integer(value):
    wanted(type(value) is int)
    return str(value)


def flag(value):
    wanted(type(value) is bool)
    return "yes" if value else "no"


def name(value):
    wanted(is_name(value))
    return value


def text(value):
    wanted(type(value) is str)
    return "text" + "".join(f" {byte}" for byte in value.encode())


def end(value):
    wanted(value in ("source", "target") and type(value) is str)
    return value


PAIR = "(0|[1-9][0-9]*)\\.(0|[1-9][0-9]*)"
PATH = f"{PAIR}(-{PAIR}){{0,31}}"


def key(value):
    wanted(type(value) is str)
    wanted(re.fullmatch(PATH, value) or re.fullmatch(f"{PAIR}:{PATH}:{PATH}", value))
    wanted(all(int(digits) <= LAST_NUMBER for digits in re.findall("[0-9]+", value)))
    path = lambda part: "".join(f" {pair}" for pair in part.split("-"))
    parts = value.split(":")
    return f"node{path(parts[0])}" if len(parts) == 1 else f"edge {parts[0]} from{path(parts[1])} to{path(parts[2])}"


def given(value):
    if type(value) is dict:
        wanted(set(value) == {"object"})
        return f"object {number(value['object'])}"
    if type(value) is bool:
        return f"bool {flag(value)}"
    return text(value) if type(value) is str else f"int {integer(value)}"


def or_null(form):
    return lambda value: "null" if value is None else form(value)


ARGUMENTS = {"container": or_null(key), "source": key, "target": key, "element": key, "arg0": text, "end": end, "to": or_null(key)}


def arguments(value):
    wanted(type(value) is dict and set(value) <= set(ARGUMENTS))
    return "; ".join(["given", *(f"{member} {form(value[member])}" for member, form in ARGUMENTS.items() if member in value)])


# ---- the members of each command, beside `command` and `revision`
MARK = {"key": key}
EDIT = {"object": number, "feature": name, "value": given}
COMMANDS = {
    "create": {"class": name, "in": or_null(number), "feature": or_null(name)},
    "set": EDIT, "add": EDIT, "take": EDIT,
    "unset": {"object": number, "feature": name},
    "move_to": {"object": number, "in": number, "feature": name},
    "remove": {"object": number},
    "tool": {"tool": name, "arguments": arguments},
    "move": {"key": key, "x": integer, "y": integer},
    "arrange": {}, "undo": {}, "redo": {},
    "show": {"parent": or_null(key), "mapping": name, "object": number},
    "unshow": MARK, "hide": MARK, "reveal": MARK,
    "layer": {"layer": name, "active": flag},
    "filter": {"filter": name, "active": flag},
}


def command_of(body):
    try:
        value = json_of(body.decode())
    except (Refused, UnicodeDecodeError):
        raise Wrong()
    wanted(type(value) is dict and type(value.get("command")) is str and value["command"] in COMMANDS)
    forms = COMMANDS[value["command"]]
    wanted(set(value) == {"command", "revision", *forms})
    wanted(type(value["revision"]) is int and 0 <= value["revision"] <= LAST_REVISION)
    found = [f"{member} {form(value[member])}" for member, form in forms.items()]
    if value["command"] == "create":
        wanted((value["in"] is None) == (value["feature"] is None))
    return "; ".join([f"{value['revision']} {value['command']}", *found])


def told(body):
    try:
        return command_of(body)
    except Wrong:
        return "bad body"


def lines(path):
    """What the program prints for a file of bodies."""
    with open(path, "rb") as file:
        return [told(body) for body in file.read().split(b"\n")]


# ---- the bodies

# one of each command; its members are left out and changed one by one
ONES = [
    {"command": "create", "class": "Book", "in": 1, "feature": "books", "revision": 0},
    {"command": "set", "object": 5, "feature": "book", "value": {"object": 3}, "revision": 0},
    {"command": "add", "object": 1, "feature": "tags", "value": "new", "revision": 7},
    {"command": "take", "object": 1, "feature": "tags", "value": 7, "revision": 7},
    {"command": "unset", "object": 2, "feature": "title", "revision": 1},
    {"command": "move_to", "object": 2, "in": 8, "feature": "books", "revision": 2},
    {"command": "remove", "object": 4, "revision": 1},
    {"command": "tool", "tool": "Lend", "arguments": {"source": "0.3", "target": "3.4"}, "revision": 0},
    {"command": "move", "key": "1.6-2.2", "x": 1, "y": -1, "revision": 0},
    {"command": "arrange", "revision": 0},
    {"command": "undo", "revision": 101},
    {"command": "redo", "revision": 3},
    {"command": "show", "parent": "1.6", "mapping": "Work", "object": 2, "revision": 0},
    {"command": "unshow", "key": "0.2", "revision": 0},
    {"command": "hide", "key": "4.5:0.2:3.4", "revision": 0},
    {"command": "reveal", "key": "0.2", "revision": 0},
    {"command": "layer", "layer": "Lending", "active": False, "revision": 1},
    {"command": "filter", "filter": "Idle", "active": True, "revision": 1},
]

# what stands in the place of a member
OTHERS = [None, True, -1, 4294967295, 4294967296, 1.5, "", "Book", "a b", "0.2", "4.5:0.2:3.4", [], {}, {"object": 3}]

# each argument with what stands there
PLACED = {
    "container": [None, "0.2", "4.5:0.2:3.4", "", 1, [], {}],
    "source": ["0.2", None, "x", 2],
    "target": ["3.4", None, "3.04", True],
    "element": ["0.2", "5.6:1.6:0.2", None, "0.2:", 3],
    "arg0": ["", "Dune", "\u00e9\n\u0000", None, 5, ["a"]],
    "end": ["source", "target", "Source", "", "both", None, 0],
    "to": [None, "0.3-1.4", "0.3-", False],
}

KEYS = [
    "0.0", "4294967295.4294967295", "4294967296.0", "0.4294967296", "00.1", "0.01", "+1.2", "-1.2", "1.-2", "1", "1.", ".1", "1.2.3", "1.2-", "-1.2",
    "1.2--3.4", "1.2-3.4-5.6", "-".join(f"{n}.{n}" for n in range(32)), "-".join(f"{n}.{n}" for n in range(33)), " 1.2", "1.2 ", "1.2\n", "\u0661.2",
    "1.2:3.4", "1.2:3.4:5.6", "1.2:3.4-5.6:7.8-9.10", "1.2-3.4:5.6:7.8", "1.2:3.4:5.6:7.8", ":1.2:3.4", "1.2::3.4", "1.2:3.4:", "1.2:3.4:5.06",
    "1.2:" + "-".join(["3.4"] * 32) + ":" + "-".join(["5.6"] * 32), "1.2:" + "-".join(["3.4"] * 33) + ":5.6", "1.2:3.4:" + "-".join(["5.6"] * 33),
    "1.2:3.4:5.4294967296", "4294967296.2:3.4:5.6", "99999999999999999999999.1",
]

NAMES = ["a", "_", "Z9_", "9a", "", "a-b", "a.b", "\u00e9", "a\n", "a" * 64, "a" * 65]

VALUES = [
    9223372036854775807, -9223372036854775808, 9223372036854775808, -9223372036854775809, 0, True, False, "", "\u00e9\U0001f600", "a\tb\\\"", "x" * 300,
    {"object": 0}, {"object": 4294967295}, {"object": 4294967296}, {"object": -1}, {"object": None}, {"object": "1"}, {"object": 1, "more": 1}, {"key": 1}, [1],
]

# bodies letter by letter
TEXTS = [
    b"", b"{", b"{}", b"[]", b"null", b"5", b'"undo"', b"undo", b"[" * 200, b'{"command":"fly","revision":0}', b'{"command":"undo","revision":-1}',
    b'"\xff"', b'{"command":"undo","revision":0}\xff', b'\xef\xbb\xbf{"command":"undo","revision":0}', b'{"command":"undo","revision":0} ',
    b' {\t"command" : "undo" ,\r "revision" : 12 } ', b'{"command":"undo","revision":0}{}', b'{"command":"undo","revision":0},',
    b'{"command":"undo","revision":0,}', b"{'command':'undo','revision':0}", b'{"command":"\\u0075ndo","revision":0}', b'{"comm\\u0061nd":"undo","revision":0}',
    b'{"command":"undo","revision":9007199254740991}', b'{"command":"undo","revision":9007199254740992}', b'{"command":"undo","revision":18446744073709551615}',
    b'{"command":"undo","revision":18446744073709551616}', b'{"command":"undo","revision":0.0}', b'{"command":"undo","revision":-0}',
    b'{"command":"undo","revision":1e2}', b'{"command":"undo","revision":1e999}', b'{"command":"undo","revision":01}', b'{"command":"undo","revision":NaN}',
    b'{"command":"undo","revision":"0"}', b'{"command":"undo","revision":null}', b'{"command":["undo"],"revision":0}', b'{"command":null,"revision":0}',
    b'{"command":"Undo","revision":0}', b'{"command":"undo ","revision":0}', b'{"command":"","revision":0}', b'{"revision":0}', b'{"command":"undo"}',
    b'{"command":"undo","Revision":0}', b'{"command":"undo","revision":0,"":0}', b'{"command":"undo","revision":0,"key":"0.2"}',
    b'{"command":"undo","revision":0,"revision":1}', b'{"command":"undo","revision":"x","revision":1}', b'{"command":"undo","revision":1,"revision":"x"}',
    b'{"command":"undo","command":"redo","revision":0}', b'{"command":"remove","object":1,"object":2,"revision":0}',
    b'{"command":"remove","object":-0,"revision":0}', b'{"command":"remove","object":1.0,"revision":0}', b'{"command":"remove","object":1e0,"revision":0}',
    b'{"command":"move","key":"0.2","x":1.0,"y":0,"revision":0}', b'{"command":"move","key":"0.2","x":0,"y":-0,"revision":0}',
    b'{"command":"move","key":"0.2","x":9223372036854775807,"y":-9223372036854775808,"revision":0}',
    b'{"command":"move","key":"0.2","x":9223372036854775808,"y":0,"revision":0}', b'{"command":"move","key":"0.2","x":0,"y":-9223372036854775809,"revision":0}',
    b'{"command":"move","key":"0\\u002e2","x":1000001,"y":0,"revision":0}', b'{"command":"set","object":1,"feature":"a","value":"\\ud83d","revision":0}',
    b'{"command":"set","object":1,"feature":"a","value":"\\ud83d\\ude00","revision":0}', b'{"command":"set","object":1,"feature":"a","value":{"object":1,"object":2},"revision":0}',
    b'{"command":"set","object":1,"feature":"a","value":1.5,"revision":0}', b'{"command":"set","object":1,"feature":"a","value":-0,"revision":0}',
    b'{"command":"set","object":1,"feature":"a","value":' + b"[" * 126 + b"]" * 126 + b',"revision":0}',
    b'{"command":"tool","tool":"Rename","arguments":{"element":"0.2","arg0":"a","arg0":"b"},"revision":0}',
    b'{"command":"tool","tool":"Rename","arguments":{"element":null,"element":"0.2"},"revision":0}',
    b'{"command":"resize","key":"0.2","w":1,"h":1,"revision":0}',
]


def changed(body, member, value):
    return {**body, member: value}


def bodies():
    for one in ONES:
        yield one
        yield changed(one, "zz", 1)
        yield changed(one, "object" if "object" not in one else "key", None)
        for member in one:
            yield {name: one[name] for name in one if name != member}
            for value in OTHERS:
                yield changed(one, member, value)
    create = ONES[0]
    for owner in (None, 1, "1"):
        for feature in (None, "books", 1):
            yield {**create, "in": owner, "feature": feature}
    tool = ONES[7]
    yield changed(tool, "arguments", {})
    for argument, values in PLACED.items():
        for value in values:
            yield changed(tool, "arguments", {argument: value})
    every = {argument: values[0] for argument, values in PLACED.items()}
    yield changed(tool, "arguments", every)
    yield changed(tool, "arguments", {**every, "arg1": "x"})
    yield changed(tool, "arguments", {**every, "Element": "0.2"})
    for spelled in KEYS:
        yield changed(ONES[13], "key", spelled)
    for spelled in NAMES:
        yield changed(tool, "tool", spelled)
    for value in VALUES:
        yield changed(ONES[1], "value", value)


def main():
    texts = [json.dumps(body, separators=(",", ":")).encode() for body in bodies()] + TEXTS
    sys.stdout.buffer.write(b"\n".join(dict.fromkeys(texts)))


if __name__ == "__main__":
    main()
