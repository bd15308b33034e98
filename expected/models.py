#!/usr/bin/env python3
"""Recomputes what crates/cases_models prints from the words of the definitions of Model, Edit and Cell contents, and makes the script of its random walk.

    python3 expected/models.py      writes crates/cases_models/data/walk.script, and prints how often each answer comes
A line of a script is an edit or a look, and is answered by `?` where a word of it says nothing.
"""
import collections, hashlib, json, os, random, re
from plain_files import Refused, read, row
from plain_models import LAST, Metamodel, written

DATA = os.path.join(os.path.dirname(os.path.abspath(__file__)), "../crates/cases_models/data")


class Wrong(Exception):
    """A word of a line that says nothing."""


def shown(v):
    return {"Int": str(v[1]), "Bool": str(v[1]).lower(), "Text": f"'{v[1]}", "Object": f"@{v[1]}", "Enum": f"{v[1]}.{v[-1]}"}[v[0]]


def spaced(words):
    return " ".join(words) or "none"


def objects(numbers):
    return spaced(f"@{o}" for o in numbers)


def slots(m, places):
    return spaced(f"@{o} {m.feature(f).shown}" for o, f in places)


def kind(m, o):
    return m.metamodel.classes[m.kinds[o]]["name"] if o in m.kinds else "none"


def readers(m):
    """Every look at a model with its answer, and of the last numbers those of dead objects: no look shows anything of them."""
    lines = [f"next => {m.next}", f"roots => {objects(m.roots)}", f"objects => {objects(sorted(m.kinds))}"]
    lines += [f"extent {c['name']} => {objects(m.extent(n))}" for n, c in enumerate(m.metamodel.classes)]
    for o in sorted(m.kinds):
        lines += [f"kind {o} => {kind(m, o)}", f"holder {o} => {slots(m, [m.holder(o)] if m.holder(o) else [])}",
                  f"tree {o} => {objects(m.tree(o))}", f"inverse {o} => {slots(m, m.inverse(o))}"]
        lines += [f"slot {o} {x.shown} => {spaced(map(shown, m.slot(o, f)))}" for f, x in enumerate(m.metamodel.features) if m.slot(o, f)]
    lines.append(f"dead => {objects(o for o in range(max(m.next - 40, 0), m.next + 1) if o not in m.kinds)}")
    return "".join(line + "\n" for line in lines)


def number(word, least=0, last=LAST):
    if not re.fullmatch("-?[0-9]+", word) or not least <= int(word) <= last:
        raise Wrong
    return int(word)


def an_object(word):
    return number(word.removeprefix("@"))


def a_class(m, word):
    if word not in m.metamodel.class_numbers:
        raise Wrong
    return m.metamodel.class_numbers[word]


def a_feature(m, word):
    owner, _, name = word.partition(".")
    f = m.metamodel.named(a_class(m, owner), name)
    if f is None:
        raise Wrong
    return f


def a_value(word):
    if word.startswith("'"):
        return ("Text", word[1:])
    if word.startswith("@"):
        return ("Object", an_object(word))
    if "." in word:
        return ("Enum", *(number(part) for part in word.split(".", 1)))
    return ("Bool", word == "true") if word in ("true", "false") else ("Int", number(word, -2 ** 63, 2 ** 63 - 1))


def a_reading(m, text):
    try:
        read(m.metamodel, text)
        return "read"
    except Refused as refused:
        return refused.args[0]


def a_row(m, o):
    if o not in m.kinds:
        raise Wrong
    return written(m.row(o))


def a_read_row(m, text):
    try:
        found = row(m.metamodel, text)
    except Refused:
        found = None
    if found is None:
        return "no row"
    return " ".join([m.metamodel.classes[found[0]]["name"]] + [f"{m.feature(f).shown} {spaced(map(shown, values))}" for f, values in found[1]])


PATH = r"(?:0|[1-9][0-9]*)\.(?:0|[1-9][0-9]*)(?:-(?:0|[1-9][0-9]*)\.(?:0|[1-9][0-9]*)){0,31}"
PAIR = r"(?:0|[1-9][0-9]*)\.(?:0|[1-9][0-9]*)"


def a_problem(sort, number, key):
    """The text of a diagram whose only problem is that of a unit."""
    is_number, is_path = re.fullmatch("[0-9]+", number), re.fullmatch(PATH, key)
    is_key = is_path or re.fullmatch(f"{PAIR}:{PATH}:{PATH}", key)
    forms = {"candidates": is_number and (is_path or not is_key) and f"{sort} {number} {key}", "edge-candidates": is_number and not is_key and f"{sort} {number}",
             "precondition": not is_number and is_path and f"{sort} {key}"}
    forms |= {name: is_number and is_key and f"{name} {number} {key}" for name in ("style", "label", "filter")}
    forms |= {name: not is_number and is_path and f"{name} {key.split('-')[0]}" for name in ("edge-precondition", "source", "target")}
    if not forms.get(sort):
        raise Wrong
    return written({"edges": [], "elements": [], "filters": [], "layers": [], "problems": [{"at": forms[sort], "fault": "NotBool"}], "revision": 7})


def emptied(m):
    m.__init__(m.metamodel, 1, {}, [], [])
    return "emptied"


ANSWERS = {
    "create": lambda m, x, y, z, _: m.create(a_class(m, z), None if x == "root" else an_object(x), None if x == "root" else a_feature(m, y)),
    "set": lambda m, x, y, z, _: m.put(an_object(x), a_feature(m, y), a_value(z), False),
    "add": lambda m, x, y, z, _: m.put(an_object(x), a_feature(m, y), a_value(z), True),
    "take": lambda m, x, y, z, _: m.take(an_object(x), a_feature(m, y), a_value(z)),
    "unset": lambda m, x, y, *_: m.unset(an_object(x), a_feature(m, y)),
    "move": lambda m, x, y, z, _: m.move(an_object(x), an_object(z), a_feature(m, y)),
    "remove": lambda m, x, *_: m.remove(an_object(x)),
    "repeat": lambda m, x, *words: repeated(m, number(x), words[-1].partition(" ")[2]),
    "next": lambda m, *_: str(m.next),
    "roots": lambda m, *_: objects(m.roots),
    "objects": lambda m, *_: objects(sorted(m.kinds)),
    "extent": lambda m, *words: objects(m.extent(a_class(m, words[-1]))),
    "kind": lambda m, x, *_: kind(m, an_object(x)),
    "holder": lambda m, x, *_: slots(m, [m.holder(an_object(x))] if m.holder(an_object(x)) else []),
    "tree": lambda m, x, *_: objects(m.tree(an_object(x))),
    "inverse": lambda m, x, *_: slots(m, m.inverse(an_object(x))),
    "slot": lambda m, x, y, *_: spaced(map(shown, m.slot(an_object(x), a_feature(m, y)))),
    "write": lambda m, *_: m.text(),
    "row": lambda m, *words: a_row(m, an_object(words[-1])),
    "read": lambda m, *words: a_reading(m, words[-1]),
    "copy": lambda m, *_: "copied",
    "empty": lambda m, *_: emptied(m),
    "object": lambda m, *words: a_read_row(m, words[-1]),
    "problem": lambda m, x, y, z, _: a_problem(x, y, z),
    "all": lambda m, *_: "\n" + readers(m),
    "readers": lambda m, *_: hashlib.md5(readers(m).encode()).hexdigest()}


def repeated(m, times, line):
    answers = [answer(m, line) for _ in range(times)]
    if "?" in answers or line.split(" ")[0] not in EDITS:
        raise Wrong
    return answers[-1] if answers else ""


EDITS = ("create", "set", "add", "take", "unset", "move", "remove")


def answer(m, line):
    name, _, text = line.partition(" ")
    x, _, behind = text.partition(" ")
    y, _, z = behind.partition(" ")
    try:
        return ANSWERS[name](m, x, y, z, text) if name in ANSWERS else "?"
    except Wrong:
        return "?"


# ---- the walk

FITS = {"set": lambda x: x.plain and not x.many, "add": lambda x: x.plain and x.many, "take": lambda x: x.plain and x.many,
        "unset": lambda x: x.plain, "move": lambda x: x.containment, "create": lambda x: x.containment}


def edit_by_chance(m, chance):
    """Mostly one that the model takes; objects go while there are many."""
    classes = range(len(m.metamodel.classes))
    name = chance.choices([*FITS, "remove"], [6, 5, 3, 1, 3, 5, 0.3 if len(m.kinds) < 22 else 5])[0]
    if name == "remove":
        return f"remove {object_by_chance(m, chance, None)}"
    if name == "create" and chance.random() < 0.2:
        return f"create root - {m.metamodel.classes[chance.choice(classes)]['name']}"
    fitting = [x for x in m.metamodel.features if FITS[name](x)]
    x = chance.choice(fitting if chance.random() < 0.95 else m.metamodel.features)
    o = object_by_chance(m, chance, x.owner)
    if name == "create":
        inside = [c for c in classes if x.kind[0] != "Object" or m.metamodel.conforms(c, x.kind[1])]
        return f"create {o} {x.shown} {m.metamodel.classes[chance.choice(inside if chance.random() < 0.9 else classes)]['name']}"
    if name == "move":
        return f"move {object_by_chance(m, chance, x.kind[-1])} {x.shown} @{o}"
    standing = m.slot(o, m.metamodel.features.index(x))
    if name == "take" and standing and chance.random() < 0.8:
        return f"take {o} {x.shown} {shown(chance.choice(standing))}"
    return f"unset {o} {x.shown}" if name == "unset" else f"{name} {o} {x.shown} {value_by_chance(m, chance, x)}"


def object_by_chance(m, chance, c):
    """Mostly a live one of the class, where there is one."""
    live = m.extent(c) if c in range(len(m.metamodel.classes)) and m.extent(c) else sorted(m.kinds)
    return chance.choice(live) if live and chance.random() < 0.96 else chance.randrange(m.next + 1)


def value_by_chance(m, chance, x):
    """Mostly of the feature's kind."""
    kind = x.kind[0] if chance.random() < 0.95 else chance.choice(["Int", "Bool", "Text", "Enum", "Object"])
    return {"Int": str(chance.randrange(-2, 5)), "Bool": chance.choice(["true", "false"]), "Text": f"'text {chance.randrange(5)}",
            "Enum": f"{chance.choice([0, 0, 0, 1])}.{chance.randrange(3)}",
            "Object": f"@{object_by_chance(m, chance, x.kind[-1])}"}[kind]


def walk(m):
    """The lines of 2,500 edits, each followed by a look at all readers; and how often each answer came."""
    chance, lines, counts = random.Random(1), ["all"], collections.Counter()
    for n in range(1, 2501):
        line = edit_by_chance(m, chance)
        name, word = line.split()[0], answer(m, line).split()[0]
        counts[name, word] += 1
        lines += [line, "readers"]
        if n % 500 == 0:
            lines += ["copy", "all", "write", f"read {m.text()}"] + [f"row {o}" for o in sorted(m.kinds)[:3]]
    return lines, counts


def text_of(path):
    with open(path, encoding="utf-8", newline="") as file:
        return file.read()


def opened(metamodel, model):
    return read(Metamodel(json.loads(text_of(metamodel))), text_of(model))


def lines(metamodel, model, script):
    """What the program prints for the files of a metamodel, a model and a script."""
    m = opened(metamodel, model)
    return [f"{line} => {answer(m, line)}" for line in text_of(script).removesuffix("\n").split("\n")]


def main():
    made, counts = walk(opened(*(os.path.join(DATA, name) for name in ("town.metamodel.json", "town.model.json"))))
    with open(os.path.join(DATA, "walk.script"), "w", encoding="utf-8") as file:
        file.write("".join(line + "\n" for line in made))
    for (name, word), count in sorted(counts.items()):
        print(f"{name} {word}: {count}")


if __name__ == "__main__":
    main()
