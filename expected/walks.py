#!/usr/bin/env python3
"""Makes the random walks of `cases_session`: commands by chance on two opened models, from seeds.

    python3 expected/walks.py > crates/cases_session/data/walks.json     and tells how often each answer came

A command is chosen from what stands when it is asked (`sessions.py`), so most are accepted. Some are spoiled in one member, and some name
a revision that is gone.
"""
import collections
import json
import os
import random
import sys

import sessions
from diagrams import written

TOP = os.path.dirname(os.path.dirname(os.path.abspath(__file__)))
DATA = os.path.join(TOP, "crates/cases_session/data")
FITS = {"create": lambda x: x.containment, "move_to": lambda x: x.containment, "set": lambda x: x.plain and not x.many,
        "add": lambda x: x.plain and x.many, "take": lambda x: x.plain and x.many, "unset": lambda x: x.plain}
TEXTS = ["", "nobody", "Emma", "Dune", "Å \"b\"\n", "a", "calm"]
FEW, MANY = 19, 30


class Walk:
    def __init__(self, seed, names):
        self.chance, self.names = random.Random(seed), names
        self.session = sessions.session_of(DATA, {sort: [name] for sort, name in names.items()})
        self.viewpoint, self.metamodel = self.session.viewpoint, self.session.viewpoint.metamodel
        self.steps, self.counts, self.last = [], collections.Counter(), ""

    def model(self):
        return self.session.state.body.model

    def often(self, share):
        return self.chance.random() < share

    def one_of(self, found):
        """One of some values, in an order that does not change; none where there is none."""
        return self.chance.choice(sorted(found)) if found else None

    # ---- edits

    def an_object(self, c=None):
        """Mostly a live one of a class, where there is one; seldom the root element."""
        m = self.model()
        live = (m.extent(c) if c is not None else []) or sorted(m.kinds)
        return self.chance.choice(live)

    def a_value(self, x):
        kind = x.kind[0] if self.often(0.95) else self.chance.choice(["Int", "Bool", "Text", "Object"])
        if kind == "Enum":
            return self.chance.choice(self.metamodel.enums[x.kind[1]])
        if kind == "Object":
            return {"object": self.an_object(x.kind[1] if x.kind[0] == "Object" else None)}
        return {"Int": self.chance.choice([-1, 0, 1, 2, 50, 200, 400]), "Bool": self.often(0.5), "Text": self.chance.choice(TEXTS)}[kind]

    def edit(self):
        few, many = len(self.model().kinds) < FEW, len(self.model().kinds) > MANY
        name = self.chance.choices([*FITS, "remove"], [1 if many else 7 if few else 4, 3, 8, 5, 2, 1, 3 if many else 0.3 if few else 0.8])[0]
        if name == "remove":
            return {"command": name, "object": 1 if self.often(0.1) else self.an_object(self.one_of(set(self.model().kinds.values()) - {self.model().kinds[1]}))}
        features = [x for x in self.metamodel.features if FITS[name](x) or self.often(0.02)]
        x = self.chance.choice(features)
        o = self.an_object(x.owner)
        if name == "create":
            return self.create(x, o)
        if name == "move_to":
            return {"command": name, "object": self.an_object(x.kind[-1] if x.kind[0] == "Object" else None), "in": o, "feature": x.name}
        if name == "unset":
            return {"command": name, "object": o, "feature": x.name}
        standing = self.model().slot(o, self.metamodel.features.index(x))
        if name == "take" and standing and self.often(0.8):
            value = self.chance.choice(standing)
            told = {"Object": lambda: {"object": value[1]}, "Enum": lambda: self.metamodel.enums[value[1]][value[2]]}.get(value[0], lambda: value[1])()
            return {"command": name, "object": o, "feature": x.name, "value": told}
        return {"command": name, "object": o, "feature": x.name, "value": self.a_value(x)}

    def create(self, x, o):
        classes = [c for c in range(len(self.metamodel.classes)) if x.kind[0] != "Object" or self.metamodel.conforms(c, x.kind[1]) or self.often(0.03)]
        place = {"in": None, "feature": None} if self.often(0.06) else {"in": o, "feature": x.name}
        return {"command": "create", "class": self.metamodel.classes[self.chance.choice(classes)]["name"], **place}

    # ---- marks, positions, layers, filters

    def declared(self):
        return self.session.diagram.elements + list(self.session.diagram.edges)

    def a_key(self, among=None):
        return self.one_of({written(key) for key in among or self.declared()}) or "0.1"

    def show(self):
        waiting = self.one_of(self.session.diagram.passing - self.session.diagram.keys)
        key = waiting if waiting and self.often(0.9) else self.chance.choice(self.session.diagram.elements or [((0, 1),)])
        mapping, o = key[-1]
        return {"command": "show", "parent": written(key[:-1]) if len(key) > 1 else None, "mapping": self.viewpoint.mappings[mapping]["name"], "object": o}

    def unshow(self):
        return {"command": "unshow", "key": self.a_key(self.session.state.body.shown if self.often(0.8) else None)}

    def hide(self):
        return {"command": "hide", "key": self.a_key()}

    def reveal(self):
        return {"command": "reveal", "key": self.a_key(self.session.state.body.hidden if self.often(0.8) else None)}

    def move(self):
        placeable = [key for key in self.session.diagram.elements if self.viewpoint.is_placeable(key)]
        return {"command": "move", "key": self.a_key(placeable if self.often(0.8) else None), **{name: self.chance.randrange(-300, 300) for name in "xy"}}

    def switch(self, name, names):
        return {"command": name, name: self.one_of(names), "active": self.often(0.6)}

    # ---- tools

    def an_element(self, null=False):
        return None if null and self.often(0.4) else self.a_key(self.session.diagram.elements if self.often(0.97) else None)

    def tool(self):
        """A tool of the viewpoint, mostly with the arguments of its kind."""
        of_kind = {
            "node_creation": lambda: {"container": self.an_element(True)}, "edge_creation": lambda: {"source": self.an_element(), "target": self.an_element()},
            "delete": lambda: {"element": self.a_key()}, "direct_edit": lambda: {"element": self.a_key(), "arg0": self.chance.choice(TEXTS)},
            "reconnect": lambda: {"element": self.a_key(self.session.diagram.edges if self.often(0.95) else None), "end": self.chance.choice(["source", "target"]), "to": self.an_element()},
            "drop": lambda: {"element": self.an_element(), "to": self.an_element(True)},
        }
        tools = self.viewpoint.diagram["tools"]
        tool, other = self.chance.choice(tools), self.chance.choice(tools)
        arguments = of_kind[(tool if self.often(0.94) else other)["kind"]]()
        return {"command": "tool", "tool": tool["name"] if self.often(0.98) else "Nothing", "arguments": arguments}

    # ---- commands

    def by_chance(self):
        makers = {
            "edit": self.edit, "show": self.show, "unshow": self.unshow, "hide": self.hide, "reveal": self.reveal, "move": self.move,
            "arrange": lambda: {"command": "arrange"}, "layer": lambda: self.switch("layer", self.viewpoint.layers),
            "filter": lambda: self.switch("filter", self.viewpoint.filters), "tool": self.tool,
            "undo": lambda: {"command": "undo"}, "redo": lambda: {"command": "redo"},
        }
        if self.last in ("undo", "redo") and self.often(0.6):
            return {"command": "redo" if self.session.state.future and (self.last == "redo" or self.often(0.3)) else "undo"}
        name = self.chance.choices(list(makers), [44, 12, 2, 3, 5, 9, 2, 4, 4, 12, 7, 3])[0]
        return makers[name]()

    def spoiled(self, c):
        """The command with one member that is mostly wrong."""
        gone = self.chance.randrange(self.session.state.next + 2)
        features = sorted({x.name for x in self.metamodel.features}) + ["nowhere"]
        keys = [written(key) for key in self.declared()] + [f"0.{gone}", f"5.{gone}", f"1.{gone}-2.3", "0.2-0.2", f"9.{gone}:0.2:5.4"]
        spoils = {
            "object": lambda: gone, "in": lambda: gone, "feature": lambda: self.chance.choice(features), "class": lambda: "Nobody",
            "value": lambda: {"object": gone}, "key": lambda: self.chance.choice(keys), "parent": lambda: self.chance.choice(keys),
            "mapping": lambda: self.chance.choice([mapping["name"] for mapping in self.viewpoint.mappings] + ["Nothing"]),
            "x": lambda: self.chance.choice([1000001, -1000000, 2 ** 63 - 1]), "y": lambda: self.chance.choice([-1000001, 1000000, -2 ** 63]),
            "layer": lambda: "Base", "filter": lambda: "Base",
        }
        names = [name for name in c if name in spoils and c[name] is not None or name == "parent"]
        if not names:
            return c
        name = self.chance.choice(names)
        return {**c, name: spoils[name]()}

    def step(self):
        c = self.by_chance()
        if self.often(0.14):
            c = self.spoiled(c)
        self.last = c["command"]
        revision = self.session.state.revision
        c = {**c, "revision": self.chance.randrange(revision + 2) if self.often(0.03) else revision}
        status, body = self.session.reply(c)
        if status == 400:
            raise SystemExit(f"of no form: {json.dumps(c)}")
        self.counts[c["command"], body.get("refusal", "accepted")] += 1
        self.steps.append({"command": c})

    def case(self, name, shows, count):
        for _ in range(count):
            self.step()
        for (command, code), times in sorted(self.counts.items()):
            print(f"{name}: {command} {code}: {times}", file=sys.stderr)
        return {"name": name, "shows": shows, **{sort: [name] for sort, name in self.names.items()}, "steps": [*self.steps, {"look": {}}]}


def names(metamodel, viewpoint, model):
    return {"metamodel": f"{metamodel}.metamodel.json", "viewpoint": f"{viewpoint}.viewpoint.json", "model": f"{model}.model.json"}


def main():
    cases = [Walk(1, names("library", "shelves", "shelves")).case("walk_through_the_library", "700 commands by chance.", 700),
             Walk(2, names("harbour", "harbour", "harbour")).case("walk_round_the_harbour", "500 commands by chance.", 500)]
    print("[\n" + ",\n".join(told(case) for case in cases) + "\n]")


def told(case):
    """A case with each step on its own line."""
    head = json.dumps({name: value for name, value in case.items() if name != "steps"}, ensure_ascii=False)
    return " " + head[:-1] + ', "steps": [\n' + ",\n".join("  " + json.dumps(step, ensure_ascii=False) for step in case["steps"]) + "]}"


if __name__ == "__main__":
    main()
