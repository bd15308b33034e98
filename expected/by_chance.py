#!/usr/bin/env python3
"""Makes cases of `draw` by chance: a metamodel, a model and a viewpoint each, small, from a seed.

    python3 expected/by_chance.py > crates/cases_program/data/by_chance.json

The metamodel has classes below others, enumerations, containments and opposites. The model is grown by edits (`plain_models.py`), which keep
it valid. The viewpoint is of its form and without problems (`viewpoints.py`); its expressions know all their names, and often have a
fault. What a case has to print is what `diagrams.py` draws; a case is kept where that is neither empty nor long.
"""
import json
import random

import diagrams
import plain_files
import plain_models
import viewpoints
from sketches import case, compact, tell

COUNT, LONGEST = 100, 5000
CLASSES = ["Town", "House", "Room", "Guest", "Bill"]


class Metamodel:
    """Town holds everything else, some of it in other things."""

    def __init__(self, chance):
        self.chance, self.classes = chance, [{"name": name, "features": []} for name in CLASSES]
        self.enums = [{"name": "Mood", "literals": ["calm", "loud", "odd"]}]
        for place, one in enumerate(self.classes[2:], 2):
            if chance.random() < 0.5:
                one["supertypes"] = [self.classes[chance.randrange(1, place)]["name"]]
        if chance.random() < 0.5 and any("House" in one.get("supertypes", []) for one in self.classes):
            self.classes[1]["abstract"] = True
        self.made = 0
        for one in self.classes[1:]:
            self.add(0, reference=one["name"], containment=True, many=chance.random() < 0.9)
        for place in range(1, len(CLASSES)):
            for kind in chance.sample(["Text", "Int", "Bool", "Mood"], 2):
                self.add(place, type=kind, many=chance.random() < 0.15)
        for _ in range(chance.randrange(2, 5)):
            self.pair(chance.randrange(1, len(CLASSES)), chance.randrange(1, len(CLASSES)))
        if chance.random() < 0.6:
            self.pair(chance.randrange(0, 3), chance.randrange(1, 5), containment=True)
        self.text = {"package": "p", "enums": self.enums, "classes": self.classes}

    def add(self, place, **members):
        self.made += 1
        feature = {"name": f"{members.get('type', members.get('reference', '')).lower()}{self.made}", **{name: value for name, value in members.items() if value is not False}}
        self.classes[place]["features"].append(feature)
        return feature

    def pair(self, one, other, containment=False):
        """A reference, sometimes with an opposite."""
        first = self.add(one, reference=CLASSES[other], many=self.chance.random() < 0.6, containment=containment)
        if self.chance.random() < 0.5:
            second = self.add(other, reference=CLASSES[one], many=not containment and self.chance.random() < 0.5)
            first["opposite"], second["opposite"] = second["name"], first["name"]


def grown(chance, metamodel):
    """A model after some edits."""
    m = plain_models.Model(metamodel, 1, {}, [], [])
    m.create(0, None, None)
    for _ in range(chance.randrange(6, 14)):
        c = chance.randrange(1, len(CLASSES))
        holders = [(p, f) for p in m.kinds for f in metamodel.features_of(m.kinds[p]) if metamodel.features[f].containment and not m.has_no_place(c, p, f)]
        m.create(c, *(chance.choice(holders) if holders else (None, None)))
    if chance.random() < 0.3:
        m.create(0, None, None)
    if chance.random() < 0.3:
        m.remove(chance.choice(sorted(m.kinds)[1:]))
    for _ in range(40):
        o = chance.choice(sorted(m.kinds))
        f = chance.choice(metamodel.features_of(m.kinds[o]))
        feature = metamodel.features[f]
        if feature.plain:
            m.put(o, f, value(chance, m, feature.kind), feature.many)
    return m


def value(chance, m, kind):
    if kind[0] == "Object":
        return ("Object", chance.choice(m.extent(kind[1]) or [1]))
    return {"Int": ("Int", chance.randrange(-3, 10)), "Bool": ("Bool", chance.random() < 0.5), "Text": ("Text", chance.choice(["a", "bb", "", "é \"q\"", "c\n"])),
            "Enum": ("Enum", 0, chance.randrange(3))}[kind[0]]


# ---- expressions of a sort, mostly. A scope has the class of each variable, where it is known; so have objects and collections

class Expressions:
    def __init__(self, chance, metamodel):
        self.chance, self.metamodel, self.names = chance, metamodel, 0

    def feature(self, of, sorts, many=(False, True)):
        """A feature of a sort, mostly one of the class; none where there is none."""
        own = self.metamodel.features_of(of) if of is not None and self.chance.random() < 0.95 else range(len(self.metamodel.features))
        fitting = [self.metamodel.features[f] for f in own if self.metamodel.features[f].kind[0] in sorts and self.metamodel.features[f].many in many]
        return self.chance.choice(fitting) if fitting else None

    def type(self):
        c = self.chance.randrange(len(CLASSES))
        return f"p::{CLASSES[c]}", c

    def one_of(self, *ways):
        return self.chance.choice(ways)()

    def any(self, scope, deep):
        return self.one_of(lambda: self.object(scope, deep)[0], lambda: self.many(scope, deep)[0], lambda: self.truth(scope, deep), lambda: self.number(scope, deep),
                           lambda: self.text(scope, deep))

    def variable(self, scope):
        name = self.chance.choice(["self", *scope])
        return name, scope[name]

    def seen(self, scope, sorts, many=(False, True)):
        """A feature of a variable, or the variable where there is none; and the class of it."""
        known = [name for name in scope if scope[name] is not None and self.feature(scope[name], sorts, many)] or ["self"]
        name = self.chance.choice(known)
        feature = self.feature(scope[name], sorts, many)
        if feature is None:
            return name, scope[name]
        return f"{name}.{feature.name}", feature.kind[1] if feature.kind[0] == "Object" else None

    def object(self, scope, deep):
        ways = [lambda: self.variable(scope), lambda: self.seen(scope, ("Object",), (False,)), lambda: self.seen(scope, ("Object",), (False,))]
        if deep:
            ways += [lambda: self.called(self.many(scope, deep - 1), "->" + self.chance.choice(["first()", "last()", "at(2)"])),
                     lambda: (self.object(scope, deep - 1)[0] + ".eContainer()", None), lambda: self.typed(self.object(scope, deep - 1), ".oclAsType"),
                     lambda: self.lambda_of("any", scope, deep)]
        return self.one_of(*ways)

    def called(self, receiver, service):
        return receiver[0] + service, receiver[1]

    def typed(self, receiver, service):
        name, c = self.type()
        return f"{receiver[0]}{service}({name})", c

    def lambda_of(self, service, scope, deep, body=None):
        self.names += 1
        name, receiver = f"x{self.names}", self.many(scope, deep - 1)
        inner = (body or self.truth)({**scope, name: receiver[1]}, deep - 1)
        return f"{receiver[0]}->{service}({name} | {inner[0] if isinstance(inner, tuple) else inner})", inner[1] if isinstance(inner, tuple) else receiver[1]

    def many(self, scope, deep):
        ways = [lambda: self.seen(scope, ("Object",), (True,))]
        if deep:
            ways += [lambda: self.lambda_of(self.chance.choice(["select", "reject"]), scope, deep), lambda: self.lambda_of("collect", scope, deep, self.object),
                     lambda: (f"Sequence{{{self.object(scope, deep - 1)[0]}, {self.any(scope, deep - 1)}, {self.object(scope, 0)[0]}}}", None),
                     lambda: self.typed(self.many(scope, deep - 1), "->filter"), lambda: self.navigated(self.many(scope, deep - 1)),
                     lambda: (self.object(scope, 0)[0] + "." + self.chance.choice(["eContents()", "eAllContents()", "eInverse()", "ancestors()", "siblings()", "followingSiblings()"]), None),
                     lambda: self.typed(self.object(scope, 0), ".eAllContents"), lambda: self.called(self.many(scope, deep - 1), f"->including({self.object(scope, 0)[0]})"),
                     lambda: self.called(self.many(scope, deep - 1), f"->excluding({self.object(scope, 0)[0]})"),
                     lambda: self.called(self.many(scope, deep - 1), "->asSequence()")]
        return self.one_of(*ways)

    def navigated(self, receiver):
        feature = self.feature(receiver[1], ("Object",))
        return receiver if feature is None or receiver[1] is None else (f"{receiver[0]}.{feature.name}", feature.kind[1])

    def truth(self, scope, deep):
        ways = [lambda: self.seen(scope, ("Bool",), (False,))[0], lambda: self.chance.choice(["true", "false", "true", "null"]),
                lambda: f"{self.object(scope, 0)[0]} <> {self.object(scope, 0)[0]}"]
        if deep:
            ways += [lambda: f"{self.number(scope, deep - 1)} {self.chance.choice(['<', '>=', '=', '<>'])} {self.number(scope, deep - 1)}",
                     lambda: self.many(scope, deep - 1)[0] + "->" + self.chance.choice(["isEmpty()", "notEmpty()"]), lambda: f"not ({self.truth(scope, deep - 1)})",
                     lambda: f"({self.truth(scope, deep - 1)}) {self.chance.choice(['and', 'or', 'implies', 'xor'])} ({self.truth(scope, deep - 1)})",
                     lambda: f"{self.object(scope, 0)[0]}.oclIsKindOf({self.type()[0]})", lambda: self.lambda_of(self.chance.choice(["exists", "forAll"]), scope, deep)[0],
                     lambda: f"{self.many(scope, deep - 1)[0]}->includes({self.object(scope, 0)[0]})",
                     lambda: f"{self.seen(scope, ('Enum',))[0]} = p::Mood::{self.chance.choice(['calm', 'loud'])}"]
        return self.one_of(*ways)

    def number(self, scope, deep):
        ways = [lambda: str(self.chance.randrange(4)), lambda: self.seen(scope, ("Int",), (False,))[0]]
        if deep:
            ways += [lambda: self.many(scope, deep - 1)[0] + "->size()", lambda: f"{self.number(scope, 0)} {self.chance.choice(['+', '-', '*', 'div'])} {self.number(scope, 0)}"]
        return self.one_of(*ways)

    def text(self, scope, deep):
        ways = [lambda: self.chance.choice(["'a'", "'é'", "''"]), lambda: self.seen(scope, ("Text", "Enum", "Int"))[0]]
        if deep:
            ways += [lambda: f"'/' + ({self.any(scope, deep - 1)})", lambda: f"'<'.concat({self.any(scope, deep - 1)})",
                     lambda: f"if {self.truth(scope, deep - 1)} then {self.text(scope, 0)} else {self.any(scope, 0)} endif"]
        return self.one_of(*ways)


# ---- viewpoints

class Viewpoint:
    def __init__(self, chance, metamodel):
        self.chance, self.metamodel, self.say = chance, metamodel, Expressions(chance, metamodel)
        self.layers = [{"name": f"L{n}", **({"active": True} if chance.random() < 0.6 else {})} for n in range(chance.randrange(1, 4))]
        self.mappings, self.top = [], []
        for _ in range(chance.randrange(3, 6)):
            self.element()
        for _ in range(chance.randrange(1, 4)):
            self.edge()
        filters = [{"name": f"F{n}", "mappings": self.some(self.mappings), "hides": "aql:" + self.say.truth({"self": None}, 2)} for n in range(chance.choice([0, 0, 1, 2]))]
        self.text = {"viewpoint": "V", "diagram": {"name": "D", "domain": "Town", "layers": self.layers, "top": self.top, "mappings": self.mappings,
                                                   **({"filters": filters} if filters else {})}}

    def some(self, mappings):
        return [one["name"] for one in mappings if self.chance.random() < 0.6]

    def style(self, of):
        label = {"label": "aql:" + self.say.text({"self": of}, 2)} if self.chance.random() < 0.6 else {}
        return {"shape": self.chance.choice(["box", "oval"]), "color": self.chance.choice(["red", "blue", "white"]), **label}

    def common(self, of, **container):
        members = {}
        if self.chance.random() < 0.35:
            members["precondition"] = "aql:" + self.say.truth({"self": of, **container}, 2)
        if self.chance.random() < 0.3:
            members["layer"] = self.chance.choice(self.layers)["name"]
        members["style"] = self.style(of)
        if self.chance.random() < 0.4:
            members["styles"] = [{"when": "aql:" + self.say.truth({"self": of}, 2), "style": self.style(of)} for _ in range(self.chance.randrange(1, 3))]
        return members

    def candidates(self, of, domain):
        way = self.chance.random()
        if way < 0.2:
            return {}
        if way < 0.5:
            names = [self.metamodel.features[f].name for f in self.metamodel.features_of(of) if self.metamodel.features[f].kind[0] == "Object"]
            return {"candidates": f"feature:{self.chance.choice(names)}"} if names else {}
        if way < 0.6:
            return {"candidates": f"aql:self.eAllContents()->filter(p::{CLASSES[domain]})"}
        return {"candidates": self.finder(of)}

    def finder(self, of):
        """What finds objects, mostly."""
        scope = {"self": of}
        return "aql:" + self.say.one_of(*[lambda: self.say.many(scope, 2)[0]] * 4, *[lambda: self.say.object(scope, 2)[0]] * 3, lambda: self.say.any(scope, 2))

    def element(self):
        """A mapping on top, or under an earlier one."""
        number = len(self.mappings)
        domain = self.chance.randrange(1, len(CLASSES)) if self.chance.random() < 0.9 else 0
        parents = [(one, way) for one in self.mappings if one["kind"] != "edge" for way in ("children", "borders") if self.may_hold(one, way)]
        parent, way = self.chance.choice(parents) if parents and self.chance.random() < 0.65 else (None, None)
        kind = "border" if way == "borders" else "node" if parent and parent["kind"] == "list" else self.chance.choice(["node", "container", "container", "list"])
        of = CLASSES.index(parent["domain"]) if parent else 0
        mapping = {"name": f"M{number}", "kind": kind, "domain": CLASSES[domain], **self.candidates(of, domain)}
        if self.chance.random() < 0.1:
            mapping["synchronised"] = self.chance.random() < 0.5
        mapping.update(self.common(domain, container=of))
        if kind == "container" and self.chance.random() < 0.2:
            mapping["children"] = [mapping["name"]]
        self.mappings.append(mapping)
        names = self.top if parent is None else parent.setdefault(way, [])
        names.insert(self.chance.randrange(len(names) + 1), mapping["name"])

    def may_hold(self, one, way):
        in_a_list = any(other["kind"] == "list" and one["name"] in other.get("children", []) for other in self.mappings)
        return not in_a_list and (way == "borders" or one["kind"] in ("container", "list"))

    def edge(self):
        ends = {"sources": self.some(self.mappings), "targets": self.some(self.mappings)}
        ends = {name: [one for one in names if not one.startswith("E")] for name, names in ends.items()}
        name, domain = f"E{len(self.mappings)}", self.chance.randrange(1, len(CLASSES))
        finder = lambda of: self.finder(of) if self.chance.random() < 0.8 else "var:self"
        represented = [CLASSES.index(one["domain"]) for one in self.mappings if one["name"] in ends["sources"]]
        of = represented[0] if len(set(represented)) == 1 else None
        if self.chance.random() < 0.5:
            self.mappings.append({"name": name, "kind": "edge", **ends, "targetFinder": finder(of), **self.common(of)})
        else:
            self.mappings.append({"name": name, "kind": "object-edge", "domain": CLASSES[domain], **self.candidates(0, domain), **ends, "sourceFinder": finder(domain),
                                  "targetFinder": finder(domain), **self.common(domain)})


# what a case has to show, in turns: elements three deep, edges, few problems
WANTED = [lambda d: any(len(key) > 2 for key in d.elements), lambda d: len(d.edges) > 1, lambda d: len(d.problems) < 4 and len(d.mappings) > 5]


def made(seed, is_wanted):
    """The case of a seed, or none where it does not show what is wanted, or shows little or much."""
    chance = random.Random(seed)
    document = Metamodel(chance).text
    metamodel = plain_models.Metamodel(document)
    text = grown(chance, metamodel).text()
    plain_files.read(metamodel, text)
    viewpoint = Viewpoint(chance, metamodel).text
    if viewpoints.checked(document, compact(viewpoint), "")[0]:
        return None
    diagram = diagrams.diagram_of(document, viewpoint, json.loads(text))
    if diagram is None or len(diagram.elements) < 3 or not is_wanted(diagram) or len(diagrams.printed(diagram)[1]) > LONGEST:
        return None
    return case(f"by_chance_{seed}", f"A viewpoint by chance, from the seed {seed}.", viewpoint, json.loads(text), document)


def main():
    cases, seed = [], 0
    while len(cases) < COUNT:
        one = made(seed, WANTED[len(cases) % len(WANTED)])
        cases += [one] if one else []
        seed += 1
    tell(cases)


if __name__ == "__main__":
    main()
