"""Models and edits from the words of their definitions, for models.py.

A model is a list of links (object, feature, value) that is filtered and appended to. Nothing is shared with the crates.
"""
import json
from types import SimpleNamespace

MOST_OBJECTS, MOST_VALUES, MOST_BYTES, LAST = 20000, 20000, 65536, 4294967295


class Metamodel:
    """Classes and features by their numbers: their places in the document. A kind is Int, Bool, Text, Enum with a number, or Object with a class."""

    def __init__(self, text):
        self.classes, self.features = text["classes"], []
        self.class_numbers = {c["name"]: n for n, c in enumerate(self.classes)}
        self.enums = [e["literals"] for e in text.get("enums", [])]
        enum_numbers = {e["name"]: n for n, e in enumerate(text.get("enums", []))}
        for owner, c in enumerate(self.classes):
            for f in c.get("features", []):
                kind = ("Object", self.class_numbers[f["reference"]]) if "reference" in f else (
                    ("Enum", enum_numbers[f["type"]]) if f["type"] in enum_numbers else (f["type"],))
                self.features.append(SimpleNamespace(
                    name=f["name"], owner=owner, kind=kind, many=f.get("many", False), containment=f.get("containment", False),
                    opposite=f.get("opposite"), shown=f"{c['name']}.{f['name']}"))
        for f in self.features:
            if f.opposite is not None:
                f.opposite = next(g for g, other in enumerate(self.features) if other.owner == f.kind[1] and other.name == f.opposite)
        for f in self.features:
            f.plain = not f.containment and (f.opposite is None or not self.features[f.opposite].containment)

    def above(self, c):
        return [self.class_numbers[name] for name in self.classes[c].get("supertypes", [])]

    def conforms(self, a, b):
        return a == b or any(self.conforms(c, b) for c in self.above(a))

    def features_of(self, c):
        listed = [f for s in self.above(c) for f in self.features_of(s)] + [f for f, x in enumerate(self.features) if x.owner == c]
        return list(dict.fromkeys(listed))

    def named(self, c, name):
        return next((f for f in self.features_of(c) if self.features[f].name == name), None)


class Model:
    """`next`, the classes of objects, the links, and the roots. A value is its kind and what it is: ("Int", 7), ("Enum", 0, 1), ("Object", 2)."""

    def __init__(self, metamodel, next, kinds, links, roots):
        self.metamodel, self.next, self.kinds, self.links, self.roots = metamodel, next, kinds, links, roots

    def feature(self, f):
        return self.metamodel.features[f]

    def slot(self, o, f):
        return [v for a, b, v in self.links if (a, b) == (o, f)]

    def holder(self, o):
        return next(((a, f) for a, f, v in self.links if self.feature(f).containment and v == ("Object", o)), None)

    def tree(self, o):
        below = []
        for f in self.metamodel.features_of(self.kinds[o]) if o in self.kinds else []:
            for _, p in self.slot(o, f) if self.feature(f).containment else []:
                below += [p] + self.tree(p)
        return below

    def inverse(self, o):
        return sorted((a, f) for a, f, v in self.links if self.feature(f).plain and v == ("Object", o))

    def extent(self, c):
        return [o for o in sorted(self.kinds) if self.metamodel.conforms(self.kinds[o], c)]

    def is_of_kind(self, f, v):
        kind = self.feature(f).kind
        return kind[0] == v[0] and (
            v[1] in self.kinds and self.metamodel.conforms(self.kinds[v[1]], kind[1]) if v[0] == "Object"
            else kind[1] == v[1] and v[2] < len(self.metamodel.enums[v[1]]) if v[0] == "Enum"
            else len(v[1].encode()) <= MOST_BYTES if v[0] == "Text" else True)

    # ---- edits: each answers `done`, or the first refusal in the order of the definition

    def unknown(self, *values):
        return any(v[0] == "Object" and v[1] not in self.kinds for v in values)

    def is_plain(self, o, f, many):
        return f in self.metamodel.features_of(self.kinds[o]) and self.feature(f).plain and self.feature(f).many in many

    def is_full(self, o, f):
        return len(self.slot(o, f)) >= MOST_VALUES

    def without(self, *gone):
        self.links = [link for link in self.links if link not in gone]

    def leave(self, o, f, *values):
        gone = {(o, f, v) for v in values} | {(v[1], self.feature(f).opposite, ("Object", o)) for v in values}
        self.links = [link for link in self.links if link not in gone]

    def enter(self, o, f, v):
        g = self.feature(f).opposite
        if g is not None and not self.feature(g).many:
            for q in self.slot(v[1], g):
                self.without((v[1], g, q), (q[1], f, v))
        self.links = self.links + [(o, f, v)] + ([] if g is None else [(v[1], g, ("Object", o))])

    def put(self, o, f, v, many):
        """`set` and `add`."""
        g = self.feature(f).opposite
        if self.unknown(("Object", o), v):
            return "UnknownObject"
        if not self.is_plain(o, f, (many,)) or not self.is_of_kind(f, v):
            return "KindMismatch"
        if v in self.slot(o, f):
            return "done"
        if many and self.is_full(o, f) or g is not None and self.feature(g).many and self.is_full(v[1], g):
            return "UpperBound"
        if not many:
            self.leave(o, f, *self.slot(o, f))
        self.enter(o, f, v)
        return "done"

    def take(self, o, f, v):
        if self.unknown(("Object", o), v):
            return "UnknownObject"
        if not self.is_plain(o, f, (True,)) or not self.is_of_kind(f, v):
            return "KindMismatch"
        if v in self.slot(o, f):
            self.leave(o, f, v)
        return "done"

    def unset(self, o, f):
        if self.unknown(("Object", o)):
            return "UnknownObject"
        if not self.is_plain(o, f, (False, True)):
            return "KindMismatch"
        self.leave(o, f, *self.slot(o, f))
        return "done"

    def has_no_place(self, c, p, f):
        holds = f in self.metamodel.features_of(self.kinds[p]) and self.feature(f).containment
        return not holds or not self.metamodel.conforms(c, self.feature(f).kind[1])

    def is_taken(self, p, f):
        return self.is_full(p, f) if self.feature(f).many else self.slot(p, f) != []

    def create(self, c, p, f):
        """In the slot of p and f, or among the roots where p is none."""
        if p is not None and self.unknown(("Object", p)):
            return "UnknownObject"
        if p is not None and self.has_no_place(c, p, f):
            return "KindMismatch"
        if p is not None and self.is_taken(p, f):
            return "UpperBound"
        if self.metamodel.classes[c].get("abstract", False):
            return "AbstractClass"
        if len(self.kinds) >= MOST_OBJECTS:
            return "TooManyObjects"
        if self.next == LAST:
            return "IdsSpent"
        o, self.next = self.next, self.next + 1
        self.kinds[o] = c
        if p is None:
            self.roots = self.roots + [o]
        else:
            self.enter(p, f, ("Object", o))
        return f"created {o}"

    def move(self, o, p, f):
        if self.unknown(("Object", o), ("Object", p)):
            return "UnknownObject"
        if self.has_no_place(self.kinds[o], p, f):
            return "KindMismatch"
        if self.holder(o) == (p, f):
            return "done"
        if self.is_taken(p, f):
            return "UpperBound"
        if p == o or p in self.tree(o):
            return "ContainmentCycle"
        if self.holder(o):
            self.leave(*self.holder(o), ("Object", o))
        self.roots = [r for r in self.roots if r != o]
        self.enter(p, f, ("Object", o))
        return "done"

    def remove(self, o):
        if self.unknown(("Object", o)):
            return "UnknownObject"
        gone = [o] + self.tree(o)
        self.links = [(a, f, v) for a, f, v in self.links if a not in gone and (v[0] != "Object" or v[1] not in gone)]
        self.roots = [r for r in self.roots if r not in gone]
        self.kinds = {p: c for p, c in self.kinds.items() if p not in gone}
        return "done"

    # ---- texts

    def row(self, o):
        return self.row_of(o, [link for link in self.links if link[0] == o])

    def row_of(self, o, links):
        """The class and the slots of an object, whose links these are."""
        slots = {}
        for _, f, v in links:
            slots.setdefault(self.feature(f).name, []).append(self.metamodel.enums[v[1]][v[2]] if v[0] == "Enum" else v[1])
        many = {self.feature(f).name for _, f, _ in links if self.feature(f).many}
        return {"class": self.metamodel.classes[self.kinds[o]]["name"],
                "slots": {name: values if name in many else values[0] for name, values in slots.items()}}

    def told(self):
        """The model as a value of JSON."""
        links = {o: [] for o in self.kinds}
        for link in self.links:
            links[link[0]].append(link)
        return {"next": self.next, "objects": [{"id": o, **self.row_of(o, links[o])} for o in sorted(self.kinds)], "roots": self.roots}

    def text(self):
        return written(self.told())


def written(value):
    return json.dumps(value, ensure_ascii=False, separators=(",", ":"), sort_keys=True)
