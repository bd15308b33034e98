#!/usr/bin/env python3
"""What `draw` must print of a viewpoint over a model, from the words of docs/FORMATS.md and docs/DEFINITIONS.md alone.

    python3 expected/diagrams.py METAMODEL VIEWPOINT MODEL     prints the diagram, and its counts to the other output

The files must be of their forms, the viewpoint without problems, and the model with a root element. Every expression is evaluated where
the definitions ask for it, one after the other in the order of units. This program shares nothing with the crates.
"""
import functools
import json
import sys
from typing import NamedTuple

import evaluations
from evaluations import Collection, Evaluation, Fault, Object

MOST_UNITS, MOST_DECLARED, MOST_WEIGHT, MOST_PAIRS = 100000, 100000, 2000000, 32
DIAGRAM = ()


class TooLarge(Exception):
    """More units, more elements and edges, or more weight than a diagram has."""


class Edge(NamedTuple):
    mapping: int
    object: int
    source: tuple
    target: tuple


class View(NamedTuple):
    """What a state has beside its model: the root element, the names of the active additional layers and of the active filters, the
    elements that are marked shown, the elements and edges that are marked hidden, the positions by element, and the revision."""
    root: int
    layers: frozenset
    filters: frozenset = frozenset()
    shown: frozenset = frozenset()
    hidden: frozenset = frozenset()
    positions: dict = {}
    revision: int = 0


def opened(metamodel, diagram, model):
    """The view of an opened model, or none where no root is of the domain class: nothing is marked, hidden or placed, no filter is active."""
    root = next((o for o in model.roots if metamodel.conforms(model.kinds[o], diagram["domain"])), None)
    active = frozenset(layer["name"] for layer in diagram["layers"][1:] if layer.get("active", False))
    return None if root is None else View(root, active)


# ---- keys: that of an element is its pairs (mapping, object) from the top; that of the diagram has none

def pair_of(key):
    return (key.mapping, key.object) if isinstance(key, Edge) else key[-1]


def written(key):
    if isinstance(key, Edge):
        return f"{key.mapping}.{key.object}:{written(key.source)}:{written(key.target)}"
    return "-".join(f"{mapping}.{o}" for mapping, o in key) or "-"


# ---- expressions and what comes of them

@functools.lru_cache(maxsize=None)
def tree_of(text):
    sort, _, rest = text.partition(":")
    if sort == "feature":
        return ("feature", ("variable", "self"), rest)
    return ("variable", rest) if sort == "var" else evaluations.Parser(rest).whole()


class Outcome(NamedTuple):
    value: object
    fault: str
    reads: int

    def weight(self):
        if isinstance(self.value, Collection):
            return self.reads + len(self.value.members)
        return self.reads + len(self.value.encode()) // 16 if isinstance(self.value, str) else self.reads

    def objects(self):
        """The objects among the members, in order; a value that is no collection is one member, and null none."""
        members = self.value.members if isinstance(self.value, Collection) else [self.value]
        return [x.number for x in members if isinstance(x, Object)]


def first_places(objects):
    return list(dict.fromkeys(objects))


# ---- the diagram

class Diagram:
    """All that a viewpoint declares for a model and a view of it."""

    def __init__(self, metamodel, diagram, model, view):
        self.metamodel, self.model, self.view, self.layers, self.mappings = metamodel, model, view, diagram["layers"], diagram["mappings"]
        self.filters = diagram.get("filters", [])
        self.root = view.root
        self.units, self.weight, self.problems = [], 0, []
        self.top = self.numbers(diagram["top"])
        self.elements, self.edges, self.passing, self.filtered = [], {}, set(), set()
        self.declare_below(DIAGRAM)
        for number, mapping in enumerate(self.mappings):
            if mapping["kind"] in ("edge", "object-edge"):
                self.declare_edges(number, mapping)
        self.looks = {key: self.look(key) for key in [*self.elements, *self.edges]}
        for number, one in enumerate(self.filters):
            self.ask_filter(number, one)
        self.visible = {}
        for key in self.elements:
            self.visible[key] = self.is_let_through(key) and (len(key) == 1 or self.visible[key[:-1]])
        for edge in self.edges:
            self.visible[edge] = self.is_let_through(edge) and self.visible[edge.source] and self.visible[edge.target]

    def numbers(self, names):
        """Mappings by their names: of two mappings of one name the first is meant."""
        return [next(number for number, mapping in enumerate(self.mappings) if mapping["name"] == name) for name in names]

    # ---- units

    def evaluated(self, text, this, container=None):
        evaluation = Evaluation(self.model)
        env = {"self": Object(this)} if container is None else {"self": Object(this), "container": Object(container)}
        try:
            return Outcome(evaluation.value(tree_of(text), env), None, len(evaluation.reads))
        except Fault as fault:
            return Outcome(None, fault.args[0], len(evaluation.reads))

    def extent(self, domain):
        found = [Object(o) for o in sorted(self.model.kinds) if self.is_of(o, domain)]
        return Outcome(Collection("OrderedSet", found), None, 1)

    def is_of(self, o, domain):
        return o in self.model.kinds and self.metamodel.conforms(self.model.kinds[o], domain)

    def add(self, unit, outcome, fault):
        self.units.append(unit)
        self.weight += outcome.weight()
        if fault is not None:
            self.problems.append({"at": unit, "fault": fault})
        if len(self.units) > MOST_UNITS or self.weight > MOST_WEIGHT:
            raise TooLarge

    def objects(self, unit, outcome):
        self.add(unit, outcome, outcome.fault)
        return outcome.objects()

    def yes(self, unit, text, this, container=None):
        outcome = self.evaluated(text, this, container)
        is_bool = isinstance(outcome.value, bool)
        self.add(unit, outcome, outcome.fault or (None if is_bool else "NotBool"))
        return is_bool and outcome.value

    def label(self, unit, text, o):
        outcome = self.evaluated(text, o)
        form = evaluations.form(outcome.value)
        too_long = len(form.encode()) > evaluations.BYTES
        self.add(unit, outcome, outcome.fault or ("TextTooLong" if too_long else None))
        return "" if too_long else form

    # ---- elements

    def child_mappings(self, parent):
        if parent == DIAGRAM:
            return self.top
        mapping = self.mappings[parent[-1][0]]
        return self.numbers(mapping.get("children", [])) + self.numbers(mapping.get("borders", []))

    def is_cut(self, key):
        return key[-1] in key[:-1] or len(key) > MOST_PAIRS

    def candidates(self, number, parent, o):
        mapping = self.mappings[number]
        outcome = self.evaluated(mapping["candidates"], o) if "candidates" in mapping else self.extent(mapping["domain"])
        found = first_places(self.objects(f"candidates {number} {written(parent)}", outcome))
        keys = [parent + ((number, o),) for o in found if self.is_of(o, mapping["domain"])]
        return [key for key in keys if not self.is_cut(key)]

    def children(self, parent):
        """The elements below a parent. Those that pass and are not marked shown in an unsynchronised mapping are only noted as passing."""
        o = self.root if parent == DIAGRAM else parent[-1][1]
        found = []
        for number in self.child_mappings(parent):
            mapping = self.mappings[number]
            for key in self.candidates(number, parent, o):
                condition = mapping.get("precondition")
                passes = condition is None or self.yes(f"precondition {written(key)}", condition, key[-1][1], o)
                if passes:
                    self.passing.add(key)
                if passes and (mapping.get("synchronised", True) or key in self.view.shown):
                    found.append(key)
        return found

    def declare_below(self, parent):
        for key in self.children(parent):
            self.elements.append(key)
            self.stay_within_limit()
            self.declare_below(key)

    def stay_within_limit(self):
        if len(self.elements) + len(self.edges) > MOST_DECLARED:
            raise TooLarge

    # ---- edges

    def elements_of(self, names):
        """The elements of some mappings, by their objects, in declared order."""
        numbers, found = self.numbers(names), {}
        for key in self.elements:
            if key[-1][0] in numbers:
                found.setdefault(key[-1][1], []).append(key)
        return found

    def semantic_objects(self, number, mapping, sources):
        if mapping["kind"] == "edge":
            return list(sources)
        outcome = self.evaluated(mapping["candidates"], self.root) if "candidates" in mapping else self.extent(mapping["domain"])
        found = first_places(self.objects(f"edge-candidates {number}", outcome))
        return [o for o in found if self.is_of(o, mapping["domain"])]

    def declare_edges(self, number, mapping):
        sources, targets = self.elements_of(mapping["sources"]), self.elements_of(mapping["targets"])
        for o in self.semantic_objects(number, mapping, sources):
            if "precondition" in mapping and not self.yes(f"edge-precondition {number}.{o}", mapping["precondition"], o):
                continue
            from_objects = [o]
            if "sourceFinder" in mapping:
                from_objects = self.objects(f"source {number}.{o}", self.evaluated(mapping["sourceFinder"], o))
            to_objects = self.objects(f"target {number}.{o}", self.evaluated(mapping["targetFinder"], o))
            self.draw_between(number, o, sources, first_places(from_objects), targets, first_places(to_objects))

    def draw_between(self, number, o, sources, from_objects, targets, to_objects):
        """One edge for each turn of four loops: found source objects, the elements for each, found target objects, the elements for each.
        Equal keys count once, so an object that is found again adds nothing."""
        for one in from_objects:
            for source in sources.get(one, []):
                for other in to_objects:
                    for target in targets.get(other, []):
                        self.edges[Edge(number, o, source, target)] = True
                        self.stay_within_limit()

    # ---- looks, filters, layers

    def look(self, key):
        number, o = pair_of(key)
        mapping = self.mappings[number]
        used, style = 0, mapping["style"]
        for place, one in enumerate(mapping.get("styles", []), 1):
            if self.yes(f"style {place} {written(key)}", one["when"], o):
                used, style = place, one["style"]
                break
        label = self.label(f"label {used} {written(key)}", style["label"], o) if "label" in style else ""
        return {"shape": style["shape"], "color": style["color"], "label": label}

    def ask_filter(self, number, one):
        mappings = self.numbers(one["mappings"])
        for key in [*self.elements, *self.edges]:
            if pair_of(key)[0] in mappings:
                if self.yes(f"filter {number} {written(key)}", one["hides"], pair_of(key)[1]) and one["name"] in self.view.filters:
                    self.filtered.add(key)

    def is_on_active_layer(self, key):
        layer = self.mappings[pair_of(key)[0]].get("layer")
        return layer in (None, self.layers[0]["name"]) or layer in self.view.layers

    def is_let_through(self, key):
        """By layers, filters and marks: all but what lies around it or at its ends."""
        return self.is_on_active_layer(key) and key not in self.filtered and key not in self.view.hidden

    # ---- what is printed

    def shown(self, key):
        number, o = pair_of(key)
        own = {"key": written(key), "mapping": self.mappings[number]["name"], "object": o, **self.looks[key]}
        if isinstance(key, Edge):
            return {**own, "source": written(key.source), "target": written(key.target)}
        position = list(self.view.positions[key]) if key in self.view.positions else None
        return {**own, "parent": written(key[:-1]) if len(key) > 1 else None, "position": position}

    def picture(self):
        return {
            "edges": [self.shown(edge) for edge in self.edges if self.visible[edge]],
            "elements": [self.shown(key) for key in self.elements if self.visible[key]],
            "filters": [one["name"] for one in self.filters if one["name"] in self.view.filters],
            "layers": [layer["name"] for layer in self.layers[1:] if layer["name"] in self.view.layers],
            "problems": self.problems,
            "revision": self.view.revision,
        }


def diagram_of(metamodel, viewpoint, model):
    """The diagram of three files as they are opened, or none where it is too large."""
    metamodel = evaluations.Metamodel(metamodel)
    model = evaluations.Model(metamodel, model)
    return diagram_in(metamodel, viewpoint["diagram"], model, opened(metamodel, viewpoint["diagram"], model))


def diagram_in(metamodel, diagram, model, view):
    """The diagram of a model and a view, or none where it is too large."""
    try:
        return Diagram(metamodel, diagram, model, view)
    except TooLarge:
        return None


def facts_of(diagram):
    """What a case may say of a diagram. Keys and looks are those that are served; counts and units are those of all that is declared."""
    picture = diagram.picture()
    shown = picture["elements"] + picture["edges"]
    facts = {name: picture[name] for name in ("revision", "filters", "layers", "problems")}
    facts["positions"] = {one["key"]: one["position"] for one in picture["elements"]}
    for sort in ("element", "edge"):
        facts[f"{sort}_keys"] = [one["key"] for one in picture[f"{sort}s"]]
        facts[f"{sort}_keys_of"] = {mapping["name"]: [one["key"] for one in picture[f"{sort}s"] if one["mapping"] == mapping["name"]]
                                    for mapping in diagram.mappings}
    for name in ("label", "color", "shape"):
        facts[f"{name}s"] = {one["key"]: one[name] for one in shown}
    facts["label_bytes"] = {key: len(label.encode()) for key, label in facts["labels"].items()}
    facts["counts"] = {"elements": len(diagram.elements), "edges": len(diagram.edges), "units": len(diagram.units), "weight": diagram.weight}
    facts["units"] = diagram.units
    return facts


def differing(wanted, diagram):
    """The facts of a case that do not hold. Of a fact by key or by name only what the case says counts."""
    facts = facts_of(diagram)
    for name, value in wanted.items():
        found = facts[name]
        if isinstance(value, dict):
            found = {key: found.get(key) for key in value}
        if found != value:
            yield f"{name} {json.dumps(found)} and not {json.dumps(value)}"


def served(diagram):
    return json.dumps(diagram.picture(), ensure_ascii=False, sort_keys=True, separators=(",", ":"))


def printed(diagram):
    """The status, and what is printed."""
    return (5, "diagram too large\n") if diagram is None else (0, served(diagram) + "\n")


def main():
    files = []
    for name in sys.argv[1:4]:
        with open(name, encoding="utf-8") as file:
            files.append(json.load(file))
    diagram = diagram_of(*files)
    if diagram is not None:
        print(f"{len(diagram.elements)} elements, {len(diagram.edges)} edges, {len(diagram.units)} units, weight {diagram.weight}", file=sys.stderr)
    status, text = printed(diagram)
    print(text, end="")
    sys.exit(status)


if __name__ == "__main__":
    main()
