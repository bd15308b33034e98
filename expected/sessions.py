#!/usr/bin/env python3
"""What the program `cases_session` must print: the replies to the commands of each case, and what stands after them.

    python3 expected/sessions.py crates/cases_session/data/sessions.json     prints it

A state is a whole: the root element, a body (model, marks, positions, what is active), `next`, the revision, and past and future as whole
bodies. A command is a step from one state to the next, or the first refusal of a list. Diagrams are drawn anew for each state by
`diagrams.py`, edits are those of `plain_models.py`. Nothing is shared with the crates.
"""
import hashlib
import json
import os
import re
import sys
from typing import NamedTuple

import commands
import diagrams
import evaluations
import plain_files
import plain_models
import tools
from diagrams import DIAGRAM, Edge, View
from program import LONG, MADE, loaded

FARTHEST, MOST_STEPS = 1000000, 100


class Refused(Exception):
    """The code of a refusal."""


# ---- states

class Body(NamedTuple):
    """All that undo and redo restore. The `next` of its model does not count."""
    model: plain_models.Model
    layers: frozenset
    filters: frozenset = frozenset()
    shown: frozenset = frozenset()
    hidden: frozenset = frozenset()
    positions: dict = {}


class State(NamedTuple):
    root: int
    body: Body
    next: int
    revision: int = 0
    past: tuple = ()
    future: tuple = ()

    def model(self):
        model = self.body.model
        return plain_models.Model(model.metamodel, self.next, dict(model.kinds), model.links, model.roots)


class Viewpoint:
    def __init__(self, metamodel, viewpoint):
        self.metamodel, self.named, self.diagram = plain_models.Metamodel(metamodel), evaluations.Metamodel(metamodel), viewpoint["diagram"]
        self.mappings = self.diagram["mappings"]
        self.numbers = {mapping["name"]: number for number, mapping in enumerate(self.mappings)}
        self.layers = {layer["name"] for layer in self.diagram["layers"][1:]}
        self.filters = {one["name"] for one in self.diagram.get("filters", [])}
        self.tools = {one["name"]: one for one in self.diagram.get("tools", [])}

    def drawn(self, state):
        """The diagram of a state, or none where it is too large."""
        body = state.body
        model = evaluations.Model(self.named, body.model.told())
        view = View(state.root, body.layers, body.filters, body.shown, body.hidden, body.positions, state.revision)
        return diagrams.diagram_in(self.named, self.diagram, model, view)

    def opened(self, model):
        """The first state: nothing is marked or placed, and of the layers and filters those layers are active that are declared so."""
        view = diagrams.opened(self.named, self.diagram, evaluations.Model(self.named, model.told()))
        if view is None:
            raise Refused("no_root")
        return State(view.root, Body(model, view.layers), model.next)

    def is_synchronised(self, number):
        return is_edge_mapping(self.mappings[number]) or self.mappings[number].get("synchronised", True)

    def is_placeable(self, key):
        """Edges cannot be placed, nor the elements that a list has by its `children`."""
        if isinstance(key, Edge) or len(key) == 1:
            return not isinstance(key, Edge)
        parent, name = self.mappings[key[-2][0]], self.mappings[key[-1][0]]["name"]
        return parent["kind"] != "list" or name not in parent.get("children", [])


def is_edge_mapping(mapping):
    return mapping["kind"] in ("edge", "object-edge")


# ---- keys

def pair_in(text):
    mapping, o = text.split(".")
    return int(mapping), int(o)


def path_in(text):
    return tuple(pair_in(pair) for pair in text.split("-"))


def key_in(text):
    """The key that a text spells."""
    own, *ends = text.split(":")
    return Edge(*pair_in(own), *map(path_in, ends)) if ends else path_in(own)


# ---- the refusals of a command before its state is tried, in their order; each holds of a viewpoint, a state, its diagram and a command

def objects_named(c):
    found = [c.get("object"), c.get("in"), c["value"]["object"] if isinstance(c.get("value"), dict) else None]
    return [o for o in found if o is not None]


def class_named_from(s, c):
    """The class of `in` where the command has that member, else of `object`."""
    return s.body.model.kinds[c["in"] if "in" in c else c["object"]]


def is_unknown_class(v, s, d, c):
    return "class" in c and c["class"] not in v.metamodel.class_numbers


def is_unknown_feature(v, s, d, c):
    return c.get("feature") is not None and v.metamodel.named(class_named_from(s, c), c["feature"]) is None


def is_unknown_tool(v, s, d, c):
    return c["command"] == "tool" and c["tool"] not in v.tools


def has_bad_arguments(v, s, d, c):
    """Exactly those of the kind; the end of an edge goes to an element, and a text is one that a model may hold."""
    if c["command"] != "tool":
        return False
    kind, arguments = v.tools[c["tool"]]["kind"], c["arguments"]
    return set(arguments) != tools.ARGUMENTS[kind] or len(arguments.get("arg0", "").encode()) > plain_models.MOST_BYTES or kind == "reconnect" and arguments["to"] is None


def wanted_keys(v, c):
    """The keys that a command names, and whether each has to be that of a node, of an edge, or of either."""
    if c["command"] == "tool":
        return tools.wanted_keys(v.tools[c["tool"]], c["arguments"])
    name, sort = ("parent", "node") if c["command"] == "show" else ("key", "either")
    return [(c[name], sort)] if c.get(name) is not None else []


def is_declared(d, key):
    return key in d.edges if isinstance(key, Edge) else key in d.keys


def is_unknown_element(v, s, d, c):
    keys = [(key_in(text), sort) for text, sort in wanted_keys(v, c)]
    return any(not is_declared(d, key) or sort == ("node" if isinstance(key, Edge) else "edge") for key, sort in keys)


def is_not_placeable(v, s, d, c):
    return c["command"] == "move" and not v.is_placeable(key_in(c["key"]))


def is_out_of_range(v, s, d, c):
    return c["command"] == "move" and not all(-FARTHEST <= c[name] <= FARTHEST for name in "xy")


def is_not_unsynchronised(v, s, d, c):
    if c["command"] == "show":
        return c["mapping"] in v.numbers and v.is_synchronised(v.numbers[c["mapping"]])
    return c["command"] == "unshow" and v.is_synchronised(diagrams.pair_of(key_in(c["key"]))[0])


def shown_key(v, c):
    return (DIAGRAM if c["parent"] is None else key_in(c["parent"])) + ((v.numbers[c["mapping"]], c["object"]),)


def is_no_candidate(v, s, d, c):
    """Below a declared parent all keys are noted that pass, marked or not: these would be declared with the mark."""
    return c["command"] == "show" and (c["mapping"] not in v.numbers or shown_key(v, c) not in d.passing)


REFUSALS = [
    ("stale", lambda v, s, d, c: c["revision"] != s.revision),
    ("revisions_spent", lambda v, s, d, c: s.revision == commands.LAST_REVISION),
    ("unknown_object", lambda v, s, d, c: any(o not in s.body.model.kinds for o in objects_named(c))),
    ("unknown_class", is_unknown_class),
    ("unknown_feature", is_unknown_feature),
    ("unknown_tool", is_unknown_tool),
    ("bad_arguments", has_bad_arguments),
    ("unknown_element", is_unknown_element),
    ("unknown_layer", lambda v, s, d, c: c["command"] == "layer" and c["layer"] not in v.layers),
    ("unknown_filter", lambda v, s, d, c: c["command"] == "filter" and c["filter"] not in v.filters),
    ("not_placeable", is_not_placeable),
    ("position_out_of_range", is_out_of_range),
    ("not_unsynchronised", is_not_unsynchronised),
    ("not_candidate", is_no_candidate),
    ("nothing_to_undo", lambda v, s, d, c: c["command"] == "undo" and not s.past),
    ("nothing_to_redo", lambda v, s, d, c: c["command"] == "redo" and not s.future),
]


# ---- what a command tries

def value_of(v, s, c, feature):
    """A string is a literal where the feature's enumeration has it."""
    value, kind = c["value"], v.metamodel.features[feature].kind
    if isinstance(value, dict):
        return ("Object", value["object"])
    if isinstance(value, bool):
        return ("Bool", value)
    if isinstance(value, int):
        return ("Int", value)
    literals = v.metamodel.enums[kind[1]] if kind[0] == "Enum" else []
    return ("Enum", kind[1], literals.index(value)) if value in literals else ("Text", value)


def in_snakes(name):
    return re.sub("(?<=[a-z])(?=[A-Z])", "_", name).lower()


def edited(v, s, c):
    """The model after an edit, and the object that it created. A refusal of the edit is one of the command."""
    model, name = s.model(), c["command"]
    feature = v.metamodel.named(class_named_from(s, c), c["feature"]) if c.get("feature") is not None else None
    answer = {
        "create": lambda: model.create(v.metamodel.class_numbers[c["class"]], c["in"], feature),
        "set": lambda: model.put(c["object"], feature, value_of(v, s, c, feature), False),
        "add": lambda: model.put(c["object"], feature, value_of(v, s, c, feature), True),
        "take": lambda: model.take(c["object"], feature, value_of(v, s, c, feature)),
        "unset": lambda: model.unset(c["object"], feature),
        "move_to": lambda: model.move(c["object"], c["in"], feature),
        "remove": lambda: model.remove(c["object"]),
    }[name]()
    word, _, number = answer.partition(" ")
    if word not in ("done", "created"):
        raise Refused(in_snakes(word))
    return model, int(number) if number else None


def after_tool(v, s, c):
    """The model after a tool."""
    ends_of = lambda key: {end: getattr(key_in(key), end)[-1][1] for end in ("source", "target")}
    parent_of = lambda key: diagrams.written(path_in(key)[:-1]) if len(path_in(key)) > 1 else None
    tool = v.tools[c["tool"]]
    env, first = tools.variables(tool, c["arguments"], s.root, lambda key: diagrams.pair_of(key_in(key))[1], ends_of, parent_of)
    return tools.run(v.named, s.model(), tool, env, env[first].number)


def grid(v, d):
    """The positions that `arrange` gives: children that can be placed are counted for each parent, in declared order."""
    counts, found = {}, {}
    for key in d.elements:
        if v.is_placeable(key):
            k = counts.setdefault(key[:-1], 0)
            counts[key[:-1]] += 1
            found[key] = (120 * (k % 8), 80 * (k // 8))
    return found


def switched(names, name, is_active):
    return names | {name} if is_active else names - {name}


def changed(v, s, d, c):
    """The body that a command makes, where it edits no model."""
    body, name = s.body, c["command"]
    key = key_in(c["key"]) if "key" in c else None
    return {
        "move": lambda: body._replace(positions={**body.positions, key: (c["x"], c["y"])}),
        "arrange": lambda: body._replace(positions={**body.positions, **grid(v, d)}),
        "show": lambda: body._replace(shown=body.shown | {shown_key(v, c)}),
        "unshow": lambda: body._replace(shown=body.shown - {key}),
        "hide": lambda: body._replace(hidden=body.hidden | {key}),
        "reveal": lambda: body._replace(hidden=body.hidden - {key}),
        "layer": lambda: body._replace(layers=switched(body.layers, c["layer"], c["active"])),
        "filter": lambda: body._replace(filters=switched(body.filters, c["filter"], c["active"])),
    }[name]()


def tried(v, s, d, c):
    """The state that a command tries, with the raised revision, and the object that it created."""
    risen = s._replace(revision=s.revision + 1)
    if c["command"] == "undo":
        return risen._replace(body=s.past[-1], past=s.past[:-1], future=s.future + (s.body,)), None
    if c["command"] == "redo":
        return risen._replace(body=s.future[-1], past=s.past + (s.body,), future=s.future[:-1]), None
    stepped = risen._replace(past=(s.past + (s.body,))[-MOST_STEPS:], future=())
    if c["command"] in ("create", "set", "add", "take", "unset", "move_to", "remove"):
        model, created = edited(v, s, c)
        return stepped._replace(body=s.body._replace(model=model), next=model.next), created
    if c["command"] == "tool":
        model = after_tool(v, s, c)
        return stepped._replace(body=s.body._replace(model=model), next=model.next), None
    return stepped._replace(body=changed(v, s, d, c)), None


def settled(s, d):
    """Marks and positions are dropped whose element or edge is not declared."""
    body = s.body
    return s._replace(body=body._replace(
        shown=frozenset(key for key in body.shown if is_declared(d, key)), hidden=frozenset(key for key in body.hidden if is_declared(d, key)),
        positions={key: position for key, position in body.positions.items() if is_declared(d, key)}))


class Session:
    """A state, and its diagram, which is drawn for each state anew."""

    def __init__(self, metamodel, viewpoint, model):
        self.viewpoint = Viewpoint(metamodel, viewpoint)
        self.stand(self.viewpoint.opened(plain_files.read(self.viewpoint.metamodel, model)))

    def stand(self, state):
        diagram = self.viewpoint.drawn(state)
        if diagram is None:
            raise Refused("too_large" if state.revision == 0 else "diagram_too_large")
        diagram.keys = set(diagram.elements)
        self.state, self.diagram = state, diagram

    def command(self, c):
        """The object that an accepted command created; a refused one changes nothing."""
        v, s, d = self.viewpoint, self.state, self.diagram
        for code, holds in REFUSALS:
            if holds(v, s, d, c):
                raise Refused(code)
        after, created = tried(v, s, d, c)
        if s.root not in after.body.model.kinds:
            raise Refused("root_removed")
        try:
            self.stand(after)
            if settled(after, self.diagram) != after:
                self.stand(settled(after, self.diagram))
        except Refused:
            self.state, self.diagram = s, d
            raise
        return created

    def reply(self, c):
        """The status and the body of the answer to a command."""
        if commands.told(plain_models.written(c).encode()) == "bad body":
            return 400, {"refusal": "bad_body"}
        try:
            created = self.command(c)
        except Refused as refused:
            code = refused.args[0]
            return (409, {"refusal": code, "revision": self.state.revision}) if code == "stale" else (422, {"refusal": code})
        except tools.ToolRefused as refused:
            return 422, refused.body
        return 200, {**({} if created is None else {"created": created}), "revision": self.state.revision}

    def texts(self):
        return diagrams.served(self.diagram), self.state.model().text()


# ---- what a case says of a moment

def facts_of(session):
    d, model = session.diagram, session.state.model()
    facts = diagrams.facts_of(d)
    keys = {*facts["element_keys"], *facts["edge_keys"]}
    return {**facts, "served": keys, "not_served": keys, "next": model.next, "slots": slots_of(model), "objects": {str(o["id"]): o for o in model.told()["objects"]}}


def slots_of(model):
    """By object and feature the values of each slot, empty ones too."""
    shown = {"Object": lambda v: {"object": v[1]}, "Enum": lambda v: model.metamodel.enums[v[1]][v[2]]}
    return {str(o): {model.feature(f).name: [shown.get(v[0], lambda v: v[1])(v) for v in model.slot(o, f)] for f in model.metamodel.features_of(c)}
            for o, c in model.kinds.items()}


def holds(name, told, found):
    if name in ("served", "not_served"):
        return all((key in found) == (name == "served") for key in told)
    if isinstance(told, dict):
        return all(key in found and (holds(name, value, found[key]) if isinstance(value, dict) else found[key] == value) for key, value in told.items())
    return told == found


def differing(told, session):
    facts = facts_of(session) if told else {}
    return [name for name, value in told.items() if not holds(name, value, facts[name])]


# ---- cases

def held(folder, told):
    """A file of the folder, or a made one."""
    return loaded(folder, told[0]) if len(told) == 1 else MADE[told[0]](*told[1:])


def digest(text):
    return hashlib.md5(text.encode()).hexdigest()


def shown(text):
    return text if len(text.encode()) <= LONG else f"{len(text.encode())} md5 {digest(text)}"


def command_lines(session, step, name):
    status, body = session.reply(step["command"])
    told = plain_models.written(body)
    if step.get("expect", {"status": status, "body": told}) != {"status": status, "body": told}:
        raise SystemExit(f"{name}: {json.dumps(step)} gives {status} {told}")
    yield f"{status} {told}"
    yield "diagram {} model {}".format(*map(digest, session.texts()))


def look_lines(session, step, name):
    wrong = differing(step["look"], session)
    if wrong:
        raise SystemExit(f"{name}: {json.dumps(step)}: {', '.join(wrong)}")
    yield from map(shown, session.texts())


def step_lines(session, step, name):
    return command_lines(session, step, name) if "command" in step else look_lines(session, step, name)


def session_of(folder, case):
    metamodel, viewpoint, model = (held(folder, case[name]) for name in ("metamodel", "viewpoint", "model"))
    return Session(json.loads(metamodel), json.loads(viewpoint), model)


def lines(path):
    folder = os.path.dirname(path)
    for case in json.loads(loaded(folder, os.path.basename(path))):
        yield case["name"]
        try:
            session = session_of(folder, case)
        except Refused as refused:
            yield refused.args[0]
            continue
        for step in case["steps"]:
            yield from step_lines(session, step, case["name"])


if __name__ == "__main__":
    for path in sys.argv[1:]:
        for line in lines(path):
            print(line)
