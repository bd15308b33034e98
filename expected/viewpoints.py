#!/usr/bin/env python3
"""What `check` must print of a viewpoint over a metamodel, from the words of docs/FORMATS.md and docs/DEFINITIONS.md alone.

    python3 expected/viewpoints.py METAMODEL VIEWPOINT

This program shares nothing with the crates. Where a text is refused by the grammar it prints `?` for the offset.
"""
import json
import re
import sys

import evaluations

NAME = re.compile(r"[A-Za-z_][A-Za-z0-9_]{0,63}\Z")
SERVICES = {
    ".": {"eContainer": "?t", "eContents": "?t", "eAllContents": "?t", "eInverse": "", "ancestors": "?t", "siblings": "",
          "precedingSiblings": "", "followingSiblings": "", "oclIsKindOf": "t", "oclIsTypeOf": "t", "oclAsType": "t",
          "concat": "v", "startsWith": "v"},
    "->": {"select": "l", "reject": "l", "collect": "l", "exists": "l", "forAll": "l", "any": "l", "filter": "t", "first": "",
           "last": "", "at": "v", "size": "", "isEmpty": "", "notEmpty": "", "includes": "v", "excludes": "v", "including": "v",
           "excluding": "v", "asSequence": "", "asOrderedSet": ""},
}
TOOLS = {"node_creation": ["container"], "edge_creation": ["source", "target"], "delete": ["element"],
         "direct_edit": ["element", "arg0"], "reconnect": ["element", "end", "oldEnd", "newEnd"],
         "drop": ["element", "oldContainer", "newContainer"]}


class Wrong(Exception):
    """A spot of a wrong form, with its place."""


# ---- the form

def member(value, name, place, form):
    if name not in value:
        raise Wrong(place)
    return form(value[name], f"{place}/{name}")


def may(value, name, place, form, absent):
    return form(value[name], f"{place}/{name}") if name in value else absent


def listed(value, names, place):
    if not isinstance(value, dict):
        raise Wrong(place)
    extra = sorted((name for name in value if name not in names), key=lambda name: name.encode())
    if extra:
        raise Wrong(f"{place}/{extra[0].replace('~', '~0').replace('/', '~1')}")


def is_name(value, place):
    if not isinstance(value, str) or not NAME.match(value):
        raise Wrong(place)
    return value


def is_bool(value, place):
    if not isinstance(value, bool):
        raise Wrong(place)
    return value


def is_expression(value, place):
    if not isinstance(value, str) or len(value.encode()) > 4096:
        raise Wrong(place)
    return value


def list_of(form):
    def read(value, place):
        if not isinstance(value, list):
            raise Wrong(place)
        return [form(item, f"{place}/{i}") for i, item in enumerate(value)]
    return read


def one_of(words):
    def read(value, place):
        if not isinstance(value, str) or value not in words:
            raise Wrong(place)
        return value
    return read


def style(value, place):
    listed(value, ["shape", "color", "label"], place)
    member(value, "shape", place, is_name)
    member(value, "color", place, is_name)
    may(value, "label", place, is_expression, None)


def conditional(value, place):
    listed(value, ["when", "style"], place)
    member(value, "when", place, is_expression)
    member(value, "style", place, style)


NODE = "name kind domain candidates precondition synchronised layer children borders style styles".split()
EDGE = "name kind precondition layer sources targets targetFinder style styles".split()
OBJECT_EDGE = "name kind domain candidates precondition layer sources targets sourceFinder targetFinder style styles".split()
FORMS = {"name": is_name, "domain": is_name, "candidates": is_expression, "precondition": is_expression, "synchronised": is_bool,
         "layer": is_name, "children": list_of(is_name), "borders": list_of(is_name), "sources": list_of(is_name),
         "targets": list_of(is_name), "sourceFinder": is_expression, "targetFinder": is_expression, "style": style,
         "styles": list_of(conditional)}
ABSENT = {"candidates", "precondition", "synchronised", "layer", "children", "borders", "styles"}


def mapping(value, place):
    if not isinstance(value, dict):
        raise Wrong(place)
    kind = member(value, "kind", place, one_of(["node", "container", "list", "border", "edge", "object-edge"]))
    names = {"edge": EDGE, "object-edge": OBJECT_EDGE}.get(kind, NODE)
    listed(value, names, place)
    for name in names:
        if name != "kind":
            (may(value, name, place, FORMS[name], None) if name in ABSENT else member(value, name, place, FORMS[name]))


OPERATIONS = {"change_context": ["browse", "do"], "create_instance": ["reference", "class", "variable", "do?"],
              "set": ["feature", "value"], "unset": ["feature", "value?"], "move": ["to", "reference"], "remove": [],
              "for": ["items", "iterator", "do"], "if": ["condition", "do"]}
EXPRESSIONS = {"browse", "value", "to", "items", "condition"}


def operation(value, place):
    if not isinstance(value, dict):
        raise Wrong(place)
    op = member(value, "op", place, one_of(OPERATIONS))
    names = OPERATIONS[op]
    listed(value, ["op"] + [name.rstrip("?") for name in names], place)
    for name in names:
        plain = name.rstrip("?")
        form = list_of(operation) if plain == "do" else is_expression if plain in EXPRESSIONS else is_name
        may(value, plain, place, form, None) if name != plain else member(value, plain, place, form)


def layer(value, place):
    listed(value, ["name", "active"], place)
    member(value, "name", place, is_name)
    may(value, "active", place, is_bool, None)


def layers(value, place):
    if not list_of(layer)(value, place):
        raise Wrong(place)
    return value


def hiding(value, place):
    listed(value, ["name", "mappings", "hides"], place)
    member(value, "name", place, is_name)
    member(value, "mappings", place, list_of(is_name))
    member(value, "hides", place, is_expression)


def tool(value, place):
    listed(value, ["name", "kind", "precondition", "do"], place)
    member(value, "name", place, is_name)
    member(value, "kind", place, one_of(TOOLS))
    may(value, "precondition", place, is_expression, None)
    member(value, "do", place, list_of(operation))


def viewpoint(value):
    listed(value, ["viewpoint", "diagram"], "#")
    member(value, "viewpoint", "#", is_name)

    def diagram(value, place):
        listed(value, ["name", "domain", "layers", "top", "mappings", "filters", "tools"], place)
        member(value, "name", place, is_name)
        member(value, "domain", place, is_name)
        member(value, "layers", place, layers)
        member(value, "top", place, list_of(is_name))
        member(value, "mappings", place, list_of(mapping))
        may(value, "filters", place, list_of(hiding), [])
        may(value, "tools", place, list_of(tool), [])
        return value
    return member(value, "diagram", "#", diagram)


def operations_in(tree):
    return sum(1 + operations_in(op.get("do", [])) for op in tree)


def nesting(tree):
    return max((1 + nesting(op.get("do", [])) for op in tree), default=0)


def too_many(diagram):
    return (len(diagram["mappings"]) > 256 or len(diagram["layers"]) > 64 or len(diagram.get("filters", [])) > 64
            or len(diagram.get("tools", [])) > 256 or any(len(m.get("styles", [])) > 32 for m in diagram["mappings"])
            or any(operations_in(t["do"]) > 256 or nesting(t["do"]) > 16 for t in diagram.get("tools", [])))


# ---- problems

class Check:
    def __init__(self, metamodel, diagram):
        self.metamodel, self.diagram, self.lines = metamodel, diagram, []
        self.classes = {c["name"]: c for c in reversed(metamodel["classes"])}
        self.features = [f for c in metamodel["classes"] for f in c.get("features", [])]
        self.enums = {e["name"]: e["literals"] for e in metamodel.get("enums", [])}
        self.mappings = diagram["mappings"]
        self.numbers = {m["name"]: n for n, m in reversed(list(enumerate(self.mappings)))}
        self.lists = []

    def tell(self, place, code, detail=""):
        self.lines.append(f"{place} {code} {detail}".rstrip())

    def own(self, items, i, place):
        if items[i]["name"] in [item["name"] for item in items[:i]]:
            self.tell(f"{place}/name", "DuplicateName", items[i]["name"])

    def one_class(self, name, place, made=False):
        if name not in self.classes:
            self.tell(place, "UnknownClass", name)
        elif made and self.classes[name].get("abstract"):
            self.tell(place, "BadOperation", name)

    def expression(self, text, scope, place):
        if text.startswith("aql:"):
            try:
                tree = evaluations.Parser(text[4:]).whole()
            except (SyntaxError, IndexError):
                return self.tell(place, "Syntax", "?")
            found = self.wrong(tree, scope)
            if found:
                self.tell(place, *found)
            return None
        for prefix in ("feature:", "var:"):
            name = text.removeprefix(prefix)
            if text.startswith(prefix) and NAME.match(name) and name not in evaluations.RESERVED:
                if prefix == "var:" and name not in scope:
                    self.tell(place, "UnknownVariable", name)
                if prefix == "feature:" and all(f["name"] != name for f in self.features):
                    self.tell(place, "UnknownFeature", name)
                return None
        return self.tell(place, "BadPrefix")

    def wrong(self, tree, scope):
        kind = tree[0]
        if kind in ("int", "text", "constant"):
            return None
        if kind == "variable":
            return None if tree[1] in scope else ("UnknownVariable", tree[1])
        if kind == "literal":
            return None if tree[2] in self.enums.get(tree[1], []) else ("UnknownType", tree[1])
        if kind in ("not", "minus"):
            return self.wrong(tree[1], scope)
        if kind == "binary":
            return self.wrong(tree[2], scope) or self.wrong(tree[3], scope)
        if kind == "if":
            return self.wrong(tree[1], scope) or self.wrong(tree[2], scope) or self.wrong(tree[3], scope)
        if kind == "let":
            return self.wrong(tree[2], scope) or self.wrong(tree[3], [*scope, tree[1]])
        if kind == "collection":
            return next((found for part in tree[2] if (found := self.wrong(part, scope))), None)
        if kind == "feature":
            return self.wrong(tree[1], scope) or (None if any(f["name"] == tree[2] for f in self.features) else ("UnknownFeature", tree[2]))
        _, arrow, receiver, name, arguments = tree
        found = self.wrong(receiver, scope)
        if found:
            return found
        if name not in SERVICES[arrow]:
            return ("UnknownService", name)
        shape = "".join({"lambda": "l", "type": "t", "value": "v"}[argument[0]] for argument in arguments)
        if shape not in ({"", "t"} if SERVICES[arrow][name] == "?t" else {SERVICES[arrow][name]}):
            return ("WrongArity", name)
        for argument in arguments:
            if argument[0] == "type" and not (argument[1] == self.metamodel["package"] and argument[2] in self.classes):
                return ("UnknownType", argument[2])
            if argument[0] == "value" and (found := self.wrong(argument[1], scope)):
                return found
            if argument[0] == "lambda" and (found := self.wrong(argument[2], [*scope, argument[1]])):
                return found
        return None

    def child(self, names, place, owner, fits):
        for i, name in enumerate(names):
            number = self.numbers.get(name)
            own = owner is not None and owner == number
            if number is None:
                self.tell(f"{place}/{i}", "UnknownMapping", name)
            elif name in names[:i] or (not own and any(name in other and whose != number for whose, other in self.lists)):
                self.tell(f"{place}/{i}", "MappingReused", name)
            elif not fits(self.mappings[number]):
                self.tell(f"{place}/{i}", "BadChild", name)
        self.lists.append((owner, names))

    def looks(self, mapping, place):
        if "label" in mapping["style"]:
            self.expression(mapping["style"]["label"], ["self"], f"{place}/style/label")
        for i, one in enumerate(mapping.get("styles", [])):
            self.expression(one["when"], ["self"], f"{place}/styles/{i}/when")
            if "label" in one["style"]:
                self.expression(one["style"]["label"], ["self"], f"{place}/styles/{i}/style/label")

    def mapping(self, n, mapping, place):
        self.own(self.mappings, n, place)
        edge = mapping["kind"] in ("edge", "object-edge")
        if "domain" in mapping:
            self.one_class(mapping["domain"], f"{place}/domain")
        if "candidates" in mapping:
            self.expression(mapping["candidates"], ["self"], f"{place}/candidates")
        if "precondition" in mapping:
            self.expression(mapping["precondition"], ["self"] if edge else ["self", "container"], f"{place}/precondition")
        if "layer" in mapping and mapping["layer"] not in [layer["name"] for layer in self.diagram["layers"]]:
            self.tell(f"{place}/layer", "UnknownLayer", mapping["layer"])
        free = lambda m: m["kind"] in ("node", "container", "list")
        item = lambda m: m["kind"] == "node" and not m.get("children") and not m.get("borders")
        if not edge:
            self.child(mapping.get("children", []), f"{place}/children", n,
                       {"container": free, "list": item}.get(mapping["kind"], lambda m: False))
            self.child(mapping.get("borders", []), f"{place}/borders", None, lambda m: m["kind"] == "border")
        for end in ("sources", "targets"):
            for i, name in enumerate(mapping.get(end, [])):
                if name not in self.numbers:
                    self.tell(f"{place}/{end}/{i}", "UnknownMapping", name)
                elif self.mappings[self.numbers[name]]["kind"] in ("edge", "object-edge"):
                    self.tell(f"{place}/{end}/{i}", "BadEnds", name)
        for finder in ("sourceFinder", "targetFinder"):
            if finder in mapping:
                self.expression(mapping[finder], ["self"], f"{place}/{finder}")
        self.looks(mapping, place)

    def operation(self, op, scope, place):
        for name in OPERATIONS[op["op"]]:
            name = name.rstrip("?")
            spot = f"{place}/{name}"
            if name not in op or name == "do" or name in ("variable", "iterator"):
                continue
            if name in EXPRESSIONS:
                self.expression(op[name], scope, spot)
            elif name == "class":
                self.one_class(op[name], spot, made=True)
            elif all(f["name"] != op[name] or (name == "reference" and not f.get("containment")) for f in self.features):
                self.tell(spot, "BadOperation", op[name])
        inner = scope + [op[name] for name in ("variable", "iterator") if name in op]
        for i, one in enumerate(op.get("do", [])):
            self.operation(one, inner, f"{place}/do/{i}")

    def run(self):
        diagram, place = self.diagram, "#/diagram"
        self.one_class(diagram["domain"], f"{place}/domain")
        for i in range(len(diagram["layers"])):
            self.own(diagram["layers"], i, f"{place}/layers/{i}")
        self.child(diagram["top"], f"{place}/top", None, lambda m: m["kind"] in ("node", "container", "list"))
        for n, mapping in enumerate(self.mappings):
            self.mapping(n, mapping, f"{place}/mappings/{n}")
        for i, one in enumerate(diagram.get("filters", [])):
            spot = f"{place}/filters/{i}"
            self.own(diagram["filters"], i, spot)
            for k, name in enumerate(one["mappings"]):
                if name not in self.numbers:
                    self.tell(f"{spot}/mappings/{k}", "UnknownMapping", name)
            self.expression(one["hides"], ["self"], f"{spot}/hides")
        for i, one in enumerate(diagram.get("tools", [])):
            spot, scope = f"{place}/tools/{i}", ["self", *TOOLS[one["kind"]]]
            self.own(diagram["tools"], i, spot)
            if "precondition" in one:
                self.expression(one["precondition"], scope, f"{spot}/precondition")
            for k, op in enumerate(one["do"]):
                self.operation(op, scope, f"{spot}/do/{k}")
        return self.lines


def checked(metamodel, text, name):
    """The status of `check`, and what it prints."""
    try:
        value = json.loads(text)
    except (ValueError, RecursionError):
        return 4, f"bad {name} # BadJson\n"
    try:
        diagram = viewpoint(value)
    except Wrong as wrong:
        return 4, f"bad {name} {wrong} BadShape\n"
    if too_many(diagram):
        return 5, f"too large {name}\n"
    lines = Check(metamodel, diagram).run()
    return (1, "".join(f"{line}\n" for line in lines)) if lines else (0, "ok\n")


if __name__ == "__main__":
    with open(sys.argv[1], encoding="utf-8") as one, open(sys.argv[2], encoding="utf-8") as other:
        print(checked(json.load(one), other.read(), sys.argv[2])[1], end="")
