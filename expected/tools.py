"""Runs of tools over models, from the words of the definitions, for sessions.py.

A run goes over a model of its own, which is thrown away where the run is refused. Expressions are evaluated by `evaluations.py`, edits are
those of `plain_models.py`. Nothing is shared with the crates.
"""
import diagrams
import evaluations
from evaluations import Collection, Evaluation, Fault, Literal, Object

MOST_EDITS, MOST_EXPRESSIONS = 10000, 1000000

# the arguments of each kind of tool
ARGUMENTS = {"node_creation": {"container"}, "edge_creation": {"source", "target"}, "delete": {"element"},
             "direct_edit": {"element", "arg0"}, "reconnect": {"element", "end", "to"}, "drop": {"element", "to"}}
# its keys, by what they have to be: those of a node, of an edge, or of either; a null is no key
KEYS = {"container": "either", "source": "node", "target": "node", "element": "either", "to": "either"}
OTHER_KEYS = {("reconnect", "element"): "edge", ("reconnect", "to"): "node", ("drop", "element"): "node"}


class ToolRefused(Exception):
    """The code of the refusal, and what else is known of it."""

    def __init__(self, code, **more):
        super().__init__(code)
        self.body = {**more, "refusal": code}


def wanted_keys(tool, arguments):
    """The keys among the arguments, and of which sort each has to be."""
    return [(arguments[name], OTHER_KEYS.get((tool["kind"], name), KEYS[name])) for name in KEYS if arguments.get(name) is not None]


def variables(tool, arguments, root, object_of, ends_of, parent_of):
    """The variables of a tool's kind, and its first context; null is the root element."""
    at = lambda key: Object(root if key is None else object_of(key))
    kind = tool["kind"]
    if kind == "node_creation":
        return {"container": at(arguments["container"])}, "container"
    if kind == "edge_creation":
        return {"source": at(arguments["source"]), "target": at(arguments["target"])}, "source"
    element = {"element": at(arguments["element"])}
    if kind == "direct_edit":
        return {**element, "arg0": arguments["arg0"]}, "element"
    if kind == "reconnect":
        old = ends_of(arguments["element"])[arguments["end"]]
        return {**element, "end": arguments["end"], "oldEnd": Object(old), "newEnd": at(arguments["to"])}, "element"
    if kind == "drop":
        return {**element, "oldContainer": at(parent_of(arguments["element"])), "newContainer": at(arguments["to"])}, "newContainer"
    return element, "element"


def numbered(operations, first=1):
    """Operations with their places in the tool: from 1, each before those inside it. Gives them and the next place."""
    found = []
    for operation in operations:
        inside, after = numbered(operation.get("do", []), first + 1)
        found.append((first, operation, inside))
        first = after
    return found, first


def members_of(value):
    return value.members if isinstance(value, Collection) else [] if value is None else [value]


class Run:
    def __init__(self, named, model):
        self.named, self.model, self.seen = named, model, None
        self.edits = self.expressions = 0

    # ---- expressions

    def value(self, place, text, env, this):
        self.expressions += 1
        if self.expressions > MOST_EXPRESSIONS:
            raise ToolRefused("tool_too_long")
        if self.seen is None:
            self.seen = evaluations.Model(self.named, self.model.told())
        try:
            return Evaluation(self.seen).value(diagrams.tree_of(text), {**env, "self": Object(this)})
        except Fault as fault:
            raise ToolRefused("evaluation", fault=fault.args[0], place=place)

    def truth(self, place, text, env, this):
        value = self.value(place, text, env, this)
        if not isinstance(value, bool):
            raise ToolRefused("evaluation", fault="NotBool", place=place)
        return value

    def context(self, place, text, env, this):
        """The object that an expression gives, dead ones too; of a collection its first member."""
        found = members_of(self.value(place, text, env, this))[:1]
        if not found or not isinstance(found[0], Object):
            raise ToolRefused("bad_context", place=place)
        return found[0].number

    # ---- edits

    def edit(self, place, answer):
        """An edit is counted before it is asked for; its answer is `done`, `created` with a number, or the name of its refusal."""
        self.edits += 1
        if self.edits > MOST_EDITS:
            raise ToolRefused("tool_too_long")
        word, _, number = answer().partition(" ")
        if word not in ("done", "created"):
            self.refuse(place, word)
        self.seen = None
        return int(number) if number else None

    @staticmethod
    def refuse(place, name):
        raise ToolRefused("model", model="".join(f"_{c.lower()}" if c.isupper() else c for c in name).lstrip("_"), place=place)

    def feature_of(self, place, this, name):
        """The feature of the context's class, where the context is live."""
        if this not in self.model.kinds:
            self.refuse(place, "UnknownObject")
        f = self.model.metamodel.named(self.model.kinds[this], name)
        if f is None:
            self.refuse(place, "KindMismatch")
        return f

    def containment_named(self, this, name):
        """The number of a feature to put something into, if the object is live and has one; an edit refuses the rest."""
        return self.model.metamodel.named(self.model.kinds[this], name) if this in self.model.kinds else None

    def in_edits(self, value):
        """A value as edits take it."""
        if isinstance(value, Object):
            return ("Object", value.number)
        if isinstance(value, Literal):
            enums = list(self.named.literals)
            return ("Enum", enums.index(value.enumeration), self.named.literals[value.enumeration].index(value.name))
        return ("Bool", value) if isinstance(value, bool) else ("Int", value) if isinstance(value, int) else ("Text", value)

    def set(self, place, this, name, value):
        f = self.feature_of(place, this, name)
        feature, m = self.model.feature(f), self.model
        if feature.containment:
            for member in members_of(value):
                if not isinstance(member, Object):
                    self.refuse(place, "KindMismatch")
                self.edit(place, lambda: m.move(member.number, this, f))
        elif not feature.plain:
            self.refuse(place, "KindMismatch")
        elif feature.many:
            for member in members_of(value):
                self.edit(place, lambda: m.put(this, f, self.in_edits(member), True))
        else:
            first = members_of(value)[:1]
            self.edit(place, lambda: m.put(this, f, self.in_edits(first[0]), False) if first else m.unset(this, f))

    def unset(self, place, this, name):
        f = self.feature_of(place, this, name)
        feature, m = self.model.feature(f), self.model
        if feature.containment:
            for _, o in m.slot(this, f):
                self.edit(place, lambda: m.remove(o))
        elif feature.plain:
            self.edit(place, lambda: m.unset(this, f))
        else:
            self.refuse(place, "KindMismatch")

    def take(self, place, this, name, value):
        f = self.feature_of(place, this, name)
        if not self.model.feature(f).plain or not self.model.feature(f).many:
            self.refuse(place, "KindMismatch")
        for member in members_of(value):
            self.edit(place, lambda: self.model.take(this, f, self.in_edits(member)))

    def create(self, place, this, reference, name):
        f, c = self.containment_named(this, reference), self.model.metamodel.class_numbers[name]
        return self.edit(place, lambda: self.model.create(c, this, f) if f is not None or this not in self.model.kinds else "KindMismatch")

    def move(self, place, this, to, reference):
        f = self.containment_named(to, reference)
        known = {this, to} <= set(self.model.kinds)
        return self.edit(place, lambda: "UnknownObject" if not known else "KindMismatch" if f is None else self.model.move(this, to, f))

    # ---- operations

    def perform(self, operations, env, this):
        for place, operation, inside in operations:
            getattr(self, f"do_{operation['op']}")(place, operation, inside, env, this)

    def do_change_context(self, place, operation, inside, env, this):
        self.perform(inside, env, self.context(place, operation["browse"], env, this))

    def do_create_instance(self, place, operation, inside, env, this):
        o = self.create(place, this, operation["reference"], operation["class"])
        self.perform(inside, {**env, operation["variable"]: Object(o)}, o)

    def do_set(self, place, operation, inside, env, this):
        self.set(place, this, operation["feature"], self.value(place, operation["value"], env, this))

    def do_unset(self, place, operation, inside, env, this):
        if "value" in operation:
            self.take(place, this, operation["feature"], self.value(place, operation["value"], env, this))
        else:
            self.unset(place, this, operation["feature"])

    def do_move(self, place, operation, inside, env, this):
        self.move(place, this, self.context(place, operation["to"], env, this), operation["reference"])

    def do_remove(self, place, operation, inside, env, this):
        self.edit(place, lambda: self.model.remove(this))

    def do_for(self, place, operation, inside, env, this):
        for item in list(members_of(self.value(place, operation["items"], env, this))):
            self.perform(inside, {**env, operation["iterator"]: item}, item.number if isinstance(item, Object) else this)

    def do_if(self, place, operation, inside, env, this):
        if self.truth(place, operation["condition"], env, this):
            self.perform(inside, env, this)


def run(named, model, tool, env, this):
    """The model after a tool; it is changed in place."""
    going = Run(named, model)
    if "precondition" in tool and not going.truth(0, tool["precondition"], env, this):
        raise ToolRefused("precondition_false")
    going.perform(numbered(tool["do"])[0], env, this)
    return model
