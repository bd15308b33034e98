#!/usr/bin/env python3
"""Evaluates expressions from the words of docs/DEFINITIONS.md alone, and gives value and reads of each.

    python3 expected/evaluations.py METAMODEL MODEL EXPRESSIONS     prints them

A line of EXPRESSIONS is the number of the object that `self` is, a space and an expression; or `concat` and two words, which that service
joins without a read. This program shares nothing with the crates.
"""
import json
import re
import sys

INT_MIN, INT_MAX = -(2 ** 63), 2 ** 63 - 1
MEMBERS, BYTES = 65536, 65536
RESERVED = "if then else endif let in and or xor implies not div null true false Sequence OrderedSet".split()


class Fault(Exception):
    pass


# ---- text to tree

TOKEN = re.compile(r"\s*(?:(\d+)|([A-Za-z_][A-Za-z0-9_]*)|('(?:[^'\\]|\\.)*')|(->|::|<>|<=|>=|[-+*=<>(){}|.,]))")


def tokens(text):
    place, found = 0, []
    text = text.rstrip()
    while place < len(text):
        match = TOKEN.match(text, place)
        if not match:
            raise SyntaxError(text[place:])
        place = match.end()
        number, word, quoted, sign = match.groups()
        if number:
            found.append(("int", int(number)))
        elif word:
            found.append(("word" if word in RESERVED else "name", word))
        elif quoted:
            found.append(("text", re.sub(r"\\(.)", lambda m: {"n": "\n", "t": "\t"}.get(m.group(1), m.group(1)), quoted[1:-1])))
        else:
            found.append(("sign", sign))
    return found


class Parser:
    def __init__(self, text):
        self.found, self.at = tokens(text), 0

    def peek(self, ahead=0):
        return self.found[self.at + ahead][1] if self.at + ahead < len(self.found) and self.found[self.at + ahead][0] in ("word", "sign") else None

    def take(self, *wanted):
        if self.peek() in wanted:
            self.at += 1
            return self.found[self.at - 1][1]
        return None

    def need(self, wanted):
        if not self.take(wanted):
            raise SyntaxError(wanted)

    def name(self):
        kind, name = self.found[self.at]
        if kind != "name":
            raise SyntaxError(name)
        self.at += 1
        return name

    def is_name(self, ahead=0):
        return self.at + ahead < len(self.found) and self.found[self.at + ahead][0] == "name"

    def whole(self):
        tree = self.expr()
        if self.at != len(self.found):
            raise SyntaxError(str(self.found[self.at]))
        return tree

    def expr(self):
        if self.take("let"):
            name = self.name()
            self.need("=")
            value = self.expr()
            self.need("in")
            return ("let", name, value, self.expr())
        return self.chain(("implies",), lambda: self.chain(("or",), lambda: self.chain(("xor",), lambda: self.chain(("and",), self.neg))))

    def chain(self, signs, part):
        left = part()
        while True:
            sign = self.take(*signs)
            if not sign:
                return left
            left = ("binary", sign, left, part())

    def neg(self):
        if self.take("not"):
            return ("not", self.neg())
        left = self.sum()
        sign = self.take("=", "<>", "<", "<=", ">", ">=")
        return ("binary", sign, left, self.sum()) if sign else left

    def sum(self):
        return self.chain(("+", "-"), lambda: self.chain(("*", "div"), self.unary))

    def unary(self):
        if self.take("-"):
            return ("minus", self.unary())
        tree = self.atom()
        while True:
            if self.take("."):
                name = self.name()
                tree = ("call", ".", tree, name, self.arguments()) if self.take("(") else ("feature", tree, name)
            elif self.take("->"):
                name = self.name()
                self.need("(")
                tree = ("call", "->", tree, name, self.arguments())
            else:
                return tree

    def arguments(self):
        if self.take(")"):
            return []
        found = [self.argument()]
        while self.take(","):
            found.append(self.argument())
        self.need(")")
        return found

    def argument(self):
        if self.is_name() and self.peek(1) == "|":
            name = self.name()
            self.need("|")
            return ("lambda", name, self.expr())
        if self.is_name() and self.peek(1) == "::" and self.is_name(2) and self.peek(3) != "::":
            owner = self.name()
            self.need("::")
            return ("type", owner, self.name())
        return ("value", self.expr())

    def atom(self):
        kind, token = self.found[self.at]
        if kind in ("int", "text"):
            self.at += 1
            return (kind, token)
        if kind == "name":
            name = self.name()
            if self.take("::"):
                enumeration = self.name()
                self.need("::")
                return ("literal", enumeration, self.name())
            return ("variable", name)
        self.at += 1
        if token in ("null", "true", "false"):
            return ("constant", {"null": None, "true": True, "false": False}[token])
        if token == "(":
            tree = self.expr()
            self.need(")")
            return tree
        if token == "if":
            condition = self.expr()
            self.need("then")
            first = self.expr()
            self.need("else")
            second = self.expr()
            self.need("endif")
            return ("if", condition, first, second)
        if token in ("Sequence", "OrderedSet"):
            self.need("{")
            elements = []
            if not self.take("}"):
                elements.append(self.expr())
                while self.take(","):
                    elements.append(self.expr())
                self.need("}")
            return ("collection", token, elements)
        raise SyntaxError(str(token))


# ---- metamodel and model, as maps

class Metamodel:
    def __init__(self, data):
        self.classes = {c["name"]: c for c in data["classes"]}
        self.literals = {e["name"]: e["literals"] for e in data.get("enums", [])}

    def conforms(self, one, other):
        return one == other or any(self.conforms(s, other) for s in self.classes[one].get("supertypes", []))

    def features(self, name):
        """The features of a class by owner and name: inherited ones first, each at its first place."""
        found = []
        for s in self.classes[name].get("supertypes", []):
            found += [f for f in self.features(s) if f not in found]
        return found + [(name, f["name"]) for f in self.classes[name].get("features", [])]

    def feature(self, key):
        return next(f for f in self.classes[key[0]]["features"] if f["name"] == key[1])

    def is_container(self, key):
        f = self.feature(key)
        return "opposite" in f and self.feature(next(k for k in self.features(f["reference"]) if k[1] == f["opposite"])).get("containment", False)

    def position(self, key):
        """The place of a feature in the document, over all classes."""
        return [(c["name"], f["name"]) for c in self.classes.values() for f in c.get("features", [])].index(key)


class Object:
    def __init__(self, number):
        self.number = number

    def __eq__(self, other):
        return isinstance(other, Object) and self.number == other.number

    def __hash__(self):
        return hash(self.number)


class Literal:
    def __init__(self, enumeration, name):
        self.enumeration, self.name = enumeration, name

    def __eq__(self, other):
        return isinstance(other, Literal) and (self.enumeration, self.name) == (other.enumeration, other.name)

    def __hash__(self):
        return hash((self.enumeration, self.name))


class Model:
    def __init__(self, metamodel, data):
        self.metamodel = metamodel
        self.kinds = {o["id"]: o["class"] for o in data["objects"]}
        self.roots = data["roots"]
        self.slots = {}
        for o in data["objects"]:
            for key in metamodel.features(o["class"]):
                value = o["slots"].get(key[1])
                if value is not None:
                    values = value if isinstance(value, list) else [value]
                    self.slots[o["id"], key] = [self.scalar(metamodel.feature(key), v) for v in values]

    def scalar(self, feature, value):
        if "reference" in feature:
            return Object(value)
        return Literal(feature["type"], value) if feature["type"] in self.metamodel.literals else value

    def slot(self, o, key):
        return self.slots.get((o, key), [])

    def holder(self, o):
        return next(((p, key) for (p, key), values in self.slots.items() if self.metamodel.feature(key).get("containment") and Object(o) in values), None)

    def content(self, o):
        keys = [key for key in self.metamodel.features(self.kinds[o]) if self.metamodel.feature(key).get("containment")] if o in self.kinds else []
        return keys, [v for key in keys for v in self.slot(o, key)]

    def tree(self, o):
        return [x for v in self.content(o)[1] for x in [v] + self.tree(v.number)]

    def inverse(self, o):
        pairs = [(p, self.metamodel.position(key)) for (p, key), values in self.slots.items()
                 if "reference" in self.metamodel.feature(key) and Object(o) in values
                 and not self.metamodel.feature(key).get("containment") and not self.metamodel.is_container(key)]
        return [p for p, _ in sorted(pairs)]


# ---- values: None, bool, int, str, Literal, Object, or a collection

class Collection:
    def __init__(self, sort, members=()):
        self.sort, self.members, self.found = sort, [], set()
        for member in members:
            self.put(member)

    def put(self, value):
        new = value.members if isinstance(value, Collection) else [] if value is None else [value]
        for x in new:
            if self.sort == "Sequence" or (type(x), x) not in self.found:
                self.members.append(x)
                self.found.add((type(x), x))
        if len(self.members) > MEMBERS:
            raise Fault("TooLong")


def same(a, b):
    if isinstance(a, Collection) or isinstance(b, Collection):
        return isinstance(a, Collection) and isinstance(b, Collection) and a.sort == b.sort and len(a.members) == len(b.members) \
            and all(same(x, y) for x, y in zip(a.members, b.members))
    return type(a) is type(b) and a == b


def truth(value):
    if not isinstance(value, bool):
        raise Fault("NotBool")
    return value


def integer(value):
    if isinstance(value, bool) or not isinstance(value, int):
        raise Fault("NotInt")
    return value


def within(number):
    if not INT_MIN <= number <= INT_MAX:
        raise Fault("Overflow")
    return number


def form(value):
    if value is None:
        return ""
    if isinstance(value, bool):
        return "true" if value else "false"
    if isinstance(value, Literal):
        return value.name
    if isinstance(value, Object):
        return f"#{value.number}"
    if isinstance(value, Collection):
        return ", ".join(form(x) for x in value.members)
    return str(value)


def written(text):
    if len(text.encode()) > BYTES:
        raise Fault("TextTooLong")
    return text


class Evaluation:
    def __init__(self, model):
        self.model, self.metamodel, self.reads = model, model.metamodel, {}

    # every look at the model stands here: cells in the order of the first look
    def look(self, cell, content):
        self.reads.setdefault(cell)
        return content

    def kind(self, o):
        found = self.look(f"Kind({o})", self.model.kinds.get(o))
        if found is None:
            raise Fault("DeadObject")
        return found

    def kind_or_none(self, o):
        return self.look(f"Kind({o})", self.model.kinds.get(o))

    def slot(self, o, key):
        return self.look(f"Slot({o}, {key[1]})", self.model.slot(o, key))

    def holder(self, o):
        return self.look(f"Holder({o})", self.model.holder(o))

    def value(self, tree, env):
        kind = tree[0]
        if kind in ("int", "constant"):
            return tree[1]
        if kind == "text":
            return written(tree[1])
        if kind == "variable":
            return env[tree[1]]
        if kind == "literal":
            return Literal(tree[1], tree[2])
        if kind == "collection":
            gathered = Collection(tree[1])
            for element in tree[2]:
                gathered.put(self.value(element, env))
            return gathered
        if kind == "not":
            return not truth(self.value(tree[1], env))
        if kind == "minus":
            return within(-integer(self.value(tree[1], env)))
        if kind == "binary":
            return self.binary(tree[1], tree[2], tree[3], env)
        if kind == "if":
            return self.value(tree[2] if truth(self.value(tree[1], env)) else tree[3], env)
        if kind == "let":
            return self.value(tree[3], {**env, tree[1]: self.value(tree[2], env)})
        if kind == "feature":
            return self.lifted(self.value(tree[1], env), lambda x: self.feature(x, tree[2]))
        receiver = self.value(tree[2], env)
        return self.dot(tree[3], receiver, tree[4], env) if tree[1] == "." else self.arrow(tree[3], receiver, tree[4], env)

    def binary(self, sign, left, right, env):
        a = self.value(left, env)
        if sign in ("and", "or", "implies", "xor"):
            truth(a)
            if sign == "and" and not a:
                return False
            if sign == "or" and a:
                return True
            if sign == "implies" and not a:
                return True
            b = truth(self.value(right, env))
            return a != b if sign == "xor" else b
        b = self.value(right, env)
        if sign == "=":
            return same(a, b)
        if sign == "<>":
            return not same(a, b)
        if sign == "+" and (isinstance(a, str) or isinstance(b, str)):
            return written(form(a) + form(b))
        integer(a), integer(b)
        if sign in ("<", "<=", ">", ">="):
            return {"<": a < b, "<=": a <= b, ">": a > b, ">=": a >= b}[sign]
        if sign == "div":
            if b == 0:
                raise Fault("DivideByZero")
            return within(abs(a) // abs(b) * (1 if (a < 0) == (b < 0) else -1))
        return within({"+": a + b, "-": a - b, "*": a * b}[sign])

    def lifted(self, value, of_scalar, of_null=lambda: None):
        if value is None:
            return of_null()
        if isinstance(value, Collection):
            gathered = Collection(value.sort)
            for x in value.members:
                gathered.put(of_scalar(x))
            return gathered
        return of_scalar(value)

    def feature(self, x, name):
        if not isinstance(x, Object):
            raise Fault("NotAnObject")
        kind = self.kind(x.number)
        key = next((k for k in self.metamodel.features(kind) if k[1] == name), None)
        if key is None:
            raise Fault("NoFeature")
        values = self.slot(x.number, key)
        if self.metamodel.feature(key).get("many"):
            return Collection("OrderedSet", values)
        return values[0] if values else None

    # ---- services by `.`

    def dot(self, name, receiver, arguments, env):
        argument = self.value(arguments[0][1], env) if arguments and arguments[0][0] == "value" else None
        of_type = arguments[0][2] if arguments and arguments[0][0] == "type" else None
        if name == "concat":
            return self.lifted(receiver, lambda x: self.alive(x, lambda: written(form(x) + form(argument))), lambda: written(form(argument)))
        if name == "startsWith":
            return self.lifted(receiver, lambda x: self.alive(x, lambda: form(x).startswith(written(form(argument)))), lambda: "".startswith(written(form(argument))))
        if name in ("oclIsKindOf", "oclIsTypeOf"):
            return self.lifted(receiver, lambda x: self.is_of(x, name, of_type), lambda: False)
        if name == "oclAsType":
            return self.lifted(receiver, lambda x: x if self.is_of(x, "oclIsKindOf", of_type) else None)
        return self.lifted(receiver, lambda x: self.of_object(x, name, of_type))

    def alive(self, x, then):
        if isinstance(x, Object):
            self.kind(x.number)
        return then()

    def is_of(self, x, name, of_type):
        if not isinstance(x, Object):
            return False
        kind = self.kind(x.number)
        return kind == of_type if name == "oclIsTypeOf" else self.metamodel.conforms(kind, of_type)

    def keeping(self, xs, of_type):
        if of_type is None:
            return Collection("Sequence", xs)
        kept = [x for x in xs if (lambda kind: kind is not None and self.metamodel.conforms(kind, of_type))(self.kind_or_none(x.number))]
        return Collection("Sequence", kept)

    def of_object(self, x, name, of_type):
        if not isinstance(x, Object):
            raise Fault("NotAnObject")
        o = x.number
        self.kind(o)
        if name == "eContainer":
            while True:
                holder = self.holder(o)
                if holder is None:
                    return None
                o = holder[0]
                if of_type is None or self.metamodel.conforms(self.kind_or_none(o), of_type):
                    return Object(o)
        if name == "eContents":
            return self.keeping(self.contents(o), of_type)
        if name == "eAllContents":
            return self.keeping(self.look(f"Tree({o})", self.model.tree(o)), of_type)
        if name == "eInverse":
            return Collection("OrderedSet", [Object(p) for p in self.look(f"Inverse({o})", self.model.inverse(o))])
        if name == "ancestors":
            above, holder = [], self.holder(o)
            while holder is not None:
                above.append(Object(holder[0]))
                holder = self.holder(holder[0])
            return self.keeping(above, of_type)
        holder = self.holder(o)
        if holder is None:
            among = [Object(r) for r in self.look("Roots", self.model.roots)]
        else:
            self.kind_or_none(holder[0])
            among = self.contents(holder[0])
        place = next(i for i, y in enumerate(among) if y == x)
        if name == "precedingSiblings":
            return Collection("Sequence", among[:place])
        if name == "followingSiblings":
            return Collection("Sequence", among[place + 1:])
        return Collection("Sequence", [y for y in among if not y == x])

    def contents(self, o):
        return [v for key in self.model.content(o)[0] for v in self.slot(o, key)]

    # ---- services by `->`

    def arrow(self, name, receiver, arguments, env):
        sort = receiver.sort if isinstance(receiver, Collection) else "OrderedSet"
        members = receiver.members if isinstance(receiver, Collection) else [] if receiver is None else [receiver]
        if arguments and arguments[0][0] == "lambda":
            _, variable, body = arguments[0]
            return self.iterated(name, sort, members, lambda x: self.value(body, {**env, variable: x}))
        argument = self.value(arguments[0][1], env) if arguments and arguments[0][0] == "value" else None
        if name == "filter":
            kept = [x for x in members if isinstance(x, Object)
                    and (lambda kind: kind is not None and self.metamodel.conforms(kind, arguments[0][2]))(self.kind_or_none(x.number))]
            return Collection(sort, kept)
        if name in ("first", "last"):
            return (members[0] if name == "first" else members[-1]) if members else None
        if name == "at":
            place = integer(argument)
            return members[place - 1] if 1 <= place <= len(members) else None
        if name == "size":
            return len(members)
        if name in ("isEmpty", "notEmpty"):
            return (not members) == (name == "isEmpty")
        if name in ("includes", "excludes"):
            return any(same(x, argument) for x in members) == (name == "includes")
        if name == "including":
            return Collection(sort, members + [argument])
        if name == "excluding":
            return Collection(sort, [x for x in members if not same(x, argument)])
        return Collection({"asSequence": "Sequence", "asOrderedSet": "OrderedSet"}[name], members)

    def iterated(self, name, sort, members, body):
        if name in ("select", "reject"):
            return Collection(sort, [x for x in members if truth(body(x)) == (name == "select")])
        if name == "collect":
            gathered = Collection(sort)
            for x in members:
                gathered.put(body(x))
            return gathered
        for x in members:
            passes = truth(body(x))
            if name == "any" and passes:
                return x
            if name == "exists" and passes:
                return True
            if name == "forAll" and not passes:
                return False
        return {"any": None, "exists": False, "forAll": True}[name]


# ---- what is printed

def shown(value):
    if value is None:
        return "null"
    if isinstance(value, str):
        return f"'{value}'"
    if isinstance(value, Collection):
        return value.sort + "{" + ", ".join(shown(x) for x in value.members) + "}"
    return form(value)


def lines(metamodel, model, expressions):
    """What the program prints for the files of a metamodel, a model and expressions."""
    metamodel = Metamodel(json.load(open(metamodel)))
    model = Model(metamodel, json.load(open(model)))
    return [outcome(model, *line.split(" ", 1)) for line in open(expressions).read().splitlines()]


def outcome(model, number, text):
    if number == "concat":
        first, second = text.split(" ", 1)
        return f"concat {text} => {shown(first + second)} ;"
    evaluation = Evaluation(model)
    try:
        answer = shown(evaluation.value(Parser(text).whole(), {"self": Object(int(number))}))
    except Fault as fault:
        answer = fault.args[0]
    return f"{number} {text} => {answer} ;{''.join(' ' + cell.replace(', ', ',') for cell in evaluation.reads)}"


sys.setrecursionlimit(100000)

if __name__ == "__main__":
    print("\n".join(lines(*sys.argv[1:])))
