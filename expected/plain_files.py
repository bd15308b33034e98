"""Model files from the words of their definitions, for models.py: the first code and place of the checks in their order."""
import collections, json, math, re
from plain_models import LAST, MOST_OBJECTS, MOST_VALUES, Model, written


class Refused(Exception):
    pass


def refuse(code, *place):
    raise Refused(f"{code} #" + "".join("/" + str(part).replace("~", "~0").replace("/", "~1") for part in place))


def json_of(text):
    """The value that a text spells; 0.5 stands for each number that is no integer of 64 signed bits."""
    whole = lambda digits: int(digits) if digits != "-0" and -2 ** 63 <= int(digits) < 2 ** 63 else 0.5
    try:
        value = json.loads(text, parse_int=whole, parse_float=lambda digits: 0.5 if math.isfinite(float(digits)) else int(""), parse_constant=int)
        written(value).encode()
    except ValueError:
        refuse("BadJson")
    if depth(value) > 127:
        refuse("BadJson")
    return value


def depth(value):
    inside = value.values() if type(value) is dict else value if type(value) is list else None
    return 0 if inside is None else 1 + max(map(depth, inside), default=0)


def is_number(value):
    return type(value) is int and 0 <= value <= LAST


def is_name(value):
    return type(value) is str and re.fullmatch("[A-Za-z_][A-Za-z0-9_]{0,63}", value) is not None


def members(value, listed, *place):
    if type(value) is not dict:
        refuse("BadShape", *place)
    for name in sorted(value):
        if name not in listed:
            refuse("BadShape", *place, name)
    for name in listed:
        if name not in value:
            refuse("BadShape", *place)
        yield name, value[name], (*place, name)


def items(slots, place):
    """Each item of each slot with its place; a value that is no list is its own item."""
    for name in sorted(slots):
        is_list = type(slots[name]) is list
        for n, item in enumerate(slots[name] if is_list else [slots[name]]):
            yield name, item, (*place, name, n) if is_list else (*place, name)


def check_object(x, *place):
    for name, part, at in members(x, ("id", "class", "slots"), *place):
        if not {"id": is_number, "class": is_name, "slots": lambda slots: type(slots) is dict}[name](part):
            refuse("BadShape", *at)
    for name in sorted(x["slots"]):
        if not is_name(name):
            refuse("BadShape", *place, "slots", name)
    for _, item, at in items(x["slots"], (*place, "slots")):
        if type(item) not in (int, bool, str):
            refuse("BadShape", *at)


def check_form(found):
    for name, part, at in members(found, ("next", "roots", "objects")):
        if not is_number(part) if name == "next" else type(part) is not list:
            refuse("BadShape", *at)
        for n, item in enumerate(part if name != "next" else []):
            if name == "objects":
                check_object(item, "objects", n)
            elif not is_number(item):
                refuse("BadShape", "roots", n)


def read(metamodel, text):
    found = json_of(text)
    check_form(found)
    if len(found["objects"]) > MOST_OBJECTS:
        refuse("TooMany")
    places, kinds, links, misshapen = {}, {}, [], set()
    for n, x in enumerate(found["objects"]):
        if x["id"] in places:
            refuse("DuplicateObject", "objects", n)
        places[x["id"]] = n
    for o, n in places.items():
        x = found["objects"][n]
        kinds[o] = metamodel.class_numbers.get(x["class"])
        if kinds[o] is None:
            refuse("UnknownName", "objects", n, "class")
        for name, slot in sorted(x["slots"].items()):
            f = named_anywhere(metamodel, kinds[o], name)
            if f is None:
                refuse("UnknownName", "objects", n, "slots", name)
            feature = metamodel.features[f]
            if (type(slot) is list) != feature.many or slot == []:
                misshapen.add(o)
            for _, item, at in items({name: slot}, ("objects", n, "slots")):
                links.append((o, f, value_of(metamodel, feature.kind, item, at)))
    model = Model(metamodel, found["next"], kinds, links, found["roots"])
    check_conditions(model, misshapen, places)
    return model


def row(metamodel, text):
    """The class and the slots of the one object that a text says, where it is written as an object is; else nothing."""
    found = json_of(text)
    if type(found) is not dict or set(found) != {"class", "slots"} or type(found["slots"]) is not dict or written(found) != text:
        return None
    c = metamodel.class_numbers.get(found["class"]) if type(found["class"]) is str else None
    slots = [(metamodel.named(c, name), slot) for name, slot in sorted(found["slots"].items())] if c is not None else []
    if c is None or any(f is None or slot == [] or (type(slot) is list) != metamodel.features[f].many for f, slot in slots):
        return None
    listed = [(f, slot if type(slot) is list else [slot]) for f, slot in slots]
    if any(type(item) not in (int, bool, str) for _, items in listed for item in items):
        return None
    return c, [(f, [in_row(value_of(metamodel, metamodel.features[f].kind, item, ())) for item in items]) for f, items in listed]


def in_row(value):
    """A number that can be no object's stays a number."""
    return ("Int", value[1]) if value[0] == "Object" and not 0 <= value[1] <= LAST else value


def named_anywhere(metamodel, c, name):
    f = metamodel.named(c, name)
    return f if f is not None else next((g for g, x in enumerate(metamodel.features) if x.name == name), None)


def value_of(metamodel, kind, item, at):
    if type(item) is bool:
        return ("Bool", item)
    if type(item) is int:
        return ("Object" if kind[0] == "Object" else "Int", item)
    if kind[0] != "Enum":
        return ("Text", item)
    if item not in metamodel.enums[kind[1]]:
        refuse("UnknownName", *at)
    return ("Enum", kind[1], metamodel.enums[kind[1]].index(item))


def check_conditions(m, misshapen, places):
    """The first condition that fails, at the least object that shows it."""
    features, stands = m.metamodel.features, set(m.links)
    own = {c: m.metamodel.features_of(c) for c in set(m.kinds.values())}
    contained = [(v[1], a) for a, f, v in m.links if features[f].containment]
    holders = dict(contained)
    sizes = collections.Counter((o, f) for o, f, _ in m.links)
    shown_by = [
        lambda: [o for o in m.kinds if not 1 <= o < m.next],
        lambda: [o for o, c in m.kinds.items() if m.metamodel.classes[c].get("abstract", False)],
        lambda: [o for o, f, _ in m.links if f not in own[m.kinds[o]]],
        lambda: list(misshapen) + [o for (o, _), size in sizes.items() if size > MOST_VALUES],
        lambda: [o for o, f, v in m.links if not m.is_of_kind(f, v)],
        lambda: [link[0] for link, times in collections.Counter(m.links).items() if times > 1],
        lambda: [o for o, f, v in m.links if features[f].opposite is not None and (v[1], features[f].opposite, ("Object", o)) not in stands],
        lambda: [o for o, times in collections.Counter(o for o, _ in contained).items() if times > 1],
        lambda: [o for o in m.kinds if is_within_itself(o, holders)]]
    if m.next == 0:
        refuse("Broken1", "next")
    for number, objects in enumerate(shown_by, 1):
        if objects():
            refuse(f"Broken{number}", "objects", places[min(objects())])
    if sorted(m.roots) != sorted(set(m.kinds) - {o for o, _ in contained}):
        refuse("Broken10", "roots")


def is_within_itself(o, holders):
    p, passed = holders.get(o), set()
    while p is not None and p != o and p not in passed:
        passed.add(p)
        p = holders.get(p)
    return p == o
