"""Viewpoints, models and cases in few words, for the tables of cases of `draw`."""
import json
import os
import sys

import diagrams
import viewpoints
from program import held

TOP = os.path.dirname(os.path.dirname(os.path.abspath(__file__)))
DATA = os.path.join(TOP, "crates/cases_program/data")
STYLE = {"shape": "box", "color": "white"}
ASKED = ["m.json", "v.json", "x.json"]


# ---- viewpoints

def style(color="white", label=None, shape="box"):
    return {"shape": shape, "color": color, **({} if label is None else {"label": label})}


def node(name, domain, candidates=None, label=None, kind="node", **members):
    found = {} if candidates is None else {"candidates": candidates}
    return {"name": name, "kind": kind, "domain": domain, **found, "style": style(label=label), **members}


def container(*told, **members):
    return node(*told, kind="container", **members)


def border(*told, **members):
    return node(*told, kind="border", **members)


def items(*told, **members):
    return node(*told, kind="list", **members)


def edge(name, sources, targets, target, **members):
    return {"name": name, "kind": "edge", "sources": sources.split(), "targets": targets.split(), "targetFinder": target, "style": STYLE, **members}


def object_edge(name, domain, sources, targets, source, target, **members):
    return {"name": name, "kind": "object-edge", "domain": domain, "sources": sources.split(), "targets": targets.split(),
            "sourceFinder": source, "targetFinder": target, "style": STYLE, **members}


def when(condition, color="white", label=None):
    return {"when": condition, "style": style(color, label)}


def hiding(name, mappings, hides):
    return {"name": name, "mappings": mappings.split(), "hides": hides}


def view(*mappings, domain="Library", top=None, layers="Base", **members):
    """A viewpoint; on top stand the mappings of elements that no other one lists. A layer with a `+` is active."""
    listed = {name for mapping in mappings for name in mapping.get("children", []) + mapping.get("borders", []) if name != mapping["name"]}
    free = [mapping["name"] for mapping in mappings if mapping["kind"] in ("node", "container", "list") and mapping["name"] not in listed]
    named = [{"name": name.rstrip("+"), **({"active": True} if name.endswith("+") else {})} for name in layers.split()]
    return {"viewpoint": "V", "diagram": {"name": "D", "domain": domain, "layers": named, "top": free if top is None else top,
                                          "mappings": list(mappings), **members}}


# ---- models

def model(roots, **objects):
    """Objects are told as `o3=("Library", {..})`."""
    listed = [{"class": kind, "id": int(name[1:]), "slots": slots} for name, (kind, slots) in objects.items()]
    return {"next": max(x["id"] for x in listed) + 1, "objects": listed, "roots": roots}


def compact(value):
    return json.dumps(value, ensure_ascii=False, separators=(",", ":"))


# ---- cases

def file_of(name, told):
    """A file of `data/` by its name, a value of JSON, or a text with numbered parts."""
    if isinstance(told, str):
        return [name, told]
    return [name, "text", compact(told)] if isinstance(told, dict) else [name, "numbered", *told]


def case(name, shows, viewpoint, over="town.model.json", meta="town.metamodel.json", **expect):
    return {"name": name, "shows": shows, "words": ["draw", *ASKED], "files": [file_of("m.json", meta), file_of("v.json", viewpoint), file_of("x.json", over)],
            "expect": {"status": 0, "sink": "picture", **expect, "asked": ASKED}}


def facts(keys, edges, problems, elements=None, **more):
    """`keys` and `edges` are those that are served; `elements` is the number of declared elements and edges where some are not."""
    told = {"element_keys": keys.split(), "edge_keys": edges.split(), "problems": [dict(zip(("at", "fault"), problem.rsplit(" ", 1))) for problem in problems], **more}
    if elements is not None:
        told["counts"] = {**told.get("counts", {}), **dict(zip(("elements", "edges"), elements))}
    return told


def wrong(one):
    """What is wrong with a case: the problems of its viewpoint, or what does not hold of its diagram."""
    files = held(DATA, one)
    metamodel, viewpoint, over = (json.loads(files[name]) for name in ASKED)
    status, told = viewpoints.checked(metamodel, files["v.json"], "v.json")
    if status:
        return [told]
    diagram = diagrams.diagram_of(metamodel, viewpoint, over)
    return list(diagrams.differing(one["expect"].get("diagram", {}), diagram)) if diagram else []


def tell(cases):
    """Prints the cases, and on the other output what is wrong with them."""
    names = [one["name"] for one in cases]
    for one in cases:
        for line in [*wrong(one), *(["stands twice"] if names.count(one["name"]) > 1 else [])]:
            print(f"{one['name']}: {line}", file=sys.stderr)
    print("[\n" + ",\n".join(" " + json.dumps(one, ensure_ascii=False) for one in cases) + "\n]")
