#!/usr/bin/env python3
"""Reads metamodels at their limits with the proved program, and prints how long each run takes.

Usage, from the top of the checkout, after `(cd crates/workbench && rt run)` has built the program:
    python3 bench/metamodel.py
Each metamodel has 1,000 classes and 10,000 features, and beside them 1,000 enumerations with 10,000 literals. The run is `draw` with a
viewpoint and a model of one object, so that the metamodel is nearly all that it costs.
"""
import json, os, subprocess, tempfile, time
from costs import TOP

PROGRAM = os.path.join(TOP, "crates/workbench/out/workbench")

# the supertypes of class c
SHAPES = {
    "no supertypes": lambda c: [],
    "a chain": lambda c: [c - 1] if c > 0 else [],
    "diamonds": lambda c: [s for s in (c - 1, c - 2) if s >= 0],
    "a fan": lambda c: list(range(min(c, 20))),
}


def feature(c, k):
    if k == 0:
        return {"name": f"f{c}_{k}", "reference": f"C{c}", "many": True, "containment": True}
    return {"name": f"f{c}_{k}", "type": "Text"}


def metamodel(shape):
    classes = [
        {"name": f"C{c}", "supertypes": [f"C{s}" for s in SHAPES[shape](c)], "features": [feature(c, k) for k in range(10)]}
        for c in range(1000)
    ]
    enums = [{"name": f"E{e}", "literals": [f"l{k}" for k in range(10)]} for e in range(1000)]
    return {"package": "limits", "enums": enums, "classes": classes}


VIEWPOINT = {
    "viewpoint": "V",
    "diagram": {
        "name": "Map",
        "domain": "C0",
        "layers": [{"name": "Base"}],
        "top": ["M"],
        "mappings": [{"name": "M", "kind": "node", "domain": "C0", "candidates": "feature:f0_0", "style": {"shape": "square", "color": "white"}}],
    },
}
MODEL = {"next": 2, "objects": [{"class": "C0", "id": 1, "slots": {}}], "roots": [1]}


def main():
    with tempfile.TemporaryDirectory() as folder:
        files = {name: os.path.join(folder, f"{name}.json") for name in ("metamodel", "viewpoint", "model")}
        for name, value in (("viewpoint", VIEWPOINT), ("model", MODEL)):
            with open(files[name], "w") as file:
                json.dump(value, file)
        for shape in SHAPES:
            with open(files["metamodel"], "w") as file:
                json.dump(metamodel(shape), file)
            start = time.perf_counter()
            status = subprocess.run([PROGRAM, "draw", *files.values()], stdout=subprocess.DEVNULL).returncode
            print(f"{shape:14}: status {status}, {time.perf_counter() - start:.2f} s")


if __name__ == "__main__":
    main()
