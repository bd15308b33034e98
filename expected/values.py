#!/usr/bin/env python3
"""Makes the cases of `draw` that show values: each expression of `town.expressions` as the label of an element of its own.

    python3 expected/values.py > crates/cases_program/data/values.json

A line of that file is a topic, or the number of the object that `self` is and an expression. The label is an expression that writes the
value: texts in quotes, collections with their sort. So a case is told what `evaluations.py` finds of the expression alone, as a label or
as the fault of one. Expressions that are near a limit stand as they are.
"""
import json
import os

import evaluations
from sketches import DATA, case, facts, node, tell, view

SAY = ("let v = {} in let f = v->asSequence()->collect(x | if x + '' = x then '\\'' + x + '\\'' else x + '' endif) in if v = null then 'null' "
       "else if v->asSequence() = v then 'Sequence{{' + f + '}}' else if v->asOrderedSet() = v then 'OrderedSet{{' + f + '}}' else f + '' endif endif endif")
PLAIN = "limits"
LONGEST = "1" + "+1" * 2045 + " "


def topics():
    with open(os.path.join(os.path.dirname(os.path.abspath(__file__)), "town.expressions"), encoding="utf-8") as file:
        for part in file.read().removeprefix("# ").split("\n# "):
            topic, *lines = part.splitlines()
            yield topic, [line.split(" ", 1) for line in lines]


def loaded(name):
    with open(os.path.join(DATA, name), encoding="utf-8") as file:
        return json.load(file)


def way_to(model, o):
    """What finds an object from the root element, which is 1."""
    if o == 1:
        return "var:self"
    below = [x.number for x in model.tree(1)]
    if o in below:
        return f"aql:self.eAllContents()->at({below.index(o) + 1})"
    return f"aql:self.siblings()->at({[r for r in model.roots if r != 1].index(o) + 1})"


def told(model, o, text, written):
    """The label of an expression's value, and its fault."""
    evaluation = evaluations.Evaluation(model)
    try:
        return written(evaluation.value(evaluations.Parser(text).whole(), {"self": evaluations.Object(o)})), None
    except evaluations.Fault as fault:
        return "", fault.args[0]


def values(model, topic, lines):
    plain = topic == PLAIN
    mappings, keys, labels, problems = [], [], {}, []
    for n, (number, text) in enumerate(lines):
        o = int(number)
        label, fault = told(model, o, text, evaluations.form if plain else evaluations.shown)
        mappings.append(node(f"V{n}", model.kinds[o], way_to(model, o), "aql:" + (text if plain else SAY.format(text))))
        keys.append(f"{n}.{o}")
        labels[keys[-1]] = label
        problems += [f"label 0 {keys[-1]} {fault}"] if fault else []
    return case(f"values_of_{topic.replace(' ', '_')}", f"Values of expressions as labels: {topic}.", view(*mappings), diagram=facts(" ".join(keys), "", problems, labels=labels))


def main():
    model = evaluations.Model(evaluations.Metamodel(loaded("town.metamodel.json")), loaded("town.model.json"))
    cases = [values(model, topic, lines) for topic, lines in topics()]
    cases.append(case("value_of_a_long_chain", "An expression of 4,096 bytes with its prefix, a sum of 2,046 ones.", view(node("It", "Library", "var:self", f"aql:{LONGEST}")),
                      diagram=facts("0.1", "", [], labels={"0.1": "2046"})))
    tell(cases)


if __name__ == "__main__":
    main()
