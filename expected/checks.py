#!/usr/bin/env python3
"""Makes the cases of `check`: one small viewpoint, each time with a few changes, and what has to be printed of it.

    python3 expected/checks.py > crates/cases_program/data/checks.json

What is to be printed stands in the table, written by hand from the rules; it is compared with what `viewpoints.py` finds, but for offsets
and depth in the text of an expression, which stand in the table alone.
"""
import json
import os
import re
import sys

import viewpoints

TOP = os.path.dirname(os.path.dirname(os.path.abspath(__file__)))
STYLE = {"shape": "a", "color": "b"}
SMALL = {"viewpoint": "V", "diagram": {
    "name": "D", "domain": "Library", "layers": [{"name": "Base"}, {"name": "More"}], "top": ["Book", "Author"],
    "mappings": [
        {"name": "Book", "kind": "node", "domain": "Book", "candidates": "feature:books", "style": STYLE},
        {"name": "Author", "kind": "list", "domain": "Author", "children": ["Work"], "style": STYLE},
        {"name": "Work", "kind": "node", "domain": "Book", "candidates": "feature:books", "style": STYLE},
        {"name": "Loan", "kind": "object-edge", "domain": "Loan", "candidates": "feature:loans", "sources": ["Book"],
         "targets": ["Author"], "sourceFinder": "feature:book", "targetFinder": "feature:member", "style": STYLE},
        {"name": "Wrote", "kind": "edge", "sources": ["Author"], "targets": ["Book"], "targetFinder": "feature:books", "style": STYLE}],
    "filters": [{"name": "Idle", "mappings": ["Book"], "hides": "aql:true"}],
    "tools": [{"name": "Erase", "kind": "delete", "do": [{"op": "remove"}]}]}}
GONE = object()
SET = {"op": "set", "feature": "title", "value": "aql:self"}


def node(name, **members):
    return {"name": name, "kind": "node", "domain": "Book", "style": STYLE, **members}


def nested(levels, last):
    tree = last
    for _ in range(levels - 1):
        tree = {"op": "if", "condition": "aql:true", "do": [tree]}
    return [tree]


def looks(count):
    return [{"when": "aql:true", "style": STYLE}] * count


LAST = {"mappings": "mappings/5", "tools": "tools/0/do"}

# name, changes of the viewpoint, and what is printed: `ok`, a place and BadShape, `TooMany`, or the lines of the problems
CASES = [
    ("nothing_changed", [], "ok"),
    # ---- the form
    ("viewpoint_missing", [("/viewpoint", GONE)], "# BadShape"),
    ("viewpoint_is_a_number", [("/viewpoint", 5)], "#/viewpoint BadShape"),
    ("diagram_missing", [("/diagram", GONE)], "# BadShape"),
    ("diagram_is_null", [("/diagram", None)], "#/diagram BadShape"),
    ("two_members_not_listed", [("zzz", 1), ("aaa~/b", 1)], "#/diagram/aaa~0~1b BadShape"),
    ("diagram_without_name", [("name", GONE), ("domain", 5)], "#/diagram BadShape"),
    ("name_of_65_bytes", [("name", "n" * 65)], "#/diagram/name BadShape"),
    ("name_of_64_bytes", [("name", "n" * 64)], "ok"),
    ("name_that_begins_with_a_digit", [("name", "1a")], "#/diagram/name BadShape"),
    ("domain_with_a_space", [("domain", "A b")], "#/diagram/domain BadShape"),
    ("layers_missing", [("layers", GONE)], "#/diagram BadShape"),
    ("no_layer", [("layers", [])], "#/diagram/layers BadShape"),
    ("layer_without_name", [("layers/0", {})], "#/diagram/layers/0 BadShape"),
    ("layer_active_is_a_word", [("layers/1/active", "yes")], "#/diagram/layers/1/active BadShape"),
    ("top_is_no_list", [("top", "Book")], "#/diagram/top BadShape"),
    ("top_with_a_number", [("top/1", 7)], "#/diagram/top/1 BadShape"),
    ("no_top_and_no_mapping", [("top", []), ("mappings", []), ("filters", GONE), ("tools", GONE)], "ok"),
    ("mapping_without_kind", [("mappings/0/kind", GONE)], "#/diagram/mappings/0 BadShape"),
    ("mapping_of_no_kind", [("mappings/0/kind", "box"), ("mappings/0/zzz", 1)], "#/diagram/mappings/0/kind BadShape"),
    ("mapping_whose_kind_is_a_number", [("mappings/0/kind", 1)], "#/diagram/mappings/0/kind BadShape"),
    ("node_with_sources", [("mappings/0/sources", [])], "#/diagram/mappings/0/sources BadShape"),
    ("edge_with_a_domain", [("mappings/4/domain", "Book")], "#/diagram/mappings/4/domain BadShape"),
    ("edge_with_synchronised", [("mappings/4/synchronised", True)], "#/diagram/mappings/4/synchronised BadShape"),
    ("object_edge_without_source_finder", [("mappings/3/sourceFinder", GONE)], "#/diagram/mappings/3 BadShape"),
    ("edge_without_target_finder", [("mappings/4/targetFinder", GONE)], "#/diagram/mappings/4 BadShape"),
    ("synchronised_is_a_number", [("mappings/0/synchronised", 1)], "#/diagram/mappings/0/synchronised BadShape"),
    ("children_are_no_names", [("mappings/1/children/0", "a b")], "#/diagram/mappings/1/children/0 BadShape"),
    ("mapping_without_style", [("mappings/0/style", GONE)], "#/diagram/mappings/0 BadShape"),
    ("style_without_color", [("mappings/0/style/color", GONE)], "#/diagram/mappings/0/style BadShape"),
    ("label_is_a_number", [("mappings/0/style/label", 5)], "#/diagram/mappings/0/style/label BadShape"),
    ("expression_of_4097_bytes", [("mappings/0/style/label", "aql:" + " " * 4092 + "1")], "#/diagram/mappings/0/style/label BadShape"),
    ("expression_of_4096_bytes", [("mappings/0/style/label", "aql:" + " " * 4091 + "1")], "ok"),
    ("condition_missing", [("mappings/0/styles", [{"style": STYLE}])], "#/diagram/mappings/0/styles/0 BadShape"),
    ("style_with_a_member_more", [("mappings/0/styles", [{"when": "aql:true", "style": {**STYLE, "size": 1}}])],
     "#/diagram/mappings/0/styles/0/style/size BadShape"),
    ("filter_without_hides", [("filters/0/hides", GONE)], "#/diagram/filters/0 BadShape"),
    ("filter_mappings_missing", [("filters/0/mappings", GONE)], "#/diagram/filters/0 BadShape"),
    ("tool_of_no_kind", [("tools/0/kind", "make")], "#/diagram/tools/0/kind BadShape"),
    ("tool_without_operations", [("tools/0/do", GONE)], "#/diagram/tools/0 BadShape"),
    ("tool_with_a_member_more", [("tools/0/icon", "x")], "#/diagram/tools/0/icon BadShape"),
    ("operation_without_op", [("tools/0/do/0", {})], "#/diagram/tools/0/do/0 BadShape"),
    ("operation_of_no_sort", [("tools/0/do/0/op", "stop")], "#/diagram/tools/0/do/0/op BadShape"),
    ("remove_with_operations", [("tools/0/do/0/do", [])], "#/diagram/tools/0/do/0/do BadShape"),
    ("set_without_value", [("tools/0/do/0", {"op": "set", "feature": "title"})], "#/diagram/tools/0/do/0 BadShape"),
    ("change_context_without_operations", [("tools/0/do/0", {"op": "change_context", "browse": "var:self"})], "#/diagram/tools/0/do/0 BadShape"),
    ("for_without_iterator", [("tools/0/do/0", {"op": "for", "items": "var:self", "do": []})], "#/diagram/tools/0/do/0 BadShape"),
    ("wrong_operation_inside", [("tools/0/do/0", {"op": "if", "condition": "aql:true", "do": [{"op": "remove"}, {"op": "if", "do": []}]})],
     "#/diagram/tools/0/do/0/do/1 BadShape"),
    # ---- the limits
    ("256_mappings", [("mappings/5", GONE)] + [(f"mappings/{n}", node(f"M{n}")) for n in range(5, 256)], "ok"),
    ("257_mappings", [(f"mappings/{n}", node(f"M{n}")) for n in range(5, 257)], "TooMany"),
    ("64_layers", [("layers", [{"name": f"L{n}"} for n in range(64)])], "ok"),
    ("65_layers", [("layers", [{"name": "L"} for n in range(65)])], "TooMany"),
    ("64_filters", [("filters", [{"name": f"F{n}", "mappings": [], "hides": "aql:true"} for n in range(64)])], "ok"),
    ("65_filters", [("filters", [{"name": "F", "mappings": [], "hides": "aql:true"} for n in range(65)])], "TooMany"),
    ("256_tools", [("tools", [{"name": f"T{n}", "kind": "delete", "do": []} for n in range(256)])], "ok"),
    ("257_tools", [("tools", [{"name": "T", "kind": "delete", "do": []} for n in range(257)])], "TooMany"),
    ("32_conditional_styles", [("mappings/0/styles", looks(32))], "ok"),
    ("33_conditional_styles", [("mappings/3/styles", looks(33))], "TooMany"),
    ("256_operations", [("tools/0/do", [{"op": "if", "condition": "aql:true", "do": [{"op": "remove"}] * 255}])], "ok"),
    ("257_operations", [("tools/0/do", [{"op": "if", "condition": "aql:true", "do": [{"op": "remove"}] * 256}])], "TooMany"),
    ("operations_16_deep", [("tools/0/do", nested(16, {"op": "remove"}))], "ok"),
    ("operations_17_deep", [("tools/0/do", nested(17, {"op": "remove"}))], "TooMany"),
    # ---- names of their own
    ("layer_name_repeats", [("layers/1/name", "Base")], ["#/diagram/layers/1/name DuplicateName Base"]),
    ("mapping_name_repeats", [("mappings/2/name", "Book")],
     ["#/diagram/mappings/1/children/0 UnknownMapping Work", "#/diagram/mappings/2/name DuplicateName Book"]),
    ("filter_name_repeats", [("filters/1", {"name": "Idle", "mappings": [], "hides": "aql:false"})], ["#/diagram/filters/1/name DuplicateName Idle"]),
    ("tool_name_repeats", [("tools/1", {"name": "Erase", "kind": "drop", "do": []})], ["#/diagram/tools/1/name DuplicateName Erase"]),
    ("sorts_of_names_are_apart", [("layers/0/name", "Book"), ("filters/0/name", "Book"), ("tools/0/name", "Book")], "ok"),
    # ---- classes and layers
    ("unknown_domain", [("domain", "Shop")], ["#/diagram/domain UnknownClass Shop"]),
    ("unknown_class_of_a_node", [("mappings/0/domain", "Shop")], ["#/diagram/mappings/0/domain UnknownClass Shop"]),
    ("unknown_class_of_an_edge", [("mappings/3/domain", "Kind")], ["#/diagram/mappings/3/domain UnknownClass Kind"]),
    ("unknown_layer", [("mappings/0/layer", "Most"), ("mappings/4/layer", "More")], ["#/diagram/mappings/0/layer UnknownLayer Most"]),
    # ---- lists of mappings
    ("unknown_on_top", [("top/1", "Shop")], ["#/diagram/top/1 UnknownMapping Shop"]),
    ("unknown_child", [("mappings/1/children/0", "Shop")], ["#/diagram/mappings/1/children/0 UnknownMapping Shop"]),
    ("unknown_border", [("mappings/0/borders", ["Shop"])], ["#/diagram/mappings/0/borders/0 UnknownMapping Shop"]),
    ("unknown_ends", [("mappings/3/sources", ["Shop", "Book"]), ("mappings/4/targets/0", "Shop")],
     ["#/diagram/mappings/3/sources/0 UnknownMapping Shop", "#/diagram/mappings/4/targets/0 UnknownMapping Shop"]),
    ("unknown_filtered", [("filters/0/mappings", ["Loan", "Shop", "Loan"])], ["#/diagram/filters/0/mappings/1 UnknownMapping Shop"]),
    ("edges_as_ends", [("mappings/3/targets/0", "Wrote"), ("mappings/4/sources/0", "Loan")],
     ["#/diagram/mappings/3/targets/0 BadEnds Wrote", "#/diagram/mappings/4/sources/0 BadEnds Loan"]),
    ("ends_may_repeat", [("mappings/3/sources", ["Book", "Book"])], "ok"),
    ("top_repeats", [("top", ["Book", "Author", "Book"])], ["#/diagram/top/2 MappingReused Book"]),
    ("child_is_on_top_too", [("top", ["Book", "Author", "Work"])], ["#/diagram/mappings/1/children/0 MappingReused Work"]),
    ("own_child_and_on_top", [("mappings/0/kind", "container"), ("mappings/0/children", ["Book"])], "ok"),
    ("own_child_twice", [("mappings/0/kind", "container"), ("mappings/0/children", ["Book", "Book"])], ["#/diagram/mappings/0/children/1 MappingReused Book"]),
    ("own_child_and_two_others", [("mappings/1/kind", "container"), ("mappings/1/children", ["Author", "Work"]), ("mappings/0/kind", "container"),
     ("mappings/0/children", ["Author"])], ["#/diagram/mappings/0/children/0 MappingReused Author"]),
    ("unknown_that_repeats", [("top", ["Shop", "Shop"])], ["#/diagram/top/0 UnknownMapping Shop", "#/diagram/top/1 UnknownMapping Shop"]),
    ("edge_on_top_twice", [("top", ["Loan", "Loan"])], ["#/diagram/top/0 BadChild Loan", "#/diagram/top/1 MappingReused Loan"]),
    ("border_on_top", [("mappings/0/kind", "border")], ["#/diagram/top/0 BadChild Book"]),
    ("border_as_child", [("mappings/2/kind", "border"), ("mappings/1/kind", "container")], ["#/diagram/mappings/1/children/0 BadChild Work"]),
    ("list_in_a_container", [("mappings/1/kind", "container"), ("mappings/2/kind", "list")], "ok"),
    ("list_in_a_list", [("mappings/2/kind", "list")], ["#/diagram/mappings/1/children/0 BadChild Work"]),
    ("item_with_borders", [("mappings/2/borders", ["Tag"]), ("mappings/5", node("Tag", kind="border"))], ["#/diagram/mappings/1/children/0 BadChild Work"]),
    ("item_with_no_borders", [("mappings/2/borders", []), ("mappings/2/children", [])], "ok"),
    ("node_as_border", [("mappings/0/borders", ["Work"]), ("mappings/1/children", [])], ["#/diagram/mappings/0/borders/0 BadChild Work"]),
    ("border_as_border", [("mappings/0/borders", ["Tag"]), ("mappings/5", node("Tag", kind="border"))], "ok"),
    ("node_with_children", [("mappings/0/children", ["Work"]), ("mappings/1/children", [])], ["#/diagram/mappings/0/children/0 BadChild Work"]),
    ("border_with_children", [("mappings/5", node("Tag", kind="border", children=["More"])), ("mappings/6", node("More"))],
     ["#/diagram/mappings/5/children/0 BadChild More"]),
    ("first_of_two_of_one_name_is_meant", [("mappings/5", node("Work", kind="border"))], ["#/diagram/mappings/5/name DuplicateName Work"]),
    # ---- expressions
    ("no_prefix", [("mappings/0/style/label", "self.title")], ["#/diagram/mappings/0/style/label BadPrefix"]),
    ("empty_expression", [("mappings/0/style/label", "")], ["#/diagram/mappings/0/style/label BadPrefix"]),
    ("prefix_in_capitals", [("mappings/0/style/label", "AQL:self")], ["#/diagram/mappings/0/style/label BadPrefix"]),
    ("feature_without_name", [("mappings/0/style/label", "feature:")], ["#/diagram/mappings/0/style/label BadPrefix"]),
    ("feature_of_a_reserved_word", [("mappings/0/style/label", "feature:in")], ["#/diagram/mappings/0/style/label BadPrefix"]),
    ("feature_with_a_space", [("mappings/0/style/label", "feature: title")], ["#/diagram/mappings/0/style/label BadPrefix"]),
    ("feature_of_65_bytes", [("mappings/0/style/label", "feature:" + "f" * 65)], ["#/diagram/mappings/0/style/label BadPrefix"]),
    ("variable_of_a_reserved_word", [("mappings/0/candidates", "var:not")], ["#/diagram/mappings/0/candidates BadPrefix"]),
    ("unknown_feature", [("mappings/0/style/label", "feature:titel")], ["#/diagram/mappings/0/style/label UnknownFeature titel"]),
    ("feature_is_no_variable", [("mappings/0/style/label", "feature:self")], ["#/diagram/mappings/0/style/label UnknownFeature self"]),
    ("variable_is_no_feature", [("mappings/0/style/label", "var:title")], ["#/diagram/mappings/0/style/label UnknownVariable title"]),
    ("syntax_at_its_offset", [("mappings/0/style/label", "aql:self.title +")], ["#/diagram/mappings/0/style/label Syntax 12"]),
    ("syntax_at_once", [("mappings/0/style/label", "aql:")], ["#/diagram/mappings/0/style/label Syntax 0"]),
    ("syntax_at_a_word", [("mappings/3/sourceFinder", "aql:self book")], ["#/diagram/mappings/3/sourceFinder Syntax 5"]),
    ("too_deep_at_its_offset", [("mappings/0/candidates", "aql:" + "(" * 65 + "1" + ")" * 65)], ["#/diagram/mappings/0/candidates TooDeep 64"]),
    ("unknown_service", [("mappings/4/targetFinder", "aql:self->sum()")], ["#/diagram/mappings/4/targetFinder UnknownService sum"]),
    ("wrong_arity", [("mappings/0/styles", [{"when": "aql:self->size(1)", "style": STYLE}])], ["#/diagram/mappings/0/styles/0/when WrongArity size"]),
    ("unknown_type", [("filters/0/hides", "aql:self.oclIsKindOf(lib::Shop)")], ["#/diagram/filters/0/hides UnknownType Shop"]),
    ("label_of_a_conditional_style", [("mappings/0/styles", [{"when": "aql:true", "style": {**STYLE, "label": "feature:x"}}])],
     ["#/diagram/mappings/0/styles/0/style/label UnknownFeature x"]),
    ("container_in_a_precondition", [("mappings/0/precondition", "aql:container = self"), ("mappings/1/precondition", "var:container")], "ok"),
    ("container_in_an_edge_precondition", [("mappings/3/precondition", "var:container"), ("mappings/4/precondition", "var:container")],
     ["#/diagram/mappings/3/precondition UnknownVariable container", "#/diagram/mappings/4/precondition UnknownVariable container"]),
    ("container_elsewhere", [("mappings/0/candidates", "var:container"), ("mappings/0/style/label", "var:container"), ("filters/0/hides", "var:container")],
     ["#/diagram/mappings/0/candidates UnknownVariable container", "#/diagram/mappings/0/style/label UnknownVariable container",
      "#/diagram/filters/0/hides UnknownVariable container"]),
    # ---- tools
    ("variables_of_each_kind", [("tools", [{"name": kind, "kind": kind, "precondition": "aql:" + " = ".join(names[:2]), "do": [
        {"op": "unset", "feature": "title", "value": f"var:{name}"} for name in ["self", *names]]} for kind, names in viewpoints.TOOLS.items()])], "ok"),
    ("variables_of_another_kind", [("tools/0/kind", "direct_edit"), ("tools/0/precondition", "var:arg1"), ("tools/0/do", [
        {"op": "set", "feature": "title", "value": "var:arg0"}, {"op": "set", "feature": "title", "value": "var:source"}])],
     ["#/diagram/tools/0/precondition UnknownVariable arg1", "#/diagram/tools/0/do/1/value UnknownVariable source"]),
    ("iterator_inside_alone", [("tools/0/do", [{"op": "for", "items": "var:i", "iterator": "i", "do": [
        {"op": "if", "condition": "var:i", "do": [{**SET, "value": "var:i"}]}]}, {**SET, "value": "var:i"}])],
     ["#/diagram/tools/0/do/0/items UnknownVariable i", "#/diagram/tools/0/do/1/value UnknownVariable i"]),
    ("variable_inside_alone", [("tools/0/do", [{"op": "create_instance", "reference": "books", "class": "Book", "variable": "b", "do": [
        {"op": "change_context", "browse": "var:b", "do": [{"op": "move", "to": "var:b", "reference": "loans"}]}]},
        {"op": "create_instance", "reference": "books", "class": "Book", "variable": "b"}, {"op": "move", "to": "var:b", "reference": "books"}])],
     ["#/diagram/tools/0/do/2/to UnknownVariable b"]),
    ("unknown_feature_of_an_operation", [("tools/0/do", [{**SET, "feature": "titel"}, {"op": "unset", "feature": "x"}])],
     ["#/diagram/tools/0/do/0/feature BadOperation titel", "#/diagram/tools/0/do/1/feature BadOperation x"]),
    ("reference_that_contains_nothing", [("tools/0/do", [{"op": "move", "to": "var:self", "reference": "author"},
        {"op": "create_instance", "reference": "title", "class": "Book", "variable": "b"}])],
     ["#/diagram/tools/0/do/0/reference BadOperation author", "#/diagram/tools/0/do/1/reference BadOperation title"]),
    ("unknown_class_of_an_operation", [("tools/0/do", [{"op": "create_instance", "reference": "books", "class": "Shop", "variable": "b"}])],
     ["#/diagram/tools/0/do/0/class UnknownClass Shop"]),
    ("problems_of_all_parts_in_order", [("domain", "Shop"), ("layers/1/name", "Base"), ("top/0", "Shop"), ("mappings/0/candidates", "feature:x"),
        ("mappings/2/layer", "Shop"), ("filters/0/hides", "x"), ("tools/0/do/0", {**SET, "feature": "x", "value": "var:x"})],
     ["#/diagram/domain UnknownClass Shop", "#/diagram/layers/1/name DuplicateName Base", "#/diagram/top/0 UnknownMapping Shop",
      "#/diagram/mappings/0/candidates UnknownFeature x", "#/diagram/mappings/2/layer UnknownLayer Shop", "#/diagram/filters/0/hides BadPrefix",
      "#/diagram/tools/0/do/0/feature BadOperation x", "#/diagram/tools/0/do/0/value UnknownVariable x"]),
]

# texts that are no JSON
TEXTS = [
    ("empty_file", ""),
    ("file_that_is_cut", json.dumps(SMALL)[:500]),
    ("file_with_a_mark_of_byte_order", "\ufeff" + json.dumps(SMALL)),
    ("file_with_more_behind", json.dumps(SMALL) + "{}"),
    ("file_of_control_bytes", "\u0000\u0001\u0002"),
    ("file_that_nests_128_deep", "[" * 128 + "]" * 128),
]


def changed(changes):
    whole = json.loads(json.dumps(SMALL))
    for pointer, value in changes:
        *steps, last = pointer[1:].split("/") if pointer.startswith("/") else ["diagram", *(pointer.split("/") if "~" not in pointer else [pointer])]
        part = whole
        for step in steps:
            part = part[int(step)] if isinstance(part, list) else part[step]
        if isinstance(part, list):
            del part[int(last):int(last) + 1]
            if value is not GONE:
                part.insert(int(last), value)
        elif value is GONE:
            part.pop(last)
        else:
            part[last] = value
    return json.dumps(whole, separators=(",", ":"))


def printed(expected):
    if expected == "ok":
        return 0, "ok\n"
    if expected == "TooMany":
        return 5, "too large v.json\n"
    if isinstance(expected, str):
        return 4, f"bad v.json {expected}\n"
    return 1, "".join(f"{line}\n" for line in expected)


def without_offsets(text):
    return re.sub(r" Syntax .*", " Syntax ?", text)


def case(name, text, status, sink):
    return {"name": name, "shows": f"`check` of a viewpoint: {name.replace('_', ' ')}.", "words": ["check", "m.json", "v.json"],
            "files": [["m.json", "library.metamodel.json"], ["v.json", "text", text]],
            "expect": {"status": status, "sink": sink, "asked": ["m.json", "v.json"]}}


def main():
    with open(os.path.join(TOP, "crates/cases_program/data/library.metamodel.json"), encoding="utf-8") as file:
        metamodel = json.load(file)
    cases = []
    for name, changes, expected in CASES:
        text, (status, sink) = changed(changes), printed(expected)
        found = viewpoints.checked(metamodel, text, "v.json")
        if "TooDeep" not in sink and (found[0], without_offsets(found[1])) != (status, without_offsets(sink)):
            print(f"{name}: the table says {sink!r}, the rules {found[1]!r}", file=sys.stderr)
        cases.append(case(name, text, status, sink))
    for name, text in TEXTS:
        cases.append(case(name, text, 4, "bad v.json # BadJson\n"))
    print("[\n" + ",\n".join(" " + json.dumps(case) for case in cases) + "\n]")


if __name__ == "__main__":
    main()
