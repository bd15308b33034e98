#!/usr/bin/env python3
"""Makes the cases of `draw`: small viewpoints over a town of libraries, and what has to be drawn of each.

    python3 expected/draws.py > crates/cases_program/data/draws.json

What is told of a diagram (the keys of elements and edges, the problems, and where it matters labels, colors, counts and units) stands in
the table, written by hand from the rules. `diagrams.py` draws each case anew, and all of this has to hold of what it draws; the text that
the program has to print is that drawing.
"""
from sketches import border, case, container, edge, facts, hiding, items, model, node, object_edge, style, tell, view, when

CASES = []


def draw(name, shows, viewpoint, over="town.model.json", meta="town.metamodel.json", keys="", edges="", problems=(), elements=None, **more):
    CASES.append(case(name, shows, viewpoint, over, meta, diagram=facts(keys, edges, problems, elements, **more)))


WORKS = node("Work", "Work", "feature:works")
BOOKS = node("Book", "Book", "feature:works")
AUTHORS = node("Author", "Author", "feature:people")
MEMBERS = node("Member", "Member", "feature:people")
LIBRARIES = container("Lib", "Library")
FIRST = "aql:self.works->first()"
FAULT = "aql:1 div 0"
SIXTEEN = "let s = Sequence{" + ", ".join(map(str, range(16))) + "} in "
MANY = SIXTEEN + "s->collect(a | s->collect(b | s->collect(c | s)))"


def sixteen(name, part):
    return f"let {name} = {' + '.join([part] * 16)} in "


LONG = "let a = '0123456789abcdef' in " + sixteen("b", "a") + sixteen("c", "b")
FAULTS = {
    "NotAnObject": "aql:self.name.works", "NoFeature": "aql:self.pages", "NotBool": "aql:not 1", "NotInt": "aql:1 - 'a'",
    "Overflow": "aql:9223372036854775807 + 1", "DivideByZero": FAULT, "TooLong": f"aql:{MANY}->including(0)",
    "TextTooLong": "aql:" + LONG + sixteen("d", "c") + "d + '!'"}

# ---- the root element

TWO_TOWNS = model([5, 3, 1], o1=("Library", {"works": [2]}), o2=("Book", {"library": 1}), o3=("Library", {"works": [4]}),
                  o4=("Book", {"library": 3}), o5=("Author", {}))
INSIDE = model([5], o1=("Library", {}), o5=("Library", {"branches": [1]}))
draw("root_is_the_first_of_its_class", "Of the roots the first that conforms counts, not the one of the least number.", view(BOOKS), TWO_TOWNS, keys="0.4")
draw("root_of_a_class_below", "A root conforms where its class is below that of the diagram.", view(node("It", "Named", "var:self"), domain="Named"),
     TWO_TOWNS, keys="0.5")
draw("contained_object_is_no_root", "An object that is contained is not the root element.", view(node("It", "Library", "var:self")), INSIDE, keys="0.5")
draw("root_behind_others", "Roots of other classes are passed over.", view(node("It", "Person", "var:self"), domain="Person"), keys="0.15")

# ---- candidates

draw("extent_of_a_class", "Without an expression all objects of the class are candidates, ascending by number.", view(node("Work", "Work")),
     keys="0.2 0.3 0.4 0.12", units=["candidates 0 -"], counts={"weight": 5})
draw("extent_holds_the_root_element", "The root element is an object like any other.", view(node("Lib", "Library")), keys="0.1 0.11 0.13")
draw("extent_of_an_abstract_class", "Objects of all classes below count.", view(node("Named", "Named")),
     keys="0.1 0.2 0.3 0.4 0.6 0.7 0.8 0.11 0.12 0.13 0.15")
draw("extent_of_a_class_without_objects", "There is nothing to draw.", view(node("Loan", "Loan")), TWO_TOWNS, keys="", units=["candidates 0 -"])
draw("extent_under_a_parent", "It is the same under every parent.", view(container("Lib", "Library", "feature:branches", children=["Person"]),
     node("Person", "Person")), keys="0.11 0.11-1.6 0.11-1.7 0.11-1.8 0.11-1.15")
draw("single_reference_as_candidate", "A value that is no collection is one candidate.", view(node("Book", "Book", "aql:self.works->first().sequel")), keys="0.3")
draw("null_is_no_candidate", "Null gives none, without a problem.", view(node("A", "Book", "aql:null"), node("B", "Book", "aql:self.works->at(9)"),
     node("C", "Book", "aql:self.works->at(2).sequel")))
draw("candidates_that_are_no_objects", "Values of other sorts are passed over, without a problem.", view(*(node(f"M{n}", "Named", f"aql:{text}")
     for n, text in enumerate(["1", "'a'", "true", "lib::Genre::novel", "Sequence{1, 'a', true}", "OrderedSet{}"]))))
draw("objects_among_other_values", "The objects of a mixed collection are candidates.",
     view(node("Work", "Work", "aql:Sequence{1, 'a', self.works, null, self.works->first(), lib::Genre::atlas}")), keys="0.2 0.3 0.4")
draw("objects_of_other_classes", "Objects that are not of the mapping's class are passed over, without a problem.",
     view(node("Book", "Book", "aql:self.eAllContents()")), keys="0.2 0.3 0.12")
draw("objects_of_classes_below", "Objects of classes below the mapping's are of it.", view(node("Named", "Named", "aql:self.eAllContents()")),
     keys="0.2 0.3 0.4 0.6 0.7 0.8 0.11 0.12 0.13")
draw("repeated_candidates", "Each counts once, at its first place.",
     view(node("Work", "Work", "aql:Sequence{self.works->at(2), self.works->at(1), self.works->at(2), self.works}")), keys="0.3 0.2 0.4")
draw("order_of_the_value", "Candidates come in the order of the value, not of their numbers.",
     view(node("Work", "Work", "aql:Sequence{self.works->last(), self.works->first()}")), keys="0.4 0.2")
draw("faults_of_candidates", "A fault gives no candidates and one problem, and the next mapping goes on.",
     view(*(node(f"M{n}", "Work", text) for n, text in enumerate(FAULTS.values())), node("Last", "Work", "feature:works")),
     keys="8.2 8.3 8.4", problems=[f"candidates {n} - {fault}" for n, fault in enumerate(FAULTS)])
draw("fault_under_one_parent", "Only that parent stays empty.", view(container("Lib", "Library", children=["Work"]),
     node("Work", "Work", "aql:if 1 div self.works->size() >= 0 then self.works else null endif")),
     keys="0.1 0.1-1.2 0.1-1.3 0.1-1.4 0.11 0.11-1.12 0.13", problems=["candidates 1 0.13 DivideByZero"])
draw("feature_that_the_root_lacks", "`feature:` of a class without it is a fault.", view(node("Map", "Map", "feature:scale")), problems=["candidates 0 - NoFeature"])
draw("one_object_by_two_mappings", "An object is drawn once for each mapping.", view(WORKS, node("Again", "Work", "feature:works")),
     keys="0.2 0.3 0.4 1.2 1.3 1.4")
draw("order_of_the_top", "Mappings come in the order in which they stand on top.", view(BOOKS, node("Map", "Map", "feature:works"), top=["Map", "Book"]),
     keys="1.4 0.2 0.3", units=["candidates 1 -", "candidates 0 -"])
draw("mapping_in_no_list", "What stands in no list is not declared, and its expressions are not asked.",
     view(BOOKS, node("Lost", "Book", FAULT, FAULT), top=["Book"]), keys="0.2 0.3", units=["candidates 0 -"])
draw("own_child_alone", "A mapping that stands in its own children alone is not reached.", view(BOOKS, container("Lost", "Library", FAULT, children=["Lost"]),
     top=["Book"]), keys="0.2 0.3", units=["candidates 0 -"])
draw("nothing_on_top", "Without a mapping on top there is nothing.", view(BOOKS, top=[]), units=[], counts={"weight": 0})
draw("no_mappings", "A viewpoint may have no mapping.", view(), units=[])
draw("feature_of_a_child", "`self` is the object of the parent.", view(container("Work", "Work", "feature:works", children=["In"]), node("In", "Library", "feature:library")),
     keys="0.2 0.2-1.1 0.3 0.3-1.1 0.4 0.4-1.1")
draw("candidates_by_services", "What services find: content, siblings of a root, sources of references, ancestors.",
     view(node("Below", "Library", "aql:self.eAllContents(lib::Library)"), node("Beside", "Named", "aql:self.siblings()"),
          node("Source", "Named", "aql:self.works->first().eInverse()"), node("Above", "Library", "aql:self.branches.branches.ancestors()")),
     keys="0.11 0.13 1.15 2.6 2.7 2.8 3.11 3.1", units=["candidates 0 -", "candidates 1 -", "candidates 2 -", "candidates 3 -"])
draw("candidates_in_many_lines", "Blanks between tokens say nothing.", view(node("Work", "Work", "aql:\n\tself\r\n . works\n -> select ( w | w . pages <> null )\n")),
     keys="0.2 0.3")

# ---- preconditions

draw("precondition_that_is_true_or_false", "Only candidates pass whose precondition is true.",
     view(node("Work", "Work", "feature:works", precondition="aql:self.genre = lib::Genre::novel")), keys="0.2 0.3",
     units=["candidates 0 -", "precondition 0.2", "precondition 0.3", "precondition 0.4"])
draw("precondition_that_is_no_bool", "Null and every other value is no Bool, which is a problem.",
     view(*(node(f"M{n}", "Work", FIRST, precondition=f"aql:{text}") for n, text in
            enumerate(["null", "1", "'true'", "self", "Sequence{true}", "OrderedSet{}", "self.genre"]))),
     problems=[f"precondition {n}.2 NotBool" for n in range(7)])
draw("precondition_with_a_fault", "A fault is false, and a problem.", view(node("Work", "Work", "feature:works", precondition="aql:self.scale > 1")), keys="0.4",
     problems=["precondition 0.2 NoFeature", "precondition 0.3 NoFeature"])
draw("precondition_of_another_class", "Candidates of another class are not asked.", view(node("Map", "Map", "feature:works", precondition="aql:self.scale > 1")),
     keys="0.4", units=["candidates 0 -", "precondition 0.4"])
draw("faults_of_preconditions", "Each fault by its name.",
     view(*(node(f"M{n}", "Library", "var:self", precondition=text) for n, text in enumerate(FAULTS.values()))),
     problems=[f"precondition {n}.1 {fault}" for n, fault in enumerate(FAULTS)])
draw("container_of_the_top", "On top `container` is the root element.", view(node("Work", "Work", "aql:self.eAllContents()", precondition="aql:self.library = container")),
     keys="0.2 0.3 0.4")
draw("container_as_a_variable", "`var:container` alone may stand there.", view(node("Work", "Work", FIRST, precondition="var:container")),
     problems=["precondition 0.2 NotBool"])
draw("container_of_a_child", "Below an element `container` is its object.", view(container("Lib", "Library", children=["Work"]),
     node("Work", "Work", "feature:works", precondition="aql:container.open = true")), keys="0.1 0.1-1.2 0.1-1.3 0.1-1.4 0.11 0.13",
     units=["candidates 0 -", "candidates 1 0.1", "precondition 0.1-1.2", "precondition 0.1-1.3", "precondition 0.1-1.4", "candidates 1 0.11",
            "precondition 0.11-1.12", "candidates 1 0.13"])
draw("container_of_a_border", "The same holds of a border.", view(node("Book", "Book", borders=["Next"]),
     border("Next", "Book", "feature:sequel", precondition="aql:container.author = self.author")), keys="0.2 0.2-1.3 0.3 0.12")
draw("container_two_levels_up", "It is the parent's object and no other.", view(container("Lib", "Library", children=["Author"]),
     container("Author", "Author", "feature:people", children=["Book"]), node("Book", "Book", "feature:books", precondition="aql:container.books->last() = self")),
     keys="0.1 0.1-1.6 0.1-1.6-2.3 0.11 0.13")
draw("precondition_once", "A candidate that repeats has one precondition, and so one problem.",
     view(node("Work", "Work", "aql:Sequence{self.works->first(), self.works->first()}", precondition="aql:null")), problems=["precondition 0.2 NotBool"])
draw("cut_candidates_have_no_precondition", "What would stand twice in its path is not asked.",
     view(container("Lib", "Library", "aql:Sequence{self, self.branches}", precondition="aql:if self = container then null else true endif", children=["Lib"])),
     keys="0.11 0.11-0.13", problems=["precondition 0.1 NotBool"])
draw("content_of_what_does_not_pass", "Under a candidate that does not pass nothing is asked.", view(
     container("Lib", "Library", precondition="aql:self.open = true", children=["None"]), node("None", "Work", "aql:1 div self.branches->size()")),
     keys="0.1", units=["candidates 0 -", "precondition 0.1", "precondition 0.11", "precondition 0.13", "candidates 1 0.1"])
draw("unsynchronised_elements", "They are drawn only where they were shown by hand; their preconditions are asked all the same.",
     view(node("Work", "Work", "feature:works", synchronised=False, precondition="aql:self.scale > 1")),
     problems=["precondition 0.2 NoFeature", "precondition 0.3 NoFeature"], units=["candidates 0 -", "precondition 0.2", "precondition 0.3", "precondition 0.4"])
draw("content_of_unsynchronised_elements", "Nothing is asked below.", view(container("Lib", "Library", synchronised=False, children=["None"]), node("None", "Work", FAULT)),
     units=["candidates 0 -"])
draw("unsynchronised_below_synchronised", "Each mapping says it for itself.", view(container("Lib", "Library", children=["Work", "Branch"]),
     node("Work", "Work", "feature:works", synchronised=False), node("Branch", "Library", "feature:branches", synchronised=True)),
     keys="0.1 0.1-2.11 0.11 0.11-2.13 0.13")
draw("problems_parent_by_parent", "Those of the diagram come first, then those of each element in order.", view(
     container("Lib", "Library", precondition="aql:if self.branches->isEmpty() then 1 div 0 = 1 else true endif", children=["Bad"]), node("Worse", "Work", FAULT),
     node("Bad", "Work", FAULT)), keys="0.1 0.11",
     problems=["precondition 0.13 DivideByZero", "candidates 1 - DivideByZero", "candidates 2 0.1 DivideByZero", "candidates 2 0.11 DivideByZero"])
draw("problems_are_not_interleaved", "An element's content is asked after all candidates beside it.", view(
     container("Lib", "Library", children=["Branch", "Bad"]), container("Branch", "Library", "feature:branches", children=["Deep"]),
     node("Bad", "Work", FAULT), node("Deep", "Work", FAULT)), keys="0.1 0.1-1.11 0.11 0.11-1.13 0.13",
     problems=["candidates 2 0.1 DivideByZero", "candidates 3 0.1-1.11 DivideByZero", "candidates 2 0.11 DivideByZero", "candidates 3 0.11-1.13 DivideByZero",
               "candidates 2 0.13 DivideByZero"])
draw("names_that_hide_variables", "A `let` or a lambda may hide `self` and `container`.", view(
     node("A", "Work", FIRST, precondition="aql:let container = 1 in container = 1"), node("B", "Work", FIRST, precondition="aql:let self = container in self = container"),
     node("C", "Work", "aql:self.branches->collect(self | self.works)", precondition="aql:container.works->exists(self | self.name = 'Dune')")),
     keys="0.2 1.2 2.12")

# ---- what stands in one another

draw("children_in_the_order_of_their_list", "Not in the order of the mappings.", view(container("Lib", "Library", children=["Map", "Book"]), BOOKS,
     node("Map", "Map", "feature:works")), keys="0.1 0.1-2.4 0.1-1.2 0.1-1.3 0.11 0.11-1.12 0.13")
draw("borders_after_children", "An element's children come before its borders, whichever list stands first.", view(
     container("Lib", "Library", borders=["Person"], children=["Work"]), border("Person", "Person", "feature:people"), WORKS),
     keys="0.1 0.1-2.2 0.1-2.3 0.1-2.4 0.1-1.6 0.1-1.7 0.1-1.8 0.11 0.11-2.12 0.13")
draw("borders_of_a_node", "A node has borders and no children.", view(node("Book", "Book", "feature:works", borders=["Author"]), border("Author", "Author", "feature:author")),
     keys="0.2 0.2-1.6 0.3 0.3-1.6")
draw("borders_of_borders", "A border has borders of its own.", view(node("Book", "Book", "feature:works", borders=["Author"]),
     border("Author", "Author", "feature:author", borders=["Other"]), border("Other", "Book", "feature:books")),
     keys="0.2 0.2-1.6 0.2-1.6-2.2 0.2-1.6-2.3 0.3 0.3-1.6 0.3-1.6-2.2 0.3-1.6-2.3")
draw("several_borders", "Borders come in the order of their list.", view(node("Book", "Book", "feature:works", borders=["Loan", "Author"]),
     border("Author", "Author", "feature:author"), border("Loan", "Loan", "feature:loans")), keys="0.2 0.2-2.9 0.2-1.6 0.3 0.3-1.6")
draw("list_with_items", "The items of a list are its children.", view(items("Author", "Author", "feature:people", children=["Book"]), node("Book", "Book", "feature:books")),
     keys="0.6 0.6-1.2 0.6-1.3")
draw("list_with_items_and_borders", "Items first.", view(items("Member", "Member", "feature:people", children=["Likes"], borders=["Loan"]),
     node("Likes", "Work", "feature:favourites"), border("Loan", "Loan", "feature:loans")), keys="0.7 0.7-1.2 0.7-1.4 0.7-1.12 0.7-2.9 0.7-2.10 0.8 0.8-1.2")
draw("list_with_two_sorts_of_items", "In the order of its children.", view(items("Member", "Member", "feature:people", children=["Loan", "Likes"]),
     node("Likes", "Work", "feature:favourites"), node("Loan", "Loan", "feature:loans")), keys="0.7 0.7-2.9 0.7-2.10 0.7-1.2 0.7-1.4 0.7-1.12 0.8 0.8-1.2")
draw("list_in_a_container", "A container holds lists too.", view(container("Lib", "Library", children=["Author"]),
     items("Author", "Author", "feature:people", children=["Book"]), node("Book", "Book", "feature:books")), keys="0.1 0.1-1.6 0.1-1.6-2.2 0.1-1.6-2.3 0.11 0.13")
draw("containers_in_containers", "As deep as the mappings say.", view(container("Lib", "Library", "var:self", children=["Branch"]),
     container("Branch", "Library", "feature:branches", children=["Twig"]), container("Twig", "Library", "feature:branches", children=["Work"]), WORKS),
     keys="0.1 0.1-1.11 0.1-1.11-2.13")
draw("one_object_under_two_parents", "It is an element of its own under each.", view(container("Member", "Member", "feature:people", children=["Likes"]),
     node("Likes", "Work", "feature:favourites")), keys="0.7 0.7-1.2 0.7-1.4 0.7-1.12 0.8 0.8-1.2")
draw("object_inside_itself", "Another mapping may show the parent's object once more.", view(container("Lib", "Library", "var:self", children=["In"]),
     node("In", "Library", "var:self")), keys="0.1 0.1-1.1")
draw("own_child", "A container may stand in its own children.", view(container("Branch", "Library", "feature:branches", children=["Branch"])), keys="0.11 0.11-0.13")
draw("own_child_among_others", "In the order of the list.", view(container("Branch", "Library", "feature:branches", children=["Work", "Branch"]), WORKS),
     keys="0.11 0.11-1.12 0.11-0.13")
draw("own_child_of_a_child", "Not on top at all.", view(container("Lib", "Library", "var:self", children=["Branch"]),
     container("Branch", "Library", "feature:branches", children=["Branch"])), keys="0.1 0.1-1.11 0.1-1.11-1.13")
draw("own_child_of_the_whole_class", "Each path holds each object once.", view(container("Lib", "Library", children=["Lib"])),
     keys="0.1 0.1-0.11 0.1-0.11-0.13 0.1-0.13 0.1-0.13-0.11 0.11 0.11-0.1 0.11-0.1-0.13 0.11-0.13 0.11-0.13-0.1 0.13 0.13-0.1 0.13-0.1-0.11 0.13-0.11 0.13-0.11-0.1")
draw("own_child_below_another_object", "Only the pair of mapping and object is cut, not the object.", view(
     container("Lib", "Library", "aql:Sequence{self, self.branches}", children=["In", "Lib"]), node("In", "Library", "var:self")),
     keys="0.1 0.1-1.1 0.1-0.11 0.1-0.11-1.11 0.1-0.11-0.13 0.1-0.11-0.13-1.13 0.11 0.11-1.11 0.11-0.13 0.11-0.13-1.13")

CHAIN = model([1], **{f"o{n}": ("Library", {**({"branches": [n + 1]} if n < 40 else {}), **({"name": {33: "last", 34: "below"}[n]} if n in (33, 34) else {})})
                      for n in range(1, 41)})
PATHS = ["-".join(f"0.{o}" for o in range(2, last + 1)) for last in range(2, 34)]
draw("path_of_32_pairs", "A key has at most 32 pairs.", view(container("Branch", "Library", "feature:branches", children=["Branch"])), CHAIN, keys=" ".join(PATHS),
     units=["candidates 0 -"] + [f"candidates 0 {path}" for path in PATHS])
draw("candidates_below_32_pairs", "They are asked, and each is cut.", view(container("Branch", "Library",
     "aql:if self.name = 'last' then 1 div 0 else self.branches endif", children=["Branch"])), CHAIN, keys=" ".join(PATHS),
     problems=[f"candidates 0 {PATHS[-1]} DivideByZero"])
draw("precondition_below_32_pairs", "What is cut has none.", view(container("Branch", "Library", "feature:branches", children=["Branch"],
     precondition="aql:if self.name = 'below' then null else true endif")), CHAIN, keys=" ".join(PATHS))
draw("border_below_32_pairs", "Every child of a path of 32 pairs is cut.", view(container("Branch", "Library", "feature:branches", children=["Branch"], borders=["It"]),
     border("It", "Library", "var:self")), CHAIN,
     keys=" ".join([*PATHS, *(f"{path}-1.{path.rsplit('.', 1)[1]}" for path in reversed(PATHS[:-1]))]))

# ---- labels and styles


def selves(*labels):
    """For each label a mapping that shows the root element with it."""
    return [node(f"M{n}", "Library", "var:self", label) for n, label in enumerate(labels)]


def labelled(name, shows, values, **told):
    """A case of labels by their expressions."""
    draw(name, shows, view(*selves(*values)), keys=" ".join(f"{n}.1" for n in range(len(values))),
         labels={f"{n}.1": text for n, text in enumerate(values.values())}, **told)


labelled("labels_of_values", "The text form of each sort of value; a literal is its name, and an object `#` and its number.", {
    "aql:null": "", "aql:true": "true", "aql:false": "false", "aql:412": "412", "aql:-5": "-5", "aql:-9223372036854775807 - 1": "-9223372036854775808",
    "feature:name": "City", "feature:open": "true", "aql:lib::Genre::atlas": "atlas", "var:self": "#1", "aql:self.works->at(3)": "#4", "aql:''": "", "aql:' '": " ",
    "aql:self.works->first().pages": "412", "aql:self.works->first().genre": "novel", "aql:self.works->first().sequel": "#3"})
labelled("labels_of_collections", "The members' forms, joined by comma and space.", {
    "feature:works": "#2, #3, #4", "aql:self.works.name": "Dune, Messiah, Arrakis", "aql:self.works.genre": "novel, atlas",
    "aql:self.works->asSequence().genre": "novel, novel, atlas", "aql:Sequence{}": "", "aql:OrderedSet{}": "", "aql:Sequence{1}": "1",
    "aql:Sequence{1, 'a', true, self, lib::Genre::essay, null}": "1, a, true, #1, essay", "aql:Sequence{'', ''}": ", ",
    "aql:OrderedSet{2, 1, 2}": "2, 1", "aql:self.works->first().words": "sand, spice", "aql:Sequence{', '}": ", "})
ODD = "quote \" backslash \\ slash / line \n tab \t return \r bell \b feed \f zero \u0000 one \u0001 last \u001f del \u007f é 世 \U0001F600 \u2028 </b>"
draw("label_of_odd_letters", "A text is printed as JSON writes it.", view(node("It", "Library", "var:self", "feature:name")),
     model([1], o1=("Library", {"name": ODD})), keys="0.1", labels={"0.1": ODD})
labelled("label_with_escapes", "The escapes of the expression language stand for their letters.", {r"aql:'\\ \' \n \t'": "\\ ' \n \t", "aql:'\"'": '"', "aql:'é 世'": "é 世"})
labelled("label_of_a_sum", "`+` joins text forms where either side is a text.", {
    "aql:'a' + 1": "a1", "aql:1 + 'a'": "1a", "aql:self + ''": "#1", "aql:'' + self.works": "#2, #3, #4", "aql:'a' + null": "a", "aql:self.name + '/' + self.open": "City/true",
    "aql:1 + 2 + 'a'": "3a", "aql:'a' + 1 + 2": "a12", "aql:'g' + lib::Genre::novel": "gnovel"})
draw("labels_with_faults", "A fault gives an empty label and a problem.", view(*selves(*FAULTS.values())), keys=" ".join(f"{n}.1" for n in range(8)),
     labels={f"{n}.1": "" for n in range(8)}, problems=[f"label 0 {n}.1 {fault}" for n, fault in enumerate(FAULTS)])
draw("label_of_too_many_members", "A collection whose form has more than 65,536 bytes has no text form.", view(*selves(f"aql:{MANY}", "aql:1")), keys="0.1 1.1",
     labels={"0.1": "", "1.1": "1"}, problems=["label 0 0.1 TextTooLong"], counts={"weight": 65536})
draw("label_of_65536_bytes", "The longest text.", view(*selves("aql:" + LONG + sixteen("d", "c") + "d")), keys="0.1",
     label_bytes={"0.1": 65536}, counts={"weight": 4096})
draw("label_of_65536_bytes_in_other_letters", "Bytes are counted, not letters.", view(*selves(
     "aql:" + (LONG + sixteen("d", "c")).replace("0123456789abcdef", "é" * 8) + "d", "aql:" + (LONG + sixteen("d", "c")).replace("0123456789abcdef", "é" * 8) + "d + 'a'")),
     keys="0.1 1.1", label_bytes={"0.1": 65536, "1.1": 0}, problems=["label 0 1.1 TextTooLong"])
NEARLY = "aql:" + LONG + " + ".join(["let p = c"] + ["c"] * 14) + " in " + " + ".join(["let q = b"] + ["b"] * 14 + ["a"] * 15 + ["'abcdefghijklmn'"]) + " in "
draw("form_of_65536_bytes", "Of a collection the whole form is counted, with commas and spaces.", view(*selves(f"{NEARLY}Sequence{{p, q}}", f"{NEARLY}Sequence{{p, q + '!'}}")),
     keys="0.1 1.1", label_bytes={"0.1": 65536, "1.1": 0}, problems=["label 0 1.1 TextTooLong"])

WORK_STYLES = lambda *styles, label=None: view(node("Work", "Work", "feature:works", label, styles=list(styles)))
THREE = "0.2 0.3 0.4"
draw("first_style_that_holds", "A later one that holds too is not used.", WORK_STYLES(when("aql:false", "red"), when("aql:true", "blue"), when("aql:true", "green")), keys=THREE,
     colors={"0.2": "blue", "0.3": "blue", "0.4": "blue"})
draw("no_style_holds", "Then the default style is used.", WORK_STYLES(when("aql:false", "red"), when("aql:false", "blue"), label="feature:name"), keys=THREE,
     colors={"0.2": "white", "0.3": "white", "0.4": "white"}, labels={"0.2": "Dune", "0.3": "Messiah", "0.4": "Arrakis"})
draw("style_by_object", "Each element has its own.", WORK_STYLES(when("aql:self.loans->notEmpty()", "red"), when("aql:self.pages < 300", "blue")), keys=THREE,
     colors={"0.2": "red", "0.3": "blue", "0.4": "red"}, counts={"units": 5})
draw("style_that_is_no_bool", "It does not hold, which is a problem, and the next is asked.", view(node("Work", "Work", FIRST, styles=[
     when(f"aql:{text}", "red") for text in ["null", "1", "'true'", "self", "Sequence{true}", "OrderedSet{}", "self.genre"]] + [when("aql:true", "blue")])), keys="0.2",
     colors={"0.2": "blue"}, problems=[f"style {n} 0.2 NotBool" for n in range(1, 8)])
draw("styles_with_faults", "A fault does not hold, which is a problem, and the next is asked.", view(node("It", "Library", "var:self", styles=[
     *(when(text, "red") for text in FAULTS.values()), when("aql:true", "blue")])), keys="0.1", colors={"0.1": "blue"},
     problems=[f"style {n} 0.1 {fault}" for n, fault in enumerate(FAULTS, 1)])
draw("style_after_one_that_holds", "It is not asked, and its fault shows nowhere.", WORK_STYLES(when("aql:self.pages > 300", "red"), when("aql:1 div 0 = 1", "blue")), keys=THREE,
     colors={"0.2": "red", "0.3": "white", "0.4": "white"}, problems=["style 2 0.3 DivideByZero", "style 1 0.4 NotInt", "style 2 0.4 DivideByZero"],
     units=["candidates 0 -", "style 1 0.2", "style 1 0.3", "style 2 0.3", "style 1 0.4", "style 2 0.4"])
draw("label_of_the_style_that_is_used", "No other label is asked.", WORK_STYLES(when("aql:self.pages = 412", "red", "aql:1"), when("aql:self.pages = 256", "blue", FAULT),
     label="aql:1 - 'a'"), keys=THREE, colors={"0.2": "red", "0.3": "blue", "0.4": "white"}, labels={"0.2": "1", "0.3": "", "0.4": ""},
     problems=["label 2 0.3 DivideByZero", "label 0 0.4 NotInt"],
     units=["candidates 0 -", "style 1 0.2", "label 1 0.2", "style 1 0.3", "style 2 0.3", "label 2 0.3", "style 1 0.4", "style 2 0.4", "label 0 0.4"])
draw("style_without_a_label", "The label is then empty, although the default style has one.", WORK_STYLES(when("aql:true", "red"), label="feature:name"), keys=THREE,
     labels={"0.2": "", "0.3": "", "0.4": ""}, counts={"units": 4})
draw("label_of_a_style_alone", "The default style may have none.", WORK_STYLES(when("aql:self.pages > 300", "red", "feature:name")), keys=THREE,
     labels={"0.2": "Dune", "0.3": "", "0.4": ""}, problems=["style 1 0.4 NotInt"])
draw("as_many_styles_as_the_limit", "The last of 32 holds.", view(node("Work", "Work", FIRST, styles=[when("aql:false", "red")] * 31 + [when("aql:true", "blue", FAULT)])),
     keys="0.2", colors={"0.2": "blue"}, problems=["label 32 0.2 DivideByZero"], counts={"units": 34})
draw("shapes_of_styles", "The shape is that of the style.", view(node("Work", "Work", "feature:works", styles=[{"when": "aql:self.pages > 300", "style": style("red", None, "star")}])),
     keys=THREE, shapes={"0.2": "star", "0.3": "box", "0.4": "box"}, problems=["style 1 0.4 NotInt"])
draw("look_of_each_element", "An object under two parents has two looks, and two problems.", view(container("Member", "Member", "feature:people", children=["Likes"]),
     node("Likes", "Work", "feature:favourites", FAULT, styles=[when("aql:null", "red")])), keys="0.7 0.7-1.2 0.7-1.4 0.7-1.12 0.8 0.8-1.2",
     problems=[f"{unit} {key} {fault}" for key in ("0.7-1.2", "0.7-1.4", "0.7-1.12", "0.8-1.2") for unit, fault in (("style 1", "NotBool"), ("label 0", "DivideByZero"))])
draw("looks_after_all_declarations", "Problems of looks come behind those of candidates, preconditions and edges.", view(
     container("Lib", "Library", "var:self", FAULT, children=["Bad"]), node("Bad", "Work", FAULT), edge("Loop", "Lib", "Lib", FAULT)), keys="0.1",
     problems=["candidates 1 0.1 DivideByZero", "target 2.1 DivideByZero", "label 0 0.1 DivideByZero"])
draw("looks_of_elements_and_then_edges", "In declared order.", view(node("Work", "Work", "feature:works", FAULT, styles=[when("aql:1", "red")]),
     edge("Next", "Work", "Work", "var:self", styles=[when("aql:2", "red")])), keys=THREE, edges="1.2:0.2:0.2 1.3:0.3:0.3 1.4:0.4:0.4",
     problems=[line for o in (2, 3, 4) for line in (f"style 1 0.{o} NotBool", f"label 0 0.{o} DivideByZero")] + [f"style 1 1.{o}:0.{o}:0.{o} NotBool" for o in (2, 3, 4)])
draw("labels_by_services", "Services and collections in labels.", view(node("Work", "Work", "feature:works",
     "aql:self.name.concat(' (').concat(self.loans->size()).concat(') ') + self.siblings()->size() + self.eContainer().name")), keys=THREE,
     labels={"0.2": "Dune (1) 8City", "0.3": "Messiah (0) 8City", "0.4": "Arrakis (1) 8City"})

# ---- edges of a relation

BOOKS_AND_AUTHORS = [BOOKS, AUTHORS]
FOUR = "0.2 0.3 1.6"
draw("edges_of_a_relation", "One for each found object that an element stands for.", view(*BOOKS_AND_AUTHORS, edge("Wrote", "Author", "Book", "feature:books")), keys=FOUR,
     edges="2.6:1.6:0.2 2.6:1.6:0.3", units=["candidates 0 -", "candidates 1 -", "target 2.6"])
draw("edges_of_a_single_reference", "Null finds nothing, without a problem.", view(BOOKS, edge("Next", "Book", "Book", "feature:sequel")), keys="0.2 0.3", edges="1.2:0.2:0.3",
     units=["candidates 0 -", "target 1.2", "target 1.3"])
draw("edges_from_elements_to_themselves", "Both ends may be one element.", view(BOOKS, edge("Loop", "Book", "Book", "var:self")), keys="0.2 0.3",
     edges="1.2:0.2:0.2 1.3:0.3:0.3")
draw("target_finder_with_a_fault", "It finds nothing, which is a problem; others go on.", view(BOOKS, AUTHORS, edge("Wrote", "Book", "Author",
     "aql:if 1 div self.loans->size() = 1 then self.author else null endif")), keys=FOUR, edges="2.2:0.2:1.6", problems=["target 2.3 DivideByZero"])
draw("faults_of_target_finders", "Each fault by its name.", view(node("It", "Library", "var:self"), *(edge(f"E{n}", "It", "It", text) for n, text in enumerate(FAULTS.values()))),
     keys="0.1", problems=[f"target {n}.1 {fault}" for n, fault in enumerate(FAULTS, 1)])
draw("finder_that_finds_no_objects", "Other values are passed over, without a problem.", view(node("It", "Library", "var:self"),
     *(edge(f"E{n}", "It", "It", f"aql:{text}") for n, text in enumerate(["1", "'a'", "true", "Sequence{1, 'a', self}", "lib::Genre::novel", "Sequence{}"]))),
     keys="0.1", edges="4.1:0.1:0.1")
draw("finder_that_repeats", "Equal keys count once.", view(BOOKS, edge("Next", "Book", "Book", "aql:Sequence{self.sequel, self, self.sequel, self}")), keys="0.2 0.3",
     edges="1.2:0.2:0.3 1.2:0.2:0.2 1.3:0.3:0.3")
draw("edges_in_the_order_of_the_finder", "Targets come in the order in which they are found.", view(*BOOKS_AND_AUTHORS,
     edge("Wrote", "Author", "Book", "aql:Sequence{self.books->last(), self.books->first()}")), keys=FOUR, edges="2.6:1.6:0.3 2.6:1.6:0.2")
draw("target_that_no_element_stands_for", "It gives no edge.", view(node("Map", "Map", "feature:works"), AUTHORS, edge("Wrote", "Author", "Map", "feature:books")), keys="0.4 1.6",
     units=["candidates 0 -", "candidates 1 -", "target 2.6"])
LIKES = [container("Member", "Member", "feature:people", children=["Likes"]), node("Likes", "Work", "feature:favourites")]
LIKED = "0.7 0.7-1.2 0.7-1.4 0.7-1.12 0.8 0.8-1.2"
draw("sources_under_several_parents", "An object is asked once, and each of its elements has its edges.", view(*LIKES, edge("Lent", "Likes", "Member", "aql:self.loans.member")),
     keys=LIKED, edges="2.2:0.7-1.2:0.7 2.2:0.8-1.2:0.7 2.4:0.7-1.4:0.7",
     units=["candidates 0 -", "candidates 1 0.7", "candidates 1 0.8", "target 2.2", "target 2.4", "target 2.12"])
draw("fault_of_a_source_under_several_parents", "One problem.", view(*LIKES, edge("Lent", "Likes", "Member", "aql:1 div self.pages")), keys=LIKED,
     problems=["target 2.4 NotInt"])
draw("targets_under_several_parents", "Each element of the found object has an edge.", view(*LIKES, edge("Likes2", "Member", "Likes", "feature:favourites")), keys=LIKED,
     edges="2.7:0.7:0.7-1.2 2.7:0.7:0.8-1.2 2.7:0.7:0.7-1.4 2.7:0.7:0.7-1.12 2.8:0.8:0.7-1.2 2.8:0.8:0.8-1.2")
draw("both_ends_under_several_parents", "Each with each.", view(*LIKES, edge("Same", "Likes", "Likes", "var:self")), keys=LIKED,
     edges="2.2:0.7-1.2:0.7-1.2 2.2:0.7-1.2:0.8-1.2 2.2:0.8-1.2:0.7-1.2 2.2:0.8-1.2:0.8-1.2 2.4:0.7-1.4:0.7-1.4 2.12:0.7-1.12:0.7-1.12")
COPIES = [BOOKS, node("Copy", "Book", "feature:works"), AUTHORS]
draw("sources_of_two_mappings", "Their elements come in declared order, not in the order of the list.", view(*COPIES, edge("By", "Copy Book", "Author", "feature:author")),
     keys="0.2 0.3 1.2 1.3 2.6", edges="3.2:0.2:2.6 3.2:1.2:2.6 3.3:0.3:2.6 3.3:1.3:2.6")
draw("targets_of_two_mappings", "The same.", view(*COPIES, edge("Wrote", "Author", "Copy Book", "feature:books")), keys="0.2 0.3 1.2 1.3 2.6",
     edges="3.6:2.6:0.2 3.6:2.6:1.2 3.6:2.6:0.3 3.6:2.6:1.3")
draw("mappings_of_ends_that_repeat", "Say nothing more.", view(*BOOKS_AND_AUTHORS, edge("Wrote", "Author Author", "Book Book Book", "feature:books")), keys=FOUR,
     edges="2.6:1.6:0.2 2.6:1.6:0.3")
draw("order_of_source_objects", "It is that of their first elements.", view(BOOKS, node("Copy", "Book", "aql:Sequence{self.works->at(2), self.works->at(1), self.branches.works}"),
     edge("Loop", "Book Copy", "Copy", "var:self"), top=["Copy", "Book"]), keys="1.3 1.2 1.12 0.2 0.3",
     edges="2.3:1.3:1.3 2.3:0.3:1.3 2.2:1.2:1.2 2.2:0.2:1.2 2.12:1.12:1.12")
draw("no_sources", "Then no object is asked.", view(BOOKS, edge("None", "", "Book", FAULT)), keys="0.2 0.3", units=["candidates 0 -"])
draw("no_targets", "The finder is asked all the same.", view(BOOKS, edge("None", "Book", "", "aql:1 div self.loans->size()")), keys="0.2 0.3", problems=["target 1.3 DivideByZero"])
draw("edges_of_unsynchronised_elements", "What is not declared has no edges.", view(node("Book", "Book", "feature:works", synchronised=False), AUTHORS,
     edge("By", "Book", "Author", FAULT), edge("Wrote", "Author", "Book", "feature:books")), keys="1.6", units=["candidates 0 -", "candidates 1 -", "target 3.6"])
draw("precondition_of_edges", "An object whose precondition is not true is asked no further.", view(*BOOKS_AND_AUTHORS,
     edge("By", "Book", "Author", "feature:author", precondition="aql:self.pages > 300")), keys=FOUR, edges="2.2:0.2:1.6",
     units=["candidates 0 -", "candidates 1 -", "edge-precondition 2.2", "target 2.2", "edge-precondition 2.3"])
draw("precondition_of_edges_that_is_no_bool", "A problem for each object.", view(*BOOKS_AND_AUTHORS, edge("By", "Book", "Author", "feature:author", precondition="feature:genre"),
     edge("Wrote", "Author", "Book", "feature:books", precondition="aql:null")), keys=FOUR,
     problems=["edge-precondition 2.2 NotBool", "edge-precondition 2.3 NotBool", "edge-precondition 3.6 NotBool"])
draw("faults_of_preconditions_of_edges", "Each fault by its name.", view(node("It", "Library", "var:self"),
     *(edge(f"E{n}", "It", "It", "var:self", precondition=text) for n, text in enumerate(FAULTS.values()))), keys="0.1",
     problems=[f"edge-precondition {n}.1 {fault}" for n, fault in enumerate(FAULTS, 1)])
draw("precondition_of_edges_and_finder", "Precondition and finder of each object in turn.", view(*BOOKS_AND_AUTHORS,
     edge("By", "Book", "Author", FAULT, precondition="aql:self.sequel <> null or 1")), keys=FOUR, problems=["target 2.2 DivideByZero", "edge-precondition 2.3 NotBool"])

# ---- edges of objects

LENT = [WORKS, MEMBERS]
LENT_KEYS = "0.2 0.3 0.4 1.7 1.8"


def lent(source="feature:work", target="feature:member", candidates="feature:loans", sources="Work", targets="Member", **members):
    found = {} if candidates is None else {"candidates": candidates}
    return object_edge("Loan", "Loan", sources, targets, source, target, **found, **members)


draw("edges_of_objects", "Each object has the edges between what its finders find.", view(*LENT, lent()), keys=LENT_KEYS, edges="2.9:0.2:1.7 2.10:0.4:1.7",
     units=["candidates 0 -", "candidates 1 -", "edge-candidates 2", "source 2.9", "target 2.9", "source 2.10", "target 2.10"])
draw("edges_of_all_objects_of_a_class", "Without an expression all objects of the class, ascending.", view(*LENT, lent(candidates=None)), keys=LENT_KEYS,
     edges="2.9:0.2:1.7 2.10:0.4:1.7")
draw("edges_of_objects_of_classes_below", "Those of classes below count.", view(*LENT, object_edge("Lent", "Work", "Work", "Member", "var:self", "aql:self.loans.member")),
     keys=LENT_KEYS, edges="2.2:0.2:1.7 2.4:0.4:1.7",
     units=["candidates 0 -", "candidates 1 -", "edge-candidates 2"] + [f"{end} 2.{o}" for o in (2, 3, 4, 12) for end in ("source", "target")])
draw("objects_of_edges_that_repeat", "They count once, and those of other classes are passed over.",
     view(*LENT, lent(candidates="aql:Sequence{self.loans->last(), self.works, 1, self.loans, null}")), keys=LENT_KEYS, edges="2.10:0.4:1.7 2.9:0.2:1.7")
draw("one_object_with_edges", "A value that is no collection is one candidate; null is none.", view(*LENT, lent(candidates="aql:self.loans->last()"), lent(candidates="aql:null") |
     {"name": "None"}), keys=LENT_KEYS, edges="2.10:0.4:1.7")
draw("faults_of_candidates_of_edges", "Each gives no objects and one problem.", view(node("It", "Library", "var:self"),
     *(object_edge(f"E{n}", "Loan", "It", "It", "var:self", "var:self", candidates=text) for n, text in enumerate(FAULTS.values()))), keys="0.1",
     problems=[f"edge-candidates {n} {fault}" for n, fault in enumerate(FAULTS, 1)])
draw("both_finders_are_asked", "The target finder also where the source finder has a fault or finds nothing.",
     view(*LENT, lent(source="aql:if self.days > 0 then self.work.scale else null endif", target="aql:self.member.name - 1")), keys=LENT_KEYS,
     problems=["source 2.9 NoFeature", "target 2.9 NotInt", "target 2.10 NotInt"])
draw("finders_without_elements", "They are asked also where no element stands for anything.", view(node("Work", "Work", "feature:works", synchronised=False), lent(
     source=FAULT, target=FAULT, sources="Work", targets="Work")), problems=[f"{end} 1.{o} DivideByZero" for o in (9, 10) for end in ("source", "target")])
draw("source_finder_of_many", "By found source, then by its elements, then by found target.", view(*LENT, lent(
     source="aql:Sequence{self.work.library.works->last(), self.work}", target="aql:self.eContainer().people->filter(lib::Member)")), keys=LENT_KEYS,
     edges="2.9:0.4:1.7 2.9:0.4:1.8 2.9:0.2:1.7 2.9:0.2:1.8 2.10:0.4:1.7 2.10:0.4:1.8")
draw("four_loops", "Found source, its elements, found target, its elements.", view(*LIKES, lent(
     source="aql:Sequence{self.work, self.member.favourites->last()}", sources="Likes", targets="Likes", target="feature:work")), keys=LIKED,
     edges="2.9:0.7-1.2:0.7-1.2 2.9:0.7-1.2:0.8-1.2 2.9:0.8-1.2:0.7-1.2 2.9:0.8-1.2:0.8-1.2 2.9:0.7-1.12:0.7-1.2 2.9:0.7-1.12:0.8-1.2 "
           "2.10:0.7-1.4:0.7-1.4 2.10:0.7-1.12:0.7-1.4")
draw("finders_that_repeat", "A source or target found again adds no edge.", view(*LENT, lent(
     source="aql:Sequence{self.work, self.work}", target="aql:Sequence{self.member, 1, self.member, null}")), keys=LENT_KEYS, edges="2.9:0.2:1.7 2.10:0.4:1.7")
draw("precondition_of_edges_of_objects", "Precondition, source finder and target finder of each object in turn.", view(*LENT, lent(precondition="aql:self.days > 0")),
     keys=LENT_KEYS, edges="2.9:0.2:1.7", units=["candidates 0 -", "candidates 1 -", "edge-candidates 2", "edge-precondition 2.9", "source 2.9", "target 2.9",
                                                "edge-precondition 2.10"])
draw("precondition_of_objects_of_another_class", "They are not asked.", view(*LENT, lent(candidates="aql:self.eContents()", precondition="aql:self.days <> null")), keys=LENT_KEYS,
     edges="2.9:0.2:1.7 2.10:0.4:1.7")
draw("precondition_of_objects_that_is_no_bool", "No edge, no finder, and a problem.", view(*LENT, lent(precondition="feature:days")), keys=LENT_KEYS,
     problems=["edge-precondition 2.9 NotBool", "edge-precondition 2.10 NotBool"])
draw("object_that_is_its_own_end", "An edge's object may be shown by an element too.", view(node("Loan", "Loan", "feature:loans"), MEMBERS,
     object_edge("To", "Loan", "Loan", "Member", "var:self", "feature:member", candidates="feature:loans")), keys="0.9 0.10 1.7 1.8", edges="2.9:0.9:1.7 2.10:0.10:1.7")
draw("candidates_of_edges_of_the_root", "`self` is the root element, whatever holds the elements.", view(container("Lib", "Library", children=["Work"]), WORKS, MEMBERS, lent()),
     keys="0.1 0.1-1.2 0.1-1.3 0.1-1.4 0.11 0.11-1.12 0.13 2.7 2.8", edges="3.9:0.1-1.2:2.7 3.10:0.1-1.4:2.7")
draw("looks_of_edges", "Styles and labels of edges are those of their objects.", view(*LENT, lent(style=style("black", "feature:days", "line"),
     styles=[{"when": "aql:self.days < 0", "style": style("red", "aql:self.member.name + '!'", "dash")}])), keys=LENT_KEYS, edges="2.9:0.2:1.7 2.10:0.4:1.7",
     colors={"2.9:0.2:1.7": "black", "2.10:0.4:1.7": "red"}, labels={"2.9:0.2:1.7": "14", "2.10:0.4:1.7": "Ann!"}, shapes={"2.9:0.2:1.7": "line", "2.10:0.4:1.7": "dash"})
draw("problems_of_looks_of_edges", "With the whole key of the edge, once for each edge.", view(*LIKES, edge("Likes2", "Member", "Likes", "feature:favourites", style=style("black", FAULT),
     styles=[when("feature:name", "red")], precondition="aql:self.name = 'Bob'")), keys=LIKED, edges="2.8:0.8:0.7-1.2 2.8:0.8:0.8-1.2",
     problems=[f"{unit} 2.8:0.8:{key}-1.2 {fault}" for key in ("0.7", "0.8") for unit, fault in (("style 1", "NotBool"), ("label 0", "DivideByZero"))])
draw("edge_mapping_before_its_ends", "Numbers are places in the list of mappings.", view(edge("Wrote", "Author", "Book", "feature:books"), *BOOKS_AND_AUTHORS), keys="1.2 1.3 2.6",
     edges="0.6:2.6:1.2 0.6:2.6:1.3")
draw("several_edge_mappings", "Edges come mapping by mapping.", view(edge("Wrote", "Author", "Book", "feature:books"), BOOKS, edge("Next", "Book", "Book", "feature:sequel"), AUTHORS,
     object_edge("By", "Book", "Book", "Author", "var:self", "feature:author", candidates="feature:works")), keys="1.2 1.3 3.6",
     edges="0.6:3.6:1.2 0.6:3.6:1.3 2.2:1.2:1.3 4.2:1.2:3.6 4.3:1.3:3.6",
     units=["candidates 1 -", "candidates 3 -", "target 0.6", "target 2.2", "target 2.3", "edge-candidates 4", "source 4.2", "target 4.2", "source 4.3", "target 4.3"])
draw("edges_to_borders", "Borders are ends like nodes.", view(node("Book", "Book", "feature:works", borders=["Author"]), border("Author", "Author", "feature:author"),
     edge("By", "Book", "Author", "feature:author")), keys="0.2 0.2-1.6 0.3 0.3-1.6", edges="2.2:0.2:0.2-1.6 2.2:0.2:0.3-1.6 2.3:0.3:0.2-1.6 2.3:0.3:0.3-1.6")
draw("edges_between_parent_and_child", "And from a child to its parent, and between containers and lists.", view(container("Lib", "Library", "var:self", children=["Author"]),
     items("Author", "Author", "feature:people", children=["Book"]), node("Book", "Book", "feature:books"), edge("Down", "Lib", "Book Author", "aql:self.eAllContents()"),
     edge("Up", "Book", "Lib", "feature:library")), keys="0.1 0.1-1.6 0.1-1.6-2.2 0.1-1.6-2.3",
     edges="3.1:0.1:0.1-1.6-2.2 3.1:0.1:0.1-1.6-2.3 3.1:0.1:0.1-1.6 4.2:0.1-1.6-2.2:0.1 4.3:0.1-1.6-2.3:0.1")
draw("edges_of_one_object_by_two_mappings", "Each mapping has its own.", view(*LENT, lent(), lent(source="feature:member", target="feature:work", sources="Member", targets="Work") |
     {"name": "Back"}), keys=LENT_KEYS, edges="2.9:0.2:1.7 2.10:0.4:1.7 3.9:1.7:0.2 3.10:1.7:0.4")

# ---- layers

HIDDEN = node("Book", "Book", "feature:works", layer="More")
draw("inactive_layer", "Its elements are not served; the layer is not listed.", view(HIDDEN, AUTHORS, layers="Base More"), keys="1.6", elements=(3, 0), layers=[])
draw("active_layer", "Its elements are served, and it is listed.", view(HIDDEN, AUTHORS, layers="Base More+"), keys=FOUR, layers=["More"])
draw("first_layer_is_always_active", "Its member `active` says nothing, and it is not listed.", {**view(BOOKS, node("Map", "Map", "feature:works", layer="Base")), "diagram": {
     **view(BOOKS, node("Map", "Map", "feature:works", layer="Base"))["diagram"], "layers": [{"name": "Base", "active": False}, {"name": "More", "active": True}]}},
     keys="0.2 0.3 1.4", layers=["More"])
draw("order_of_layers", "Active ones are listed in the order of the viewpoint.", view(BOOKS, layers="Base Zebra+ Middle Ant+ Last"), keys="0.2 0.3", layers=["Zebra", "Ant"])
draw("several_layers", "Each mapping by its own.", view(*(node(f"M{n}", "Book", FIRST, layer=layer) for n, layer in enumerate("Base A B C".split())), layers="Base A+ B C+"),
     keys="0.2 1.2 3.2", elements=(4, 0), layers=["A", "C"])
draw("as_many_layers_as_the_limit", "Every second one is active.", view(node("Book", "Book", "feature:works", layer="L63"), node("Map", "Map", "feature:works", layer="L62"),
     layers=" ".join(f"L{n}{'+' * (n % 2)}" for n in range(64))), keys="0.2 0.3", elements=(3, 0), layers=[f"L{n}" for n in range(1, 64, 2)])
draw("children_of_a_hidden_element", "They are hidden too, whatever their own layer.", view(container("Lib", "Library", layer="Off", children=["Work", "On"], borders=["Person"]), WORKS,
     node("On", "Work", "feature:works", layer="On"), border("Person", "Person", "feature:people"), BOOKS, layers="Base On+ Off"), keys="4.2 4.3", elements=(16, 0), layers=["On"])
draw("hidden_children", "Of a parent that is served, child and border may be hidden, with all below.", view(container("Lib", "Library", "var:self", children=["Author", "Map"], borders=["Person"]),
     items("Author", "Author", "feature:people", children=["Book"], layer="Off"), node("Map", "Map", "feature:works"), border("Person", "Person", "feature:people", layer="Off"),
     node("Book", "Book", "feature:books"), layers="Base Off"), keys="0.1 0.1-2.4", elements=(8, 0))
draw("edges_on_an_inactive_layer", "They are hidden, and their ends are not.", view(*LENT, lent(layer="Off"), layers="Base Off"), keys=LENT_KEYS, elements=(5, 2))
draw("edges_on_an_active_layer", "They are served.", view(*LENT, lent(layer="On"), layers="Base On+"), keys=LENT_KEYS, edges="2.9:0.2:1.7 2.10:0.4:1.7", layers=["On"])
draw("edges_with_a_hidden_source", "They are hidden.", view(node("Work", "Work", "feature:works", layer="Off"), MEMBERS, lent(), layers="Base Off"), keys="1.7 1.8", elements=(5, 2))
draw("edges_with_a_hidden_target", "They are hidden, on whichever layer.", view(WORKS, node("Member", "Member", "feature:people", layer="Off"), lent(layer="On"), layers="Base Off On+"),
     keys=THREE, elements=(5, 2), layers=["On"])
draw("edges_with_an_end_in_a_hidden_element", "They are hidden too.", view(container("Lib", "Library", layer="Off", children=["Work"]), WORKS, MEMBERS, lent(), BOOKS,
     edge("Next", "Book", "Book Work", "feature:sequel"), layers="Base Off"), keys="2.7 2.8 4.2 4.3", edges="5.2:4.2:4.3", elements=(11, 4))
draw("problems_of_what_is_hidden", "They show all the same, and all is counted.", view(
     container("Lib", "Library", "var:self", FAULT, children=["None", "Work"], layer="Off", styles=[when("aql:1", "red")]), node("None", "Work", FAULT),
     node("Work", "Work", "feature:works", precondition="aql:self.scale > 0", layer="Off"), edge("Loop", "Lib Work", "Lib", FAULT, layer="Off"),
     edge("Same", "Lib", "Lib", "var:self", style=style("black", "aql:1 - 'a'"), precondition="aql:true"), layers="Base Off", filters=[hiding("F", "Lib Same", "aql:null")]),
     elements=(2, 1), problems=["candidates 1 0.1 DivideByZero", "precondition 0.1-2.2 NoFeature", "precondition 0.1-2.3 NoFeature", "target 3.1 DivideByZero",
                                "target 3.4 DivideByZero", "style 1 0.1 NotBool", "label 0 0.1 DivideByZero", "label 0 4.1:0.1:0.1 NotInt", "filter 0 0.1 NotBool",
                                "filter 0 4.1:0.1:0.1 NotBool"])

# ---- filters

draw("filters_are_not_active", "None is listed, and what it would hide is served.", view(*LENT, lent(), filters=[hiding("All", "Work Member Loan", "aql:true")]), keys=LENT_KEYS,
     edges="2.9:0.2:1.7 2.10:0.4:1.7", counts={"units": 7 + 7})
draw("problems_of_filters", "A fault, and a value that is no Bool.", view(BOOKS, filters=[hiding("A", "Book", FAULT), hiding("B", "Book", "feature:genre"), hiding("C", "Book", "aql:null")]),
     keys="0.2 0.3", problems=[f"filter {n} 0.{o} {fault}" for n, fault in enumerate(["DivideByZero", "NotBool", "NotBool"]) for o in (2, 3)])
draw("faults_of_filters", "Each fault by its name.", view(node("It", "Library", "var:self"), filters=[hiding(f"F{n}", "It", text) for n, text in enumerate(FAULTS.values())]),
     keys="0.1", problems=[f"filter {n} 0.1 {fault}" for n, fault in enumerate(FAULTS)])
draw("order_of_filters", "By filter, then by element, then by edge.", view(*LENT, lent(), filters=[hiding("F", "Loan Work", "aql:1"), hiding("G", "Member Work", "aql:2")]), keys=LENT_KEYS,
     edges="2.9:0.2:1.7 2.10:0.4:1.7", problems=[f"filter {key} NotBool" for key in
     ["0 0.2", "0 0.3", "0 0.4", "0 2.9:0.2:1.7", "0 2.10:0.4:1.7", "1 0.2", "1 0.3", "1 0.4", "1 1.7", "1 1.8"]])
draw("filter_with_a_mapping_twice", "Each element is asked once.", view(BOOKS, filters=[hiding("F", "Book Book", "aql:1")]), keys="0.2 0.3",
     problems=["filter 0 0.2 NotBool", "filter 0 0.3 NotBool"])
draw("filter_without_mappings", "It asks nothing.", view(BOOKS, filters=[hiding("F", "", FAULT)]), keys="0.2 0.3", units=["candidates 0 -"])
draw("no_filters", "An empty list is as if it were absent.", view(BOOKS, filters=[]), keys="0.2 0.3", units=["candidates 0 -"])
draw("filter_of_children", "Each element at its place.", view(*LIKES, filters=[hiding("F", "Likes", "feature:genre")]), keys=LIKED,
     problems=[f"filter 0 {key} NotBool" for key in ("0.7-1.2", "0.7-1.4", "0.7-1.12", "0.8-1.2")])
draw("filter_of_unsynchronised_elements", "What is not declared is not asked.", view(node("Book", "Book", "feature:works", synchronised=False), filters=[hiding("F", "Book", FAULT)]))
draw("filter_by_object", "`self` is the element's object, or the edge's.", view(*LENT, lent(), filters=[hiding("F", "Work Loan", "aql:self.days > 0 or self.days < 0")]), keys=LENT_KEYS,
     edges="2.9:0.2:1.7 2.10:0.4:1.7", problems=[f"filter 0 0.{o} NoFeature" for o in (2, 3, 4)])
draw("filters_after_looks", "Their problems come last.", view(node("Book", "Book", FIRST, FAULT), filters=[hiding("F", "Book", FAULT)]), keys="0.2",
     problems=["label 0 0.2 DivideByZero", "filter 0 0.2 DivideByZero"])
draw("as_many_filters_as_the_limit", "64 filters.", view(node("Book", "Book", FIRST), filters=[hiding(f"F{n}", "Book", "aql:1") for n in range(64)]), keys="0.2",
     problems=[f"filter {n} 0.2 NotBool" for n in range(64)])
draw("filter_problem_stays_between", "Elements that answer true or false have none.", view(WORKS, filters=[hiding("F", "Work", "aql:self.pages > 300")]), keys=THREE,
     problems=["filter 0 0.4 NotInt"])

# ---- whole diagrams, names and numbers

draw("tools_are_passed_over", "`draw` asks no expression of a tool.", view(BOOKS, tools=[{"name": "T", "kind": "delete", "precondition": FAULT, "do": [
     {"op": "set", "feature": "name", "value": FAULT}, {"op": "remove"}]}]), keys="0.2 0.3", units=["candidates 0 -"])
WORDS = {"package": "then", "enums": [{"name": "div", "literals": ["if", "endif"]}], "classes": [
    {"name": "if", "features": [{"name": "let", "reference": "Sequence", "many": True, "containment": True}, {"name": "xs", "reference": "Sequence", "many": True}]},
    {"name": "Sequence", "features": [{"name": "self", "type": "div"}, {"name": "true", "type": "Text"}]}]}
draw("names_that_are_reserved_words", "Names of classes, mappings, layers, shapes and colors may be words of the expression language.", {"viewpoint": "in", "diagram": {
     "name": "or", "domain": "if", "layers": [{"name": "and"}, {"name": "xor", "active": True}], "top": ["not"], "mappings": [
         {"name": "not", "kind": "node", "domain": "Sequence", "candidates": "feature:xs", "layer": "xor", "style": {"shape": "null", "color": "true", "label": "feature:self"}},
         {"name": "false", "kind": "edge", "sources": ["not"], "targets": ["not"], "targetFinder": "var:self", "style": {"shape": "else", "color": "in"}}]}},
     model([1], o1=("if", {"let": [2, 3], "xs": [3, 2]}), o2=("Sequence", {"self": "endif"}), o3=("Sequence", {"true": "x"})), meta=WORDS, keys="0.3 0.2",
     edges="1.3:0.3:0.3 1.2:0.2:0.2", labels={"0.3": "", "0.2": "endif"}, layers=["xor"])
draw("long_names", "Names of 64 bytes.", view(node("n" * 64, "Book", FIRST, style=style("c" * 64, None, "s" * 64), layer="l" * 64), layers="Base " + "l" * 64 + "+"), keys="0.2",
     colors={"0.2": "c" * 64}, shapes={"0.2": "s" * 64}, layers=["l" * 64])
draw("great_numbers_of_objects", "Numbers up to 4,294,967,294.", view(WORKS, edge("Loop", "Work", "Work", "var:self")), model([4294967293], o4294967293=("Library", {"works": [4294967294, 7]}),
     o4294967294=("Book", {"library": 4294967293}), o7=("Book", {"library": 4294967293})), keys="0.4294967294 0.7", edges="1.4294967294:0.4294967294:0.4294967294 1.7:0.7:0.7")
draw("numbers_of_mappings", "As many mappings as the limit, the last ones first.", view(*(node(f"M{n}", "Book", FIRST) for n in range(256)), top=[f"M{n}" for n in (255, 100, 99, 10, 9, 1)]),
     keys="255.2 100.2 99.2 10.2 9.2 1.2")
draw("extents_in_order_of_numbers", "Not in the order of the file.", view(node("Work", "Work")), model([9], o9=("Library", {"works": [8, 2, 5]}), o8=("Map", {"library": 9}),
     o2=("Book", {"library": 9}), o5=("Book", {"library": 9})), keys="0.2 0.5 0.8")
draw("library_of_nothing", "Only the root element.", view(WORKS, MEMBERS, LIBRARIES, lent()), model([1], o1=("Library", {})), keys="2.1")
DIAMOND = {"package": "p", "classes": [
    {"name": "Top", "abstract": True, "features": [{"name": "tag", "type": "Text"}, {"name": "parts", "reference": "Top", "many": True, "containment": True}]},
    {"name": "Left", "supertypes": ["Top"], "features": [{"name": "left", "type": "Int", "many": True}]},
    {"name": "Right", "supertypes": ["Top"], "features": [{"name": "right", "type": "Bool", "many": True}]},
    {"name": "Both", "supertypes": ["Right", "Left"]}]}
draw("class_below_two_others", "An object is of each class above its own.", view(node("Left", "Left", "feature:parts", "feature:left"), node("Right", "Right", "feature:parts", "feature:right"),
     node("Top", "Top", None, "feature:tag"), domain="Top"), model([1], o1=("Both", {"tag": "root", "parts": [2, 3, 4]}), o2=("Left", {"left": [3, -1, 2]}),
     o3=("Right", {"right": [False, True]}), o4=("Both", {"left": [7], "right": [True], "tag": "four"})), meta=DIAMOND, keys="0.2 0.4 1.3 1.4 2.1 2.2 2.3 2.4",
     labels={"0.2": "3, -1, 2", "0.4": "7", "1.3": "false, true", "1.4": "true", "2.1": "root", "2.2": "", "2.3": "", "2.4": "four"})
draw("whole_town", "All kinds of mappings, layers, styles, filters and problems in one diagram.", view(
     container("Lib", "Library", "aql:Sequence{self, self.branches}", "feature:name", children=["Shelf", "Author"], borders=["Door"], styles=[when("feature:open", "green", "feature:name")]),
     items("Shelf", "Library", "var:self", "aql:self.works->size()", children=["Work"]),
     node("Work", "Work", "feature:works", "feature:name", precondition="aql:self.pages > 300 or container = null", styles=[when("aql:self.loans->notEmpty()", "red", "aql:self.name + '!'")]),
     border("Door", "Library", "feature:branches", "feature:name", layer="Doors"),
     container("Author", "Author", "feature:people", "feature:name", layer="People"),
     node("Member", "Member", "feature:people", "feature:name", synchronised=False),
     edge("Wrote", "Author", "Work", "feature:books", layer="People"),
     object_edge("Loan", "Loan", "Work", "Lib", "feature:work", "aql:self.eContainer()", candidates="feature:loans", style=style("black", "aql:self.days + ' days'")),
     edge("Opens", "Door", "Lib", "var:self", layer="Doors"),
     layers="Base People+ Doors", filters=[hiding("Idle", "Work Loan", "aql:self.loans->isEmpty()")]),
     keys="0.1 0.1-1.1 0.1-1.1-2.2 0.1-4.6 0.11 0.11-1.11 0.11-1.11-2.12", edges="6.6:0.1-4.6:0.1-1.1-2.2 7.9:0.1-1.1-2.2:0.1", elements=(9, 3),
     colors={"0.1": "green", "0.11": "white", "0.1-1.1-2.2": "red", "0.11-1.11-2.12": "white"}, layers=["People"],
     labels={"0.1": "City", "0.1-1.1": "3", "0.1-1.1-2.2": "Dune!", "0.1-4.6": "Herbert", "0.11": "Harbour", "0.11-1.11": "1", "0.11-1.11-2.12": "Emma",
             "7.9:0.1-1.1-2.2:0.1": "14 days", "6.6:0.1-4.6:0.1-1.1-2.2": ""},
     problems=["precondition 0.1-1.1-2.4 NotInt", "style 1 0.11 NotBool", "filter 0 7.9:0.1-1.1-2.2:0.1 NoFeature"])


if __name__ == "__main__":
    tell(CASES)
