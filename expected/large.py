#!/usr/bin/env python3
"""Makes the cases of `draw` at its limits: units, elements with edges, and weight, each as many as may be and one more.

    python3 expected/large.py > crates/cases_program/data/large.json

Models and viewpoints are told with numbered parts, so that the cases stay short. What is counted stands in the table, by hand.
"""
from sketches import ASKED, case, compact, container, edge, hiding, node, object_edge, tell, view, when
from program import TOO_LARGE

CASES = []
KINDS = {"books": "Book", "authors": "Author", "members": "Member", "loans": "Loan"}


def library(slots="", **counts):
    """The parts of the text of a library with so many books, members and so on, numbered from 2 on; each has the slots."""
    parts, after, first = ['{"next":', ''], [], 2
    lists, objects = [], []
    for name, count in counts.items():
        numbers = [str(first), str(first + count - 1)]
        lists.append((name, numbers))
        objects.append((KINDS[name], numbers))
        first += count
    text = f'{{"next":{first},"objects":[{{"class":"Library","id":1,"slots":{{'
    parts = []
    for name, numbers in lists:
        parts += [text + f'"{name}":[', *numbers, "", ""]
        text = "],"
    text = "]}},"
    for kind, numbers in objects:
        parts += [text, *numbers, f'{{"class":"{kind}","id":', f',"slots":{{{slots}}}}}']
        text = ","
    return parts + ['],"roots":[1]}']


def mappings(count, *others):
    """The parts of a viewpoint of so many mappings that show all books, and others."""
    top, told = (",".join(part) for part in ([""] + [compact(one["name"]) for one in others], [""] + [compact(one) for one in others]))
    return ['{"viewpoint":"V","diagram":{"name":"D","domain":"Library","layers":[{"name":"Base"}],"top":[', "0", str(count - 1), '"M', '"', top + '],"mappings":[', "0", str(count - 1),
            '{"name":"M', '","kind":"node","domain":"Book","candidates":"feature:books","style":{"shape":"a","color":"b"}}', told + "]}}"]


def draw(name, shows, viewpoint, over, **counts):
    CASES.append(case(name, shows, viewpoint, over, "library.metamodel.json", diagram={"counts": counts}))


def too_large(name, shows, viewpoint, over, **expect):
    CASES.append(case(name, shows, viewpoint, over, "library.metamodel.json", **{"status": 5, "sink": TOO_LARGE, **expect}))


# ---- units

BOOKS, MEMBERS, AUTHORS = (node(name, name, f"feature:{name.lower()}s") for name in ("Book", "Member", "Author"))
NINE_STYLES = "library-nine-styles.viewpoint.json"
LARGE = ['{"next":10090,"objects":[\n{"class":"Library","id":1,"slots":{"books":[', "2", "9991", "", "", '],"members":[', "9992", "10089", "", "", "]}},", "2", "9991", '\n{"class":"Book","id":',
         ',"slots":{}}', ",", "9992", "10089", '\n{"class":"Member","id":', ',"slots":{}}', '],"roots":[1]}']
draw("as_many_units_as_the_limit_are_drawn", "A diagram of exactly 100,000 units (2 + 99,900 + 98) is drawn.", NINE_STYLES, LARGE, units=100000)
too_large("one_unit_too_many", "One member more.", NINE_STYLES, library(books=9990, members=99))
too_large("line_of_a_diagram_that_is_too_large_cannot_be_written", "The sink's status comes in its place.", NINE_STYLES, library(books=9990, members=99), status=6, sink="")
CASES[-1]["failing"] = {"sink": [0]}

FILTERS = [hiding(f"F{n}", "Book", "aql:false") for n in range(64)]
LABELLED = node("Member", "Member", "feature:members", "aql:1")
draw("units_of_filters_count", "Filters that are not active count: 2 + 64 x 1,562 + 30 units.", view(BOOKS, LABELLED, filters=FILTERS), library(books=1562, members=30), units=100000)
too_large("one_unit_too_many_with_filters", "One label more.", view(BOOKS, LABELLED, filters=FILTERS), library(books=1562, members=31))

NOTHING = [node(f"None{n}", "Book", "aql:null") for n in range(3)]
LOANS = [object_edge(name, "Loan", "None0", "None1", "feature:book", "feature:member", candidates="feature:loans", precondition="aql:true") for name in ("A", "B")]
draw("units_of_edges_count", "Precondition and finders of 16,666 loans by two mappings: 2 + 2 x (1 + 3 x 16,666).", view(*NOTHING[:2], *LOANS), library(loans=16666), units=100000,
     elements=0, edges=0)
too_large("one_unit_too_many_with_edges", "One mapping more on top.", view(*NOTHING, *LOANS), library(loans=16666))

UNSHOWN = [node(f"M{n}", "Book", "feature:books", synchronised=False, precondition="aql:true") for n in range(10)]
draw("units_of_what_is_not_shown_count", "Preconditions of unsynchronised mappings count: 10 x (1 + 9,998) and 10 more.", view(*UNSHOWN, *(node(f"N{n}", "Book", "aql:null") for n in range(10))),
     library(books=9998), units=100000, elements=0)
too_large("one_unit_too_many_that_is_not_shown", "One mapping more.", view(*UNSHOWN, *(node(f"N{n}", "Book", "aql:null") for n in range(11))), library(books=9998))

# ---- elements and edges

ALL_BOOKS = edge("All", "Author", "Book", "aql:self.eContainer().books")
draw("as_many_elements_and_edges_as_the_limit", "Each of 10 authors with each of 9,090 books: 9,100 elements and 90,900 edges.", view(BOOKS, AUTHORS, ALL_BOOKS),
     library(books=9090, authors=10), elements=9100, edges=90900, units=12)
too_large("one_element_or_edge_too_many", "Each of 41 authors with each of 2,380 books: 2,421 elements and 97,580 edges.", view(BOOKS, AUTHORS, ALL_BOOKS), library(books=2380, authors=41))
draw("as_many_elements_as_the_limit", "400 books by 250 mappings.", mappings(250), library(books=400), elements=100000, edges=0, units=250)
too_large("one_element_too_many", "The library is one more.", mappings(250, node("It", "Library", "var:self")), library(books=400))
too_large("paths_without_end", "Twelve books inside one another in every order are more than a thousand million paths.", view(container("Book", "Book", children=["Book"])), library(books=12))
REPEATED = "let s = Sequence{" + ", ".join(["self.{}"] * 16) + "} in s->collect(a | s->collect(b | s->collect(c | s)))"
draw("finders_that_repeat_without_end", "Both find one object 65,536 times: there is one edge.", view(BOOKS, MEMBERS, object_edge(
     "Loan", "Loan", "Book", "Member", "aql:" + REPEATED.replace("{}", "book").replace("Sequence{", "Sequence{"), "aql:" + REPEATED.replace("{}", "member"))),
     {"next": 5, "objects": [{"class": "Library", "id": 1, "slots": {"books": [2], "members": [3], "loans": [4]}}, {"class": "Book", "id": 2, "slots": {"loans": [4]}},
                             {"class": "Member", "id": 3, "slots": {"loans": [4]}}, {"class": "Loan", "id": 4, "slots": {"book": 2, "member": 3}}], "roots": [1]},
     elements=2, edges=1, units=5, weight=3 + 3 + 2 + 2 * (65536 + 2))

# ---- weight: reads, members of collections, bytes of texts by 16

SIXTEEN = "let s = Sequence{" + ", ".join(map(str, range(16))) + "} in "
HEAVY = node("Book", "Book", "feature:books", styles=[when(f"aql:{SIXTEEN}s->collect(a | s->collect(b | s->collect(c | s)))")])
LIGHT = node("Member", "Member", "feature:members", "aql:if self.name = self.name then '0123456789abcdef0123456789abcde' else '' endif")
draw("as_much_weight_as_the_limit", "30 predicates of 65,536 members, and 8,471 labels of 31 bytes that look twice at two cells: 32 + 30 x 65,536 + 8,473 + 8,471 x 3 + 2.",
     view(HEAVY, LIGHT, node("More", "Book", "aql:Sequence{1, 2}")), library(books=30, members=8471), elements=8501, units=3 + 30 + 8471, weight=2000000)
too_large("one_too_much_weight", "One member more of a collection.", view(HEAVY, LIGHT, node("More", "Book", "aql:Sequence{1, 2, 3}")), library(books=30, members=8471))
too_large("weight_without_end", "9,990 books with a predicate of 65,536 members each.", view(HEAVY), library(books=9990))
TEXT = "let a = '0123456789abcdef' in " + "".join(f"let {after} = {' + '.join([before] * 16)} in " for before, after in ("ab", "bc", "cd"))
too_large("texts_that_weigh_too_much", "A label of 65,536 bytes weighs 4,096; 489 of them are too much.", view(node("Book", "Book", "feature:books", f"aql:{TEXT}d")), library(books=489))


if __name__ == "__main__":
    tell(CASES)
