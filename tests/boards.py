#!/usr/bin/env python3
"""Shows that each rule of board files is told where it is broken: alone, and beside another.

usage: tests/boards.py PROGRAM

Each case is one sound board with some members changed, or a text as it is, and the words that are due, written by hand from
docs/FORMATS.md. Where a rule stands at many places, a table names them and a loop makes the cases. PROGRAM runs on the board
with an empty session: a sound board writes nothing. It needs Python 3.8 and nothing else.
"""

import copy
import json
import os
import re
import subprocess
import sys
import tempfile

BOARD = {
    "version": 1,
    "title": "All kinds",
    "columns": [
        {"name": "n", "kind": "int"},
        {"name": "f", "kind": "fixed", "decimals": 2},
        {"name": "d", "kind": "date"},
        {"name": "s", "kind": "text"},
        {"name": "t", "kind": "tags"},
    ],
    "dimensions": [
        {"name": "N", "from": ["column", "n"]},
        {"name": "D", "from": ["column", "d"]},
        {"name": "S", "from": ["column", "s"]},
        {"name": "P", "from": ["pair", "n", "s"]},
        {"name": "F", "from": ["column", "f"]},
        {"name": "T", "from": ["tags", "t"]},
        {"name": "W", "from": ["weekday", "d"]},
        {"name": "M", "from": ["month", "d"]},
    ],
    "groups": [
        {"name": "gn", "of": "N", "round": ["floor", 10], "reduce": ["both", ["count"], ["sum", "f"]]},
        {"name": "gd", "of": "D", "round": ["month"], "reduce": ["count"]},
        {"name": "gs", "of": "S", "round": ["letters", 2], "reduce": ["sumcount", "n"]},
        {"name": "gp", "of": "P", "reduce": ["count"]},
        {"name": "gf", "of": "F", "reduce": ["count"]},
        {"name": "gt", "of": "T", "reduce": ["count"]},
        {"name": "gw", "of": "W", "reduce": ["count"]},
        {"name": "gm", "of": "M", "reduce": ["count"]},
    ],
    "wholes": [{"name": "w", "reduce": ["spread", "f"]}],
    "charts": [
        {"kind": "bar", "group": "gn"},
        {"kind": "line", "group": "gd"},
        {"kind": "row", "group": "gs"},
        {"kind": "heat", "group": "gp"},
        {"kind": "count"},
        {"kind": "number", "whole": "w"},
        {"kind": "table", "dimension": "N", "columns": ["n", "s"]},
    ],
    "colours": ["#000000", "#ffFF09"],
}

# A member that is taken away.
GONE = object()

# No rule is broken, and the text has more commas and opening brackets than are read: the status, and what is written.
SOUND, MEMORY = (0, b""), (6, b"")


def raw(text):
    """A value that is written as this text of JSON."""
    return f"raw {text}"


def many(count, element):
    """That many elements, each with its number in its name."""
    return [{**element, "name": f"{element['name']}{number}"} for number in range(count)]


def filled(member, count, element):
    """The elements of a member of the board, and as many more as make this count."""
    return [(member, BOARD[member] + many(count - len(BOARD[member]), element))]


def wrong(path, value=None):
    """A member or an element that is wrong: the words, and what is changed."""
    return f"field /{path}", [(path, value)]


def strange(path):
    """A member that the object may not have."""
    return f"unknown /{path}", [(path, 1)]


def unnamed(path, name):
    """A name that is not declared, or is declared for the second time."""
    return f"name /{path} {name}", [(path, name)]


def each(paths, *values):
    """Each of these values at each of these paths, where it is wrong."""
    return [wrong(path, value) for path in paths.split() for value in values]


def members(place, names):
    """All these members of an object, each of them wrong."""
    return [wrong(f"{place}/{name}") for name in names.split()]


def all_of(*faults):
    """Many faults as one."""
    return "", [edit for _, edits in faults for edit in edits]


COLUMN = {"name": "c", "kind": "int"}
DIMENSION = {"name": "x", "from": ["column", "n"]}
GROUP = {"name": "g", "of": "N", "reduce": ["count"]}
WHOLE = {"name": "v", "reduce": ["count"]}
CHART = {"kind": "count"}
NO_CHARTS = ("charts", GONE)

# ---- Tables of what stands at many places.

# A value of each JSON kind, and the members and elements that are of this kind.
VALUES = {"null": None, "true": True, "number": 1, "text": "1", "array": [], "object": {}}
KINDS = {
    "number": """version columns/1/decimals groups/0/order charts/0/width charts/0/height charts/0/field charts/1/field
        charts/2/field charts/2/cap charts/3/field charts/5/field charts/6/size""",
    "text": """title columns/0/name columns/0/kind columns/4/separator columns/3/blank dimensions/0/name groups/0/name groups/0/of
        wholes/0/name charts/0/kind charts/0/title charts/0/group charts/0/fill charts/1/group charts/1/fill charts/2/group
        charts/2/fill charts/2/others charts/3/group charts/5/whole charts/6/dimension charts/6/columns/0 charts/6/order
        colours/0""",
    "array": """columns dimensions dimensions/0/from groups groups/0/round groups/0/reduce wholes wholes/0/reduce charts
        charts/6/columns colours""",
    "object": "columns/0 dimensions/0 groups/0 wholes/0 charts/0",
}

# Members without a default.
NEEDED = """version columns columns/0/name columns/0/kind columns/1/decimals dimensions dimensions/0/name dimensions/0/from
    groups/0/name groups/0/of groups/0/reduce wholes/0/name wholes/0/reduce charts/0/kind charts/0/group charts/1/group
    charts/2/group charts/3/group charts/5/whole charts/6/dimension charts/6/columns"""

# Numbers with the least and the greatest that is taken; the sizes of charts stand at each kind of chart.
RANGES = [
    ("columns/1/decimals", 0, 9),
    ("groups/0/order", 0, 1),
    ("charts/0/width", 100, 4000),
    ("charts/0/height", 60, 4000),
    ("charts/0/field", 0, 1),
    ("charts/1/field", 0, 0),
    ("charts/2/field", 0, 2),
    ("charts/2/cap", 1, 9999),
    ("charts/3/field", 0, 0),
    ("charts/5/field", 0, 3),
    ("charts/6/size", 1, 10000),
]
SIZES = [(f"charts/{chart}/{side}", least, 4000) for chart in range(1, 7) for side, least in (("width", 100), ("height", 60))]

OF_COLUMNS = "name kind decimals separator blank"

# A sound value of each member that some kind of chart has, and the members of each kind.
OF_CHARTS = {
    "group": "gn",
    "field": 0,
    "fill": "#000000",
    "cap": 1,
    "others": "",
    "whole": "w",
    "dimension": "N",
    "columns": ["n"],
    "size": 1,
    "order": "ascending",
}
OWN = {
    "bar": "group field fill",
    "line": "group field fill",
    "row": "group field fill cap others",
    "heat": "group field",
    "count": "",
    "number": "whole field",
    "table": "dimension columns size order",
}

# The columns that accessors fit, the dimensions whose keys a rounding fits, and the keys that charts are drawn over.
ACCESSORS = {"column": "nfds", "tags": "t", "weekday": "d", "month": "d"}
ROUNDINGS = [(["same"], "NFDSTWMP"), (["floor", 1], "NFWM"), (["month"], "D"), (["year"], "D"), (["letters", 1], "ST")]
DRAWN = [("bar", "NFDSTWMP"), ("line", "NFDWM"), ("row", "NFDSTWMP"), ("heat", "P")]
PAIRS = [{"name": one + other, "from": ["pair", one, other]} for one in "nfds" for other in "nfds"]
ROUNDED = [{**GROUP, "name": words[0] + of, "of": of, "round": words} for words, fits in ROUNDINGS for of in fits]
CHARTED = [{"kind": kind, "group": group["name"]} for kind, fits in DRAWN for group in BOARD["groups"] if group["of"] in fits]

# Reducers of a column, and how many fields each reducer has.
OVER = ["sum", "sumcount", "sumsquares", "spread"]
FIELDS = [
    (["count"], 1),
    (["sum", "n"], 1),
    (["sumcount", "f"], 3),
    (["sumsquares", "n"], 3),
    (["spread", "n"], 4),
    (["both", ["count"], ["count"]], 2),
    (["both", ["sum", "n"], ["spread", "f"]], 5),
    (["both", ["spread", "n"], ["spread", "n"]], 8),
]

# Arrays that are no words of their sort, whatever the columns are.
NO_ACCESSORS = [
    [],
    ["column"],
    ["pair", "n"],
    ["pair", "m"],
    ["column", "n", "n"],
    ["column", "m", "n"],
    ["tags", "t", "t"],
    ["weekday", "d", 1],
    ["pair", "n", "s", "n"],
    ["columns", "n"],
    ["Column", "n"],
    ["year", "d"],
    ["n"],
    ["pairs", "n", "s"],
    ["column", 1],
    ["column", None],
    ["column", ["n"]],
    ["pair", 1, "n"],
    ["pair", "m", 1],
    [1, "n"],
    [["column"], "n"],
    [["column", "n"]],
]
NO_ROUNDINGS = [
    [],
    ["floor"],
    ["letters"],
    ["same", 1],
    ["month", 1],
    ["year", "d"],
    ["floor", 10, 10],
    ["letters", 2, 2],
    ["none"],
    ["Same"],
    ["day"],
    ["round", 10],
    [10],
    [10, "floor"],
    [["floor", 10]],
    ["floor", "10"],
    ["floor", None],
    ["floor", [10]],
    ["floor", 0],
    ["floor", -10],
    ["floor", 10**15 + 1],
    ["floor", 2**64 + 10],
    ["floor", raw("10.0")],
    ["floor", raw("1e1")],
    ["floor", raw("-0")],
]
NO_LETTERS = [["letters", value] for value in (0, 65, -1, "2", None, True, raw("2.0"), raw("2e0"), 2**64 + 2)]
NO_PARTS = [
    [],
    ["sum"],
    ["count", "n"],
    ["count", "m"],
    ["sum", "n", "n"],
    ["sum", "m", "n"],
    ["mean", "n"],
    ["Sum", "n"],
    ["sum", 1],
    ["spread", None],
    [1],
    [["count"]],
    ["both", ["count"], ["count"]],
    "count",
    None,
    {},
]
NO_REDUCERS = [
    *NO_PARTS[:-4],
    ["both"],
    ["both", ["count"]],
    ["both", ["count"], ["count"], ["count"]],
    ["Both", ["count"], ["count"]],
    ["both", "count", "count"],
    *(["both", part, ["sum", "m"]] for part in NO_PARTS[::2]),
    *(["both", ["sum", "m"], part] for part in NO_PARTS[1::2]),
]

# Fields that are no cells of a column, and fields that are.
BLANKS = [
    (0, ["", " ", "1.5", "1e3", "x", "- 7", "1,000", "\t7", "1000000000000001"], [" 7 ", "+7", "-0", "7.0", "-1000000000000000"]),
    (1, ["", "0.001", "x", ".", "10000000000000.01"], ["1.5", "1.250", ".5", "-10000000000000.00"]),
    (2, ["", " ", "2025-02-29", "2025-13-01", "2025-1-01", "10000-01-01", "today"], ["0000-01-01", " 9999-12-31 ", "2024-02-29"]),
    (3, ["x" * 4097, "\u00fc" * 2048 + "x"], ["", " ", "x" * 4096, "\u00fc" * 2048]),
]
NO_COLOURS = ["", "#", "red", "#00000", "#0000000", "0000000", "#00000g", "#00000G", "#000000 ", "#+00000", "#0000\u00e9"]

# ---- One rule that is broken, or none. The words that are due, and what is changed: a path, and the value there.

CASES = [
    (SOUND, []),
    # Members and elements of a wrong JSON kind, and members that are wanting.
    *(
        wrong(path, value)
        for kind, paths in KINDS.items()
        for path in paths.split()
        for other, value in VALUES.items()
        if other != kind
    ),
    *each(NEEDED, GONE),
    (SOUND, [("title", GONE), ("groups", GONE), ("wholes", GONE), NO_CHARTS, ("colours", GONE)]),
    (SOUND, [("columns", []), ("dimensions", []), ("groups", []), ("wholes", []), ("charts", [])]),
    # Defaults that are written out.
    (SOUND, [("title", ""), ("groups/3/round", ["same"]), ("groups/3/order", 0), ("columns/4/separator", ";")]),
    (SOUND, [(f"charts/{chart}/title", "") for chart in range(7)]),
    (SOUND, [(f"charts/{chart}/{side}", size) for chart in range(7) for side, size in (("width", 300), ("height", 200))]),
    (SOUND, [(f"charts/{chart}/field", 0) for chart in (0, 1, 2, 3, 5)]),
    (SOUND, [(f"charts/{chart}/fill", "#336699") for chart in range(3)] + [("charts/2/others", "Others")]),
    (SOUND, [("charts/6/size", 25), ("charts/6/order", "ascending")]),
    (SOUND, [("colours", ["#e8eef4", "#b9cbdd", "#7d9cbc", "#40688f", "#16324f"])]),
    # Numbers: the ends, one beyond each, and numbers that are not whole; 2^64 and more are not counted from 0 again.
    (SOUND, [(path, least) for path, least, _ in RANGES + SIZES]),
    (SOUND, [(path, greatest) for path, _, greatest in RANGES + SIZES]),
    *(wrong(path, value) for path, least, greatest in RANGES + SIZES for value in (least - 1, greatest + 1)),
    *(wrong(path, 2**64 + least) for path, least, _ in RANGES),
    *(wrong(path, raw(text)) for path, least, _ in RANGES for text in (f"{least}.0", f"{least}e0", f"-{least}")),
    *each("charts/0/width charts/0/height", "100", raw("1e2")),
    *each("version", -1, raw("1.0"), raw("1e0"), raw("-0"), 2**64 + 1),
    *((f"version {number}", [("version", number)]) for number in (0, 2, 100, 2**63, 2**64 - 1)),
    # Unknown members of each object: the first in the order of the bytes of their names, and not of the file.
    *map(strange, "a titel Title versions columns/0/of columns/0/Kind columns/4/a dimensions/0/of dimensions/7/a".split()),
    *map(strange, "groups/0/from groups/0/rounding groups/7/a wholes/0/of wholes/0/order wholes/0/title".split()),
    *map(strange, [f"charts/{chart}/{member}" for chart in range(7) for member in ("a", "name")]),
    *(
        (f"unknown /charts/{place}/{member}", [(f"charts/{place}/{member}", value)])
        for place, chart in enumerate(BOARD["charts"])
        for member, value in OF_CHARTS.items()
        if member not in OWN[chart["kind"]].split()
    ),
    ("unknown /B", [("b", 1), ("B", 1), ("a", 1)]),
    ("unknown /a", [("b", 1), ("aa", 1), ("a", 1)]),
    ("unknown /z", [("\u00e9", 1), ("z", 1)]),
    ("unknown /\uffff", [("\U00010000", 1), ("\uffff", 1)]),
    ("unknown /columns/0/a", [("columns/0/b", 1), ("columns/0/a", 1), ("columns/1/A", 1)]),
    ("unknown /charts/0/a", [("charts/0/b", 1), ("charts/0/a", 1)]),
    ("unknown /charts/4/field", [("charts/4/fill", 1), ("charts/4/field", 1), ("charts/4/group", 1)]),
    # Paths and names are written as words.
    ("unknown /", [("a", 1), ("", 1)]),
    ('unknown "/a b"', [("a b", 1)]),
    ('unknown "/a\\tb"', [("a\tb", 1)]),
    ('unknown "/a\\r\\nb"', [("a\r\nb", 1)]),
    ('unknown "/a\\"b"', [('a"b', 1)]),
    ("unknown /a\\b", [("a\\b", 1)]),
    ('unknown "/a\\\\ b"', [("a\\ b", 1)]),
    ("unknown /\u00e9\0\u2028", [("\u00e9\0\u2028", 1)]),
    ('name /groups/0/of ""', [("groups/0/of", "")]),
    ('name /groups/0/of "a b"', [("groups/0/of", "a b")]),
    ('name /groups/0/reduce "\\\\\\""', [("groups/0/reduce", ["sum", '\\"'])]),
    # Names: each once in its sort, empty ones too, and declared in the sort that is meant.
    ("name /columns/5/name n", [("columns", BOARD["columns"] + [{"name": "n", "kind": "tags"}])]),
    ("name /dimensions/8/name N", [("dimensions", BOARD["dimensions"] + [{"name": "N", "from": ["tags", "t"]}])]),
    ("name /groups/8/name gn", [("groups", BOARD["groups"] + [{**GROUP, "name": "gn"}])]),
    ("name /wholes/1/name w", [("wholes", BOARD["wholes"] + [{**WHOLE, "name": "w"}])]),
    ('name /columns/4/name ""', [("columns/3/name", ""), ("columns/4/name", "")]),
    ('name /dimensions/1/name ""', [("dimensions/0/name", ""), ("dimensions/1/name", "")]),
    ('name /groups/1/name ""', [("groups/0/name", ""), ("groups/1/name", "")]),
    ('name /wholes/1/name ""', [("wholes", [{**WHOLE, "name": ""}] * 2)]),
    (SOUND, [("columns/4/name", ""), ("dimensions/5/from", ["tags", ""]), ("charts/6/columns/1", "")]),
    (SOUND, [("dimensions/0/name", ""), ("groups/0/of", ""), ("charts/6/dimension", "")]),
    (SOUND, [("groups/0/name", ""), ("charts/0/group", ""), ("wholes/0/name", ""), ("charts/5/whole", "")]),
    (SOUND, [("dimensions/4/name", "n"), ("groups/4/of", "n"), ("groups/5/name", "n"), ("wholes/0/name", "n"), NO_CHARTS]),
    *(unnamed("groups/0/of", name) for name in ("n", "gn", "w")),
    *(unnamed(f"charts/{chart}/group", name) for chart in range(4) for name in ("N", "w")),
    *(unnamed("charts/5/whole", name) for name in ("gn", "W")),
    *(unnamed("charts/6/dimension", name) for name in ("gn", "n")),
    *(unnamed(f"charts/6/columns/{place}", "N") for place in (0, 1)),
    (SOUND, [("charts/6/columns", ["t", "t", "f", "d"])]),
    # Limits: one below and at the limit, and one above, which is told before the elements.
    *((SOUND, filled("columns", count, COLUMN)) for count in (63, 64)),
    ("limit /columns 64", filled("columns", 65, COLUMN)),
    *((SOUND, filled("dimensions", count, DIMENSION)) for count in (31, 32)),
    ("limit /dimensions 32", filled("dimensions", 33, DIMENSION)),
    *((SOUND, filled("groups", count, GROUP)) for count in (62, 63)),
    *((SOUND, filled("groups", count, GROUP) + [("wholes", GONE), NO_CHARTS]) for count in (63, 64)),
    ("limit /groups 64", filled("groups", 65, GROUP) + [("wholes", GONE), NO_CHARTS]),
    ("limit /groups 64", filled("groups", 65, GROUP)),
    ("limit /wholes 64", filled("groups", 64, GROUP)),
    *((SOUND, filled("wholes", count, WHOLE)) for count in (55, 56)),
    ("limit /wholes 64", filled("wholes", 57, WHOLE)),
    *((SOUND, filled("wholes", count, WHOLE) + [("groups", GONE), NO_CHARTS]) for count in (63, 64)),
    ("limit /wholes 64", filled("wholes", 65, WHOLE) + [("groups", GONE), NO_CHARTS]),
    *((SOUND, [("charts", [CHART] * count)]) for count in (31, 32)),
    ("limit /charts 32", [("charts", [CHART] * 33)]),
    *((SOUND, [("charts/6/columns", ["n"] * count)]) for count in (1, 63, 64)),
    ("limit /charts/6/columns 64", [("charts/6/columns", ["n"] * 65)]),
    ("limit /charts/6/columns 64", [("charts/6/columns", [1] * 65)]),
    *((SOUND, [("colours", ["#000000"] * count)]) for count in (1, 63, 64)),
    ("limit /colours 64", [("colours", ["#000000"] * 65)]),
    ("limit /colours 64", [("colours", [1] * 65)]),
    *each("charts/6/columns colours", []),
    # Elements are told by their index.
    *each("columns/4 dimensions/7 groups/7 charts/6 charts/6/columns/1 colours/1", None),
    ("field /columns/63", [("columns", BOARD["columns"] + many(58, COLUMN) + [1])]),
    ("field /dimensions/31/from", [("dimensions", BOARD["dimensions"] + many(23, DIMENSION) + [{"name": "y"}])]),
    ("field /groups/62", [("groups", BOARD["groups"] + many(54, GROUP) + [1])]),
    ("field /wholes/10/reduce", [("wholes", many(10, WHOLE) + [{"name": "y"}])]),
    ("field /charts/31/kind", [("charts", [CHART] * 31 + [{}])]),
    ("field /charts/6/columns/63", [("charts/6/columns", ["n"] * 63 + [1])]),
    ("field /colours/63", [("colours", ["#000000"] * 63 + [1])]),
    # Columns: kinds, and members that are not of the kind, whatever their value is.
    *each("columns/0/kind", "", "integer", "Int", "int ", "number"),
    *each("columns/0/decimals columns/2/decimals columns/3/decimals columns/4/decimals", 2, None),
    *each("columns/0/separator columns/1/separator columns/2/separator columns/3/separator", ";", None),
    *each("columns/4/blank", "", "a", None),
    *each("columns/4/separator", "", ";;", "\t", "\x1f", "\x7f", "\u00e9"),
    *((SOUND, [("columns/4/separator", separator)]) for separator in ' ~"\\'),
    *(wrong(f"columns/{column}/blank", field) for column, fields, _ in BLANKS for field in fields),
    *((SOUND, [(f"columns/{column}/blank", field)]) for column, _, fields in BLANKS for field in fields),
    (SOUND, [("columns/1/decimals", 9), ("columns/1/blank", "1000000.000000000")]),
    ("field /columns/1/blank", [("columns/1/decimals", 1), ("columns/1/blank", "1.25")]),
    # Accessors: their words in their whole shape, and then their columns from left to right.
    *(wrong("dimensions/0/from", words) for words in NO_ACCESSORS),
    *(wrong("dimensions/0/from", [word, column]) for word, fits in ACCESSORS.items() for column in "nfdst" if column not in fits),
    *(wrong("dimensions/3/from", ["pair", *columns]) for columns in ("tn", "nt", "tt", "tm")),
    *(("name /dimensions/0/from m", [("dimensions/0/from", [word, "m"])]) for word in ACCESSORS),
    *(("name /dimensions/3/from m", [("dimensions/3/from", ["pair", *columns])]) for columns in ("mn", "nm", "mt", "mo")),
    (SOUND, [("dimensions", BOARD["dimensions"] + PAIRS)]),
    # Roundings: their words and numbers, and then the keys.
    *(wrong("groups/0/round", words) for words in NO_ROUNDINGS),
    *(wrong("groups/2/round", words) for words in NO_LETTERS),
    (SOUND, [("groups/0/round", ["floor", 1]), ("groups/2/round", ["letters", 1])]),
    (SOUND, [("groups/0/round", ["floor", 10**15]), ("groups/2/round", ["letters", 64])]),
    *(
        wrong(f"groups/{place}/round", words)
        for words, fits in ROUNDINGS
        for place, group in enumerate(BOARD["groups"])
        if group["of"] not in fits
    ),
    (SOUND, [("groups", BOARD["groups"] + ROUNDED)]),
    # Reducers: their words in their whole shape, and then their columns from left to right.
    *(wrong("groups/0/reduce", words) for words in NO_REDUCERS),
    *(wrong("wholes/0/reduce", words) for words in ([], ["sum"], ["count", "n"], ["mean", "n"], ["both", ["count"], ["sum"]])),
    *(wrong(path, [word, column]) for path in ("groups/0/reduce", "wholes/0/reduce") for word in OVER for column in "dst"),
    *((f"name /{path} m", [(path, [word, "m"])]) for path in ("groups/0/reduce", "wholes/0/reduce") for word in OVER),
    *(wrong("groups/0/reduce", ["both", [word, "s"], ["sum", "m"]]) for word in OVER),
    *(wrong("groups/0/reduce", ["both", ["count"], [word, "t"]]) for word in OVER),
    *(("name /groups/0/reduce m", [("groups/0/reduce", ["both", ["sum", "m"], ["sum", column]])]) for column in "nso"),
    ("name /wholes/0/reduce m", [("wholes/0/reduce", ["both", ["sum", "n"], ["sum", "m"]])]),
    # Fields of each reducer, at their end and one beyond.
    *((SOUND, [("groups/0/reduce", words), ("groups/0/order", fields - 1)]) for words, fields in FIELDS),
    *((SOUND, [("groups/0/reduce", words), ("charts/0/field", fields - 1)]) for words, fields in FIELDS),
    *((SOUND, [("wholes/0/reduce", words), ("charts/5/field", fields - 1)]) for words, fields in FIELDS),
    *(("field /groups/0/order", [("groups/0/reduce", words), ("groups/0/order", fields)]) for words, fields in FIELDS),
    *(("field /charts/0/field", [("groups/0/reduce", words), ("charts/0/field", fields)]) for words, fields in FIELDS),
    *(("field /charts/5/field", [("wholes/0/reduce", words), ("charts/5/field", fields)]) for words, fields in FIELDS),
    # Charts: kinds, the keys that they are drawn over, and words.
    *each("charts/0/kind", "", "pie", "Bar", "stack"),
    *(
        wrong(f"charts/{place}/group", group["name"])
        for place, (_, fits) in enumerate(DRAWN)
        for group in BOARD["groups"]
        if group["of"] not in fits
    ),
    (SOUND, [("charts", CHARTED)]),
    *each("charts/6/order", "", "up", "Ascending", "natural"),
    (SOUND, [("charts/6/order", "descending"), ("charts/2/others", ""), ("charts/0/title", "\u00e9 \0")]),
    *each("charts/0/fill colours/1", *NO_COLOURS),
    *each("charts/1/fill charts/2/fill colours/0", "#00000g", "0000000"),
    (SOUND, [("charts/0/fill", "#aAbBcC"), ("charts/1/fill", "#dDeEfF"), ("charts/2/fill", "#012345"), ("colours", ["#6789ab"])]),
]

# ---- Rules that stand beside each other, in the order in which they are tried: each is broken together with the next, and told.
# Each case is run twice, the second time with the members of all objects turned round.

ROWS = [
    # The board: the version before strange members, and these before all others.
    [wrong("version"), strange("a"), *each("title columns dimensions groups wholes charts colours", None)],
    [("version 2", [("version", 2)]), strange("a"), all_of(*each("title columns dimensions groups wholes charts colours", None))],
    # Each element to its end before the next, and each array to its end before the next member.
    [wrong("title"), wrong("columns/0/blank"), strange("columns/1/a"), *each("columns/2/blank columns/3 columns/4/kind", None)],
    [wrong("columns/4/blank"), *each("dimensions/0 dimensions/1/from", None), strange("dimensions/2/a")],
    [strange("dimensions/2/a"), wrong("dimensions/3/from"), wrong("dimensions/4/name")],
    [wrong("dimensions/7/from"), *each("groups/0 groups/1/order", None), strange("groups/2/a")],
    [strange("groups/2/a"), *each("groups/3/reduce groups/4/name groups/5/order", None)],
    [wrong("groups/7/order"), strange("wholes/0/a")],
    [wrong("wholes/0/reduce"), *each("charts/0 charts/1/fill charts/2/kind charts/3/field", None), strange("charts/4/a")],
    [strange("charts/4/a"), *each("charts/5/title charts/6/kind colours/0", None)],
    [*each("charts/6/order colours/0 colours/1", None)],
    # A limit before its elements, and the elements before the limit of the next array.
    [("limit /columns 64", [("columns", [1] * 65)]), wrong("dimensions/0")],
    [("limit /dimensions 32", [("dimensions", [1] * 33)]), wrong("groups/0")],
    [("limit /groups 64", [("groups", [1] * 65)]), wrong("wholes/0")],
    [("field /groups/0", [("groups", [1] + many(63, GROUP))]), ("limit /wholes 64", [])],
    [("limit /wholes 64", [("wholes", [1] * 57)]), wrong("charts/0")],
    [("limit /charts 32", [("charts", [1] * 33)]), wrong("colours/0")],
    # Columns, dimensions, groups and wholes.
    *([strange(f"columns/{column}/a"), *members(f"columns/{column}", OF_COLUMNS)] for column in (0, 1, 4)),
    [strange("columns/2/a"), all_of(*members("columns/2", OF_COLUMNS))],
    [unnamed("columns/1/name", "n"), wrong("columns/1/kind")],
    [strange("dimensions/1/a"), *members("dimensions/1", "name from")],
    [unnamed("dimensions/1/name", "N"), wrong("dimensions/1/from", ["tags", "s"])],
    [strange("groups/1/a"), *members("groups/1", "name of round reduce order")],
    [strange("groups/1/a"), all_of(*members("groups/1", "name of round reduce order"))],
    [unnamed("groups/1/name", "gn"), unnamed("groups/1/of", "m"), *each("groups/1/round groups/1/reduce", ["sum", "s"])],
    [wrong("groups/1/round", ["floor", 1]), ("name /groups/1/reduce m", [("groups/1/reduce", ["sum", "m"])])],
    [("name /groups/1/reduce m", [("groups/1/reduce", ["sum", "m"])]), wrong("groups/1/order", 1)],
    [strange("wholes/0/a"), *members("wholes/0", "name reduce")],
    [strange("wholes/0/a"), wrong("wholes/0/reduce")],
    [("name /wholes/1/name w", [("wholes", BOARD["wholes"] + [{**WHOLE, "name": "w"}])]), wrong("wholes/1/reduce")],
    # Charts: the kind before strange members, these before all others, and what every chart has before the members of its kind.
    *([wrong(f"charts/{place}/kind"), strange(f"charts/{place}/a")] for place in range(7)),
    *(
        [strange(f"charts/{place}/a"), all_of(*members(f"charts/{place}", f"title width height {OWN[chart['kind']]}"))]
        for place, chart in enumerate(BOARD["charts"])
    ),
    [strange("charts/0/a"), *members("charts/0", "title width height")],
    *(members(f"charts/{place}", f"height {OWN[chart['kind']]}") for place, chart in enumerate(BOARD["charts"])),
    [wrong("charts/0/kind", "pie"), strange("charts/0/cap"), wrong("charts/0/fill")],
    *([unnamed(f"charts/{chart}/group", "m"), wrong(f"charts/{chart}/field", 9)] for chart in range(4)),
    [wrong("charts/1/group", "gs"), wrong("charts/1/field", 9), wrong("charts/1/fill", "red")],
    [wrong("charts/3/group", "gn"), wrong("charts/3/field", 9)],
    [unnamed("charts/5/whole", "m"), wrong("charts/5/field", 9)],
    [unnamed("charts/6/dimension", "m"), wrong("charts/6/columns", [])],
    [("limit /charts/6/columns 64", [("charts/6/columns", [1] * 65)]), wrong("charts/6/size", 0)],
    [wrong("charts/6/columns", []), wrong("charts/6/size", 0), wrong("charts/6/order", "up")],
    [wrong("charts/6/columns/0"), unnamed("charts/6/columns/1", "N"), wrong("charts/6/size", 0)],
]

# ---- Texts as they are.

SMALL = '{"version":1,"columns":[],"dimensions":[]'
TWO = ',"columns":[{"name":"?","kind":"int"},{"name":"!","kind":"int"}]}'

# Wrong ends of SMALL, what it may not go on with, wrong values, and wrong texts.
NO_ENDS = ["", "]", ",}", ',"a"}', ',"a":}', ',"a" 1}', ' "a":1}', ",a:1}", ",'a':1}", ',"a:1}', ",1:1}"]
TOO_MUCH = ["}}", "},", "}{}", "}x", "}//"]
NO_NUMBERS = ["01", "+1", ".5", "1.", "1e", "-", "--1", "0x1", "1_0", "NaN", "Infinity", "1e400"]
NO_VALUES = ["True", "nul", "[1,]", "[,1]", "[1 2]", "/**/1"]
NO_TEXTS = ["\t", "\n", "\0", "\\", "\\x41", "\\'", "\\u12", "\\u12g4", "\\ud800", "\\ud800\\ud800", "\\ud800x", "\\udc00"]
NO_UTF8 = [b"\xff", b"\xc0\x80", b"\xe2\x82", b"\xed\xa0\x80", b"\xf4\x90\x80\x80", b"\x80"]

# The end of a board whose members are turned round: a dimension before its column, and the version last.
TURNED = '"dimensions":[{"from":["column",""],"name":"x"}],"columns":[{"kind":"int","name":""}],"version":1}'


def values(count):
    """A text that has this many commas and opening brackets."""
    return '{"version":1,"a":[' + "0," * (count - 3) + "0]}"


TEXTS = [
    # No JSON, and no object.
    *(("syntax", text) for text in ("", " ", "\ufeff", "null", "true", "1", '"board"', "[]", "[{}]", "{", "}")),
    *(("syntax", SMALL + text) for text in NO_ENDS + TOO_MUCH),
    *(("syntax", SMALL + f',"a":{text}}}') for text in NO_NUMBERS + NO_VALUES),
    *(("syntax", SMALL + f',"title":"{text}"}}') for text in NO_TEXTS),
    ("syntax", '{"version":2,"a":1,"title":}'),
    # Bytes that are no UTF-8.
    *(("syntax", SMALL.encode() + b',"title":"' + text + b'"}') for text in NO_UTF8),
    *(("syntax", text + SMALL.encode() + b"}") for text in (b"\xef\xbb", b"\xff\xfe", b"\xfe\xff")),
    ("syntax", (SMALL + "}").encode("utf-16")),
    # White space, and byte order marks.
    (SOUND, SMALL + "}"),
    (SOUND, " \t\r\n" + SMALL + " \t\r\n}\n\n"),
    *(("syntax", mark + SMALL + "}") for mark in ("\f", "\v", "\u00a0", "\u2028", "\0")),
    (SOUND, "\ufeff" + SMALL + "}"),
    (SOUND, "\ufeff \n" + SMALL + ',"title":"\ufeff"}'),
    *(("syntax", text) for text in ("\ufeff\ufeff" + SMALL + "}", " \ufeff" + SMALL + "}", SMALL + "}\ufeff")),
    ("unknown /\ufeff", '{"version":1,"\ufeff":1}'),
    # Members in any order, and those that are wanting in the order of the table.
    ("field /version", "{}"),
    ("field /version", '{"a":1}'),
    ("field /columns", '{"version":1}'),
    ("field /dimensions", '{"columns":[],"version":1}'),
    (SOUND, '{"charts":[{"columns":[""],"kind":"table","dimension":"x"}],' + TURNED),
    (SOUND, '{"charts":[{"group":"g","kind":"bar"}],"groups":[{"reduce":["count"],"of":"x","name":"g"}],' + TURNED),
    ("name /charts/0/group x", '{"charts":[{"group":"x","kind":"bar"}],' + TURNED),
    # Of two members of one name the last counts.
    (SOUND, '{"version":2,' + SMALL[1:] + "}"),
    ("version 2", SMALL + ',"version":2}'),
    ("field /version", SMALL + ',"version":null}'),
    (SOUND, SMALL + ',"title":1,"title":""}'),
    ("field /title", SMALL + ',"title":"","title":1}'),
    (SOUND, SMALL + ',"title":1,"t\\u0069tle":""}'),
    ("unknown /a", SMALL + ',"a":1,"a":1}'),
    ("field /dimensions", '{"columns":7,"version":2,"version":1,"columns":[]}'),
    ("field /columns", SMALL + ',"columns":{}}'),
    (SOUND, SMALL + ',"columns":[{"name":1,"name":"n","kind":"text","kind":"fixed","decimals":10,"decimals":9}]}'),
    ("name /columns/1/name n", SMALL + ',"columns":[{"name":"n","kind":"int"},{"name":"o","kind":"int","name":"n"}]}'),
    ("unknown /charts/0/group", SMALL + ',"charts":[{"kind":"bar","group":"g","kind":"count"}]}'),
    (SOUND, SMALL + ',"charts":[{"kind":"bar","kind":"count"}]}'),
    # Escapes: two spellings of one text are one.
    (SOUND, SMALL.replace("version", "\\u0076ersion") + ',"columns":[{"\\u006eame":"n","k\\u0069nd":"\\u0069nt"}]}'),
    ("name /columns/1/name \U00010000", SMALL + TWO.replace("?", "\U00010000").replace("!", "\\ud800\\udc00")),
    ("name /columns/1/name n", SMALL + TWO.replace("?", "\\u006e").replace("!", "n")),
    (SOUND, SMALL + TWO.replace("?", "\\u006e").replace("!", "\\\\u006e")),
    ('unknown "/a\\"b\\n"', SMALL + ',"a\\"b\\n":1}'),
    ("unknown /\\/\b\f", SMALL + ',"\\\\\\/\\b\\f":1}'),
    ("unknown /\0", SMALL + ',"a":1,"\\u0000":1}'),
    # Nesting: 127 deep, and one deeper.
    ("unknown /a", '{"version":1,"a":' + "[" * 126 + "]" * 126 + "}"),
    ("unknown /a", '{"version":1,"a":' + '{"b":' * 126 + "1" + "}" * 126 + "}"),
    ("syntax", '{"version":1,"a":' + "[" * 127 + "]" * 127 + "}"),
    ("syntax", '{"version":1,"a":' + '{"b":' * 127 + "1" + "}" * 127 + "}"),
    ("field /version", '{"version":' + "[" * 126 + "]" * 126 + ',"a":' + "[" * 126 + "]" * 126 + "}"),
    ("syntax", "[" * 127 + "]" * 127),
    ("unknown /a", '{"version":1,"a":"' + "[" * 200 + '"}'),
    # 100,000 commas and opening brackets outside of texts, and one more, which is told before all else.
    ("unknown /a", values(100_000)),
    (MEMORY, values(100_001)),
    ("unknown /a", "\ufeff" + values(100_000)),
    *(("syntax", sign * 100_000) for sign in ",[{"),
    *((MEMORY, sign * 100_001) for sign in ",[{"),
    *(("syntax", sign * 100_001) for sign in ":]}1"),
    (MEMORY, b"\xff" + b"," * 100_001),
    ("syntax", b"\xff" + b"," * 100_000),
    (SOUND, SMALL + ',"title":"' + ",[{" * 50_000 + '"}'),
    (SOUND, SMALL + ',"title":"\\"' + "," * 100_001 + '"}'),
    ("syntax", '"' + "," * 100_001),
    (MEMORY, '{"title":"\\\\"' + "," * 100_000),
    ("syntax", '{"title":"\\\\"' + "," * 99_999),
]


def turned(value):
    """A value with the members of all objects turned round."""
    if isinstance(value, dict):
        return {name: turned(value[name]) for name in reversed(value)}
    return [turned(element) for element in value] if isinstance(value, list) else value


def changed(edits, turn=lambda board: board):
    board = copy.deepcopy(BOARD)
    for path, value in edits:
        *above, last = [int(part) if part.isdigit() else part for part in path.split("/")]
        there = board
        for part in above:
            there = there[part]
        if value is GONE:
            del there[last]
        else:
            there[last] = copy.deepcopy(value)
    return re.sub('"raw ([^"]*)"', r"\1", json.dumps(turn(board)))


def cases():
    """The words that are due, the text, and what is shown where they differ."""
    for words, edits in CASES:
        yield words, changed(edits), edits
    for row in ROWS:
        for (words, edits), (_, others) in zip(row, row[1:]):
            yield words, changed(edits + others), edits + others
            yield words, changed(edits + others, turned), edits + others
    for words, text in TEXTS:
        yield words, text, text[:200]


def main():
    if len(sys.argv) != 2:
        sys.exit(__doc__)
    program, passed, failed = os.path.abspath(sys.argv[1]), 0, 0
    with tempfile.TemporaryDirectory() as folder:
        board, session = os.path.join(folder, "board.json"), os.path.join(folder, "session.txt")
        open(session, "w", encoding="utf-8").close()
        for words, text, shown in cases():
            with open(board, "wb") as file:
                file.write(text if isinstance(text, bytes) else text.encode())
            run = subprocess.run([program, board, session], capture_output=True, check=False)
            due = (3, f"board refused {words}\n".encode()) if isinstance(words, str) else words
            if (run.returncode, run.stdout) == due:
                passed += 1
            else:
                failed += 1
                print(f"{shown}: wanted {due}, got {(run.returncode, run.stdout)}")
    print(f"tests/boards.py: {passed} passed, {failed} failed")
    sys.exit(failed != 0)


if __name__ == "__main__":
    main()
