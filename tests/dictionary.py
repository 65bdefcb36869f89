#!/usr/bin/env python3
"""dictionary.py [--self-test] DOC CRATE: the frozen list, the code's rows and the specification's rows are the same.

DOC is docs/DICTIONARY.md, CRATE is crates/dictionary. Every row is compared (key, kind by type, and the name and type in the comments), as are
the number of rows, their strict order, the numbers of the kinds and the counts that DOC states. One line is printed; the status is 1 where something
differs, and the line names the first difference. With --self-test the comparison is run on damaged copies, and each damage must be found.
"""
import os
import re
import shutil
import sys
import tempfile
from collections import Counter

ROWS = 325
KIND_OF_TYPE = {
    "Unsigned32": "Four", "Integer32": "Four", "Enumerated": "Four", "Time": "Four", "Float32": "Four",
    "Unsigned64": "Eight", "Integer64": "Eight", "Float64": "Eight", "Grouped": "Group",
    "OctetString": "Any", "UTF8String": "Any", "DiameterIdentity": "Any", "DiameterURI": "Any", "Address": "Any",
    "IPFilterRule": "Any", "QoSFilterRule": "Any",
}
NOT_ENTERED = {(0, 279), (0, 284)}
NUMBER_OF_KIND = {"Four": 4, "Eight": 8, "Any": 0, "Group": 1, "Closed": 2, "Unknown": 255}


class Differs(Exception):
    """What differs, in words."""


def expect(right, words):
    if not right:
        raise Differs(words)


def read(path):
    with open(path, encoding="utf-8") as file:
        return file.read()


def document_rows(text):
    """(vendor, code, name, type, from, doubt) of each row of the document's table."""
    rows = []
    for line in text.split("\n"):
        if not line.startswith("|") or line.startswith(("| vendor |", "|---")):
            continue
        cells = re.fullmatch(r"\| (\d+) \| (\d+) \| ([\w-]+) \| (\w+) \| ([^|]+) \| ([^|]*) \|", line)
        expect(cells, f"document: no row of six cells: {line}")
        vendor, code, name, kind, source, doubt = cells.groups()
        expect(kind in KIND_OF_TYPE, f"document: {name} has no type of RFC 6733: {kind}")
        rows.append((int(vendor), int(code), name, kind, source, doubt))
    return rows


def check_order(rows):
    expect(len(rows) == ROWS, f"document: {len(rows)} rows, not {ROWS}")
    for before, after in zip(rows, rows[1:]):
        expect(before[:2] < after[:2], f"document: {after[2]} does not stand above {before[2]}")
    expect(len({row[2] for row in rows}) == ROWS, "document: a name stands twice")


def check_counts(text, rows):
    """The numbers in the document's introduction are those of its table."""
    intro = text.split("## The rows")[0]
    types, froms = Counter(row[3] for row in rows), Counter(row[4].split(" -> ")[0] for row in rows)
    vendors, kinds = Counter(row[0] for row in rows), Counter(KIND_OF_TYPE[row[3]] for row in rows)
    phrases = [f"{kind} ({number})" for kind, number in types.items()] + [
        f"order of (vendor, code): {len(rows)} rows",
        f"- {froms['TS 29.272 table 7.3.1/1']} rows: TS 29.272 V17.6.0, table 7.3.1/1",
        f"- {froms['TS 29.272 table 7.3.1/2']} rows: TS 29.272, table 7.3.1/2",
        f"- {froms['RFC 6733 4.5']} rows: RFC 6733 section 4.5",
        f"Vendor 0 has {vendors[0]} rows, vendor 10415 has {vendors[10415]}.",
        f"{sum(row[5] != '' for row in rows)} rows have one",
        f"- 4 bytes, {kinds['Four']} rows:",
        f"- 8 bytes, {kinds['Eight']} rows:",
        f"- any number of bytes, {kinds['Any']} rows:",
        f"- a group, {kinds['Group']} rows:",
    ]
    for phrase in phrases:
        expect(phrase in intro, f"document: the introduction does not say: {phrase}")


def check_numbers(text):
    """The numbers that specs/Kinds.antt gives the kinds."""
    found = {kind: int(number) for kind, number in re.findall(r"^number_of (\w+) = (\d+)$", text, re.M)}
    for kind, number in NUMBER_OF_KIND.items():
        expect(found.get(kind) == number, f"the number of {kind}: {found.get(kind)}")


def rows_of(text, start, line, what):
    """(vendor, code, kind, comment) of each row between the line `start` and the line that closes the list, which must hold nothing else."""
    body = re.search(rf"^{start}\n(.*?)\n *(?:\[\]|\];)$", text, re.S | re.M)
    expect(body, f"{what}: no rows")
    rows = [re.fullmatch(line, row) for row in body.group(1).split("\n")]
    expect(all(rows), f"{what}: a line is no row with its comment")
    return [(int(row.group(1)), int(row.group(2)), row.group(3), row.group(4)) for row in rows]


def coded(text):
    return rows_of(text, rf"pub static ROWS: \[Row; {ROWS}\] = rows!\[", r"    \((\d+), (\d+), (\w+)\), // (.*)", "the code")


def specified(text):
    return rows_of(text, "rows =", r"    row (\d+) (\d+) (\w+) ∷  -- (.*)", "the specification")


def compare(document, crate):
    text = read(document)
    rows = document_rows(text)
    check_order(rows)
    code, spec = coded(read(f"{crate}/src/rows.rt")), specified(read(f"{crate}/specs/Rows.antt"))
    for what, found in (("the code", code), ("the specification", spec)):
        expect(len(found) == ROWS, f"{what}: {len(found)} rows, not {ROWS}")
    for (vendor, number, name, kind, _, _), in_code, in_spec in zip(rows, code, spec):
        means = "Closed" if (vendor, number) in NOT_ENTERED else KIND_OF_TYPE[kind]
        expect(in_code == (vendor, number, means, f"{name}, {kind}"), f"the code at {name}: {in_code}")
        expect(in_spec == (vendor, number, means, f"{name}, {kind}"), f"the specification at {name}: {in_spec}")
    check_numbers(read(f"{crate}/specs/Kinds.antt"))
    check_counts(text, rows)


DOC, CODE, SPEC, KINDS = "DICTIONARY.md", "dictionary/src/rows.rt", "dictionary/specs/Rows.antt", "dictionary/specs/Kinds.antt"
ULR, QOS = "    (10415, 1405, ", "    (10415, 1404, "

# Each damage: the file, the start of a line, the change of that line (one text for another; a second line: the two change places; none: it is
# lost), and the start of the difference that must be named.
DAMAGES = [
    (DOC, "| 10415 | 1719 |", ("| 1719 |", "| 1720 |"), "the code at Third-Context-Identifier"),
    (DOC, "| 10415 | 1405 |", ("Unsigned32", "Unsigned64"), "the code at ULR-Flags"),
    (DOC, "| 10415 | 1405 |", ("Unsigned32", "Enumerated"), "the code at ULR-Flags"),
    (DOC, "| 10415 | 1405 |", ("Unsigned32", "Unsigned33"), "document: ULR-Flags has no type"),
    (DOC, "| 10415 | 1405 |", ("ULR", "ULB"), "the code at ULB-Flags"),
    (DOC, "| 10415 | 1405 |", (" |  |", " |"), "document: no row of six cells"),
    (DOC, "| 10415 | 1405 |", None, "document: 324 rows"),
    (DOC, "| 10415 | 1405 |", "| 10415 | 1406 |", "document: ULR-Flags does not stand above ULA-Flags"),
    (DOC, "| 10415 | 1719 |", ("|  |", "| a doubt |"), "document: the introduction does not say: 48 rows"),
    (DOC, "| 10415 | 1719 |", ("7.3.1/1", "7.3.1/2"), "document: the introduction does not say: - 209 rows"),
    (DOC, "- 4 bytes,", ("(87)", "(88)"), "document: the introduction does not say: Unsigned32 (87)"),
    (CODE, ULR, ("1405", "1406"), "the code at ULR-Flags"),
    (CODE, ULR, ("10415", "0"), "the code at ULR-Flags"),
    (CODE, ULR, ("ULR", "ULA"), "the code at ULR-Flags"),
    (CODE, ULR, None, "the code: 324 rows"),
    (CODE, ULR, QOS, "the code at QoS-Subscribed"),
    (CODE, ULR, ("Four", "Eight"), "the code at ULR-Flags"),
    (CODE, ULR, ("Four", "Any"), "the code at ULR-Flags"),
    (CODE, ULR, ("Unsigned32", "Unsigned64"), "the code at ULR-Flags"),
    (SPEC, "    row 10415 1719 ", ("1719", "1720"), "the specification at Third-Context-Identifier"),
    (SPEC, "    row 0 284 ", ("Closed", "Group"), "the specification at Proxy-Info"),
    (SPEC, "    row 10415 1719 ", None, "the specification: 324 rows"),
    (SPEC, "    row 10415 1404 ", "    row 10415 1405 ", "the specification at QoS-Subscribed"),
    (KINDS, "number_of Eight = 8", ("8", "4"), "the number of Eight"),
]


def damaged(text, start, change):
    lines = text.split("\n")
    at = [i for i, line in enumerate(lines) if line.startswith(start)]
    expect(len(at) == 1, f"self-test: {len(at)} lines start with {start}")
    if change is None:
        del lines[at[0]]
    elif isinstance(change, str):
        other = next(i for i, line in enumerate(lines) if line.startswith(change))
        lines[at[0]], lines[other] = lines[other], lines[at[0]]
    else:
        lines[at[0]] = lines[at[0]].replace(change[0], change[1], 1)
    after = "\n".join(lines)
    expect(after != text, f"self-test: no damage at {start}")
    return after


def difference_after(document, crate, path, start, change):
    """What the comparison says of copies of which one is damaged."""
    with tempfile.TemporaryDirectory() as folder:
        shutil.copy(document, os.path.join(folder, DOC))
        for part in ("src", "specs"):
            shutil.copytree(os.path.join(crate, part), os.path.join(folder, "dictionary", part))
        target = os.path.join(folder, path)
        after = damaged(read(target), start, change)
        with open(target, "w", encoding="utf-8") as file:
            file.write(after)
        try:
            compare(os.path.join(folder, DOC), os.path.join(folder, "dictionary"))
        except Differs as difference:
            return str(difference)
        return "nothing"


def self_test(document, crate):
    compare(document, crate)
    for path, start, change, due in DAMAGES:
        found = difference_after(document, crate, path, start, change)
        expect(found.startswith(due), f"self-test: {path} damaged at {start.strip()} by {change}: found {found}, due {due}")


def main(words):
    tried = words[:1] == ["--self-test"]
    document, crate = words[1:] if tried else words
    try:
        (self_test if tried else compare)(document, crate.rstrip("/"))
    except Differs as difference:
        print(f"dictionary: {difference}")
        return 1
    print(f"dictionary: {len(DAMAGES)} damages found, each at its place" if tried else f"dictionary: {ROWS} rows agree in document, code and specification")
    return 0


if __name__ == "__main__":
    if len(sys.argv) not in (3, 4):
        sys.exit(__doc__)
    sys.exit(main(sys.argv[1:]))
