"""numbers_once.py [--self-test]: the numbers of document 01 stand once, by name.

The numbers of the application (its own, its commands', the codes of the AVPs that it uses) stand in paper's profile, the sizes in paper's layout: for code
in crates/paper/src/{profile,layout}.rt, for definitions in crates/paper/specs/{Profile,Layout}.antt. Elsewhere in crates/*/src and crates/*/specs a
number of these is a fault, unless ELSEWHERE says why it stands there. Comments are not looked at: they quote the paper. The sizes that
include/dymosaw.h gives to C are those of the layout. With --self-test damaged copies must each be found out.
"""
import fnmatch
import re

from damaged import verdict

PROFILE = {"rt": "crates/paper/src/profile.rt", "antt": "crates/paper/specs/Profile.antt"}
LAYOUT = {"rt": "crates/paper/src/layout.rt", "antt": "crates/paper/specs/Layout.antt"}
HEADER = "include/dymosaw.h"

APPLICATION = {16777251: "the application", 316: "ULR", 321: "PUR", 323: "NOR"}
SIZES = {256: "a record", 240: "most records", 68: "an entry", 136: "the cancel buffer", 4352: "the answer buffer", 4292: "the longest answer",
         4096: "the longest request", 20: "the header of a message"}
CODES_FROM = 257  # codes from here on are looked for; lesser ones, as User-Name's 1, are numbers like any other

# Where a number may stand beside its home, and why.
ELSEWHERE = [
    ("crates/dictionary/s*/*ows.*", None, "the rows of the dictionary are keys; tests/dictionary.py holds them against docs/DICTIONARY.md"),
    ("crates/paper/specs/Refusals.antt", None, "a promise says its numbers itself and does not take them from what it checks"),
    ("crates/paper/specs/ItsRecord.antt", {256}, "a promise, as above"),
    ("crates/paper/specs/Untouched.antt", {136}, "a promise, as above"),
    ("crates/paper/specs/ReadBack.antt", None, "a promise, as above"),
    ("crates/paper/specs/Promises.antt", None, "a promise, as above"),
    ("crates/paper/specs/Clerks.antt", {20, 256}, "a promise, as above"),
    ("crates/paper/specs/TableSaid.antt", {20, 240, 256}, "a promise, as above"),
    ("crates/paper/specs/DeskSaid.antt", {136, 4352}, "a promise, as above"),
    ("crates/paper/specs/Firsts.antt", {20, 1401, 1402, 10415}, "a promise, as above"),
    ("crates/paper/specs/Read.antt", {68, 136, 268, 297, 298}, "what a promise reads, as above"),
    ("crates/promises/specs/Promises.antt", {20, 316, 321, 323, 4292}, "a promise, as above"),
    ("crates/paper/specs/Attach.antt", None, "a closed example"),
    ("crates/paper/specs/Worked.antt", None, "01's worked examples"),
    ("crates/wire/s*/?umber.*", {256}, "the base in which bytes are digits"),
    ("crates/correction/src/judge.rt", {20}, "the place of the change number in a correction's frame"),
    ("crates/paper/specs/Correction.antt", {20}, "the same"),
]

# Names of the layout that C has under its own.
IN_C = {"LEAST_REQUEST": "LEAST_REQUEST", "MOST_REQUEST": "MOST_REQUEST", "LEAST_ANSWER": "LEAST_ANSWER", "LEAST_CANCEL": "CANCEL_SIZE", "ENTRY": "ENTRY_SIZE",
        "MOST_NAME": "MOST_NAME"}


def numbers(path, text):
    """(line, number) of each number outside comments. The base of a power and the rank of an operator are no numbers of 01."""
    found = []
    for count, line in enumerate(text.split("\n"), 1):
        line = re.sub(r"//.*" if path.endswith(".rt") else r"(^|\s)--(\s.*)?$|^infix.*", "", line)
        for word in re.finditer(r"(?<![\w.])(0x[0-9A-Fa-f_]+|\d[\d_]*)(?:[ui](?:8|16|32|64|size))?(?!\w)(?! ?\^)", line):
            found.append((count, int(word.group(1).replace("_", ""), 0)))
    return found


def reason(path, number):
    """Which row of ELSEWHERE lets the number stand there, or None."""
    return next((row for row in ELSEWHERE if fnmatch.fnmatch(path, row[0]) and (row[1] is None or number in row[1])), None)


def homes(texts):
    """The home of each number that is looked for, by the kind of file."""
    found = {}
    for kind in ("rt", "antt"):
        found[kind] = {number: PROFILE[kind] for _, number in numbers(PROFILE[kind], texts[PROFILE[kind]]) if number >= CODES_FROM}
        found[kind].update({number: PROFILE[kind] for number in APPLICATION})
        found[kind].update({number: LAYOUT[kind] for number in SIZES})
    return found


def misplaced(texts):
    """Numbers outside their home, and numbers that their home does not have once."""
    wrong, home, needed = [], homes(texts), []
    for path, text in texts.items():
        if path == HEADER:
            continue
        of = home[path.rsplit(".", 1)[1]]
        for line, number in numbers(path, text):
            if number in of and of[number] != path:
                needed.append(reason(path, number))
                if not needed[-1]:
                    wrong.append(f"{path}:{line}: {number} stands in {of[number]} by name")
    wrong += [f"no number needs this row of ELSEWHERE: {row[0]}" for row in ELSEWHERE if row not in needed]
    for kind, of in home.items():
        for number, path in of.items():
            times = sum(n == number for _, n in numbers(path, texts[path]))
            if number not in (20, 4292) and times != 1:
                wrong.append(f"{path}: {number} stands {times} times")
    return wrong


def header_differs(texts):
    """Sizes of the C header that are not those of the layout."""
    given = dict(re.findall(r"#define DYMOSAW_(\w+) (\d+)u", texts[HEADER]))
    layout = dict(re.findall(r"pub const (\w+): \w+ = (\d+);", texts[LAYOUT["rt"]]))
    return [f"{HEADER}: DYMOSAW_{c} is {given.get(c)}, the layout's {name} {layout.get(name)}" for c, name in IN_C.items() if not given.get(c) or given[c] != layout.get(name)]


def complaints(texts):
    return misplaced(texts) + header_differs(texts)


# Each damage: a file, one text for another, and the complaint that is due.
DAMAGES = [
    ("crates/procedures/src/carry.rt", "        ULR => {", "        316 => {", "carry.rt:", "316"),
    ("crates/procedures/src/carry.rt", "        ULR => {", "        0x13C_u32 => {", "carry.rt:", "316"),
    ("crates/procedures/src/verdict.rt", "        NOR => refuse_if", "        323u32 => refuse_if", "verdict.rt:", "323"),
    ("crates/request/src/tests.rt", "header.application == APPLICATION", "header.application == 16_777_251", "tests.rt:", "16777251"),
    ("crates/procedures/src/cancel.rt", "put_zeros(cancel, 0, CANCEL_SIZE)", "put_zeros(cancel, 0, 136)", "cancel.rt:", "136"),
    ("crates/dymosaw/src/serve.rt", "entry_at(cancel, ENTRY_SIZE)", "entry_at(cancel, 68)", "serve.rt:", "68"),
    ("crates/table/src/valid.rt", "layout::TABLE_HEADER + layout::RECORD_SIZE * n", "layout::TABLE_HEADER + 256 * n", "valid.rt:", "256"),
    ("crates/table/src/valid.rt", "layout::MOST_RECORDS < n", "240 < n", "valid.rt:", "240"),
    ("crates/avp/src/find.rt", ", ORIGIN_HOST)", ", Key { vendor: 0, code: 264 })", "find.rt:", "264"),
    ("crates/answer/src/parts.rt", "PUA_FLAGS, flags)", "1442, flags)", "parts.rt:", "1442"),
    ("crates/paper/specs/Table.antt", "leb (count_of t) most_records", "leb (count_of t) 240", "Table.antt:", "240"),
    ("crates/paper/specs/Request.antt", "(application_of m) application", "(application_of m) 16777251", "Request.antt:", "16777251"),
    (PROFILE["rt"], "pub const PUR: u32 = 321;", "pub const PUR: u32 = 316;", "profile.rt: 316 stands 2 times", ""),
    (PROFILE["antt"], "nor = 323", "nor = 324", "Profile.antt: 323 stands 0 times", ""),
    (LAYOUT["rt"], "ENTRY_SIZE: usize = 68", "ENTRY_SIZE: usize = 69", "DYMOSAW_ENTRY is 68, the layout's ENTRY_SIZE 69", ""),
    (HEADER, "DYMOSAW_LEAST_ANSWER 4352u", "DYMOSAW_LEAST_ANSWER 4292u", "DYMOSAW_LEAST_ANSWER is 4292", ""),
]


def count(texts):
    return f"{len(homes(texts)['rt'])} numbers, each once in {len(texts)} files"


verdict("numbers_once", ["crates/*/src/**/*.rt", "crates/*/specs/**/*.antt", HEADER], complaints, DAMAGES, count)
