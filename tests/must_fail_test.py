"""must_fail_test.py: tests/must_fail.py passes an edit that is refused where its comment says, and refuses every other. Logs are as `rt ci` and `rt check` print them."""
import os
import sys
import tempfile

import must_fail
import refusals

SOURCE = "pub fn doubled(x: u32) -> u64\n    ensures { result ≡ twice x }\n{\n    x as u64 + x as u64\n}\n"
LAWS = "pub twice_of_three : twice 3 ≡ 6\ntwice_of_three = refl\n\npub twice_of_four : twice 4 ≡ 8\ntwice_of_four = refl\n"
SPECS = "abbrev pub twice : ℕ → ℕ\ntwice x = x + x\n"
CODE = "file: src/deep.rt\nold:     x as u64 + x as u64\nnew:     x as u64 + 1\n"
WORD = "file: specs/Echo.antt\nold: twice x = x + x\nnew: twice x = x + x + x\n"

THREE = "./proofs/TwiceLaws.antt:2:18: error: `twice_of_three`: expected type `twice 3 ≡ 6`, but this has type `twice 3 ≡ twice 3`"
FOUR = "./proofs/TwiceLaws.antt:5:17: error: `twice_of_four`: expected type `twice 4 ≡ 8`, but this has type `twice 4 ≡ twice 4`"
BEHIND = "./proofs/TwiceLaws.antt:5:17: error: `twice_of_four`: `twice_of_three` was not admitted"
OWN = "./specs/Echo.antt:2:11: error: `twice`: expected type `ℕ`, but this has type `Bool`"
NOTE = "note: src/deep.rt:1:1: it is not proved that what the function ensures holds when it returns (`returns`); the facts known there allow values at which this goal "
OPEN = "fn low::deep::doubled: no proof: expected answers in ./proofs/deep/doubled/Answers.antt; `search` did not prove `returns`"
CALLS = "fn low::deep::above: no proof: it calls `low::deep::doubled`, which is not proved"
REFUSED = "refused, as it must be: "

# What is tried: the edit, its comment's place, what `rt ci` said, the whole log, and whether the edit passes.
TRIED = [
    (WORD, "proofs/TwiceLaws.antt twice_of_three", REFUSED + THREE, "", True),
    (CODE, "fn deep::doubled returns", REFUSED + NOTE, "", True),
    (WORD, "proofs/TwiceLaws.antt twice_of_four", REFUSED + THREE, f"{THREE}\n{FOUR}\n", True),
    (WORD, "fn deep::doubled returns", REFUSED + THREE, f"{THREE}\n{NOTE}\n{OPEN}\n{CALLS}\n", True),
    (WORD, "proofs/TwiceLaws.antt twice_of_four", REFUSED + THREE, f"{THREE}\n", False),
    (WORD, "proofs/TwiceLaws.antt twice_of_four", REFUSED + THREE, f"{THREE}\n{BEHIND}\n", False),
    (WORD, "proofs/TwiceLaws.antt twice_of_four", REFUSED + THREE, f"{OWN}\n{FOUR}\n", False),
    (WORD, "proofs/OtherLaws.antt twice_of_three", REFUSED + THREE, f"{THREE}\n", False),
    (WORD, "fn deep::above returns", REFUSED + THREE, f"{THREE}\n{OPEN}\n{CALLS}\n", False),
    (CODE, "fn deep::doubled overflow_add-result", REFUSED + NOTE, f"{NOTE}\n{OPEN}\n", False),
    (CODE, "fn doubled returns", REFUSED + NOTE, f"{NOTE}\n{OPEN}\n", False),
    (CODE, "fn deep::doubled returns", REFUSED[:-2], "", False),
    (CODE, "fn deep::doubled returns", "NOT REFUSED: the crate is still proved with this edit", f"{OPEN}\n", False),
    (CODE, "fn deep::doubled returns", "BAD EDIT: an 'old:' text is in src/deep.rt 0 times, and not once", f"{OPEN}\n", False),
    (CODE, "fn deep::doubled returns", "NOT TRIED: its check was killed", f"{OPEN}\n", False),
    (CODE, "fn deep::doubled returns", REFUSED[:-2] + " (only by a limit of the prover, which gave no verdict): " + NOTE, f"{OPEN}\n", False),
    (WORD, "proofs/TwiceLaws.antt twice_of_three", REFUSED[:-2] + " (only because a proof file names what the edit took away): " + THREE, f"{THREE}\n", False),
    (WORD, "specs/Echo.antt twice", REFUSED + OWN, f"{OWN}\n", False),
    (WORD, "", REFUSED + THREE, f"{THREE}\n", False),
    (CODE, "fn deep::doubled returns", None, f"{OPEN}\n", False),
    (CODE.replace("as u64 + x", "as u64 - x"), "fn deep::doubled returns", REFUSED + NOTE, f"{OPEN}\n", False),
    ("file: proofs/TwiceLaws.antt\nold: twice_of_three = refl\nnew: twice_of_three = twice\n", "proofs/TwiceLaws.antt twice_of_three", REFUSED + THREE, "", False),
]


class Canned:
    """Stands for the copies in which edits are checked, with a log that is given."""

    log = ""

    def __init__(self, crates):
        self.crates = crates

    def begin(self, crate):
        return None if crate in self.crates else "no such crate"

    def check(self, crate, texts):
        return crate, 1, f"{self.log}logic=not-proved\n"

    def end(self):
        pass


def passes(edit, place, told, log):
    """Whether must_fail.py passes this edit of a small crate, alone, and the label of its line in `rt ci`'s log is read with its ending or without."""
    refusals.write("crates/low/must-fail/one.edit", f"# Wrong.\n{f'# refused at: {place}' if place else ''}\n{edit}")
    Canned.log = log
    for name in ("one", "one.edit"):
        yield not must_fail.complaints(["crates/low/must-fail/one.edit"], must_fail.told_of(f"rt: low proved\nrt: must-fail low/{name}: {told}\n" if told else ""))


def main():
    refusals.Copies = Canned
    wrong = []
    with tempfile.TemporaryDirectory() as folder:
        os.chdir(folder)
        for path, text in (("crates.txt", "low:\n"), ("crates/low/src/deep.rt", SOURCE), ("crates/low/specs/Echo.antt", SPECS), ("crates/low/proofs/TwiceLaws.antt", LAWS)):
            refusals.write(f"{folder}/{path}", text)
        for edit, place, told, log, due in TRIED:
            wrong += [f"{'refused' if due else 'passed'}: {place}: {told}"] * (list(passes(edit, place, told, log)) != [due, due])
        os.chdir("/")
    print("\n".join(wrong) or f"{len(TRIED)} edits, {sum(due for *_, due in TRIED)} of them right")
    return 1 if wrong else 0


if __name__ == "__main__":
    sys.exit(main())
