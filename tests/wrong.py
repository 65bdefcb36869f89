"""wrong.py [LABEL..]: tries every wrong definition of tests/wrong, or those named, and tells where the prover refuses it.

tests/wrong/LABEL.edit is document 01 written wrong: the form of a must-fail edit, its comment 01's sentence, what is wrong, and a line
`# refused at: FILE NAME` that names a place which refuses it, a promise or a closed example where one does. The edits are tried in copies of the
three crates below the code, outside the checkout, RT_JOBS at a time. An edit of a crate below `paper` has a line `crate: NAME` and is tried by proving that
crate and `paper`.

An edit is refused only if the prover read it and refused a proof; a definition that is itself in error is unfit, a text that is not found is an error.
"""
import concurrent.futures
import glob
import os
import re
import shutil
import sys

import refusals

CRATES = ["wire", "dictionary", "paper"]
EDITS = "tests/wrong"

# What the customer reads: promises, where the literal words of one are held against the definitions, and closed examples, which compute a definition on
# bytes. Every other file of proofs/ is laws by the definitions' shape, those of promises too.
PROMISE_FILES = re.compile(r"proofs/(?!\w*Laws|NewerTree|NewerReads|NewerRequest|NewerUse|ReadBackFind|ReadBackPlaces)(Promise|ReadBack|Newer|Closed|Refusal(?!Sizes)|First|\w*Said|\w*Cases|\w*Examples?)\w*\.antt$"
                           r"|proofs/SaidLaws\.antt$")

# The promises' own definitions: an edit that weakens a promise shows nothing.
PROMISES = re.compile(r"specs/(Promises|Refusals|Read|ReadBack|Newer|Run|Untouched|Clerks|Worked|Attach|Widened|ItsRecord|Laid|First\w*|\w*Said)\.antt$")


def edits_named(labels):
    """The edits with these labels, all where none is named."""
    edits = sorted(glob.glob(f"{EDITS}/*.edit"))
    if not labels:
        return edits
    named = [f"{EDITS}/{label}.edit" for label in labels]
    absent = [edit for edit in named if edit not in edits]
    if absent or not edits:
        sys.exit(f"wrong.py: no such edit: {' '.join(absent)}")
    return named


def label_of(edit):
    """An edit's name."""
    return os.path.basename(edit)[: -len(".edit")]


def edited(edit):
    """The crate of an edit and its edited texts by file, or why it cannot be tried: each old text stands once in its file, which holds no proof."""
    crate, parts = refusals.replacements(edit)
    crate = crate or "paper"
    if crate not in CRATES or not parts:
        return crate, {}, "it names no crate below the code, or replaces nothing"
    for file, _, _ in parts:
        if not re.match(r"(specs|src)/[\w/]+\.(antt|rt)$", file or "") or PROMISES.match(file):
            return crate, {}, f"{file} holds no definition of {crate} that a promise is about"
    return crate, *refusals.edited(edit, f"crates/{crate}")


def tried(edit, copies):
    """What became of an edit, the words for it, and whether its comment names a place that refuses it, a promise where there is one."""
    crate, texts, misfit = edited(edit)
    why = misfit or copies.begin(crate) or copies.begin("paper")
    if why:
        return "error", f"error: {why}", False
    last, status, log = copies.check(crate, texts, () if crate == "paper" else ("paper",))
    if status == 0:
        return "survived", "SURVIVED", False
    if status != 1 or not re.search(r"^logic=not-proved", log, re.M):
        return "error", f"error: {last} was not judged (status {status}): {log[-300:]}", False
    return judged(edit, last, log)


def judged(edit, crate, log):
    """The same of an edit that the prover refused in this crate, by the whole log."""
    own = [place for place in refusals.errors(log) if not place.file.startswith("proofs/")]
    if own:
        return "unfit", f"unfit: {own[0].file}:{own[0].line} is itself in error", False
    places = refusals.roots(log, crate)
    if not places:
        return "error", "error: refused at no place of its own", False
    named, folder = refusals.promised(edit), f"crates/{crate}"
    by_promise = [place for place in places if place.file and PROMISE_FILES.search(place.file)]
    kind, those = ("promise", by_promise) if by_promise else ("law", places)
    well = bool(named) and any(refusals.is_named(place, named, folder) for place in those)
    first, best = (refusals.shown(refusals.named_by(place, folder)) for place in (places[0], those[0]))
    told = "" if well else f"; its comment says {refusals.shown(named) if named else 'nothing'}"
    return kind, f"refused, first at {first}; {kind}: {refusals.shown(named) if well else best}{told}", well


def main():
    """Tries the edits, tells of each, and ends with a summary; status 1 if one is not refused or its comment is not right."""
    if not shutil.which("rt"):
        print("wrong.py: the Rattle kit's `rt` is not on the path")
        return 2
    edits, ends, right = edits_named(sys.argv[1:]), [], []
    copies = refusals.Copies(CRATES)
    try:
        for crate in CRATES:
            copies.begin(crate)
        with concurrent.futures.ThreadPoolExecutor(refusals.jobs()) as pool:
            for edit, (end, words, well) in zip(edits, pool.map(lambda edit: tried(edit, copies), edits)):
                ends.append(end)
                right.append(well)
                print(f"{label_of(edit)}: {words}", flush=True)
    finally:
        copies.end()
    refused = ends.count("promise") + ends.count("law")
    print(f"{len(edits)} wrong definitions, {refused} refused, of them {ends.count('promise')} at a promise or closed example, {ends.count('survived')} survived")
    return 0 if edits and all(right) else 1


if __name__ == "__main__":
    sys.exit(main())
