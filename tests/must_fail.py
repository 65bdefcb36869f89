"""must_fail.py [--tell | --write] [--first] LOG [NAME..]: holds the comment of every must-fail edit against the places at which the prover refuses it.

Each crates/CRATE/must-fail/LABEL.edit has a line `# refused at: PLACE` (tests/refusals.py has its two forms): a place that states the fact which the edit
breaks, and which the prover refuses by itself, and not behind another. LOG is what `rt ci` printed. It names the first place alone, and keeps no log of an
edit; where a comment names another, the edited crate is checked once more, in a copy outside the checkout, and its whole log is read.

--tell prints for each edit the line `# refused at: ..` of its first place, and whether its comment is right; --write puts that line into each edit whose comment
is not. With --first nothing is checked once more, and a comment is right only where it names the first place. NAME is a crate or CRATE/LABEL, and stands for
all where it is left out.
"""
import concurrent.futures
import glob
import os
import re
import sys

import refusals

TOLD = re.compile(r"^(?:rt: )?must-fail (\w+)/(\S+?)(?:\.edit)?: (refused, as it must be|BAD EDIT|NOT REFUSED|NOT TRIED)(.*)$", re.M)
# What `rt ci` counts as refused and what shows nothing of a contract.
SHOWS_NOTHING = ("(only because a proof file names what the edit took away", "(only by a limit of the prover")


def edits_named(names):
    """The edits of these crates, or of these names; all where none is given."""
    edits = sorted(glob.glob("crates/*/must-fail/*.edit"))
    return [edit for edit in edits if not names or {edit.split("/")[1], name_of(edit)} & set(names)]


def name_of(edit):
    """CRATE/LABEL of an edit."""
    return f"{edit.split('/')[1]}/{os.path.basename(edit)[: -len('.edit')]}"


def told_of(log):
    """What `rt ci` said of each edit: the verdict and the rest of its line."""
    return {f"{crate}/{label}": (verdict, rest.removeprefix(": ")) for crate, label, verdict, rest in TOLD.findall(log)}


def unfit(edit, told):
    """Why an edit shows nothing, whatever its comment says, or None."""
    folder = f"crates/{edit.split('/')[1]}"
    if any(file.startswith("proofs/") for file, _, _ in refusals.replacements(edit)[1]):
        return "it edits a proof, which shows nothing"
    why = refusals.edited(edit, folder)[1]
    if why:
        return why
    if name_of(edit) not in told:
        return "rt ci said nothing of it"
    verdict, rest = told[name_of(edit)]
    if verdict != "refused, as it must be":
        return f"{verdict}{rest}"
    if any(word in rest for word in SHOWS_NOTHING):
        return f"rt ci says of it{rest[:200]}"
    place = refusals.place_of(rest)
    if place and ": error: " in rest and not place.file.startswith("proofs/"):
        return f"what it edits is itself in error: {rest[:200]}"
    return None


def first_of(edit, told):
    """The first place of an edit, as `rt ci` printed it, or None."""
    return refusals.place_of(told[name_of(edit)][1])


def elsewhere(edit, copies):
    """What is wrong with an edit whose comment names another place than the first, by the whole log of its check, or None."""
    crate, named = edit.split("/")[1], refusals.promised(edit)
    why = copies.begin(crate)
    if why:
        return why
    _, status, log = copies.check(crate, refusals.edited(edit, f"crates/{crate}")[0])
    if status != 1 or not re.search(r"^logic=not-proved", log, re.M):
        return f"the check of a copy ended with status {status}: {log[-300:]}"
    own = [place for place in refusals.errors(log) if not place.file.startswith("proofs/")]
    if own:
        return f"what it edits is itself in error: {own[0].file}:{own[0].line}"
    places = refusals.roots(log, crate)
    if any(refusals.is_named(place, named, f"crates/{crate}") for place in places):
        return None
    found = ", ".join(dict.fromkeys(refusals.shown(refusals.named_by(place, f"crates/{crate}")) for place in places))
    return f"refused at {found or 'no place'}; its comment says {refusals.shown(named)}"


def complaints(edits, told, only_first=False):
    """What is wrong with each edit, by its name; nothing of those that are right."""
    wrong, later = {}, {}
    for edit in edits:
        named, why = refusals.promised(edit), unfit(edit, told)
        if why or not named:
            wrong[edit] = why or "no comment '# refused at: PLACE'"
            continue
        first, crate = first_of(edit, told), edit.split("/")[1]
        if not (first and refusals.is_named(first, named, f"crates/{crate}")):
            later.setdefault(crate, []).append(edit)
    if only_first:
        wrong.update({edit: f"its comment says {refusals.shown(refusals.promised(edit))}" for those in later.values() for edit in those})
        return wrong
    for crate, those in later.items():
        copies = refusals.Copies(refusals.below(crate))
        try:
            why = copies.begin(crate)
            with concurrent.futures.ThreadPoolExecutor(refusals.jobs()) as pool:
                found = dict(zip(those, [why] * len(those) if why else pool.map(lambda edit: elsewhere(edit, copies), those)))
        finally:
            copies.end()
        wrong.update({edit: why for edit, why in found.items() if why})
    return wrong


def tell(edits, told, wrong):
    """Prints the first place of each edit, and what is wrong with its comment."""
    for edit in edits:
        first = first_of(edit, told) if name_of(edit) in told else None
        place = refusals.shown(refusals.named_by(first, f"crates/{edit.split('/')[1]}")) if first else "?"
        print(f"{name_of(edit)}: # refused at: {place}{f' -- {wrong[edit]}' if edit in wrong else ''}")


def rewrite(edit, told):
    """Puts the first place of an edit into its comment, and returns whether it could."""
    first = first_of(edit, told) if name_of(edit) in told and told[name_of(edit)][0].startswith("refused") else None
    if not first:
        return False
    line = f"# refused at: {refusals.shown(refusals.named_by(first, f'crates/{edit.split(chr(47))[1]}'))}"
    text = refusals.read(edit)
    if re.search(r"^# refused at:.*$", text, re.M):
        refusals.write(edit, re.sub(r"^# refused at:.*$", lambda _: line, text, count=1, flags=re.M))
    else:
        refusals.write(edit, re.sub(r"^(?=file: |crate: )", lambda _: line + "\n", text, count=1, flags=re.M))
    return True


def main(words):
    mode, only_first = next((word for word in words if word in ("--tell", "--write")), None), "--first" in words
    words = [word for word in words if not word.startswith("--")]
    if not words:
        sys.exit(__doc__)
    edits, told = edits_named(words[1:]), told_of(refusals.read(words[0]))
    wrong = complaints(edits, told, only_first)
    if mode == "--write":
        left = [edit for edit in wrong if not rewrite(edit, told)]
        print("\n".join([f"{name_of(edit)}: {wrong[edit]}" for edit in left] + [f"{len(wrong) - len(left)} comments written, {len(left)} left as they are"]))
        return 1 if left else 0
    if mode == "--tell":
        tell(edits, told, wrong)
    else:
        print("\n".join(f"{name_of(edit)}: {why}" for edit, why in wrong.items()))
    print(f"{len(edits)} must-fail edits, {len(wrong)} not refused where they say")
    return 1 if wrong or not edits else 0


if __name__ == "__main__":
    sys.exit(main(sys.argv[1:]))
