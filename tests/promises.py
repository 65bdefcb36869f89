"""promises.py [--self-test]: holds docs/PROMISES.md to the files that it quotes.

The line before a fenced block begins with the quoted file's path in backticks; the block has to stand in that file, in whole lines, white space
apart. In the text `CRATE/LABEL` is a must-fail edit, `CRATE:NAME` a definition or a law, `test:KEY` a test of tests/gate.sh, and a name of several words
(`serve_newer_same`, `stripped-same`) a theorem of the crate `promises`, a definition of some crate's specs/ or a public function of `dymosaw`.
"""
import re
import sys

from statements import declared, read, signature, there

BLOCK = re.compile(r"^([^\n]*)\n\n?```[^\n]*\n(.*?)\n```$", re.M | re.S)


def quoted(before, block):
    """What is wrong with a quotation, or None."""
    path = re.match(r"`([\w/.-]+)`", before)
    if not path:
        return f"a block without its file: {block[:60]}"
    lines = r"^[ \t]*" + r"\s+".join(map(re.escape, block.split())) + r"[ \t]*$"
    try:
        with open(path.group(1), encoding="utf-8") as text:
            stands = re.search(lines, text.read(), re.M)
    except FileNotFoundError:
        return f"no such file: {path.group(1)}"
    return None if stands else f"not in {path.group(1)}: {block[:80]}"


def defined(name):
    """A definition or a field of some crate's specs/, or a public function of `dymosaw`; a law of another crate is none."""
    return re.search(signature(name), read("crates/*/specs/**/*.antt"), re.M) or re.search(rf'\bpub (?:extern "C" )?fn {re.escape(name)}\b', read("crates/dymosaw/src/**/*.rt"))


def cited(name):
    """The name in backticks is there, or is none that this test knows."""
    if re.fullmatch(r"test:[\w-]+|[a-z_]+:[\w'-]+|[a-z_]+/\w+", name):
        return there(name)
    if re.fullmatch(r"[a-z0-9']+(?:[-_][a-z0-9']+)+", name):
        return declared("promises", name) or defined(name)
    return True


def complaints(page):
    blocks = BLOCK.findall(page)
    prose = BLOCK.sub("", page)
    wrong = [text for text in (quoted(before, block) for before, block in blocks) if text]
    wrong += [f"not there: {name}" for name in re.findall(r"`([^`\n]+)`", prose) if not cited(name)]
    if "```" in prose or len(blocks) < 15:
        wrong.append(f"only {len(blocks)} blocks were read")
    return wrong


def self_test(page):
    """A letter changed and a letter lost in each block, a block without its file, and a file, an edit, a test and a theorem that are not there; a law of `paper`
    is no theorem of `promises`."""
    blocks = BLOCK.findall(page)
    damaged = [page.replace(block, other, 1) for _, block in blocks for other in (block[:-1] + "~", block[:-1])]
    damaged += [page.replace(blocks[-1][0], "no file:"), page.replace(blocks[-1][0], "`crates/none.antt`:")]
    damaged += [page + f"\n`{name}`\n" for name in ("paper/no_such_edit", "avp/no_such_edit", "paper:no_such_law", "test:no-such-test", "no_such_theorem", "no-such-theorem", "serve_newer_other", "record_judged")]
    known = complaints(page)
    passed_over = [text for text in damaged if text == page or not set(complaints(text)).difference(known)]
    print(f"{len(damaged)} damaged copies, {len(passed_over)} passed over")
    return 1 if passed_over else 0


def main():
    with open("docs/PROMISES.md", encoding="utf-8") as text:
        page = text.read()
    if sys.argv[1:] == ["--self-test"]:
        return self_test(page)
    wrong = complaints(page)
    print("\n".join(wrong) or "every quotation and every name is there")
    return 1 if wrong else 0


if __name__ == "__main__":
    sys.exit(main())
