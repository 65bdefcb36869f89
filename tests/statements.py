"""statements.py [--self-test]: looks up every name, edit and test that docs/STATEMENTS.md cites.

In its tables a citation is in backticks: `CRATE:NAME` a definition, law or function of a crate, `CRATE/LABEL` a must-fail edit, `test:KEY` a test of
tests/gate.sh, `unit:NAME` a unit test of the second program, `case:NAME` a named case of tests/cases. A row that cites nothing says "open" or "told".
"""
import functools
import glob
import os
import re
import sys


@functools.lru_cache(maxsize=None)
def read(pattern):
    texts = []
    for path in sorted(glob.glob(pattern, recursive=True)):
        with open(path, encoding="utf-8") as text:
            texts.append(text.read())
    return "\n".join(texts)


def signature(name):
    """The pattern of a line that declares this name in specs/ or proofs/."""
    return rf"^\s*(?:pub |abbrev |unfoldable |pattern |record |data |infix\w* \d+ )*{re.escape(name)}(?: |$)"


@functools.lru_cache(maxsize=None)
def declared(crate, name):
    """The crate has a definition, a law, a type or a function of this name."""
    item = rf"\b(?:fn|struct|enum|const) {re.escape(name)}\b"
    return any(re.search(signature(name), read(f"crates/{crate}/{part}/**/*.antt"), re.M) for part in ("specs", "proofs")) or re.search(
        item, read(f"crates/{crate}/src/**/*.rt")
    )


def there(citation):
    if ":" in citation:
        kind, name = citation.split(":", 1)
        if kind == "test":
            return re.search(rf"^run_test {re.escape(name)} ", read("tests/gate.sh"), re.M)
        if kind == "unit":
            return re.search(rf"fn {re.escape(name)}\(", read("tests/second/*.rs"))
        if kind == "case":
            return re.search(rf"^case {re.escape(name)}\s*$", read("tests/cases/*.txt"), re.M) or os.path.exists(f"tests/cases/desk/{name}.in")
        return declared(kind, name)
    crate, label = citation.split("/", 1)
    return os.path.exists(f"crates/{crate}/must-fail/{label}.edit")


def complaints(text):
    wrong, rows = [], 0
    for line in text.split("\n"):
        if not line.startswith("|") or set(line) <= set("|- "):
            continue
        rows += 1
        cited = re.findall(r"`([\w+·-]+[:/][^`\s]+)`", line)
        wrong += [f"not there: {c}" for c in cited if not there(c)]
        if rows > 1 and not cited and not re.search(r"\b(open|told)\b|---|^\| 01 says", line):
            wrong.append(f"a row that cites nothing: {line[:100]}")
    return wrong + ([] if rows > 40 else [f"only {rows} rows"])


def self_test(text):
    """A name, an edit, a test and a case that are not there must each be found out."""
    known = set(complaints(text))
    for damage in ("wire:no_such_law", "wire:put_be_", "wire/no_such_edit", "test:no-such-test", "case:no-such-case", "unit:no_such_test"):
        if not set(complaints(text + f"\n| a sentence | `{damage}` | | |\n")) - known:
            print(f"passed over: {damage}")
            return 1
    if not set(complaints(text + "\n| a sentence | nothing | | |\n")) - known:
        print("passed over: a row that cites nothing")
        return 1
    return 0


def main():
    with open("docs/STATEMENTS.md", encoding="utf-8") as page:
        text = page.read()
    if sys.argv[1:] == ["--self-test"]:
        return self_test(text)
    wrong = complaints(text)
    print("\n".join(wrong) or "every citation is there")
    return 1 if wrong else 0


if __name__ == "__main__":
    sys.exit(main())
