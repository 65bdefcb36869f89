"""What the tests share that hold files to a rule: the files' texts, the damaged copies that each have to be found out, and the verdict."""
import glob
import os
import sys


def texts_of(patterns):
    """The text of every file that a pattern names, by its path."""
    texts = {}
    for path in sorted(path for pattern in patterns for path in glob.glob(pattern, recursive=True)):
        with open(path, encoding="utf-8") as file:
            texts[path] = file.read()
    return texts


def passed_over(texts, complaints, damages):
    """The damages of which no complaint has the words that are due: (path, one text, another for it, the words)."""
    missed = []
    for path, old, new, *due in damages:
        copies = dict(texts, **{path: texts[path].replace(old, new, 1)})
        found = complaints(copies)
        if copies == texts or not any(all(word in text for word in due) for text in found):
            missed.append(f"passed over: {path}: {new!r} for {old!r}; found {found}")
    return missed


def verdict(name, patterns, complaints, damages, count):
    """Prints what is wrong, or what `count` says of the texts; with --self-test what was passed over. Exits 1 where there is anything."""
    os.chdir(os.path.join(os.path.dirname(os.path.abspath(__file__)), ".."))
    texts = texts_of(patterns)
    wrong, right = complaints(texts), count(texts)
    if not wrong and sys.argv[1:] == ["--self-test"]:
        wrong, right = passed_over(texts, complaints, damages), f"{len(damages)} damages found"
    print("\n".join(wrong) or f"{name}: {right}")
    sys.exit(1 if wrong else 0)
