"""The AVPs by name: the rows of docs/DICTIONARY.md."""
import functools
import os
import re

PAGE = os.path.join(os.path.dirname(os.path.realpath(__file__)), "..", "..", "docs", "DICTIONARY.md")
NUMBERS = {"Unsigned32": 4, "Integer32": 4, "Enumerated": 4, "Time": 4, "Unsigned64": 8}


class Row:
    def __init__(self, vendor, code, name, kind):
        self.vendor, self.code, self.name, self.kind = int(vendor), int(code), name, kind


@functools.lru_cache(maxsize=None)
def rows():
    with open(PAGE, encoding="utf-8") as page:
        return [Row(*cells) for cells in re.findall(r"^\| (\d+) \| (\d+) \| ([\w-]+) \| (\w+) \|", page.read(), re.M)]


@functools.lru_cache(maxsize=None)
def by_key():
    return {(row.vendor, row.code): row for row in rows()}


@functools.lru_cache(maxsize=None)
def by_name():
    return {row.name: row for row in rows()}
