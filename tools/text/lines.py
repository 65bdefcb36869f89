"""The text form: one `key: value` a line, a record begun by a line `record`, groups indented. An empty line and a line that starts with # say nothing."""
from collections import namedtuple

# One line that says something: its number from 1, the spaces before it, what stands before and behind the first colon (value None without one).
Line = namedtuple("Line", "number indent key value")


class BadText(Exception):
    """A text that cannot be made into bytes: where, and why."""

    def __init__(self, number, reason):
        super().__init__(f"line {number}: {reason}" if number else reason)


class Reason(Exception):
    """Why a value cannot be made into bytes; whoever knows the line makes a BadText of it."""


def lines_of(text):
    """The lines that say something."""
    found = []
    for number, raw in enumerate(text.split("\n"), 1):
        words = raw.strip()
        if not words or words.startswith("#"):
            continue
        if "\t" in raw[:len(raw) - len(raw.lstrip())]:
            raise BadText(number, "a tab stands before the key; use spaces")
        key, colon, value = words.partition(":")
        if key == "breaks":
            raise BadText(number, "this text shows bytes that break a rule; mend what the line names, then take the line away")
        found.append(Line(number, len(raw) - len(raw.lstrip(" ")), key.strip(), value.strip() if colon else None))
    return found


def value_of(line):
    if line.value is None:
        raise BadText(line.number, f"no colon behind '{line.key}'")
    return line.value


def at_line(number, make, *given):
    """What `make` makes of what is given; its reason, if it has one, with the line's number."""
    try:
        return make(*given)
    except Reason as reason:
        raise BadText(number, str(reason)) from None


def once(lines, known, what):
    """The lines by key. A key that is not known, or stands twice, is refused."""
    by_key = {}
    for line in lines:
        value_of(line)
        if line.key not in known:
            raise BadText(line.number, f"{what} has no '{line.key}'; it has {', '.join(known)}")
        if line.key in by_key:
            raise BadText(line.number, f"'{line.key}' stands in line {by_key[line.key].number} too")
        by_key[line.key] = line
    return by_key
