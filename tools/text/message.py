"""A Diameter message, request or answer: its header by key, then its AVPs (avp.py). Any message of 20 bytes or more is shown and made again exactly."""
from text import avp
from text.lines import BadText, at_line, lines_of, once
from text.names import with_meaning, without_meaning
from text.values import Bits, hex_of, number_of

HEADER = 20
MOST = 0xFFFFFF  # what the length field can say
FLAGS = Bits(1, {7: "R", 6: "P", 5: "E", 4: "T"})


def number(name, width):
    """How a number of the header is shown and made."""
    return width, lambda value: with_meaning(name, int.from_bytes(value, "big")), lambda text: number_of(without_meaning(text), width)


def identifier():
    return 4, lambda value: f"0x{value.hex().upper()}", lambda text: number_of(text, 4)


# The header's fields in order: bytes, how to show them, how to make them.
FIELDS = {
    "version": number("version", 1),
    "length": number("length", 3),
    "flags": (1, FLAGS.show, FLAGS.make),
    "command": number("command", 3),
    "application": number("application", 4),
    "hop-by-hop": identifier(),
    "end-to-end": identifier(),
}

def show(message):
    """The text of a message, and whether it has a header. The length is shown only where it is not the message's own."""
    if len(message) < HEADER:
        return [f"breaks: header, byte 0: a message has 20 bytes or more ({len(message)})", f"# the bytes: {hex_of(message)}"], False
    text, at = [], 0
    for key, (width, show_value, _) in FIELDS.items():
        value, at = message[at:at + width], at + width
        if key != "length":
            text.append(f"{key}: {show_value(value)}".rstrip())
        elif int.from_bytes(value, "big") != len(message):
            text += [f"# the message has {len(message)} bytes", f"{key}: {show_value(value)}"]
    return text + avp.show_list(message[HEADER:]), True


def make(text):
    """The bytes of a message. Of the header, version (1), flags (none) and length (the message's own) may be left out."""
    lines = lines_of(text)
    first = next((place for place, line in enumerate(lines) if line.key not in FIELDS), len(lines))
    by_key = once(lines[:first], FIELDS, "a header")
    avps = avp.make_list(lines[first:])
    if HEADER + len(avps) > MOST:
        raise BadText(lines[-1].number, f"the message is longer than {MOST} bytes")
    header = {"version": b"\x01", "flags": b"\x00", "length": (HEADER + len(avps)).to_bytes(3, "big")}
    for key, line in by_key.items():
        header[key] = at_line(line.number, FIELDS[key][2], line.value)
    for key in FIELDS:
        if key not in header:
            raise BadText(lines[first].number if first < len(lines) else 1, f"the header has no '{key}'; it stands before the AVPs")
    return b"".join(header[key] for key in FIELDS) + avps
