"""AVPs as text: `NAME: VALUE`, a group's own AVPs indented below it. An AVP without a name in the dictionary is `AVP CODE` or `AVP CODE vendor VENDOR`.

In square brackets behind the name stands what differs from the usual: the flags, where they are not M (and V for a vendor), and padding that is not
zero. Bytes that are no AVP (a length that is wrong, a stump) stand as `rest: xHH..`.
"""
import re

from text import dictionary
from text.lines import BadText, Reason, at_line, value_of
from text.names import FLAG_WORDS, MEANINGS, with_meaning, without_meaning
from text.values import Bits, from_hex, hex_of, make_plmn, number_of, show_plmn

V, M = 0x80, 0x40
FLAGS = Bits(1, {7: "V", 6: "M", 5: "P"})
STEP = 2  # spaces that a group's AVPs are indented by
DEEPEST = 8  # groups inside each other that are shown; what a ninth holds is shown as bytes
SIGNED = 1 << 31


# ---- bytes to text

def fault(stretch, at):
    """Why no AVP starts at `at`, or None."""
    head = stretch[at:at + 8]
    if len(head) < 8:
        return f"{len(head)} bytes are too few for an AVP"
    least, length, left = (12 if head[4] & V else 8), int.from_bytes(head[5:8], "big"), len(stretch) - at
    if length < least:
        return f"AVP {int.from_bytes(head[:4], 'big')}: length {length} is under {least}"
    if length + -length % 4 > left:
        return f"AVP {int.from_bytes(head[:4], 'big')}: length {length} with padding is over the {left} bytes that are left"
    return None


def show_list(stretch, indent=0, groups=0):
    """The lines of a stretch of AVPs."""
    text, at, space = [], 0, " " * indent
    while at < len(stretch):
        wrong = fault(stretch, at)
        if wrong:
            return text + [f"{space}# {wrong}", f"{space}rest: {hex_of(stretch[at:])}"]
        length = int.from_bytes(stretch[at + 5:at + 8], "big")
        text += show_one(stretch[at:at + length], stretch[at + length:at + length + -length % 4], indent, groups)
        at += length + -length % 4
    return text


def show_one(avp, padding, indent, groups):
    code, flags = int.from_bytes(avp[:4], "big"), avp[4]
    vendor, data = (int.from_bytes(avp[8:12], "big"), avp[12:]) if flags & V else (0, avp[8:])
    row = dictionary.by_key().get((vendor, code))
    name = row.name if row else f"AVP {code}" + (f" vendor {vendor}" if vendor else "")
    head = " " * indent + name + brackets(flags, vendor, padding) + ":"
    if row is None or row.kind != "Grouped":
        return [f"{head} {show_data(row, data)}"]
    if groups >= DEEPEST:
        return [head] + ([f"{' ' * (indent + STEP)}rest: {hex_of(data)}"] if data else [])
    return [head] + show_list(data, indent + STEP, groups + 1)


def usual_flags(vendor):
    return M | V if vendor else M


def brackets(flags, vendor, padding):
    words = [] if flags == usual_flags(vendor) else [FLAGS.show(bytes([flags])) or "no flags"]
    words += [f"padding {hex_of(padding)}"] if any(padding) else []
    return f" [{', '.join(words)}]" if words else ""


def show_data(row, data):
    kind, name = (row.kind, row.name) if row else ("OctetString", "")
    if kind in dictionary.NUMBERS:
        return show_number(name, kind, data) if len(data) == dictionary.NUMBERS[kind] else hex_of(data)
    if name == "Visited-PLMN-Id" and len(data) == 3:
        return show_plmn(data)
    if row and data and all(0x20 <= byte <= 0x7E for byte in data):
        return f'"{data.decode("ascii")}"'
    return hex_of(data)


def show_number(name, kind, data):
    number = int.from_bytes(data, "big", signed=kind == "Integer32")
    return Bits(4, FLAG_WORDS[name], number=True).show(data) if name in FLAG_WORDS else with_meaning(name, number)


# ---- text to bytes

def make_list(lines, groups=0):
    """The bytes of lines that stand at one indent, with those below them."""
    if groups > DEEPEST + 1:
        raise BadText(lines[0].number, f"more than {DEEPEST + 1} groups inside each other; write what the last one holds as rest: xHH..")
    made, at = b"", 0
    while at < len(lines):
        line, below = lines[at], at + 1
        while below < len(lines) and lines[below].indent > line.indent:
            below += 1
        if line.indent != lines[0].indent:
            raise BadText(line.number, f"indented by {line.indent}, where the lines before it are by {lines[0].indent}")
        made += make_one(line, lines[at + 1:below], groups)
        at = below
    return made


def make_one(line, below, groups):
    value = value_of(line)
    if line.key == "rest" and not below:
        return at_line(line.number, from_hex, value)
    name, words = at_line(line.number, split_brackets, line.key)
    vendor, code, row = at_line(line.number, key_of, name)
    flags, padding = at_line(line.number, make_brackets, words, vendor)
    if row and row.kind == "Grouped":
        if value:
            raise BadText(line.number, f"{name} is a group: what it holds stands below it, indented")
        data = make_list(below, groups + 1) if below else b""
    elif below:
        raise BadText(below[0].number, f"indented below {name}, which is no group")
    else:
        data = at_line(line.number, make_data, row, value)
    return at_line(line.number, assemble, vendor, code, flags, padding, data)


def split_brackets(key):
    name, opened, rest = key.partition("[")
    inside, closed, behind = rest.partition("]")
    if "]" in name or "[" in inside or behind or opened and not closed:
        raise Reason(f"'{key}' is no name with one pair of brackets behind it")
    return name.rstrip(), [word.strip() for word in inside.split(",")] if opened else []


def key_of(name):
    """Vendor, code and the dictionary's row of a name."""
    row = dictionary.by_name().get(name)
    match = re.fullmatch(r"AVP ([0-9]+)(?: vendor ([0-9]+))?", name)
    if row:
        return row.vendor, row.code, row
    if not match:
        raise Reason(f"'{name}' is no AVP of docs/DICTIONARY.md; others are written AVP CODE, or AVP CODE vendor VENDOR")
    code, vendor = (int.from_bytes(number_of(text or "0", 4), "big") for text in match.groups())
    return vendor, code, dictionary.by_key().get((vendor, code))


def make_brackets(words, vendor):
    paddings = [word[len("padding "):] for word in words if word.startswith("padding ")]
    others = [word for word in words if not word.startswith("padding ")]
    if len(paddings) > 1 or len(others) > 1:
        raise Reason(f"[{', '.join(words)}] says {'flags' if len(others) > 1 else 'padding'} twice; it is written [V M, padding x..]")
    flags = FLAGS.make("" if others[0] == "no flags" else others[0])[0] if others else usual_flags(vendor)
    padding = from_hex(paddings[0]) if paddings else None
    if vendor and not flags & V:
        raise Reason(f"an AVP of vendor {vendor} has the flag V")
    return flags, padding


def make_data(row, text):
    kind, name = (row.kind, row.name) if row else ("OctetString", "")
    if text.startswith("x"):
        return from_hex(text)
    if kind in dictionary.NUMBERS:
        return make_number(name, kind, text)
    if len(text) >= 2 and text[0] == text[-1] == '"':
        if not all(" " <= letter <= "~" for letter in text):
            raise Reason("text in quotes holds plain ASCII only; write other bytes as xHH..")
        return text[1:-1].encode("ascii")
    if name == "Visited-PLMN-Id":
        return make_plmn(text)
    raise Reason(f"'{text}' is neither text in quotes nor xHH..")


def make_number(name, kind, text):
    if not text:
        raise Reason(f"{name} has no value")
    if name in FLAG_WORDS:
        return Bits(4, FLAG_WORDS[name], number=True).make(text)
    text = without_meaning(text)
    for number, meaning in MEANINGS.get(name, {}).items():
        if text == meaning:
            return number.to_bytes(4, "big")
    if kind == "Integer32" and re.fullmatch(r"-[0-9]+", text) and int(text) >= -SIGNED:
        return int(text).to_bytes(4, "big", signed=True)
    return number_of(text, dictionary.NUMBERS[kind])


def assemble(vendor, code, flags, padding, data):
    head = 12 if flags & V else 8
    missing = -(head + len(data)) % 4
    padding = bytes(missing) if padding is None else padding
    if len(padding) != missing:
        raise Reason(f"the padding has {len(padding)} bytes, where {missing} belong")
    if head + len(data) > 0xFFFFFF:
        raise Reason("the AVP is longer than its length field can say")
    vendor_bytes = vendor.to_bytes(4, "big") if flags & V else b""
    return code.to_bytes(4, "big") + bytes([flags]) + (head + len(data)).to_bytes(3, "big") + vendor_bytes + data + padding
