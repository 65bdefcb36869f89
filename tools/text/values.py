"""Values as they stand in a record, a frame or an AVP, and as text. Each kind of value has `show` (bytes to text, of any bytes), `make` (text to
bytes, or a Reason) and `faults` (the rules of document 01 that the bytes break: offset and rule)."""
import re

from text.lines import Reason

DIGITS = frozenset(b"0123456789")
NAME_BYTES = frozenset(range(0x21, 0x7F))


def hex_of(value):
    return "x" + value.hex().upper()


def from_hex(text):
    """The bytes of xHH.., or a Reason."""
    if not re.fullmatch(r"x([0-9A-Fa-f]{2})*", text):
        raise Reason(f"'{text}' is not x and pairs of hex digits")
    return bytes.fromhex(text[1:])


def number_of(text, width):
    """A number of so many bytes, decimal or 0x.., as bytes."""
    number = int(text, 0 if text.startswith("0x") else 10) if re.fullmatch(r"[0-9]{1,20}|0x[0-9A-Fa-f]{1,16}", text) else -1
    if not 0 <= number < 256 ** width:
        raise Reason(f"'{text}' is no number from 0 to {256 ** width - 1}")
    return number.to_bytes(width, "big")


class Number:
    """A big-endian number; every value is free."""

    def __init__(self, width):
        self.width = width

    def show(self, value):
        return str(int.from_bytes(value, "big"))

    def make(self, text):
        return number_of(text, self.width)

    def faults(self, value):
        return []


class Bits:
    """A bit mask: with `number` as the number and the names of its bits, else as the names alone. A bit without a name is bit-N; `rule` is broken by
    it, where there is a rule."""

    def __init__(self, width, names, number=False, rule=None):
        self.width, self.names, self.number, self.rule = width, names, number, rule
        unnamed = [bit for bit in range(8 * width) if bit not in names]
        self.bits = {**{name: bit for bit, name in names.items()}, **{f"bit-{bit}": bit for bit in unnamed}}

    def show(self, value):
        mask = int.from_bytes(value, "big")
        names = [name for name, bit in self.bits.items() if mask >> bit & 1]
        return " ".join(([str(mask)] if self.number else []) + names)

    def make(self, text):
        words = text.split()
        given = None
        if self.number and words and words[0][0].isdigit():
            given = int.from_bytes(number_of(words.pop(0), self.width), "big")
        mask = 0
        for word in words:
            mask |= 1 << self.bit(word)
        if given is not None and words and given != mask:
            raise Reason(f"the number is {given}, but the names behind it come to {mask}")
        return (mask if given is None else given).to_bytes(self.width, "big")

    def bit(self, word):
        bit = self.bits.get(word, next((bit for bit in self.names if word == f"bit-{bit}"), None))
        if bit is None or self.rule and bit not in self.names:
            raise Reason(f"'{word}' is none of {', '.join(self.names.values())}" + ("" if self.rule else ", or bit-N"))
        return bit

    def faults(self, value):
        mask = int.from_bytes(value, "big")
        named = sum(1 << bit for bit in self.names)
        return [(0, self.rule)] if self.rule and mask & ~named else []


class Counted:
    """A count, that many bytes of a set, and zeros up to the field's end."""

    def __init__(self, room, counts, allowed, what, rule):
        self.room, self.counts, self.allowed, self.what, self.rule = room, counts, allowed, what, rule

    def faults(self, value):
        count, used, end = value[0], value[1:1 + value[0]], value[1 + value[0]:]
        if count not in self.counts:
            return [(0, f"{self.rule} (the count is {count})")]
        faults = [(1 + i, f"{self.rule} (a byte is 0x{byte:02X})") for i, byte in enumerate(used) if byte not in self.allowed][:1]
        return faults + [(1 + count + i, "unused ends of fields are zero") for i, byte in enumerate(end) if byte][:1]

    def show(self, value):
        return hex_of(value) if self.faults(value) else value[1:1 + value[0]].decode("ascii")

    def make(self, text):
        value = text.encode("utf-8")
        if len(value) not in self.counts or not self.allowed.issuperset(value):
            raise Reason(f"'{text}' is not {self.what}")
        return bytes([len(value)]) + value + bytes(self.room - len(value))


class Plmns:
    """The count of PLMNs and room for eight of them, 3 bytes each: byte 28 and bytes 32-55 of a record, which is also the value of a correction."""

    MOST = 8

    def faults(self, value):
        count, end = value[0], value[1 + 3 * value[0]:]
        if count > self.MOST:
            return [(0, f"count 0–8 of PLMNs (the count is {count})")]
        return [(1 + 3 * count + i, "unused ends of fields are zero") for i, byte in enumerate(end) if byte][:1]

    def show(self, value):
        if self.faults(value):
            return hex_of(value)
        return " ".join(show_plmn(value[1 + 3 * i:4 + 3 * i]) for i in range(value[0]))

    def make(self, text):
        plmns = [make_plmn(word) for word in text.split()]
        if len(plmns) > self.MOST:
            raise Reason(f"{len(plmns)} PLMNs; at most {self.MOST} have room")
        return bytes([len(plmns)]) + b"".join(plmns) + bytes(3 * (self.MOST - len(plmns)))


def show_plmn(value):
    """MCC-MNC where the three bytes are digits (MCC 001, MNC 01 is 00 F1 10), else hex."""
    digits = value.hex().upper()
    match = re.fullmatch(r"(\d)(\d)([\dF])(\d)(\d)(\d)", digits)
    if not match:
        return hex_of(value)
    mcc2, mcc1, mnc3, mcc3, mnc2, mnc1 = match.groups()
    return f"{mcc1}{mcc2}{mcc3}-{mnc1}{mnc2}{'' if mnc3 == 'F' else mnc3}"


def make_plmn(text):
    match = re.fullmatch(r"([0-9])([0-9])([0-9])-([0-9])([0-9])([0-9]?)", text)
    if match:
        mcc1, mcc2, mcc3, mnc1, mnc2, mnc3 = match.groups()
        return bytes.fromhex(mcc2 + mcc1 + (mnc3 or "F") + mcc3 + mnc2 + mnc1)
    if not re.fullmatch(r"x[0-9A-Fa-f]{6}", text):
        raise Reason(f"'{text}' is no PLMN: three digits, a hyphen and two or three digits, or x and six hex digits")
    return from_hex(text)
