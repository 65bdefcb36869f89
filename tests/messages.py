"""What the checkers of demand 3 read with: the case protocol, the dictionary's list, and AVPs as trees.

Written from document 01 and the protocol alone, so that neither the library nor the second program judges itself.
"""
import struct

HEADER = 20
V, M = 0x80, 0x40
# The bits of flag words that 01 uses, clauses 7.3.7, 7.3.149 and 7.3.49.
NAMED_BITS = {"ULR-Flags": 0x27, "PUR-Flags": 0x03, "NOR-Flags": 0x01}


class Refused(Exception):
    """What a checker says where something does not hold."""


def number(data):
    return int.from_bytes(data, "big")


def take(source, size):
    data = source.read(size)
    if len(data) != size:
        raise Refused("a stream ends too early")
    return data


def field(source):
    return take(source, number(take(source, 4)))


class Case:
    """A request case; `next` is None where the stream ends."""

    FIELDS = ("table", "request", "host", "realm", "answer", "cancel")

    def __init__(self, *fields):
        for name, data in zip(self.FIELDS, fields):
            setattr(self, name, data)

    @classmethod
    def next(cls, source):
        op = source.read(1)
        if op not in (b"", b"\x01"):
            raise Refused("a case that is no request")
        return cls(*(field(source) for _ in cls.FIELDS)) if op else None


class Result:
    """What a request case came to."""

    def __init__(self, refusal, length, table, answer, cancel):
        self.refusal, self.length, self.table, self.answer, self.cancel = refusal, length, table, answer, cancel

    @classmethod
    def next(cls, source):
        refusal, length = struct.unpack(">II", take(source, 8))
        return cls(refusal, length, field(source), field(source), field(source))

    def all(self):
        return self.refusal, self.length, self.table, self.answer, self.cancel


def load_dictionary(path="docs/DICTIONARY.md"):
    """(vendor, code) to (name, type), from the rows of the frozen list."""
    rows = {}
    with open(path, encoding="utf-8") as text:
        for line in text:
            cells = [cell.strip() for cell in line.strip().strip("|").split("|")]
            if len(cells) >= 4 and cells[0].isdigit() and cells[1].isdigit():
                rows[int(cells[0]), int(cells[1])] = (cells[2], cells[3])
    return rows


class Avp:
    """One AVP. `name` is None where the dictionary has no row; `inner` is the list of an entered group, else None."""

    __slots__ = ("key", "flags", "data", "padding", "raw", "name", "inner")

    def word(self):
        return number(self.data)


class Reader:
    """"Groups of the dictionary are entered, except Proxy-Info (284) and Failed-AVP (279)." """

    def __init__(self, rows):
        self.rows = rows
        self.codes = {code for _, code in rows}

    def avps(self, stretch):
        found, at = [], 0
        while at < len(stretch):
            avp = self.avp(stretch, at)
            found.append(avp)
            at += len(avp.raw)
        return found

    def avp(self, stretch, at):
        if len(stretch) - at < 8:
            raise Refused("a stump of an AVP")
        code, word = struct.unpack_from(">II", stretch, at)
        avp = Avp()
        avp.flags, length = word >> 24, word & 0xFFFFFF
        head = 12 if avp.flags & V else 8
        end = at + (length + 3) // 4 * 4
        if length < head or end > len(stretch):
            raise Refused("an AVP of wrong length")
        avp.key = (number(stretch[at + 8:at + 12]) if avp.flags & V else 0, code)
        avp.raw, avp.data, avp.padding = stretch[at:end], stretch[at + head:at + length], stretch[at + length:end]
        avp.name, kind = self.rows.get(avp.key, (None, None))
        entered = kind == "Grouped" and avp.name not in ("Proxy-Info", "Failed-AVP")
        avp.inner = self.avps(avp.data) if entered else None
        return avp


def avp_bytes(code, flags, vendor, data):
    """An AVP with its right length and zero padding; the vendor field stands where the flags have V."""
    vendor_field = struct.pack(">I", vendor) if flags & V else b""
    length = 8 + len(vendor_field) + len(data)
    return struct.pack(">II", code, flags << 24 | length) + vendor_field + data + bytes(-length % 4)
