"""A record of the table: its fields with their places, the rules that span fields, and its text."""
from text.lines import BadText, at_line, once
from text.names import PURGED, RESTRICTIONS, SUBSCRIPTION
from text.values import DIGITS, NAME_BYTES, Bits, Counted, Number, Plmns

RECORD = 256
IMSI = Counted(15, range(6, 16), DIGITS, "6 to 15 digits", "IMSI: digit count 6–15, ASCII digits, then zeros")


def name_of(node):
    return Counted(64, range(0, 65), NAME_BYTES, "a name: at most 64 bytes from ! to ~", f"{node} name length 0–64, name; a name byte is 0x21 to 0x7E")


class Field:
    """A key of the text, the stretches of the record that hold its value, and the kind of value."""

    def __init__(self, key, stretches, kind):
        self.key, self.stretches, self.kind = key, stretches, kind

    def value(self, record):
        return b"".join(record[start:end] for start, end in self.stretches)

    def store(self, record, value):
        for start, end in self.stretches:
            record[start:end], value = value[:end - start], value[end - start:]

    def place(self, offset):
        """The byte of the record at which byte `offset` of the value stands."""
        return [i for start, end in self.stretches for i in range(start, end)][offset]

    def faults(self, record):
        return [(self.place(offset), rule) for offset, rule in self.kind.faults(self.value(record))]


FIELDS = {field.key: field for field in [
    Field("IMSI", [(0, 16)], IMSI),
    Field("change number", [(16, 20)], Number(4)),
    Field("subscription", [(20, 21)], Bits(1, SUBSCRIPTION, rule="bit 0 EPS subscription, bit 1 GPRS subscription; other unused bits are zero")),
    Field("Access-Restriction-Data", [(24, 28)], Bits(4, RESTRICTIONS, number=True)),
    Field("PLMNs", [(28, 29), (32, 56)], Plmns()),
    Field("purged", [(56, 57)], Bits(1, PURGED, rule="bit 0 purged in MME, bit 1 purged in SGSN; other unused bits are zero")),
    Field("MME", [(64, 129)], name_of("MME")),
    Field("SGSN", [(129, 194)], name_of("SGSN")),
    Field("AMBR uplink", [(196, 200)], Number(4)),
    Field("AMBR downlink", [(200, 204)], Number(4)),
    Field("IMEI", [(204, 220)], Counted(15, (0, 14, 15), DIGITS, "14 or 15 digits, or nothing", "IMEI digit count 0, 14 or 15, ASCII digits")),
]}
UNLISTED = sorted(set(range(RECORD)) - {i for field in FIELDS.values() for start, end in field.stretches for i in range(start, end)})


def nodes_purged_without_name(record):
    """"a purge bit needs a name": of the bit's own node."""
    return [node for bit, node in PURGED.items() if record[56] >> bit & 1 and not FIELDS[node].value(record)[0]]


def faults(record):
    """The rules that the record breaks, each with its byte, in the order of bytes."""
    found = [fault for field in FIELDS.values() for fault in field.faults(record)]
    found += [(i, "unlisted bytes are zero") for i in UNLISTED if record[i]]
    found += [(56, f"a purge bit needs a name ({node})") for node in nodes_purged_without_name(record)]
    return sorted(found)


def show(record):
    return [f"{field.key}: {field.kind.show(field.value(record))}".rstrip() for field in FIELDS.values()]


def make(number, lines):
    """The record of the lines behind the line `record` at `number`; a field that is not there is zero."""
    by_key = once(lines, FIELDS, "a record")
    if "IMSI" not in by_key:
        raise BadText(number, "the record has no IMSI")
    record = bytearray(RECORD)
    for key, line in by_key.items():
        FIELDS[key].store(record, at_line(line.number, FIELDS[key].kind.make, line.value))
    for node in nodes_purged_without_name(record):
        raise BadText(by_key["purged"].number, f"purged in {node}, but the record has no {node} name")
    return bytes(record)
