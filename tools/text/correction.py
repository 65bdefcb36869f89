"""A keypad correction: "whole length (2), version 1, kind, IMSI (16, as stored), change number seen (4), value"."""
from text import table
from text.lines import BadText, Reason, at_line, lines_of, once
from text.record import FIELDS, IMSI
from text.values import Number, from_hex, hex_of

HEAD = 24
# "1 byte 20; 2 bytes 24–27; 3 byte 28 and 32–55 (25 bytes); 4 bytes 196–203"
KINDS = {1: ["subscription"], 2: ["Access-Restriction-Data"], 3: ["PLMNs"], 4: ["AMBR uplink", "AMBR downlink"]}
CHANGE = Number(4)


def parts(kind, value):
    """The fields of a kind, each with its bytes of the value; what is too short is cut."""
    found, at = [], 0
    for key in KINDS[kind]:
        size = sum(end - start for start, end in FIELDS[key].stretches)
        found.append((FIELDS[key], at, value[at:at + size]))
        at += size
    return found


def value_size(kind):
    return sum(end - start for key in KINDS[kind] for start, end in FIELDS[key].stretches)


def fault_of_frame(frame):
    """The first of the numbers 11 to 15 that refuses the frame: number, byte of the frame and rule."""
    length = int.from_bytes(frame[0:2], "big")
    if len(frame) < HEAD:
        return 11, 0, f"under {HEAD} bytes ({len(frame)})"
    if length != len(frame):
        return 11, 0, f"length field wrong ({length}; the frame has {len(frame)} bytes)"
    if frame[2] != 1:
        return 12, 2, f"version 1 (it is {frame[2]})"
    if frame[3] not in KINDS:
        return 13, 3, f"kind 1 to 4 (it is {frame[3]})"
    if length != HEAD + value_size(frame[3]):
        return 14, 0, f"length wrong for the kind ({length}; kind {frame[3]} has {HEAD + value_size(frame[3])})"
    for field, at, value in parts(frame[3], frame[HEAD:]):
        for offset, rule in field.kind.faults(value):
            return 15, HEAD + at + offset, f"value not valid in a table: {rule}"
    return None


def fault_in(lent, frame):
    """The number 16 or 17 that refuses the frame on the table lent."""
    for record in table.records_of(lent):
        if record[0:16] == frame[4:20]:
            change = record[16:20]
            return None if change == frame[20:24] else (17, 20, f"change number differs (the record has {CHANGE.show(change)})")
    return 16, 4, "no such IMSI"


def first_fault(frame, lent=None):
    """The first number that refuses the frame; without a table lent, of 11 to 15."""
    if lent is None:
        return fault_of_frame(frame)
    if not table.show(lent)[1]:
        return 4, 0, "table not valid"
    return fault_of_frame(frame) or fault_in(lent, frame)


def show_imsi(stored):
    """A malformed IMSI is a matter of number 16, so it is shown too."""
    return hex_of(stored) if len(stored) < 16 or IMSI.faults(stored) else IMSI.show(stored)


def show(frame, lent=None):
    """The text of a frame, and whether no number refuses it."""
    fault = first_fault(frame, lent)
    text = [] if fault is None else [f"breaks: number {fault[0]}, byte {fault[1]}: {fault[2]}"]
    if len(frame) < HEAD:
        return text + [f"# the bytes: {hex_of(frame)}"], False
    text += [f"kind: {frame[3]}", f"IMSI: {show_imsi(frame[4:20])}", f"change number seen: {CHANGE.show(frame[20:24])}"]
    if frame[3] in KINDS and len(frame) == HEAD + value_size(frame[3]):
        text += [f"{field.key}: {field.kind.show(value)}".rstrip() for field, _, value in parts(frame[3], frame[HEAD:])]
    else:
        text.append(f"# the value: {hex_of(frame[HEAD:])}")
    return text, fault is None


def make_kind(text):
    if text not in [str(kind) for kind in KINDS]:
        raise Reason(f"kind '{text}' is none of 1 to 4")
    return int(text)


def make_imsi(text):
    imsi = from_hex(text) if text.startswith("x") else IMSI.make(text)
    if len(imsi) != 16:
        raise Reason(f"an IMSI as stored has 16 bytes, not {len(imsi)}")
    return imsi


def make(text):
    """The bytes of a frame. Every key of its kind stands there once, and no other."""
    lines = lines_of(text)
    last = lines[-1].number if lines else 1
    by_key = once(lines, ["kind", "IMSI", "change number seen"] + [key for keys in KINDS.values() for key in keys], "a correction")
    if "kind" not in by_key:
        raise BadText(last, "the correction has no kind")
    kind = at_line(by_key["kind"].number, make_kind, by_key["kind"].value)
    wanted = ["kind", "IMSI", "change number seen"] + KINDS[kind]
    for key, line in by_key.items():
        if key not in wanted:
            raise BadText(line.number, f"'{key}' is no part of a correction of kind {kind}")
    for key in wanted:
        if key not in by_key:
            raise BadText(last, f"the correction has no '{key}'")
    return assemble(kind, by_key)


def assemble(kind, by_key):
    def made(key, make_value):
        return at_line(by_key[key].number, make_value, by_key[key].value)

    imsi, seen = made("IMSI", make_imsi), made("change number seen", CHANGE.make)
    value = b"".join(made(key, FIELDS[key].kind.make) for key in KINDS[kind])
    return (HEAD + len(value)).to_bytes(2, "big") + bytes([1, kind]) + imsi + seen + value
