"""The subscriber table: "Eight bytes: whole length (4), version 1, one zero, record count (2). Then 256 bytes a record"."""
from text import record
from text.lines import BadText, lines_of
from text.values import hex_of

HEADER = 8
MOST = 240


def number_at(table, start, end):
    return int.from_bytes(table[start:end], "big")


def records_of(table):
    """The whole records behind the header, whatever the count says."""
    return [table[at:at + record.RECORD] for at in range(HEADER, len(table) - record.RECORD + 1, record.RECORD)]


def header_faults(table):
    """What is wrong before the first record: byte and rule."""
    if len(table) < HEADER:
        return [(0, f"the table starts with eight bytes; the file has {len(table)}")]
    length, count = number_at(table, 0, 4), number_at(table, 6, 8)
    rules = [
        (0, f"the length field ({length}) equals the buffer's length ({len(table)})", length == len(table)),
        (4, f"version 1 (it is {table[4]})", table[4] == 1),
        (5, f"one zero (it is 0x{table[5]:02X})", table[5] == 0),
        (6, f"its count ({count}) is at most {MOST}", count <= MOST),
        (6, f"the length is 8 + 256 × count ({HEADER + record.RECORD * count} for {count})", len(table) == HEADER + record.RECORD * count),
    ]
    return [(byte, rule) for byte, rule, holds in rules if not holds]


def order_fault(records, place):
    if place and records[place - 1][:16] >= records[place][:16]:
        return [(0, f"strictly ascending by bytes 0–15 (record {place - 1} does not stand below)")]
    return []


def show(table):
    """The text of a table, and whether the table is valid. Rules that break stand as lines `breaks:`, the header's first."""
    text = [f"breaks: header, byte {byte}: {rule}" for byte, rule in header_faults(table)]
    records = records_of(table)
    for place, bytes_of_record in enumerate(records):
        text.append("record")
        text += record.show(bytes_of_record)
        for byte, rule in record.faults(bytes_of_record) + order_fault(records, place):
            text.append(f"breaks: record {place}, byte {byte} (byte {HEADER + record.RECORD * place + byte} of the table): {rule}")
    tail = table[HEADER + record.RECORD * len(records):]
    notes = [] if records else ["# no record"]
    notes += [f"# behind the last whole record: {hex_of(tail)}"] if tail else []
    return text + notes, not any(line.startswith("breaks: ") for line in text)


def split(lines):
    """The lines of each record: the number of its line `record`, and the lines behind it."""
    parts = []
    for line in lines:
        if line.key == "record" and line.value is None:
            parts.append((line.number, []))
        elif parts:
            parts[-1][1].append(line)
        else:
            raise BadText(line.number, f"'{line.key}' stands before the first line 'record'")
    return parts


def make(text):
    """The bytes of a valid table. Records may stand in any order in the text."""
    made = sorted((record.make(number, lines), number) for number, lines in split(lines_of(text)))
    if len(made) > MOST:
        raise BadText(sorted(number for _, number in made)[MOST], f"a record too many: {len(made)}; a table has at most {MOST}")
    for (before, first), (after, second) in zip(made, made[1:]):
        if before[:16] == after[:16]:
            raise BadText(max(first, second), f"the IMSI of this record stands in the record of line {min(first, second)} too")
    length = HEADER + record.RECORD * len(made)
    return length.to_bytes(4, "big") + bytes([1, 0]) + len(made).to_bytes(2, "big") + b"".join(part for part, _ in made)
