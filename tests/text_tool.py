"""text_tool.py CASES RESULTS: tools/dymosaw-text against the second program, and on bad text.

CASES and RESULTS are files of the case protocol: cases, and what the second program says of them. Every valid table, every correction that the numbers 11
to 15 let pass and every message of 20 bytes or more is shown and made again: the bytes have to be the same. A table that the second program refuses
with 4 breaks a rule for the tool too, and a valid one none; a correction gets the second program's number.
"""
import os
import random
import re
import struct
import subprocess
import sys
import tempfile
from collections import Counter

ROOT = os.path.join(os.path.dirname(os.path.realpath(__file__)), "..")
TOOL = os.path.join(ROOT, "tools", "dymosaw-text")
sys.dont_write_bytecode = True
sys.path.insert(0, os.path.join(ROOT, "tools"))

from text import correction, message, table  # noqa: E402: the path above comes first
from text.lines import BadText  # noqa: E402

FIELDS = {1: 6, 2: 2}
LEAST = {"table": 1000, "table not valid": 50, "free fields": 1000, "frame": 100, "frame refused": 50, "request": 1000, "answer": 800}


def expect(right, words):
    if not right:
        sys.exit(f"text_tool: {words}")


# ---- the second program's cases

def field(source):
    return source.read(struct.unpack(">I", source.read(4))[0])


def cases(paths):
    """(op, fields of the case, number, answer, table after) of each case."""
    with open(paths[0], "rb") as given, open(paths[1], "rb") as told:
        while op := given.read(1):
            fields = [field(given) for _ in range(FIELDS[op[0]])]
            number = struct.unpack(">I", told.read(4))[0]
            length = struct.unpack(">I", told.read(4))[0] if op[0] == 1 else 0
            after = field(told)
            answer = field(told)[:length] if op[0] == 1 else b""
            if op[0] == 1:
                field(told)
            yield op[0], fields, number, answer, after


# ---- there and back

def again(kind, made, what):
    """Shown, made again and compared. What is shown is text of one line each."""
    text, right = kind.show(made)
    expect(right, f"{what} is said to break a rule: {text}")
    expect(kind.make("\n".join(text)) == made, f"{what} comes back as other bytes: {made.hex()}\n" + "\n".join(text))
    return text


def with_free_fields(valid, chance):
    """The valid table with other bytes in the fields that are free: change number, restriction, AMBR and counted PLMNs."""
    changed = bytearray(valid)
    for at in range(8, len(valid), 256):
        for start, end in [(16, 20), (24, 28), (32, 32 + 3 * valid[at + 28]), (196, 204)]:
            changed[at + start:at + end] = chance.randbytes(end - start)
    return bytes(changed)


def check_table(given, valid, chance, count):
    if not valid:
        text, right = table.show(given)
        expect(not right and any(line.startswith("breaks: ") for line in text), f"a table that is not valid is taken: {given.hex()}")
        count["table not valid"] += 1
        return
    again(table, given, "a table")
    again(table, with_free_fields(given, chance), "a table with other free fields")
    count["table"] += 1
    count["free fields"] += 1


def check_frame(lent, frame, number, count):
    """The tool gives the frame the second program's number on this table; of the frame alone it tells 11 to 15."""
    fault = correction.first_fault(frame, lent)
    expect((fault[0] if fault else 0) == number, f"a frame that gets {number}: {fault}, {frame.hex()}")
    if 11 <= number <= 15:
        expect(correction.show(frame)[1] is False, f"a frame refused with {number} is shown as right")
        count["frame refused"] += 1
    elif number != 4:
        again(correction, frame, "a correction")
        count["frame"] += 1


def check_answer(answer, count):
    text = again(message, answer, "an answer")
    expect(not any(line.startswith("rest:") for line in text), f"an answer that is not read to its end: {text}")
    code = [line for line in text if line.lstrip().startswith(("Result-Code:", "Experimental-Result-Code:"))][0]
    expect(code.endswith(")"), f"a code without 01's words: {code}")
    count["answer"] += 1


def there_and_back(paths):
    count, chance = Counter(), random.Random(1)
    for op, fields, number, answer, after in cases(paths):
        if op == 2 or number not in (3, 5):
            check_table(fields[0], number != 4, chance, count)
        if op == 2:
            check_frame(fields[0], fields[1], number, count)
        elif len(fields[1]) >= 20:
            again(message, fields[1], "a request")
            count["request"] += 1
        if answer:
            check_answer(answer, count)
            expect(after == fields[0] or table.show(after)[1], "a table after a request is not valid")
    for what, least in LEAST.items():
        expect(count[what] >= least, f"only {count[what]} of: {what}")
    print(", ".join(f"{what}: {count[what]}" for what in LEAST))


# ---- by hand: text, and its bytes as document 01 lays them out

RECORD_TEXT = """record
IMSI: 262011234567890
change number: 4294967295
subscription: GPRS
Access-Restriction-Data: 1073741840 WB-E-UTRAN-Not-Allowed bit-30
PLMNs: 001-01 310-410 x1234FF
purged: SGSN
MME: mme.example
SGSN: s
AMBR uplink: 1000
AMBR downlink: 2000
IMEI: 352099001761481"""
RECORD_BYTES = {
    0: "0F 323632303131323334353637383930", 16: "FFFFFFFF", 20: "02", 24: "40000010", 28: "03", 32: "00F110 130014 1234FF", 56: "02",
    64: "0B 6D6D652E6578616D706C65", 129: "01 73", 196: "000003E8", 200: "000007D0", 204: "0F 333532303939303031373631343831",
}
FRAMES = [
    ("kind: 1\nIMSI: 123456\nchange number seen: 7\nsubscription: EPS GPRS", "0019 01 01 06313233343536 000000000000000000 00000007 03"),
    ("kind: 2\nIMSI: 123456\nchange number seen: 7\nAccess-Restriction-Data: 3 UTRAN-Not-Allowed GERAN-Not-Allowed",
     "001C 01 02 06313233343536 000000000000000000 00000007 00000003"),
    ("kind: 3\nIMSI: 123456\nchange number seen: 7\nPLMNs: 001-01", "0031 01 03 06313233343536 000000000000000000 00000007 01 00F110" + 21 * "00"),
    ("kind: 4\nIMSI: 123456\nchange number seen: 7\nAMBR uplink: 1\nAMBR downlink: 256",
     "0020 01 04 06313233343536 000000000000000000 00000007 00000001 00000100"),
]
# A message with each way to write an AVP: by name, by code, with flags, with padding, of a wrong size, in a group that is not filled exactly.
MESSAGE_TEXT = """version: 1
flags: P
command: 316 (Update-Location)
application: 16777251 (S6a/S6d)
hop-by-hop: 0x01020304
end-to-end: 0x0A0B0C0D
Session-Id: "s;1"
Result-Code: 5001 (unknown AVP with M set; the first)
Failed-AVP:
  AVP 9999 vendor 7 [V M P]: x0102
ULA-Flags: 1 Separation-Indication
Subscription-Data:
  Access-Restriction-Data: 1 UTRAN-Not-Allowed
User-Name [no flags, padding x01]: "123"
RAT-Type: x00
Experimental-Result:
  Experimental-Result-Code: 5001 (no such IMSI)
  # 3 bytes are too few for an AVP
  rest: x010203"""
MESSAGE_BYTES = """01 0000A4 40 00013C 01000023 01020304 0A0B0C0D
    00000107 40 00000B 733B3100
    0000010C 40 00000C 00001389
    00000117 40 000018 0000270F E0 00000E 00000007 01020000
    0000057E C0 000010 000028AF 00000001
    00000578 C0 00001C 000028AF 00000592 C0 000010 000028AF 00000001
    00000001 00 00000B 31323301
    00000408 C0 00000D 000028AF 00000000
    00000129 40 000017 0000012A 40 00000C 00001389 01020300"""


def by_hand():
    record = bytearray(256)
    for at, digits in RECORD_BYTES.items():
        stretch = bytes.fromhex(digits)
        record[at:at + len(stretch)] = stretch
    pairs = [(table, RECORD_TEXT, bytes.fromhex("00000108 01 00 0001") + record), (message, MESSAGE_TEXT, bytes.fromhex(MESSAGE_BYTES))]
    pairs += [(correction, text, bytes.fromhex(digits)) for text, digits in FRAMES]
    for kind, text, made in pairs:
        expect(kind.make(text) == made, f"made: {kind.make(text).hex()}\nshould be: {made.hex()}")
        expect(kind.show(made) == (text.split("\n"), True), "shown:\n" + "\n".join(kind.show(made)[0]) + f"\nshould be:\n{text}")
    unordered = "record\nIMSI: 234567\nrecord\nIMSI: 1234567\nrecord\nIMSI: 123456"
    imsis = [line for line in table.show(table.make(unordered))[0] if line.startswith("IMSI:")]
    expect(imsis == ["IMSI: 123456", "IMSI: 234567", "IMSI: 1234567"], f"records in another order: {imsis}")
    print(f"{len(pairs)} texts as worked by hand")


def deep_groups():
    """Groups are shown eight deep; what a ninth holds stays bytes, however deep it goes."""
    data = b""
    for _ in range(300):
        data = bytes.fromhex("00000578 C0") + (12 + len(data)).to_bytes(3, "big") + bytes.fromhex("000028AF") + data
    header = bytes.fromhex("01") + (20 + len(data)).to_bytes(3, "big") + bytes.fromhex("C000013C 01000023 00000000 00000000")
    text = again(message, header + data, "a message of 300 groups in each other")
    expect([line.strip() for line in text].count("Subscription-Data:") == 9, "not nine groups shown")


# ---- bad text: what is given, and what is said of it

HEAD = "flags: R\ncommand: 316\napplication: 16777251\nhop-by-hop: 1\nend-to-end: 2\n"
FRAME = "kind: 1\nIMSI: 262011234567890\nchange number seen: 7\nsubscription: EPS\n"
MANY = "".join(f"record\nIMSI: 26201{i:07}\n" for i in range(241))
BAD = [
    (table, "IMSI: 123456", "line 1: 'IMSI' stands before the first line 'record'"),
    (table, "record\nIMSI 123456", "line 2: no colon behind 'IMSI 123456'"),
    (table, "# two\n\nrecord\n\nrecord\nIMSI: 123456", "line 3: the record has no IMSI"),
    (table, "record\nIMSI: 12345", "line 2: '12345' is not 6 to 15 digits"),
    (table, "record\nIMSI: 1234567890123456", "line 2: '1234567890123456' is not 6 to 15 digits"),
    (table, "record\nIMSI: 12345a", "line 2: '12345a' is not 6 to 15 digits"),
    (table, "record\nIMSI: 123456\nIMSI: 123456", "line 3: 'IMSI' stands in line 2 too"),
    (table, "record\nIMSI: 123456\nMSISDN: 1", "line 3: a record has no 'MSISDN'; it has IMSI, change number, subscription, Access-Restriction-Data, "
            "PLMNs, purged, MME, SGSN, AMBR uplink, AMBR downlink, IMEI"),
    (table, "record\nIMSI: 123456\nchange number: 4294967296", "line 3: '4294967296' is no number from 0 to 4294967295"),
    (table, "record\nIMSI: 123456\nchange number:", "line 3: '' is no number from 0 to 4294967295"),
    (table, "record\nIMSI: 123456\nsubscription: LTE", "line 3: 'LTE' is none of EPS, GPRS"),
    (table, "record\nIMSI: 123456\nAccess-Restriction-Data: 17 WB-E-UTRAN-Not-Allowed", "line 3: the number is 17, but the names behind it come to 16"),
    (table, "record\nIMSI: 123456\nPLMNs: 262-1", "line 3: '262-1' is no PLMN: three digits, a hyphen and two or three digits, or x and six hex digits"),
    (table, "record\nIMSI: 123456\nPLMNs:" + " 262-01" * 9, "line 3: 9 PLMNs; at most 8 have room"),
    (table, "record\nIMSI: 123456\npurged: MME", "line 3: purged in MME, but the record has no MME name"),
    (table, "record\nIMSI: 123456\nMME: a b", "line 3: 'a b' is not a name: at most 64 bytes from ! to ~"),
    (table, "record\nIMSI: 123456\nSGSN: " + 65 * "s", f"line 3: '{65 * 's'}' is not a name: at most 64 bytes from ! to ~"),
    (table, "record\nIMSI: 123456\nIMEI: 1234567890123", "line 3: '1234567890123' is not 14 or 15 digits, or nothing"),
    (table, "record\nIMSI: 123456\nrecord\nIMSI: 123457\nrecord\nIMSI: 123456", "line 5: the IMSI of this record stands in the record of line 1 too"),
    (table, MANY, "line 481: a record too many: 241; a table has at most 240"),
    (table, "record\nIMSI: 123456\nbreaks: record 0, byte 21 (byte 29 of the table): unlisted bytes are zero",
     "line 3: this text shows bytes that break a rule; mend what the line names, then take the line away"),
    (correction, "", "line 1: the correction has no kind"),
    (correction, FRAME.replace("kind: 1", "kind: 5"), "line 1: kind '5' is none of 1 to 4"),
    (correction, FRAME.replace("subscription: EPS", "PLMNs: 262-01"), "line 4: 'PLMNs' is no part of a correction of kind 1"),
    (correction, FRAME.replace("subscription: EPS\n", ""), "line 3: the correction has no 'subscription'"),
    (correction, FRAME.replace("IMSI: 262011234567890", "IMSI: x0F"), "line 2: an IMSI as stored has 16 bytes, not 1"),
    (correction, FRAME + "AMBR: 1", "line 5: a correction has no 'AMBR'; it has kind, IMSI, change number seen, subscription, "
                 "Access-Restriction-Data, PLMNs, AMBR uplink, AMBR downlink"),
    (message, HEAD.replace("command: 316\n", "") + 'Session-Id: "s"', "line 5: the header has no 'command'; it stands before the AVPs"),
    (message, HEAD.replace("flags: R", "flags: R Q"), "line 1: 'Q' is none of R, P, E, T, or bit-N"),
    (message, HEAD + "User-Nane: \"1\"", "line 6: 'User-Nane' is no AVP of docs/DICTIONARY.md; others are written AVP CODE, or AVP CODE vendor VENDOR"),
    (message, HEAD + "User-Name: 1", "line 6: '1' is neither text in quotes nor xHH.."),
    (message, HEAD + "User-Name: x1", "line 6: 'x1' is not x and pairs of hex digits"),
    (message, HEAD + "RAT-Type: LTE", "line 6: 'LTE' is no number from 0 to 4294967295"),
    (message, HEAD + "AMBR: 1", "line 6: AMBR is a group: what it holds stands below it, indented"),
    (message, HEAD + "RAT-Type: 1004\n  IMEI: x00", "line 7: indented below RAT-Type, which is no group"),
    (message, HEAD + "AMBR:\n    Max-Requested-Bandwidth-UL: 1\n  Max-Requested-Bandwidth-DL: 2", "line 8: indented by 2, where the lines before it are by 4"),
    (message, HEAD + "\tIMEI: x00", "line 6: a tab stands before the key; use spaces"),
    (message, HEAD + "IMEI [M]: x00", "line 6: an AVP of vendor 10415 has the flag V"),
    (message, HEAD + "IMEI [V, padding x01]: x00", "line 6: the padding has 1 bytes, where 3 belong"),
    (message, HEAD + 'Session-Id [M, V]: "s"', "line 6: [M, V] says flags twice; it is written [V M, padding x..]"),
    (message, HEAD + 'Session-Id [M, padding x00, padding xFF]: "s"', "line 6: [M, padding x00, padding xFF] says padding twice; it is written [V M, padding x..]"),
    (message, HEAD + 'Session-Id [M] P: "s"', "line 6: 'Session-Id [M] P' is no name with one pair of brackets behind it"),
    (message, HEAD + "a" + 100000 * " " + "b: 1", f"line 6: 'a{100000 * ' '}b' is no AVP of docs/DICTIONARY.md; others are written AVP CODE, or AVP CODE vendor VENDOR"),
    (message, HEAD + "".join(f"{' ' * i}AMBR:\n" for i in range(11)), "line 16: more than 9 groups inside each other; write what the last one holds as rest: xHH.."),
]


def bad_text():
    for kind, text, said in BAD:
        try:
            kind.make(text)
        except BadText as bad:
            expect(str(bad) == said, f"of {text!r}\n  is said:       {bad}\n  and should be: {said}")
        else:
            expect(False, f"taken, and should not be: {text!r}")
    print(f"{len(BAD)} bad texts refused")


# ---- broken bytes: what is shown of them

VALID = table.make("record\nIMSI: 123456\nMME: m\npurged: MME\nrecord\nIMSI: 234567\nPLMNs: 262-01\nIMEI: 35209900176148")
BROKEN = [  # the byte of the table that is set, to what, and what is said
    (3, 0, "header, byte 0: the length field (512) equals the buffer's length (520)"),
    (4, 2, "header, byte 4: version 1 (it is 2)"),
    (5, 1, "header, byte 5: one zero (it is 0x01)"),
    (6, 1, "header, byte 6: its count (258) is at most 240"),
    (7, 1, "header, byte 6: the length is 8 + 256 × count (264 for 1)"),
    (8, 5, "record 0, byte 0 (byte 8 of the table): IMSI: digit count 6–15, ASCII digits, then zeros (the count is 5)"),
    (10, 47, "record 0, byte 2 (byte 10 of the table): IMSI: digit count 6–15, ASCII digits, then zeros (a byte is 0x2F)"),
    (23, 48, "record 0, byte 15 (byte 23 of the table): unused ends of fields are zero"),
    (28, 4, "record 0, byte 20 (byte 28 of the table): bit 0 EPS subscription, bit 1 GPRS subscription; other unused bits are zero"),
    (29, 1, "record 0, byte 21 (byte 29 of the table): unlisted bytes are zero"),
    (292, 9, "record 1, byte 28 (byte 292 of the table): count 0–8 of PLMNs (the count is 9)"),
    (319, 1, "record 1, byte 55 (byte 319 of the table): unused ends of fields are zero"),
    (64, 3, "record 0, byte 56 (byte 64 of the table): a purge bit needs a name (SGSN)"),
    (72, 65, "record 0, byte 64 (byte 72 of the table): MME name length 0–64, name; a name byte is 0x21 to 0x7E (the count is 65)"),
    (73, 32, "record 0, byte 65 (byte 73 of the table): MME name length 0–64, name; a name byte is 0x21 to 0x7E (a byte is 0x20)"),
    (468, 13, "record 1, byte 204 (byte 468 of the table): IMEI digit count 0, 14 or 15, ASCII digits (the count is 13)"),
    (265, 48, "record 1, byte 0 (byte 264 of the table): strictly ascending by bytes 0–15 (record 0 does not stand below)"),
]


def broken_bytes():
    for at, byte, said in BROKEN:
        text, right = table.show(VALID[:at] + bytes([byte]) + VALID[at + 1:])
        expect(not right and f"breaks: {said}" in text, f"byte {at} set to {byte}: not said: {said}\n" + "\n".join(text))
    for size in range(8):
        said = f"breaks: header, byte 0: the table starts with eight bytes; the file has {size}"
        expect(said in table.show(VALID[:size])[0] and not table.show(VALID[:size])[1], f"a table of {size} bytes")
    expect(message.show(bytes(19))[1] is False, "a message of 19 bytes is taken")
    print(f"{len(BROKEN)} broken tables explained")


# ---- the command line

def tool(words, given):
    done = subprocess.run([sys.executable, TOOL, *words], input=given, capture_output=True, check=False)
    return done.returncode, done.stdout, done.stderr.decode("utf-8")


def command_line():
    text = tool(["table", "show"], VALID)
    expect(text[0] == 0 and tool(["table", "make"], text[1]) == (0, VALID, ""), "a table by standard input and output")
    digits = VALID.hex().upper().encode("ascii") + b"\n"
    expect(tool(["table", "show", "--hex"], digits) == text and tool(["table", "make", "--hex"], text[1])[1] == digits, "a table by hex")
    status, told, _ = tool(["table", "show"], VALID[:-1])
    expect(status == 1 and told.startswith(b"breaks: header, byte 0:"), "a table cut short")
    expect(tool(["table", "make"], b"record\n") == (1, b"", "dymosaw-text: -: line 1: the record has no IMSI\n"), "bad text")
    expect(tool(["table", "make"], b"record\n\xff") == (1, b"", "dymosaw-text: -: line 2: the text is not UTF-8\n"), "text that is not UTF-8")
    expect(tool(["table", "show", "/no/such/file"], b"") == (2, b"", "dymosaw-text: /no/such/file: No such file or directory\n"), "no file")
    expect(tool(["table", "show", "--hex"], b"0g")[0] == 2 and tool(["tables", "show"], b"")[0] == 2, "usage")
    expect(tool(["table", "show"], table.make("")) == (0, b"# no record\n", ""), "a table without a record")
    example = re.search(r"^  record\n(?:  .*\n)+", tool(["--help"], b"")[1].decode("utf-8"), re.M)[0]
    named, numbered = (example.replace("16 WB-E-UTRAN-Not-Allowed", mask).encode("utf-8") for mask in ("WB-E-UTRAN-Not-Allowed", "bit-4"))
    expect(tool(["table", "make"], example.encode("utf-8"))[0] == 0 and tool(["table", "make"], named) == tool(["table", "make"], numbered), "the help's example")
    closed = subprocess.run(["sh", "-c", '"$0" "$1" table show <&-', sys.executable, TOOL], capture_output=True, check=False)
    expect((closed.returncode, closed.stderr) == (2, b"dymosaw-text: standard input is closed\n"), "closed standard input")
    frame = bytes.fromhex(FRAMES[0][1])
    with tempfile.NamedTemporaryFile() as lent:
        lent.write(VALID)
        lent.flush()
        status, told, _ = tool(["correction", "show", "--table", lent.name], frame)
    said = b"breaks: number 17, byte 20: change number differs (the record has 0)\nkind: 1\n"
    expect(status == 1 and told.startswith(said), "a table beside a correction")
    expect(tool(["correction", "show"], frame)[0] == 0 and tool(["table", "show", "--table", "t"], b"")[0] == 2, "where a table may stand")
    print("command line as it should be")


def main():
    by_hand()
    deep_groups()
    bad_text()
    broken_bytes()
    command_line()
    there_and_back(sys.argv[1:3])


main()
