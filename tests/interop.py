#!/usr/bin/env python3
"""Has a third party, tshark, read requests and answers of the registry.

  interop.py capture NAMES CASES RESULTS PCAP   messages of the case protocol as a capture file
  interop.py check NAMES PCAP PAGE              what tshark reads there against ANSWERS and REQUESTS below; writes PAGE

NAMES is the file of named cases. What is expected here is worked out by hand from document 01, not taken from a run.
"""
import datetime
import re
import struct
import subprocess
import sys

DIAMETER_PORT = 3868
DIAMETER_PAYLOAD = 46  # SCTP payload protocol identifier
RAW_IP = 101  # capture link type: packets start with their IPv4 header

SESSION = "mme01.epc.mnc001.mcc001.3gppnetwork.org;1;2"
HOST = "hss01.epc.mnc001.mcc262.3gppnetwork.org"
REALM = "epc.mnc001.mcc262.3gppnetwork.org"

# AVPs in tshark's order, groups before what they hold: code, length, flags.
TAIL = ["277 12 M", "264 47 M", "296 41 M"]
RESULT = ["263 51 M", "268 12 M"] + TAIL
EXPERIMENTAL = ["263 51 M", "297 32 M", "266 12 M", "298 12 M"] + TAIL
NO_SESSION = ["268 12 M"] + TAIL
SUBSCRIBER = ["1424 16 VM"]
AMBR = ["1435 44 VM", "516 16 VM", "515 16 VM"]


def result(code, **more):
    return {"Session-Id": SESSION, "Result-Code": code, **more}


def experimental(code):
    return {"Session-Id": SESSION, "Experimental-Result-Code": code, "Vendor-Id": "10415"}


# Of each answer: header flags, command, application, AVPs, values (the others of FIELDS must be absent), remarks of tshark.
S6A = "16777251"
ANSWERS = {
    "interop-ulr-restricted": ("P", "316", S6A, RESULT + ["1406 16 VM", "1400 88 VM"] + SUBSCRIBER + ["1426 16 VM"] + AMBR,
        {**result("2001"), "3gpp.ula_flags": "0x00000001", "Subscriber-Status": "0", "3gpp.acc_res_dat_flags": "0x00000003",
         "Max-Requested-Bandwidth-UL": "50000000", "Max-Requested-Bandwidth-DL": "100000000"}, []),
    "interop-ulr-unrestricted": ("P", "316", S6A, RESULT + ["1406 16 VM", "1400 72 VM"] + SUBSCRIBER + AMBR,
        {**result("2001"), "3gpp.ula_flags": "0x00000001", "Subscriber-Status": "0",
         "Max-Requested-Bandwidth-UL": "1000", "Max-Requested-Bandwidth-DL": "2000"}, []),
    "interop-ulr-skipped": ("P", "316", S6A, RESULT + ["1406 16 VM"], {**result("2001"), "3gpp.ula_flags": "0x00000001"}, []),
    "interop-pur": ("P", "321", S6A,
        RESULT + ["1442 16 VM", "284 48 M", "280 21 M", "33 13 M", "284 44 M", "280 21 M", "33 9 M"],
        {**result("2001"), "3gpp.pua_flags": "0x00000001",
         "Proxy-Host": "dra01.example,dra02.example", "Proxy-State": "0102030405,ff"}, []),
    "interop-nor": ("P", "323", S6A, RESULT, result("2001"), []),
    "interop-unknown-subscriber": ("P", "316", S6A, EXPERIMENTAL, experimental("5001"), []),
    "interop-no-eps-subscription": ("P", "316", S6A, EXPERIMENTAL, experimental("5420"), []),
    "interop-rat-refused": ("P", "316", S6A, EXPERIMENTAL, experimental("5421"), []),
    "interop-roaming-refused": ("P", "316", S6A, EXPERIMENTAL, experimental("5004"), []),
    "interop-unknown-serving-node": ("P", "323", S6A, EXPERIMENTAL, experimental("5423"), []),
    "interop-unknown-avp": ("P", "316", S6A, RESULT + ["279 32 M", "9999 24 VM"],
        {**result("5001"), "avp.unknown": b"what is this".hex()}, ["Unknown AVP 9999", "Unknown Vendor"]),
    "interop-second-user-name": ("P", "321", S6A, RESULT + ["279 32 M", "1 23 M"],
        {**result("5009"), "User-Name": "262019999999999"}, []),
    "interop-rat-type-absent": ("P", "316", S6A, RESULT + ["279 24 M", "1032 16 VM"], {**result("5005"), "RAT-Type": "0"}, []),
    "interop-origin-host-malformed": ("P", "323", S6A, RESULT + ["279 24 M", "264 14 M"],
        {**result("5004"), "Origin-Host": HOST + ",mme 01"}, []),
    "interop-wrong-length": ("P", "316", S6A, NO_SESSION + ["279 20 M", "1407 12 VM"], {"Result-Code": "5014"},
        ["Data is empty"]),
    "interop-another-application": ("PE", "316", "16777252", RESULT, result("3007"), []),
    "interop-another-command": ("PE", "318", S6A, RESULT, result("3001"), []),
}

FIELDS = [
    "Session-Id", "Result-Code", "Experimental-Result-Code", "Vendor-Id", "Auth-Session-State", "Origin-Host", "Origin-Realm",
    "3gpp.ula_flags", "3gpp.pua_flags", "Subscriber-Status", "3gpp.acc_res_dat_flags", "Max-Requested-Bandwidth-UL",
    "Max-Requested-Bandwidth-DL", "User-Name", "RAT-Type", "Proxy-Host", "Proxy-State", "avp.unknown",
]

# Flag bits and PLMN coding as tshark reads them in requests, against what the case means by them.
REQUESTS = {
    "interop-ulr-restricted": {
        "diameter.3gpp.ulr_flags_bit0": "0", "diameter.3gpp.ulr_flags_bit1": "1", "diameter.3gpp.ulr_flags_bit2": "0",
        "diameter.3gpp.ulr_flags_bit5": "1", "diameter.IMEI": "12345678901234",
        "diameter.Visited-PLMN-Id": "00f110", "diameter.RAT-Type": "1004",
        "e212.mcc": "262,1", "e212.mnc": "1,1"},  # of the IMSI, then of the visited PLMN
    "interop-ulr-skipped": {"diameter.3gpp.ulr_flags_bit1": "1", "diameter.3gpp.ulr_flags_bit2": "1"},
    "interop-pur": {"diameter.3gpp.pur_flags_bit0": "1", "diameter.3gpp.pur_flags_bit1": "0"},
    "interop-nor": {"diameter.3gpp.nor_flags_bit0": "1"},
}


def names_of(path):
    return [line.split()[1] for line in open(path) if line.startswith("case ")]


# The capture


def crc32c(data):
    crc = 0xFFFFFFFF
    for byte in data:
        crc ^= byte
        for _ in range(8):
            crc = crc >> 1 ^ (0x82F63B78 if crc & 1 else 0)
    return crc ^ 0xFFFFFFFF


def inet_sum(header):
    total = sum(struct.unpack(">%dH" % (len(header) // 2), header))
    while total >> 16:
        total = (total & 0xFFFF) + (total >> 16)
    return total ^ 0xFFFF


def packet(source, target, number, message):
    """One Diameter message as one SCTP DATA chunk in one IPv4 packet."""
    chunk = struct.pack(">BBHIHHI", 0, 3, 16 + len(message), number, 0, number & 0xFFFF, DIAMETER_PAYLOAD) + message
    chunk += bytes(-len(chunk) % 4)
    ports = struct.pack(">HHI", source[1], target[1], 1)
    sctp = ports + struct.pack("<I", crc32c(ports + bytes(4) + chunk)) + chunk
    start = struct.pack(">BBHHHBB", 0x45, 0, 20 + len(sctp), number, 0, 64, 132)
    ends = bytes(source[0]) + bytes(target[0])
    return start + struct.pack(">H", inet_sum(start + bytes(2) + ends)) + ends + sctp


def fields(data, place, count):
    found = []
    for _ in range(count):
        (size,) = struct.unpack_from(">I", data, place)
        found.append(data[place + 4 : place + 4 + size])
        place += 4 + size
    return found, place


def messages(cases, results):
    """Request and answer of each case; the sample holds requests only, all of them answered."""
    place, at = 0, 0
    while place < len(cases):
        (_, request, *_), place = fields(cases, place + 1, 6)
        number, length = struct.unpack_from(">II", results, at)
        (_, answer, _), at = fields(results, at + 8, 3)
        if number or not length:
            sys.exit("a case of the sample has no answer")
        yield request, answer[:length]


def capture(names, cases, results, out):
    node, registry = ((192, 0, 2, 1), 40000), ((192, 0, 2, 2), DIAMETER_PORT)
    pairs = list(messages(open(cases, "rb").read(), open(results, "rb").read()))
    if len(pairs) != len(names_of(names)):
        sys.exit("names and cases do not go together")
    with open(out, "wb") as file:
        file.write(struct.pack(">IHHiIII", 0xA1B2C3D4, 2, 4, 0, 0, 65535, RAW_IP))
        for i, (request, answer) in enumerate(pairs):
            two = packet(node, registry, 2 * i + 1, request), packet(registry, node, 2 * i + 2, answer)
            for j, data in enumerate(two):
                file.write(struct.pack(">IIII", i, j, len(data), len(data)) + data)


# What tshark reads


def tshark(*words):
    return subprocess.run(["tshark", *words], check=True, stdout=subprocess.PIPE, stderr=subprocess.DEVNULL, text=True).stdout


def table(pcap, wanted):
    """The wanted fields of every frame; a field that occurs several times is joined by commas."""
    words = [word for field in wanted for word in ("-e", field)]
    rows = tshark("-r", pcap, "-T", "fields", "-E", "separator=|", "-E", "occurrence=a", *words)
    return [dict(zip(wanted, row.split("|"))) for row in rows.splitlines()]


def flag_letters(flags, letters):
    return "".join(letter for bit, letter in letters if int(flags, 16) & bit)


def avps(row):
    columns = [row["diameter.avp." + part].split(",") for part in ("code", "len", "flags")]
    return [f"{code} {length} {flag_letters(flags, [(128, 'V'), (64, 'M'), (32, 'P')])}" for code, length, flags in zip(*columns)]


def read_answer(row, request, frame):
    """What the answer's row says, in the form of ANSWERS; anything tshark calls malformed is a remark."""
    flags = flag_letters(row["diameter.flags"], [(128, "R"), (64, "P"), (32, "E"), (16, "T")])
    values = {field: row["diameter." + field] for field in FIELDS if row["diameter." + field]}
    remarks = [row["_ws.expert.message"], row["_ws.malformed"]]
    if row["diameter.answer_to"] != str(frame - 1) or row["diameter.endtoendid"] != request["diameter.endtoendid"]:
        remarks.append("not the answer to the request before it")
    return flags, row["diameter.cmd.code"], row["diameter.applicationId"], avps(row), values, [text for text in remarks if text]


def same(expected, read):
    *parts, values, remarks = expected
    values = {"Auth-Session-State": "1", "Origin-Host": HOST, "Origin-Realm": REALM, **values}
    told = " ".join(read[5])
    return list(read[:4]) == parts and read[4] == values and bool(told) == bool(remarks) and all(text in told for text in remarks)


def judge(names, pcap):
    """For each case whether its answer, and what is asked of its request, was read as expected."""
    header = ["diameter.flags", "diameter.cmd.code", "diameter.applicationId", "diameter.answer_to", "diameter.endtoendid"]
    parts = ["diameter.avp.code", "diameter.avp.len", "diameter.avp.flags", "_ws.expert.message", "_ws.malformed"]
    asked = sorted({field for row in REQUESTS.values() for field in row})
    rows = table(pcap, header + parts + ["diameter." + field for field in FIELDS])
    request_rows = table(pcap, asked)
    wrong = []
    for i, name in enumerate(names):
        read = read_answer(rows[2 * i + 1], rows[2 * i], 2 * i + 2)
        if not same(ANSWERS[name], read):
            wrong.append(f"{name}: expected {ANSWERS[name]}, tshark reads {read}")
        for field, value in REQUESTS.get(name, {}).items():
            if request_rows[2 * i][field] != value:
                wrong.append(f"{name}: {field}: expected {value}, tshark reads {request_rows[2 * i][field]}")
    return wrong


def condensed(pcap, frame):
    """tshark -V of one answer, only the lines that show an AVP and those of the header."""
    text = tshark("-r", pcap, "-V", "-Y", f"frame.number=={frame}")
    text = text[text.index("Diameter Protocol") :]
    keep = re.compile(r" +(AVP: |Length: |Flags: |Command Code: |ApplicationId: |\[Request In)")
    lines = [line for line in text.splitlines() if keep.match(line)]
    return [re.sub("^ +", lambda spaces: " " * ((len(spaces.group()) - 4) // 4), line) for line in lines]


def page(names, pcap, wrong):
    version = tshark("--version").splitlines()[0].rstrip(".")
    rustc = subprocess.run(["rustc", "--version"], stdout=subprocess.PIPE, text=True).stdout.strip()
    lines = [
        "# Interoperation: answers read by a third party", "",
        f"Written by `make interop` on {datetime.date.today()}: {version}; the second program by {rustc}.", "",
        f"{len(names)} requests of tests/cases/interop.txt and the second program's answers, whole messages in SCTP on port "
        f"{DIAMETER_PORT}, were read by tshark. Compared for every answer: header flags, command, application, that it is matched "
        "with its request, code, length and flags of every AVP in order, the values of the named ones, and that tshark finds "
        "nothing malformed. Compared in requests: the flag bits and the PLMN coding that 01 takes from the clauses. What is "
        "expected stands in tests/interop.py.", "",
        f"{len(names)} answers, {len(wrong)} differences.", "",
        "tshark remarks on two Failed-AVPs, as it should: an AVP that it does not know either, and one without data (5014).", "",
    ]
    for i, name in enumerate(names):
        lines += [f"## {name[len('interop-'):]}", "", "```", *condensed(pcap, 2 * i + 2), "```", ""]
    return "\n".join(lines[:-1]) + "\n"


def check(names, pcap, out):
    names = names_of(names)
    if sorted(names) != sorted(ANSWERS):
        sys.exit("tests/interop.py does not speak of the same cases")
    wrong = judge(names, pcap)
    for line in wrong:
        print(line)
    with open(out, "w") as file:
        file.write(page(names, pcap, wrong))
    print(f"{len(names)} answers read by tshark, {len(wrong)} differences; {out} written")
    sys.exit(1 if wrong else 0)


if __name__ == "__main__":
    {"capture": capture, "check": check}[sys.argv[1]](*sys.argv[2:])
