"""inputs.py: the cases of `make bench`, each as bytes of the case protocol. Nothing here is random."""
import struct

HOST, REALM = b"hss.example", b"example"
VENDOR = 10415


def avp(code, data, vendor=0, flags=0x40):
    head = struct.pack(">I", vendor) if vendor else b""
    length = 8 + len(head) + len(data)
    return struct.pack(">II", code, (flags | (0x80 if vendor else 0)) << 24 | length) + head + data + bytes(-length % 4)


def number(code, value, vendor=0, flags=0x40):
    return avp(code, struct.pack(">I", value), vendor, flags)


def message(command, avps):
    return struct.pack(">IIIII", 1 << 24 | 20 + len(avps), 0xC0 << 24 | command, 16777251, 0x11223344, 0x55667788) + avps


def imsi(i):
    return b"26201%010d" % i


def record(i):
    """A record with names of 40 bytes, 8 PLMNs and an IMEI; its first PLMN is the visited one."""
    r = bytearray(256)
    r[0:16] = bytes([15]) + imsi(i)
    r[20], r[28], r[32:56], r[56] = 3, 8, b"\x62\xf2\x10" + bytes(range(4, 25)), 3
    r[64:105] = bytes([40]) + b"m" * 40
    r[129:170] = bytes([40]) + b"s" * 40
    r[196:204] = struct.pack(">II", 50_000_000, 100_000_000)
    r[204:220] = bytes([15]) + b"1" * 15
    return bytes(r)


def table(count):
    body = b"".join(record(i) for i in range(count))
    return struct.pack(">IBBH", 8 + len(body), 1, 0, count) + body


def common(host, user):
    """What every request of S6a has, in the order of TS 29.272."""
    session = avp(263, b"mme1.site.example;1876543210;3021;4711")
    application = avp(260, number(266, VENDOR) + number(258, 16777251))
    names = avp(264, host) + avp(296, b"site.example") + avp(293, HOST) + avp(283, REALM)
    features = avp(628, number(266, VENDOR) + number(629, 1, VENDOR, 0) + number(630, 0x1C, VENDOR, 0), VENDOR, 0)
    return session + application + number(277, 1) + names + avp(1, user) + features


def update(user, host=b"mme2.epc.mnc001.mcc262.3gppnetwork.org"):
    """A ULR on S6a with Initial-Attach from an MME that displaces the stored one: both nodes of the record are listed."""
    terminal = avp(1401, avp(1402, b"35824005111111", VENDOR) + avp(1403, b"01", VENDOR), VENDOR)
    used = number(1032, 1004, VENDOR, 0) + number(1405, 0x22, VENDOR) + number(1615, 0, VENDOR, 0) + avp(1407, b"\x62\xf2\x10", VENDOR)
    proxy = avp(284, avp(280, b"agent.site.example") + avp(33, b"state-0001"))
    return common(host, user) + terminal + used + avp(282, b"agent.site.example") + proxy


def purge(user):
    return common(b"m" * 40, user) + number(1635, 1, VENDOR, 0)


def filler(avps, one):
    """What makes the AVPs up to 4,096 bytes: as many of the one AVP as fit, and an unknown one that takes the rest."""
    room = 4096 - 20 - len(avps)
    many = one * ((room - 8) // len(one))
    return many + avp(65000, bytes(room - len(many) - 8), 0, 0)


def field(data):
    return struct.pack(">I", len(data)) + data


def request(count, command, avps):
    lent = (table(count), message(command, avps), HOST, REALM, bytes(4352), bytes(136))
    return b"\1" + b"".join(field(part) for part in lent)


def correction(count, value=bytes(8)):
    frame = struct.pack(">HBB", 24 + len(value), 1, 4) + bytes([15]) + imsi(count - 1) + bytes(4) + value
    return b"\2" + field(table(count)) + field(frame)


def check(count):
    """A correction without a frame: the table is checked, then the frame refused."""
    return b"\2" + field(table(count)) + field(b"")


def cases():
    """Name and case. Every ULR, PUR and correction is of the last record, the deepest of the search."""
    for count in (1, 15, 60, 240):
        yield f"ULR, table of {count}", request(count, 316, update(imsi(count - 1)))
    last = imsi(14)
    yield "PUR, table of 15", request(15, 321, purge(last))
    yield "refused (5001), table of 15", request(15, 316, update(last) + avp(65001, b"later", VENDOR))
    yield "no such IMSI, table of 15", request(15, 316, update(imsi(99)))
    ulr, smallest = update(last), avp(65000, b"", 0, 0)
    yield "largest ULR, Proxy-Infos, table of 15", request(15, 316, ulr + filler(ulr, avp(284, avp(280, b"a" * 40) + avp(33, b"s" * 40))))
    yield "largest ULR, smallest AVPs behind, table of 15", request(15, 316, ulr + filler(ulr, smallest))
    yield "largest ULR, smallest AVPs before, table of 15", request(15, 316, filler(ulr, smallest) + ulr)
    for count in (15, 240):
        yield f"correction, table of {count}", correction(count)
    for count in (0, 1, 15, 60, 240):
        yield f"table check, table of {count}", check(count)
