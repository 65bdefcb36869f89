#!/usr/bin/env python3
"""reader_messages CASES OUTCOMES [SEED]: messages for the reader, each as a 4-byte length and its bytes, on standard output.

CASES is what `second gen` writes and OUTCOMES what `second cases` answers to it. The messages: every request; every answer; runs of their
AVPs joined to messages past 4,096 bytes; AVPs wrapped in one to ten groups; messages cut at any byte; bytes changed in the AVPs; messages
under 20 bytes; and a megabyte each of empty AVPs, of unknown ones with M, and of nested groups.
"""
import random
import struct
import sys

HEADER = 20
M, V = 0x40, 0x80
GROUPS = [(10415, 1400), (10415, 1401), (0, 260), (10415, 1429), (0, 279), (0, 284)]


def fields(data, at, count):
    found = []
    for _ in range(count):
        (size,) = struct.unpack_from(">I", data, at)
        found.append(data[at + 4 : at + 4 + size])
        at += 4 + size
    return found, at


def requests_and_answers(cases, outcomes):
    at = out = 0
    while at < len(cases):
        op = cases[at]
        parts, at = fields(cases, at + 1, 6 if op == 1 else 2)
        if op == 1:
            number, length = struct.unpack_from(">II", outcomes, out)
            after, out = fields(outcomes, out + 8, 3)
            yield parts[1], after[1][:length] if number == 0 else b""
        else:
            _, out = fields(outcomes, out + 4, 1)


def avp(vendor, code, flags, data):
    flags |= V if vendor else 0
    head = 12 if vendor else 8
    size = (head + len(data)) % 2**24
    out = struct.pack(">IB", code, flags) + size.to_bytes(3, "big") + (struct.pack(">I", vendor) if vendor else b"") + data
    return out + bytes(-len(out) % 4)


def message(header, avps):
    return header[:HEADER] + avps


def wrapped(header, avps, deep, pick):
    for _ in range(deep):
        avps = avp(*pick.choice(GROUPS[:4] if pick.random() < 0.9 else GROUPS), pick.choice([0, M]), avps)
    return message(header, avps)


def changed(m, pick):
    out = bytearray(m)
    for _ in range(pick.randint(1, 3)):
        if len(out) > HEADER:
            i = pick.randrange(HEADER, len(out))
            out[i] = pick.choice([0, 1, 4, 8, 12, M, V, M | V, 255, out[i] ^ (1 << pick.randrange(8))])
    return bytes(out)


def all_messages(pairs, pick):
    pairs = list(pairs)
    whole = [m for pair in pairs for m in pair if len(m) >= HEADER]
    yield from (m for pair in pairs for m in pair)
    for i in range(0, len(whole), 3):
        joined = b"".join(m[HEADER:] for m in (pick.choice(whole) for _ in range(pick.randint(8, 60))))
        yield message(whole[i], joined)
    for m in whole:
        yield wrapped(m, m[HEADER:], pick.randint(1, 10), pick)
        yield m[: pick.randrange(len(m) + 1)]
        yield changed(m, pick)
        yield changed(wrapped(m, m[HEADER:], pick.randint(1, 9), pick), pick)
    for n in range(HEADER):
        yield bytes(range(n))
    yield message(bytes(HEADER), avp(0, 1, M, b"") * 131072)
    yield message(bytes(HEADER), avp(0, 9999, M, b"") * 131072)
    yield message(bytes(HEADER), avp(0, 9999, 0, b"") * 131072 + b"\0")
    eight = avp(0, 1, 0, b"")
    for _ in range(8):
        eight = avp(10415, 1400, M, eight)
    yield message(bytes(HEADER), eight * (2**20 // len(eight)))
    yield message(bytes(HEADER), eight * (2**20 // len(eight)) + avp(10415, 1400, M, eight))


cases, outcomes = (open(path, "rb").read() for path in sys.argv[1:3])
pick = random.Random(int(sys.argv[3]) if len(sys.argv) > 3 else 1)
for m in all_messages(requests_and_answers(cases, outcomes), pick):
    sys.stdout.buffer.write(struct.pack(">I", len(m)) + m)
