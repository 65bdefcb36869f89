"""widened_test.py: tests/widened.py refuses what it has to. Pairs and results of the second program pass as they are; with one thing
damaged each has to be refused, and so has a stream that is cut and a tally with a row too thin.
"""
import copy
import io
import subprocess
import sys
from collections import Counter

import widened
import widened_rows
from messages import HEADER, M, Reader, Refused, avp_bytes, load_dictionary

PAIRS = 60
SEED = "7"


def flipped(data, place):
    return data[:place] + bytes([data[place] ^ 1]) + data[place + 1:]


def changed(thing, name, value):
    other = copy.copy(thing)
    setattr(other, name, value)
    return other


def with_avp(message, avp):
    """The request with this AVP before all others."""
    length = (len(message) + len(avp)).to_bytes(3, "big")
    return message[:1] + length + message[4:HEADER] + avp + message[HEADER:]


def damaged_results(result):
    """One byte or number changed of each thing that a call leaves."""
    yield "number", changed(result, "refusal", 1)
    yield "answer length", changed(result, "length", result.length + 4)
    for name, places in {
        "table": (0, len(result.table) - 1),
        "answer": (0, 4, HEADER, result.length - 1, result.length, len(result.answer) - 1),
        "cancel": (0, 67, 68, 135, len(result.cancel) - 1),
    }.items():
        for place in places:
            yield f"a byte of the {name}", changed(result, name, flipped(getattr(result, name), place))


def damaged_cases(first, second, mandatory):
    """Second cases that are no widening of the first."""
    yield "nothing widened", first
    for name in ("table", "host", "realm", "answer", "cancel"):
        yield f"another {name}", changed(second, name, flipped(getattr(second, name), 0))
    message = second.request
    for what, place in (("version", 0), ("length field", 3), ("command", 7), ("application", 11), ("hop-by-hop", 12), ("end-to-end", 19)):
        yield what, changed(second, "request", flipped(message, place))
    for what, bit in (("R", 0x80), ("P", 0x40), ("E", 0x20)):
        yield what, changed(second, "request", message[:4] + bytes([message[4] ^ bit]) + message[5:])
    if not mandatory:
        yield "an unknown AVP with M", changed(second, "request", with_avp(message, avp_bytes(0xFFFFFF, M, 0, b"")))
    yield "a second User-Name", changed(second, "request", with_avp(message, avp_bytes(1, M, 0, b"001010000000001")))


def seen_changed(reader, second):
    """A byte of each used AVP's data changed, where that byte is seen."""
    at = HEADER
    request = widened.Request(reader, second.request)
    for avp in request.avps:
        at += len(avp.raw)
        if avp.name in request.used and avp.data and avp.inner is None:
            place = at - len(avp.padding) - 1
            yield f"data of {avp.name}", changed(second, "request", flipped(second.request, place))


def wrongly_shown(reader, cases, results):
    """Answers to an unknown AVP with M that are not the one asked for."""
    yield "M not looked at", results[0]
    first, *others = (found[0] for found in widened.Request(reader, cases[1].request).mandatory())
    echoed = widened.verdict(reader, results[0])[1]
    for other in others:
        if other.raw != first.raw:
            yield "a later AVP shown", widened.unsupported(cases[1], results[0], echoed, other)
    yield "flags not as received", widened.unsupported(cases[1], results[0], echoed, changed(first, "flags", first.flags ^ 1))
    if any(avp.name == "Proxy-Info" for avp in echoed):
        less = [avp for avp in echoed if avp.name != "Proxy-Info"]
        yield "Proxy-Info left out", widened.unsupported(cases[1], results[0], less, first)


def damages(reader, cases, results, mandatory):
    for what, result in damaged_results(results[1]):
        yield what, cases, (results[0], result)
    for what, case in [*damaged_cases(*cases, mandatory), *seen_changed(reader, cases[1])]:
        yield what, (cases[0], case), results
    if mandatory:
        for what, result in wrongly_shown(reader, cases, results):
            yield what, cases, (results[0], result)
    else:
        for what, result in damaged_results(results[0]):
            yield f"first result: {what}", cases, (result, results[1])


def refused(action, *words):
    try:
        action(*words)
    except Refused:
        return True
    return False


def check_kind(reader, maker, mandatory):
    """Every damage to every pair of this maker, then to the streams: the tally, how often each was tried, and which were taken for right."""
    cases = subprocess.run(["build/second", maker, SEED, str(PAIRS)], stdout=subprocess.PIPE, check=True).stdout
    results = subprocess.run(["build/second", "cases"], input=cases, stdout=subprocess.PIPE, check=True).stdout
    counts = widened.check(reader, PAIRS, io.BytesIO(cases), io.BytesIO(results), mandatory)
    tried, taken = Counter(), []
    for pair in widened.pairs(io.BytesIO(cases), io.BytesIO(results)):
        for what, case, result in damages(reader, *pair, mandatory):
            tried[what] += 1
            if not refused(widened.check_pair, reader, case, result, mandatory):
                taken.append(f"{maker}: {what}")
    for what, wanted, some_cases, some_results in (
        ("a pair too few", PAIRS + 1, cases, results),
        ("results cut", PAIRS, cases, results[:-1]),
        ("results too long", PAIRS, cases, results + b"\0"),
        ("cases cut", PAIRS, cases[:-1], results),
        ("no case at all", PAIRS, b"", b""),
    ):
        tried[what] += 1
        if not refused(widened.check, reader, wanted, io.BytesIO(some_cases), io.BytesIO(some_results), mandatory):
            taken.append(f"{maker}: {what}")
    return counts, tried, taken


def check_report():
    """A tally passes with 20 of each row, and not with 19 of one or with a row that no list has."""
    rows = widened_rows.WIDENING
    full = Counter({row: widened_rows.LEAST for row in rows})
    thin, strange = full - Counter(rows[:1]), full + Counter(["no such row"])
    complaints = [bool(widened_rows.report(counts, rows)[1]) for counts in (full, thin, strange, Counter())]
    return complaints == [False, True, True, True]


def main():
    reader = Reader(load_dictionary())
    taken = [] if check_report() else ["the tally's report"]
    for maker, mandatory in (("widened", False), ("widened-mandatory", True)):
        counts, tried, wrong = check_kind(reader, maker, mandatory)
        taken += wrong
        print(f"{maker}: {sum(tried.values())} damages of {len(tried)} kinds, {len(counts)} rows of the tally met")
    for what, count in Counter(taken).items():
        print(f"taken for right: {what} ({count})")
    return 1 if taken else 0


if __name__ == "__main__":
    sys.exit(main())
