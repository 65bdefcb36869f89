"""Demand 3, run: what a newer node adds changes nothing, or is refused with 5001 where it has M.

widened.py widened PAIRS CASES RESULTS            both results of each pair have to be the same bytes
widened.py widened-mandatory PAIRS CASES RESULTS  the second result has to be the refusal of the first AVP with M

CASES holds PAIRS pairs of requests, RESULTS what they came to. Each pair is first shown to be one: an accepted request, and a
request of which the command sees the same. Then the results are compared, and what was widened is tallied (widened_rows.py).
"""
import sys
from collections import Counter

import widened_rows
from messages import HEADER, NAMED_BITS, M, Case, Reader, Refused, Result, avp_bytes, load_dictionary, number

COMMANDS = {316: "ULR", 321: "PUR", 323: "NOR"}
ALWAYS = {"Session-Id", "Auth-Session-State", "Origin-Host", "Origin-Realm", "Destination-Realm", "User-Name", "Proxy-Info"}
USED = {
    "ULR": ALWAYS | {"RAT-Type", "ULR-Flags", "Visited-PLMN-Id", "Terminal-Information"},
    "PUR": ALWAYS | {"PUR-Flags"},
    "NOR": ALWAYS | {"NOR-Flags", "Terminal-Information"},
}
MOST, CANCEL = 4096, 136


class Request:
    """A request read as a tree, with what its command sees of it."""

    def __init__(self, reader, message):
        if len(message) > MOST or number(message[1:4]) != len(message):
            raise Refused("a request too long, or with a wrong length field")
        self.message = message
        self.command = COMMANDS.get(number(message[5:8]))
        if self.command is None:
            raise Refused("another command")
        self.used = USED[self.command]
        self.avps = reader.avps(message[HEADER:])

    def seen(self):
        told = [self.seen_of(avp) for avp in self.avps if avp.name in self.used]
        # Version; R, P and E; command, application and both identifiers.
        return self.message[0], self.message[4] & 0xE0, self.message[5:HEADER], told

    def seen_of(self, avp):
        if avp.name == "Terminal-Information":
            return avp.name, [inner.data for inner in avp.inner if inner.name == "IMEI"]
        if avp.name in NAMED_BITS:
            return avp.name, avp.word() & NAMED_BITS[avp.name]
        return avp.name, avp.data

    def visit(self, avps=None, groups=()):
        """Each AVP in visiting order, with the groups around it, its place and the list that it stands in."""
        avps = self.avps if avps is None else avps
        for place, avp in enumerate(avps):
            yield avp, groups, place, avps
            if avp.inner is not None:
                yield from self.visit(avp.inner, groups + (avp,))

    def mandatory(self):
        """The unknown AVPs with M."""
        return [found for found in self.visit() if found[0].name is None and found[0].flags & M]


def verdict(reader, result):
    """The code of an answer as the desk writes it, and the answer's AVPs."""
    if result.refusal != 0:
        raise Refused(f"refused without an answer: {result.refusal}")
    avps = reader.avps(result.answer[HEADER:result.length])
    codes = [str(avp.word()) for avp in avps if avp.name == "Result-Code"]
    codes += [f"E{avp.inner[-1].word()}" for avp in avps if avp.name == "Experimental-Result" and avp.inner]
    if len(codes) != 1:
        raise Refused("an answer without a code, or with two")
    return codes[0], avps


def unsupported(case, first, echoed, avp):
    """The result that refuses this AVP with 5001: Session-Id and Proxy-Info as the first answer has them, the table as before."""
    session_id = b"".join(known.raw for known in echoed if known.name == "Session-Id")
    proxy_infos = b"".join(known.raw for known in echoed if known.name == "Proxy-Info")
    failed = avp_bytes(avp.key[1], avp.flags, avp.key[0], avp.data)
    own = [(268, (5001).to_bytes(4, "big")), (277, (1).to_bytes(4, "big")), (264, case.host), (296, case.realm), (279, failed)]
    avps = session_id + b"".join(avp_bytes(code, M, 0, data) for code, data in own) + proxy_infos
    length = HEADER + len(avps)
    answer = b"\x01" + length.to_bytes(3, "big") + first.answer[4:HEADER] + avps
    return Result(0, length, case.table, answer + case.answer[length:], bytes(CANCEL) + case.cancel[CANCEL:])


def check_pair(reader, cases, results, mandatory):
    """Refuses a pair that is none or whose results are wrong; what it adds to the tally."""
    for name in ("table", "host", "realm", "answer", "cancel"):
        if getattr(cases[0], name) != getattr(cases[1], name):
            raise Refused(f"the two cases differ in {name}")
    before, after = (Request(reader, case.request) for case in cases)
    if before.message == after.message:
        raise Refused("nothing is widened")
    if before.seen() != after.seen():
        raise Refused("the command sees something else")
    if before.mandatory() or bool(after.mandatory()) != mandatory:
        raise Refused("an unknown AVP with M too many or too few")
    code, echoed = verdict(reader, results[0])
    if code != "2001" and not code.startswith("E"):
        raise Refused(f"the first request is refused with {code}")
    expected = unsupported(cases[1], results[0], echoed, after.mandatory()[0][0]) if mandatory else results[0]
    if results[1].all() != expected.all():
        raise Refused("the widened request came to something else")
    tally = widened_rows.of_mandatory if mandatory else widened_rows.of_widening
    return widened_rows.of_outcome(before, code, results[0]) + tally(reader, before, after)


def pairs(cases, results):
    """The pairs of two streams, which have to end together."""
    while first := Case.next(cases):
        second = Case.next(cases)
        if second is None:
            raise Refused("a request without its widening")
        yield (first, second), (Result.next(results), Result.next(results))
    if results.read(1):
        raise Refused("results without a case")


def check(reader, wanted, cases, results, mandatory):
    """Checks all pairs; the tally's counts."""
    counts, place = Counter(), 0
    for place, (case, result) in enumerate(pairs(cases, results), 1):
        try:
            counts.update(check_pair(reader, case, result, mandatory))
        except Refused as refused:
            raise Refused(f"pair {place}: {refused}") from None
    if place != wanted:
        raise Refused(f"{place} pairs, not {wanted}")
    return counts


def main(maker, wanted, cases, results):
    mandatory = {"widened": False, "widened-mandatory": True}[maker]
    try:
        with open(cases, "rb") as cases, open(results, "rb") as results:
            counts = check(Reader(load_dictionary()), int(wanted), cases, results, mandatory)
    except Refused as refused:
        print("widened:", refused)
        return 1
    lines, complaints = widened_rows.report(counts, widened_rows.MANDATORY if mandatory else widened_rows.WIDENING)
    print(*lines, f"{wanted} pairs hold", *complaints, sep="\n")
    return 1 if complaints else 0


if __name__ == "__main__":
    sys.exit(main(*sys.argv[1:]))
