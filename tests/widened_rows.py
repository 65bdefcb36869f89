"""The tally of tests/widened.py: which ways to widen a request came up, found by comparing the bytes of the two requests.

A row that comes up fewer than 20 times, or that no list names, fails: the pairs then leave something of demand 3 untried.
"""
from collections import Counter

from messages import NAMED_BITS, M, V

LEAST = 20
VENDOR = 10415

OUTCOMES = [
    "2001 ULR S6a", "2001 ULR S6d", "2001 PUR", "2001 NOR", "E5001 ULR S6a", "E5001 ULR S6d", "E5001 PUR", "E5001 NOR",
    "E5420 ULR S6a", "E5420 ULR S6d", "E5421 ULR S6a", "E5421 ULR S6d", "E5004 ULR S6a", "E5004 ULR S6d", "E5423 NOR",
    "a node listed", "Proxy-Info there", "two Proxy-Infos there",
]
UNKNOWN = [
    "before the first", "between", "after the last", "in a group", "in a group inside a group", "in three groups or more",
    "in eight groups", "first of a group", "last of a group", "alone in a group", "in Terminal-Information", "with V",
    "without V", "with V and vendor 0", "of vendor 10415", "known code, other vendor", "without data", "data of an odd length",
    "padding not zero", "ignored bits set",
]
SIZE = "the widened request has 4,096 bytes"
WIDENING = OUTCOMES + ["unknown: " + row for row in UNKNOWN] + [
    "unknown: one with the key of another", "unknown: taken out", "unknown: data changed", SIZE,
    *(f"header bit {bit}" for bit in range(5)),
    *(f"AVP bit {bit}, used" for bit in range(6)), *(f"AVP bit {bit}, known" for bit in range(6)), "AVP bit, unknown", "AVP bit in a group",
    "M set, used", "M cleared, used", "M set, known", "M cleared, known", "M changed in a group",
    *(f"flags of {name}" for name in (
        "Session-Id", "Auth-Session-State", "Origin-Host", "Origin-Realm", "Destination-Realm", "User-Name", "RAT-Type", "ULR-Flags",
        "Visited-PLMN-Id", "PUR-Flags", "NOR-Flags", "Terminal-Information", "Proxy-Info", "IMEI")),
    *(f"{word} bit {bit}" for word, named in NAMED_BITS.items() for bit in range(32) if not named >> bit & 1),
    *(f"{word} where another command uses it" for word in NAMED_BITS),
    "V with vendor 0, used", "padding of a used AVP", "padding of Session-Id", "padding of Proxy-Info",
    "Feature-List changed", "DSR-Flags changed", "data of an unused AVP", "size of unused data",
    "put in: Feature-List", "put in: DSR-Flags", "put in: Supported-Features", "put in: a group", "put in: top level", "put in: in a group",
    "put in: used elsewhere", "put in: IMEI outside Terminal-Information", "put in: Proxy-Info in a group", "put in: Failed-AVP",
    "put in: Terminal-Information in a PUR",
    "taken out: top level", "taken out: in a group", "taken out: a group",
]
MANDATORY = OUTCOMES + ["first with M: " + row for row in UNKNOWN] + [
    "another with M after it", "another with M and its key", "an unknown one without M before it", "a group before it", SIZE,
]


def of_outcome(request, code, result):
    """What the first request came to."""
    interface = ""
    if request.command == "ULR":
        word = next(avp.word() for avp in request.avps if avp.name == "ULR-Flags")
        interface = " S6a" if word & 2 else " S6d"
    proxy_infos = sum(avp.name == "Proxy-Info" for avp in request.avps)
    yes = {"a node listed": result.cancel[0] != 0, "Proxy-Info there": proxy_infos, "two Proxy-Infos there": proxy_infos > 1}
    return [f"{code} {request.command}{interface}"] + [row for row, holds in yes.items() if holds]


def of_unknown(reader, avp, groups, place, siblings):
    """Where an unknown AVP stands and what it is like."""
    depth, last = len(groups), len(siblings) - 1
    yes = {
        "before the first": depth == 0 and place == 0,
        "between": depth == 0 and 0 < place < last,
        "after the last": depth == 0 and place == last,
        "in a group": depth == 1,
        "in a group inside a group": depth == 2,
        "in three groups or more": depth >= 3,
        "in eight groups": depth == 8,
        "first of a group": depth > 0 and place == 0 < last,
        "last of a group": depth > 0 and place == last > 0,
        "alone in a group": depth > 0 and last == 0,
        "in Terminal-Information": depth == 1 and groups[0].name == "Terminal-Information",
        "with V": avp.flags & V,
        "without V": not avp.flags & V,
        "with V and vendor 0": avp.flags & V and avp.key[0] == 0,
        "of vendor 10415": avp.key[0] == VENDOR,
        "known code, other vendor": avp.key[1] in reader.codes,
        "without data": not avp.data,
        "data of an odd length": len(avp.data) % 2,
        "padding not zero": any(avp.padding),
        "ignored bits set": avp.flags & 0x3F,
    }
    return [row for row, holds in yes.items() if holds]


def of_mandatory(reader, before, after):
    """What the first unknown AVP with M is like, and what is around it."""
    (avp, groups, place, siblings), *others = after.mandatory()
    passed = []
    for found in after.visit():
        if found[0] is avp:
            break
        passed.append(found[0])
    yes = {
        "another with M after it": others,
        "another with M and its key": any(other[0].key == avp.key for other in others),
        "an unknown one without M before it": any(other.name is None for other in passed),
        "a group before it": any(other.inner is not None for other in passed if other not in groups),
        SIZE: len(after.message) == 4096,
    }
    rows = [row for row, holds in yes.items() if holds]
    return rows + ["first with M: " + row for row in of_unknown(reader, avp, groups, place, siblings)]


def of_widening(reader, before, after):
    """Every difference of the two requests, as rows."""
    flips = before.message[4] ^ after.message[4]
    rows = [f"header bit {bit}" for bit in range(5) if flips >> bit & 1]
    if len(after.message) == 4096:
        rows.append(SIZE)
    Difference(reader, before, rows).of_lists(before.avps, after.avps, ())
    return rows


class Difference:
    """Compares lists key by key. Where both have as many AVPs of a key, these are taken to be the same in order; else some were put in or taken out."""

    def __init__(self, reader, request, rows):
        self.reader, self.request, self.rows = reader, request, rows

    def of_lists(self, before, after, groups):
        for key in {avp.key for avp in before + after}:
            had, has = ([avp for avp in avps if avp.key == key] for avps in (before, after))
            if len(had) == len(has):
                for one, other in zip(had, has):
                    self.of_kept(one, other, groups)
            elif len(has) < len(had):
                self.of_taken_out(had[0], groups)
            else:
                self.of_put_in(had, has, after, groups)

    def of_put_in(self, had, has, after, groups):
        """Those whose data was not there, or the last ones where all look alike."""
        there = [avp.data for avp in had]
        strange = [avp for avp in has if avp.data not in there] or has[len(had):]
        for avp in strange[:len(has) - len(had)]:
            if avp.name is None:
                rows = of_unknown(self.reader, avp, groups, after.index(avp), after)
                self.rows += ["unknown: " + row for row in rows]
                self.rows += ["unknown: one with the key of another"] * (len(has) > 1)
            else:
                self.of_known(avp, groups)
                self.of_lists([], avp.inner or [], groups + (avp,))

    def of_known(self, avp, groups):
        yes = {
            f"put in: {avp.name}": avp.name in ("Feature-List", "DSR-Flags", "Supported-Features", "Failed-AVP"),
            "put in: a group": avp.inner is not None,
            "put in: top level": not groups,
            "put in: in a group": groups,
            "put in: used elsewhere": groups and avp.name in self.request.used,
            "put in: IMEI outside Terminal-Information": avp.name == "IMEI",
            "put in: Proxy-Info in a group": avp.name == "Proxy-Info",
            "put in: Terminal-Information in a PUR": avp.name == "Terminal-Information" and not groups,
            f"{avp.name} where another command uses it": self.is_others_word(avp, groups),
        }
        self.rows += [row for row, holds in yes.items() if holds]

    def of_taken_out(self, avp, groups):
        if avp.name is None:
            self.rows.append("unknown: taken out")
            return
        self.rows.append("taken out: in a group" if groups else "taken out: top level")
        self.rows += ["taken out: a group"] * (avp.inner is not None)

    def uses(self, avp, groups):
        if not groups:
            return avp.name in self.request.used
        in_terminal = len(groups) == 1 and groups[0].name == "Terminal-Information"
        return avp.name == "IMEI" and in_terminal and "Terminal-Information" in self.request.used

    def is_others_word(self, avp, groups):
        return not groups and avp.name in NAMED_BITS and avp.name not in self.request.used

    def of_kept(self, one, other, groups):
        used = self.uses(one, groups)
        self.of_flags(one, other, groups, used)
        self.of_data(one, other, groups, used)
        if one.inner is not None:
            self.of_lists(one.inner, other.inner, groups + (other,))

    def of_flags(self, one, other, groups, used):
        flips = one.flags ^ other.flags
        if one.name is None:
            self.rows += ["AVP bit, unknown"] * (flips & 0x3F != 0)
            return
        word = "used" if used else "known"
        self.rows += [f"AVP bit {bit}, {word}" for bit in range(6) if flips >> bit & 1]
        if flips & M:
            self.rows.append(f"M {'set' if other.flags & M else 'cleared'}, {word}")
        yes = {
            f"flags of {one.name}": used and flips,
            "V with vendor 0, used": used and other.flags & flips & V,
            "AVP bit in a group": groups and flips & 0x3F,
            "M changed in a group": groups and flips & M,
        }
        self.rows += [row for row, holds in yes.items() if holds]

    def of_data(self, one, other, groups, used):
        if used:
            padding = one.padding != other.padding
            named = one.name in ("Session-Id", "Proxy-Info")
            self.rows += ["padding of a used AVP"] * padding + [f"padding of {one.name}"] * (padding and named)
            flips = one.word() ^ other.word() if one.name in NAMED_BITS else 0
            self.rows += [f"{one.name} bit {bit}" for bit in range(32) if flips >> bit & 1]
        elif one.data != other.data and one.inner is None:
            yes = {
                "unknown: data changed": one.name is None,
                "data of an unused AVP": one.name is not None,
                "size of unused data": one.name is not None and len(one.data) != len(other.data),
                f"{one.name} changed": one.name in ("Feature-List", "DSR-Flags"),
                f"{one.name} where another command uses it": self.is_others_word(one, groups),
            }
            self.rows += [row for row, holds in yes.items() if holds]


def report(counts, rows):
    """The rows with their counts, and what is wrong with them."""
    counts = Counter(counts)
    lines = [f"{counts[row]}\t{row}" for row in rows]
    complaints = [f"{row}: {counts[row]}, under {LEAST}" for row in rows if counts[row] < LEAST]
    complaints += [f"{row}: a row that is not in the list" for row in counts if row not in rows]
    return lines, complaints
