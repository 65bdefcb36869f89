"""The command line of dymosaw-text."""
import argparse
import sys

from text import correction, message, table
from text.lines import BadText

KINDS = {"table": table, "correction": correction, "request": message, "answer": message}
DONE, REFUSED, FAULT = 0, 1, 2
ABOUT = """Turns a table, a correction, a request or an answer into readable text (show), and text into bytes (make).
Without FILE it reads standard input, without --out it writes to standard output. Records are counted from 0.

Text is one 'key: value' a line; a line that starts with # is a comment. A table has a line 'record' before each record, in any order; a field left out is zero:

  record
  IMSI: 262011234567890
  change number: 7
  subscription: EPS GPRS
  # the number, the names, or both
  Access-Restriction-Data: 16 WB-E-UTRAN-Not-Allowed
  # or x and six hex digits; none: everywhere
  PLMNs: 262-01 001-01
  purged: MME
  MME: mme.example
  SGSN:
  AMBR uplink: 1000
  AMBR downlink: 2000
  IMEI: 35209900176148

A correction has kind, IMSI, change number seen, and the fields of its kind (1 subscription, 2 Access-Restriction-Data, 3 PLMNs, 4 AMBR uplink and
AMBR downlink). A message has flags, command, application, hop-by-hop, end-to-end, then its AVPs by the names of docs/DICTIONARY.md, groups indented.

Exit status: 0 done; 1 the text is bad (its line and the reason are told), a table or a correction breaks a rule of document 01, or a message has no
whole header (lines 'breaks:' in what is shown say which, at which byte); 2 usage, or a file cannot be read or written. A message is shown as far as it
can be read: what the registry would say of it is not judged."""


class Fault(Exception):
    """A file that cannot be read or written, or that is no hex."""


def arguments(words):
    parser = argparse.ArgumentParser(prog="dymosaw-text", description=ABOUT, formatter_class=argparse.RawDescriptionHelpFormatter)
    parser.add_argument("kind", choices=KINDS)
    parser.add_argument("action", choices=["show", "make"])
    parser.add_argument("file", nargs="?", default="-", metavar="FILE")
    parser.add_argument("--out", default="-", metavar="FILE", help="where to write")
    parser.add_argument("--hex", action="store_true", help="the bytes are read or written as hex digits")
    parser.add_argument("--table", metavar="FILE", help="with correction show: say too whether this table would take the correction")
    given = parser.parse_args(words)
    if given.table and (given.kind, given.action) != ("correction", "show"):
        parser.error("--table goes with correction show")
    return given


def standard(stream, name):
    if stream is None:
        raise Fault(f"standard {name} is closed")
    return stream.buffer


def read(path):
    try:
        if path == "-":
            return standard(sys.stdin, "input").read()
        with open(path, "rb") as file:
            return file.read()
    except OSError as error:
        raise Fault(f"{path}: {error.strerror}") from None


def write(path, content):
    try:
        if path == "-":
            out = standard(sys.stdout, "output")
            out.write(content)
            out.flush()
        else:
            with open(path, "wb") as file:
                file.write(content)
    except OSError as error:
        raise Fault(f"{path}: {error.strerror}") from None


def unhexed(content):
    try:
        return bytes.fromhex("".join(content.decode("ascii").split()))
    except ValueError:
        raise Fault("with --hex the input is pairs of hex digits") from None


def decoded(content):
    try:
        return content.decode("utf-8-sig")
    except UnicodeDecodeError as error:
        raise BadText(content.count(b"\n", 0, error.start) + 1, "the text is not UTF-8") from None


def run(given):
    content = read(given.file)
    if given.action == "show":
        shown = [unhexed(part) if given.hex else part for part in [content] + ([read(given.table)] if given.table else [])]
        text, right = KINDS[given.kind].show(*shown)
        write(given.out, "".join(line + "\n" for line in text).encode("utf-8"))
        return DONE if right else REFUSED
    made = KINDS[given.kind].make(decoded(content))
    write(given.out, made.hex().upper().encode("ascii") + b"\n" if given.hex else made)
    return DONE


def main(words):
    given = arguments(words)
    try:
        return run(given)
    except BadText as bad:
        print(f"dymosaw-text: {given.file}: {bad}", file=sys.stderr)
        return REFUSED
    except Fault as fault:
        print(f"dymosaw-text: {fault}", file=sys.stderr)
        return FAULT
