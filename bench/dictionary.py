"""dictionary.py FILE: the rows of docs/DICTIONARY.md as C, for bench/baseline.c."""
import re
import sys

KINDS = {"Unsigned32": "FOUR", "Integer32": "FOUR", "Enumerated": "FOUR", "Time": "FOUR", "Unsigned64": "EIGHT", "Grouped": "GROUP"}
NOT_ENTERED = ("Proxy-Info", "Failed-AVP")

with open(sys.argv[1], encoding="utf-8") as text:
    rows = re.findall(r"^\| (\d+) \| (\d+) \| (\S+) \| (\w+) \|", text.read(), re.M)
for vendor, code, name, kind in rows:
    print(f"    {{(uint64_t){vendor}u << 32 | {code}u, {'CLOSED' if name in NOT_ENTERED else KINDS.get(kind, 'ANY')}}},")
