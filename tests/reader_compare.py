#!/usr/bin/env python3
"""reader_compare MESSAGES PROVED SECOND: the proved reader and the second program say the same of each message; prints what they say how often."""
import collections
import struct
import sys

messages, proved, second = (open(path, "rb").read() for path in sys.argv[1:4])
at, sizes = 0, []
while at < len(messages):
    (size,) = struct.unpack_from(">I", messages, at)
    sizes.append((at + 4, size))
    at += 4 + size
if not len(proved) == len(second) == 12 * len(sizes):
    sys.exit(f"reader_compare: {len(sizes)} messages, {len(proved)} and {len(second)} bytes of answers")
said = collections.Counter()
for i, (start, size) in enumerate(sizes):
    ours, theirs = (struct.unpack_from(">III", answers, 12 * i) for answers in (proved, second))
    if ours != theirs:
        sys.exit(f"reader_compare: message {i}: proved {ours}, second {theirs}: {messages[start : start + min(size, 4096)].hex()}")
    said[ours[0]] += 1
past = sum(size > 4096 for _, size in sizes)
told = ", ".join(f"{code}: {said[code]}" for code in sorted(said))
print(f"{len(sizes)} messages agree, {past} of them past 4,096 bytes, the longest {max(size for _, size in sizes)}; {told}")
