"""unhex.py FILE: hex with comments as bytes on standard output. `#` starts a comment; `HH*N` stands for N bytes HH."""
import re
import sys

with open(sys.argv[1], encoding="utf-8") as text:
    words = re.sub(r"#.*", "", text.read()).split()
try:
    for word in words:
        digits, _, times = word.partition("*")
        sys.stdout.buffer.write(bytes.fromhex(digits) * int(times or 1))
    sys.stdout.flush()
except BrokenPipeError:  # a program that ends its run at a bad frame reads no further
    sys.stderr.close()
