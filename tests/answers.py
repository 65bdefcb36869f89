"""answers.py CASES RESULTS: the answers among the results of the cases, each as a 4-byte length and its bytes, on standard output.

CASES and RESULTS are files or pipes of the case protocol; a result without an answer is passed over.
"""
import struct
import sys

FIELDS = {1: 6, 2: 2}


def field(source):
    size = source.read(4)
    return source.read(struct.unpack(">I", size)[0])


def main():
    with open(sys.argv[1], "rb") as cases, open(sys.argv[2], "rb") as results:
        while op := cases.read(1):
            for _ in range(FIELDS[op[0]]):
                field(cases)
            if op == b"\x02":
                results.read(4)
                field(results)
                continue
            number, length = struct.unpack(">II", results.read(8))
            field(results)
            answer = field(results)[:length]
            field(results)
            if number == 0:
                sys.stdout.buffer.write(struct.pack(">I", length) + answer)


main()
