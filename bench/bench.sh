#!/usr/bin/env bash
# `make bench`: the library beside bench/baseline.c, the same work in plain C: x86-64 instructions a call, the same on every machine, and on x86-64 calls a
# second. First the baseline's bytes are compared with the second program's. Prints the tables of docs/PERFORMANCE.md. Outside the gate.
set -u
cd "$(dirname "$0")/.." || exit 2
. tests/setup.sh
. tests/lib.sh
need qemu-x86_64 qemu-user
need gcc gcc

out=build/bench
c_flags=(-O2 -std=gnu11 -Wall -Wextra -Werror -Iinclude -Ibench "-I$out")
renamed=(-Ddymosaw_request=baseline_request -Ddymosaw_correct=baseline_correct)

build_bench() {
    build_second && static_library dymosaw_c &&
        gcc -O2 -shared -fPIC -Wall -Wextra -Werror bench/count.c -o "$out/libcount.so" &&
        python3 bench/dictionary.py docs/DICTIONARY.md >"$out/dictionary.inc" &&
        "$x86_cc" "${c_flags[@]}" -c bench/baseline.c -o "$out/baseline.o" &&
        "$x86_cc" "${c_flags[@]}" -static bench/driver.c crates/dymosaw_c/out/libdymosaw_c.a -o "$out/library" &&
        "$x86_cc" "${c_flags[@]}" -static "${renamed[@]}" bench/driver.c "$out/baseline.o" -o "$out/baseline" &&
        "$x86_cc" "${c_flags[@]}" -static "${renamed[@]}" tests/harness.c "$out/baseline.o" -o "$out/harness"
}

# The comparison is of the same work: the baseline leaves the second program's bytes.
same_bytes() {
    local harness=$out/harness
    compare_cases build/second gen 1 10000 && compare_cases build/second corrections 1 10000 && named_cases "${x86_run[@]}" "$harness"
}

mkdir -p "$out" || exit 1
build_bench >"$out.log" 2>&1 && same_bytes >>"$out.log" 2>&1 || {
    tail -n 40 "$out.log"
    echo "bench: not built, or the baseline's bytes differ"
    exit 1
}
exec python3 bench/bench.py "$out"
