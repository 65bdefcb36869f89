# What the gate's tests share. Sourced, from the repository's root.

# Prints how many passed where `rt ci` ended with status 0, its own line `rt: ok` with no bad must-fail edit, and its own closing line with no failure; else
# fails. A bad edit (it cannot be applied, compiled or read) fails nothing in `rt ci` itself.
ci_count() { # STATUS LOG
    local last ok
    last=$(tail -n 1 "$2")
    ok=$(grep -E '^rt: ok;' "$2" | tail -n 1)
    [[ $1 -eq 0 && -n $ok && ! $ok =~ [0-9]\ bad && $last =~ ^([0-9]+)\ passed,\ 0\ failed$ ]] || return 1
    echo "${BASH_REMATCH[1]}"
}

# Runs a test and counts it. KEY is the name by which docs/STATEMENTS.md cites it. What it prints is kept in build/KEY.log and shown where it fails.
run_test() { # KEY WORDS COMMAND..
    local key=$1 words=$2 began=$SECONDS
    shift 2
    if "$@" >"build/$key.log" 2>&1; then
        passed=$((passed + 1))
        echo "ok: $key: $words ($((SECONDS - began)) s)"
    else
        failed=$((failed + 1))
        echo "FAILED: $key: $words"
        tail -n 40 "build/$key.log"
    fi
}

# Programs of the registry are x86-64: compiled and run natively there, by a cross compiler and an emulator elsewhere.
if [ "$(uname -m)" = x86_64 ]; then
    x86_cc=gcc x86_run=()
else
    x86_cc=x86_64-linux-gnu-gcc x86_run=(qemu-x86_64 -L /usr/x86_64-linux-gnu)
fi

# The desk program, as `rt ci` and `rt run` leave it.
desk_program=crates/desk/out/desk

# Builds the static library of crate CRATE, which goes by what its files hold: crates/CRATE/out/libCRATE.a.
static_library() { # CRATE
    (cd "crates/$1" && rt lib)
}

# Compiles a C program of the tests with the static library of crate CRATE.
build_harness() { # CRATE SOURCE PROGRAM
    static_library "$1" && "$x86_cc" -O2 -Wall -Wextra -Werror -static -Iinclude "$2" "crates/$1/out/lib$1.a" -o "$3"
}

build_second() {
    rustc -O --edition 2021 -D warnings tests/second/main.rs -o build/second
}

unit_tests_of_second() {
    rustc -O --edition 2021 -D warnings --test tests/second/main.rs -o build/second_tests && build/second_tests --quiet
}

# A file of named cases through a program that speaks the case protocol, and all of them.
named_file() { # FILE PROGRAM..
    local file=$1
    shift
    build/second named "$file" | "$@" | build/second expected "$file"
}

named_cases() { # PROGRAM..
    local file
    for file in tests/cases/*.txt; do
        named_file "$file" "$@" || return 1
    done
}

# The desk's inputs (hex with comments) through a program that reads frames, against the lines that stand beside them.
desk_cases() { # PROGRAM..
    local input
    for input in tests/cases/desk/*.in; do
        python3 tests/unhex.py "$input" | "$@" | diff - "${input%.in}.out" || return 1
    done
}

# Generated cases, tallied: a row that comes up fewer than 20 times fails.
tally() { # SEED COUNT
    build/second gen "$1" "$2" | build/second tally
}

# The proved message reader and the second program on messages made from generated cases: requests, answers, longer and damaged ones, and a megabyte of
# empty AVPs (which would end a reader whose stack grows with the number of AVPs).
reader_compare() { # SEED COUNT
    local out=build/reader
    mkdir -p "$out"
    build_harness reader_c tests/reader_harness.c "$out/harness" || return 1
    build/second gen "$1" "$2" >"$out/cases" && build/second cases <"$out/cases" >"$out/outcomes" || return 1
    python3 tests/reader_messages.py "$out/cases" "$out/outcomes" "$1" >"$out/messages" || return 1
    build/second read <"$out/messages" >"$out/second" || return 1
    "${x86_run[@]}" "$out/harness" <"$out/messages" >"$out/proved" || return 1
    python3 tests/reader_compare.py "$out/messages" "$out/proved" "$out/second"
}

# Origin-Host of the same messages, by the public call and by the second program: the same bytes, and thousands of messages with and without one.
origin_hosts() {
    local out=build/reader
    build/second hosts <"$out/messages" >"$out/hosts.second" && "${x86_run[@]}" "$out/harness" hosts <"$out/messages" >"$out/hosts" || return 1
    cmp "$out/hosts" "$out/hosts.second" && python3 -c '
import struct, sys
told, at, sizes = sys.stdin.buffer.read(), 0, []
while at < len(told):
    sizes += struct.unpack_from(">I", told, at)
    at += 4 + sizes[-1]
empty = sizes.count(0)
print(len(sizes), "messages,", empty, "without an Origin-Host, the longest", max(sizes))
sys.exit(empty < 1000 or len(sizes) - empty < 1000)' <"$out/hosts"
}

# Generated cases through the C library (or the program $harness) and through the second program, by pipes; the results have to be the same bytes, and some.
compare_cases() { # MAKER..
    local ours theirs
    ours=$(set -o pipefail; "$@" | "${x86_run[@]}" "${harness:-build/harness}" | sha256sum) || return 1
    theirs=$(set -o pipefail; "$@" | build/second cases | sha256sum) || return 1
    echo "the library: $ours; the second program: $theirs"
    [ "$ours" = "$theirs" ] && [ "$ours" != "$(sha256sum </dev/null)" ]
}

# Demand 3 on pairs of an accepted request and a widening of it: the library's two results against each other (or against the refusal that an added
# mandatory AVP asks for), what was widened tallied, and all results against the second program's.
compare_widened() { # MAKER SEED PAIRS
    python3 tests/widened.py "$1" "$3" <(build/second "$@") <(build/second "$@" | "${x86_run[@]}" build/harness) && compare_cases build/second "$@"
}

# Every answer of generated cases, made by the library and read by the compiled message reader: no fault, no unknown mandatory AVP.
answers_read() { # SEED COUNT
    python3 tests/answers.py <(build/second gen "$1" "$2") <(build/second gen "$1" "$2" | "${x86_run[@]}" build/harness) |
        "${x86_run[@]}" build/reader/harness | python3 -c '
import sys
told = sys.stdin.buffer.read()
print(len(told) // 12, "answers read")
sys.exit(len(told) < 12 * 1000 or any(told))'
}

# The C caller's reach, over the library as `make lib` leaves it.
reach() {
    make -s lib && "$x86_cc" -O2 -Wall -Wextra -Werror -static -Ibuild/lib tests/reach.c -Lbuild/lib -ldymosaw -o build/reach &&
        "${x86_run[@]}" build/reach
}

# tools/dymosaw-text on generated cases: there and back, and its word against the second program's.
text_tool() { # SEED COUNT
    build/second gen "$1" "$2" >build/text.cases && build/second cases <build/text.cases >build/text.results || return 1
    python3 tests/text_tool.py build/text.cases build/text.results
}
