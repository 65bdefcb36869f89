#!/usr/bin/env bash
# The gate: `rt ci` over every crate of crates.txt, then every test; the last line is 'N passed, 0 failed' only where both went through.
# A test is a function or a command that exits 0; a generated run of many cases counts as one.
set -u
cd "$(dirname "$0")/.." || exit 2
. tests/setup.sh
. tests/lib.sh
mkdir -p build

rt ci 2>&1 | tee build/ci.log
passed=$(ci_count "${PIPESTATUS[0]}" build/ci.log) || {
    echo "gate: rt ci did not pass, or has bad must-fail edits"
    exit 1
}
failed=0

run_test check "each crate's own check, with whose work the C library and the second looks at must-fail edits begin" rt all check
run_test must-fail "every must-fail edit is refused at the place its comment names" python3 tests/must_fail.py build/ci.log
run_test must-fail-damaged "the must-fail test refuses edits that are refused elsewhere, or not at all" python3 tests/must_fail_test.py
run_test gate "the gate passes only where rt ci says so itself" tests/gate_test.sh
run_test dictionary "docs/DICTIONARY.md and the crate's rows agree" python3 tests/dictionary.py docs/DICTIONARY.md crates/dictionary
run_test dictionary-damaged "the dictionary test refuses damaged copies" python3 tests/dictionary.py --self-test docs/DICTIONARY.md crates/dictionary
run_test statements "every name that docs/STATEMENTS.md cites is there" python3 tests/statements.py
run_test statements-damaged "the statements test refuses damaged copies" python3 tests/statements.py --self-test
run_test numbers "the numbers of document 01 stand once, by name" python3 tests/numbers_once.py
run_test numbers-damaged "the numbers test refuses damaged copies" python3 tests/numbers_once.py --self-test
run_test contracts "every public function has an ensures, and no public call a requires" python3 tests/contracts.py
run_test contracts-damaged "the contracts test refuses damaged copies" python3 tests/contracts.py --self-test
run_test promises "what docs/PROMISES.md quotes and names is there" python3 tests/promises.py
run_test promises-damaged "the promises test refuses damaged copies" python3 tests/promises.py --self-test
run_test second "the second program compiles without a warning" build_second
run_test second-unit "the second program's unit tests" unit_tests_of_second
run_test second-named "named cases, by the second program" named_cases build/second cases
run_test second-desk "desk cases, by the second program" desk_cases build/second desk
run_test tally "50,000 generated cases reach every row of the tally" tally 1 50000
run_test reader "the proved reader and the second program agree on more than 20,000 messages" reader_compare 1 6000
run_test origin-host "the public call and the second program give the same Origin-Host of each of these messages" origin_hosts
run_test library "the C library and the harness compile without a warning" build_harness dymosaw_c tests/harness.c build/harness
run_test corrections "20,000 generated corrections through the C library and the second program" compare_cases build/second corrections 1 20000
run_test library-named "named cases, by the C library" named_cases "${x86_run[@]}" build/harness
run_test library-cases "50,000 generated cases through the C library and the second program" compare_cases build/second gen 1 50000
run_test runs "200 runs of 500 requests and corrections in a row" compare_cases build/second runs 1 200 500
run_test widened-damaged "the test of widened requests refuses damaged pairs and results" python3 tests/widened_test.py
run_test widened "20,000 widenings of accepted requests change nothing, by the C library" compare_widened widened 1 20000
run_test widened-mandatory "5,000 widenings with a mandatory AVP are refused with 5001, by the C library" compare_widened widened-mandatory 1 5000
run_test desk-cases "desk cases, by the desk program" desk_cases "${x86_run[@]}" "$desk_program"
run_test desk-runs "300 generated runs by the desk program and the second program; a pipe sees each line at once" tests/desk.sh 1 300
run_test answers "every answer of 50,000 cases is read by the compiled message reader without a fault" answers_read 1 50000
run_test reach "zero lengths, greatest sizes, odd addresses and the same call twice, from C" reach
run_test package "the installed library, linked by examples/link with pkg-config's flags, runs the example's session" tests/package.sh
run_test text-tool "tools/dymosaw-text: tables, corrections and messages of 1,500 cases there and back; bad text and broken bytes explained" text_tool 7 1500

echo "$passed passed, $failed failed"
[ "$failed" -eq 0 ]
