#!/usr/bin/env bash
# `ci_count` takes `rt ci`'s word for it and nothing less: a failure, another last line, a bad status, an empty log, a bad must-fail edit, or a run that was
# not of every crate is refused.
set -u
cd "$(dirname "$0")/.." || exit 2
. tests/lib.sh
log=$(mktemp)
trap 'rm -f "$log"' EXIT

refused() { # STATUS TEXT
    printf '%b' "$2" >"$log"
    if ci_count "$1" "$log"; then
        echo "taken for a pass: status $1, '$2'"
        exit 1
    fi
}

ok='rt: ok; handles allowed: none; must-fail edits: 4 refused; every proof and must-fail edit was done in this run\n'
refused 0 ''
refused 0 "${ok}12 passed, 1 failed\\n"
refused 1 "${ok}12 passed, 0 failed\\n"
refused 0 "${ok}12 passed, 0 failed\\nrt: stopped\\n"
refused 0 "${ok}rt: 12 passed, 0 failed\\n"
refused 0 '12 passed, 0 failed\n'
refused 0 'rt: FAILED: wire\n12 passed, 0 failed\n'
refused 0 "${ok/refused;/refused, 1 bad;}12 passed, 0 failed\\n"
refused 0 "${ok/4 refused;/0 refused, 12 bad;}12 passed, 0 failed\\n"
refused 0 "${ok/refused;/refused, 1 of them only by a limit, 2 bad;}12 passed, 0 failed\\n"
refused 0 "${ok}12 passed, 0 failed (wire and the crates below alone: not the gate)\\n"
printf '%b' "rt: wire proved\\n${ok}12 passed, 0 failed\\n" >"$log"
[ "$(ci_count 0 "$log")" = 12 ]
