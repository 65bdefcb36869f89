#!/usr/bin/env bash
# desk.sh FIRST LAST: the desk program and the second program on generated inputs, one for each seed from FIRST to LAST: they have to print the same lines.
# Beforehand a pipe has to see each line before the next frame is sent. What the runs reached is counted, and a letter or an end that hardly came up fails.
set -u
cd "$(dirname "$0")/.." || exit 2
. tests/lib.sh
here=build/desk
mkdir -p "$here"
: >"$here/lines"

# 01's worked example frame by frame: a line comes before the next frame goes.
seen_at_once() {
    local frames=('0000000E 01 01 00000008 01 00 0000' '00000009 01 02 010203' '00000009 01 03 010203') lines=() frame line
    coproc desk { "${x86_run[@]}" "$desk_program"; }
    for frame in "${frames[@]}"; do
        python3 tests/unhex.py <(echo "$frame") >&"${desk[1]}"
        read -r -t 20 line <&"${desk[0]}" || return 1
        lines+=("$line")
    done
    printf '%s\n' "${lines[@]}" | diff - tests/cases/desk/worked.out
}

same_lines() { # SEED
    build/second desks "$1" >"$here/input" || return 1
    "${x86_run[@]}" "$desk_program" <"$here/input" >"$here/ours" || return 1
    build/second desk <"$here/input" >"$here/theirs" || return 1
    cmp "$here/ours" "$here/theirs" || return 1
    cat "$here/ours" >>"$here/lines"
}

# At least COUNT of the lines printed match PATTERN.
reached() { # COUNT PATTERN
    local count
    count=$(grep -cE "$2" "$here/lines")
    echo "$count lines $2"
    [ "$count" -ge "$1" ]
}

seen_at_once || { echo "a line did not come before the next frame"; exit 1; }
for ((seed = $1; seed <= $2; seed++)); do
    same_lines "$seed" || { echo "seed $seed: the lines differ"; exit 1; }
done
echo "$(($2 - $1 + 1)) runs, $(wc -l <"$here/lines") lines"
reached 100 ' T 0 0 0$' && reached 20 ' T 4 0 0$' && reached 200 ' C 0 0 0$' && reached 20 ' C 1[1-7] 0 0$' && reached 20 ' R [12] 0 0$' &&
    reached 200 ' R 2001 ' && reached 50 ' R 2001 [0-9]+ [12]$' && reached 200 ' R E5[0-9]+ [0-9]+ 0$' && reached 100 ' R [35]0' && reached 50 ' X 0 0 0$'
