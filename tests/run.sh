#!/usr/bin/env bash
# `make run`: proves and builds the desk program and runs it. `make run < FILE` reads frames; without input it runs the morning that ships with the
# repository, and shows beside each line what its frame is, in the words of tests/cases/desk/morning.in.
set -u
cd "$(dirname "$0")/.." || exit 2
. tests/setup.sh
. tests/lib.sh
mkdir -p build
morning=tests/cases/desk/morning

# Bytes wait on standard input: a file with some left, or a pipe that holds some. A terminal and /dev/null have none.
frames_wait() {
    python3 -c '
import array, fcntl, os, stat, sys, termios
try:
    kind, waiting = os.fstat(0).st_mode, array.array("i", [0])
    if stat.S_ISREG(kind) or stat.S_ISFIFO(kind) or stat.S_ISSOCK(kind):
        fcntl.ioctl(0, termios.FIONREAD, waiting)
except OSError:
    sys.exit(1)
sys.exit(waiting[0] <= 0)'
}

desk() {
    "${x86_run[@]}" "$desk_program"
}

(cd crates/desk && rt run </dev/null) >build/run.log 2>&1 || {
    cat build/run.log
    exit 1
}
if frames_wait; then
    desk
    exit
fi
echo "The desk program and every crate below it are proved, and $desk_program is built (the log is in build/run.log)."
echo "A morning at the port, $morning.in; each line: frame number, letter, code, answer length, entries listed."
echo
python3 tests/unhex.py "$morning.in" | desk >build/morning.out
paste build/morning.out <(sed -n 's/^# frame [0-9]*: //p' "$morning.in") | awk -F '\t' '$1 != "" { printf "%-16s  %s\n", $1, $2 }'
diff build/morning.out "$morning.out"
