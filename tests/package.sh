#!/usr/bin/env bash
# The library as a site gets it: `make install` into an empty tree, examples/link compiled against that tree with pkg-config's flags, and run on the
# example's files. What it prints, the answer and the table it leaves are compared with examples/link/session.txt.
# On x86-64 the program runs under valgrind, elsewhere in the emulator; a second build traps undefined behaviour of the C part.
set -u
cd "$(dirname "$0")/.." || exit 2
. tests/lib.sh
root=$PWD out=$PWD/build/package prefix=/opt/site
warnings=(-std=c99 -pedantic -Wall -Wextra -Werror)
tool=$root/tools/dymosaw-text

fail() {
    echo "package: $*"
    exit 1
}

# Exactly three files are there, readable by all.
installed() { # TREE PREFIX
    local there
    there=$(cd "$1" && find . -type f -printf '%m %P\n' | sort)
    [ "$there" = "644 ${2#/}/include/dymosaw.h
644 ${2#/}/lib/libdymosaw.a
644 ${2#/}/lib/pkgconfig/dymosaw.pc" ] || fail "not the three files: $there"
}

install_both() {
    rm -rf "$out"
    make -s install DESTDIR="$out/usual" >/dev/null || fail "make install"
    installed "$out/usual" /usr/local
    make -s install DESTDIR="$out/root" PREFIX="$prefix" >/dev/null || fail "make install with PREFIX"
    installed "$out/root" "$prefix"
}

flags() {
    PKG_CONFIG_SYSROOT_DIR=$out/root PKG_CONFIG_LIBDIR=$out/root$prefix/lib/pkgconfig pkg-config "$@" dymosaw
}

# The library asks the C library for nothing but what the header says.
asks_for() {
    "${x86_cc%gcc}nm" -u "$out/root$prefix/lib/libdymosaw.a" | awk '$1 == "U" { print $2 }' | sort | tr '\n' ' '
}

compile() {
    local cflags libs
    cflags=$(flags --cflags) && libs=$(flags --libs) && cp examples/link/link.c "$out/link.c" && cd "$out" || fail "pkg-config"
    # shellcheck disable=SC2086
    "$x86_cc" "${warnings[@]}" $cflags link.c $libs -o dynamic &&
        "$x86_cc" -g "${warnings[@]}" $cflags link.c $libs -static -o static &&
        "$x86_cc" "${warnings[@]}" -fsanitize=undefined -fsanitize-undefined-trap-on-error $cflags link.c $libs -static -o trapping || fail "compile"
    cd "$root" && "$x86_cc" "${warnings[@]}" -Ibuild/lib examples/link/link.c -Lbuild/lib -ldymosaw -o "$out/from-repository" ||
        fail "compile from the repository"
}

# What a person at the site would type, and what is told.
step() { # WORDS..
    local words=("$@")
    echo "\$ $*"
    case $1 in
    link) words=("${run_link[@]}" "${@:2}") ;;
    dymosaw-text) words=("$tool" "${@:2}") ;;
    esac
    "${words[@]}" 2>&1
    echo "status $?"
}

session() {
    rm -rf "$out/desk" && mkdir "$out/desk" && cd "$out/desk" && cp "$root"/examples/link/{table,request,correction}.txt . || fail "the example's files"
    step dymosaw-text table make table.txt --out table
    step dymosaw-text request make request.txt --out request
    step dymosaw-text correction make correction.txt --out frame
    step link table request hss.example example answer
    step dymosaw-text answer show answer
    step link table request hss.example example answer
    step link --correct table frame
    step link --correct table frame
    step dymosaw-text table show table
    step link table frame hss.example example answer
    step link /dev/null request hss.example example answer
    step link table request "hss example" example answer
    step link nowhere request hss.example example answer
    step link table
    cd "$root" || fail "the repository"
}

run_session() { # WORDS..
    run_link=("$@")
    session >"$out/session" && diff examples/link/session.txt "$out/session" || fail "the session by $*"
}

# Where the list of nodes to cancel cannot be told, the table stays: it is asked again.
list_comes_first() { # WORDS..
    local desk=$out/first
    mkdir -p "$desk" && "$tool" table make examples/link/table.txt --out "$desk/table" && "$tool" request make examples/link/request.txt --out "$desk/request" &&
        cp "$desk/table" "$desk/before" || fail "the example's files"
    "$@" "$desk/table" "$desk/request" hss.example example "$desk/answer" >/dev/full 2>"$desk/told" && fail "link says that all went well on a full disk"
    cmp "$desk/before" "$desk/table" || fail "the table was changed before the list was told"
}

install_both
[ "$(flags --modversion)" = "$(sed -n 's/^VERSION := //p' Makefile)" ] || fail "pkg-config's version"
[ "$(asks_for)" = "memcpy memset " ] || fail "the library asks for: $(asks_for)"
compile
if [ "$(uname -m)" = x86_64 ]; then
    run_session valgrind -q --error-exitcode=9 --leak-check=full "$out/dynamic"
else
    run_session "${x86_run[@]}" "$out/static"
fi
run_session "${x86_run[@]}" "$out/trapping"
list_comes_first "${x86_run[@]}" "$out/static"
echo "installed, compiled and run"
