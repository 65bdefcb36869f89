# Sourced by the scripts that run on a fresh machine: says what is missing, and installs what Debian has.
# The Rattle kit's `rt` has to be on the path; its version is pinned in README.md.

if ! command -v rt >/dev/null; then
    echo "setup: 'rt' of the Rattle kit is not on the path (README.md, \"What it needs\")" >&2
    exit 2
fi

# Installs the Debian package $2 where the command or file $1 is not there.
need() {
    [ -e "$1" ] || command -v "$1" >/dev/null && return
    echo "setup: installing $2 for '$1'" >&2
    if [ -z "${apt_updated:-}" ]; then apt-get update -qq >&2 && apt_updated=1; fi
    DEBIAN_FRONTEND=noninteractive apt-get install -y -qq --no-install-recommends "$2" >/dev/null || {
        echo "setup: '$1' is missing and the package $2 could not be installed" >&2
        exit 2
    }
}

need make make
need python3 python3
need rustc rustc
need pkg-config pkg-config
if [ "$(uname -m)" = x86_64 ]; then
    need gcc gcc
    need valgrind valgrind
else
    need x86_64-linux-gnu-gcc gcc-x86-64-linux-gnu
    need /usr/x86_64-linux-gnu/include/stdio.h libc6-dev-amd64-cross
    need qemu-x86_64 qemu-user
fi

# The pinned version is the one that the proofs were last checked with; another one may still pass the gate.
pinned=$(sed -n 's/^Rattle kit: `\(.*\)`.*/\1/p' README.md)
if [ "$(rt version)" != "$pinned" ]; then
    echo "setup: note: this is '$(rt version)', README.md pins '$pinned'" >&2
fi
