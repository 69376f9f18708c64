# What the commands need of the machine; sourced by a script that has set root, the repository.
# The toolchain, and the programs and libraries that it builds, run on x86-64.

out=$root/target/c
updated=

# need COMMAND PACKAGE...: installs Debian packages, but only where the command is missing.
need() {
    ! command -v "$1" > /dev/null || return 0
    missing=$1
    shift
    export DEBIAN_FRONTEND=noninteractive
    [ -n "$updated" ] || apt-get update -qq >&2
    updated=yes
    apt-get install -qq -y --no-install-recommends "$@" >&2
    command -v "$missing" > /dev/null || {
        echo "$missing is missing, and $* did not bring it" >&2
        return 1
    }
}

# program NAME: prints where the crate's program is, which is made where it is missing.
program() {
    [ -x "$root/crates/$1/out/$1" ] || make_program "$1" || return 1
    echo "$root/crates/$1/out/$1"
}

# make_program NAME: proves and builds the crate's program. The toolchain runs it too, here on an empty input.
make_program() {
    (cd "$root/crates/$1" && rt run < /dev/null > /dev/null)
}

# library NAME: makes the crate's library where it is missing; programs are linked with it from here on.
library() {
    archive=$root/crates/$1/out/lib$1.a
    [ -f "$archive" ] || make_library "$1"
}

# make_library NAME: proves and builds the crate's library.
make_library() {
    (cd "$root/crates/$1" && rt lib >&2)
}

# build PROGRAM SOURCE...: compiles and links the sources with the library to the folder out.
build() {
    made=$out/$1
    shift
    need gcc gcc libc6-dev
    mkdir -p "$out"
    gcc -O2 -Wall -Wextra -Werror -static -I "$root/include" -I "$root/bench" -o "$made" "$@" "$archive"
}

# run PROGRAM ARGUMENT...: runs a program of the folder out.
run() {
    made=$out/$1
    shift
    "$made" "$@"
}
