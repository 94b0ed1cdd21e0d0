# shellcheck shell=sh disable=SC2034,SC2086
# Sourced by the tests beside it. Each is called with the folder of cuckooormolu.c and cuckooormolu.h, the proved
# archive and the keeper. A build is the C file by one compiler with its flags; all that it says is held to what the
# archive and the keeper say.
set -eu
here=$(cd "$(dirname "$0")" && pwd)
top=$(cd "$here/../.." && pwd)

if [ $# -ne 3 ] || [ ! -f "$1/cuckooormolu.c" ] || [ ! -f "$2" ] || [ ! -x "$3" ]; then
    echo "usage: sh $0 FOLDER ARCHIVE KEEPER" >&2
    exit 2
fi
folder=$(cd "$1" && pwd)
proved=$2 keeper=$3
warnings='-Wall -Wextra -Wconversion -Wshadow -Wstrict-prototypes -Wmissing-prototypes -Werror -pedantic'
# The last two are no fault in C; here they would be, since nothing is meant to wrap or to be cut.
sanitizers='address,undefined,unsigned-integer-overflow,implicit-conversion'
work=$(mktemp -d)
trap 'rm -rf "$work"' EXIT
trap 'exit 1' HUP INT TERM
chmod 755 "$work"
# They include the header that stands beside them: here the C file's own.
cp "$top"/bindings/c/*.[ch] "$here"/*.[ch] "$work"
cp "$folder/cuckooormolu.h" "$work"
sh "$here/seeds.sh" "$work/seeds"
invariants="$work/invariants.c $work/banks.c $work/renumbered.c"
revise=$(sed -n 's/^size_t cuckooormolu_raw_revise(.*/-DREVISE/p' "$folder/cuckooormolu.h")

# has COMMAND...: whether the words compile a program; else the build is left out.
has() {
    echo 'int main(void) { return 0; }' >"$work/probe.c"
    "$@" -o "$work/probe" "$work/probe.c" 2>/dev/null || { echo "skip $*: not here" && return 1; }
}

# quietly COMMAND...: shows what a command says only where it fails.
quietly() {
    "$@" >"$work/said" 2>&1 || { cat "$work/said" && return 1; }
}

# replayed COUNT PROGRAM...: the digest of the seeds and of so many inputs made of them.
replayed() {
    count=$1
    shift
    "$@" "$count" "$work"/seeds/*
}

# reference COUNT: the same of the proved archive.
reference() {
    cc -std=c11 -O2 $revise -o "$work/proved" $invariants "$work/replay.c" "$proved"
    replayed "$1" "$work/proved"
}

# build NAME COMMAND...: the archive, the example host, the tests in C and the replay, by a compiler with its flags.
build() {
    name=$1
    shift
    mkdir -p "$work/$name"
    "$@" -std=c11 $warnings -c -o "$work/$name/cuckooormolu.o" "$folder/cuckooormolu.c"
    rm -f "$work/$name/libcuckooormolu.a"
    ar rcs "$work/$name/libcuckooormolu.a" "$work/$name/cuckooormolu.o"
    for source in "$work/example.c" "$work"/test*.c; do
        "$@" -std=c11 $warnings -o "$work/$name/$(basename "$source" .c)" "$source" "$work/$name/cuckooormolu.o"
    done
    "$@" -std=c11 $warnings $revise -o "$work/$name/replay" $invariants "$work/replay.c" "$work/$name/cuckooormolu.o"
}

# bindings NAME C++ COMMAND...: the tests of bindings/c over a build. They take compilers without flags, and include the
# archive's header, which is to be the C file's here.
bindings() {
    name=$1 plus=$2
    shift 2
    printf '#!/bin/sh\nexec %s -DCUCKOOORMOLU_AMALGAMATION "$@"\n' "$*" >"$work/$name/cc"
    printf '#!/bin/sh\nexec %s -DCUCKOOORMOLU_AMALGAMATION "$@"\n' "$plus" >"$work/$name/c++"
    chmod 755 "$work/$name/cc" "$work/$name/c++"
    command -v "$plus" >/dev/null || rm "$work/$name/c++"
    CC="$work/$name/cc" CXX="$work/$name/c++" quietly sh "$top/bindings/c/test.sh" "$work/$name/libcuckooormolu.a"
    echo "ok   $name: bindings/c/test.sh"
}

# hold NAME COUNT DIGEST [EMULATOR]: a build passes the tests in C, answers the examples and the pages as the keeper
# does, and says in the replay what the archive says.
hold() {
    name=$1 count=$2 wanted=$3 emulator=${4:-}
    for source in "$work"/test*.c; do
        $emulator "$work/$name/$(basename "$source" .c)"
    done
    got=$(replayed "$count" $emulator "$work/$name/replay")
    if [ "$got" != "$wanted" ]; then
        echo "FAIL $name: the digest of the replay is $got, not $wanted"
        return 1
    fi
    printf '#!/bin/sh\nexec %s %s terms.tsv requests.tsv 2>/dev/null\n' "$emulator" "$work/$name/example" \
        >"$work/$name/program"
    chmod 755 "$work/$name/program"
    quietly sh "$top/tests/examples.sh" "$work/$name/program" "$keeper"
    quietly sh "$top/tests/pages.sh" "$work/$name/program" "$keeper"
    echo "ok   $name: tests in C, examples, pages, $count inputs replayed"
}

# differ NAME CALLS FILES [LINK...]: the library of a build against the keeper.
differ() {
    name=$1 calls=$2 files=$3
    shift 3
    CUCKOOORMOLU_LIB="$work/$name" cargo rustc --release --quiet -p differ -- "$@"
    quietly "$CARGO_TARGET_DIR/release/differ" --calls "$calls" --files "$files" --plans "$((calls / 4))"
    echo "ok   $name: no difference from the keeper in $calls calls and $files files"
}
