#!/bin/sh
# power.sh ARCHIVE [HOST...]: builds the host of panel.c over the archive and takes
# its power at every call (power/main.c), and that of other hosts with the same
# command line and file. None begins with costly terms. Needs a C compiler (CC, else
# cc).
set -eu

if [ $# -lt 1 ] || [ ! -f "$1" ]; then
    echo "usage: power.sh ARCHIVE [HOST...]" >&2
    exit 2
fi
archive=$1
shift
here=$(cd "$(dirname "$0")" && pwd)
CC=${CC:-cc}
strict="-std=c11 -Wall -Wextra -Wconversion -Wshadow -Werror -pedantic -O2"
# In memory where there is such a folder: the syncs are counted, not needed.
memory=/dev/shm
if [ ! -w "$memory" ]; then memory=${TMPDIR:-/tmp}; fi
work=$(mktemp -d -p "$memory")
trap 'rm -rf "$work"' EXIT
trap 'exit 1' HUP INT TERM

"$CC" $strict -o "$work/panel" "$here/panel.c" "$archive"
"$CC" $strict -shared -fPIC -o "$work/stub.so" "$here/power/stub.c"
"$CC" $strict -o "$work/power" "$here/power/main.c" "$here/power/run.c" \
    "$here/power/disk.c" "$here/power/expected.c" "$archive"

# costly: terms that would take ages to open: three variables that are bound anew in
# turn, and every level reads all of them.
costly() {
    printf 'M 64\nL 1 1\nF 0 var 1 0\nF 1 var 2 0\nF 2 var 3 0\nF 3 or 0 1\nF 4 or 3 2\n'
    last=4
    for variable in 1 2 3 1 2 3 1 2 3 1 2 3; do
        for line in "out 0 $last" "or $((last + 1)) 4" "bind $variable $((last + 2))" "or $((last + 3)) 4"; do
            last=$((last + 1))
            echo "F $last $line"
        done
    done
    printf 'F %d bind 1 %d\nF %d bind 2 %d\nF %d bind 3 %d\n' \
        $((last + 1)) $last $((last + 2)) $((last + 1)) $((last + 3)) $((last + 2))
    printf 'F %d since %d %d\nP 0 %d\n' $((last + 4)) $((last + 3)) $((last + 3)) $((last + 4))
    for from in $(seq 0 63); do
        for to in $(seq 0 8 63); do echo "G 0 $from $to"; done
    done
}
costly | tr ' ' '\t' >"$work/costly.tsv"

# refuses HOST: it ends with 2, keeps nothing and says the limit.
refuses() {
    mkdir "$work/run"
    code=0
    timeout 10 "$1" "$work/run" "$work/costly.tsv" 2>"$work/said" || code=$?
    if [ "$code" -ne 2 ] || [ -n "$(ls "$work/run")" ] || ! grep -q 'limit.* 1000000' "$work/said"; then
        echo "FAIL ${1##*/}: begins with costly terms, or does not say why not (status $code)"
        exit 1
    fi
    rm -r "$work/run"
    echo "ok   ${1##*/}: costly terms are refused"
}

# says HOST WORDS ARGUMENT...: it ends with 2 and says the words.
says() {
    program=$1 words=$2 code=0
    shift 2
    timeout 10 "$program" "$@" </dev/null 2>"$work/said" || code=$?
    if [ "$code" -ne 2 ] || ! grep -q "$words" "$work/said"; then
        echo "FAIL ${program##*/}: does not say \`$words\` (status $code)"
        cat "$work/said"
        exit 1
    fi
}

# explains HOST: what stops it is said with its place or a cure, one cause in one message.
explains() {
    mkdir "$work/run"
    printf 'M\t3\nX\n' >"$work/faulty.tsv"
    printf 'M\t1\nL\t0\t1\nF\t0\ttop\t0\t0\nP\t0\t0\n' >"$work/terms.tsv"
    says "$1" "$work/faulty.tsv, line 2: unknown kind" "$work/run" "$work/faulty.tsv"
    says "$1" "$work/none.tsv: No such file" "$work/run" "$work/none.tsv"
    says "$1" "$work/none: No such file" "$work/none"
    says "$1" 'no state: begin with TERMS' "$work/run"
    if command -v flock >/dev/null; then
        says flock 'another host has the folder' "$work/run" "$1" "$work/run"
    fi
    "$1" "$work/run" "$work/terms.tsv"
    says "$1" 'a state already: go on without TERMS' "$work/run" "$work/terms.tsv"
    echo >>"$work/run/state"
    says "$1" 'cut or changed: put a copy' "$work/run"
    rm -r "$work/run"
    echo "ok   ${1##*/}: what stops it is explained"
}

for host in "$work/panel" "$@"; do
    refuses "$host"
    explains "$host"
    mkdir "$work/run"
    timeout 120 "$work/power" "$host" "$work/stub.so" "$work/run"
    rm -r "$work/run"
done
