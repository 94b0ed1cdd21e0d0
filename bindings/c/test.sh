#!/bin/sh
# test.sh ARCHIVE: builds the tests and the example host over the archive, runs
# them and compares what is printed; a second time with the sanitizers, where the
# compiler has them; the tests also as C++, where there is a compiler of it (CXX,
# else c++). With each, traps.sh tries what must not compile. Needs a C compiler
# (CC, else cc).
set -eu

if [ $# -ne 1 ] || [ ! -f "$1" ]; then
    echo "usage: test.sh ARCHIVE" >&2
    exit 2
fi
archive=$1
here=$(cd "$(dirname "$0")" && pwd)
CC=${CC:-cc}
CXX=${CXX:-c++}
warnings="-Wall -Wextra -Wconversion -Wshadow -Werror -pedantic"
strict="-std=c11 $warnings"
work=$(mktemp -d)
trap 'rm -rf "$work"' EXIT
failed=0

# tabs TEXT: the text with tabs for its spaces.
tabs() { printf '%s' "$1" | tr ' ' '\t'; }

preset='M 3
L 1 3
F 0 var 1 0
F 1 out 1 0
F 2 out 2 0
F 3 not 2 0
F 4 since 3 1
F 5 in 0 4
F 6 at 0 5
F 7 bind 1 6
F 8 top 0 0
P 0 8
P 1 8
P 2 7
G 0 0 2
'

# large: terms whose two tables are full at the start, for everybody with everybody.
large() {
    printf 'M\t64\nL\t0\t1\nF\t0\ttop\t0\t0\nF\t1\tvar\t0\t0\nF\t2\tor\t0\t1\n'
    printf 'F\t3\tsince\t0\t2\nF\t4\tsince\t2\t2\nP\t0\t3\n'
}

# expect NAME TERMS REQUESTS OUTPUT: what the built host prints.
expect() {
    tabs "$2" >"$work/terms.tsv"
    tabs "$3" >"$work/requests.tsv"
    tabs "$4" >"$work/wanted"
    "$work/$build" "$work/terms.tsv" "$work/requests.tsv" >"$work/got" 2>/dev/null || true
    judge "$1"
}

# judge NAME: compares the files got and wanted.
judge() {
    if cmp -s "$work/got" "$work/wanted"; then
        echo "ok   $build: $1"
    else
        echo "FAIL $build: $1"
        diff "$work/got" "$work/wanted" || true
        failed=1
    fi
}

# silent FILE NAME COMPILER...: a test that is compiled so holds, and prints
# nothing.
silent() {
    file=$1 name=$2
    shift 2
    "$@" -o "$work/test" "$here/$file" -x none "$archive"
    : >"$work/wanted"
    "$work/test" >"$work/got" 2>&1 || echo "status $?" >>"$work/got"
    judge "$name"
}

# another_version COMPILER...: a host with a header of another version is not
# linked with the archive.
another_version() {
    mkdir -p "$work/other"
    cp "$here/example.c" "$here/request_line.h" "$work/other"
    sed 's/\(cuckooormolu_raw_version\)[0-9_]*/\1_0_0_0/' "$here/cuckooormolu.h" >"$work/other/cuckooormolu.h"
    echo cuckooormolu_raw_version_0_0_0 >"$work/wanted"
    if "$@" -o "$work/other/host" "$work/other/example.c" "$archive" 2>"$work/said"; then
        echo linked >"$work/got"
    else
        grep -o 'cuckooormolu_raw_[a-z_0-9]*' "$work/said" | sort -u >"$work/got"
    fi
    judge "a header of another version does not link"
}

# run_tests COMPILER...: the tests, compiled so.
run_tests() {
    silent test.c "codes, lengths and null pointers" "$@"
    silent test_lists.c "set lists" "$@"
    silent test_overlap.c "overlapping memory" "$@"
    silent test_revise.c "new terms while playing" "$@"
    silent test_renumber.c "members renumbered" "$@"
    silent test_within.c "untrusted terms" "$@"
    silent test_stack.c "the stack by the terms" "$@" -pthread
    silent test_pairs.c "a past of three members" "$@"
    silent test_plans.c "plans against a rival" "$@"
    silent test_banks.c "two banks" "$@"
    silent test_banks_lent.c "two banks over lent memory" "$@"
}

run_all() {
    expect "the preset" "$preset" 'R 2 1 2
R 0 0 1
R 2 1 2
R 1 0 1
R 2 1 2
R 9 0 0
' '1 deny
2 grant
3 grant
4 grant
5 deny
6 refuse 9
'
    expect "malformed requests" "$preset" 'R 0 0 1
R 000000 0 1
X 0 0 1
R 0 0
R 0 0 1 1

R 0 0 100000
R 0 0 1' '1 grant
2 refuse 1
3 refuse 1
4 refuse 1
5 refuse 1
6 refuse 1
7 refuse 1
8 refuse 1
'
    expect "a denied try that counts" 'M 2
L 0 1
F 0 top 0 0
F 1 out 1 0
F 2 since 0 1
P 0 2
K 0
' 'R 0 0 1
R 0 0 1
R 0 1 0
' '1 deny
2 grant
3 deny
'
    expect "no requests" "$preset" '' ''
    expect "refused terms" 'M 3
L 0 1
F 0 not 0 0
' 'R 0 0 0
' 'terms 3 3
'
    expect "empty terms" '' 'R 0 0 0
' 'terms 1 1
'
    rm "$work/terms.tsv"
    "$work/$build" "$work/terms.tsv" "$work/requests.tsv" >"$work/got" 2>/dev/null
    tabs 'terms 1 1
' >"$work/wanted"
    judge "terms that can't be opened"

    most=$(sed -n 's/^#define CUCKOOORMOLU_STORED_BYTES //p' "$here/cuckooormolu.h")
    head -c $((most + 1)) /dev/zero >"$work/terms.tsv"
    "$work/$build" "$work/terms.tsv" "$work/requests.tsv" >"$work/got" 2>"$work/said"
    tabs 'terms 6 0
' >"$work/wanted"
    judge "terms too long"
    grep -o "more than $most bytes" "$work/said" >"$work/got" || true
    echo "more than $most bytes" >"$work/wanted"
    judge "and it says so"

    tabs "$preset" >"$work/terms.tsv"
    tabs "S 2
$preset" >"$work/wanted"
    "$work/$build" "$work/terms.tsv" /dev/null "$work/got"
    judge "the preset stored"
    tabs 'R 0 0 1
' >"$work/requests.tsv"
    "$work/$build" "$work/terms.tsv" "$work/requests.tsv" "$work/stored" >/dev/null
    cp "$work/stored" "$work/got"
    tabs "S 2
${preset}T 0 0 1
V 0 0 1
" >"$work/wanted"
    judge "a share stored"
    tabs 'R 2 1 2
' >"$work/requests.tsv"
    "$work/$build" "$work/stored" "$work/requests.tsv" >"$work/got"
    tabs '1 grant
' >"$work/wanted"
    judge "a share remembered"
    large >"$work/terms.tsv"
    "$work/$build" "$work/terms.tsv" /dev/null "$work/wanted"
    "$work/$build" "$work/wanted" /dev/null "$work/got" || true
    if [ "$(wc -c <"$work/wanted")" -le 65536 ]; then echo short >>"$work/got"; fi
    judge "a large state stored, read and stored again"
    head -c 65537 /dev/zero >"$work/requests.tsv"
    "$work/$build" "$work/terms.tsv" "$work/requests.tsv" >"$work/got" 2>/dev/null
    tabs 'requests 6 0
' >"$work/wanted"
    judge "requests too long"
}

build=plain
"$CC" $strict -O2 -o "$work/$build" "$here/example.c" "$archive"
run_all
run_tests "$CC" $strict -O2
another_version "$CC" $strict -O2
another_version "$CC" $strict -O2 -ffunction-sections -fdata-sections -Wl,--gc-sections
sh "$here/traps.sh" "$CC" $strict || failed=1

if command -v "$CXX" >/dev/null; then
    build=c++
    run_tests "$CXX" -x c++ -std=c++11 $warnings -O2
    sh "$here/traps.sh" "$CXX" -x c++ -std=c++11 $warnings || failed=1
else
    echo "skip c++: no compiler"
fi

echo 'int main(void) { return 0; }' >"$work/probe.c"
sanitize="-fsanitize=address,undefined -fno-sanitize-recover=all"
if "$CC" $sanitize -o "$work/probe" "$work/probe.c" 2>/dev/null && "$work/probe"; then
    build=sanitized
    "$CC" $strict -g $sanitize -o "$work/$build" "$here/example.c" "$archive"
    run_all
    run_tests "$CC" $strict -g $sanitize
else
    echo "skip sanitized: the compiler has no sanitizers"
fi
exit $failed
