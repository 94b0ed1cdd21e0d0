# shellcheck shell=sh disable=SC2034 Sourced by the tests beside it, each of which is called with the program and the
# keeper. `hold` runs both in the folder "$work/case" and compares what each prints with the file "$work/wanted";
# `finish` ends the test.
set -eu
export LC_ALL=C

if [ $# -ne 2 ] || [ ! -x "$1" ] || [ ! -x "$2" ]; then
    echo "usage: sh $0 PROGRAM KEEPER" >&2
    exit 2
fi
work=$(mktemp -d)
trap 'rm -rf "$work"' EXIT
trap 'exit 1' HUP INT TERM
cp "$1" "$work/program"
cp "$2" "$work/keeper"
mkdir "$work/case"
chmod 755 "$work" "$work/case" "$work/program" "$work/keeper"

# Root may read every file, so where root tests, both run as nobody. `locked` says whether a file without permissions is
# closed to them.
nobody='setpriv --reuid=65534 --regid=65534 --clear-groups'
locked=yes
if [ "$(id -u)" -ne 0 ]; then
    nobody=''
elif ! $nobody test -x "$work/program" 2>/dev/null; then
    nobody='' locked=no
fi

held=0 failed=0

# run WHO WORDS...: runs the words; leaves what they printed in "$work/WHO", with what they said of a fault.
run() {
    who=$1
    shift
    code=0
    # shellcheck disable=SC2086
    (cd "$work/case" && $nobody "$@") >"$work/$who" 2>"$work/said" || code=$?
    cat "$work/said" >>"$work/$who"
    [ "$code" -eq 0 ] || echo "status $code" >>"$work/$who"
}

# hold NAME: one case.
hold() {
    run printed "$work/program"
    run kept "$work/keeper" .
    held=$((held + 1))
    for who in printed kept; do
        if ! cmp -s "$work/$who" "$work/wanted"; then
            echo "FAIL $1: $who is not as wanted"
            diff "$work/$who" "$work/wanted" | head -n 10 || true
            failed=$((failed + 1))
        fi
    done
}

finish() {
    if [ "$failed" -ne 0 ] || [ "$held" -eq 0 ]; then
        echo "$held cases, $failed differences"
        exit 1
    fi
    echo "$held cases, no difference"
}
