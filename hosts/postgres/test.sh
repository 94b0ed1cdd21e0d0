#!/bin/sh
# test.sh [--long]: the circles on a server of the test's own, in a folder that is removed. CUCKOOORMOLU_LIB names the
# archive's folder, else it is target/staticlib. Where no server or no libpq is installed, nothing is tested.
set -eu
cd "$(dirname "$0")"

case ${1:-} in
'') ;;
--long) export CIRCLES_LONG=1 ;;
*) echo 'usage: test.sh [--long]' >&2 && exit 2 ;;
esac
work=$(mktemp -d)
CIRCLES_SERVER="$work/server"
export CIRCLES_SERVER
began=''
trap 'code=$?; [ -z "$began" ] || sh ./server.sh stop "$CIRCLES_SERVER" || true; rm -rf "$work"; exit "$code"' EXIT
trap 'exit 1' HUP INT TERM

echo 'int main(void) { return 0; }' >"$work/probe.c"
if ! "${CC:-cc}" -o "$work/probe" "$work/probe.c" -lpq 2>/dev/null; then
    echo 'skip hosts/postgres: no libpq to link with (Debian: libpq-dev)'
    exit 0
fi
# The server's user has to come through to its folder.
chmod 755 "$work"
code=0
sh ./server.sh start "$CIRCLES_SERVER" || code=$?
if [ "$code" -eq 77 ]; then
    echo 'skip hosts/postgres: no PostgreSQL server is installed (Debian: postgresql)'
    exit 0
fi
began=1
[ "$code" -eq 0 ]
to="host=$CIRCLES_SERVER dbname=postgres user=circles"
cargo run --release --quiet --offline -p cuckooormolu-postgres -- schema "$to"
cargo test --release --quiet --offline -p cuckooormolu-postgres --tests -- --nocapture
