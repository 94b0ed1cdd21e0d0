#!/bin/sh
# test.sh [--machines | --fuzz [SECONDS]]: the tests of the library in C. Without words those that `./test` runs, of
# about a minute. `--machines` takes all compilers, sanitizers and emulated machines that are installed, some ten
# minutes; `--fuzz` looks for a failing input, for a minute where nothing else is said.
set -eu
cd "$(dirname "$0")/.."
if ! python3 -c 'import sys; sys.exit(sys.version_info < (3, 10))' 2>/dev/null; then
    echo 'skip the library in C: there is no python3 of version 3.10 or later'
    exit 0
fi
folder=target/amalgamation
tests=quick
case ${1:-} in
'') ;;
--machines) tests=machines ;;
--fuzz) ./amalgamate && exec sh portable/tests/fuzz.sh "$folder" "${2:-60}" ;;
*) echo 'usage: test.sh [--machines | --fuzz [SECONDS]]' >&2 && exit 2 ;;
esac
if [ -z "${CUCKOOORMOLU_LIB:-}" ]; then ./archive; fi
export CARGO_TARGET_DIR="$PWD/target/cargo" CARGO_NET_OFFLINE=true
export CUCKOOORMOLU_LIB="${CUCKOOORMOLU_LIB:-$PWD/target/staticlib}"
export CUCKOOORMOLU_EXCHANGE="${CUCKOOORMOLU_EXCHANGE:-$PWD/target/bin/exchange}"
./amalgamate
cargo build --release --quiet -p keeper
sh "portable/tests/$tests.sh" "$folder" "$CUCKOOORMOLU_LIB/libcuckooormolu.a" "$CARGO_TARGET_DIR/release/keeper"
