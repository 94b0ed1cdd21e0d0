#!/bin/sh
# measure.sh [SECONDS]: requests beside plain UPDATEs, with fsync and without, on a server of its own in a folder that
# is removed. SECONDS is the length of a turn; without it, all takes some seven minutes. CUCKOOORMOLU_LIB names the
# archive's folder, else it is target/staticlib. TMPDIR has to be on the disk that is measured.
set -eu
cd "$(dirname "$0")"

work=$(mktemp -d)
server="$work/server"
began=''
trap 'code=$?; [ -z "$began" ] || sh ./server.sh stop "$server" || true; rm -rf "$work"; exit "$code"' EXIT
trap 'exit 1' HUP INT TERM
# The server's user has to come through to its folder.
chmod 755 "$work"
to="host=$server dbname=postgres user=circles"
cargo build --release --quiet --offline -p cuckooormolu-postgres --bins --examples

# measure FSYNC SECONDS: the rows of a server with that setting.
measure() {
    sh ./server.sh start "$server" -c "fsync=$1"
    began=1
    # The tables are made once.
    [ "$1" = off ] || cargo run --release --quiet --offline -p cuckooormolu-postgres -- schema "$to"
    cargo run --release --quiet --offline -p cuckooormolu-postgres --example measure -- "$to" "$2"
    sh ./server.sh stop "$server"
    began=''
}
measure on "${1:-0.3}"
measure off "${1:-0.3}" >"$work/off"
tail -n +3 "$work/off"
