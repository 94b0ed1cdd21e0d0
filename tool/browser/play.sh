#!/bin/sh
# Uses the page of `cuckooormolu play` in a headless browser: types, clicks and reads. Leaves pictures in a folder:
# `tool/browser/play.sh [FOLDER]`. Needs Chromium and Node; BROWSER names another browser. Where one is missing, says so
# and does nothing.
set -eu
cd "$(dirname "$0")/../.."
out=${1:-target/browser}
browser=${BROWSER:-chromium}
for needed in "$browser" node; do
    command -v "$needed" >/dev/null || { echo "play: skipped, there is no $needed here"; exit 0; }
done
export CARGO_TARGET_DIR="${CARGO_TARGET_DIR:-$PWD/target/cargo}"
export CUCKOOORMOLU_LIB="${CUCKOOORMOLU_LIB:-$PWD/target/staticlib}"
export CARGO_NET_OFFLINE=true
cargo build --release --quiet -p cuckooormolu-tool
mkdir -p "$out"
work=$(mktemp -d)
server=''
trap '[ -z "$server" ] || kill "$server"; rm -rf "$work"' EXIT
cp examples/preset/terms.say "$work"
"$CARGO_TARGET_DIR/release/cuckooormolu" play "$work" >"$work/address" &
server=$!
tries=0
until [ -s "$work/address" ]; do
    tries=$((tries + 1))
    [ "$tries" -le 100 ] || { echo 'play: the program gives no address' >&2; exit 1; }
    sleep 0.1
done
node tool/browser/play.mjs "$browser" "$(head -n 1 "$work/address")" "$out"
[ "$(wc -l <"$work/requests.say")" -eq 3 ] || { echo 'play: the requests were not saved' >&2; exit 1; }
