#!/bin/sh
# Renders the pages of the examples, and one with 64 members, in a headless browser, in light and dark, wide and narrow,
# and checks that what should be there is there. Leaves pages and pictures in a folder: `tool/browser.sh [--quick]
# [FOLDER]`. `--quick` looks at three pages, once each, without pictures. Needs Chromium; BROWSER names another one.
set -e
cd "$(dirname "$0")/.."
quick=''
if [ "${1:-}" = --quick ]; then
    quick=yes
    shift
fi
out=${1:-target/browser}
browser=${BROWSER:-chromium}
export CARGO_TARGET_DIR="${CARGO_TARGET_DIR:-$PWD/target/cargo}"
export CUCKOOORMOLU_LIB="${CUCKOOORMOLU_LIB:-$PWD/target/staticlib}"
export CARGO_NET_OFFLINE=true
command -v "$browser" >/dev/null || { echo "browser: no $browser here" >&2; exit 2; }
cargo build --release --quiet -p cuckooormolu-tool
tool="$CARGO_TARGET_DIR/release/cuckooormolu"
mkdir -p "$out"
out=$(cd "$out" && pwd)
profile=$(mktemp -d)
trap 'rm -rf "$profile"' EXIT

# 64 members with four relations, and requests that change one of them.
mkdir -p "$out/many"
awk 'BEGIN {
    OFS = "\t"
    print "M", 64; print "L", 4, 2; print "F", 0, "top", 0, 0; print "F", 1, "var", 0, 0; print "F", 2, "out", 1, 1
    print "P", 0, 0; print "P", 1, 2; print "E", 0, "add", 1, "fwd"
    for (m = 0; m < 64; m++) print "G", 0, m, (m + 7) % 64
    for (m = 0; m < 64; m += 3) print "G", 1, m, (m * 5 + 20) % 64
    for (m = 0; m < 64; m += 4) print "G", 2, m, (m * 11 + 31) % 64
    for (m = 0; m < 64; m += 16) print "G", 3, m, m
}' >"$out/many/terms.tsv"
printf 'R\t0\t3\t40\nR\t1\t3\t40\nR\t1\t40\t3\nR\t0\t9\t9\n' >"$out/many/requests.tsv"
awk 'BEGIN { OFS = "\t"; for (m = 0; m < 64; m++) print "member", m, "member-" m }' >"$out/many/names.tsv"

failed=0
look() { # page, mode, width, height
    page=$1 mode=$2 width=$3 height=$4
    scheme=1
    [ "$mode" = dark ] && scheme=0
    set -- --headless=new --no-sandbox --disable-gpu --hide-scrollbars --user-data-dir="$profile" --blink-settings=preferredColorScheme=$scheme \
        --window-size="$width,$height"
    picture="$out/$page-$mode-$width.png"
    [ -n "$quick" ] || "$browser" "$@" --screenshot="$picture" "file://$out/$page.html" 2>/dev/null
    { cat "$out/$page.html"; echo '<script>'; cat tool/browser/check.js; echo '</script>'; } >"$out/$page.checked.html"
    "$browser" "$@" --dump-dom "file://$out/$page.checked.html" >"$out/$page.dom" 2>/dev/null
    said=$(sed -n 's/.* data-checked="\([^"]*\)".*/\1/p' "$out/$page.dom" | head -n 1)
    rm "$out/$page.checked.html"
    if [ "$said" = ok ] && { [ -n "$quick" ] || [ -s "$picture" ]; }; then
        echo "browser: $page, $mode, $width wide: ok"
    else
        echo "browser: $page, $mode, $width wide: ${said:-not rendered}" >&2
        failed=1
    fi
}

if [ -n "$quick" ]; then
    set -- examples/preset/ examples/suspended/ "$out/many/"
else
    set -- examples/*/ "$out/many/"
fi
for dir in "$@"; do
    page=$(basename "$dir")
    "$tool" report "$dir" -o "$out/$page.html"
    [ -n "$quick" ] || look "$page" light 1200 1600
    look "$page" dark 400 1600
    requests=$(wc -l <"$dir/requests.tsv")
    # A grant makes a moment, and so does a denial that is kept.
    pictures=$("$tool" run "$dir" --json | grep -c '"made":' || true)
    shown=$(grep -c '<li id="request-' "$out/$page.dom" || true)
    drawn=$(grep -c '<svg class="graph"' "$out/$page.dom" || true)
    if [ "$shown" != "$requests" ] || [ "$drawn" != $((pictures + 1)) ]; then
        echo "browser: $page: $shown of $requests requests, $drawn of $((pictures + 1)) pictures" >&2
        failed=1
    fi
    rm "$out/$page.dom"
done
exit $failed
