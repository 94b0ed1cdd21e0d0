#!/bin/sh
# program.sh PROGRAM KEEPER: the program in folders of all sorts, one for each line of program.tsv.
here=$(cd "$(dirname "$0")" && pwd)
# shellcheck source=tests/hold.sh
. "$here/hold.sh"
preset=$here/../examples/preset

# bytes: standard input, with the bytes that stand for others turned into them.
bytes() { tr ' /_~^|%' '\t\n \r\000/\377'; }

# fill SIZE TEXT: the text again and again, up to so many bytes.
fill() { awk -v n="$1" -v text="$2" 'BEGIN { while (length(text) < n) text = text text; printf "%s", substr(text, 1, n) }'; }

# edges SIZE HEAD: the head and first edges in rising order, up to so many bytes.
edges() {
    awk -v n="$1" -v head="$2" 'BEGIN {
        printf "%s", head
        for (i = 0; length(head) < n; i++) {
            line = "G " int(i / 4096) " " int(i / 64) % 64 " " i % 64 "/"
            printf "%s", line
            n -= length(line)
        }
        if (length(head) != n) print "no edge ends there"
    }'
}

# lines COUNT ANSWER: so many lines with the same answer.
lines() { awk -v n="$1" -v answer="$2" 'BEGIN { for (i = 1; i <= n; i++) printf "%d %s/", i, answer }'; }

# make FILE FIELD: the file that a field of the table says.
make() {
    rm -rf "$1"
    size=${2#@* } size=${size%% *} text=${2#@* * }
    case $2 in
    @missing) ;;
    @directory) mkdir "$1" ;;
    @locked) cp "$preset/$(basename "$1")" "$1" && chmod 000 "$1" ;;
    @preset) cp "$preset/$(basename "$1")" "$1" ;;
    @empty) : >"$1" ;;
    '@fill '*) fill "$size" "$text" | bytes >"$1" ;;
    '@edges '*) edges "$size" "$text" | bytes >"$1" ;;
    '@lines '*) lines "$size" "$text" | bytes >"$1" ;;
    @*) echo "program.tsv: what is $2?" && exit 1 ;;
    *) printf '%s' "$2" | bytes >"$1" ;;
    esac
}

while IFS='	' read -r name terms requests wanted; do
    case $name in '' | '#'*) continue ;; esac
    case "$locked $terms $requests" in 'no '*@locked*)
        echo "skip $name: root, and cannot run as nobody here"
        continue
        ;;
    esac
    make "$work/case/terms.tsv" "$terms"
    make "$work/case/requests.tsv" "$requests"
    make "$work/wanted" "$wanted"
    hold "$name"
done <"$here/program.tsv"

# A write that fails is said on standard error.
said=$(cd "$preset" && "$work/program" 2>&1 >/dev/full)
if [ "$said" != 'standard output: No space left on device' ]; then
    echo "FAIL a write that fails: $said"
    failed=$((failed + 1))
fi
finish
