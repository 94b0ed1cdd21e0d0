#!/bin/sh
# examples.sh PROGRAM KEEPER: every example as it stands, and with each change that its README tells of under "Change
# one thing". The first column there is `line 4 to R 1 2 1`, of the requests, or `without G 0 0 2`, of the terms; the
# second lists the answers that differ, `5, 6 deny; 7 grant`. All others must stay. Where an example has a folder
# `later`, its terms are what is stored after the example's requests; where it has a folder `new` too, after a revision
# to the terms there. Where it has a folder `strangers`, that has the same terms but for first edges, and what both ask
# alike both answer alike. Where it has a folder `renumbered`, that has what `later` has, by the members' other numbers,
# and the same answers.
here=$(cd "$(dirname "$0")" && pwd)
# shellcheck source=tests/hold.sh
. "$here/hold.sh"

# rows README: the first two columns of the table, separated by a tab.
rows() {
    awk -F ' *[|] *' '
        /^## / { inside = $0 == "## Change one thing"; next }
        inside && /^[|]/ && !/^[|]-/ && $2 != "change" { gsub(/`/, ""); print $2 "\t" $3 }' "$1"
}

# tabs TEXT: the text with tabs for its spaces.
tabs() { printf '%s\n' "$1" | tr ' ' '\t'; }

# change WORDS: makes the change, or fails.
change() {
    case $1 in
    'line '*' to R '*)
        n=${1#line } n=${n%% *}
        awk -v n="$n" -v line="$(tabs "${1#* to }")" 'NR == n && $0 != line { $0 = line; done = 1 } { print } END { exit !done }' "$dir/requests.tsv" >"$work/case/requests.tsv"
        ;;
    'without '*) awk -v line="$(tabs "${1#without }")" '$0 == line { done = 1; next } { print } END { exit !done }' "$dir/terms.tsv" >"$work/case/terms.tsv" ;;
    *) return 1 ;;
    esac
}

# differ ANSWERS: the expected answers with those that differ, or fails if one does not.
differ() {
    awk -v answers="$1" '
        BEGIN {
            for (g = split(answers, group, "; "); g > 0; g--) {
                n = split(group[g], line, ", ")
                answer = line[n]
                sub(/^[0-9]+ /, "", answer)
                sub(/ .*/, "", line[n])
                gsub(/ /, "\t", answer)
                for (; n > 0; n--) { wanted[line[n]] = line[n] "\t" answer; left++ }
            }
        }
        NR in wanted && wanted[NR] != $0 { $0 = wanted[NR]; left-- }
        { print }
        END { exit left != 0 }' "$dir/expected.tsv" >"$work/wanted"
}

for dir in "$here"/../examples/*/ "$here"/../examples/*/new/ "$here"/../examples/*/later/ \
    "$here"/../examples/*/strangers/ "$here"/../examples/*/renumbered/; do
    example=${dir#"$here"/../examples/} example=${example%/}
    if [ -d "$dir/later" ]; then
        if [ -d "$dir/new" ]; then set -- revise "$dir" "$dir/new"; else set -- store "$dir"; fi
        "$work/keeper" "$@" | cmp -s - "$dir/later/terms.tsv" || { echo "FAIL $example: later/terms.tsv is not what is stored" && failed=$((failed + 1)); }
    fi
    cp "$dir/terms.tsv" "$dir/requests.tsv" "$work/case"
    cp "$dir/expected.tsv" "$work/wanted"
    hold "$example"
    rows "$dir/README.md" >"$work/rows"
    [ -s "$work/rows" ] || { echo "FAIL $example: nothing to change" && failed=$((failed + 1)); }
    while IFS='	' read -r words answers; do
        cp "$dir/terms.tsv" "$dir/requests.tsv" "$work/case"
        if change "$words" && differ "$answers"; then
            hold "$example, $words"
        else
            echo "FAIL $example: $words: this changes nothing, or no answer: $answers"
            failed=$((failed + 1))
        fi
    done <"$work/rows"
done

# The same policy, spelled out with binders and counted.
for file in requests.tsv expected.tsv; do
    cmp "$here/../examples/policy-20/$file" "$here/../examples/policy-20-many/$file" || failed=$((failed + 1))
done

# The same circle with other strangers.
# told FOLDER: each request with its answer.
told() { paste -d ' ' "$1/requests.tsv" "$1/expected.tsv"; }
for dir in "$here"/../examples/*/strangers; do
    told "$dir/.." >"$work/told"
    grep -v '^G' "$dir/../terms.tsv" >"$work/terms"
    grep -v '^G' "$dir/terms.tsv" | cmp - "$work/terms" || failed=$((failed + 1))
    told "$dir" | awk -F '[ ]' '
        NR == FNR { asked[FNR] = $1; said[FNR] = $2; next }
        $1 != asked[FNR] { other++; next }
        { alike++; differ += $2 != said[FNR] }
        END { exit differ || !alike || !other }' "$work/told" - || { echo "FAIL $dir: the circle's answers differ" && failed=$((failed + 1)); }
done

# The same members by other numbers.
# numbered FOLDER FILE: the lines of a file of later/, by the numbers that the names have in the folder.
numbered() {
    awk -F '\t' -v OFS='\t' '
        FILENAME == ARGV[1] { if ($1 == "member") was[$3] = $2; next }
        FILENAME == ARGV[2] { if ($1 == "member") number[was[$3]] = $2; next }
        /^[GTVR]/ { for (i = 3; i <= NF; i++) $i = number[$i] }
        { print }' "$1/../later/names.tsv" "$1/names.tsv" "$1/../later/$2"
}
for dir in "$here"/../examples/*/renumbered; do
    numbered "$dir" requests.tsv | cmp - "$dir/requests.tsv" || failed=$((failed + 1))
    numbered "$dir" terms.tsv | sort >"$work/terms"
    sort "$dir/terms.tsv" | cmp - "$work/terms" || failed=$((failed + 1))
    cmp "$dir/expected.tsv" "$dir/../later/expected.tsv" || failed=$((failed + 1))
done
finish
