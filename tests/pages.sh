#!/bin/sh
# pages.sh PROGRAM KEEPER: what the pages of docs/ show. The terms file of FORMAT with its requests gives its answers;
# each line of its table of refusals, put after the F lines, gives the number; the lines of its stored form are what is
# stored, and the program goes on from them. The preset of SCOPE is the program's own data, its requests are the
# example's, and it gives its answers.
here=$(cd "$(dirname "$0")" && pwd)
# shellcheck source=tests/hold.sh
. "$here/hold.sh"
docs=$here/../docs
preset=$here/../examples/preset

# column PAGE TITLE K: what stands between backquotes in column K of the tables under a title, a line for each row; more
# than one are separated by `;`. A space stands for a tab.
column() {
    awk -F ' *[|] *' -v title="## $2" -v k="$3" '
        /^## / { inside = $0 == title; next }
        inside && /^[|]/ && $(k + 1) ~ /`/ {
            n = split($(k + 1), part, "`")
            text = part[2]
            for (i = 4; i <= n; i += 2) text = text ";" part[i]
            print text
        }' "$docs/$1" | tr ' ' '\t'
}

column FORMAT.md 'A terms file, line by line' 1 >"$work/terms"
column FORMAT.md 'Requests and answers' 1 >"$work/case/requests.tsv"
column FORMAT.md 'Requests and answers' 2 >"$work/wanted"
cp "$work/terms" "$work/case/terms.tsv"
hold 'FORMAT, requests and answers'

# `faulty after earlier`: the earlier lines go before the faulty one.
column FORMAT.md 'When a terms file is refused' 3 >"$work/lines"
sed -n '/^## When a terms file is refused$/,/^## /s/^| \([0-9][0-9]*\) |.*/\1/p' "$docs/FORMAT.md" | paste -d ';' - "$work/lines" >"$work/refusals"
while IFS=';' read -r number faulty earlier; do
    awk -v faulty="$faulty" -v earlier="$earlier" '
        /^P/ && !put++ {
            n = split(earlier, lines, ";")
            for (i = 1; i <= n; i++) print lines[i]
            print faulty
        }
        { print }' "$work/terms" >"$work/case/terms.tsv"
    line=$(awk -v faulty="$faulty" '$0 == faulty { print NR }' "$work/case/terms.tsv")
    printf 'terms\t%s\t%s\n' "$number" "$line" >"$work/wanted"
    hold "FORMAT, refusal $number"
done <"$work/refusals"
numbers=$(cut -d ';' -f 1 "$work/refusals" | tr '\n' ' ')
[ "$numbers" = '1 2 3 4 5 10 ' ] || { echo "FAIL FORMAT: refusals $numbers" && failed=$((failed + 1)); }

# The stored form: the first line, the terms, the last lines; the requests after the first go on from there.
column FORMAT.md 'The stored form' 1 >"$work/lines"
cp "$work/terms" "$work/case/terms.tsv"
column FORMAT.md 'Requests and answers' 1 | head -n 1 >"$work/case/requests.tsv"
{ head -n 1 "$work/lines"; cat "$work/terms"; tail -n +2 "$work/lines"; } >"$work/stored"
"$work/keeper" store "$work/case" | cmp - "$work/stored" || failed=$((failed + 1))
cp "$work/stored" "$work/case/terms.tsv"
column FORMAT.md 'Requests and answers' 1 | tail -n +2 >"$work/case/requests.tsv"
column FORMAT.md 'Requests and answers' 2 | awk -F '\t' -v OFS='\t' 'NR > 1 { $1 = NR - 1; print }' >"$work/wanted"
hold 'FORMAT, the stored form'

sed -n '/^## The preset$/,/^## Cases$/s/^    //p' "$docs/SCOPE.md" | tr ' ' '\t' >"$work/case/terms.tsv"
column SCOPE.md 'The preset' 1 >"$work/case/requests.tsv"
column SCOPE.md 'The preset' 2 >"$work/wanted"
hold 'SCOPE, the preset'
cmp "$work/case/terms.tsv" "$here/../crates/exchange/data/terms.tsv" || failed=$((failed + 1))
cmp "$work/case/requests.tsv" "$preset/requests.tsv" || failed=$((failed + 1))
finish
