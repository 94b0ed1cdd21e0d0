#!/bin/sh
# seeds.sh FOLDER: the examples as inputs of the invariants, a file each: the terms, a byte 0, and for each request four
# bytes; of two banks, now one is asked and now the other. Every third time another call stands between: a set list of
# the requests after it, storing, damage, short memory, a revision or a plan. Every fourth request is also made of
# renumbered members.
set -eu
top=$(cd "$(dirname "$0")/../.." && pwd)
mkdir -p "$1"
for terms in "$top"/examples/*/terms.tsv "$top"/examples/*/*/terms.tsv; do
    folder=$(dirname "$terms")
    name=$(echo "${folder#"$top"/examples/}" | tr '/' '-')
    {
        cat "$terms"
        printf '\000'
        # shellcheck disable=SC2059
        printf "$(awk -F '\t' '
            $1 == "R" && $2 < 256 && $3 < 256 && $4 < 256 {
                kind = 2 + NR / 3 % 6 + NR % 2 * 8
                if (NR % 3 == 0) printf "\\%03o\\%03o\\%03o\\%03o", kind, NR % 4, NR % 7, NR * 11 % 256
                if (NR % 4 == 1) printf "\\%03o\\%03o\\%03o\\%03o", 1, $2, $3, $4
                printf "\\%03o\\%03o\\%03o\\%03o", NR % 4 < 2 ? 0 : 8, $2, $3, $4
            }' "$folder/requests.tsv")"
    } >"$1/$name"
done
