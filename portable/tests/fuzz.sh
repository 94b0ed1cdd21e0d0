#!/bin/sh
# fuzz.sh FOLDER SECONDS [CORPUS]: libFuzzer looks for an input on which an invariant does not hold, guided by what is
# reached of the C file. It begins with the examples; what it finds worth keeping goes to the corpus, with which the
# next run begins too.
set -eu
here=$(cd "$(dirname "$0")" && pwd)
if [ $# -lt 2 ] || [ ! -f "$1/cuckooormolu.c" ]; then
    echo "usage: sh $0 FOLDER SECONDS [CORPUS]" >&2
    exit 2
fi
folder=$(cd "$1" && pwd) seconds=$2
corpus=${3:-$folder/corpus}
sanitizers='fuzzer,address,undefined,unsigned-integer-overflow,implicit-conversion'

work=$(mktemp -d)
trap 'rm -rf "$work"' EXIT
trap 'exit 1' HUP INT TERM
echo 'int LLVMFuzzerTestOneInput(const char *input, long length) { return !input && length; }' >"$work/probe.c"
if ! clang -fsanitize="$sanitizers" -o "$work/probe" "$work/probe.c" 2>/dev/null; then
    echo 'skip fuzzing: clang or its runtime (Debian: clang, libclang-rt-14-dev) is not here'
    exit 0
fi
revise=$(sed -n 's/^size_t cuckooormolu_raw_revise(.*/-DREVISE/p' "$folder/cuckooormolu.h")
# shellcheck disable=SC2086
clang -std=c11 -O2 -g -fsanitize="$sanitizers" -fno-sanitize-recover=all $revise -I "$folder" -o "$work/fuzz" \
    "$here/invariants.c" "$here/banks.c" "$here/renumbered.c" "$folder/cuckooormolu.c"
sh "$here/seeds.sh" "$work/seeds"
{
    for word in top var not or out in prev since bind at reach many add del fwd back; do
        printf '"%s\\x09"\n' "$word"
    done
    for kind in F P K E G T V; do
        printf '"\\x0a%s\\x09"\n' "$kind"
    done
    printf '"S\\x092\\x0a"\n'
} >"$work/words"
mkdir -p "$corpus"
# A failing input is left beside the C file.
"$work/fuzz" -dict="$work/words" -max_total_time="$seconds" -max_len=4096 -timeout=120 -print_final_stats=1 \
    -artifact_prefix="$folder/failing-" "$corpus" "$work/seeds" >"$work/said" 2>&1 || {
    tail -n 40 "$work/said"
    exit 1
}
awk '
    /^#.*DONE/ { sub(/.*DONE */, ""); print "ok   covered: " $0 }
    /number_of_executed_units/ { print "ok   inputs: " $2 }' "$work/said"
