#!/bin/sh
# files.sh: the files with the MIR of the library, that of `cuckooormolu` and of each crate that it stands on, as the
# last build left them, after those of the toolchain's own libraries. crates.txt names a crate after all that it stands
# on.
set -eu
cd "$(dirname "$0")/.."
toolchain=$(dirname "$(readlink -f "$(command -v rt)")")/..
for library in core std std_alloc; do
    echo "$toolchain/rlibs/$library.rlib/toolchain/mir.json"
done
awk -F: -v top="$PWD" '
    { sub(/#.*/, ""); name[NR] = $1; below[NR] = $2 }
    END {
        wanted["cuckooormolu"] = 1
        for (i = NR; i > 0; i--) if (name[i] in wanted) for (k = split(below[i], b, " "); k > 0; k--) wanted[b[k]] = 1
        for (i = 1; i <= NR; i++) if (name[i] in wanted)
            print top "/crates/" name[i] "/out/rlib/" name[i] ".rlib/toolchain/mir.json"
    }' crates.txt
