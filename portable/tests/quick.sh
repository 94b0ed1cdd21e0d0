#!/bin/sh
# quick.sh FOLDER ARCHIVE KEEPER: the C file by the machine's own compiler, the Rust crate over it, and clang's
# sanitizers where there are any. Bounded to about a minute; machines.sh does more.
# shellcheck source=portable/tests/common.sh
. "$(dirname "$0")/common.sh"
inputs=2000 calls=2000 files=500

# What is not known is refused, with the function and the statement.
mkdir "$work/mir"
sh "$top/portable/files.sh" | while IFS= read -r file; do
    sed 's/{"Add":"Unsigned"}/{"Add":"Signed"}/g' "$file" >"$work/mir/$(echo "$file" | tr '/' '-')"
done
export PYTHONDONTWRITEBYTECODE=1
if python3 "$top/portable/translate.py" '' "$work"/mir/* >/dev/null 2>"$work/said"; then exit 1; fi
grep -q '^translate: in [A-Za-z0-9_:+]*: (Assign .*(Add Signed)' "$work/said" || { cat "$work/said" && exit 1; }
echo 'ok   a sum of signed numbers is refused'

wanted=$(reference "$inputs")
build cc cc -O3
others=$(nm -u "$work/cc/cuckooormolu.o" | awk '$2 !~ /^(memcpy|memmove|memset)$/ { print $2 }')
[ -z "$others" ] || { echo "FAIL cc: it needs $others" && exit 1; }
hold cc "$inputs" "$wanted"
# What portable/README.md shows, in a folder with nothing else.
mkdir "$work/shown"
cp "$folder/cuckooormolu.c" "$folder/cuckooormolu.h" "$folder/example.c" "$folder/request_line.h" "$work/shown"
(cd "$work/shown" && cc -std=c11 -O2 -c cuckooormolu.c && cc -std=c11 -O2 -o host example.c cuckooormolu.o)
(cd "$top/examples/preset" && "$work/shown/host" terms.tsv requests.tsv) | cmp - "$top/examples/preset/expected.tsv"
echo 'ok   cc: the host beside the C file'
bindings cc c++ cc
differ cc "$calls" "$files"
quietly env -u CUCKOOORMOLU_LIB CUCKOOORMOLU_C="$folder" cargo test --release --quiet -p cuckooormolu
echo 'ok   cc: the Rust crate, built from the C file'

# As for the author of a host: the C file beside the crate, which is added to a program, and no archive anywhere.
added="$work/added"
mkdir -p "$added/host/src"
sed 's/^members = .*/members = ["rust", "host"]/; /^default-members/d' "$top/Cargo.toml" >"$added/Cargo.toml"
cp -R "$top/bindings/rust" "$added/rust"
cp "$folder/cuckooormolu.c" "$folder/cuckooormolu.h" "$added/rust"
cat >"$added/host/Cargo.toml" <<'END'
[package]
name = "host"
version = "0.0.0"
edition = "2021"

[dependencies]
cuckooormolu = { path = "../rust" }
END
cat >"$added/host/src/main.rs" <<'END'
use cuckooormolu::{Event, Member, Monitor, Request};
fn main() -> Result<(), Box<dyn std::error::Error>> {
    let mut monitor = Monitor::read(&std::fs::read(std::env::args().nth(1).unwrap())?)?;
    for (event, from, to) in [(2, 1, 2), (0, 0, 1), (2, 1, 2)] {
        let request = Request { event: Event(event), from: Member(from), to: Member(to) };
        println!("{}", monitor.request(request)?);
    }
    Ok(())
}
END
said=$(env -u CUCKOOORMOLU_LIB -u CUCKOOORMOLU_C CARGO_TARGET_DIR="$added/target" \
    cargo run --quiet --manifest-path "$added/Cargo.toml" -p host -- "$top/examples/preset/terms.tsv")
[ "$(echo "$said" | tr '\n' ' ')" = 'deny grant grant ' ] || { echo "FAIL the crate in a host: $said" && exit 1; }
echo 'ok   cc: the Rust crate in a host, with the C file beside it'

if has clang -fsanitize="$sanitizers"; then
    build sanitized clang -O1 -g -fsanitize="$sanitizers" -fno-sanitize-recover=all
    hold sanitized "$inputs" "$wanted"
fi
