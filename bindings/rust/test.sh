#!/bin/sh
# test.sh: the Rust crate's tests, those of a host without a heap without the
# feature that needs one, its pages, that they tell errors and panics, and that it
# is not built for a machine that the archive is not for, nor with an archive of
# another version. The tests again with the oldest Rust that the crate is for,
# where that is here: OLDEST_RUST names its folder bin, else it is one of rustup's,
# or Debian's in /usr/bin. The archive is that of CUCKOOORMOLU_LIB, as the build
# script says.
set -eu
cd "$(dirname "$0")"
library=${CUCKOOORMOLU_LIB:-$PWD/../../target/staticlib}

cargo test --release --quiet -p cuckooormolu
cargo test --release --quiet -p cuckooormolu --no-default-features --test without_alloc
RUSTDOCFLAGS='-D warnings' cargo doc --quiet --no-deps -p cuckooormolu
if cargo clippy --version >/dev/null 2>&1; then
    cargo clippy --quiet -p cuckooormolu
    echo "ok   pages that tell errors and panics"
else
    echo "skip pages that tell errors and panics: no clippy"
fi

oldest=$(sed -n 's/^rust-version = "\(.*\)"$/\1/p' Cargo.toml)
# has FOLDER: whether the folder has a cargo and the oldest rustc.
has() {
    [ -x "$1/cargo" ] && [ -x "$1/rustc" ] || return 1
    case $("$1/rustc" --version) in "rustc $oldest".*) ;; *) return 1 ;; esac
}
old=''
for folder in "${OLDEST_RUST:-}" "${RUSTUP_HOME:-$HOME/.rustup}/toolchains/$oldest"*/bin /usr/bin; do
    if has "$folder"; then old=$folder; fi
done
if [ -n "$old" ]; then
    # Its build is kept apart, for it knows nothing of the other's.
    for words in '' '--no-default-features --test without_alloc'; do
        # shellcheck disable=SC2086
        PATH="$old:$PATH" RUSTC="$old/rustc" RUSTDOC="$old/rustdoc" \
            CARGO_TARGET_DIR="${CARGO_TARGET_DIR:-../../target}/oldest" \
            "$old/cargo" test --release --quiet -p cuckooormolu $words
    done
    echo "ok   Rust $oldest"
elif [ -n "${OLDEST_RUST:-}" ]; then
    echo "FAIL there is no Rust $oldest in $OLDEST_RUST"
    exit 1
else
    echo "skip Rust $oldest: it is not here; OLDEST_RUST names its folder bin"
fi

# Whether or not the other target is installed, the build script comes first.
other=aarch64-unknown-linux-gnu
wanted="machine code for x86-64 Linux"
# refused [WORDS...]: whether the crate is, the command begun by the words.
refused() { "$@" cargo check --quiet -p cuckooormolu --target "$other" 2>&1 | grep -q "$wanted"; }
if ! refused; then
    echo "FAIL the crate is built for $other"
    exit 1
fi
if refused env CUCKOOORMOLU_ANY_TARGET=1; then
    echo "FAIL CUCKOOORMOLU_ANY_TARGET does not name another machine's archive"
    exit 1
fi
echo "ok   no crate for another machine"

# A folder without the C file is named, and one beside an archive is said to be ignored.
wanted="no cuckooormolu.c in CUCKOOORMOLU_C=$PWD"
if ! env -u CUCKOOORMOLU_LIB CUCKOOORMOLU_C="$PWD" cargo check --quiet -p cuckooormolu 2>&1 | grep -q "$wanted"; then
    echo "FAIL a folder without the C file is not named"
    exit 1
fi
wanted="CUCKOOORMOLU_C is ignored"
if ! CUCKOOORMOLU_LIB="$library" CUCKOOORMOLU_C="$PWD" cargo check -p cuckooormolu 2>&1 | grep -q "$wanted"; then
    echo "FAIL nothing is said of a C file that is ignored"
    exit 1
fi
echo "ok   which library is linked"

if ! command -v objcopy >/dev/null; then
    echo "skip an archive of another version: no objcopy"
    exit 0
fi
work=$(mktemp -d)
trap 'rm -rf "$work"' EXIT
version=$(nm "$library/libcuckooormolu.a" 2>/dev/null | sed -n 's/.* T \(cuckooormolu_raw_version_[0-9_]*\)$/\1/p')
objcopy --redefine-sym "$version=cuckooormolu_raw_version_0_0_0" "$library/libcuckooormolu.a" "$work/libcuckooormolu.a"
if CUCKOOORMOLU_LIB="$work" CARGO_TARGET_DIR="$work/target" \
    cargo test --quiet -p cuckooormolu --no-run --test without_alloc >"$work/said" 2>&1 ||
    ! grep -q "$version" "$work/said"; then
    echo "FAIL the crate is linked with an archive of another version, or not for that reason"
    cat "$work/said"
    exit 1
fi
echo "ok   no crate with an archive of another version"
