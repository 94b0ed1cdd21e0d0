#!/bin/sh
# machines.sh FOLDER ARCHIVE KEEPER: the C file by several compilers, optimised and not, with sanitizers, and on
# machines of 32 bits and of the other byte order, emulated. What is not installed is left out, and that is said.
# shellcheck source=portable/tests/common.sh
. "$(dirname "$0")/common.sh"
inputs=20000 calls=20000 files=5000
wanted=$(reference "$inputs")

# native NAME COMMAND...: a build for this machine.
native() {
    name=$1
    shift
    has "$@" || return 0
    build "$name" "$@"
    hold "$name" "$inputs" "$wanted"
    bindings "$name" none "$@"
    case $* in
    *-fsanitize=*) differ "$name" "$calls" "$files" -C linker="$work/$name/cc" ;;
    *) differ "$name" "$calls" "$files" ;;
    esac
}

# emulated NAME EMULATOR COMMAND...: a build for another machine. The replay is shorter, since it takes long there.
emulated() {
    name=$1 emulator=$2
    shift 2
    command -v "$emulator" >/dev/null || { echo "skip $name: there is no $emulator" && return 0; }
    has "$@" || return 0
    build "$name" "$@"
    hold "$name" "$few" "$less" "$emulator"
}

for compiler in gcc clang; do
    native "$compiler-O0" "$compiler" -O0
    native "$compiler-O3" "$compiler" -O3
done
native plain cc -O2 -DCUCKOOORMOLU_NO_BUILTINS
native sanitized clang -O1 -g -fsanitize="$sanitizers" -fno-sanitize-recover=all
# Reads of what was never written. Only what is compiled with it may be linked, so not the differential run.
if has clang -fsanitize=memory; then
    build memory clang -O1 -g -fsanitize=memory -fno-sanitize-recover=all
    hold memory "$inputs" "$wanted"
fi

few=2000 less=$(reference 2000)
emulated arm qemu-arm arm-linux-gnueabihf-gcc -O2 -static
emulated s390x qemu-s390x s390x-linux-gnu-gcc -O2 -static
