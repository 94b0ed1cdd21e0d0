#!/bin/sh
# outside.sh ARCHIVE: the proved archive needs memcpy and memset from outside and
# nothing else, and has no data, into which a host would have to write addresses.
# Not for the library in C, which needs what its compiler asks for. Needs nm and
# size.
set -eu

if [ $# -ne 1 ] || [ ! -f "$1" ]; then
    echo "usage: outside.sh ARCHIVE" >&2
    exit 2
fi
needed=$(nm -u "$1" | awk '$1 == "U" { print $2 }' | sort -u | tr '\n' ' ')
[ "$needed" = 'memcpy memset ' ] || { echo "FAIL outside: it needs $needed" && exit 1; }
echo 'ok   outside: it needs memcpy and memset and nothing else'
data=$(size "$1" | awk 'NR > 1 { sum += $2 + $3 } END { print sum + 0 }')
[ "$data" = 0 ] || { echo "FAIL outside: it has $data bytes of data" && exit 1; }
echo 'ok   outside: it has no data'
