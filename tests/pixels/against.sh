#!/usr/bin/env bash
# against.sh NAME [PROGRAM]: what cube.sh and one_end.sh share. Links NAME.c with the archive for C (the one that ARCHIVE names, else that of capi/build) and runs it; with PROGRAM
# it compares NAME.c with that program over the line protocol (PROTOCOL.md) instead. Everything is written to a temporary folder.
set -eu
here=$(cd "$(dirname "$0")" && pwd)
root=$(cd "$here/../.." && pwd)
work=$(mktemp -d)
trap 'rm -rf "$work"' EXIT
name=$1
shift
flags="-std=c11 -O2 -ffp-contract=off -Wall -Wextra -Wconversion"
if [ $# -gt 0 ]; then
    ${CC:-cc} $flags -DNO_ARCHIVE "$here/$name.c" -lm -o "$work/$name"
    "$work/$name" lines "$work/lines" "$work/expected"
    $1 <"$work/lines" | sed -n 'n;p' >"$work/answers" # every second line, those of X
    cmp "$work/expected" "$work/answers" && echo "all alike"
    exit
fi
archive=${ARCHIVE:-$root/target/staticlib/libclf_c.a}
[ -n "${ARCHIVE:-}" ] || "$root/capi/build"
${CC:-cc} $flags "$here/$name.c" "$archive" -lm -o "$work/$name"
"$work/$name"
