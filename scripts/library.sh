#!/bin/bash
# Proves and builds the library for C, in the two forms that callers link, for x86-64 Linux:
#
#     scripts/library.sh [OUT]
#
# - OUT/lib/libfilterset.a: what `rt lib` makes of crates/filterset_c, with what asks the C library for memory;
# - OUT/lib/libfilterset.so: the same, with only the functions of bindings/c/filterset.h exported.
#
# OUT is out/ if it is not given. The first build proves all crates below the library, later ones mostly what changed.
set -euo pipefail
cd "$(dirname "${BASH_SOURCE[0]}")/.."
out=${1:-out}/lib archive=crates/filterset_c/out/libfilterset_c.a heap=$(dirname "$(rt doc)")/c/liblibc_c.a
(cd crates/filterset_c && rt lib)
room=$(mktemp -d)
trap 'rm -rf "$room"' EXIT
(cd "$room" && ar x "$heap")
cp "$archive" "$room/libfilterset.a"
ar rsD "$room/libfilterset.a" "$room"/*.o
"${CC:-cc}" -shared -o "$room/libfilterset.so" -Wl,-soname,libfilterset.so.0 -Wl,--whole-archive "$archive" \
    -Wl,--no-whole-archive "$heap" -Wl,--exclude-libs,liblibc_c.a -Wl,--no-undefined
mkdir -p "$out"
mv "$room/libfilterset.a" "$room/libfilterset.so" "$out"
