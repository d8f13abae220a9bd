#!/usr/bin/env bash
# Proves and builds the C library where it is missing or a source is newer, and copies it into a folder: libx509_c.a, liblibc_c.a, and
# libx509.so of the two.
#
# usage: tools/build/link_c_library.sh FOLDER
set -eu
top=$(cd "$(dirname "${BASH_SOURCE[0]}")/../.." && pwd)
mkdir -p "$1"
folder=$(cd "$1" && pwd)
library=$top/crates/x509_c/out/libx509_c.a
heap=$(dirname "$(dirname "$(readlink -f "$(command -v rt)")")")/c/liblibc_c.a

is_stale() {
    local left_out=(-name out -o -name must-fail -o -name wrong-bodies)
    [ ! -e "$library" ] ||
        [ -n "$(find "$top/crates" "$top/crates.txt" \( "${left_out[@]}" \) -prune -o -type f -newer "$library" -print -quit)" ]
}

if is_stale; then
    "$top/tools/build/build_c_library.py" >&2
fi
cp "$library" "$heap" "$folder/"
"${CC:-cc}" -shared -o "$folder/libx509.so" -Wl,--whole-archive "$library" -Wl,--no-whole-archive "$heap"
