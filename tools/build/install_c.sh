#!/usr/bin/env bash
# Installs the C library under a folder: the header, libx509.a, libx509.so with its soname, a file for pkg-config and one for CMake, which find the folder
# wherever it stands. The library is proved and built first where it is missing or a source is newer.
#
# usage: tools/build/install_c.sh PREFIX
set -eu
[ $# = 1 ] || {
    echo "usage: tools/build/install_c.sh PREFIX" >&2
    exit 2
}
top=$(cd "$(dirname "${BASH_SOURCE[0]}")/../.." && pwd)
built=$(mktemp -d)
trap 'rm -rf "$built"' EXIT
version=$(cat "$top/VERSION")
major=${version%%.*}

"$top/tools/build/link_c_library.sh" "$built"
"$top/tools/build/link_shared.sh" "$built" "$version"

mkdir -p "$1/include" "$1/lib/pkgconfig" "$1/lib/cmake/x509"
prefix=$(cd "$1" && pwd)
install -m 644 "$top/include/x509.h" "$prefix/include/"
install -m 644 "$built/libx509.a" "$prefix/lib/"
install -m 755 "$built/libx509.so.$version" "$prefix/lib/"
ln -sf "libx509.so.$version" "$prefix/lib/libx509.so.$major"
ln -sf "libx509.so.$major" "$prefix/lib/libx509.so"

# usage: fill NAME FOLDER: a file of the package
fill() {
    sed -e "s|@PREFIX@|\${pcfiledir}/../..|; s|@LIB@|lib|; s|@INCLUDE@|../include|; s|@VERSION@|$version|; s|@MAJOR@|$major|" \
        "$top/tools/build/package/$1.in" >"$prefix/lib/$2/$1"
}
fill x509.pc pkgconfig
fill x509Config.cmake cmake/x509
fill x509ConfigVersion.cmake cmake/x509
echo "installed x509 $version under $prefix"
