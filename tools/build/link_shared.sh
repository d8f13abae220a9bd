#!/usr/bin/env bash
# Makes libx509.a and the shared library, with its soname and the calls of the header alone to be seen, of libx509_c.a and liblibc_c.a in a folder.
#
# usage: tools/build/link_shared.sh FOLDER VERSION
set -eu
[ $# = 2 ] || {
    echo "usage: tools/build/link_shared.sh FOLDER VERSION" >&2
    exit 2
}
cd "$1"
# one archive of the library and of the heap that it stands on
rm -f libx509.a
printf 'create libx509.a\naddlib libx509_c.a\naddlib liblibc_c.a\nsave\nend\n' | "${AR:-ar}" -M
# only what the header declares can be seen from outside
echo '{ global: x509_*; local: *; };' >exports
"${CC:-cc}" -shared -o "libx509.so.$2" -Wl,-soname,"libx509.so.${2%%.*}" -Wl,--version-script,exports \
    -Wl,-z,defs -Wl,-z,relro -Wl,-z,now -Wl,--whole-archive libx509.a -Wl,--no-whole-archive
