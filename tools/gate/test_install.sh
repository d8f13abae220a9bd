#!/usr/bin/env bash
# Installs the C library under a fresh folder, and builds and runs a caller over it: in C with the flags of pkg-config, shared and static, in C++ with all
# warnings, and by CMake; and the packages for Rust, found by pkg-config, and Python, installed by pip, also as a wheel that carries its library; and the
# programs of examples/installed. What isn't installed is left out, with a line that says so. Asks too that the shared library lets nothing be seen but calls
# that begin with x509_.
set -eu
top=$(cd "$(dirname "${BASH_SOURCE[0]}")/../.." && pwd)
folder=$(mktemp -d)
trap 'rm -rf "$folder"' EXIT
prefix=$folder/usr
"$top/tools/build/install_c.sh" "$prefix" >/dev/null
failed=0

says() {
    if [ "$2" = "$3" ]; then
        echo "passed: $1"
    else
        echo "failed: $1: $3, and not $2"
        failed=1
    fi
}

has() {
    command -v "$1" >/dev/null || {
        echo "left out, since $1 isn't installed: $2"
        return 1
    }
}

# the identifier of key usage, as text; the same source is C and C++
cat >"$folder/caller.c" <<'C'
#include <stdio.h>
#include <x509.h>

int main(void) {
    const uint8_t oid[] = {0x55, 0x1d, 0x0f};
    uint8_t text[32];
    size_t written = 0;
    if (x509_oid_text(oid, sizeof oid, text, sizeof text, &written) != X509_OK) {
        return 1;
    }
    printf("%.*s\n", (int)written, (const char *)text);
    return 0;
}
C
cp "$folder/caller.c" "$folder/caller.cc"

# usage: tells NAME WORDS..: a program of examples/installed tells of the certificate what examples/data/make.py puts into it
subject='subject: CN=www.example.org,O=Beispiel\, Söhne & Co,C=DE'
tells() {
    local name=$1
    shift
    says "$name" "$subject" "$("$@" "$top/examples/data/certificate.der" | grep -Fx "$subject")"
}

seen=$(nm -D --defined-only "$prefix/lib/libx509.so" | awk '{print $3}' | grep -vc '^x509_' || true)
says "the shared library shows calls of the header alone" 0 "$seen"
says "the shared library has a soname" "libx509.so.$(ls "$prefix/lib" | sed -n 's/^libx509.so.\([0-9]*\)$/\1/p')" \
    "$(readelf -d "$prefix/lib/libx509.so" | sed -n 's/.*soname: \[\(.*\)\]$/\1/p')"

if has pkg-config "callers with the flags of pkg-config"; then
    export PKG_CONFIG_PATH=$prefix/lib/pkgconfig
    # shellcheck disable=SC2046
    "${CC:-cc}" -std=c11 -Wall -Wextra -pedantic -Werror $(pkg-config --cflags x509) "$folder/caller.c" $(pkg-config --libs x509) -o "$folder/shared"
    says "C, shared" 2.5.29.15 "$(LD_LIBRARY_PATH=$prefix/lib "$folder/shared")"
    # shellcheck disable=SC2046
    "${CC:-cc}" -std=c11 -Wall -Wextra -pedantic -Werror $(pkg-config --cflags x509) "$folder/caller.c" "$prefix/lib/libx509.a" -o "$folder/static"
    says "C, static" 2.5.29.15 "$("$folder/static")"
    # shellcheck disable=SC2046
    "${CC:-cc}" -std=c11 -Wall -Wextra -pedantic -Werror $(pkg-config --cflags x509) "$top/examples/installed/text.c" \
        $(pkg-config --libs x509) -o "$folder/text"
    tells "C, the text of a certificate" env LD_LIBRARY_PATH="$prefix/lib" "$folder/text"
    if has "${CXX:-c++}" "a caller in C++"; then
        # shellcheck disable=SC2046
        "${CXX:-c++}" -std=c++17 -Wall -Wextra -pedantic -Werror $(pkg-config --cflags x509) "$folder/caller.cc" $(pkg-config --libs x509) -o "$folder/cpp"
        says "C++" 2.5.29.15 "$(LD_LIBRARY_PATH=$prefix/lib "$folder/cpp")"
        # shellcheck disable=SC2046
        "${CXX:-c++}" -std=c++17 -Wall -Wextra -pedantic -Werror $(pkg-config --cflags x509) "$top/examples/installed/text.cc" \
            $(pkg-config --libs x509) -o "$folder/text"
        tells "C++, the text of a certificate" env LD_LIBRARY_PATH="$prefix/lib" "$folder/text"
    fi
fi

if has cmake "a caller by CMake"; then
    cat >"$folder/CMakeLists.txt" <<'CMAKE'
cmake_minimum_required(VERSION 3.13)
project(caller C)
find_package(x509 REQUIRED)
add_executable(by_cmake caller.c)
target_link_libraries(by_cmake x509::x509)
add_executable(by_cmake_static caller.c)
target_link_libraries(by_cmake_static x509::static)
CMAKE
    cmake -S "$folder" -B "$folder/build" -DCMAKE_PREFIX_PATH="$prefix" >"$folder/said" 2>&1 &&
        cmake --build "$folder/build" >>"$folder/said" 2>&1 || cat "$folder/said"
    says "CMake, shared" 2.5.29.15 "$("$folder/build/by_cmake")"
    says "CMake, static" 2.5.29.15 "$("$folder/build/by_cmake_static")"
    cmake -S "$top/examples/installed" -B "$folder/build_text" -DCMAKE_PREFIX_PATH="$prefix" >"$folder/said" 2>&1 &&
        cmake --build "$folder/build_text" >>"$folder/said" 2>&1 || cat "$folder/said"
    tells "CMake, the text of a certificate" "$folder/build_text/text"
fi

if has pkg-config "the crate for Rust over the install" && has cargo "the crate for Rust over the install"; then
    ended=0
    env -u X509_LIBRARY CARGO_TARGET_DIR="$folder/target" cargo test -q --offline --test builder \
        --manifest-path "$top/bindings/rust/Cargo.toml" >"$folder/said" 2>&1 || ended=$?
    [ "$ended" = 0 ] || cat "$folder/said"
    says "Rust, by pkg-config" 0 "$ended"
    mkdir -p "$folder/project/src"
    cp "$top/examples/installed/text.rs" "$folder/project/src/main.rs"
    printf '[package]\nname = "text"\nversion = "0.0.0"\nedition = "2021"\n[dependencies]\nx509-rattle = { path = "%s" }\n[workspace]\n' \
        "$top/bindings/rust" >"$folder/project/Cargo.toml"
    env -u X509_LIBRARY CARGO_TARGET_DIR="$folder/target" cargo build -q --offline --manifest-path "$folder/project/Cargo.toml" || true
    tells "Rust, the text of a certificate" "$folder/target/debug/text"
    X509_LIBRARY=$prefix/lib/libx509.so CARGO_TARGET_DIR="$folder/target_shared" cargo build -q --offline --manifest-path "$folder/project/Cargo.toml" || true
    tells "Rust, the text of a certificate by the file of the shared library" env LD_LIBRARY_PATH="$prefix/lib" "$folder/target_shared/debug/text"
    says "Rust, what X509_LIBRARY names" libx509.so.0 "$(readelf -d "$folder/target_shared/debug/text" | grep -o 'libx509[^]]*')"
fi

if has python3 "the package for Python over the install"; then
    ended=0
    python3 -m pip install -q --no-index --no-deps --target "$folder/package" "$top/bindings/python" >"$folder/said" 2>&1 || ended=$?
    [ "$ended" = 0 ] || cat "$folder/said"
    says "Python, by pip" "0 2.5.29.15" "$ended $(X509_LIBRARY=$prefix/lib/libx509.so PYTHONPATH=$folder/package python3 -B -c \
        'import x509_cert; print(x509_cert.KeyUsage(crl_sign=True).oid.dotted_string)')"
    python3 -m pip wheel -q --no-index --no-deps -C library="$prefix/lib/libx509.so" -w "$folder/wheel" "$top/bindings/python" >"$folder/said" 2>&1 ||
        cat "$folder/said"
    python3 -m pip install -q --no-index --no-deps --target "$folder/carries" "$folder"/wheel/*.whl >"$folder/said" 2>&1 || cat "$folder/said"
    tells "Python, the text of a certificate by a wheel that carries the library" env -u X509_LIBRARY PYTHONPATH="$folder/carries" \
        python3 -B "$top/examples/installed/text.py"
fi
exit "$failed"
