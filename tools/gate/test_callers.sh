#!/usr/bin/env bash
# Tries ./x509_tool, builds the C library and the callers of examples/, and runs them on a certificate, on bad input, on hostile payloads of
# extensions and on paths, under valgrind and with sanitizers where these are there. What isn't installed is left out, with a line that says so. What
# they print is compared with what Python's `cryptography` says (examples/data/make.py), and with what tools/robustness/hostile_payloads.py and
# examples/data/make_path.py state by hand. Before that it checks the rows, the snippets of README.md, the names in docs/PROMISES.md and
# docs/OPERATIONS.md, the files that the pages name, docs/RULES.md, the checks of types, that each wrong body can be applied, the version, the C
# interface and what the packages declare of it; and it asks each call of the header about spoilt inputs, and whether each of its answers, and each of
# those of the crates' own calls, is seen by a test.
set -eu
top=$(cd "$(dirname "${BASH_SOURCE[0]}")/../.." && pwd)
gate=$top/tools/gate
robustness=$top/tools/robustness
folder=$(mktemp -d)
trap 'rm -rf "$folder"' EXIT
data=$top/examples/data
files=("$data/certificate.der" "$data/list.der" "$data/request.der")
rows=("$top/crates/x509_test_rows/stdin" "$top/crates/x509_test_rows/stdout")
failed=0

has() {
    command -v "$1" >/dev/null || {
        echo "left out, since $1 isn't installed: $2"
        return 1
    }
}

# usage: wants NAME STATUS FILE WORDS..: a run ends with a status, and prints what a file holds
wants() {
    local name=$1 status=$2 file=$3 ended=0
    shift 3
    "$@" >"$folder/printed" 2>"$folder/said" || ended=$?
    if [ "$ended" != "$status" ] || ! cmp -s "$folder/printed" "$file"; then
        echo "failed: $name: status $ended, and not $status, or other lines than $file:"
        cat "$folder/printed" "$folder/said"
        failed=1
    elif [ -z "${quiet:-}" ]; then
        echo "passed: $name"
    fi
}

# usage: show NAME WORDS..: the caller prints the certificate, and refuses what is none
show() {
    local name=$1
    shift
    wants "$name, a certificate" 0 "$data/expected.txt" "$@" "$data/certificate.der"
    wants "$name, nothing" 1 "$folder/refused.txt" "$@" "$folder/nothing"
    wants "$name, one byte" 1 "$folder/refused.txt" "$@" "$folder/one"
    wants "$name, a byte too few" 1 "$folder/refused.txt" "$@" "$folder/short"
}

# usage: hostile NAME WORDS..: the caller prints what is stated of each certificate with a hostile payload
hostile() {
    local name=$1 at before=$failed count=0
    shift
    [ -d "$folder/hostile" ] || return 0
    failed=0
    for at in "$folder"/hostile/*.der; do
        quiet=1 wants "$name, $(basename "$at")" "$(cat "${at%.der}.status")" "${at%.der}.txt" "$@" "$at"
        count=$((count + 1))
    done
    [ "$failed" != 0 ] || echo "passed: $name, $count certificates that are hostile or unusual"
    failed=$((failed | before))
}

# usage: payloads NAME WORDS..: the caller prints what is stated of hostile payloads that nothing has checked, and of spoilt ones what that in Python does
payloads() {
    local name=$1
    shift
    [ -d "$folder/hostile" ] || return 0
    wants "$name, hostile payloads" 0 "$folder/hostile/payloads.txt" "$@" "$folder/hostile/payloads"
    wants "$name, spoilt payloads" 0 "$folder/hostile/spoilt.txt" "$@" "$folder/hostile/spoilt"
}

# usage: paths FOLDER NAME WORDS..: the checker of paths prints what is stated of each path of the folder
paths() {
    local cases=$folder/$1
    shift
    [ ! -d "$cases" ] || python3 -B "$robustness/check_paths.py" "$cases" "$@" || failed=1
}

# openssl takes the path as it should be
accept_path() {
    local name
    for name in root intermediate server; do
        openssl x509 -inform DER -in "$folder/paths/$name.der" -out "$folder/$name.pem"
    done
    echo "$folder/server.pem: OK" >"$folder/accepted.txt"
    wants "openssl, the path as it should be" 0 "$folder/accepted.txt" openssl verify -x509_strict -partial_chain -attime 1893456000 \
        -trusted "$folder/root.pem" -untrusted "$folder/intermediate.pem" "$folder/server.pem"
}

# usage: facts NAME WORDS..: the program says what is stated of certificates with each extension
facts() {
    local name=$1 stated=$folder/stated
    shift
    [ ! -d "$stated" ] || wants "$name, all that certificates have" 0 "$stated/said.txt" "$@" "$stated/each.der" "$stated/other.der"
    wants "$name, all that a part of a certificate has" 1 "$folder/nothing" "$@" "$folder/nothing" "$folder/short" "$folder/none"
}

# usage: authority NAME WORDS..: the authority makes a chain that openssl takes, also beside a CRL, until the server is revoked; and a CSR
authority() {
    local name=$1 made=$folder/made file
    shift
    rm -rf "$made"
    mkdir "$made"
    wants "$name, an authority" 0 "$folder/nothing" "$@" "$made"
    wants "$name, an authority without a folder" 1 "$folder/nothing" "$@" "$made/none"
    if python3 -c 'import cryptography' 2>"$folder/said"; then
        python3 -B "$gate/verify_authority.py" "$made" || failed=1
    else
        echo "left out, since Python's cryptography isn't installed: its answers to the authority"
    fi
    has openssl "its answers to the authority" || return 0
    for file in root intermediate server; do
        openssl x509 -inform DER -in "$made/$file.der" -out "$made/$file.pem" || failed=1
    done
    for file in before after; do
        openssl crl -inform DER -in "$made/$file.der" -out "$made/$file.pem" 2>>"$folder/said" || failed=1
    done
    local verify=(openssl verify -x509_strict -attime 1893456000 -CAfile "$made/root.pem" -untrusted "$made/intermediate.pem")
    echo "$made/server.pem: OK" >"$folder/accepted.txt"
    wants "openssl, the chain of $name" 0 "$folder/accepted.txt" "${verify[@]}" -verify_hostname www.example.org "$made/server.pem"
    wants "openssl, the chain of $name and a CRL" 0 "$folder/accepted.txt" "${verify[@]}" -crl_check -CRLfile "$made/before.pem" "$made/server.pem"
    wants "openssl, the chain of $name once it is revoked" 2 "$folder/nothing" "${verify[@]}" -crl_check -CRLfile "$made/after.pem" "$made/server.pem"
    grep -q 'certificate revoked' "$folder/said" || {
        echo "failed: openssl doesn't say that the server of $name is revoked"
        failed=1
    }
    wants "openssl, the CSR of $name" 0 "$folder/nothing" openssl req -inform DER -in "$made/request.der" -verify -noout
}

# usage: revoked NAME WORDS..: the program says of the server of the last authority what the CRLs before and after say; and of a certificate by one that may not
# sign CRLs nothing
revoked() {
    local name=$1 made=$folder/made
    shift
    local server=("$made/server.der" "$made/intermediate.der")
    wants "$name, an unrevoked server" 0 "$folder/unrevoked.txt" "$@" 1893456000 "${server[@]}" "$made/before.der"
    wants "$name, a revoked server" 1 "$folder/revoked.txt" "$@" 1893456000 "${server[@]}" "$made/after.der" "$made/before.der"
    wants "$name, the latest CRL behind an earlier one" 1 "$folder/revoked_behind.txt" "$@" 1893456000 "${server[@]}" "$made/before.der" "$made/after.der"
    wants "$name, a server and no CRL" 1 "$folder/undetermined.txt" "$@" 1893456000 "${server[@]}"
    wants "$name, another signer" 1 "$folder/undetermined.txt" "$@" 1893456000 "$made/server.der" "$made/root.der" "$made/before.der"
    wants "$name, a signer that may not sign CRLs" 1 "$folder/undetermined.txt" "$@" 1769904000 "$data/certificate.der" "$data/certificate.der" "$data/list.der"
    wants "$name, no certificate" 1 "$folder/no_status.txt" "$@" 1893456000 "$folder/nothing" "$made/root.der" "$made/before.der"
    wants "$name, no CRL" 1 "$folder/no_status.txt" "$@" 1893456000 "${server[@]}" "$folder/one"
}

# usage: timestamps NAME WORDS..: the program says of each SCT of certificates whether it is signed, and of what is none that it is refused
timestamps() {
    local name=$1 made=$folder/scts
    shift
    [ -d "$made" ] || return 0
    wants "$name, SCTs that are signed" 0 "$made/good.txt" "$@" "$made/good.der" "$made/issuer.der" "$made/rsa.der" "$made/ec.der"
    wants "$name, an SCT of an unknown log" 1 "$made/known.txt" "$@" "$made/good.der" "$made/issuer.der" "$made/ec.der"
    wants "$name, SCTs that aren't signed" 1 "$made/all.txt" "$@" "$made/certificate.der" "$made/issuer.der" "$made/ec.der" "$made/rsa.der"
    wants "$name, no SCTs" 1 "$folder/no_timestamps.txt" "$@" "$made/issuer.der" "$made/issuer.der" "$made/ec.der"
    wants "$name, no certificate" 1 "$folder/no_status.txt" "$@" "$folder/one" "$made/issuer.der" "$made/ec.der"
}

echo 'certificate: refused with 2' >"$folder/refused.txt"
echo unrevoked >"$folder/unrevoked.txt"
echo undetermined >"$folder/undetermined.txt"
echo 'refused 2' >"$folder/no_status.txt"
echo 'refused 6' >"$folder/no_timestamps.txt"
# keyCompromise, at the first second of the authority's certificates
echo 'revoked 0 1 1767225600' >"$folder/revoked.txt"
# the same by the second of two CRLs, which is the newer one (RFC 5280 5.2.3)
echo 'revoked 1 1 1767225600' >"$folder/revoked_behind.txt"
echo 'all calls answer as they should' >"$folder/calls.txt"
# RFC 4514 2.4, by hand, and twice: as the library prints the name, and as its values are escaped
printf '%s\n%s\n' 'CN=a\,O=Evil,O=Haus\, Hof \+ Söhne,C=US' 'CN=a\,O=Evil,O=Haus\, Hof \+ Söhne,C=US' >"$folder/name.txt"
echo 'refused with 5' >"$folder/no_name.txt"
: >"$folder/nothing"
printf '0' >"$folder/one"
head -c -1 "$data/certificate.der" >"$folder/short"

if has python3 \
    "hostile payloads, the rows, the snippets of README.md, the names in docs/PROMISES.md and docs/OPERATIONS.md, docs/RULES.md, and ./x509_tool"; then
    python3 -B "$gate/make_rows.py" --check || failed=1
    python3 -B "$gate/check_readme_snippets.py" || failed=1
    python3 -B "$gate/check_promises.py" || failed=1
    python3 -B "$gate/check_operations.py" || failed=1
    python3 -B "$gate/check_recipes.py" || failed=1
    python3 -B "$gate/check_type_checks.py" || failed=1
    python3 -B "$gate/check_seen.py" || failed=1
    python3 -B "$gate/list_rules.py" --check || failed=1
    python3 -B "$gate/list_web_rules.py" --check || failed=1
    python3 -B "$gate/list_rule_names.py" --check || failed=1
    python3 -B "$gate/list_types.py" --check || failed=1
    python3 -B "$gate/list_promises.py" --check || failed=1
    python3 -B "$gate/list_definitions.py" --check || failed=1
    python3 -B "$top/tools/build/make_bindings.py" --check || failed=1
    python3 -B "$top/tools/build/derive.py" --check || failed=1
    python3 -B "$gate/test_derive.py" || failed=1
    python3 -B "$gate/wrong_bodies.py" --check || failed=1
    python3 -B "$gate/test_wrong_bodies.py" || failed=1
    ! has rt "wrong bodies that are tried together, by the prover" || python3 -B "$gate/test_wrong_bodies.py" --real || failed=1
    python3 -B "$gate/check_version.py" || failed=1
    python3 -B "$gate/test_first_command.py" real || failed=1
    python3 -B "$robustness/hostile_payloads.py" "$folder/hostile"
    rules=("$data/certificate.der" "$data/list.der" "$folder/hostile/generalized_time_before_2050.der")
    if python3 -c 'import cryptography' 2>"$folder/said"; then
        python3 -B "$data/make_path.py" "$folder/paths"
        python3 -B "$data/make_timestamps.py" "$folder/scts"
        ! has openssl "its answer to the path" || accept_path
        python3 -B "$gate/compare_facts.py" "$folder/stated"
    else
        echo "left out, since Python's cryptography isn't installed: paths, and certificates with each extension"
    fi
fi

# usage: program NAME: proves and builds a program where it is missing or a source is newer
program() {
    local file=$top/crates/$1/out/$1 left_out=(-name out -o -name must-fail -o -name wrong-bodies)
    if [ ! -e "$file" ] || [ -n "$(find "$top/crates" "$top/crates.txt" \( "${left_out[@]}" \) -prune -o -type f -newer "$file" -print -quit)" ]; then
        "$top/tools/build/build_program.py" "$1" >&2
    fi
}

if has python3 "spoilt rows, certificates and CRLs that break a rule, hostile texts in x509_show, and x509_show beside openssl"; then
    program x509_test_rows
    python3 -B "$robustness/spoil_rows.py" --places 8 "$top/crates/x509_test_rows/out/x509_test_rows" || failed=1
    if has valgrind "sets that are put into places by lengths"; then
        program x509_name_tool
        python3 -B "$gate/test_sorting.py" "$top/crates/x509_name_tool/out/x509_name_tool" || failed=1
    fi
    program x509_linter
    python3 -B "$gate/test_linter.py" "$top/crates/x509_linter/out/x509_linter" || failed=1
    program x509_show
    python3 -B "$gate/test_show.py" "$top/crates/x509_show/out/x509_show" || failed=1
    if [ ! -d /etc/ssl/certs ]; then
        echo "left out, since the system has no store of certificates: x509_show beside openssl"
    elif has openssl "x509_show beside openssl"; then
        python3 -B "$gate/compare_with_openssl.py" "$top/crates/x509_show/out/x509_show" || failed=1
    fi
fi

has "${CC:-cc}" "all callers" || exit "$failed"
"$top/tools/build/link_c_library.sh" "$folder"
of_package=(env X509_LIBRARY="$folder/libx509.so" PYTHONPATH="$top/bindings/python/src" python3 -B)
if [ -d "$folder/hostile" ]; then
    "${of_package[@]}" "$top/examples/python/payloads.py" "$folder/hostile/spoilt" >"$folder/hostile/spoilt.txt"
fi
[ ! -d "$folder/paths" ] || python3 -B "$robustness/spoil_paths.py" "$folder/paths" "$folder/spoilt" "$folder/libx509.so" || failed=1

compiler=("${CC:-cc}" -std=c11 -Wall -Wextra -Werror -O1 -g -I "$top/include")
callers=(show facts name calls calls_values calls_parts calls_build calls_documents rules payloads)
printf '%s\n' '#include <openssl/evp.h>' 'int main(void) { return EVP_DigestVerifyInit_ex == NULL; }' >"$folder/tried.c"
if "${CC:-cc}" "$folder/tried.c" -lcrypto -o "$folder/tried" 2>"$folder/said"; then
    callers+=(path authority revoked timestamps)
else
    echo "left out, since libcrypto 3 with its headers isn't installed: paths and an authority in C"
fi
printf '%s\n' '#include <openssl/ssl.h>' 'int main(void) { return SSL_CTX_set_cert_verify_callback == NULL; }' >"$folder/tried.c"
if ! "${CC:-cc}" "$folder/tried.c" -lssl -lcrypto -o "$folder/tried" 2>"$folder/said"; then
    echo "left out, since libssl 3 with its headers isn't installed: a TLS client in C"
elif ! python3 -c "import cryptography" 2>/dev/null; then
    echo "left out, since Python's cryptography isn't installed: a TLS client in C"
elif has openssl "a TLS client in C"; then
    callers+=(tls_client)
fi

# usage: run_tests NAME WORDS..: a run of tests passes
run_tests() {
    local name=$1
    shift
    if "$@" >"$folder/said" 2>&1; then
        echo "passed: $name"
    else
        echo "failed: $name:"
        cat "$folder/said"
        failed=1
    fi
}

# usage: compile SUFFIX FLAGS..: the callers in C
compile() {
    local suffix=$1 name libraries
    shift
    for name in "${callers[@]}"; do
        libraries=("$folder/libx509_c.a" "$folder/liblibc_c.a")
        case $name in
            path | authority | revoked | timestamps) libraries+=(-lcrypto) ;;
            tls_client) libraries+=(-lssl -lcrypto) ;;
        esac
        "${compiler[@]}" "$@" "$top/examples/c/$name.c" "${libraries[@]}" -o "$folder/$name$suffix"
    done
}

# usage: run_c NAME SUFFIX WORDS..: the callers in C, behind these words
run_c() {
    local name=$1 suffix=$2 asked
    shift 2
    show "$name" "$@" "$folder/show$suffix"
    for asked in calls calls_values calls_parts calls_build calls_documents; do
        wants "$name, $asked" 0 "$folder/calls.txt" "$@" "$folder/$asked$suffix" "${files[@]}"
    done
    wants "$name, a name of values" 0 "$folder/name.txt" "$@" "$folder/name$suffix" C US O 'Haus, Hof + Söhne' CN 'a,O=Evil'
    wants "$name, a country of three letters" 1 "$folder/no_name.txt" "$@" "$folder/name$suffix" C USA CN a
    facts "$name" "$@" "$folder/facts$suffix"
    hostile "$name" "$@" "$folder/show$suffix"
    payloads "$name" "$@" "$folder/payloads$suffix"
    [ -z "${rules:-}" ] || wants "$name, the rules of the header" 0 "$folder/calls.txt" "$@" "$folder/rules$suffix" "${rules[@]}"
    [ ! -e "$folder/path$suffix" ] || paths paths "$name" "$@" "$folder/path$suffix"
    [ ! -e "$folder/authority$suffix" ] || authority "$name" "$@" "$folder/authority$suffix"
    [ ! -e "$folder/revoked$suffix" ] || revoked "$name" "$@" "$folder/revoked$suffix"
    [ ! -e "$folder/timestamps$suffix" ] || timestamps "$name" "$@" "$folder/timestamps$suffix"
    [ ! -e "$folder/tls_client$suffix" ] || run_tests "$name, a TLS client and its servers" python3 -B "$gate/test_tls.py" "$@" "$folder/tls_client$suffix"
}

# usage: run_spoilt NAME SUFFIX: the checker of paths in C says of spoilt paths what that in Python does
run_spoilt() {
    [ ! -e "$folder/path$2" ] || paths spoilt "$1, spoilt" "$folder/path$2"
}

# usage: spoil NAME COUNT THREADS FLAGS..: each call of the header about spoilt inputs
spoil() {
    local name=$1 count=$2 threads=$3
    shift 3
    [ -e "$folder/calls_table.h" ] || return 0
    "${compiler[@]}" -O2 "$@" -I "$folder" "$robustness/spoil_calls.c" "$folder/libx509_c.a" "$folder/liblibc_c.a" -lpthread -o "$folder/spoil_calls"
    if "$folder/spoil_calls" "${rows[0]}" "$count" 1 "$threads" "${files[@]}" >"$folder/printed" 2>&1; then
        echo "passed: $name: $(cat "$folder/printed")"
    else
        echo "failed: $name:"
        cat "$folder/printed"
        failed=1
    fi
}

# usage: spoil_pools NAME FLAGS..: paths found over spoilt candidates, and under spoilt anchors
spoil_pools() {
    local name=$1 at path=()
    shift
    [ -d "$folder/paths" ] || return 0
    for at in root intermediate_1 sub server_of_sub; do
        path+=("$folder/paths/$at.der")
    done
    "${compiler[@]}" -O2 "$@" "$robustness/spoil_pools.c" "$folder/libx509_c.a" "$folder/liblibc_c.a" -o "$folder/spoil_pools"
    if "$folder/spoil_pools" 5000 1 1893456000 "${path[@]}" >"$folder/printed" 2>&1; then
        echo "passed: $name: $(cat "$folder/printed")"
    else
        echo "failed: $name:"
        cat "$folder/printed"
        failed=1
    fi
}

# usage: note NAME SEEN FLAGS..: runs a program in C that asks calls, linked so that it notes their answers
note() {
    local source=$1 name words=("${files[@]}") seen=$2
    name=$(basename "$source" .c)
    shift 2
    [ "$name" != rules ] || words=("${rules[@]}")
    "${compiler[@]}" "$source" "$folder/answers.c" "@$folder/answers.link" "$@" "$folder/libx509_c.a" "$folder/liblibc_c.a" -o "$folder/${name}_noted"
    quiet=1 X509_ANSWERS=$seen wants "C, $name, whose answers are noted" 0 "$folder/calls.txt" "$folder/${name}_noted" "${words[@]}"
}

# each answer of each call is seen by a test, and the allocations of each that takes memory are refused by one
see_answers() {
    local name
    [ -e "$folder/answers.c" ] || return 0
    for name in calls calls_values calls_parts calls_build calls_documents rules; do
        note "$top/examples/c/$name.c" "$folder/seen.txt"
    done
    note "$robustness/refuse_memory.c" "$folder/refused_memory.txt" -Wl,--wrap=malloc,--wrap=realloc,--wrap=free
    python3 -B "$gate/check_answers.py" "$folder/seen.txt" "$folder/refused_memory.txt" || failed=1
}

if has python3 "the exports beside the header, the interface beside include/abi.txt, each call about spoilt inputs, and each of its answers"; then
    python3 -B "$gate/compare_exports.py" "$folder/libx509_c.a" || failed=1
    python3 -B "$gate/check_abi.py" || failed=1
    python3 -B "$gate/test_abi.py" || failed=1
    python3 -B "$robustness/calls_table.py" >"$folder/calls_table.h"
    python3 -B "$gate/check_answers.py" --wrap "$folder"
fi

compile ""
run_c "C" ""
run_spoilt "C" ""
see_answers
spoil "C, spoilt inputs in eight threads" 2000 8
sanitizers=(-fsanitize=address,undefined -fno-sanitize-recover=all)
if echo 'int main(void) { return 0; }' | "${CC:-cc}" -x c "${sanitizers[@]}" - -o "$folder/tried" 2>"$folder/said" && "$folder/tried" 2>"$folder/said"; then
    compile "_sanitized" "${sanitizers[@]}"
    run_c "C with sanitizers" "_sanitized"
    run_spoilt "C with sanitizers" "_sanitized"
    spoil "C with sanitizers, spoilt inputs" 20000 1 "${sanitizers[@]}"
    spoil_pools "C with sanitizers, spoilt candidates" "${sanitizers[@]}"
else
    echo "left out, since ${CC:-cc} lacks them: runs with AddressSanitizer and UBSan"
    spoil_pools "C, spoilt candidates"
fi
"${compiler[@]}" "$robustness/refuse_memory.c" -Wl,--wrap=malloc,--wrap=realloc,--wrap=free \
    "$folder/libx509_c.a" "$folder/liblibc_c.a" -o "$folder/refuse_memory"
wants "C, each allocation refused, also of each row" 0 "$folder/calls.txt" "$folder/refuse_memory" "${files[@]}" "${rows[@]}"
"${compiler[@]}" "$robustness/compare_checks.c" "$folder/libx509_c.a" "$folder/liblibc_c.a" -o "$folder/compare_checks"
"$folder/compare_checks" "${rows[0]}" 1000000 1 "${files[@]}" || failed=1
watched=(valgrind -q --error-exitcode=9 --leak-check=full)
if has valgrind "runs that look for leaks and bad reads"; then
    run_c "C under valgrind" "" "${watched[@]}"
    wants "C under valgrind, each allocation refused" 0 "$folder/calls.txt" "${watched[@]}" "$folder/refuse_memory" "${files[@]}"
fi

# the tests of the crate for Rust under valgrind, and with AddressSanitizer where the compiler has it, as that of a release has behind RUSTC_BOOTSTRAP. Some
# lend bytes for good, so leaks aren't looked for here: the library's are above.
test_watched() {
    local tests=(cargo test -q --offline --lib --tests --manifest-path "$top/bindings/rust/Cargo.toml") host
    host=$(rustc -vV | sed -n 's/^host: //p')
    ! has valgrind "the tests of the crate for Rust under valgrind" ||
        run_tests "Rust under valgrind, the tests of the crate" \
            env "CARGO_TARGET_$(echo "$host" | tr 'a-z-' 'A-Z_')_RUNNER=valgrind -q --error-exitcode=9" "${tests[@]}"
    if echo 'fn main() {}' | RUSTC_BOOTSTRAP=1 rustc -Zsanitizer=address -o "$folder/tried" - 2>"$folder/said" && "$folder/tried" 2>"$folder/said"; then
        run_tests "Rust with a sanitizer, the tests of the crate" \
            env RUSTC_BOOTSTRAP=1 RUSTFLAGS=-Zsanitizer=address ASAN_OPTIONS=detect_leaks=0 "${tests[@]}" --target "$host"
    else
        echo "left out, since rustc lacks it: the tests of the crate for Rust with AddressSanitizer"
    fi
}

# the lines of the crate's README over serde, with serde as Debian has it
test_serde() {
    local from=/usr/share/cargo/registry at=$folder/serde
    if ! compgen -G "$from/serde-1.*" >/dev/null || ! compgen -G "$from/serde_derive-1.*" >/dev/null; then
        echo "left out, since Debian's librust-serde-dev isn't installed: the lines over serde"
        return 0
    fi
    cp -r "$top/bindings/rust/tests/serde" "$at"
    sed -i "s#\"../..\"#\"$top/bindings/rust\"#" "$at/Cargo.toml"
    run_tests "Rust, the lines over serde" cargo run -q --offline --manifest-path "$at/Cargo.toml" \
        --config 'source.crates-io.replace-with="debian"' --config "source.debian.directory=\"$from\""
}

# a TLS client by rustls, as Debian has it, and its servers
test_rustls() {
    local from=/usr/share/cargo/registry at=$folder/rustls
    if ! compgen -G "$from/rustls-0.20.*" >/dev/null || ! compgen -G "$from/ring-0.16.*" >/dev/null; then
        echo "left out, since Debian's librust-rustls-dev isn't installed: a TLS client by rustls"
        return 0
    elif ! python3 -c "import cryptography" 2>"$folder/said"; then
        echo "left out, since Python's cryptography isn't installed: a TLS client by rustls"
        return 0
    fi
    has openssl "a TLS client by rustls" || return 0
    cp -r "$top/examples/rust/rustls" "$at"
    sed -i "s#\"../../../bindings/rust\"#\"$top/bindings/rust\"#" "$at/Cargo.toml"
    run_tests "Rust, a TLS client by rustls" cargo build -q --offline --manifest-path "$at/Cargo.toml" \
        --config 'source.crates-io.replace-with="debian"' --config "source.debian.directory=\"$from\""
    [ ! -x "$folder/target/debug/tls-client" ] ||
        run_tests "Rust, a TLS client by rustls and its servers" python3 -B "$gate/test_tls.py" "$folder/target/debug/tls-client"
}

# the crate and its examples by the oldest compiler that Cargo.toml names, which Debian 12 has
test_oldest() {
    local wanted
    wanted=$(sed -n 's/^rust-version = "\(.*\)"$/\1/p' "$top/bindings/rust/Cargo.toml")
    if [[ $(/usr/bin/rustc --version 2>"$folder/said") != "rustc $wanted."* ]] || [ ! -x /usr/bin/cargo ]; then
        echo "left out, since Debian's rustc $wanted and its cargo aren't installed: the crate by the oldest compiler that it is for"
        return 0
    fi
    run_tests "Rust $wanted, the crate and its examples" env RUSTC=/usr/bin/rustc CARGO_TARGET_DIR="$folder/oldest" \
        /usr/bin/cargo build -q --offline --examples --manifest-path "$top/bindings/rust/Cargo.toml"
}

if has cargo "the caller in Rust"; then
    export X509_LIBRARY=$folder CARGO_TARGET_DIR=$folder/target
    run_tests "Rust, the tests of the crate" cargo test -q --offline --manifest-path "$top/bindings/rust/Cargo.toml"
    test_watched
    test_serde
    test_rustls
    test_oldest
    cargo build -q --offline --examples --manifest-path "$top/bindings/rust/Cargo.toml"
    examples=$folder/target/debug/examples
    show "Rust" "$examples/show"
    hostile "Rust" "$examples/show"
    payloads "Rust" "$examples/payloads"
    # Python's interpreter isn't run so: the library that it calls is the one whose memory is watched here and above.
    if has valgrind "Rust under valgrind"; then
        hostile "Rust under valgrind" "${watched[@]}" "$examples/show"
        payloads "Rust under valgrind" "${watched[@]}" "$examples/payloads"
    fi
    facts "Rust" "$examples/facts"
    wants "Rust, a name of values" 0 "$folder/name.txt" "$examples/name" C US O 'Haus, Hof + Söhne' CN 'a,O=Evil'
    wants "Rust, a country of three letters" 1 "$folder/nothing" "$examples/name" C USA CN a
    ! has openssl "the authority in Rust" || authority "Rust" "$examples/authority"
    ! has valgrind "Rust under valgrind" || facts "Rust under valgrind" "${watched[@]}" "$examples/facts"
    if ! python3 -c 'import cryptography' 2>"$folder/said" || [ ! -d /etc/ssl/certs ]; then
        echo "left out, since Python's cryptography isn't installed, or the system has no store of certificates: Rust beside cryptography"
    else
        python3 -B "$gate/compare_rust.py" "$examples/told" || failed=1
    fi
fi

if has python3 "the caller in Python, and wide and deep values"; then
    show "Python" "${of_package[@]}" "$top/examples/python/show.py"
    hostile "Python" "${of_package[@]}" "$top/examples/python/show.py"
    payloads "Python" "${of_package[@]}" "$top/examples/python/payloads.py"
    paths paths "Python" "${of_package[@]}" "$top/examples/python/path.py"
    facts "Python" "${of_package[@]}" "$top/examples/python/facts.py"
    if [ -d "$folder/stated" ]; then
        programs=("$folder/facts" "${of_package[*]} $top/examples/python/facts.py")
        [ ! -e "$folder/target/debug/examples/facts" ] || programs+=("$folder/target/debug/examples/facts")
        python3 -B "$gate/compare_facts.py" "$folder/hostile" "${programs[@]}" || failed=1
    fi
    run_tests "Python, the tests of the package, beside cryptography" env X509_LIBRARY="$folder/libx509.so" PYTHONPATH="$top/bindings/python/src" \
        python3 -B -m unittest discover -s "$top/bindings/python/tests"
    ! has mypy "the types of the package for Python" ||
        run_tests "Python, the types of the package" mypy --strict --no-warn-unused-ignores --cache-dir "$folder/mypy" "$top/bindings/python/src/x509_cert"
    env X509_LIBRARY="$folder/libx509.so" PYTHONPATH="$top/bindings/python/src" python3 -B "$gate/try_pkits.py" || failed=1
    if ! python3 -c "import cryptography" 2>/dev/null; then
        echo "left out, since Python's cryptography isn't installed: CRLs and SCTs beside openssl, and a TLS client in Python"
    else
        ! has openssl "CRLs beside openssl" ||
            run_tests "CRLs beside openssl" python3 -B -W ignore "$robustness/compare_revocation.py" "$top/bindings/python/src" "$folder/libx509.so" --cases 200
        if [ -e "$folder/timestamps" ]; then
            run_tests "SCTs beside openssl" python3 -B -W ignore "$robustness/compare_timestamps.py" "$top/bindings/python/src" "$folder/libx509.so" --cases 400 \
                --show "$top/crates/x509_show/out/x509_show"
        else
            echo "left out, since libcrypto 3 with its headers isn't installed: SCTs beside openssl"
        fi
        ! has openssl "a TLS client in Python" ||
            run_tests "Python, a TLS client and its servers" python3 -B "$gate/test_tls.py" "${of_package[@]}" "$top/examples/python/tls_client.py"
    fi
    if ! python3 -c "import cryptography" 2>/dev/null; then
        echo "left out, since Python's cryptography isn't installed: names of the peer beside OpenSSL, Go and cryptography"
    else
        has go "names of the peer beside Go" || true
        run_tests "names of the peer beside OpenSSL, Go and cryptography" \
            python3 -B -W ignore "$robustness/compare_names.py" "$top/bindings/python/src" "$folder/libx509.so"
    fi
    forests=(--forests 100)
    if python3 -c "import cryptography" 2>/dev/null && has go "paths beside Go"; then
        forests+=(--go 50)
    fi
    run_tests "paths beside trying every path, and beside Go" \
        python3 -B -W ignore "$robustness/compare_forests.py" "$top/bindings/python/src" "$folder/libx509.so" "${forests[@]}"
    run_tests "policies beside the valid policy tree" python3 -B "$robustness/compare_policies.py" --chains 5000 --library "$folder/libx509.so"
    python3 -B "$robustness/hostile_sizes.py" --rows "$folder"
    wants "C, each allocation refused of wide and deep values" 0 "$folder/calls.txt" "$folder/refuse_memory" "${files[@]}" "$folder/rows" "$folder/answers"
fi
"$top/tools/gate/test_install.sh" || failed=1
if has python3 "packages over the library, installed and removed" && has dpkg-deb "packages over the library, installed and removed"; then
    env -u X509_LIBRARY -u CARGO_TARGET_DIR python3 -B "$gate/test_release.py" --over "$folder" || failed=1
fi
exit "$failed"
