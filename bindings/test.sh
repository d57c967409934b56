#!/usr/bin/env bash
# Runs the tests of the bindings for C, Rust and Python.
#
#     bindings/test.sh FOLDER [COUNT]
#
# FOLDER is the result of bindings/build.sh. COUNT is the number of changed files that are decoded
# through C and through Rust (100,000). A suite is skipped if this machine lacks what it needs (a
# sanitizer, valgrind, cargo, Python 3.10). The last line is 'N passed, M failed' (suites). The
# status is 1 if one failed, and 2 if an argument is wrong.
set -uo pipefail
here=$(cd "$(dirname "$0")" && pwd)
top=$(dirname "$here")
if [ $# = 0 ] || [ $# -gt 2 ] || [[ $1 == -* ]]; then
    sed -n '2,9s/^# \?//p' "$0"
    [ "${1-}" = --help ] && exit || exit 2
fi
folder=$(cd "$1" && pwd) || exit 2
cd "$top" || exit 2
count=${2:-100000}
work=$(mktemp -d)
trap 'rm -rf "$work"' EXIT
cc=${CC:-cc}
passed=0 failed=0
export PYTHONPATH=$work/module PYTHONDONTWRITEBYTECODE=1
export WURSTDRAPE=$folder CARGO_TARGET_DIR=$work/target
manifest=(--offline --manifest-path "$here/rust/Cargo.toml")

# suite NAME LACK COMMAND...: runs a suite and counts it, unless LACK says what this machine lacks.
suite() {
    local began=$SECONDS
    printf '\n== %s\n' "$1"
    if [ -n "$2" ]; then
        echo "skipped: $2"
    elif "${@:3}"; then
        passed=$((passed + 1))
        echo "passed in $((SECONDS - began)) seconds"
    else
        failed=$((failed + 1))
        echo "FAILED"
    fi
}

# Prints why a program that is compiled with these flags can't run here (under the command `under`).
lack_of() {
    echo 'int main(void) { return 0; }' >"$work/tried.c"
    { "$cc" "$@" "$work/tried.c" -o "$work/tried" && ${under:-} "$work/tried"; } \
        >"$work/why" 2>&1 ||
        echo "this machine's compiler or system can't run it ($(tail -n 1 "$work/why"))"
}

flags=(-std=c11 -g -O1 -Wall -Wextra -Werror -I"$folder" -pthread)
archives=("$folder/libwurstdrape.a" "$folder/libwurstdrape_issue.a")
shared=(-L"$folder" -lwurstdrape -lwurstdrape_issue -Wl,-rpath,"$folder")
wrap=(-DWRAPPED "-Wl,--wrap=malloc,--wrap=realloc,--wrap=free")
ends=(-fsanitize=address,undefined -fno-sanitize-recover=all)

# Compiles c/test.c with these options, and runs it.
in_c() {
    "$cc" "${flags[@]}" "$here/c/test.c" "$@" -o "$work/test" && ${under:-} "$work/test" "$top"
}
examples() {
    local answers=$top/crates/cert_tool/data/answers.txt verify
    verify=("$work/verify" "$top/examples/root.der" "$top/examples/chain.der")
    "$cc" "${flags[@]}" "$here/c/first.c" "${archives[0]}" -o "$work/first" &&
        "$cc" "${flags[@]}" "$here/c/verify.c" "${archives[0]}" -o "$work/verify" &&
        "$work/first" "$top/examples/server.der" >"$work/listing" &&
        grep -q '^subject CN=desk.example$' "$work/listing" &&
        "${verify[@]}" "$answers" 1780000000 && ! "${verify[@]}" /dev/null 1780000000
}
python_tests() {
    local wheel
    wheel=$("$top/tools/wheel.py" "$folder" "$work") &&
        python3 -m zipfile -e "$wheel" "$work/module" &&
        python3 -m unittest "$here/python/test_wurstdrape.py"
}
rust_tests() {
    local run
    run=(cargo run --quiet "${manifest[@]}" --example questions -- "$top/examples/root.der")
    cargo test --quiet "${manifest[@]}" || return 1
    command -v openssl >/dev/null || return 0
    # The chain with another last byte, which is in the signature of the last certificate.
    { head -c -1 "$top/examples/chain.der" && printf '\0'; } >"$work/changed.der"
    [ "$("${run[@]}" "$top/examples/chain.der" 1780000000)" = Trusted ] &&
        [ "$("${run[@]}" "$work/changed.der" 1780000000)" = \
            "Refused { place: 1, rule: WrongSignature }" ]
}
# Decodes changed files through C and, if there is cargo, through Rust: each prints one line.
changed_files() {
    "$cc" "${flags[@]}" -O2 "$here/c/mutated.c" "${archives[0]}" -o "$work/mutated" &&
        "$work/mutated" "$top" "$count" | tee "$work/sum" || return 1
    [ -n "$no_cargo" ] ||
        cargo run --quiet --release "${manifest[@]}" --example mutated -- "$count" |
        diff "$work/sum" -
}

no_python=$(python3 -c 'import ctypes, sys, unittest; sys.exit(sys.version_info < (3, 10))' \
    2>/dev/null || echo "Python 3.10 or later isn't installed")
no_cargo=$({ cargo metadata --no-deps --format-version 1 "${manifest[@]}" && rustc --version; } \
    >/dev/null 2>&1 || echo "cargo isn't installed, or can't build bindings/rust")

suite "the header against the sources" "$no_python" "$top/tools/header.py"
suite "C" "" in_c "${shared[@]}"
suite "C, examples" "" examples
suite "C, with each allocation failing once" "" in_c "${archives[@]}" "${wrap[@]}"
suite "C, with the sanitizers for addresses and undefined behaviour" "$(lack_of "${ends[@]}")" \
    in_c "${archives[@]}" "${wrap[@]}" "${ends[@]}"
suite "C, with the sanitizer for threads" "$(lack_of -fsanitize=thread)" \
    in_c "${archives[@]}" -fsanitize=thread
under="valgrind -q --error-exitcode=1 --leak-check=full"
suite "C, with the shared library, under valgrind" "$(lack_of -g)" in_c "${shared[@]}"
under=
suite "Python" "$no_python" python_tests
suite "Rust" "$no_cargo" rust_tests
suite "$count changed files, through C and Rust" "" changed_files
printf '\n%s passed, %s failed\n' "$passed" "$failed"
[ "$failed" = 0 ]
