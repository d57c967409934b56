#!/usr/bin/env bash
# Runs programs of the documents (tools/guide/), each as a crate of its own, without proving them.
#
#     tools/guide.sh [NAME...]     NAME: asn1, facades, issue, judge, lists, parts, verify
#                                  (default: all)
#
# It prints the output of each program, and compares it with the lines `//=` of the program. If one
# differs, it prints the difference, and the status is 1.
set -euo pipefail
for name; do
    if [ ! -f "$(dirname "$0")/guide/$name.rt.txt" ]; then
        sed -n '2,8s/^# \?//p' "$0"
        [ "$name" = --help ] && exit || exit 2
    fi
done
top=$(cd "$(dirname "$0")/.." && pwd)
work=$(mktemp -d)
trap 'rm -rf "$work"' EXIT
cp -r "$top/crates" "$work"
rm -rf "$work"/crates/*/out
cp "$top/crates.txt" "$work"
declare -A inputs=(
    [parts]=$top/examples/server.der [lists]=$work/request.der [judge]=$top/tools/guide/judge.der
    [facades]=/dev/null [verify]=/dev/null [issue]=$top/examples/orders.txt [asn1]=/dev/null
)
# The crates that a program imports from, besides those that all programs name.
declare -A others=([asn1]="bookings loans hex")
# The files and the arguments of the program that has some.
declare -A words=(
    [verify]="--data root.der=$top/examples/root.der --data chain.der=$top/examples/chain.der
        --data answers=$top/crates/cert_tool/data/answers.txt
        -- root.der chain.der answers 1780000000"
)
openssl req -new -newkey rsa:2048 -nodes -keyout /dev/null -subj /CN=r \
    -addext subjectAltName=DNS:a.example -outform DER -out "$work/request.der" 2>"$work/log"
for module in bookings loans; do
    "$top/tools/asn1" "$top/tests/asn1/$module.asn1" "$work/crates/$module" |
        sed -n 's/^crates.txt: //p' >>"$work/crates.txt"
done
status=0
for name in "${@:-${!inputs[@]}}"; do
    program=$top/tools/guide/$name.rt.txt crate=$work/crates/guide_$name
    mkdir -p "$crate/src"
    cp "$program" "$crate/src/main.rt"
    libraries="cert_desk cert_desk_answers x509_cert der_types der_core const_oid"
    echo "guide_$name: $libraries ${others[$name]:-}" >>"$work/crates.txt"
    # shellcheck disable=SC2086
    (cd "$crate" && rt try ${words[$name]:-} <"${inputs[$name]}" >"$work/got" 2>"$work/errors") ||
        true
    [ $# = 1 ] || echo "== $name"
    cat "$work/got"
    if ! diff <(sed -n 's,^//= \?,,p' "$program") "$work/got"; then
        tail -5 "$work/errors"
        status=1
    fi
done
exit $status
