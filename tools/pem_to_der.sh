#!/usr/bin/env bash
# usage: pem_to_der.sh [--reverse] <FILE.pem >FILE.der
#
# Converts certificates from PEM to DER, with nothing between them. --reverse puts the last one
# first, which turns the order of TLS into that of `cert_tool verify`. Other text, such as the
# output of `openssl s_client`, is ignored. The status is 1 if there is no certificate.
set -euo pipefail
case "$#${1-}" in
    0 | 1--reverse) order=${1:+r} ;;
    *) sed -n '2,6s/^# \?//p' "$0"; [ "$1" = --help ] && exit || exit 2 ;;
esac
work=$(mktemp -d)
trap 'rm -rf "$work"' EXIT
awk -v "work=$work" '
    /^-----BEGIN (TRUSTED |X509 )?CERTIFICATE-----/ {
        inside = 1
        file = sprintf("%s/%06d", work, ++count)
    }
    inside { print > file }
    /^-----END (TRUSTED |X509 )?CERTIFICATE-----/ { inside = 0; close(file) }'
files=$(find "$work" -type f | sort -n$order)
[ -n "$files" ] || { echo "pem_to_der.sh: no certificate in PEM on standard input" >&2; exit 1; }
for file in $files; do
    openssl x509 -in "$file" -outform DER
done
