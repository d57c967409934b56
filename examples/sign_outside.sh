#!/usr/bin/env bash
# usage: sign_outside.sh PROGRAM
#
# Signs the certificates of crates/example_build_certificates with OpenSSL 3, with keys of RSA,
# ECDSA on P-256 and Ed25519, and verifies the resulting chains. PROGRAM is that example, built with
# `rt run`. CI doesn't run this script.
set -euo pipefail
if [ $# != 1 ] || [[ $1 == -* ]]; then
    sed -n '2,6s/^# \?//p' "$0"
    [ "${1-}" = --help ] && exit || exit 2
fi
program=$(realpath "$1")
work=$(mktemp -d)
trap 'rm -rf "$work"' EXIT
cd "$work"

# key NAME OPTION...: makes a private key, and the encoding of its public key
key() {
    openssl genpkey -quiet "${@:2}" -out "$1.pem"
    openssl pkey -in "$1.pem" -pubout -outform DER -out "$1.der"
}
key rsa -algorithm RSA -pkeyopt rsa_keygen_bits:2048
key p256 -algorithm EC -pkeyopt ec_paramgen_curve:P-256
key ed25519 -algorithm ED25519
key server -algorithm EC -pkeyopt ec_paramgen_curve:P-256
for kind in rsa p256 ed25519; do
    printf '%s\n' "root $kind $kind.der server.der" "server $kind $kind.der server.der"
done > questions

# The part of each certificate to be signed, and its signature by the root's key.
"$program" < questions | paste -d ' ' questions - > parts
while read -r what kind keys; do
    xxd -r -p <<< "${keys##* }" > part
    digest=(-digest sha256)
    [ "$kind" != ed25519 ] || digest=()
    openssl pkeyutl -sign -inkey "$kind.pem" -rawin "${digest[@]}" -in part -out "$kind.$what"
    echo "$what $kind ${keys% *} $kind.$what"
done < parts > signed

# The certificates.
"$program" < signed | paste -d ' ' signed - > certificates
while read -r what kind words; do
    xxd -r -p <<< "${words##* }" | openssl x509 -inform DER -out "$kind.$what.crt"
done < certificates
for kind in rsa p256 ed25519; do
    openssl verify -x509_strict -CAfile "$kind.root.crt" -purpose sslserver \
        -verify_hostname server.example "$kind.server.crt"
done
