#!/usr/bin/env bash
# usage: make_chain.sh FOLDER
#
# Makes a chain of three certificates in FOLDER with OpenSSL 3: an RSA root, an intermediate with a
# key on P-256, and a server's certificate with two DNS names. Each run makes new keys. The .der
# files beside this script come from one such run; they are valid from 2026 to 2036.
set -euo pipefail
if [ $# != 1 ] || [[ $1 == -* ]]; then
    sed -n '2,6s/^# \?//p' "$0"
    [ "${1-}" = --help ] && exit || exit 2
fi
mkdir -p "$1"
cd "$1"
work=$(mktemp -d)
trap 'rm -rf "$work"' EXIT

# certify NAME SUBJECT ISSUER ALGORITHM EXTENSION...: makes a key and its certificate, for ten years
certify() {
    local key=(-newkey "$4") by=() extension
    [ "$4" != ec ] || key+=(-pkeyopt ec_paramgen_curve:P-256)
    [ "$3" = "$1" ] || by=(-CA "$work/$3.pem" -CAkey "$work/$3.key")
    for extension in "${@:5}"; do by+=(-addext "$extension"); done
    openssl req -x509 -config /dev/null "${key[@]}" -noenc -keyout "$work/$1.key" -subj "$2" \
        -days 3650 "${by[@]}" -out "$work/$1.pem"
    openssl x509 -in "$work/$1.pem" -outform DER -out "$1.der"
}

signs="keyUsage=critical,keyCertSign,cRLSign"
certify root "/C=US/O=Desk Example/CN=Desk Root" root rsa:2048 \
    "basicConstraints=critical,CA:true" "$signs"
certify intermediate "/C=US/O=Desk Example/CN=Desk Intermediate" root ec \
    "basicConstraints=critical,CA:true,pathlen:0" "$signs" "extendedKeyUsage=serverAuth"
certify server "/CN=desk.example" intermediate ec \
    "basicConstraints=critical,CA:false" "keyUsage=critical,digitalSignature" \
    "extendedKeyUsage=serverAuth" "subjectAltName=DNS:desk.example,DNS:www.desk.example"
# The chain without the root, in the order of `cert_tool verify`.
cat intermediate.der server.der > chain.der
