#!/usr/bin/env python3
"""Compares what `cert_tool` describes of OCSP, messages, keys and timestamps with OpenSSL's text.

    messages.py TOOL [--count N] [--changed N]

OpenSSL and Python's `cryptography` make N values of each kind (tests/asn1/many.py). Facts, such as
`serial 1001`, are taken from what `openssl ocsp`, `cms`, `pkey`, `asn1parse` and `ts` print of a
value, and from the JSON of `cert_tool describe`, and have to be the same, in the same order. A
certificate inside a value has to be described as it is alone. The lines have to be those that
lines.py makes of the JSON, and no description of a private key may contain its bytes.

With `--changed N`, it also changes a byte of each value N times. `cert_tool explain` has to report
an error of the value, or of a content inside it, if and only if `describe` rejects or marks it.

A difference is a line that only `cert_tool` has (`+`) or that only OpenSSL has (`-`). The status is
1 if there is any.
"""

import argparse
import collections
import datetime
import difflib
import json
import os
import pathlib
import random
import re
import subprocess
import sys
import tempfile

HERE = pathlib.Path(__file__).resolve().parent
sys.path[:0] = [str(HERE.parent), str(HERE.parent / "asn1"), str(HERE.parents[1] / "tools")]

import needs

needs.check(__file__)

from cryptography import x509
from cryptography.hazmat.primitives import serialization

import by_openssl
import der
import lines
import many
import names
from tool import Tool

KINDS = ["ocsp-request", "ocsp-response", "message", "key", "encrypted-key", "timestamp"]
SIGNED_DATA, TST_INFO = "1.2.840.113549.1.7.2", "1.2.840.113549.1.9.16.1.4"


def openssl(*words):
    """Returns what OpenSSL prints. Its status is 1 for a response that isn't successful."""
    # The configuration of Debian names object identifiers of its own.
    run = subprocess.run(["openssl", *words], capture_output=True, check=words[0] != "ocsp",
                         env=os.environ | {"OPENSSL_CONF": "/dev/null"})
    return run.stdout.decode(errors="replace")


def named(word):
    return names.IDENTIFIERS.get(word, word)


# What OpenSSL prints.


def date(text):
    """Parses a date such as `Dec  1 02:43:54 2026 GMT`."""
    return datetime.datetime.strptime(text, "%b %d %H:%M:%S %Y GMT").strftime("%Y-%m-%dT%H:%M:%SZ")


def name(text):
    """Returns a name as RFC 4514 writes it: the last RDN first."""
    return ",".join(part.replace(" = ", "=") for part in reversed(text.split(", ")))


def number(text):
    """Returns a number in base 16 that OpenSSL prints in decimal, or in base 16 after `0x`."""
    return f"{int(text, 0):x}"


def dumped(text):
    """Returns the bytes of a dump in base 16."""
    found = re.findall(r"^ *[0-9a-f]{4,} - ((?:[0-9a-f]{2}[ -])+)", text, re.M)
    return re.sub("[ -]", "", "".join(found))


# The reasons for a revocation, of which OpenSSL doesn't name the last two (RFC 5280 5.3.1).
REASONS = [
    "unspecified", "keyCompromise", "cACompromise", "affiliationChanged", "superseded",
    "cessationOfOperation", "certificateHold", None, "removeFromCRL", "privilegeWithdrawn",
    "aACompromise",
]
# The facts in a line of `openssl ocsp`: its pattern, and the fact that it states.
OCSP_LINES = [
    (r"(?:OCSP Response Status|Responder Error): (\w+) ", "status {}", str),
    (r"Response Type: (.*)", "type {}", named),
    (r"Version: (\d+) ", "version {}", str),
    (r"Requestor Name: DirName:(.*)", "requestor {}", name),
    (r"Responder Id: ([0-9A-F]{40})$", "responder key {}", str.lower),
    (r"Responder Id: (.*)", "responder {}", name),
    (r"Produced At: (.*)", "produced {}", date),
    (r"Hash Algorithm: (.*)", "digest {}", named),
    (r"Issuer Name Hash: (.*)", "name hash {}", str.lower),
    (r"Issuer Key Hash: (.*)", "key hash {}", str.lower),
    (r"Serial Number: (.*)", "serial {}", lambda text: number(f"0x{text}")),
    (r"Cert Status: (\w+)", "certificate {}", str),
    (r"Revocation Time: (.*)", "revoked {}", date),
    (r"Revocation Reason: .* \((0x.)\)", "reason {}", lambda text: REASONS[int(text, 16)]),
    (r"This Update: (.*)", "this {}", date),
    (r"Next Update: (.*)", "next {}", date),
    (r"OCSP Nonce: ?(critical)?$", "nonce {}", lambda text: text or "-"),
    (r"04[0-9A-F]{2}([0-9A-F]+)$", "bytes {}", str.lower),
    (r"Signature Algorithm: (.*)", "signature {}", named),
]


def ocsp_facts(text):
    """Yields the facts before the certificates, and the bits of the signature."""
    # A backslash ends the lines of a long number.
    text = text.replace("\\\n", "")
    head = re.split(r"^Certificate:", text, maxsplit=1, flags=re.M)[0]
    head, *signature = head.split("Signature Value:")
    for line in head.splitlines():
        for pattern, fact, make in OCSP_LINES:
            if found := re.match(" *" + pattern, line):
                yield fact.format(make(found[1]))
                break
    for bits in signature:
        yield "bits " + re.sub(r"[\s:]", "", bits)


# The facts in a line of `openssl cms -print`.
CMS_LINES = [
    (r"version: (\d+)", "version {}", str),
    (r"issuer: (.*)", "issuer {}", name),
    (r"serialNumber: (.*)", "serial {}", number),
    (r"algorithm: .*\((.*)\)", "algorithm {}", str),
    (r"object: .*\((.*)\)", "attribute {}", str),
    (r"OBJECT:.*\((.*)\)", "value {}", str),
    (r"UTCTIME:(.*)", "value {}", date),
    (r"eContentType: .*\((.*)\)", "content {}", str),
]
# The lines before a dump.
DUMPS = r"eContent|d\.subjectKeyIdentifier|OCTET STRING|signature"


def cms_facts(text):
    """Yields the facts of a message without its certificates."""
    yield "type " + re.search(r"contentType: .*\((.*)\)", text)[1]
    if "d.signedData:" not in text:
        return
    text = re.sub(r"\n    certificates:.*?(?=\n    (crls|signerInfos):)", "", text, flags=re.S)
    text = text.split("d.signedData:")[1]
    for part in re.split(r"\n(?! *[0-9a-f]{4,} - )", text):
        line, *dump = part.split("\n", 1)
        found = (re.match(f" *{pattern}", line) for pattern, _, _ in CMS_LINES)
        for found, (_, fact, make) in zip(found, CMS_LINES):
            if found:
                yield fact.format(make(found[1]))
        if dump and re.match(f" *({DUMPS}): *$", line):
            yield "bytes " + dumped(dump[0])


# The failures that OpenSSL's authority has, by what `openssl ts` prints.
FAILURES = {
    "unspecified": "-", "unrecognized or unsupported algorithm identifier": "badAlg",
    "the requested TSA policy is not supported by the TSA": "unacceptedPolicy",
}


def stamp_facts(text):
    """Yields the facts of a status and of a TSTInfo that `openssl ts` prints."""
    head, _, info = text.partition("TST info:")
    yield "status " + {"Granted": "granted", "Rejected": "rejection"}[
        re.search(r"Status: (\w+)\.", head)[1]]
    yield "text " + re.search(r"Status description: (.*)", head)[1]
    yield "failure " + FAILURES[re.search(r"Failure info: (.*)", head)[1]]
    if "Not included." in info:
        return
    for pattern, make in [
        (r"Version: (.*)", str), (r"Policy OID: (.*)", named), (r"Hash Algorithm: (.*)", named),
        (r"Message data:\n((?: +.*\n)*)", dumped), (r"Serial number: (.*)", number),
        (r"Time stamp: (.*)", date), (r"Accuracy: (.*)", accuracy), (r"Ordering: (.*)", str),
        (r"Nonce: (.*)", lambda text: text if text == "unspecified" else number(text)),
        (r"TSA: (?:DirName:/)?(.*)", lambda text: ",".join(reversed(text.split("/")))),
    ]:
        yield make(re.search(pattern, info)[1])


def accuracy(text):
    """Returns the seconds, milliseconds and microseconds; `-` for one that is absent."""
    words = re.findall(r"(unspecified|0x[0-9A-F]+) (?:seconds|millis|micros)", text)
    return " ".join("-" if word == "unspecified" else number(word) for word in words)


def parsed(file):
    """Yields the depth, the length, the type and the value of each TLV that `asn1parse` prints."""
    said = openssl("asn1parse", "-inform", "DER", "-in", file)
    line = r"d=(\d+) +hl=\d+ +l= *(\d+) \w+: +([A-Z][A-Z ]*?) *(?:(?:\[HEX DUMP\])?:(.*))?$"
    for found in re.finditer(line, said, re.M):
        yield int(found[1]), int(found[2]), found[3], found[4] or ""


# The depth and the type of the field privateKey.
PRIVATE = (1, "OCTET STRING")


def key_facts(file):
    said = openssl("pkey", "-inform", "DER", "-in", file, "-noout", "-text")
    values = list(parsed(file))
    yield f"version {int(values[1][3], 16) + 1}"
    yield "algorithm " + named(values[3][3])
    yield f"length {next(size for depth, size, kind, _ in values if (depth, kind) == PRIVATE)}"
    if bits := re.search(r"\((\d+) bit", said):
        yield f"bits {bits[1]}"
    if curve := re.search(r"ASN1 OID: (.*)", said):
        yield "curve " + named(curve[1])


def encrypted_key_facts(file):
    *values, (_, length, _, _) = parsed(file)
    for _, _, kind, value in values:
        if kind == "OBJECT":
            yield named(value)
        elif kind == "OCTET STRING":
            yield value.lower()
        elif kind == "INTEGER":
            yield f"{int(value, 16)}"
    yield f"length {length}"


# What `cert_tool` describes.


def flat(octets):
    return octets.replace(":", "").lower()


def cert_id(of):
    yield "digest " + of["hashAlgorithm"]["id"]
    yield "name hash " + flat(of["issuerNameHash"])
    yield "key hash " + flat(of["issuerKeyHash"])
    yield "serial " + number(of["serialNumber"])


def nonces(of):
    for extension in of or []:
        yield "nonce " + ("critical" if extension["critical"] else "-")
        yield "bytes " + flat(extension["nonce"])


def signature(of):
    if "signatureAlgorithm" in of:
        yield "signature " + of["signatureAlgorithm"]["id"]
        yield "bits " + flat(of["signatureValue"])


def ocsp_request(of):
    yield f"version {of['version']}"
    if "requestorName" in of:
        yield "requestor " + of["requestorName"]["directoryName"]["text"]
    for request in of["requestList"]:
        yield from cert_id(request)
        yield from nonces(request.get("singleRequestExtensions"))
    yield from nonces(of.get("requestExtensions"))
    yield from signature(of)


def single_response(of):
    yield from cert_id(of)
    yield "certificate " + of["certStatus"]
    yield from (f"revoked {of[key]}" for key in ["revocationTime"] if key in of)
    yield from (f"reason {of[key]}" for key in ["revocationReason"] if key in of)
    yield "this " + of["thisUpdate"]
    yield from (f"next {of[key]}" for key in ["nextUpdate"] if key in of)
    yield from nonces(of.get("singleExtensions"))


def ocsp_response(of):
    yield "status " + of["responseStatus"].lower()
    if "responseType" not in of:
        return
    yield "type " + of["responseType"]["id"]
    yield f"version {of['version']}"
    by = of["responderID"]
    yield f"responder key {flat(by['byKey'])}" if "byKey" in by else (
        "responder " + by["byName"]["text"])
    yield "produced " + of["producedAt"]
    for response in of["responses"]:
        yield from single_response(response)
    yield from nonces(of.get("responseExtensions"))
    yield from signature(of)


def attribute_facts(of):
    for attribute in of or []:
        yield "attribute " + attribute["id"]
        for value in attribute["values"]:
            if "id" in value or "date" in value:
                yield "value " + value.get("id", value.get("date"))
            elif value["type"] == "OCTET STRING":
                yield "bytes " + flat(value["octets"])


def signer(of):
    yield f"version {of['version']}"
    if "issuer" in of:
        yield "issuer " + of["issuer"]["text"]
        yield "serial " + number(of["serialNumber"])
    else:
        yield "bytes " + flat(of["subjectKeyIdentifier"])
    yield "algorithm " + of["digestAlgorithm"]["id"]
    yield from attribute_facts(of.get("signedAttrs"))
    yield "algorithm " + of["signatureAlgorithm"]["id"]
    yield "bytes " + flat(of["signatureValue"])
    yield from attribute_facts(of.get("unsignedAttrs"))


def message(of, octets=None):
    yield "type " + of["contentType"]["id"]
    if of["contentType"]["id"] != SIGNED_DATA:
        return
    yield f"version {of['version']}"
    for algorithm in of["digestAlgorithms"]:
        yield "algorithm " + algorithm["id"]
    content = of["encapContentInfo"]
    yield "content " + content["id"]
    if "octets" in content or octets:
        yield "bytes " + flat(content.get("octets", octets))
    for each in of["signerInfos"]:
        yield from signer(each)


def stamp(of):
    yield "status " + of["status"]
    yield "text " + " ".join(of.get("statusString", ["unspecified"]))
    yield "failure " + " ".join(of.get("failInfo", ["-"]))
    if "timeStampToken" not in of:
        return
    info = of["timeStampToken"]["encapContentInfo"]
    yield str(info["version"])
    yield info["policy"]["id"]
    yield info["hashAlgorithm"]["id"]
    yield flat(info["hashedMessage"])
    yield number(info["serialNumber"])
    yield info["genTime"]
    exact = info.get("accuracy", {})
    yield " ".join([number(exact["seconds"]) if "seconds" in exact else "-",
                    *(f"{exact[it]:x}" if it in exact else "-" for it in ("millis", "micros"))])
    yield "yes" if info.get("ordering") else "no"
    yield number(info["nonce"]) if "nonce" in info else "unspecified"
    yield info["tsa"]["directoryName"]["text"] if "tsa" in info else "unspecified"


def key(of):
    by = of["privateKeyAlgorithm"]
    yield f"version {of['version']}"
    yield "algorithm " + by["id"]
    yield f"length {of['privateKeyLength']}"
    # OpenSSL has no size for keys of RFC 8410.
    if "bits" in by and not by["id"].startswith("1.3.101."):
        yield f"bits {by['bits']}"
    if "curve" in by:
        yield "curve " + by["curve"]["id"]


def encrypted_key(of):
    by = of["encryptionAlgorithm"]
    yield by["id"]
    if "keyDerivationFunc" in by:
        derivation, cipher = by["keyDerivationFunc"], by["encryptionScheme"]
        yield derivation["id"]
        yield from salted(derivation)
        if "id" in derivation.get("prf", {}):
            yield derivation["prf"]["id"]
        yield cipher["id"]
        yield flat(cipher["parameters"]["octets"])
    else:
        yield from salted(by)
    yield f"length {of['encryptedDataLength']}"


def salted(of):
    yield flat(of["salt"])
    for member in ("iterationCount", "costParameter", "blockSize", "parallelizationParameter",
                   "keyLength"):
        if member in of:
            yield str(of[member])


# Comparing.


class Comparer:
    """Compares descriptions, and counts the facts and the differences."""

    def __init__(self, program, file):
        self.tool, self.counts = Tool(program), collections.Counter(differences=0)
        self.file, self.certificates = file, file.with_name("certificates")

    def compare(self, family, what, wanted, given):
        self.counts[f"facts of {family}"] += len(wanted)
        for line in difflib.unified_diff(wanted, given, lineterm="", n=0):
            if line[:2] not in ("--", "++", "@@"):
                self.counts["differences"] += 1
                print(f"{family}: {what}: {line}")

    def checked(self, pairs):
        """Returns an object. Each member may occur only once, and OpenSSL or `cryptography` has to
        have the name of an object identifier for it."""
        of = dict(pairs)
        if len(of) < len(pairs):
            raise ValueError(f"a member occurs twice: {pairs}")
        if "name" in of and not names.are_same(of["name"], of["id"]):
            self.compare("names", of["id"], [], [of["name"]])
        return of

    def describe(self, kind, encoded):
        """Returns the document of a value, after a comparison with its lines."""
        inputs = {"value": encoded}
        text = self.tool.ask(["describe", kind, "value"], inputs)[1].decode()
        document = self.tool.ask(["describe", "--json", kind, "value"], inputs)[1]
        document = json.loads(document, object_pairs_hook=self.checked)
        given = re.sub(r"((?:salt|trailer) \d+) by default", r"\1", text).split("\n")[:-1]
        self.compare("lines", kind, list(lines.members(document)), given)
        return document

    def compare_certificates(self, of, encodings):
        """Compares the certificates inside a value with their descriptions alone."""
        alone = [self.describe("certificate", each) for each in encodings]
        wanted = [json.dumps({key: it[key] for key in it if key != "kind"}) for it in alone]
        self.compare("certificates", "inside", wanted, [json.dumps(it) for it in of])

    def compare_message(self, of):
        """Compares a message in the file with its description."""
        shown = openssl("cms", "-cmsout", "-print", "-noout", "-inform", "DER", "-in", self.file)
        wanted = list(cms_facts(shown))
        # A TSTInfo is described instead of its bytes.
        given = [it for it in message(of, octets="a" if TST_INFO in shown else None)]
        if TST_INFO in shown:
            wanted = [it for it in wanted if not it.startswith("bytes 30")]
            given = [it for it in given if it != "bytes a" and not it.startswith("bytes 30")]
        self.compare("message", "cms", wanted, given)
        if of["contentType"]["id"] == SIGNED_DATA:
            openssl("cms", "-cmsout", "-inform", "DER", "-in", self.file, "-noout", "-certsout",
                    self.certificates)
            said = self.certificates.read_text() if self.certificates.exists() else ""
            self.certificates.unlink(missing_ok=True)
            self.compare_certificates(of.get("certificates", []), pem(said))

    def compare_ocsp(self, kind, of):
        words = ["-reqin", self.file, "-req_text"] if kind == "ocsp-request" else [
            "-respin", self.file, "-resp_text"]
        said = openssl("ocsp", *words, "-noverify")
        facts = {"ocsp-request": ocsp_request, "ocsp-response": ocsp_response}[kind]
        wanted = [it.lower() if it.startswith("status ") else it for it in ocsp_facts(said)]
        self.compare(kind, "ocsp", wanted, list(facts(of)))
        self.compare_certificates(of.get("certs", []), pem(said))

    def compare_key(self, of, encoded, text):
        self.compare("key", "pkey", list(key_facts(self.file)), list(key(of)))
        secret = secret_of(encoded)
        if flat(text).find(secret) >= 0:
            self.counts["differences"] += 1
            print(f"key: {encoded.hex()}: its bytes are described")

    def compare_changed(self, kind, encoded):
        """Compares what is explained of a changed value with its description."""
        status, document, _ = self.tool.ask(["describe", "--json", kind, "v"], {"v": encoded})
        mark = "rejected" if status else content_mark(kind, json.loads(document))
        words = ["explain", "--json", "--fail-on-remark", kind, "v"]
        status, document, _ = self.tool.ask(words, {"v": encoded})
        first = json.loads(document)["findings"][0]
        wanted = {
            "rejected": (1, True, "unread" in first),
            "malformed": (1, True, False),
            "unread": (0, True, True),
            "none": (0, False, False),
        }[mark]
        self.compare("changed values", f"{kind} {encoded.hex()}", [str(wanted)],
                     [str((status, "fault" in first, "unread" in first))])
        self.counts[f"changed values ({mark})"] += 1

    def compare_value(self, kind, encoded):
        self.file.write_bytes(encoded)
        of = self.describe("key" if kind == "encrypted-key" else kind, encoded)
        self.counts[kind] += 1
        if kind.startswith("ocsp"):
            self.compare_ocsp(kind, of)
        elif kind == "message":
            self.compare_message(of)
        elif kind == "key":
            self.compare_key(of, encoded, json.dumps(of))
        elif kind == "encrypted-key":
            self.compare(kind, "asn1parse", list(encrypted_key_facts(self.file)),
                         list(encrypted_key(of)))
        else:
            said = openssl("ts", "-reply", "-in", self.file, "-text")
            self.compare(kind, "ts", list(stamp_facts(said)), list(stamp(of)))
            if "timeStampToken" in of:
                openssl("ts", "-reply", "-in", self.file, "-token_out", "-out", self.file)
                self.compare_message(of["timeStampToken"])


def changed(draw, octets):
    """Changes one byte."""
    place = draw.randrange(len(octets))
    octet = draw.choice((*range(7), 0x30, 0x31, 0x80, 0xA0, 0xA1, draw.randrange(256)))
    return octets[:place] + bytes([octet]) + octets[place + 1 :]


def content_mark(kind, of):
    """Returns the mark of a content inside a value that can't be decoded."""
    of = of.get("timeStampToken", {}) if kind == "timestamp" else of
    marks = [key for it in (of, of.get("encapContentInfo", {})) for key in it]
    return next((it for it in marks if it in ("malformed", "unread")), "none")


def pem(text):
    """Returns the certificates in PEM in a text, in DER."""
    found = re.findall("-----BEGIN CERT.*?END CERTIFICATE-----", text, re.S)
    return [x509.load_pem_x509_certificate(it.encode()).public_bytes(serialization.Encoding.DER)
            for it in found]


def secret_of(encoded):
    """Returns 16 bytes at the end of the private key, in base 16."""
    [(_, inner, _)] = der.values(encoded)
    private = [content for tag, content, _ in der.values(inner) if tag == 0x04][0]
    return private[6:22].hex()


def main():
    parser = argparse.ArgumentParser(description=__doc__.splitlines()[0])
    parser.add_argument("tool", metavar="TOOL")
    parser.add_argument("--count", type=int, default=20, metavar="N", help="values of each kind")
    parser.add_argument("--changed", type=int, default=0, metavar="N", help="changes of each value")
    given = parser.parse_args()
    with tempfile.TemporaryDirectory() as place:
        folder = pathlib.Path(place)
        by_openssl.make(folder)
        maker, draw = many.Maker(folder, random.Random(1)), random.Random(1)
        comparer = Comparer(given.tool, folder / "value")
        for kind in KINDS:
            for _ in range(given.count):
                plain, encoded = kind.removeprefix("encrypted-"), maker.made(kind)
                comparer.compare_value(kind, encoded)
                for _ in range(given.changed):
                    comparer.compare_changed(plain, changed(draw, encoded))
    print(", ".join(f"{count} {what}" for what, count in comparer.counts.items()))
    return comparer.counts["differences"] > 0


if __name__ == "__main__":
    sys.exit(main())
