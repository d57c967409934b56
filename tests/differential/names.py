"""Compares the names that `cert_tool` has for object identifiers with those of other programs."""

import collections
import re
import subprocess

from cryptography.hazmat._oid import _OID_NAMES

# The names that `cert_tool` has for object identifiers, from RFC 5280 and related standards, and
# those that the other programs have.
NAMES = {
    "secp192r1": "prime192v1", "secp256r1": "prime256v1", "reasonCode": "cRLReason",
    "extKeyUsage": "extendedKeyUsage", "jurisdictionLocality": "jurisdictionLocalityName",
    "jurisdictionStateOrProvince": "jurisdictionStateOrProvinceName",
    "jurisdictionCountry": "jurisdictionCountryName", "userPrincipalName": "msUPN",
    "ipAddrBlocks": "sbgp-ipAddrBlock", "autonomousSysIds": "sbgp-autonomousSysNum",
    "ipAddrBlocks-v2": "sbgp-ipAddrBlockv2", "autonomousSysIds-v2": "sbgp-autonomousSysNumv2",
    "id-digestedData": "digestData", "id-pkix-ocsp-basic": "basicOCSPResponse",
    "id-pkix-ocsp-crl": "CrlID", "id-pkix-ocsp-response": "acceptableResponses",
}
NAMES |= {f"pbeWithSHAAnd{rest}": f"pbeWithSHA1And{rest}" for rest in (
    "128BitRC4", "40BitRC4", "3-KeyTripleDES-CBC", "2-KeyTripleDES-CBC", "128BitRC2-CBC",
    "40BitRC2-CBC",
)}


def known_names():
    """Returns the names that OpenSSL and `cryptography` have for each object identifier."""
    names = collections.defaultdict(set)
    said = subprocess.run(["openssl", "list", "-objects"], capture_output=True, check=True).stdout
    for found in re.finditer(r"^(.*?) = (?:(.*), )?(\d[\d.]*)$", said.decode(), re.M):
        names[found[3]].update(filter(None, found.groups()[:2]))
    for identifier, word in _OID_NAMES.items():
        names[identifier.dotted_string].add(word)
    # szOID_ENROLL_CERTTYPE_EXTENSION and szOID_CERTIFICATE_TEMPLATE ([MS-WCCE] 2.2.2.7.7). Only
    # later versions of `cryptography` name the second.
    names["1.3.6.1.4.1.311.20.2"].add("enrollCertType")
    names["1.3.6.1.4.1.311.21.7"].add("msCertificateTemplate")
    return names


KNOWN = known_names()
IDENTIFIERS = {word: identifier for identifier, words in KNOWN.items() for word in words}


def folded(word):
    """Removes prefixes, hyphens and upper case, in which the names differ."""
    kinds = "at|ce|kp|qt|on|ad|ct|aa|smime-ct|smime-aa|pkix-ocsp"
    word = re.sub(rf"^(X509v3 |id-({kinds})-|id-|pkcs7-|ad[-_ ])", "", word)
    return re.sub(r"[^a-z0-9]", "", word.lower())


def are_same(word, identifier):
    """Returns whether a name is one that the other programs have for an object identifier."""
    return folded(NAMES.get(word, word)) in {folded(it) for it in KNOWN.get(identifier, ())}
