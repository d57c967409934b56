#!/usr/bin/env python3
"""Compares the stricter checks of `cert_tool verify` with OpenSSL and Python.

    held.py TOOL [COUNT]

These are `--host`, `--warn-days` and `--strict`. The member `unjudged` of its JSON is compared with
the extensions that were written.

Host names, of which COUNT are compared (10,000 if it isn't given): `X509_check_host` and
`X509_check_ip_asc` of OpenSSL, which `openssl verify -verify_hostname` and `-verify_ip` call, and
`ssl` of Python up to 3.11. Days: `openssl x509 -checkend`. Anchors and key usages: `openssl verify
-purpose`. A difference is printed unless it is of a class that `CLASSES` names. The status is 1 if
one is printed.
"""

import argparse
import collections
import ctypes
import ctypes.util
import ipaddress
import itertools
import json
import pathlib
import random
import re
import ssl
import subprocess
import sys
import tempfile
import time

sys.path.insert(0, str(pathlib.Path(__file__).resolve().parents[1]))

import der
from cryptography.hazmat.primitives import hashes
from cryptography.hazmat.primitives.asymmetric import ec
from cryptography.hazmat.primitives.serialization import Encoding, PublicFormat
from tool import Tool

CLASSES = {
    "one label": "OpenSSL wants two labels after a wildcard; RFC 9525 6.3 doesn't",
    "label": "OpenSSL matches no wildcard with names that have `_`, or `-` at an end of a label",
    "no constraints": "OpenSSL takes a root of version 3 without basicConstraints for a CA's if it "
    "has keyUsage; RFC 5280 4.2.1.9 doesn't",
}
KEY = ec.generate_private_key(ec.SECP256R1())
PUBLIC = KEY.public_key().public_bytes(Encoding.DER, PublicFormat.SubjectPublicKeyInfo)
BY = der.algorithm("1.2.840.10045.4.3.2")
YEARS = ("20200101000000Z", "20490101000000Z")
LABELS = "a b A bc xn--a 1 a-b a_b * ** a* *a -a".split() + [""]
HOST_LABELS = "a b A B bc BC xn--a XN--A 1 a-b a_b".split()
ADDRESSES = "192.0.2.1 192.0.2.2 2001:db8::1 2001:DB8:0::0001 ::ffff:192.0.2.1 ::".split()
USES = {"": None, "signature": 0, "encipherment": 2, "agreement": 4, "certificates": 5, "lists": 6}
OF_POLICIES = {
    "2.5.29.32": "certificatePolicies",
    "2.5.29.33": "policyMappings",
    "2.5.29.36": "policyConstraints",
    "2.5.29.54": "inhibitAnyPolicy",
}
NEVER_JUDGED = {"2.5.29.30": "nameConstraints"} | OF_POLICIES
KEY_USAGE = {"2.5.29.15": "keyUsage"}
OF_THE_LAST = NEVER_JUDGED | KEY_USAGE
OF_ANCHORS = OF_THE_LAST | {"2.5.29.19": "basicConstraints", "2.5.29.37": "extKeyUsage"}
OTHERS = ["2.5.29.14", "2.5.29.17", "2.5.29.31", "2.5.29.35", "1.2.3.4"]
PURPOSES = {"serverAuth": ("sslserver", 1), "clientAuth": ("sslclient", 2)}


def certificate(issuer, subject, dates, extensions):
    names = [der.sequence(der.tlv(0x31, der.common_name(it))) for it in (issuer, subject)]
    dates = der.sequence(*map(der.date, dates))
    part = der.certificate_part(7, BY, names[0], dates, names[1], PUBLIC, extensions)
    return der.sequence(part, BY, der.bits(KEY.sign(part, ec.ECDSA(hashes.SHA256()))))


def constraints(authority, length=None):
    mark = der.tlv(0x01, b"\xff") if authority else b""
    most = b"" if length is None else der.integer(length)
    return der.extension("2.5.29.19", der.sequence(mark, most), True)


def key_usage(*uses):
    number = sum(0x80 >> use for use in uses)
    unused = 7 - max(uses)
    return der.extension("2.5.29.15", der.bits(bytes([number]), unused), True)


def purposes(*numbers):
    listed = [der.identifier(f"1.3.6.1.5.5.7.3.{number}") for number in numbers]
    return der.extension("2.5.29.37", der.sequence(*listed))


class Verifier:
    """Asks `cert_tool verify` with every signature as valid."""

    def __init__(self, program):
        self.tool, self.last = Tool(program), (None, None)

    def ask(self, root, chain, *words):
        files = {"root": root, "chain": b"".join(chain)}
        if self.last[0] != files:
            words_of = ["questions", "--anchors", "root", "chain"]
            self.last = (files, self.tool.ask(words_of, files)[1])
        sent = files | {"answers": self.last[1]}
        asked = ["verify", "--anchors", "root", "--answers", "answers", "chain", *words]
        status, output, _ = self.tool.ask(asked, sent)
        return status, output.decode()


class Report:
    """Counts comparisons, and prints the differences that have no class."""

    def __init__(self, what):
        self.what, self.count, self.classes, self.differ = what, 0, collections.Counter(), 0

    def compare(self, ours, theirs, classes, *case):
        self.count += 1
        if ours != theirs:
            known = next(iter(classes), None)
            self.classes[known] += known is not None
            self.differ += known is None
            if known is None and self.differ < 10:
                print(self.what, case, "cert_tool", ours, "the other", theirs)

    def end(self):
        known = ", ".join(f"{count} of class `{it}`" for it, count in self.classes.items() if count)
        print(f"{self.what}: {self.count} compared, {self.differ} differ", known and f"({known})")
        return self.differ > 0


def library():
    crypto = ctypes.CDLL(ctypes.util.find_library("crypto"))
    crypto.d2i_X509.restype = ctypes.c_void_p
    crypto.X509_check_host.argtypes = [
        ctypes.c_void_p, ctypes.c_char_p, ctypes.c_size_t, ctypes.c_uint, ctypes.c_void_p,
    ]
    crypto.X509_check_ip_asc.argtypes = [ctypes.c_void_p, ctypes.c_char_p, ctypes.c_uint]
    return crypto


def is_address(host):
    try:
        return bool(ipaddress.ip_address(host))
    except ValueError:
        return False


def openssl_host(crypto, octets, host):
    """X509_CHECK_FLAG_NO_PARTIAL_WILDCARDS and _NEVER_CHECK_SUBJECT."""
    start = ctypes.c_char_p(octets)
    parsed = ctypes.c_void_p(crypto.d2i_X509(None, ctypes.byref(start), len(octets)))
    if is_address(host):
        return crypto.X509_check_ip_asc(parsed, host.encode(), 0x24) == 1
    return crypto.X509_check_host(parsed, host.encode(), len(host), 0x24, None) == 1


def python_host(names, addresses, host):
    """What `ssl.match_hostname` does of each name; a name that it rejects matches nothing."""

    def matches(name):
        try:
            return bool(ssl._dnsname_match(name, host))
        except ssl.CertificateError:
            return False

    if is_address(host):
        return any(ipaddress.ip_address(it) == ipaddress.ip_address(host) for it in addresses)
    return any(map(matches, names))


def host_classes(names, host):
    if is_address(host):
        return
    for name in names:
        if name.startswith("*.") and name.count(".") == 1:
            yield "one label"
        if name.startswith("*.") and re.search(r"_|(^|\.)-|-(\.|$)", f"{name[2:]}.{host}"):
            yield "label"


def compare_hosts(verifier, count):
    crypto, chance = library(), random.Random(9525)
    with_openssl, with_python = Report("host, OpenSSL"), Report("host, Python")
    root = certificate("root", "root", YEARS, [constraints(True)])
    while with_openssl.count < count:
        names = [".".join(chance.choices(LABELS, k=chance.randint(1, 4))) for _ in range(3)]
        addresses = chance.sample(ADDRESSES, chance.randint(0, 2))
        general = [der.tlv(0x82, name.encode()) for name in names]
        general += [der.tlv(0x87, ipaddress.ip_address(it).packed) for it in addresses]
        names_in = der.extension("2.5.29.17", der.sequence(*general))
        # The common name is the first host, and mustn't matter.
        hosts = [".".join(chance.choices(HOST_LABELS, k=chance.randint(1, 4))) for _ in range(12)]
        hosts += [it.replace("*", "b", 1) for it in names if it] + chance.sample(ADDRESSES, 2)
        leaf = certificate("root", hosts[0], YEARS, [names_in])
        for host in hosts:
            status, output = verifier.ask(root, [leaf], "--at", "1780000000", "--host", host)
            if status == 4:
                continue  # what isn't a host is an argument that is wrong
            ours = output == f'trusted calls=1 "CN={hosts[0]}"\n'
            assert ours or (status, output) == (1, "refused 0 WrongHost calls=1\n"), output
            theirs = openssl_host(crypto, leaf, host)
            with_openssl.compare(ours, theirs, host_classes(names, host), names, addresses, host)
            if hasattr(ssl, "_dnsname_match"):
                with_python.compare(ours, python_host(names, addresses, host), (), names, host)
    return with_openssl.end() | with_python.end()


def compare_days(verifier, folder):
    chance, report = random.Random(5280), Report("days, openssl x509 -checkend")
    root = certificate("root", "root", YEARS, [constraints(True)])
    for _ in range(100):
        days, now = chance.randint(0, 400), int(time.time())
        last = now + chance.randint(-2, 2) * 43200 + days * 86400 + chance.choice([-300, 300])
        dates = (YEARS[0], time.strftime("%Y%m%d%H%M%SZ", time.gmtime(last)))
        leaf = certificate("root", "leaf", dates, [])
        (folder / "leaf").write_bytes(leaf)
        words = f"openssl x509 -in leaf -noout -checkend {days * 86400}".split()
        theirs = subprocess.run(words, cwd=folder, capture_output=True).returncode != 0
        status, output = verifier.ask(root, [leaf], "--at", str(now), "--warn-days", str(days))
        if status == 1:
            continue  # it has expired
        date = time.strftime("%Y-%m-%dT%H:%M:%SZ", time.gmtime(last))
        expected = f'trusted calls=1 "CN=leaf"\nends 0 {date}\n'
        assert (status == 7) == (output == expected), output
        report.compare(status == 7, theirs, (), days, last - now)
    return report.end()


def compare_unjudged(verifier):
    chance, report = random.Random(5914), Report("unjudged, the extensions that were written")
    identifiers = [*OF_ANCHORS, *OTHERS]

    def made(issuer, subject):
        chosen = chance.sample(identifiers, chance.randint(0, 8))
        extensions = [der.extension(it, der.sequence(), False) for it in chosen]
        return certificate(issuer, subject, YEARS, extensions), chosen

    def names(chosen, table):
        return [table[it] for it in chosen if it in table]

    for _ in range(300):
        anchors = [made(it, it) for it in chance.choices(["root", "other"], k=3)]
        path = ["root"] + ["between"] * chance.randint(0, 3) + ["leaf"]
        chain = [made(*it) for it in zip(path, path[1:])]
        root = b"".join(octets for octets, _ in anchors)
        named = [chosen for octets, chosen in anchors if der.common_name("root") in octets]
        theirs = {
            "certificates": [names(it, NEVER_JUDGED) for _, it in chain[:-1]]
            + [names(chain[-1][1], OF_THE_LAST)],
            "anchors": [["validity", *names(it, OF_ANCHORS)] for it in named],
        }
        strict = {
            "certificates": [names(it, OF_POLICIES) for _, it in chain],
            "anchors": [names(it, OF_POLICIES) for it in named],
        }
        # RFC 5280 lists no bits of keyUsage for this purpose, so nothing checks the end entity's.
        of_the_last = names(chain[-1][1], OF_POLICIES | KEY_USAGE)
        other = strict | {"certificates": [*strict["certificates"][:-1], of_the_last]}
        for words, expected in [
            ((), theirs),
            (("--strict",), strict),
            (("--strict", "--purpose", "1.2.3.4"), other),
        ]:
            words = ("--at", "1780000000", "--json", *words)
            _, output = verifier.ask(root, [octets for octets, _ in chain], *words)
            report.compare(json.loads(output)["unjudged"], expected, (), anchors, chain, words)
    return report.end()


def openssl_verifies(folder, root, chain, purpose):
    *others, leaf = [ssl.DER_cert_to_PEM_cert(it) for it in (root, *chain)]
    for name, text in (("root", others[0]), ("others", "".join(others)), ("leaf", leaf)):
        (folder / name).write_text(text)
    words = "openssl verify -no-CApath -no-CAstore -trusted root -untrusted others"
    asked = f"{words} -attime 1780000000 -purpose {PURPOSES[purpose][0]} leaf".split()
    return subprocess.run(asked, cwd=folder, capture_output=True).returncode == 0


def compare_anchors(verifier, folder):
    report = Report("anchors and key usages, openssl verify")
    all_dates = [YEARS, ("20200101000000Z", "20210101000000Z"), ("20480101000000Z", YEARS[1])]
    all_constraints = [None, constraints(False), constraints(True), constraints(True, 0)]
    all_uses = [None, key_usage(5), key_usage(6)]
    all_purposes = [None, purposes(1), purposes(2)]
    for dates, basic, use, listed in itertools.product(
        all_dates, all_constraints, all_uses, all_purposes
    ):
        root = certificate("root", "root", dates, [it for it in (basic, use, listed) if it])
        for between, leaf_use, purpose in itertools.product((0, 1), USES.values(), PURPOSES):
            issuer = ("root", "between")[between]
            others = [key_usage(leaf_use)] if leaf_use is not None else []
            chain = [certificate("root", "between", YEARS, [constraints(True)])] * between
            chain.append(certificate(issuer, "leaf", YEARS, others))
            if between and leaf_use:
                continue
            words = ("--at", "1780000000", "--purpose", purpose, "--strict")
            ours = verifier.ask(root, chain, *words)[0] == 0
            theirs = openssl_verifies(folder, root, chain, purpose)
            classes = ["no constraints"] * (basic is None and use is not None)
            case = (dates, basic, use, listed, between, leaf_use, purpose)
            report.compare(ours, theirs, classes, *case)
    return report.end()


def main():
    form = argparse.RawDescriptionHelpFormatter
    parser = argparse.ArgumentParser(description=__doc__, formatter_class=form)
    parser.add_argument("tool", metavar="TOOL")
    parser.add_argument("count", metavar="COUNT", nargs="?", type=int, default=10000)
    given = parser.parse_args()
    verifier = Verifier(given.tool)
    differ = compare_hosts(verifier, given.count)
    differ |= compare_unjudged(verifier)
    with tempfile.TemporaryDirectory() as folder:
        differ |= compare_days(verifier, pathlib.Path(folder))
        differ |= compare_anchors(verifier, pathlib.Path(folder))
    return differ


if __name__ == "__main__":
    sys.exit(main())
