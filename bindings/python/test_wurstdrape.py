"""Tests the Python module, which must be on PYTHONPATH or installed:

    python3 -m unittest bindings/python/test_wurstdrape.py

The expected results are those of OpenSSL, of a standard, or of the test vectors of a program.
"""

import concurrent.futures
import datetime
import importlib.util
import json
import math
import pathlib
import re
import sys
import unittest

import wurstdrape
from wurstdrape import ChainFault, Error, FaultKind, Kind, Malformed, OrderFault, Rule, Status

TOP = pathlib.Path(__file__).resolve().parents[2]
sys.path.insert(0, str(TOP / "tests" / "rows"))

import served

# 2026-05-28
MOMENT = 1780000000
HAS_CRYPTOGRAPHY = importlib.util.find_spec("cryptography") is not None


def read(name):
    return (TOP / name).read_bytes()


class Parts(unittest.TestCase):
    """The expected values are those that `openssl x509 -text` prints for examples/server.der."""

    def setUp(self):
        self.der = read("examples/server.der")

    def test_names(self):
        self.assertEqual(wurstdrape.subject(self.der), "CN=desk.example")
        self.assertEqual(wurstdrape.issuer(self.der), "CN=Desk Intermediate,O=Desk Example,C=US")

    def test_serial_number(self):
        number = 0x16D9429514AE2849A33BD57F67E1DF72A822B573
        self.assertEqual(wurstdrape.serial_number(self.der), number)

    def test_validity(self):
        first, last = (
            datetime.datetime(year, 1, 1, tzinfo=datetime.timezone.utc) for year in (2026, 2036)
        )
        self.assertEqual(wurstdrape.validity(self.der), wurstdrape.Validity(first, last))

    def test_extensions(self):
        # CA:FALSE, critical; TLS Web Server Authentication
        self.assertEqual(wurstdrape.extension(self.der, "2.5.29.19"), (b"0\0", True))
        purposes = bytes.fromhex("300a06082b06010505070301")
        self.assertEqual(wurstdrape.extension(self.der, "2.5.29.37"), (purposes, False))
        self.assertIsNone(wurstdrape.extension(self.der, "2.5.29.30"))

    def test_parts(self):
        # the positions that `openssl asn1parse` prints
        parts = wurstdrape.parts(self.der)
        self.assertEqual(parts.signed_part, self.der[4:425])
        self.assertEqual(parts.serial_number, self.der[15:35])
        self.assertEqual(parts.issuer, self.der[47:113])
        self.assertEqual(parts.subject, self.der[145:170])
        self.assertEqual(parts.public_key, self.der[170:261])
        self.assertEqual(wurstdrape.public_key(self.der), self.der[170:261])
        self.assertEqual(wurstdrape.name_text(parts.subject), wurstdrape.subject(self.der))

    def test_cut(self):
        cut = self.der[:-1]
        for call in (
            wurstdrape.describe, wurstdrape.issuer, wurstdrape.parts, wurstdrape.show,
            wurstdrape.subject, wurstdrape.validity, lambda der: wurstdrape.extension(der, "2.5"),
        ):
            with self.assertRaises(Malformed) as refused:
                call(cut)
            self.assertEqual(refused.exception.fault, wurstdrape.fault_of(cut))
        self.assertEqual(wurstdrape.fault_of(cut).kind, FaultKind.INCOMPLETE)
        fault = wurstdrape.fault_of(self.der + b"\0")
        self.assertEqual((fault.kind, fault.octet), (FaultKind.TRAILING_DATA, len(self.der)))

    def test_kinds(self):
        self.assertIsNone(wurstdrape.fault_of(self.der))
        self.assertIsNotNone(wurstdrape.fault_of(self.der, Kind.LIST))
        self.assertIsNotNone(wurstdrape.fault_of(self.der, Kind.REQUEST))


class Texts(unittest.TestCase):
    def test_names(self):
        # X.690: SEQUENCE { SET { SEQUENCE { 2.5.4.3, UTF8String "a" } } }
        name = bytes.fromhex("300c310a300806035504030c0161")
        self.assertEqual(wurstdrape.name_text(name), "CN=a")
        self.assertEqual(wurstdrape.name_text(wurstdrape.name_of_text("CN=a")), "CN=a")
        with self.assertRaises(Malformed):
            wurstdrape.name_of_text("CN")
        with self.assertRaises(Malformed):
            wurstdrape.name_text(name[:-1])

    def test_identifiers(self):
        # as `openssl asn1parse -genstr OID:1.2.840.113549` encodes it
        octets = bytes.fromhex("2a864886f70d")
        self.assertEqual(wurstdrape.identifier_text(octets), "1.2.840.113549")
        self.assertEqual(wurstdrape.identifier_of_text("1.2.840.113549"), octets)
        for text in ("", "3.1", "1", "1.2.", "1.40"):
            with self.assertRaises(Malformed, msg=text):
                wurstdrape.identifier_of_text(text)
        with self.assertRaises(Malformed):
            wurstdrape.identifier_text(b"\x88")


class Chains(unittest.TestCase):
    """examples/chain.der, whose two signatures OpenSSL verified."""

    def setUp(self):
        self.root, self.chain = read("examples/root.der"), read("examples/chain.der")
        self.server = read("examples/server.der")

    def test_lists(self):
        """Certificates and answers can be passed in lists."""
        answers = wurstdrape.questions([self.root], self.chain)
        chain = [self.chain.removesuffix(self.server), self.server]
        verdict = wurstdrape.judge(answers, [self.root], chain, MOMENT)
        self.assertTrue(verdict.trusted)
        for place in range(2):
            others = answers[:place] + answers[place + 1 :]
            verdict = wurstdrape.judge(others, self.root, self.chain, MOMENT)
            self.assertEqual((verdict.place, verdict.rule), (place, Rule.WRONG_SIGNATURE))

    @unittest.skipUnless(HAS_CRYPTOGRAPHY, "cryptography isn't installed")
    def test_by_cryptography(self):
        self.assertTrue(wurstdrape.verify(self.root, self.chain, MOMENT).trusted)
        # a certificate whose signature has another last bit
        forged = self.chain[:-1] + bytes([self.chain[-1] ^ 1])
        verdict = wurstdrape.verify(self.root, forged, MOMENT)
        self.assertIs(verdict.rule, Rule.WRONG_SIGNATURE)
        cut = wurstdrape.verify(self.root, self.chain[:-1], MOMENT)
        self.assertIs(cut.fault, ChainFault.TRUNCATED)
        self.assertEqual((cut.place, cut.offset), (1, len(self.chain) - len(self.server)))

    def test_by_another_verifier(self):
        verdict = wurstdrape.verify(self.root, self.chain, MOMENT, verifier=lambda line: True)
        self.assertTrue(verdict.trusted)
        self.assertTrue(verdict)
        verdict = wurstdrape.verify(self.root, self.chain, MOMENT, verifier=lambda line: False)
        self.assertIs(verdict.rule, Rule.WRONG_SIGNATURE)
        self.assertFalse(verdict)

    def test_times(self):
        """A time that doesn't fit is rejected, and isn't replaced by another one."""
        epoch = datetime.datetime(1970, 1, 1, tzinfo=datetime.timezone.utc)
        early = [epoch - datetime.timedelta(seconds=it) for it in (86400, 0.5)]
        for at in (-1, 2**64, 2**64 + MOMENT, -0.5, math.inf, math.nan, *early):
            with self.assertRaises(ValueError):
                wurstdrape.judge(b"", self.root, self.chain, at)
            with self.assertRaises(ValueError):
                wurstdrape.verify(self.root, self.chain, at, verifier=lambda line: True)
        # The last second of the validity period is 2036-01-01T00:00:00Z, and has fractions.
        answers = wurstdrape.questions(self.root, self.chain)
        for at, trusted in ((2082758400.5, True), (2082758401.0, False)):
            moment = datetime.datetime.fromtimestamp(at, datetime.timezone.utc)
            for time in (at, moment):
                verdict = wurstdrape.judge(answers, self.root, self.chain, time)
                self.assertIs(verdict.trusted, trusted)
        # the greatest number of seconds, which is after every notAfter
        verdict = wurstdrape.judge(b"", self.root, self.chain, 2**64 - 1)
        self.assertIs(verdict.rule, Rule.EXPIRED)

    def test_limits(self):
        for limit in (-1, 2**32, 2**32 + wurstdrape.LIMIT):
            with self.assertRaises(ValueError):
                wurstdrape.judge(b"", self.root, self.chain, MOMENT, limit=limit)
            with self.assertRaises(ValueError):
                wurstdrape.questions(self.root, self.chain, limit)
        with self.assertRaises(Error) as refused:
            wurstdrape.judge(b"", self.root, self.chain, MOMENT, limit=5)
        self.assertIs(refused.exception.status, Status.ARGUMENTS)
        self.assertIn("the limit", str(refused.exception))


class Issued(unittest.TestCase):
    """examples/orders.txt, whose keys sign by ECDSA with SHA-256."""

    # RFC 5758 3.2
    ALGORITHM = bytes.fromhex("300a06082a8648ce3d040302")

    def setUp(self):
        self.orders = read("examples/orders.txt").decode()

    def test_chain(self):
        asked = []

        def sign(place, octets):
            asked.append((place, octets))
            return b"signature"

        made = wurstdrape.issue(self.orders, self.ALGORITHM, sign)
        self.assertEqual([place for place, _ in asked], [0, 0, 1])
        names = ["CN=Desk Root,O=Desk Example,C=US"]
        names += ["CN=Desk Intermediate,O=Desk Example,C=US", "CN=desk.example"]
        self.assertEqual([wurstdrape.subject(der) for der in made], names)
        for der, (place, octets) in zip(made, asked):
            self.assertEqual(wurstdrape.issuer(der), names[place])
            self.assertEqual(wurstdrape.parts(der).signed_part, octets)
            self.assertTrue(der.endswith(b"\3\x0a\0signature"))

    def test_refusals(self):
        for orders, place, algorithm, status in (
            ("", 0, self.ALGORITHM, Status.REFUSED),
            ("order\n", 0, self.ALGORITHM, Status.ARGUMENTS),
            (self.orders, 3, self.ALGORITHM, Status.EMPTY),
            (self.orders, 0, b"", Status.ARGUMENTS),
        ):
            with self.assertRaises(Error) as refused:
                wurstdrape.signed_part(orders, place, algorithm)
            self.assertIs(refused.exception.status, status)
            with self.assertRaises(Error) as refused:
                wurstdrape.issued(orders, place, algorithm, b"signature")
            self.assertIs(refused.exception.status, status)
        for place in (-1, 2**32):
            with self.assertRaises(ValueError):
                wurstdrape.signed_part(self.orders, place, self.ALGORITHM)
            with self.assertRaises(ValueError):
                wurstdrape.issued(self.orders, place, self.ALGORITHM, b"signature")

    def test_audit(self):
        def audit(orders, at, **more):
            return wurstdrape.audit(orders, self.ALGORITHM, at, **more)

        self.assertTrue(audit(self.orders, MOMENT).trusted)
        self.assertTrue(audit(self.orders, MOMENT))
        self.assertFalse(audit(self.orders, 1))
        with self.assertRaises(ValueError):
            audit(self.orders, -1)
        for at, place, rule in ((1, 0, Rule.NOT_YET_VALID), (1830000000, 2, Rule.EXPIRED)):
            told = audit(self.orders, at)
            self.assertEqual((told.trusted, told.place, told.rule), (False, place, rule))
        told = audit(self.orders, MOMENT, purpose="1.3.6.1.5.5.7.3.4")
        self.assertEqual((told.place, told.rule), (1, Rule.AGAINST_PURPOSE))
        self.assertIs(audit("", MOMENT).fault, OrderFault.NO_ORDERS)
        told = audit(self.orders.replace("serial 0a3f", "serial 01" + 20 * "00"), MOMENT)
        self.assertEqual((told.place, told.fault), (2, OrderFault.SERIAL))
        with self.assertRaises(Error) as refused:
            audit("order\n", MOMENT)
        self.assertIs(refused.exception.status, Status.ARGUMENTS)

    @unittest.skipUnless(HAS_CRYPTOGRAPHY, "cryptography isn't installed")
    def test_by_cryptography(self):
        from cryptography.hazmat.primitives import hashes, serialization
        from cryptography.hazmat.primitives.asymmetric import ec

        keys, lines = [], []
        for line in self.orders.splitlines():
            if line.startswith("key "):
                keys.append(ec.generate_private_key(ec.SECP256R1()))
                spki = serialization.PublicFormat.SubjectPublicKeyInfo
                der = keys[-1].public_key().public_bytes(serialization.Encoding.DER, spki)
                line = f"key {der.hex()}"
            lines.append(line + "\n")

        def sign(place, octets):
            return keys[place].sign(octets, ec.ECDSA(hashes.SHA256()))

        chain = wurstdrape.issue("".join(lines), self.ALGORITHM, sign)
        self.assertTrue(wurstdrape.verify(chain[0], chain, MOMENT).trusted)
        chain[1] = wurstdrape.issued("".join(lines), 1, self.ALGORITHM, sign(0, chain[2]))
        verdict = wurstdrape.verify(chain[0], chain, MOMENT)
        self.assertEqual((verdict.place, verdict.rule), (1, Rule.WRONG_SIGNATURE))


class Threads(unittest.TestCase):
    def test_calls_at_once(self):
        ders = [read("examples/server.der")] * 1600
        with concurrent.futures.ThreadPoolExecutor(8) as pool:
            self.assertEqual(set(pool.map(wurstdrape.subject, ders)), {"CN=desk.example"})


# The commands for which the module has a function, with the options that it can express.
OPTIONS = {
    "verify": ("anchors", "answers", "at", "purpose", "limit"),
    "questions": ("anchors", "limit"),
    "describe": ("json",),
    "show": (),
}


class NoCall(Exception):
    """No function of the module answers this test vector."""


def rows():
    """Yields the arguments, the files, the status and the output of each test vector of
    `cert_tool`, and of each listing in those of `test_cert_rows`."""
    for words, files, (status, output, _) in served.rows():
        # The program reads DER and PEM, the module only DER.
        if not any(b"-----BEGIN " in files.get(word, b"") for word in words):
            # The output of `split` isn't text, but the module has no function for `split`.
            yield words, files, status, output.decode(errors="replace")
    folder = TOP / "crates" / "test_cert_rows"
    asked, told = ((folder / part).read_text().split("\n") for part in ("stdin", "stdout"))
    for question, answer in zip(asked, told):
        words, parts = question.split(" "), re.fullmatch(r'(\d) (".*") ".*"', answer)
        if words[:2] == ["listing", "show"] and parts:
            # bytes in base 16, with a number of repetitions after `*`, or `-` for none
            digits, _, often = words[3].partition("*")
            octets = b"" if digits == "-" else bytes.fromhex(digits) * int(often or 1)
            output = json.loads(parts[2], strict=False)
            yield ["show", words[2], "file"], {"file": octets}, int(parts[1]), output


def options(command, words):
    """Returns the values of a command's options, and its other arguments."""
    given, alone, words = {}, [], iter(words)
    for word in words:
        key = word.removeprefix("--")
        if key == word:
            alone.append(word)
        elif key in given or key not in OPTIONS.get(command, ()):
            raise NoCall
        else:
            given[key] = key == "json" or next(words, "")
    return given, alone


def verdict_on(given, chain, files):
    """Returns the status of a chain, and the line of its verdict without `calls=`."""
    at, purpose = given["at"], given.get("purpose", wurstdrape.SERVER_AUTH)
    # The program takes seconds to the year 9999, and names of purposes.
    if not at.isdigit() or int(at) >= 253402300800 or not re.fullmatch(r"[0-9.]+", purpose):
        raise NoCall
    lent = files[given["answers"]], files[given["anchors"]], files[chain]
    limit = int(given.get("limit", wurstdrape.LIMIT))
    verdict = wurstdrape.judge(*lent, int(at), purpose, limit)
    why = verdict.rule or verdict.fault
    if why is None:
        return verdict.status, "trusted" if verdict.trusted else "empty"
    words = ["refused" if verdict.rule else "fault", verdict.place, verdict.offset]
    words.append(why.name.title().replace("_", ""))
    return verdict.status, " ".join(str(word) for word in words if word is not None)


def answer(words, files):
    """Returns the status and the output of the module for the arguments of a program."""
    given, alone = options(words[0], words[1:])
    match words[0], alone:
        case "verify", [chain]:
            return verdict_on(given, chain, files)
        case "questions", [chain]:
            limit = int(given.get("limit", wurstdrape.LIMIT))
            lines = wurstdrape.questions(files[given["anchors"]], files[chain], limit)
            return Status.DONE, b"".join(lines).decode()
        case "describe", [kind, file]:
            describe = wurstdrape.describe if "json" in given else wurstdrape.describe_text
            return Status.DONE, describe(files[file], Kind(kind))
        case "show", [kind, file]:
            return Status.DONE, wurstdrape.show(files[file], Kind(kind))
    raise NoCall


class Rows(unittest.TestCase):
    """The module returns what the test vectors of the programs have."""

    def test_rows(self):
        alike = 0
        for words, files, status, output in rows():
            try:
                told = answer(words, files)
            except Error as why:
                told = why.status, None
            except (NoCall, KeyError, ValueError):
                continue
            if told[1] is None:
                output = None
            elif words[0] == "verify":
                output = output.partition("\n")[0].partition(" calls=")[0]
            elif "--json" in words:
                output = json.loads(output)
            with self.subTest(words=words):
                self.assertEqual(told, (status, output))
                alike += 1
        self.assertGreater(alike, 100)


if __name__ == "__main__":
    unittest.main()
