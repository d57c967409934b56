#!/usr/bin/env python3
"""Tests `verify_pem.py` over files in which certificates are forged, missing, damaged, too large or
in another order, over files with other blocks, and with programs that aren't `cert_tool`.

    examples/verify_pem_test.py CERT_TOOL    the status is 1 if a result differs

It takes some seconds. Without Python's `cryptography` no signature can be verified, and the tests
that need one are skipped.
"""

import base64
import importlib.util
import itertools
import os
import pathlib
import ssl
import subprocess
import sys
import tempfile

HERE = pathlib.Path(__file__).resolve().parent
AT = "2026-09-21T14:13:20Z"


def encoding(name):
    return (HERE / f"{name}.der").read_bytes()


def changed(octets):
    """Returns a certificate whose signature is invalid: its last bit is changed."""
    return octets[:-1] + bytes([octets[-1] ^ 1])


LEAF, ROOT = encoding("server"), encoding("root")
INTERMEDIATE = encoding("chain").removesuffix(LEAF)
FORGED = changed(LEAF)
TRUSTED = 'trusted calls=2 "CN=desk.example"'
# A certificate with other names.
UNRELATED = LEAF.replace(b"esk", b"usk")
# More bytes than a certificate may have.
LARGE = b"\x30\x83\x01\x00\x00" + bytes(65536)
# The root with another RSA modulus, and with an earlier end. (Signatures of roots aren't verified.)
MODULUS = ROOT.index(bytes.fromhex("2a864886f70d010101")) + 100
OTHER_ROOT = ROOT[:MODULUS] + bytes([ROOT[MODULUS] ^ 1]) + ROOT[MODULUS + 1 :]
EARLY_ROOT = ROOT.replace(b"360101000000Z", b"261001000000Z")


def block(label, octets=b"\x30\x03\x02\x01\x00"):
    text = base64.b64encode(octets).decode()
    return f"-----BEGIN {label}-----\n{text}\n-----END {label}-----\n"


def damaged(old, new):
    """Returns the block of the intermediate certificate with another text."""
    whole = block("CERTIFICATE", INTERMEDIATE)
    assert whole.count(old) == 1
    return whole.replace(old, new)


# The name of the test, the certificates of the file or other text, the expected status, the first
# words of each line of the output, parts of the error output, and further options.
CASES = [
    ("leaf first", [LEAF, INTERMEDIATE], 0, [TRUSTED], []),
    ("the root at the end", [LEAF, INTERMEDIATE, ROOT], 0, [TRUSTED],
     ["verify_pem.py: ignored certificate 3 (CN=Desk Root,O=Desk Example,C=US): certificate 2"
      " (CN=Desk Intermediate,O=Desk Example,C=US) names the root"
      " CN=Desk Root,O=Desk Example,C=US as its issuer\n"]),
    ("two issuers of one name", [LEAF, INTERMEDIATE, ROOT, changed(ROOT)], 0, [TRUSTED],
     ["ignored certificate 3 (CN=Desk Root,", "ignored certificate 4 (CN=Desk Root,"]),
    ("the leaf forged", [FORGED, INTERMEDIATE], 1, ["refused 1 WrongSignature calls=2"],
     ["answer.py: line 2, certificate 1: the signature is invalid\n"]),
    ("the leaf forged, the root at the end", [FORGED, INTERMEDIATE, ROOT], 1,
     ["refused 1 WrongSignature calls=2"], ["ignored certificate 3 (CN=Desk Root,"]),
    ("no intermediate", [LEAF], 1, ["refused 0 WrongIssuer calls=0"], []),
    ("a forged leaf after its issuer", [INTERMEDIATE, FORGED], 4, [],
     ["certificate 2 (CN=desk.example) comes after its issuer, certificate 1 (CN=Desk Inter"]),
    ("the leaf after its issuer", [INTERMEDIATE, LEAF], 4, [], ["comes after its issuer"]),
    ("root first", [ROOT, INTERMEDIATE, LEAF], 4, [],
     ["certificate 2 (CN=Desk Intermediate,O=Desk Example,C=US) comes after its issuer"]),
    ("root first, no intermediate", [ROOT, FORGED], 4, [], ["isn't the issuer of certificate 1"]),
    ("the leaf last", [INTERMEDIATE, ROOT, FORGED], 4, [], ["certificate 3 (CN=desk.example)"]),
    ("the leaf twice", [LEAF, LEAF, INTERMEDIATE], 4, [], ["isn't the issuer of certificate 1"]),
    ("an unrelated one first", [UNRELATED, LEAF, INTERMEDIATE], 4, [], ["isn't the issuer of"]),
    ("an unrelated one between", [LEAF, UNRELATED, INTERMEDIATE], 4, [], ["isn't the issuer of"]),
    ("an unrelated one last", [LEAF, INTERMEDIATE, UNRELATED], 4, [], ["isn't the issuer of"]),
    ("two in one block", [LEAF + INTERMEDIATE], 2, None, ["certificate 1 can't be decoded"]),
    ("one that is cut", [LEAF, INTERMEDIATE[:-1]], 2, None, ["certificate 2 can't be decoded"]),
    ("the first too large", [LARGE, LEAF, INTERMEDIATE], 2, [],
     ["chain.pem: certificate 1 has more than 65536 bytes\n"]),
    ("the second too large", [LEAF, LARGE, INTERMEDIATE], 2, [],
     ["chain.pem: certificate 2 has more than 65536 bytes\n"]),
    ("the last too large", [LEAF, INTERMEDIATE, LARGE], 2, [],
     ["chain.pem: certificate 3 has more than 65536 bytes\n"]),
    ("the largest size", [LEAF, LARGE[:65536]], 2, None, ["certificate 2 can't be decoded"]),
    ("none", [], 4, [], ["there is no certificate in PEM"]),
    ("only a private key", [block("PRIVATE KEY")], 4, [], ["there is no certificate in PEM"]),
    ("a private key between", [LEAF, block("PRIVATE KEY"), INTERMEDIATE], 0, [TRUSTED], []),
    ("a key, a CRL and text first",
     [block("EC PRIVATE KEY"), block("X509 CRL"), "0: Certificate\n", LEAF, INTERMEDIATE], 0,
     [TRUSTED], []),
    ("the older label", [block("X509 CERTIFICATE", LEAF), INTERMEDIATE], 0, [TRUSTED], []),
    ("the older label, forged", [block("X509 CERTIFICATE", FORGED), INTERMEDIATE], 1,
     ["refused 1 WrongSignature calls=2"], []),
    ("OpenSSL's label first", [block("TRUSTED CERTIFICATE", FORGED), LEAF, INTERMEDIATE], 4, [],
     ["a TRUSTED CERTIFICATE block can't be read; `openssl x509 -in FILE`"]),
    ("an unknown label first", [block("CERTIFICATE 1"), LEAF, INTERMEDIATE], 4, [],
     ["a CERTIFICATE 1 block can't be read\n"]),
    ("a CSR first", [block("CERTIFICATE REQUEST"), LEAF, INTERMEDIATE], 0, [TRUSTED], []),
    ("a message first", [block("PKCS7"), LEAF, INTERMEDIATE], 4, [],
     ["a PKCS7 block can't be read; `openssl pkcs7"]),
    ("four dashes at the end of a BEGIN line",
     [LEAF, damaged("CERTIFICATE-----\nM", "CERTIFICATE----\nM"), LEAF], 4, [],
     ["chain.pem: certificate 2 isn't PEM: its BEGIN line is damaged\n"]),
    ("no dashes at the end of the first BEGIN line",
     [damaged("CERTIFICATE-----\nM", "CERTIFICATE\nM"), LEAF], 4, [],
     ["chain.pem: certificate 1 isn't PEM: its BEGIN line is damaged\n"]),
    ("a BEGIN line that is the end of the file", [LEAF, "-----BEGIN CERTIFICATE"], 4, [],
     ["chain.pem: certificate 2 isn't PEM: its BEGIN line is damaged\n"]),
    ("a private key with a damaged BEGIN line between",
     [LEAF, block("PRIVATE KEY").replace("KEY-----", "KEY----", 1), INTERMEDIATE], 0, [TRUSTED],
     []),
    ("no END line", [LEAF, block("CERTIFICATE", INTERMEDIATE).partition("-----END")[0]], 4, [],
     ["certificate 2 isn't PEM: its END line is missing"]),
    ("another character", [LEAF, damaged("MIIC", "MII-C")], 4, [],
     ["chain.pem: certificate 2 isn't PEM: it isn't base64\n"]),
    ("a character that isn't ASCII", [LEAF, damaged("MIIC", "MII\xc4C")], 4, [],
     ["certificate 2 isn't PEM: it isn't base64"]),
    ("a blank in a line", [LEAF, damaged("MIIC", "MII C")], 4, [],
     ["certificate 2 isn't PEM: it isn't base64"]),
    ("a character less", [LEAF, damaged("MIIC", "MII")], 4, [],
     ["certificate 2 isn't PEM: it isn't base64"]),
    ("no padding", [LEAF, damaged("=\n-----END", "\n-----END")], 4, [],
     ["certificate 2 isn't PEM: it isn't base64"]),
    ("a header in the block", [LEAF, damaged("MIIC", "Comment: x\n\nMIIC")], 4, [],
     ["certificate 2 isn't PEM: it isn't base64"]),
    ("white space around lines", [LEAF, damaged("MIIC", " \r\n\t MIIC\t\r\n")], 0, [TRUSTED], []),
    ("its host", [LEAF, INTERMEDIATE], 0, [TRUSTED], [], "--host=desk.example", "--strict"),
    ("another host", [LEAF, INTERMEDIATE], 1, ["refused 1 WrongHost calls=2"], [],
     "--host=desk.test"),
    ("no host", [LEAF, INTERMEDIATE], 4, [], ["--host: \"a b\""], "--host=a b"),
    ("it ends soon", [LEAF, INTERMEDIATE], 7, [TRUSTED, "ends 0 2036-01-01T00:00:00Z"],
     ["certificate 2 (CN=Desk Inter", "is valid until 2036-01-01T00:00:00Z"],
     "--warn-days=5000"),
    ("it doesn't end soon", [LEAF, INTERMEDIATE], 0, [TRUSTED], [], "--warn-days=30"),
]

# The same with other roots.
ROOT_CASES = [
    ("the root ends soon", [EARLY_ROOT], [LEAF, INTERMEDIATE], 7, [TRUSTED, "ends anchor"],
     ["verify_pem.py: every root CN=Desk Root,O=Desk Example,C=US that issued certificate 2"
      " (CN=Desk Intermediate,O=Desk Example,C=US) ends within the days of --warn-days\n"],
     "--warn-days=30"),
    ("two roots of one name", [OTHER_ROOT, ROOT], [LEAF, INTERMEDIATE], 0, ["trusted"],
     ["answer.py: line 1, certificate 0: the signature is invalid\n"]),
    ("another root of the name", [OTHER_ROOT], [LEAF, INTERMEDIATE], 1,
     ["refused 0 WrongSignature"], ["line 1, certificate 0: the signature is invalid\n"]),
    ("a damaged root", [damaged("MIIC", "MII-C")], [LEAF, INTERMEDIATE], 4, [],
     ["roots.pem: certificate 1 isn't PEM: it isn't base64\n"]),
    ("a root that is cut", [ROOT, ROOT[:-1]], [LEAF, INTERMEDIATE], 4, None,
     ["roots.pem: certificate 2 can't be decoded\n"]),
    ("a root with a wrong date", [ROOT.replace(b"260101", b"269901"), ROOT], [LEAF], 4, None,
     ["roots.pem: certificate 1 can't be decoded\n"]),
]

# The name of the test, the arguments, the status, and parts of the output and of the error output.
COMMANDS = [
    ("standard input twice", ["-", "-"], 4, "", "only one of ROOTS and CHAIN can be -\n"),
    ("no standard input", ["-", "missing.pem", "--tool", sys.executable], 4, "",
     "standard input: there is no certificate in PEM (did the server answer?)\n"),
    ("the help", ["--help"], 0, "    | verify_pem.py /etc/ssl/certs/ca-certificates.crt -", ""),
]


# The name of the test, the text and the mode of the program that is run in place of `cert_tool`,
# and parts of the error output. The status is 5 each time.
PROGRAMS = [
    ("not executable", "#!/bin/sh\n", 0o600, ["cannot run ", ": Permission denied"]),
    ("not a program", "cert_tool", 0o700, ["cannot run ", ": Exec format error"]),
    ("no interpreter", "#!/missing\n", 0o700, ["cannot run ", ": No such file"]),
    ("status 1", "#!/bin/sh\nexit 1\n", 0o700, ["ended with status 1"]),
    ("status 5", "#!/bin/sh\necho why >&2; exit 5\n", 0o700, ["why\n", "ended with status 5"]),
    ("status 7", "#!/bin/sh\nexit 7\n", 0o700, ["ended with status 7"]),
    ("a signal", "#!/bin/sh\nkill -9 $$\n", 0o700, ["was ended by signal 9"]),
    ("no output", "#!/bin/sh\n", 0o700, ["isn't cert_tool: it didn't write JSON"]),
    ("another program", "#!/bin/sh\necho '{}'\n", 0o700, ["KeyError"]),
]


def are_begun(lines, words):
    """Returns whether each line begins with these words, and there is no other line."""
    pairs = list(itertools.zip_longest(lines, words, fillvalue=""))
    return all(f"{line} ".startswith(f"{begin} ") for line, begin in pairs)


def in_pem(content):
    """Returns the block of a certificate, or the text itself."""
    return content if isinstance(content, str) else ssl.DER_cert_to_PEM_cert(content)


class Results:
    """The tests that passed and failed, with files in one folder."""

    def __init__(self, folder):
        self.roots, self.chain, self.program = (
            pathlib.Path(folder, name) for name in ("roots.pem", "chain.pem", "program")
        )
        self.passed, self.failed = 0, 0

    def start(self, words, **variables):
        """Runs the script with these arguments and environment variables."""
        return subprocess.run(
            [sys.executable, HERE / "verify_pem.py", *words],
            stdin=subprocess.DEVNULL,
            capture_output=True,
            text=True,
            env={**os.environ, **variables},
        )

    def run(self, content, tool, options=(), roots=(ROOT,)):
        for path, blocks in ((self.chain, content), (self.roots, roots)):
            path.write_text("".join(map(in_pem, blocks)), "latin-1")
        return self.start([self.roots, self.chain, "--at", AT, *options, "--tool", tool])

    def add(self, name, said, agrees):
        self.passed += agrees
        self.failed += not agrees
        if not agrees:
            print(f"{name}: {said.returncode}, {said.stdout}{said.stderr}")

    def add_case(self, tool, roots, name, content, status, output, errors, *options):
        said = self.run(content, tool, options, roots)
        # After a rejection come the lines of `explain`.
        told = said.stdout.splitlines()[: 1 if said.returncode == 1 else None]
        agrees = said.returncode == status and (output is None or are_begun(told, output))
        agrees = agrees and all(part in said.stderr for part in errors)
        self.add(name, said, agrees and (status in (0, 7) or "trusted" not in said.stdout))

    def add_command(self, name, words, status, output, errors):
        said = self.start(words)
        agrees = said.returncode == status and output in said.stdout
        self.add(name, said, agrees and errors in said.stderr)

    def add_missing(self, module):
        """Adds the test of a Python that lacks a module."""
        self.program.with_name(f"{module}.py").write_text("raise ImportError('it is missing')\n")
        said = self.start([self.roots, self.chain], PYTHONPATH=self.program.parent)
        agrees = said.returncode == 5 and said.stderr.endswith("verify_pem.py: it is missing\n")
        self.add(f"without {module}", said, agrees)

    def add_full(self, tool):
        """Adds the test of a verifier whose answers can't be written."""
        words = ["questions", HERE / "chain.der", "--anchors", HERE / "root.der"]
        asked = subprocess.run([tool, *words], stdout=subprocess.PIPE).stdout
        with open("/dev/full", "wb") as full:
            said = subprocess.run(
                [sys.executable, HERE / "answer.py"],
                input=asked,
                stdout=full,
                stderr=subprocess.PIPE,
            )
        agrees = said.stderr == b"answer.py: [Errno 28] No space left on device\n"
        self.add("no room for the answers", said, agrees and said.returncode == 5)

    def add_program(self, name, text, mode, errors):
        self.program.write_text(text)
        self.program.chmod(mode)
        said = self.run([LEAF, INTERMEDIATE], self.program)
        agrees = said.returncode == 5 and not said.stdout
        agrees = agrees and all(part in said.stderr for part in errors)
        self.add(name, said, agrees and "can't be decoded" not in said.stderr)


def main(words):
    if len(words) != 1 or words[0].startswith("-"):
        print(__doc__.strip())
        return 2 * (words != ["--help"])
    verifies = importlib.util.find_spec("cryptography") is not None
    with tempfile.TemporaryDirectory() as folder:
        results = Results(folder)
        cases = [([ROOT], *case) for case in CASES]
        cases += [(roots, name, *rest) for name, roots, *rest in ROOT_CASES]
        for roots, name, content, status, *rest in cases:
            # `cert_tool verify`, which also checks the options, runs after the signatures.
            if not verifies and (status in (0, 1, 7) or len(rest) > 2):
                print(f"{name}: skipped, because `cryptography` isn't installed")
            else:
                results.add_case(words[0], roots, name, content, status, *rest)
        for program in PROGRAMS:
            results.add_program(*program)
        for command in COMMANDS:
            results.add_command(*command)
        results.add_missing("json")
        if verifies:
            results.add_full(words[0])
    print(f"{results.passed} tests passed, {results.failed} failed")
    return bool(results.failed)


if __name__ == "__main__":
    sys.exit(main(sys.argv[1:]))
