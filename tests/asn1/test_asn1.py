#!/usr/bin/env python3
"""Tests tools/asn1: the sources that it writes, and its errors and notes.

    tests/asn1/test_asn1.py [--write]

refused.txt contains parts of modules, with the errors and notes that are expected. written.txt
contains the sources that are expected from loans.asn1, forms.asn1 and automatic.asn1, which use
each construct; --write writes it. For the modules of RFCs in modules/, no error may occur. If `rt`
is found, `rt fmt` may not change the sources.
"""

import contextlib
import io
import os
import pathlib
import shutil
import subprocess
import sys
import tempfile
import unittest

HERE = pathlib.Path(__file__).resolve().parent
sys.path.insert(0, str(HERE.parents[1] / "tools"))

from asn1_tool.command import main
from asn1_tool.parser import parsed

WRITTEN = HERE / "written.txt"
MODULES = HERE / "modules"
CMS = ["CryptographicMessageSyntax2004"]
for name in ("AttributeCertificateV1", "AttributeCertificateV2", "ExtendedCertificate"):
    CMS += ["--read", f"{name}=SequenceOwned"]
SIGNED = ["ContentInfo", "SignedData", "DigestedData", "EncryptedData", "MessageDigest",
          "SigningTime", "Countersignature"]
# The crates of the modules of RFCs, with options; those that are imported come first.
CRATES = {
    "pki_ocsp": ["OCSP-2013-88"],
    "ocsp_2008": ["OCSP-2013-08", "--read", "CRLReason=Any"],
    "pki_cms": [*CMS, *(word for name in SIGNED for word in ("--only", name))],
    "pki_cms_enveloped": [*CMS, "--loose", "--with", "pki_cms", "--only", "EnvelopedData",
                          "--only", "AuthenticatedData"],
    "pki_key_containers": ["AsymmetricKeyPackageModuleV1"],
    "pbes": ["PKCS5v2-1", "--loose", "--only", "PBEParameter", "--only", "PBES2-params"],
    "pki_timestamps": ["PKIXTSP", "--loose", "--with", "pki_cms=CryptographicMessageSyntax"],
}


def run(module, crate, *words):
    """Runs the tool in the folder above a crate. Returns its status and its lines."""
    crate.parent.mkdir(exist_ok=True)
    out, err, here = io.StringIO(), io.StringIO(), os.getcwd()
    try:
        os.chdir(crate.parent)
        with contextlib.redirect_stdout(out), contextlib.redirect_stderr(err):
            status = main([str(module), crate.name, *words])
    finally:
        os.chdir(here)
    return int(status), out.getvalue().splitlines(), err.getvalue().splitlines()


def written(folder):
    """Returns the files of a folder, each after its name."""
    paths = sorted(path for path in folder.rglob("*") if path.is_file())
    return "".join(f"==> {path.relative_to(folder)}\n{path.read_text()}" for path in paths)


def write_forms(folder):
    """Writes the crates of the made-up modules."""
    run(HERE / "loans.asn1", folder / "loans")
    run(HERE / "forms.asn1", folder / "forms")
    run(HERE / "automatic.asn1", folder / "automatic", "--equal-members", "--with", "forms")


def cases():
    """Yields each case of refused.txt: its line, text, options, and the expected lines."""
    number, text, words, lines = 0, [], [], []
    for at, line in enumerate([*(HERE / "refused.txt").read_text().splitlines(), ""], 1):
        if line.startswith("=> ["):
            words = line[4:-1].split()
        elif line.startswith("=> "):
            lines.append(line[3:])
        elif line and not line.startswith("#"):
            number = number or at
            text.append(line)
        elif text:
            yield number, "\n".join(text), words, lines
            number, text, words, lines = 0, [], [], []


class Test(unittest.TestCase):
    maxDiff = None

    def setUp(self):
        folder = tempfile.TemporaryDirectory()
        self.addCleanup(folder.cleanup)
        self.folder = pathlib.Path(folder.name)

    def test_refusals(self):
        module = self.folder / "m.asn1"
        for number, text, words, lines in cases():
            with self.subTest(line=number):
                module.write_text(f"M DEFINITIONS IMPLICIT TAGS ::= BEGIN {text}\nEND\n")
                status, _, told = run(module, self.folder / "m", *words)
                found = [line.removeprefix(f"{module}:") for line in told]
                is_error = any(" error: " in line for line in lines)
                if is_error:
                    self.assertIn("nothing is written", found.pop())
                self.assertEqual(found, lines)
                self.assertEqual(status, int(is_error))
                self.assertEqual((self.folder / "m").exists(), not is_error)
                shutil.rmtree(self.folder / "m", ignore_errors=True)

    def test_enumerated(self):
        """Names without a number get the numbers that the examples of X.680 20 give them."""
        for text, numbers in (
            ("a, b, c (0)", [1, 2, 0]), ("a, b, ..., c", [0, 1, 2]),
            ("a, b, c (0), ..., d", [1, 2, 0, 3]), ("a, b, ..., c (3), d", [0, 1, 3, 4]),
            ("a, z (25), ..., d", [0, 25, 1]), ("a, b (3), ..., c (1)", [0, 3, 1]),
        ):
            with self.subTest(text=text):
                module = parsed(f"M DEFINITIONS ::= BEGIN A ::= ENUMERATED {{ {text} }} END")
                found = [item.number for item in module.types["A"].type.items]
                self.assertEqual(found, numbers)

    def test_forms(self):
        write_forms(self.folder)
        self.assertEqual(written(self.folder), WRITTEN.read_text())

    def test_modules(self):
        """Modules of RFCs cause no error, and the crates of this repository are up to date."""
        for crate, (module, *words) in CRATES.items():
            with self.subTest(module=module):
                status, _, told = run(MODULES / f"{module}.asn1", self.folder / crate, *words)
                self.assertEqual((status, [line for line in told if "error" in line]), (0, []))
                kept = HERE.parents[1] / "crates" / crate
                if kept.exists():
                    shutil.copytree(kept, self.folder / crate, dirs_exist_ok=True)
                    asked = run(MODULES / f"{module}.asn1", self.folder / crate, *words, "--check")
                    self.assertEqual(asked[:2], (0, []))

    def test_layout(self):
        """`rt fmt` doesn't change the sources."""
        if not shutil.which("rt"):
            self.skipTest("rt isn't found")
        write_forms(self.folder / "crates")
        for crate, (module, *words) in CRATES.items():
            run(MODULES / f"{module}.asn1", self.folder / "crates" / crate, *words)
        crates = sorted((self.folder / "crates").iterdir())
        (self.folder / "crates.txt").write_text("".join(f"{it.name}:\n" for it in crates))
        before = written(self.folder / "crates")
        for crate in crates:
            subprocess.run(["rt", "fmt"], cwd=crate, check=True, capture_output=True)
            shutil.rmtree(crate / "out", ignore_errors=True)
        self.assertEqual(written(self.folder / "crates"), before)

    def test_again(self):
        """--check lists changed files, and a new run removes files that are no longer written, but
        no other files."""
        module, crate = self.folder / "m.asn1", self.folder / "m"
        types = "A ::= ENUMERATED { a } B ::= SEQUENCE { a A }"
        module.write_text(f"M DEFINITIONS ::= BEGIN {types} END")
        run(module, crate)
        self.assertEqual(run(module, crate, "--check")[:2], (0, []))
        (crate / "src" / "a.rt").write_text("")
        changed = ["m/src/a.rt: not as tools/asn1 writes it"]
        self.assertEqual(run(module, crate, "--check")[:2], (1, changed))
        own = crate / "proofs/own/Answers.antt"
        own.parent.mkdir()
        own.write_text("")
        module.write_text("M DEFINITIONS ::= BEGIN A ::= ENUMERATED { a } END")
        self.assertEqual(run(module, crate, "--check")[0], 1)
        run(module, crate)
        left = sorted(it.name for it in (crate / "src").iterdir())
        self.assertEqual(left, ["a.rt", "laws.rt", "lib.rt"])
        self.assertTrue(own.exists())

    def test_crates_line(self):
        """The tool prints the line for crates.txt."""
        _, lines, _ = run(HERE / "forms.asn1", self.folder / "forms")
        self.assertEqual(lines[-1], "crates.txt: forms: der_types_more der_types der_core bitflags")
        words = ["--equal-members", "--with", "forms"]
        _, lines, _ = run(HERE / "automatic.asn1", self.folder / "automatic", *words)
        self.assertEqual(lines[-1], "crates.txt: automatic: forms der_types_more der_core")


if __name__ == "__main__":
    if "--write" in sys.argv:
        with tempfile.TemporaryDirectory() as place:
            write_forms(pathlib.Path(place))
            WRITTEN.write_text(written(pathlib.Path(place)))
    else:
        unittest.main()
