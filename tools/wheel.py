#!/usr/bin/env python3
"""Builds the wheel of the Python module (PEP 427), with the shared libraries.

    tools/wheel.py BINDINGS FOLDER      BINDINGS is the result of bindings/build.sh; the wheel is
                                        written to FOLDER, and its path printed

The same files give the same wheel, byte for byte.
"""

import base64
import hashlib
import pathlib
import platform
import sys
import zipfile

from sources import TOP, version

TAG = f"py3-none-linux_{platform.machine()}"
INFO = f"wurstdrape-{version()}.dist-info"
METADATA = f"""Metadata-Version: 2.1
Name: wurstdrape
Version: {version()}
Summary: Decodes X.509 certificates, CRLs and CSRs; validates and issues chains; formally verified
License: MIT OR Apache-2.0
Requires-Python: >=3.9
Provides-Extra: verifier
Requires-Dist: cryptography; extra == "verifier"
"""
WHEEL = f"""Wheel-Version: 1.0
Generator: tools/wheel.py
Root-Is-Purelib: false
Tag: {TAG}
"""


def row(name, octets):
    """Returns the row of a file in RECORD."""
    digest = base64.urlsafe_b64encode(hashlib.sha256(octets).digest()).rstrip(b"=").decode()
    return f"{name},sha256={digest},{len(octets)}\n"


def main():
    if len(sys.argv) != 3:
        print(__doc__.strip())
        sys.exit(2 * (sys.argv[1:] != ["--help"]))
    calls, folder = map(pathlib.Path, sys.argv[1:])
    # answer.py verifies the signatures of questions.
    files = [*sorted((TOP / "bindings/python/src/wurstdrape").glob("*.py")),
             TOP / "examples/answer.py",
             calls / "libwurstdrape.so", calls / "libwurstdrape_issue.so"]
    held = {f"wurstdrape/{path.name}": path.read_bytes() for path in files}
    held |= {"wurstdrape/py.typed": b"", f"{INFO}/METADATA": METADATA.encode(),
             f"{INFO}/WHEEL": WHEEL.encode()}
    record = "".join(row(*it) for it in held.items()) + f"{INFO}/RECORD,,\n"
    held[f"{INFO}/RECORD"] = record.encode()
    folder.mkdir(parents=True, exist_ok=True)
    wheel = folder / f"wurstdrape-{version()}-{TAG}.whl"
    with zipfile.ZipFile(wheel, "w", zipfile.ZIP_DEFLATED) as archive:
        for name, octets in held.items():
            entry = zipfile.ZipInfo(name, (1980, 1, 1, 0, 0, 0))
            entry.compress_type, entry.external_attr = zipfile.ZIP_DEFLATED, 0o644 << 16
            archive.writestr(entry, octets)
    print(wheel)


if __name__ == "__main__":
    main()
