"""Writes the sources of a crate whose types decode and encode DER, from an ASN.1 module.

    tools/asn1 MODULE.asn1 CRATE [--with FOLDER[=MODULE]].. [--read NAME=TYPE].. [--only NAME]..
        [--loose] [--equal-members] [--check]

CRATE is the folder of the crate. The tool writes its src/, specs/ and proofs/, and asn1_types.txt,
from which other modules can import its types (--with). docs/ASN1.md says what each ASN.1 type
becomes.

  --with FOLDER[=MODULE]  allow imports of types from the crate in FOLDER; with =MODULE, the module
                          that is imported from is called MODULE
  --read NAME=TYPE        use TYPE in place of the type NAME: Any, Int, OctetString, SequenceOwned,
                          or the name of another type
  --only NAME             write only the type NAME and the types that it names
  --loose                 report sizes and ranges that can't be checked as notes, not as errors
  --equal-members         allow equal members in a SET OF
  --check                 write nothing, list the files that would differ, and return the status 1
                          if there is one

Each error and note has the number of a line of the module. After an error, nothing is written.
"""

import argparse
import pathlib
import sys

from . import library
from .crate import Crate
from .module import Resolved
from .parser import parsed
from .syntax import Refused, Report

TABLE = "asn1_types.txt"
HEAD = "# Types that another module can import (tools/asn1 --with).\n"


def words_of(arguments):
    kind = argparse.RawDescriptionHelpFormatter
    words = argparse.ArgumentParser(description=__doc__, formatter_class=kind)
    words.add_argument("module", type=pathlib.Path)
    words.add_argument("crate", type=pathlib.Path)
    words.add_argument("--with", dest="others", action="append", default=[])
    words.add_argument("--read", action="append", default=[])
    words.add_argument("--only", action="append", default=[])
    words.add_argument("--loose", action="store_true")
    words.add_argument("--equal-members", action="store_true")
    words.add_argument("--check", action="store_true")
    return words.parse_args(arguments)


def sources(words, report):
    """Returns the files of the crate, by path, and its libraries. Errors go to the report."""
    try:
        table = library.library()
        for other in words.others:
            folder, _, module = other.partition("=")
            table.read(pathlib.Path(folder) / TABLE, module or None)
        module = parsed(words.module.read_text())
        read = dict(row.split("=", 1) for row in words.read)
        types = Resolved(module, report, table, read, words.loose, words.equal_members)
        crate = Crate(types, words.crate.resolve().name, words.only)
        files = crate.write()
        if not report.errors:
            files[TABLE] = crate.table()
        return files, crate.libraries()
    except Refused as refused:
        report.error(refused.line, refused.reason)
        return {}, []
    except OSError as error:
        sys.exit(f"tools/asn1: cannot read {error.filename}: {error.strerror}")


def old_files(folder):
    """Returns the files that an earlier run wrote."""
    if not (folder / TABLE).exists():
        return set()
    lines = (folder / TABLE).read_text().splitlines()
    return {line.removeprefix("# file ") for line in lines if line.startswith("# file ")}


def main(arguments):
    words = words_of(arguments)
    report = Report(words.module)
    files, libraries = sources(words, report)
    for line in report.lines():
        print(line, file=sys.stderr)
    if report.errors:
        count = "1 error" if len(report.errors) == 1 else f"{len(report.errors)} errors"
        print(f"{words.module}: {count}, nothing is written", file=sys.stderr)
        return 1
    listed = "".join(f"# file {path}\n" for path in sorted(files) if path != TABLE)
    files[TABLE] = f"{HEAD}{listed}{files[TABLE]}"
    old = old_files(words.crate) - set(files)
    if words.check:
        changed = [path for path, text in files.items()
                   if not (words.crate / path).exists() or (words.crate / path).read_text() != text]
        for path in sorted({*changed, *old}):
            print(f"{words.crate / path}: not as tools/asn1 writes it")
        return bool(changed or old)
    for path in old:
        (words.crate / path).unlink(missing_ok=True)
    for path, text in files.items():
        (words.crate / path).parent.mkdir(parents=True, exist_ok=True)
        (words.crate / path).write_text(text)
    lines = sum(text.count("\n") for path, text in files.items() if path != TABLE)
    print(f"{len(files) - 1} files, {lines} lines")
    print(f"crates.txt: {words.crate.resolve().name}: {' '.join(libraries)}")
    return 0
