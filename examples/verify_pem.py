#!/usr/bin/env python3
"""Validates a certificate chain in PEM, as a server sends it, under root certificates in PEM.

    verify_pem.py ROOTS CHAIN [--host NAME] [--strict] [--warn-days DAYS]
        [--at TIME] [--purpose PURPOSE] [--tool CERT_TOOL]

ROOTS        trusted root certificates, such as /etc/ssl/certs/ca-certificates.crt
CHAIN        the server's certificate first, followed by each issuer in turn
--host       rejects a server's certificate that isn't valid for this DNS name or IP address
--strict     also rejects name constraints, a key usage of the server's certificate that doesn't fit
             the key purpose, and a root that breaks a rule, such as an expired one
--warn-days  the status is 7 if a trusted chain ends within this number of days
--at         the validation time: `now` (default), a date such as 2026-09-21T14:13:20Z, or seconds
             since 1970
--purpose    the key purpose: serverAuth (default), another that `cert_tool verify --help` lists, or
             an OID
--tool       the program `cert_tool` (default: beside this script, or built in this repository)

ROOTS or CHAIN, but not both, can be `-`, standard input. Text and blocks without certificates, such
as a private key, are ignored. Host names are checked only with --host, and revocation isn't
checked. Name constraints and policies are ignored; if they are critical, the chain is rejected.
Signatures with SHA-1 are accepted. The script isn't proved. It is installed as
cert_tool_verify_pem. This validates the chain that a server sends:

    openssl s_client -connect desk.example:443 -servername desk.example -showcerts \\
        </dev/null 2>/dev/null \\
        | verify_pem.py /etc/ssl/certs/ca-certificates.crt - --host desk.example

The first certificate of CHAIN is always the one that is validated. Each certificate must be the
issuer of the one before it. The chain ends with the first certificate whose issuer has the name of
a root of ROOTS. Further certificates, such as the root itself, are ignored, and named on the error
output; each of them must be the issuer of some certificate before it. Names are compared byte for
byte.

The script reverses the chain, runs `cert_tool questions`, verifies the signatures with answer.py
(installed as cert_tool_answer), and runs `cert_tool verify`. If the chain isn't trusted, it also
prints what `cert_tool explain chain` reports. In the lines of `cert_tool` and of the verifier,
index 0 is the certificate that a root issued. The messages of the script count the certificates of
the file from 1. If several roots have the same name, the verifier can report a signature at index 0
although the chain is trusted, because another root's key issued the certificate.

Exit status:
0  the chain is trusted
1  the chain breaks a rule, or a stricter check of --host or --strict
2  a certificate of CHAIN can't be decoded, or has more than 65536 bytes
4  an argument is wrong; ROOTS or CHAIN has no certificate (a server that can't be reached sends
   none); a block of ROOTS or CHAIN isn't PEM, or has certificates in another form, such as PKCS #7;
   a certificate of ROOTS can't be decoded; or CHAIN is in another order
5  a file can't be read or written, or `cert_tool` or a module of Python, such as `cryptography`,
   can't be run
6  memory ran out in `cert_tool`
7  the chain is trusted, and ends within the days of --warn-days
"""

import sys

# Python ends with status 1 after an exception, which would be a verdict here.
try:
    import argparse
    import base64
    import itertools
    import json
    import pathlib
    import re
    import subprocess
    import tempfile
    import traceback
except ImportError as why:
    print(f"{sys.argv[0]}: {why}", file=sys.stderr)
    sys.exit(5)

HERE = pathlib.Path(__file__).resolve().parent
# If this script is installed, the program and the verifier are in its folder.
TOOLS = HERE / "cert_tool", HERE.parent / "crates/cert_tool/out/cert_tool"
VERIFIERS = HERE / "cert_tool_answer", HERE / "answer.py"
TRUSTED, REFUSED, FAULTY, ARGUMENTS, DEVICE, MEMORY, ENDING = 0, 1, 2, 4, 5, 6, 7
NAME = pathlib.Path(sys.argv[0]).name
# The size limit of `cert_tool` for a certificate, in bytes.
LIMIT = 65536
# The labels of a certificate in PEM (RFC 7468 5).
LABELS = "CERTIFICATE", "X509 CERTIFICATE"
# What converts blocks that hold certificates in another form.
CONVERTERS = {
    "TRUSTED CERTIFICATE": "; `openssl x509 -in FILE` writes its certificate",
    "PKCS7": "; `openssl pkcs7 -print_certs -in FILE` writes its certificates",
}


def stop(status, why):
    print(f"{NAME}: {why}", file=sys.stderr)
    sys.exit(status)


class Parser(argparse.ArgumentParser):
    def error(self, message):
        """Ends with the status of wrong arguments, as `cert_tool` does."""
        self.print_usage(sys.stderr)
        stop(ARGUMENTS, message)

    def format_help(self):
        return __doc__.replace("verify_pem.py", NAME)


def there(paths):
    """Returns the first of these paths that is a file, or the last one."""
    return next(filter(pathlib.Path.is_file, paths), paths[-1])


def holds_certificates(label):
    """Returns whether a block that isn't a certificate holds some. If it were ignored, another
    certificate could become the first one."""
    return "CERTIFICATE" in label and "REQUEST" not in label or label in ("PKCS7", "CMS")


def certificate_in(file, number, label, block):
    """Returns the encoding of the certificate in this block, which begins after the BEGIN line."""
    inside, footer, _ = block.partition(f"-----END {label}-----")
    if not footer:
        stop(ARGUMENTS, f"{file}: certificate {number} isn't PEM: its END line is missing")
    # White space at either end of a line is ignored, as `cert_tool` does.
    text = "".join(line.strip(" \t\r") for line in inside.split("\n"))
    try:
        octets = base64.b64decode(text, validate=True)
    except ValueError:
        octets = b""
    if base64.b64encode(octets).decode() != text:
        stop(ARGUMENTS, f"{file}: certificate {number} isn't PEM: it isn't base64")
    return octets


def certificates(file):
    """Returns the encodings of the certificates of a PEM file (RFC 7468 5), in their order."""
    try:
        text = pathlib.Path("/dev/stdin" if file == "-" else file).read_text("latin-1")
    except OSError as why:
        stop(DEVICE, f"cannot read {file}: {why.strerror}")
    found = []
    for block in text.split("-----BEGIN ")[1:]:
        label, dashes, _ = block.partition("\n")[0].partition("-----")
        if not dashes and holds_certificates(label):
            why = f"certificate {len(found) + 1} isn't PEM: its BEGIN line is damaged"
            stop(ARGUMENTS, f"{file}: {why}")
        if label in LABELS:
            inside = block.removeprefix(label + dashes)
            found.append(certificate_in(file, len(found) + 1, label, inside))
        elif holds_certificates(label):
            step = CONVERTERS.get(label, "")
            stop(ARGUMENTS, f"{file}: a {printable(label)} block can't be read{step}")
    if not found and file == "-":
        stop(ARGUMENTS, "standard input: there is no certificate in PEM (did the server answer?)")
    if not found:
        stop(ARGUMENTS, f"{file}: there is no certificate in PEM")
    return found


def printable(text):
    """Returns a text that can't move the cursor: characters that aren't printable are escaped."""
    return "".join(it if it.isprintable() else ascii(it)[1:-1] for it in text)


def parts(octets):
    """Returns each of these consecutive encodings, with its content."""
    while octets:
        start, length = 2, octets[1]
        if length & 0x80:
            start += length & 0x7F
            length = int.from_bytes(octets[2:start], "big")
        yield octets[: start + length], octets[start : start + length]
        octets = octets[start + length :]


class Certificate:
    """A certificate that was decoded: its number in the file, its bytes, its names and its end."""

    def __init__(self, number, octets, described):
        self.number = number
        self.octets = octets
        self.not_after = described["notAfter"]
        # The names as text, for messages.
        self.issuer_text, self.subject_text = (
            printable(described[name]["text"]) for name in ("issuer", "subject")
        )
        # The names as bytes (RFC 5280 4.1), after the version, serialNumber and signature.
        signed = next(parts(next(parts(octets))[1]))[1]
        fields = [whole for whole, _ in parts(signed) if whole[0] != 0xA0]
        self.issuer, self.subject = fields[2], fields[4]

    def __str__(self):
        return f"certificate {self.number} ({self.subject_text or 'without a name'})"


class Run:
    """Runs of the program over files of one folder. `roots` are the certificates of `file`."""

    def __init__(self, tool, folder, file, roots):
        self.tool, self.folder = tool, folder
        self.file, self.roots = file, roots
        self.write("anchors.der", b"".join(roots))

    def write(self, name, octets):
        (self.folder / name).write_bytes(octets)

    def tool_says(self, *words):
        try:
            return subprocess.run([self.tool, *words], cwd=self.folder, capture_output=True)
        except OSError as why:
            stop(DEVICE, f"cannot run {self.tool}: {why.strerror}")

    def read(self, file, encodings):
        """Returns the certificates of a file. Stops at the first that is too large or can't be
        decoded."""
        chain = []
        for number, octets in enumerate(encodings, 1):
            if len(octets) > LIMIT:
                stop(FAULTY, f"{file}: certificate {number} has more than {LIMIT} bytes")
            self.write("certificate.der", octets)
            described = self.tool_says("describe", "certificate", "--json", "certificate.der")
            if described.returncode == FAULTY:
                print(f"{NAME}: {file}: certificate {number} can't be decoded", file=sys.stderr)
            if described.returncode:
                self.end_as(described, {FAULTY: ("certificate", "certificate.der")})
            chain.append(Certificate(number, octets, self.members(described)))
        return chain

    def members(self, described):
        """Returns the members of a document of JSON."""
        try:
            return json.loads(described.stdout)
        except ValueError:
            stop(DEVICE, f"{self.tool} isn't cert_tool: it didn't write JSON")

    def asked(self, chain):
        """Writes the chain up to the first certificate whose issuer has the name of a root, or all
        of it. Returns the questions of that chain, and its number of certificates."""
        for count in range(1, len(chain) + 1):
            stream = b"".join(certificate.octets for certificate in reversed(chain[:count]))
            self.write("chain.der", stream)
            asked = self.tool_says("questions", "chain.der", "--anchors", "anchors.der")
            if asked.returncode:
                faulty = {FAULTY: ("stream", "chain.der"), ARGUMENTS: ("anchors", "anchors.der")}
                self.end_as(asked, faulty)
            # The line of that certificate comes first, if there is one.
            if asked.stdout.startswith(b"0 "):
                break
        return asked.stdout, count

    def tell_root(self, explained):
        """Prints which root can't be decoded, by its number in the file."""
        # `cert_tool` 1.0.0 says `no trust anchor`.
        found = re.search(rb"anchor at octet ([0-9]+): no(t a)? trust anchor", explained)
        if found:
            ends = itertools.accumulate(map(len, self.roots))
            number = 1 + sum(end <= int(found[1]) for end in ends)
            print(f"{NAME}: {self.file}: certificate {number} can't be decoded", file=sys.stderr)

    def end_as(self, said, faulty):
        """Ends with the status of a run that failed, and explains the file that caused it."""
        # The error output names files of a temporary folder, so it isn't printed.
        words = faulty.get(said.returncode)
        told = self.tool_says("explain", *words) if words else said
        self.tell_root(told.stdout)
        pass_on(told)
        if not words and said.returncode != MEMORY:
            status = said.returncode
            how = f"ended with status {status}" if status >= 0 else f"was ended by signal {-status}"
            stop(DEVICE, f"{self.tool} {how}")
        sys.exit(said.returncode)

    def answers(self, questions):
        said = subprocess.run(
            [sys.executable, there(VERIFIERS)], input=questions, stdout=subprocess.PIPE
        )
        if said.returncode:
            sys.exit(DEVICE)
        return said.stdout


def compare_order(file, chain, count):
    """Stops unless each of the first `count` certificates is the issuer of the one before it, and
    each further one the issuer of some certificate before it."""
    for place in range(1, len(chain)):
        here = chain[place]
        issued = chain[place - 1 : place] if place < count else chain[:place]
        if any(here.subject == other.issuer for other in issued):
            continue
        fault = f"isn't the issuer of {chain[place - 1]}"
        issuer = next((other for other in chain[:place] if other.subject == here.issuer), None)
        if issuer:
            fault = f"comes after its issuer, {issuer}"
        order = "the server's certificate must be first, followed by each issuer in turn"
        stop(ARGUMENTS, f"{file}: {here} {fault}; {order}")


def tell_left_out(chain, count):
    """Prints each certificate that is ignored."""
    last = chain[count - 1]
    for certificate in chain[count:]:
        why = f"{last} names the root {last.issuer_text} as its issuer"
        print(f"{NAME}: ignored {certificate}: {why}", file=sys.stderr)


def tell_end(chain, count, printed):
    """Prints which certificate the line `ends PLACE DATE` is about, or which root `ends anchor`."""
    last = chain[count - 1]
    place = next(line.split()[1] for line in printed.splitlines() if line.startswith(b"ends "))
    if place.isdigit():
        ending = chain[count - 1 - int(place)]
        told = f"{ending} is valid until {ending.not_after}"
    else:
        which = f"every root {last.issuer_text} that issued {last}"
        told = f"{which} ends within the days of --warn-days"
    print(f"{NAME}: {told}", file=sys.stderr)


def pass_on(said):
    sys.stdout.buffer.write(said.stdout)
    sys.stdout.flush()
    sys.stderr.buffer.write(said.stderr)


def arguments():
    parser = Parser()
    parser.add_argument("roots", metavar="ROOTS")
    parser.add_argument("chain", metavar="CHAIN")
    parser.add_argument("--host", metavar="NAME")
    parser.add_argument("--strict", action="store_true")
    parser.add_argument("--warn-days", metavar="DAYS")
    parser.add_argument("--at", default="now", metavar="TIME")
    parser.add_argument("--purpose", default="serverAuth")
    parser.add_argument("--tool", default=there(TOOLS), metavar="CERT_TOOL")
    words = parser.parse_args()
    if words.roots == words.chain == "-":
        parser.error("only one of ROOTS and CHAIN can be -")
    return words


def verify(run, words, chain, count):
    """Prints the verdict on the chain, and why it is rejected. Returns the status."""
    files = ["chain.der", "--anchors", "anchors.der", "--answers", "answers"]
    terms = [f"--at={words.at}", f"--purpose={words.purpose}"]
    terms += [f"--host={words.host}"] * (words.host is not None) + ["--strict"] * words.strict
    warns = [f"--warn-days={words.warn_days}"] * (words.warn_days is not None)
    verified = run.tool_says("verify", *files, *terms, *warns)
    if verified.returncode not in (TRUSTED, REFUSED, ARGUMENTS, ENDING):
        run.end_as(verified, {})
    if verified.returncode == REFUSED:
        # The hints of `verify` are followed here.
        verified.stderr = b""
    pass_on(verified)
    if verified.returncode == REFUSED:
        pass_on(run.tool_says("explain", "chain", *files, *terms))
    if verified.returncode == ENDING:
        tell_end(chain, count, verified.stdout)
    return verified.returncode


def main():
    words = arguments()
    tool = pathlib.Path(words.tool).absolute()
    if not tool.is_file():
        stop(DEVICE, f"{tool} not found: install cert_tool, or give its path with --tool")
    roots, encodings = certificates(words.roots), certificates(words.chain)
    with tempfile.TemporaryDirectory() as folder:
        run = Run(tool, pathlib.Path(folder), words.roots, roots)
        chain = run.read(words.chain, encodings)
        questions, count = run.asked(chain)
        compare_order(words.chain, chain, count)
        tell_left_out(chain, count)
        run.write("answers", run.answers(questions))
        sys.exit(verify(run, words, chain, count))


if __name__ == "__main__":
    try:
        main()
    except OSError as why:
        stop(DEVICE, why)
    except Exception:
        traceback.print_exc()
        sys.exit(DEVICE)
