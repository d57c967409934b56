#!/usr/bin/env python3
"""Doubles the size of hostile inputs, and compares processor time and memory.

    hostile.py FOLDER [NAME...]

FOLDER contains the built programs cert_desk_program, cert_tool, test_der_rows and test_cert_rows.
NAME selects inputs (default: all). For each input it prints the size in bytes, the processor times
for half of the input and for all of it (of the fastest of three runs), their quotient, and the peak
of resident memory, including that of the program, per byte of input. The status is 1 if a quotient
is above 2.6, or if a run exits with an unexpected status. CI doesn't run it; it needs
/usr/bin/time.
"""

import argparse
import base64
import os
import pathlib
import subprocess
import sys
import tempfile

TOP = pathlib.Path(__file__).resolve().parents[2]
sys.path[:0] = [str(TOP / "tests"), str(TOP / "tools")]

import needs

needs.check(__file__)

from der import algorithm, bits, certificate_part, common_name, date, extension, identifier
from der import integer, length, sequence, tlv, values

MOMENT, PURPOSE = "1009886460", "1.3.6.1.5.5.7.3.1"
ALGORITHM = algorithm("1.2")
DATES = sequence(date("020101120100Z"), date("301231083000Z"))
KEY = sequence(ALGORITHM, bits(b"\0"))
EMPTY = sequence()


def certificate(issuer=EMPTY, extensions=(), signature=b"\0", by=ALGORITHM, subject=EMPTY):
    part = certificate_part(1, by, issuer, DATES, subject, KEY, extensions)
    return sequence(part, by, bits(signature))


# A run: the program, its arguments, and its files by their names.


def check(stream, anchors=None):
    words = ["check", "anchors", "stream", MOMENT, PURPOSE, "4294967295"]
    return "cert_desk_program", words, {"anchors": anchors or certificate(), "stream": stream}


def show(octets):
    return "cert_desk_program", ["show", "certificate", "file"], {"file": octets}


def tool(*words, **files):
    """Returns a run of `cert_tool`. A word that names a file stands for it."""
    return "cert_tool", list(words), files


def listed(relative_names):
    return show(certificate(sequence(relative_names)))


# The inputs.


def order(name, place):
    dns = "dns a.example\n" if place else ""
    return (
        f"order\nname {name}\nfrom 2002-01-01T12:01:00Z\nuntil 2030-12-31T08:30:00Z\n"
        f"serial {place + 1:04x}\nkey 300B300306012A030400616263\n{dns}"
    ).encode()


def orders(*names):
    file = b"".join(order(name, place) for place, name in enumerate(names))
    return "cert_desk_program", ["issue", "orders"], {"orders": file}


ROOT = "CN=r,O=o,C=US"


def named(count, attribute, mark=","):
    """Returns a name with so many attributes, each with its number."""
    return mark.join(attribute.format(number) for number in range(count))


def headers(count):
    """Returns a certificate whose algorithms have nested headers as parameters."""
    found, size = [], 0
    for _ in range(count):
        found.append(b"\x30" + length(size))
        size += len(found[-1])
    return certificate(by=algorithm("1.2", *reversed(found)))


def members(texts):
    """Returns an RDN with these common names."""
    return tlv(0x31, *sorted(map(common_name, texts)))


def authority(size):
    mark = extension("2.5.29.19", sequence(tlv(0x01, b"\xff")), True)
    return certificate(extensions=[mark], signature=bytes(size - 1))


def hashed(size):
    """Returns a certificate with the algorithm of digests: each question hashes `size` bytes."""
    by = algorithm("1.3.6.1.4.1.32473.2")
    extensions = [extension("1.2.1", bytes(size))]
    return certificate(extensions=extensions, signature=bytes(32), by=by)


def extended(kinds):
    return certificate(extensions=[extension(kind, b"") for kind in kinds])


def nameless(count):
    names = sequence(tlv(0x82) * count)
    return certificate(extensions=[extension("2.5.29.17", names)])


def falling(count):
    numbers = (b"\x02\x02" + it.to_bytes(2, "big") for it in range(32767, 32767 - count, -1))
    question = f"set-from u16 {sequence(*numbers).hex()}\n"
    return "test_der_rows", [], {"stdin": question.encode()}


def octet_by_octet(count):
    stream = certificate(signature=bytes(count - 1))
    ones = ",".join(["1"] * len(stream))
    asked = f"{certificate().hex()} {stream.hex()} {MOMENT} {PURPOSE} 4294967295\n"
    return "test_cert_rows", [], {"stdin": f"pieces -/{ones}/-/- yes check {asked}".encode()}


# The inputs of `cert_tool`.


def pem(octets, width=64):
    text = base64.b64encode(octets)
    lines = (text[at : at + width] for at in range(0, len(text), width))
    return b"\n".join([b"-----BEGIN CERTIFICATE-----", *lines, b"-----END CERTIFICATE-----", b""])


def described(octets, kind="certificate"):
    return tool("describe", kind, "file", file=octets)


def explained(octets, kind="certificate"):
    return tool("explain", kind, "file", file=octets)


def with_extension(dotted, content):
    return certificate(extensions=[extension(dotted, content)])


def dns_names(count):
    return with_extension("2.5.29.17", sequence(tlv(0x82, b"a.example") * count))


def host(octets):
    words = ("verify", "--anchors", "anchors", "--answers", "answers", "--at", MOMENT, "--limit",
             "4294967295", "--host", "b.example", "chain")
    return tool(*words, anchors=certificate(), answers=answered(octets), chain=octets)


def answered(*chain):
    """Returns the answers of a chain whose issuers have the key and the name of `certificate()`."""
    lines = []
    for place, octets in enumerate(chain):
        part, by, signature = (it for *_, it in values(next(values(octets))[1]))
        fields = (KEY, by, part, signature)
        issuer = "-" if place else "0"
        lines.append(" ".join([str(place), issuer, *(it.hex().upper() for it in fields)]))
    return "".join(f"{it}\n" for it in lines).encode()


def below(count, *command):
    """Returns a run over a chain of CAs, of which all but the first two are too many."""
    names = [EMPTY, *(sequence(members([str(it)])) for it in range(count))]
    mark, chain = tlv(0x01, b"\xff"), []
    for place, (issuer, subject) in enumerate(zip(names, names[1:])):
        limits = extension("2.5.29.19", sequence(mark, integer(1 if place == 0 else 255)), True)
        chain.append(certificate(issuer, [limits], subject=subject))
    words = ("--anchors", "anchors", "--answers", "answers", "--at", MOMENT, "--strict", "chain")
    return tool(*command, *words, anchors=certificate(), answers=answered(*chain),
                chain=b"".join(chain))


def entries(count, extensions=()):
    """Returns a CRL with so many entries, each with these extensions."""
    each = [sequence(*extensions)] if extensions else []
    number = (integer(it) for it in range(1, count + 1))
    revoked = (sequence(it, date("020101120100Z"), *each) for it in number)
    part = sequence(integer(1), ALGORITHM, EMPTY, date("020101120100Z"), sequence(*revoked))
    return sequence(part, ALGORITHM, bits(b"\0"))


def request(count):
    """Returns a CSR with so many attributes."""
    attributes = sorted(sequence(identifier(f"1.2.{it}"), tlv(0x31)) for it in range(count))
    part = sequence(integer(0), EMPTY, KEY, tlv(0xA0, *attributes))
    return sequence(part, ALGORITHM, bits(b"\0"))


def policies(count):
    listed = (sequence(identifier(f"1.2.{it}")) for it in range(count))
    return with_extension("2.5.29.32", sequence(*listed))


def purposes(count):
    return with_extension("2.5.29.37", sequence(*(identifier(f"1.2.{it}") for it in range(count))))


def identified(octets):
    return certificate(by=sequence(tlv(0x06, octets)))


REASON = extension("2.5.29.21", tlv(0x0A, b"\x01"))

# The larger count of each input, how it is made of a count, and the statuses that are expected.
INPUTS = {
    "certificates": (70_000, lambda n: check(authority(1300) * n), {0, 1}),
    "least certificates": (500_000, lambda n: check(certificate(signature=b"") * n), {1}),
    "large certificate": (64_000_000, lambda n: check(certificate(signature=bytes(n - 1))), {1}),
    "anchors": (20_000, lambda n: check(certificate(), certificate() * n), {0, 1}),
    "anchors of one name": (400, lambda n: check(hashed(400_000), certificate() * n), {1}),
    "extensions": (100_000, lambda n: check(extended(f"1.2.{it}" for it in range(n))), {0, 1}),
    "extensions listed": (100_000, lambda n: show(extended(["1.2.1"] * n)), {0}),
    "relative names": (100_000, lambda n: listed(members(["a"]) * n), {0}),
    "empty relative names": (1_000_000, lambda n: listed(tlv(0x31) * n), {0}),
    "members of a relative name": (100_000, lambda n: listed(members(map(str, range(n)))), {0}),
    "alternative names": (1_000_000, lambda n: check(nameless(n)), {0, 1}),
    "headers": (1_000_000, lambda n: check(headers(n)), {0, 1}),
    "text of a root's types": (40_000, lambda n: orders(named(n, "1.2.{}=x")), {1}),
    "text of members": (40_000, lambda n: orders(named(n, "CN={}", "+")), {1}),
    "text of relative names": (50_000, lambda n: orders(named(n, "L=x")), {1}),
    "localities of an authority": (130_000, lambda n: orders(ROOT, named(n, "L="), "CN=s"), {0}),
    "countries of a subscriber": (130_000, lambda n: orders(ROOT, named(n, "C=")), {0}),
    "orders": (10_000, lambda n: orders(ROOT, *["CN=s"] * (n - 1)), {0, 1}),
    "falling members": (10_000, falling, {0}),
    "byte by byte": (1_000_000, octet_by_octet, {0}),
    "PEM": (20_000, lambda n: described(pem(authority(1300)) * n, "stream"), {0}),
    "PEM, split": (20_000, lambda n: tool("split", "f", f=pem(authority(100)) * n), {0}),
    "PEM, reversed": (20_000, lambda n: tool("reverse", "f", f=pem(authority(100)) * n), {0}),
    "PEM, explained": (20_000, lambda n: explained(pem(authority(100)) * n, "stream"), {0}),
    "PEM, one line": (4_000_000, lambda n: explained(pem(bytes(n), 10**9)), {0}),
    "PEM, a character a line": (1_000_000, lambda n: explained(pem(bytes(n * 3 // 4), 1)), {0}),
    "PEM, empty blocks": (70_000, lambda n: explained(pem(b"") * n, "stream"), {0}),
    "PEM, text": (4_000_000, lambda n: explained(b"a\n" * (n // 2) + pem(certificate())), {0}),
    "PEM, a line of text": (4_000_000, lambda n: explained(b"a" * n + b"\n" + pem(certificate())),
                            {0}),
    "PEM, blanks": (4_000_000, lambda n: explained(b" " * n + pem(certificate())), {0}),
    "PEM, blanks and dashes": (4_000_000, lambda n: explained(b" -" * (n // 2) + b"\n"), {0}),
    "PEM, empty lines": (4_000_000, lambda n: explained(b"\n" * n + pem(certificate())), {0}),
    "PEM, carriage returns": (4_000_000, lambda n: explained(b"\r" * n), {0}),
    "PEM, one label": (4_000_000, lambda n: explained(b"-----BEGIN " + b"A" * n + b"-----\n"), {2}),
    "PEM, not a boundary": (300_000, lambda n: explained(b"-----BEGIN A\n" * n), {0}),
    "extensions described": (100_000, lambda n: described(extended(
        f"1.2.{it}" for it in range(n))), {0}),
    "extensions explained": (100_000, lambda n: explained(extended(
        f"1.2.{it}" for it in range(n))), {0}),
    "equal extensions explained": (100_000, lambda n: explained(extended(["1.2.1"] * n)), {0}),
    "alternative names described": (300_000, lambda n: described(dns_names(n)), {0}),
    "alternative names explained": (300_000, lambda n: explained(dns_names(n)), {0}),
    "alternative names as hosts": (300_000, lambda n: host(dns_names(n)), {1}),
    "relative names described": (100_000, lambda n: described(certificate(sequence(
        members(["a"]) * n))), {0}),
    "relative names explained": (100_000, lambda n: explained(certificate(sequence(
        members(["a"]) * n))), {0}),
    "members described": (100_000, lambda n: described(certificate(sequence(
        members(map(str, range(n)))))), {0}),
    "members explained": (100_000, lambda n: explained(certificate(sequence(
        members(map(str, range(n)))))), {0}),
    "text escaped": (1_000_000, lambda n: described(certificate(sequence(
        members(["\n" * n])))), {0}),
    "entries described": (100_000, lambda n: described(entries(n), "list"), {0}),
    "entries explained": (100_000, lambda n: explained(entries(n), "list"), {0}),
    "entries with extensions": (50_000, lambda n: described(entries(n, [REASON]), "list"), {0}),
    "entries with remarks": (50_000, lambda n: explained(entries(n, [REASON] * 2), "list"), {0}),
    "attributes described": (100_000, lambda n: described(request(n), "request"), {0}),
    "attributes explained": (100_000, lambda n: explained(request(n), "request"), {0}),
    "policies described": (100_000, lambda n: described(policies(n)), {0}),
    "policies explained": (100_000, lambda n: explained(policies(n)), {0}),
    "purposes described": (100_000, lambda n: described(purposes(n)), {0}),
    "purposes explained": (100_000, lambda n: explained(purposes(n)), {0}),
    "one identifier": (4_000_000, lambda n: explained(identified(b"\x81" * (n - 1) + b"\1")), {0}),
    "identifier of many arcs": (4_000_000, lambda n: explained(identified(b"\1" * n)), {0}),
    "identifier, described": (2_000_000, lambda n: described(with_extension(
        "1.2.3", tlv(0x06, b"\x81" * (n - 1) + b"\1"))), {0}),
    "identifier of arcs, described": (2_000_000, lambda n: described(with_extension(
        "1.2.3", tlv(0x06, b"\1" * n))), {0}),
    "large signature": (4_000_000, lambda n: described(certificate(signature=bytes(n))), {0}),
    "headers described": (500_000, lambda n: described(headers(n)), {0}),
    "headers explained": (500_000, lambda n: explained(headers(n)), {0}),
    "anchors explained": (50_000, lambda n: tool(
        "explain", "anchors", "f", f=certificate() * n), {0}),
    "long chain": (10_000, lambda n: below(n, "verify"), {1}),
    "long chain explained": (10_000, lambda n: below(n, "explain", "chain"), {0}),
    "questions": (50_000, lambda n: tool("questions", "--anchors", "a", "f", a=certificate(),
                                         f=certificate() * n), {0}),
}


def run(programs, made):
    """Returns the processor time, the memory and the status of a run. /usr/bin/time measures the
    memory, since a child of this process would start with the memory of this process."""
    program, words, files = made
    with tempfile.TemporaryDirectory() as folder:
        for file, octets in files.items():
            pathlib.Path(folder, file).write_bytes(octets)
        peak, given = pathlib.Path(folder, "peak"), pathlib.Path(folder, "stdin")
        command = ["/usr/bin/time", "-f", "%M", "-o", peak, programs / program, *words]
        quiet = {"stdout": subprocess.DEVNULL, "stderr": subprocess.DEVNULL, "cwd": folder}
        with open(given if given.exists() else os.devnull) as stdin:
            child = subprocess.Popen(command, stdin=stdin, **quiet)
            _, status, usage = os.wait4(child.pid, 0)
        resident = int(peak.read_text().split()[-1]) * 1024
    return usage.ru_utime + usage.ru_stime, resident, os.waitstatus_to_exitcode(status)


def is_borne(programs, name):
    """Measures an input. Returns whether its time grows, and its runs end, as they should."""
    count, make, ends = INPUTS[name]
    times, is_right = [], True
    for number in count // 2, count:
        made = make(number)
        spent, resident, statuses = zip(*(run(programs, made) for _ in range(3)))
        times.append(min(spent))
        if not set(statuses) <= ends:
            is_right = False
            print(f"{name}: {number}: unexpected exit status {set(statuses)}")
    size = sum(map(len, made[2].values()))
    grown = times[1] / max(times[0], 0.005)
    mark = " TOO MUCH" if grown > 2.6 else ""
    print(
        f"{name}: {count}, {size} octets: {times[0]:.3f} s, {times[1]:.3f} s, {grown:.2f}; "
        f"{min(resident) / size:.1f}{mark}",
        flush=True,
    )
    return is_right and not mark


def main():
    parser = argparse.ArgumentParser(description=__doc__.splitlines()[0])
    parser.add_argument("folder", metavar="FOLDER", type=pathlib.Path)
    parser.add_argument("names", metavar="NAME", nargs="*", default=list(INPUTS))
    given = parser.parse_args()
    return not all([is_borne(given.folder.resolve(), name) for name in given.names])


if __name__ == "__main__":
    sys.exit(main())
