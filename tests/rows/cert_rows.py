#!/usr/bin/env python3
"""Answers test vectors of test_cert_rows independently, and compares the answers.

    cert_rows.py            compares with crates/test_cert_rows; the status is 1 if any differs
    cert_rows.py --write    writes the answers there, and the vectors that follow from others

It answers the questions about orders and digests (`issue`), building certificates as RFC 5280,
X.690 and docs/tables/ORDERS.md say, and about the prefixes of a stream (`fronts`), by the headers
alone. Each stream that a vector above HOSTILE USE validates also has a vector that cuts it at each
byte (`cuts`) and one with each of its prefixes; this script makes both from the verdict above. It
never runs the program. The other vectors were worked out by hand.
"""

import argparse
import hashlib
import pathlib
import re
import sys

TOP = pathlib.Path(__file__).resolve().parents[2]
sys.path.insert(0, str(TOP / "tests"))

import der
import reader
from der import bits, extension, identifier, sequence, tlv

FOLDER = TOP / "crates" / "test_cert_rows"
MADE = "# Cuts and prefixes of every stream above"

# Issuing (RFC 5280 4.1), as docs/CLI.md specifies it.

# The names of attribute types, and the tags of their texts.
TYPES = {
    "C": ("2.5.4.6", 0x13), "O": ("2.5.4.10", 0x0C), "OU": ("2.5.4.11", 0x0C),
    "CN": ("2.5.4.3", 0x0C), "L": ("2.5.4.7", 0x0C), "ST": ("2.5.4.8", 0x0C),
    "DC": ("0.9.2342.19200300.100.1.25", 0x16),
}
# The attributes that a root's name may have, in this order. C, O and CN are required.
OF_ROOTS = ["C", "ST", "L", "POSTALCODE", "STREET", "O", "CN"]
ALGORITHM = der.algorithm("1.3.6.1.4.1.32473.2")
TRUE = tlv(0x01, b"\xff")


def attributes(text):
    """Parses a name without escapes, the last RDN first (RFC 4514). Returns the types and encodings
    of the attributes of each RDN, or None if it isn't a name."""
    relatives = []
    for piece in reversed(text.split(",") if text else []):
        relatives.append([])
        for each in piece.split("+"):
            word, found, value = each.partition("=")
            oid, tag = TYPES.get(word, (word, None))
            if not found or not re.fullmatch(r"[\d.]+", oid):
                return None
            if max(map(int, oid.split("."))) >= 2**128:
                return None
            encoded = tlv(tag, value.encode()) if tag else bytes.fromhex(value[1:])
            relatives[-1].append((word, sequence(identifier(oid), encoded)))
    return relatives


def name(text):
    relatives = (sorted(encoded for _, encoded in each) for each in attributes(text))
    return sequence(*(tlv(0x31, *each) for each in relatives))


def is_of_a_role(relatives, role):
    """Returns whether a root, or a subscriber, may have this name."""
    words = [each[0][0] for each in relatives]
    if role == "subordinate":
        return True
    if any(len(each) > 1 for each in relatives):
        return False
    if role == "subscriber":
        return set(words) <= {"C", "CN"}
    return {"C", "O", "CN"} <= set(words) and words == [it for it in OF_ROOTS if it in words]


def date(text):
    digits = re.sub("[-:T]", "", text)
    return der.date(digits[2:] if text < "2050" else digits)


def is_date(text):
    has_form = re.fullmatch(r"\d{4}-\d\d-\d\dT\d\d:\d\d:\d\dZ", text)
    return has_form and reader.is_whole(date(text), reader.time)


def refusal(order, role):
    """Returns the first reason to reject an order (docs/tables/ORDERS.md), or None."""
    relatives = attributes(order["name"])
    if relatives is None:
        return "Name"
    if not is_of_a_role(relatives, role):
        return f"{role.capitalize()}Name"
    if not order["serial"] or len(der.integer(int(order["serial"], 16))) > 2 + 20:
        return "Serial"
    if not is_date(order["from"]) or not is_date(order["until"]) or order["until"] < order["from"]:
        return "Dates"
    if role == "subscriber" and not (order["dns"] and all(map(str.isascii, order["dns"]))):
        return "DnsName"
    return None


def key_octets(key):
    """Returns the content of a key's BIT STRING."""
    [(_, key, _)] = der.values(bytes.fromhex(key))
    return list(der.values(key))[1][1][1:]


def key_id(order):
    return hashlib.sha1(key_octets(order["key"])).digest()


def extensions(order, role, issuer):
    """Returns the extensions of the certificate that an order asks for."""
    subject_id = extension("2.5.29.14", tlv(0x04, key_id(order)))
    authority = extension("2.5.29.35", sequence(tlv(0x80, key_id(issuer))))
    uses = ["1.3.6.1.5.5.7.3.1"] + ["1.3.6.1.5.5.7.3.2"] * ("client" in order)
    purposes = extension("2.5.29.37", sequence(*map(identifier, uses)))
    length = der.integer(int(order["path"])) if "path" in order and role != "root" else b""
    constraints = extension("2.5.29.19", sequence(TRUE, length), True)
    signing = extension("2.5.29.15", bits(b"\x86" if "ocsp" in order else b"\x06", 1), True)
    if role == "root":
        return [authority, constraints, signing, subject_id]
    if role == "subordinate":
        return [authority, constraints, signing, subject_id, purposes]
    names = sequence(*(tlv(0x82, dns.encode()) for dns in order["dns"]))
    return [
        extension("2.5.29.17", names, not order["name"]),
        authority,
        purposes,
        extension("2.5.29.19", sequence(), True),
        extension("2.5.29.15", bits(b"\x80", 7), True),
    ]


def certificate(order, role, issuer):
    """Builds a certificate. Its signature is the digest of the issuer's key and the signed part."""
    names = name(issuer["name"]), name(order["name"])
    dates = sequence(date(order["from"]), date(order["until"]))
    key, serial = bytes.fromhex(order["key"]), int(order["serial"], 16)
    fields = [serial, ALGORITHM, names[0], dates, names[1], key]
    signed = der.certificate_part(*fields, extensions(order, role, issuer))
    digest = hashlib.sha256(key_octets(issuer["key"]) + signed).digest()
    return sequence(signed, ALGORITHM, bits(digest))


def issued(words):
    """Returns the answer to a run on an orders file."""
    is_hex = words.startswith("0x")
    file = bytes.fromhex(words[2:]) if is_hex else words.replace("|", "\n").encode()
    orders, faulty = reader.orders(file)
    if faulty:
        return f'4 "" "orders: line {faulty}\\n"'
    if not orders:
        return '1 "" "orders NoOrders\\n"'
    roles = ["root"] + ["subordinate"] * (len(orders) - 2) + ["subscriber"] * (len(orders) > 1)
    for place, (order, role) in enumerate(zip(orders, roles)):
        if reason := refusal(order, role):
            return f'1 "" "order {place} {reason}\\n"'
    issuers = [orders[0], *orders]
    return f'0 "{b"".join(map(certificate, orders, roles, issuers)).hex()}" ""'


# The ends of the prefixes of a stream.


def scanned(rest, limit):
    """Scans a header. Returns the fault that it shows, or the size of the certificate, or None if
    it isn't complete."""
    if rest[0] != 0x30:
        return "NoCertificate"
    if len(rest) < 2:
        return None
    count = rest[1] - 0x80
    if count == 0:
        return "Indefinite"
    if count > 4:
        return "LengthTooWide"
    header, size = 2, rest[1]
    if count > 0:
        if len(rest) < 2 + count:
            return None
        header, size = 2 + count, int.from_bytes(rest[2 : 2 + count], "big")
        if size < max(128, 256 ** (count - 1)):
            return "LengthNotShortest"
    return "TooLarge" if header + size > limit else header + size


def end_of(prefix, limit, malformed):
    """Returns how a prefix ends, if what looks like a certificate at `malformed` is none."""
    start = place = 0
    while start < len(prefix):
        found = scanned(prefix[start:], limit)
        if found is None or isinstance(found, int) and len(prefix) < start + found:
            found = "Truncated"
        elif isinstance(found, int) and start == malformed:
            found = "Malformed"
        if isinstance(found, str):
            return f"Err(Fault {{ place: {place}, offset: {start}, kind: {found} }})"
        start, place = start + found, place + 1
    return "Ok(())"


def fronts(limit, stream):
    """Returns how each prefix ends, by ranges of its size."""
    read = reader.split(stream, limit)[1]
    malformed = read if is_certificate(stream[read:], limit) else None
    ends = [end_of(stream[:size], limit, malformed) for size in range(len(stream) + 1)]
    starts = [size for size in range(len(ends)) if size == 0 or ends[size] != ends[size - 1]]
    stops = starts[1:] + [len(ends)]
    return "; ".join(f"{start}-{stop - 1} {ends[start]}" for start, stop in zip(starts, stops))


def is_certificate(rest, limit):
    """Returns whether the header that the bytes begin with is that of a whole certificate."""
    size = scanned(rest, limit) if rest else None
    return isinstance(size, int) and size <= len(rest)


# The vectors `cuts` and `fronts` of the streams of other vectors.

LEAST = "30423037020101300306012a3000" + (
    "301e170d3032303130313132303130305a170d3330313233313038333030305a"
    "30003009300306012a03020000300306012a03020000"
)
TERMS = [LEAST, "1009886460", "1.3.6.1.5.5.7.3.1"]


def verdict_of(answer):
    """Returns the verdict of an answer, and how often the signature verifier was called."""
    line = answer.split('"')[1].removesuffix("\\n")
    told = re.fullmatch(r"(trusted|refused \d+ \w+) calls=(\d+)", line)
    if told:
        return told[1].replace("trusted", "Trusted"), int(told[2])
    told = re.fullmatch(r"fault (\d+) (\d+) (\w+)", line)
    if told:
        return f"StreamFault {{ place: {told[1]}, offset: {told[2]}, kind: {told[3]} }}", 0
    return ("Empty", 0) if line == "empty" else None


def streams(rows):
    """Finds each stream once: whether a vector validates it by the terms of `cuts`, the words and
    the verdict of that vector, or of any other, and whether the chain was chosen at random."""
    found, by_lot = {}, False
    for question, answer in rows:
        if question.startswith("#"):
            by_lot = question.startswith("# A hundred chains")
            continue
        words = question.split(" ")
        words = words[2:] if words[0] == "pieces" else words
        if len(words) != 7 or words[1] != "check" or not re.fullmatch("([0-9a-f]{2})+", words[3]):
            continue
        if not words[6].isdigit() or not 6 <= int(words[6]) < 2**32 or verdict_of(answer) is None:
            continue
        alike = words[2:3] + words[4:6] == TERMS
        if words[3] not in found or alike and not found[words[3]][0]:
            found[words[3]] = alike, words, verdict_of(answer), by_lot
    return found.values()


def elsewhere(stream, verdict, calls):
    """Returns the verdict on a stream under the anchor with the empty name, for servers, with a
    verifier that accepts every signature, given the verdict under other terms."""
    if verdict == "Trusted" and not serves_servers(stream):
        return "refused 0 AgainstPurpose", 0
    if issuer_of(stream) != b"" and verdict in ("Trusted", "refused 0 WrongIssuer"):
        return "refused 0 WrongIssuer", 0
    if verdict == "refused 0 WrongSignature":
        return "Trusted", 1
    return verdict, calls


def serves_servers(stream):
    """Returns whether a stream allows servers: it lists no purposes, or that of servers, or any."""
    purposes = map(identifier, ("1.3.6.1.5.5.7.3.1", "2.5.29.37.0"))
    return identifier("2.5.29.37") not in stream or any(it in stream for it in purposes)


def issuer_of(stream):
    """Returns the content of the issuer in the first certificate."""
    _, signed, _ = next(der.values(next(der.values(stream))[1]))
    return [content for tag, content, _ in der.values(signed) if tag != 0xA0][2]


def made_of(rows):
    """Yields the vectors `cuts` and `fronts` that follow from others. Each cut stream needs as many
    calls of the verifier as the whole one."""
    for alike, words, (verdict, calls), by_lot in streams(rows):
        limit, text = words[6], words[3]
        stream = bytes.fromhex(text)
        fault = re.match(r"StreamFault { place: (\d+)", verdict)
        count = int(fault[1]) if fault else reader.split(stream, int(limit))[0]
        judge = words[0] if alike else "yes"
        if not alike and not fault:
            verdict, calls = elsewhere(stream, verdict, calls)
        asked = "" if judge == "digest" else f" asked={calls * (len(stream) + 1)}"
        told = f"{count}: {verdict} calls={calls} cuts={len(stream)}{asked}"
        yield f"cuts {limit} {judge} {text}", told
        if not by_lot:
            yield f"fronts {limit} {text}", fronts(int(limit), stream)


# The vectors.


def answer(question):
    """Returns the answer to a question, or None if this script doesn't answer such questions."""
    match question.split(" "):
        case ["issue", "run", *file] | ["issue", "call", "-/-", *file]:
            return issued(" ".join(file))
        case ["issue", "again", "digest", *file]:
            return issued(" ".join(file)).split('"')[1]
        case ["issue", "digest", key, part]:
            octets = b"" if part == "-" else bytes.fromhex(part)
            return hashlib.sha256(key_octets(key) + octets).hexdigest()
        case ["fronts", limit, stream]:
            return fronts(int(limit), bytes.fromhex(stream))


def rows_wanted(rows):
    """Returns all vectors, with the answers of this script and those that follow from others."""
    begins = next(at for at, (line, _) in enumerate(rows) if line.startswith(MADE))
    hostile = next(at for at, (line, _) in enumerate(rows) if line == "# HOSTILE USE")
    begins = next(at for at in range(begins, len(rows)) if rows[at][0][:1] != "#")
    ends = next(at for at in range(begins, len(rows)) if rows[at][0] == "")
    wanted = [(question, answer(question) or told) for question, told in rows]
    return wanted[:begins] + list(made_of(rows[:hostile])) + wanted[ends:]


def main():
    parser = argparse.ArgumentParser(description=__doc__.splitlines()[0])
    parser.add_argument("--write", action="store_true", help="write the answers that differ")
    is_written = parser.parse_args().write
    paths = [FOLDER / "stdin", FOLDER / "stdout"]
    rows = list(zip(*(path.read_text().split("\n") for path in paths), strict=True))
    wanted = rows_wanted(rows)
    if is_written:
        for path, lines in zip(paths, zip(*wanted)):
            path.write_text("\n".join(lines))
        return 0
    differ = set(wanted) ^ set(rows)
    for question, told in differ:
        print(f"{question[:100]}: {told[:100]}")
    by_model = sum(answer(question) is not None for question, _ in wanted)
    print(f"{by_model} vectors answered, {len(differ)} differences")
    return wanted != rows


if __name__ == "__main__":
    sys.exit(main())
