"""Writes encodings in DER (X.690), and parses the headers within encodings."""

import base64
import json
import pathlib
import re

import reader

NULL = b"\x05\x00"
# The types of values by their tags (X.680 8.4): strings of characters, and others.
TEXTS = {
    0x0C: "UTF8String", 0x12: "NumericString", 0x13: "PrintableString", 0x14: "TeletexString",
    0x16: "IA5String", 0x1A: "VisibleString", 0x1B: "GeneralString", 0x1E: "BMPString",
}
TYPES = TEXTS | {
    0x01: "BOOLEAN", 0x02: "INTEGER", 0x03: "BIT STRING", 0x04: "OCTET STRING", 0x05: "NULL",
    0x06: "OBJECT IDENTIFIER", 0x0A: "ENUMERATED", 0x17: "UTCTime", 0x18: "GeneralizedTime",
    0x30: "SEQUENCE", 0x31: "SET",
}


def length(size):
    """Encodes a length in as few bytes as possible (10.1)."""
    if size < 128:
        return bytes([size])
    digits = size.to_bytes((size.bit_length() + 7) // 8, "big")
    return bytes([0x80 + len(digits)]) + digits


def long_length(size):
    """Encodes a length in one byte more than it needs."""
    first, *digits = length(size)
    return bytes([first + 1, 0, *digits] if digits else [0x81, first])


def tlv(tag, *contents):
    content = b"".join(contents)
    return bytes([tag]) + length(len(content)) + content


def sequence(*items):
    return tlv(0x30, *items)


def integer(number, tag=0x02):
    size = max(number, ~number).bit_length() // 8 + 1
    return tlv(tag, number.to_bytes(size, "big", signed=True))


def bits(octets, unused=0):
    return tlv(0x03, bytes([unused]), octets)


def base128(arc):
    """Encodes an arc of an object identifier (8.19.2)."""
    octets = [arc % 128]
    while arc := arc // 128:
        octets.append(128 + arc % 128)
    return bytes(reversed(octets))


def identifier(dotted):
    first, second, *others = map(int, dotted.split("."))
    return tlv(0x06, *map(base128, [40 * first + second, *others]))


# Parts of certificates (RFC 5280 4.1).


def explicit(number, *contents):
    """Encodes a value with an explicit tag."""
    return tlv(0xA0 + number, *contents)


def algorithm(dotted, *parameters):
    return sequence(identifier(dotted), *parameters)


def extension(dotted, content, critical=False):
    mark = tlv(0x01, b"\xff") if critical else b""
    return sequence(identifier(dotted), mark, tlv(0x04, content))


def common_name(text):
    return sequence(identifier("2.5.4.3"), tlv(0x0C, text.encode()))


def date(text):
    """Encodes a UTCTime, or a GeneralizedTime if the year has four digits."""
    return tlv(0x17 if len(text) == 13 else 0x18, text.encode())


def certificate_part(serial, by, issuer, dates, subject, key, extensions):
    """Encodes a TBSCertificate: version 3 if it has extensions, and else version 1."""
    version = explicit(0, integer(2)) if extensions else b""
    others = explicit(3, sequence(*extensions)) if extensions else b""
    return sequence(version, integer(serial), by, issuer, dates, subject, key, others)


# Reading.


def values(octets):
    """Yields the values in these bytes: the tag, the content, and the whole encoding of each."""
    place = 0
    while place < len(octets):
        length, start = octets[place + 1] if place + 1 < len(octets) else 0, place + 2
        if length >= 0x80:
            start += length & 0x7F
            length = int.from_bytes(octets[place + 2 : start], "big")
        end = start + length
        if end > len(octets):
            raise ValueError("octets that end inside a value")
        yield octets[place], octets[start:end], octets[place:end]
        place = end


def moment(tag, contents):
    """Returns a date in the form of a GeneralizedTime (RFC 5280 4.1.2.5.1)."""
    text = contents.decode("ascii")
    return text if tag == 0x18 else ("20" if text < "5" else "19") + text


def dotted(content):
    """Returns the text of an object identifier, by its content."""
    arcs, arc = [], 0
    for octet in content:
        arc = arc << 7 | octet & 0x7F
        if octet < 0x80:
            arcs.append(arc)
            arc = 0
    first = min(arcs[0] // 40, 2)
    return ".".join(map(str, [first, arcs[0] - 40 * first, *arcs[1:]]))


def encodings_of(path):
    """Returns the bytes of a file in DER, or of each block of a file in PEM."""
    found = pathlib.Path(path).read_bytes()
    bodies = re.findall(rb"-----BEGIN [^-]*-----([^-]*)-----END", found)
    return [base64.b64decode(body) for body in bodies] or [found]


def files_in(path):
    """Yields the names and bytes of the files that a text has in its lines: a name, `hex` or
    `text`, and the bytes in base 16 or as a JSON string."""
    for line in path.read_text().splitlines():
        name, kind, content = line.split(" ", 2)
        if kind in ("hex", "text"):
            yield name, bytes.fromhex(content) if kind == "hex" else json.loads(content).encode()


def headers(octets, at=0, end=None, around=()):
    """Yields each header: its offset, the size of its tag, where its content begins and ends, and
    the headers around it."""
    end = len(octets) if end is None else end
    while at < end:
        tag, start, stop = reader.header(octets, at, end)
        yield at, len(tag), start, stop, around
        if tag[0] & 0x20:
            yield from headers(octets, start, stop, (*around, (at, len(tag), start, stop)))
        at = stop


def mended(octets, around, change):
    """Changes the lengths in the headers around a value whose size changed."""
    for at, tag, start, stop in reversed(around):
        new = length(stop - start + change)
        octets = octets[: at + tag] + new + octets[start:]
        change += len(new) - (start - at - tag)
    return octets
