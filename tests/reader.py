"""An independent reader to compare with: which bytes encode a certificate, a CRL, a CSR or a key,
and which lines of an orders file are faulty.

It is written from X.690, RFC 5280 4.1 and 5.1, RFC 2986 4, docs/ENCODING.md and docs/CLI.md, in
plain Python, and shares no code with the crates."""

import datetime


class Refused(Exception):
    """Raised where the bytes encode no such value."""


def need(holds):
    if not holds:
        raise Refused


UNIVERSAL = {*range(0x01, 0x07), 0x09, 0x0A, 0x0C, 0x0D, *range(0x12, 0x19), 0x1A, 0x1B, 0x1E}
UNIVERSAL |= {0x30, 0x31}


def tag_end(octets, at, end):
    """Returns where the tag ends that begins at an offset."""
    first, at = octets[at], at + 1
    need(first >= 0x40 or first in UNIVERSAL)
    if first >= 0x40 and first & 0x1F == 0x1F:
        number, is_last = 0, False
        while not is_last:
            need(at < end and (number or octets[at] != 0x80))
            number, is_last = number * 128 + octets[at] % 128, octets[at] < 0x80
            at += 1
        need(31 <= number < 2**32)
    return at


def header(octets, at, end):
    """Parses a header: the bytes of the tag, and where the content begins and ends."""
    need(at < end)
    start, at = at, tag_end(octets, at, end)
    tag = octets[start:at]
    need(at < end)
    size, at = octets[at], at + 1
    if size >= 0x80:
        count = size - 0x80
        need(1 <= count <= 4 and at + count <= end)
        size = int.from_bytes(octets[at : at + count], "big")
        at += count
        need(size >= max(128, 256 ** (count - 1)))
    need(at + size <= end)
    return tag, at, at + size


class Fields:
    """Reads values one after the other, from an offset to an end."""

    def __init__(self, octets, at=0, end=None):
        self.octets, self.at = octets, at
        self.end = len(octets) if end is None else end

    def inner(self, tag):
        """Returns the fields within the next value, whose tag has one byte."""
        found, at, end = header(self.octets, self.at, self.end)
        need(found == bytes([tag]))
        self.at = end
        return Fields(self.octets, at, end)

    def content(self, tag):
        fields = self.inner(tag)
        return self.octets[fields.at : fields.end]

    def done(self):
        need(self.at == self.end)


# Each reader below takes fields, and reads the value that it is named after.


def anything(fields):
    fields.at = header(fields.octets, fields.at, fields.end)[2]


def value(tag, *known):
    """Returns a reader of a value with this tag and, if any are given, one of these contents."""

    def read(fields):
        content = fields.content(tag)
        need(not known or content in known)

    return read


def sequence(*readers, tag=0x30):
    """Returns a reader of a value with this tag that contains what these readers read."""

    def read(fields):
        inner = fields.inner(tag)
        for each in readers:
            each(inner)
        inner.done()

    return read


def many(read, tag=0x30, rising=False):
    """Returns a reader of a value with this tag that contains any number of such values. The
    encodings of the members of a set ascend."""

    def read_all(fields):
        inner, before = fields.inner(tag), b""
        while inner.at < inner.end:
            start = inner.at
            read(inner)
            member = inner.octets[start : inner.at]
            need(not rising or member > before)
            before = member

    return read_all


def optional(read, *tags):
    """Returns a reader of a value that may be absent. If tags are given, it has one of them."""

    def read_if_there(fields):
        if fields.at < fields.end and (not tags or fields.octets[fields.at] in tags):
            read(fields)

    return read_if_there


def explicit(read, tag):
    """Returns a reader of a value with an explicit tag, which may be absent."""
    return optional(sequence(read, tag=tag), tag)


def identifier(fields):
    octets = fields.content(0x06)
    need(1 <= len(octets) <= 39 and octets[0] < 120 and octets[-1] < 0x80)
    arc, starts = 0, True
    for octet in octets[1:]:
        need(not starts or octet != 0x80)
        arc, starts = arc * 128 + octet % 128, octet < 0x80
        need(arc < 2**128)
        arc = 0 if starts else arc


def integer(*known):
    """Returns a reader of an INTEGER: if numbers are given, it is one of them."""

    def read(fields):
        octets = fields.content(0x02)
        number = int.from_bytes(octets, "big", signed=True)
        size = max(number, ~number).bit_length() // 8 + 1
        need(len(octets) == size and (not known or number in known))

    return read


def bits(fields, tag=0x03):
    octets = fields.content(tag)
    need(octets and octets[0] <= 7)
    need(octets[0] == 0 or len(octets) > 1 and octets[-1] % (1 << octets[0]) == 0)


def unique_identifier(tag):
    return optional(lambda fields: bits(fields, tag), tag)


def time(fields):
    is_long = fields.octets[fields.at : fields.at + 1] == b"\x18"
    text = fields.content(0x18 if is_long else 0x17)
    digits = text[:-1]
    need(len(text) == (15 if is_long else 13) and text[-1:] == b"Z" and digits.isdigit())
    year = int(digits[:-10])
    if not is_long:
        year += 2000 if year < 50 else 1900
    need(year >= 1970)
    rest = (int(digits[at : at + 2]) for at in range(len(digits) - 10, len(digits), 2))
    try:
        datetime.datetime(year, *rest)
    except ValueError:
        raise Refused from None


algorithm = sequence(identifier, optional(anything))
key = sequence(algorithm, bits)
name = many(many(sequence(identifier, anything), 0x31, rising=True))
extensions = many(sequence(identifier, optional(value(0x01, b"\xff"), 0x01), value(0x04)))
revoked = sequence(integer(), time, optional(extensions, 0x30))
attribute = sequence(identifier, many(anything, 0x31, rising=True))

# The readers of the signed parts.
SIGNED = {
    "certificate": sequence(
        explicit(integer(1, 2), 0xA0), integer(), algorithm, name, sequence(time, time), name, key,
        unique_identifier(0x81), unique_identifier(0x82), explicit(extensions, 0xA3),
    ),
    "list": sequence(
        integer(0, 1, 2), algorithm, name, time, optional(time, 0x17, 0x18),
        optional(many(revoked), 0x30), explicit(extensions, 0xA0),
    ),
    "request": sequence(integer(0), name, key, many(attribute, 0xA0, rising=True)),
}


def is_whole(octets, read):
    """Returns whether the bytes are exactly one value that this reader reads."""
    fields = Fields(octets)
    try:
        read(fields)
        fields.done()
    except Refused:
        return False
    return True


def spells(kind, octets):
    """Returns whether the bytes encode a value of a kind: a signed part, an algorithm, bits."""
    return is_whole(octets, sequence(SIGNED[kind], algorithm, bits))


def split(octets, limit):
    """Returns how many certificates of at most `limit` bytes begin the stream, and their size."""
    count = at = 0
    while at < len(octets):
        try:
            tag, _, end = header(octets, at, len(octets))
        except Refused:
            break
        if tag != b"\x30" or end - at > limit or not spells("certificate", octets[at:end]):
            break
        count, at = count + 1, end
    return count, at


# Orders files.

NEEDED = {"name", "from", "until", "serial", "key"}
ALONE = {"client", "ocsp"}
ONCE = NEEDED | ALONE | {"path"}


def is_value(word, value):
    """Returns whether a word that takes a value may have this one."""
    if word == "path":
        return value.isascii() and value.isdigit() and int(value) <= 255
    if word in ("serial", "key"):
        digits = set("0123456789abcdefABCDEF")
        if len(value) % 2 or not set(value) <= digits:
            return False
        return word == "serial" or is_whole(bytes.fromhex(value), key)
    return True


def is_right(word, blank, value, order):
    """Returns whether a line may be added to an order: the word, and its value if it has one."""
    if word not in ONCE | {"dns"} or word in ONCE and word in order:
        return False
    return not blank if word in ALONE else bool(blank) and is_value(word, value)


def orders(file):
    """Returns the orders of a file, each with the values of its words, and the number of the first
    faulty line, or 0. The first line of an order that lacks a word is faulty."""
    found, begun, faulty = [], [], []
    for number, line in enumerate(file.split(b"\n"), 1):
        try:
            word, blank, value = line.decode().partition(" ")
        except UnicodeDecodeError:
            faulty.append(number)
            continue
        if word == "order":
            found.append({"dns": []})
            begun.append(number)
            faulty += [number] * bool(blank)
        elif line and (not found or not is_right(word, blank, value, found[-1])):
            faulty.append(number)
            if found and word in ONCE:
                found[-1].setdefault(word, value)
        elif word == "dns":
            found[-1]["dns"].append(value)
        elif line:
            found[-1][word] = value
    faulty += [number for number, order in zip(begun, found) if not NEEDED <= order.keys()]
    return found, min(faulty, default=0)
