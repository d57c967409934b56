"""Mutations of DER encodings, of their bytes and of the values that they contain."""

import copy

# Bytes that are common tags, lengths and numbers.
USUAL = bytes.fromhex("000102030405060a0c13171830317f8081a0a1ff")


class Node:
    """A value of an encoding: its identifier octets, its content, and the values inside, if any."""

    def __init__(self, tag, content, children):
        self.tag, self.content, self.children = tag, content, children
        # How the length is encoded: "short" for as short as DER demands, "long", or "indefinite".
        self.form = "short"

    def encoded(self):
        inner = self.content
        if self.children is not None:
            inner = b"".join(child.encoded() for child in self.children)
        if self.form == "indefinite":
            return self.tag + b"\x80" + inner + b"\0\0"
        return self.tag + length(len(inner), self.form == "long") + inner


def length(count, is_long):
    if count < 128 and not is_long:
        return bytes([count])
    octets = count.to_bytes((count.bit_length() + 7) // 8 or 1, "big")
    if is_long:
        octets = b"\0" + octets if count >= 128 else octets
    return bytes([128 | len(octets)]) + octets


def parsed(octets):
    """The values that some octets are, or None."""
    found, at = [], 0
    while at < len(octets):
        start, at = at, at + 1
        if octets[start] & 31 == 31:
            while at < len(octets) and octets[at] & 128:
                at += 1
            at += 1
        tag = octets[start:at]
        if at >= len(octets):
            return None
        count, at = octets[at], at + 1
        if count >= 128:
            size = count & 127
            if not 0 < size < 4 or at + size > len(octets):
                return None
            count, at = int.from_bytes(octets[at : at + size], "big"), at + size
        content = octets[at : at + count]
        if len(content) < count:
            return None
        at += count
        found.append(node(tag, content))
    return found


def node(tag, content):
    """A value, with those inside a constructed one or an OCTET STRING that contains a SEQUENCE."""
    inside = None
    if tag[0] & 32:
        inside = parsed(content)
    elif tag == b"\x04" and len(content) > 8 and content[0] == 0x30:
        inside = parsed(content)
    return Node(tag, content, inside)


def walk(nodes):
    """Each value, with the list that it is in."""
    for at, found in enumerate(nodes):
        yield nodes, at, found
        if found.children:
            yield from walk(found.children)


def of_bytes(octets, random):
    """Changes one byte, or removes or adds some."""
    found = bytearray(octets)
    at = random.randrange(len(found))
    way = random.randrange(6)
    if way == 0:
        found[at] ^= 1 << random.randrange(8)
    elif way == 1:
        found[at] = random.randrange(256)
    elif way == 2:
        found[at] = random.choice(USUAL)
    elif way == 3:
        del found[at:]
    elif way == 4:
        found.append(random.randrange(256))
    else:
        del found[at]
    return bytes(found)


def of_tree(octets, random):
    """Removes, repeats, moves or changes a value, or encodes it in another way."""
    top = copy.deepcopy(parsed(octets))
    places = list(walk(top))
    nodes, at, found = random.choice(places)
    way = random.randrange(9)
    if way == 0 and len(nodes) > 1:
        del nodes[at]
    elif way == 1:
        nodes.insert(at, copy.deepcopy(found))
    elif way == 2 and at + 1 < len(nodes):
        nodes[at], nodes[at + 1] = nodes[at + 1], nodes[at]
    elif way == 3:
        found.tag = bytes([found.tag[0] ^ 1 << random.randrange(8), *found.tag[1:]])
    elif way == 4:
        found.form = "long"
    elif way == 5 and found.children is not None and found.tag[0] & 32:
        found.form = "indefinite"
    elif way == 6:
        found.content, found.children = b"", None
    elif way == 7 and found.children is None and found.content:
        first = bytes([random.choice(b"\0\1\x7f\x80\xff")])
        found.content = first + found.content[random.randrange(2) :]
    else:
        other = copy.deepcopy(random.choice(places)[2])
        nodes[at] = other
    return b"".join(it.encoded() for it in top)


def mutated(octets, random):
    """A mutation of an encoding that differs from it."""
    while True:
        way = of_bytes if random.randrange(3) == 0 else of_tree
        found = way(octets, random)
        if found and found != octets:
            return found
