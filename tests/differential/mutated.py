#!/usr/bin/env python3
"""Changes encodings, and compares the answers of a program of test vectors with reader.py.

    mutated.py PROGRAM [--runs N] [--seed N]          values with changes
    mutated.py PROGRAM --spellings [CERTIFICATE...]   other encodings of each header

PROGRAM is the built test_cert_rows. The status is 0 if no answer differs. CI doesn't run it.

It changes values of the test vectors, of examples/ and of ca-certificates in one to three places,
and mostly corrects the lengths around a change. The program has to report whether the result is a
value of its type; for a chain, the number of certificates at its beginning, and where its error is;
for an orders file, the line with the error. 1,000 questions get 20 seconds of processor and 64 MiB.

`--spellings` encodes the length of each header of the certificates (those of ca-certificates by
default) in one byte more than it needs, makes it one smaller and one larger, without and with the
lengths around it corrected; and it changes each bit of the first byte of the content. It counts
what the program accepts and the OpenSSL of Python's `ssl` rejects.
"""

import argparse
import collections
import pathlib
import random
import re
import resource
import ssl
import subprocess
import sys

TOP = pathlib.Path(__file__).resolve().parents[2]
sys.path.insert(0, str(TOP / "tests"))

import reader
from der import encodings_of, headers, length, long_length, mended
from tool import ROOTS

BATCH = 1000
ANCHOR = (
    "30423037020101300306012a3000301e170d3032303130313132303130305a170d3330313233313038333030305a"
    "30003009300306012a03020000300306012a03020000"
)
TERMS = "1009886460 1.3.6.1.5.5.7.3.1"


def bases():
    """Returns the values to change, by their kind."""
    table = (TOP / "crates/test_cert_rows/stdin").read_text()
    known = {bytes.fromhex(word) for word in re.findall(r"\b(?:[0-9a-f]{2}){20,}\b", table, re.I)}
    paths = [*(TOP / "examples").glob("*.der"), *ROOTS.glob("*.crt")]
    known |= {octets for path in paths for octets in encodings_of(path)}
    known = sorted(octets for octets in known if len(octets) <= 1000)
    found = {kind: [it for it in known if reader.spells(kind, it)] for kind in reader.SIGNED}
    orders = re.findall(r"^issue run ((?!.*0x).*)", table, re.M)
    orders = {text.replace("|", "\n").encode() for text in orders}
    return found | {"orders": sorted(orders | {(TOP / "examples/orders.txt").read_bytes()})}


def flipped(draw, octets, place=0):
    """Changes a bit of the byte at a place, if there is one."""
    changed = bytes(octet ^ 1 << draw.randrange(8) for octet in octets[place : place + 1])
    return octets[:place] + changed + octets[place + 1 :]


def changed(draw, octets, places, other):
    """Makes a change at one place of the structure. `other` is another value."""
    at, tag, start, stop, around = draw.choice(places)
    head, content, whole = octets[at : at + tag], octets[start:stop], octets[at:stop]

    def sized(inner):
        return head + length(len(inner)) + inner

    place = draw.choice((0, draw.randrange(len(content) or 1)))
    more = bytes(draw.choices((0, 0, 1, 5, 48, 128, 255), k=draw.randrange(1, 4)))
    front = bytes.fromhex(draw.choice(("", "00", "010100", "0500", "020100", "3000", "3100")))
    new = draw.choice([
        head + long_length(len(content)) + content,
        head + length(max(0, len(content) + draw.choice((-1, 1)))) + content,
        head + b"\x80" + content + b"\x00\x00",
        flipped(draw, whole),
        octets[at:start] + flipped(draw, content, place),
        octets[at:start] + bytes(len(content)),
        b"",
        whole + whole,
        other,
        sized(content + more),
        sized(draw.choice((content[1:], content[:-1]))),
        sized(draw.choice((front, front + content))),
    ])
    found = octets[:at] + new + octets[stop:]
    return found if draw.random() < 0.1 else mended(found, around, len(new) - len(whole))


def places_of(octets):
    try:
        return list(headers(octets))
    except reader.Refused:
        return []


def mutated(draw, octets, kind, values):
    """Makes one to three changes to a value, and perhaps truncates it or adds bytes."""
    for _ in range(draw.choice((1, 1, 1, 2, 3))):
        if places := places_of(octets):
            other = draw.choice(values[kind])
            at, _, _, stop, _ = draw.choice(places_of(other) or [(0, 1, 2, len(other), ())])
            octets = changed(draw, octets, places, other[at:stop])
    chance = draw.random()
    if chance < 0.05:
        return octets[: draw.randrange(len(octets) + 1)]
    return octets + draw.randbytes(draw.randrange(1, 4)) if chance < 0.1 else octets


def orders(draw, file):
    """Makes one to three changes to the lines or bytes of an orders file."""
    words = "order", "name CN=a", "path 256", "path 007", "client", "ocsp ", "serial 0g", "dns"
    for _ in range(draw.choice((1, 1, 2, 3))):
        lines = file.split(b"\n")
        at, other = draw.randrange(len(lines)), draw.randrange(len(lines))
        place = draw.randrange(len(lines[at]) + 1)
        before, line, behind = lines[:at], lines[at], lines[at + 1 :]
        octet = bytes([draw.choice(b"\x00 \r\xff|0aZ")])
        lines = draw.choice([
            before + behind,
            lines[:other] + [line] + lines[other:],
            before + [lines[other]] + behind,
            before + [draw.choice(words).encode()] + lines[at:],
            before + [line[:place] + octet + line[place + 1 :]] + behind,
            before + [line[:place]] + behind,
        ])
        file = b"\n".join(lines)
    return file


def question(draw, values):
    """Returns a question, its kind, the pattern of the answer, and whether that is acceptance."""
    kind = draw.choice(("certificate",) * 4 + ("list", "request", "stream", "chain", "orders"))
    if kind == "orders":
        file = orders(draw, draw.choice(values["orders"]))
        found, faulty = reader.orders(file)
        told = rf".*line {faulty}\D*" if faulty else rf"ok {len(found)}(;.*)?"
        return f"issue read 0x{file.hex()}", kind, told, not faulty
    if kind in ("stream", "chain"):
        stream = b"".join(
            mutated(draw, it, "certificate", values) if draw.random() < 0.3 else it
            for it in draw.choices(values["certificate"], k=draw.randrange(1, 4))
        )
        limit = draw.choice((6, 68, 100, 500, 4096))
        count, end = reader.split(stream, limit)
        is_whole = end == len(stream)
        if kind == "stream":
            told = f"{count} {end}, {count} {end}"
            return f"split {limit} {stream.hex()}", kind, told, is_whole
        told = rf'2 "fault {count} {end} \w+\\n" "" asked=0'
        if is_whole:
            told = r'[013] "(trusted|refused \d+ \w+) calls=(\d+)\\n" "" asked=\2|3 "empty.*'
        return f"yes check {ANCHOR} {stream.hex()} {TERMS} {limit}", kind, told, is_whole
    octets = mutated(draw, draw.choice(values[kind]), kind, values)
    word, takes = octets.hex() or "-", reader.spells(kind, octets)
    if kind == "certificate":
        return f"certificate {word}", kind, "ok .*" if takes else "refused .*", takes
    told = "0 .*|5 .*device.*" if takes else r'2 "" "malformed\\n"'
    return f"listing show {kind} {word}", kind, told, takes


def limited():
    resource.setrlimit(resource.RLIMIT_AS, (2**26, 2**26))
    resource.setrlimit(resource.RLIMIT_CPU, (20, 20))


def answers(program, questions):
    """Returns the answers of the program, a line for each question."""
    text = "".join(f"{it}\n" for it in questions)
    done = subprocess.run([program], input=text, capture_output=True, text=True, preexec_fn=limited)
    lines = done.stdout.split("\n")[:-1]
    assert (done.returncode, len(lines)) == (0, len(questions)), (done.returncode, done.stderr)
    return lines


def changes(program, count, seed):
    """Returns how many answers about values with changes differ."""
    draw, values = random.Random(seed), bases()
    print(", ".join(f"{len(them)} {kind}" for kind, them in values.items()), "to begin with")
    tried, taken, wrong = collections.Counter(), collections.Counter(), 0
    for _ in range(0, count, BATCH):
        asked = [question(draw, values) for _ in range(BATCH)]
        lines = answers(program, [words for words, *_ in asked])
        for (words, kind, told, takes), line in zip(asked, lines):
            tried[kind] += 1
            taken[kind] += takes
            if not re.fullmatch(told, line):
                wrong += 1
                print(f"{words}\n    expected {told}\n    got {line[:300]}")
    for kind, number in sorted(tried.items()):
        print(f"{kind}: {number} runs, {taken[kind]} accepted")
    return wrong


def spelled(octets):
    """Yields each other encoding, with its kind."""
    for at, tag, start, stop, around in headers(octets):
        size, content = stop - start, octets[start:stop]
        kinds = {"long": long_length(size), "grown": length(size + 1)}
        if size:
            kinds["cut"] = length(size - 1)
        for kind, head in kinds.items():
            other = octets[: at + tag] + head + octets[start:]
            yield kind, other
            yield f"{kind}, mended", mended(other, around, len(head) - (start - at - tag))
        if size:
            for kind, inner in ("longer", content + b"\x00"), ("shorter", content[:-1]):
                other = octets[: at + tag] + length(len(inner)) + inner + octets[stop:]
                yield f"{kind}, mended", mended(other, around, len(other) - len(octets))
            for bit in range(8):
                first = bytes([octets[start] ^ 1 << bit])
                yield "first octet", octets[:start] + first + octets[start + 1 :]


def is_read_by_openssl(octets):
    """Returns whether OpenSSL reads a certificate, and nothing after it."""
    try:
        ssl.SSLContext(ssl.PROTOCOL_TLS_CLIENT).load_verify_locations(cadata=octets)
        return True
    except ssl.SSLError:
        return False


def spellings(program, paths):
    """Returns how many answers about other encodings differ from the reader's."""
    paths = paths or sorted(ROOTS.glob("*.crt"))
    tried, taken, refused, wrong = (collections.Counter() for _ in range(4))
    for path in paths:
        found = list(spelled(encodings_of(path)[0]))
        lines = answers(program, [f"certificate {octets.hex()}" for _, octets in found])
        for (kind, octets), line in zip(found, lines):
            takes = line.startswith("ok ")
            tried[kind] += 1
            taken[kind] += takes
            if takes != reader.spells("certificate", octets):
                wrong[kind] += 1
                print(f"{path}: {kind}: accepted: {takes}: {octets.hex()}")
            refused[kind] += takes and not is_read_by_openssl(octets)
    print(f"{len(paths)} certificates")
    for kind, count in tried.items():
        of = f"{taken[kind]} accepted, {refused[kind]} of these rejected by OpenSSL"
        print(f"{kind}: {count} tried, {of}, {wrong[kind]} of the answers differ")
    return wrong.total()


def main():
    parser = argparse.ArgumentParser(description=__doc__.splitlines()[0])
    parser.add_argument("program", metavar="PROGRAM")
    parser.add_argument("--runs", type=int, default=100_000, metavar="N")
    parser.add_argument("--seed", type=int, default=1, metavar="N")
    parser.add_argument("--spellings", nargs="*", metavar="CERTIFICATE", help="encode headers anew")
    given = parser.parse_args()
    if given.spellings is None:
        wrong = changes(given.program, given.runs, given.seed)
    else:
        wrong = spellings(given.program, given.spellings)
    print(f"{wrong} answers differ")
    return wrong > 0


if __name__ == "__main__":
    sys.exit(main())
