#!/usr/bin/env python3
"""Sends the test vectors of `cert_tool` to `cert_tool serve`, and compares the answers.

    served.py TOOL      compares the answers of the program; the status is 1 if any differs
    served.py           compares the stdin on which CI runs crates/cert_tool, and the stdout that it
                        expects, with what is made of the vectors
    served.py --write   writes both: the vectors, files with names that a hint quotes, a request
                        without arguments, and a truncated one

The vectors are in crates/cert_tool/rows.txt. A vector is a line of arguments, each after one space.
The lines of the output follow, or its bytes in hexadecimal if it isn't text; then the lines of the
error output, each after `! `; then the status after `=`. Empty lines and lines that begin with `#`
are skipped. The files that a vector names are sent with it (data/ and files.txt). A vector that
names a folder is skipped, since a folder can't be sent.
"""

import argparse
import pathlib
import re
import sys

sys.path.insert(0, str(pathlib.Path(__file__).resolve().parents[1]))

from tool import CRATE, DATA, Tool, answer, files, frame, request

# The error output for a request without arguments.
NO_REQUEST = b"the request doesn't begin with a frame of arguments in UTF-8\n"

# Names of files, and the shell word that a hint prints for each, or `None` if it prints none.
HINTED = [
    ("$(id)`id`.der", "'$(id)`id`.der'"),
    ("it's;id", "'it'\\''s;id'"),
    ("a b\\\"!", "'a b\\\"!'"),
    ("A_z-0./:@%+,", "A_z-0./:@%+,"),
    ("\x1b[2J", None),
    ("\u202e", None),
    ("--odd.der", "-- --odd.der"),
    ("--host=a b", "-- '--host=a b'"),
]


def text(lines):
    return "".join(f"{line}\n" for line in lines).encode()


def written(lines):
    """Returns the output that these lines mean."""
    is_octets = len(lines) == 1 and re.fullmatch("(?:[0-9a-f]{2})+", lines[0])
    return bytes.fromhex(lines[0]) if is_octets else text(lines)


def inputs(words):
    """Returns the files that words name, by their names."""
    sent = {"/dev/null": b""} | files()
    names = [it for word in words for it in (word, word.partition("=")[2])]
    return {name: sent[name] for name in names if name in sent}


def rows():
    """Yields of each vector the words, the files that they name, and the answer: status, output,
    error output."""
    lines = iter((CRATE / "rows.txt").read_text().splitlines())
    for question in lines:
        if not question or question.startswith("#"):
            continue
        output, errors = [], []
        while not (line := next(lines)).startswith("= "):
            if line.startswith("! "):
                errors.append(line[2:])
            else:
                output.append(line)
        words = question.split(" ")
        if not any((DATA / word).is_dir() for word in words):
            yield words, inputs(words), (int(line[2:]), written(output), text(errors))


def hinted():
    """Yields requests about files with these names, and the answers with their hints."""
    for name, word in HINTED:
        errors = ["fault 0 0 NoCertificate"]
        end = f" {word}" if word else ", with this file"
        errors.append(f"(why: cert_tool explain stream --limit 65536{end})")
        yield ["split", "--", name], {name: b"1"}, (2, b"", text(errors))


def run_on():
    """Returns the input on which CI runs the program, and the output that it expects."""
    asked = [*rows(), *hinted()]
    requests = [request(words, sent) for words, sent, _ in asked]
    answers = [answer(*told) for _, _, told in asked]
    # No arguments; a file that isn't sent; the size of a frame without the frame.
    requests += [frame(b""), request(["split", "chain.der"], {"none.der": b""})]
    answers += [answer(4, b"", NO_REQUEST), answer(5, b"", b'cannot open "chain.der"\n')]
    requests.append((100).to_bytes(4, "big") + b"cut")
    return {"stdin": b"".join(requests), "stdout": b"".join(answers)}


def compare(program):
    """Returns how many vectors a program answers differently."""
    tool, asked, wrong = Tool(program), list(rows()), 0
    for words, sent, wanted in asked:
        told = tool.ask(words, sent)
        if told != wanted:
            wrong += 1
            print(f"differs: {' '.join(words)}: {told!r}")
    if (end := tool.end()) != (0, b"", b""):
        sys.exit(f"at the end of the input: {end!r}")
    print(f"{len(asked)} test vectors, {wrong} differ")
    return wrong


def main():
    parser = argparse.ArgumentParser(description=__doc__.splitlines()[0])
    parser.add_argument("tool", metavar="TOOL", nargs="?")
    parser.add_argument("--write", action="store_true", help="write stdin and stdout of the crate")
    given = parser.parse_args()
    if given.tool:
        return compare(given.tool) > 0
    differ = {name: it for name, it in run_on().items() if (CRATE / name).read_bytes() != it}
    for name, octets in differ.items():
        if given.write:
            (CRATE / name).write_bytes(octets)
        else:
            print(f"crates/cert_tool/{name} isn't what tests/rows/served.py --write writes")
    return bool(differ) and not given.write


if __name__ == "__main__":
    sys.exit(main())
