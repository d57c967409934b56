#!/usr/bin/env python3
"""Lets each allocation of a program fail in turn, and checks the results.

    memory.py PROGRAM STDIN [FROM [STEP]]    a program of test vectors and its questions
    memory.py --run PROGRAM [ARGUMENT...]    a run of another program

It asks each question, from FROM on every STEPth, in a run of its own, followed by the first
question of the file, and lets each allocation of that run fail in turn. Each of the two answers has
to be the one with ample memory, or report that memory ran out, if a failing output allows it; only
one may report that. Otherwise the program has to exit with an error, after a prefix of the output
with ample memory. The answer to `again` has to be the one with ample memory, or `memory`. Questions
`cuts` and `fronts` of more than 700 characters are left out, since their allocations grow with the
square of their size. The other `cuts` come last, the shortest first, and are counted separately.

Another program has to answer as with ample memory, or to print `memory` and exit with status 6,
after a prefix of that output. The status is 0 if no answer is wrong. It needs gcc.
"""

import collections
import os
import pathlib
import re
import subprocess
import sys
import tempfile

HERE = pathlib.Path(__file__).resolve().parent
sys.path.insert(0, str(HERE.parents[1] / "tools"))

import needs

WANT = re.compile(r"\bmemory\b|OutOfMemory|NoMemory")


def log_of(folder, command, given, errors):
    """Runs a command on an input. Returns the status and the output, and those of each run in which
    an allocation failed."""
    files = stdin, out, log = [pathlib.Path(folder, name) for name in ("in", "out", "log")]
    for path in files:
        path.write_text(given if path is stdin else "")
    settings = {**os.environ, "LD_PRELOAD": f"{folder}/memory.so", "EACH": str(log)}
    with open(stdin) as given, open(out, "a") as output:
        streams = {"stdin": given, "stdout": output, "stderr": errors}
        status = subprocess.run(command, **streams, env=settings).returncode
    octets, at, refused = log.read_bytes(), 0, []
    while at < len(octets):
        stop = octets.index(b"\n", at)
        _, ended, size = map(int, octets[at:stop].split())
        at = stop + 1 + size
        refused.append((ended, octets[stop + 1 : at].decode()))
    return (status, out.read_text()), refused


def blocks_of(text, questions):
    """Returns the answers of a program that prints each question before its answer, or None."""
    first, second = (f"{question}\n" for question in questions)
    at = text.rfind(f"\n{second}") + 1
    return [text[:at], text[at:]] if text.startswith(first) and at > 0 else None


def is_untold(ample, block):
    """Returns whether an answer of several lines reports that an allocation failed, after a prefix
    of the answer with ample memory."""
    head = block.split("\n", 1)[0] + "\n"
    if block in (f"{head}memory\n", f"{head}no file\n"):
        return True
    told = re.fullmatch(r"(.*?)\n?(memory\n= 6|device\n= 5)\n", block, re.S)
    return bool(told) and ample.startswith(told[1])


def is_cut_off(question, line):
    """Returns whether an error output failed within the word, so that `device` was tried."""
    told = re.fullmatch(r'5 "[^"]*" "([^"]*)"( asked=\d+)?', line)
    if not told or not {"pieces", "call"} & set(question.split(" ")[:2]):
        return False
    word, text = "memory\n", told[1].replace("\\n", "\n")
    fronts = (size for size in range(len(word) + 1) if text.startswith(word[:size]))
    return any("device\n".startswith(text[size:]) for size in fronts)


def kind_of(questions, ample, status, out):
    """Returns what came of a failed allocation, as the summary counts it. None is wrong."""
    if status != 0:
        return "ended with an error" if status < 128 and ample[1].startswith(out) else None
    if out == ample[1]:
        return "as with ample memory"
    whole = blocks_of(ample[1], questions)
    if whole:
        both = zip(whole, blocks_of(out, questions) or [])
        differ = [pair for pair in both if pair[0] != pair[1]]
        return "out of memory" if len(differ) == 1 and is_untold(*differ[0]) else None
    lines, others = ample[1].split("\n"), out.split("\n")
    differ = [one for one, other in zip(others, lines) if one != other]
    if len(lines) != len(others) or len(differ) != 1:
        return None
    is_told = WANT.search(differ[0]) or is_cut_off(questions[0], differ[0])
    if not is_told or re.match(r"(issue )?again ", questions[0]) and differ[0] != "memory":
        return None
    return "out of memory"


def kind_of_run(ample, status, out):
    """Returns the same of a run of another program."""
    if (status, out) == ample:
        return "as with ample memory"
    is_told = status == 6 and out.endswith("memory\n")
    return "out of memory" if is_told and ample[1].startswith(out[: -len("memory\n")]) else None


def is_right(runs):
    """Prints what came of these runs, and returns whether all of it was right. A run has a name, a
    log, and the function that says what came of a failed allocation."""
    counts = collections.Counter()
    for name, (ample, refused), kind in runs:
        counts["questions"] += 1
        for number, (status, text) in enumerate(refused, 1):
            found = kind(ample, status, text) or "answers that are none of these"
            counts.update(["requests", found])
            if found.startswith("answers"):
                print(f"{name[:200]}: allocation {number}: status {status}: {text[:300]!r}")
    print(", ".join(f"{count} {what}" for what, count in counts.items()), flush=True)
    return not counts["answers that are none of these"]


def of_rows(folder, program, table, start="0", step="1"):
    """Returns whether the program answers rightly after each failed allocation of each question."""
    questions = [it for it in pathlib.Path(table).read_text().split("\n") if it and it[0] != "#"]
    asked = [it for it in questions if len(it) < 700 or not it.startswith(("cuts ", "fronts "))]
    cuts = sorted((it for it in asked if it.startswith("cuts ")), key=len)
    others = [it for it in asked if not it.startswith("cuts ")]
    print(f"{len(questions) - len(asked)} questions skipped")

    def run(question):
        pair = [question, questions[0]]
        log = log_of(folder, [program], "".join(f"{it}\n" for it in pair), subprocess.DEVNULL)
        assert log[0][0] == 0, question
        return question, log, lambda *of: kind_of(pair, *of)

    parts = (part[int(start) :: int(step)] for part in (others, cuts))
    return all([is_right(map(run, part)) for part in parts if part])


def of_run(folder, *command):
    """Returns whether a program answers rightly after each failed allocation of a run."""
    return is_right([(command[0], log_of(folder, command, "", subprocess.STDOUT), kind_of_run)])


def main(words):
    how = of_run if words[:1] == ["--run"] else of_rows
    words = words[how is of_run :]
    if not words or words[0].startswith("-"):
        print(__doc__.strip())
        return 2 * (words != ["--help"])
    needs.check(__file__)
    with tempfile.TemporaryDirectory() as folder:
        build = ["gcc", "-O1", "-shared", "-fPIC", "-o", f"{folder}/memory.so", HERE / "memory.c"]
        subprocess.run([*build, "-ldl"], check=True)
        return not how(folder, *words)


if __name__ == "__main__":
    sys.exit(main(sys.argv[1:]))
