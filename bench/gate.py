#!/usr/bin/env python3
"""Runs `rt ci`, and prints its processor time in minutes, by crate and kind.

    bench/gate.py [LOG]     run it at the top of a clean clone; the output of CI is written to LOG
                            (default: a temporary file), and the table to standard output

The total is that of `rt ci` and all its processes. The table comes from samples of the running
checks, every two seconds, by kind: proofs, proofs of tests (`tests`), mutants (`edits`), and
programs, which are proved and compiled. The rest of the total is `rt` itself, running programs and
tests, and checks that ended between two samples.
"""

import collections
import os
import pathlib
import resource
import subprocess
import sys
import tempfile
import time

KINDS = ("proof", "tests", "edits", "programs")


# A process: its parent, its processor seconds with those of its ended children, and for a check its
# crate, its kind, and when it began.
Process = collections.namedtuple("Process", "parent seconds check")


def process_of(path):
    """Returns the process of a folder of /proc."""
    words = (path / "cmdline").read_text(errors="replace").split("\0")
    numbers = (path / "stat").read_text(errors="replace").rpartition(")")[2].split()
    seconds = sum(map(int, numbers[11:15])) / os.sysconf("SC_CLK_TCK")
    if os.path.basename(words[0]) != "rattle" or "--crate-name" not in words:
        return Process(numbers[1], seconds, None)
    kind = "programs" if "src/main.rt" in words else "proof"
    if "--test" in words:
        kind = "tests"
    if "rt-edit" in os.readlink(path / "cwd"):
        kind = "edits"
    crate = words[words.index("--crate-name") + 1]
    return Process(numbers[1], seconds, (crate, kind, numbers[19]))


def checks(gate):
    """Yields the checks that `rt ci` runs, each with its seconds and those of its copies."""
    found = {}
    for path in pathlib.Path("/proc").glob("[0-9]*"):
        try:
            found[path.name] = process_of(path)
        except OSError:
            continue

    def is_below(number, top):
        while number in found and number != top:
            number = found[number].parent
        return number == top

    own = {it for it in found if found[it].check and is_below(it, gate)}
    for number in own:
        if found[number].parent not in own:
            copies = (it for it in own if is_below(it, number))
            yield found[number].check, sum(found[it].seconds for it in copies)


def run(log):
    """Runs `rt ci`. Returns its status, and the minutes of each crate by kind."""
    seen, table = {}, collections.defaultdict(collections.Counter)
    how = {"stdin": subprocess.DEVNULL, "stdout": log, "stderr": subprocess.STDOUT}
    gate = subprocess.Popen(["rt", "ci"], **how)
    while gate.poll() is None:
        for check, seconds in checks(str(gate.pid)):
            seen[check] = max(seconds, seen.get(check, 0))
        time.sleep(2)
    for (crate, kind, _), seconds in seen.items():
        table[crate][kind] += seconds / 60
    return gate.returncode, table


def row(name, minutes):
    cells = (f"{minutes[kind]:10.1f}" if minutes[kind] else f"{'':10}" for kind in KINDS)
    print(f"{name:34}" + "".join(cells))


def main(words):
    if len(words) > 1 or words and words[0].startswith("-"):
        print(__doc__.strip())
        return 2 * (words != ["--help"])
    path = words[0] if words else tempfile.mkstemp(prefix="ci-", suffix=".log")[1]
    began = time.time()
    with open(path, "w") as log:
        status, table = run(log)
    minutes = (time.time() - began) / 60
    last = pathlib.Path(path).read_text().rstrip().split("\n")[-1]
    spent = resource.getrusage(resource.RUSAGE_CHILDREN)
    total = (spent.ru_utime + spent.ru_stime) / 60
    print(f"{time.strftime('%Y-%m-%d')}, {len(os.sched_getaffinity(0))} processors: {last}")
    print(f"{minutes:.0f} minutes, {total:.1f} processor minutes; the log is {path}")
    print(f"{'crate':34}" + "".join(f"{kind:>10}" for kind in KINDS))
    for crate in sorted(table, key=lambda it: -table[it].total()):
        row(crate, table[crate])
    sums = sum(table.values(), collections.Counter())
    row("all", sums)
    print(f"{'the rest':34}{total - sums.total():10.1f}")
    return status


if __name__ == "__main__":
    sys.exit(main(sys.argv[1:]))
