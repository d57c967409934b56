#!/usr/bin/env python3
"""Runs `cert_tool` on files and pipes of the system, and compares what a shell sees.

    pipes.py TOOL

It compares the status and the error output of runs whose file is missing, forbidden, a folder,
without an end, or has a name that isn't UTF-8, or whose output is closed, full, or read by a
program that ends. The errors of the system are those that Python's `os.strerror` returns for the
same error. The status is 1 if any run differs.
"""

import errno
import os
import pathlib
import resource
import subprocess
import sys
import tempfile

sys.path.insert(0, str(pathlib.Path(__file__).resolve().parents[1]))

from tool import files

NOT_UTF8 = (
    "an argument isn't UTF-8; to read a file with such a name, give `-`, and redirect standard "
    "input\n"
)

# The memory of a run that reads a device without an end.
LIMIT = 1 << 29


def reason(number):
    return f"{os.strerror(number)} (os error {number})"


def limited():
    resource.setrlimit(resource.RLIMIT_AS, (LIMIT, LIMIT))


def nobody():
    """Leaves the rights of the superuser, for whom no file is forbidden."""
    if os.getuid() == 0:
        os.setuid(65534)


class Runs:
    """Runs of the program in a folder with three files, and how many of them differ."""

    def __init__(self, tool, folder):
        self.tool, self.folder, self.asked, self.wrong = tool, folder, 0, 0

    def check(self, words, wanted, **settings):
        """Compares the status and the error output of a run."""
        settings = {"stdin": subprocess.DEVNULL, "stdout": subprocess.DEVNULL} | settings
        run = subprocess.run(
            [self.tool, *words], cwd=self.folder, stderr=subprocess.PIPE, **settings
        )
        told = run.returncode, os.fsdecode(run.stderr)
        self.compare(words, told, wanted)

    def compare(self, words, told, wanted):
        self.asked += 1
        if told != wanted:
            self.wrong += 1
            print(f"differs: {words}: {told!r} isn't {wanted!r}")

    def check_closed(self, words):
        """Lets a program read one byte of the output and end."""
        run = subprocess.Popen(
            [self.tool, *words], cwd=self.folder, stdout=subprocess.PIPE, stderr=subprocess.PIPE
        )
        os.read(run.stdout.fileno(), 1)
        run.stdout.close()
        errors = run.stderr.read()
        self.compare([*words, "| head -c 1"], (run.wait(), errors), (5, b""))


def check(runs):
    describe = ["describe", "certificate"]
    missing, folder, forbidden = map(reason, (errno.ENOENT, errno.EISDIR, errno.EACCES))
    runs.check([*describe, "none.der"], (5, f'cannot open "none.der": {missing}\n'))
    runs.check([*describe, "."], (5, f'cannot read ".": {folder}\n'))
    runs.check([*describe, "-"], (5, f'cannot read "-": {folder}\n'), stdin=os.open(".", 0))
    runs.check([*describe, "forbidden.der"], (5, f'cannot open "forbidden.der": {forbidden}\n'),
               preexec_fn=nobody)
    for words in (["split"], ["reverse"], ["explain", "anchors"], ["explain", "stream"]):
        runs.check([*words, "none.der"], (5, f'cannot open "none.der": {missing}\n'))
    full = f"device\ncannot write: {reason(errno.ENOSPC)}\n"
    runs.check([*describe, "server.der"], (5, full), stdout=os.open("/dev/full", os.O_WRONLY))
    closed = f"device\ncannot write: {reason(errno.EBADF)}\n"
    runs.check([*describe, "server.der"], (5, closed), stdout=os.open("server.der", os.O_RDONLY))
    runs.check_closed(["describe", "stream", "many.der"])
    runs.check_closed(["describe", "stream", "--json", "many.der"])
    runs.check([*describe, "server.der", "none.der"],
               (5, f'cannot open "none.der": {missing}\n(file "none.der")\n'))
    runs.check([*describe, "/dev/zero"],
               (2, '"/dev/zero" isn\'t DER, and has more than 67108864 bytes\n'),
               preexec_fn=limited)
    runs.check([*describe, b"caf\xe9.der"], (4, NOT_UTF8))
    endless = subprocess.Popen(["cat", "server.der", "/dev/zero"], stdout=subprocess.PIPE)
    runs.check([*describe, "-"], (2, "octet 510: there are bytes after the value\n"),
               stdin=endless.stdout, preexec_fn=limited)
    endless.stdout.close()
    endless.wait()


def main():
    if len(sys.argv) != 2 or sys.argv[1].startswith("-"):
        sys.exit(__doc__)
    with tempfile.TemporaryDirectory() as folder:
        os.chmod(folder, 0o755)
        os.chdir(folder)
        server = files()["server.der"]
        pathlib.Path("server.der").write_bytes(server)
        pathlib.Path("many.der").write_bytes(server * 2000)
        pathlib.Path("forbidden.der").write_bytes(server)
        os.chmod("forbidden.der", 0)
        runs = Runs(str(pathlib.Path(sys.argv[1]).resolve()), folder)
        check(runs)
    print(f"{runs.asked} runs, {runs.wrong} differ")
    return runs.wrong > 0


if __name__ == "__main__":
    sys.exit(main())
