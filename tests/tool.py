"""Runs `cert_tool serve` (docs/CLI.md), and reads the files that its test vectors name."""

import functools
import pathlib
import subprocess

import der

TOP = pathlib.Path(__file__).resolve().parents[1]
CRATE = TOP / "crates" / "cert_tool"
DATA = CRATE / "data"
ROOTS = pathlib.Path("/usr/share/ca-certificates/mozilla")


@functools.cache
def files():
    """Returns the files that the test vectors name, by their names."""
    found = {path.name: path.read_bytes() for path in DATA.iterdir()}
    return found | dict(der.files_in(CRATE / "files.txt"))


def frame(octets):
    return len(octets).to_bytes(4, "big") + octets


def request(words, inputs):
    """Encodes a command, with the names and bytes of the files that it names."""
    named = b"".join(frame(name.encode()) + frame(octets) for name, octets in inputs.items())
    return frame(frame("\n".join(words).encode()) + named)


def answer(status, output, errors):
    return frame(bytes([status])) + frame(output) + frame(errors)


class Tool:
    """A process of `cert_tool serve`."""

    def __init__(self, program):
        pipes = {"stdin": subprocess.PIPE, "stdout": subprocess.PIPE, "stderr": subprocess.PIPE}
        self.process = subprocess.Popen([program, "serve"], **pipes)

    def read(self):
        """Returns the content of the next frame."""
        size = int.from_bytes(self.process.stdout.read(4), "big")
        return self.process.stdout.read(size)

    def ask(self, words, inputs):
        """Runs a command over these files. Returns its status, output and error output."""
        self.process.stdin.write(request(words, inputs))
        self.process.stdin.flush()
        status = self.read()
        if not status:
            raise EOFError(f"no answer to {words}: {self.process.communicate()[1]!r}")
        return status[0], self.read(), self.read()

    def end(self):
        """Ends the process. Returns its status, the rest of its output, and its error output."""
        rest, errors = self.process.communicate()
        return self.process.returncode, rest, errors
