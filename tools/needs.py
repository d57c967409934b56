#!/usr/bin/env python3
"""Lists the Debian 12 packages that scripts need and this machine lacks, besides Bash and Python.

    tools/needs.py      prints a line for each script

`./x` calls `check` before it runs a script; if a package is missing, that names it. The modules
must be installed for the first `python3` in PATH, which runs the scripts. The packages of Debian
install them for /usr/bin/python3 only.
"""

import importlib.util
import pathlib
import shutil
import signal
import sys

TOP = pathlib.Path(__file__).resolve().parent.parent
# The package of a command with another name, or of a path or module.
PACKAGES = {
    "cc": "gcc", "ld": "binutils", "rt": "the kit (its bin/ in PATH)", "/usr/bin/time": "time",
    "/usr/include/mbedtls": "libmbedtls-dev", "/usr/include/openssl": "libssl-dev",
    "/usr/share/ca-certificates/mozilla": "ca-certificates",
    "cryptography": "python3-cryptography", "pyasn1": "python3-pyasn1",
    "pyasn1_modules": "python3-pyasn1-modules",
}
# What each script needs: commands, paths, and Python modules.
NEEDS = {
    "bench/gate.py": "rt",
    "bench/speed.py": "rt gcc openssl valgrind cryptography /usr/bin/time /usr/include/mbedtls "
                      "/usr/include/openssl /usr/share/ca-certificates/mozilla",
    "bindings/build.sh": "rt cc ld",
    "bindings/test.sh": "cc pkg-config",
    "examples/answer.py": "cryptography",
    "examples/make_chain.sh": "openssl",
    "examples/sign_outside.sh": "openssl xxd",
    "examples/verify_pem.py": "cryptography",
    "tests/asn1/positions.py": "rt pyasn1",
    "tests/asn1/by_openssl.py": "openssl cryptography",
    "tests/differential/answers.py": "openssl cryptography",
    "tests/differential/described.py": "openssl cryptography pyasn1_modules "
                                       "/usr/share/ca-certificates/mozilla",
    "tests/differential/files.py": "/usr/share/ca-certificates/mozilla",
    "tests/differential/held.py": "openssl cryptography",
    "tests/differential/messages.py": "openssl cryptography",
    "tests/differential/mutated.py": "/usr/share/ca-certificates/mozilla",
    "tests/rows/hostile.py": "/usr/bin/time",
    "tests/rows/memory.py": "gcc",
    "tests/suites/suites.py": "unzip openssl cryptography",
    "tools/guide.sh": "rt openssl",
    "tools/mutants.py": "rt",
    "tools/release.py": "rt zstd cc ld",
}


def missing(script):
    """Yields the packages that a script needs and that aren't installed."""
    for name in NEEDS.get(script, "").split():
        package = PACKAGES.get(name, name)
        if "/" in name:
            is_here = pathlib.Path(name).exists()
        elif package.startswith("python3-"):
            is_here = importlib.util.find_spec(name)
        else:
            is_here = shutil.which(name)
        if not is_here:
            yield package


def hint(packages):
    """Returns what to do if a module is missing and this Python isn't Debian's, or nothing."""
    if sys.prefix == "/usr" or not any(it.startswith("python3-") for it in packages):
        return ""
    return (f"The scripts are run by {sys.executable}, which doesn't have the modules of Debian's "
            "packages:\nuse PATH=/usr/bin:$PATH, or install the modules with `python3 -m pip`.")


def check(script):
    """Exits with a message if a package is missing."""
    name = str(pathlib.Path(script).resolve().relative_to(TOP))
    packages = list(dict.fromkeys(missing(name)))
    if packages:
        debian = [it for it in packages if " " not in it]
        how = f"; install with: apt-get install {' '.join(debian)}" if debian else ""
        print(f"{name} needs {', '.join(packages)}{how}", file=sys.stderr)
        if told := hint(packages):
            print(told, file=sys.stderr)
        sys.exit(2)


if __name__ == "__main__":
    if sys.argv[1:]:
        print(__doc__.strip())
        sys.exit(2 * (sys.argv[1:] != ["--help"]))
    # A reader that ends early, such as `head`, ends this program silently.
    signal.signal(signal.SIGPIPE, signal.SIG_DFL)
    found = {each: list(missing(each)) for each in NEEDS}
    for each, packages in found.items():
        print(f"{each}: {', '.join(packages) or 'complete'}")
    if told := hint(package for packages in found.values() for package in packages):
        print(told)
