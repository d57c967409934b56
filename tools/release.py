#!/usr/bin/env python3
"""Makes, installs, unpacks and confirms releases, and proves crates in advance.

    release.py make [--built CLONE] FOLDER          makes a release
    release.py install [--from RELEASE] PREFIX      installs the programs
    release.py unpack RELEASE [FOLDER]              installs the proved libraries in a repository
    release.py confirm [--kept] RELEASE [CRATE...]  proves a release again, and compares it
    release.py prove CRATE...                       proves crates and their dependencies

tools/README.md explains what a release contains. The status is 0 on success, 1 if something
differs or failed, and 2 if an argument is wrong.

make clones the last commit, runs CI in the clone, and writes the release to FOLDER. With --built it
takes the results of CI in CLONE. It prints the checksum of SUMS last. Publish it: SUMS has the
checksum of every other file. Two releases of one commit have the same bytes.

install copies the programs and their scripts to PREFIX/bin, which has to be on PATH, and man pages,
completion for bash, pages of docs/ and the licences to PREFIX/share. From a release, it also copies
the libraries for C, Rust and Python to PREFIX/include, PREFIX/lib and PREFIX/share. It verifies the
checksums of the release first, prints the path of each file that it installs, and doesn't need the
kit. Without --from it installs the release that contains this script, or what was built in this
repository; a program that isn't built is named and left out.

unpack installs the proved libraries in the repository FOLDER (default: this one), so that `rt`
doesn't prove them again. It verifies the checksum of each file, the version of the kit, and the
commit. If the sources of a crate differ from the release, it says so, and `rt` will prove that
crate again. Results that depend on a replaced library are deleted.

confirm proves a release again from its commit, and compares every file. RELEASE may be a folder
with only the files PROVED and SUMS. It clones the commit, runs `rt ci --anew` for these crates and
their dependencies (default: all), without mutants, and compares each library and program, the
bindings and the licences. The bindings depend on gcc, binutils and Python of this machine. With
--kept it trusts what this machine proved before, and can be interrupted and resumed. The clone
takes some 15 GB in TMPDIR.

prove runs `rt ci` for these crates and their dependencies in a copy of the crates, with all
processors, and installs the libraries here. It can be interrupted and resumed, because the kit
remembers what was proved.
"""

import collections
import functools
import hashlib
import importlib.machinery
import importlib.util
import os
import pathlib
import re
import shutil
import subprocess
import sys
import tempfile
import time

# A folder with bytecode would differ from SUMS.
sys.dont_write_bytecode = True

import sources

LIBRARIES = "libraries.tar.zst"
# Programs and archives, with their paths in a release.
PROGRAMS = {name: f"programs/{name}" for name in ("cert_desk_program", "cert_tool")}
ARCHIVES = {name: f"archives/lib{name}.a" for name in ("cert_desk_c", "cert_desk_issuing_c")}
PLACES = PROGRAMS | ARCHIVES
COMPLETIONS = "share/bash-completion/completions"
# Files that are installed with the programs, with their paths in a release and under a prefix.
INSTALLED = {
    "programs/cert_desk_program": "bin/cert_desk",
    "programs/cert_tool": "bin/cert_tool",
    "examples/answer.py": "bin/cert_tool_answer",
    "examples/verify_pem.py": "bin/cert_tool_verify_pem",
    "docs/man/cert_desk.1": "share/man/man1/cert_desk.1",
    "docs/man/cert_tool.1": "share/man/man1/cert_tool.1",
    "docs/man/cert_tool_answer.1": "share/man/man1/cert_tool_answer.1",
    "docs/man/cert_tool_verify_pem.1": "share/man/man1/cert_tool_verify_pem.1",
    "docs/man/cert_tool.bash": f"{COMPLETIONS}/cert_tool",
    "docs/CLI.md": "share/doc/wurstdrape/CLI.md",
    "docs/tables/JSON.md": "share/doc/wurstdrape/tables/JSON.md",
    "docs/tables/ORDERS.md": "share/doc/wurstdrape/tables/ORDERS.md",
    "docs/tables/REFUSALS.md": "share/doc/wurstdrape/tables/REFUSALS.md",
    "docs/tables/REMARKS.md": "share/doc/wurstdrape/tables/REMARKS.md",
    "LICENSE-APACHE": "share/doc/wurstdrape/LICENSE-APACHE",
    "LICENSE-MIT": "share/doc/wurstdrape/LICENSE-MIT",
}
# Scripts that install a release without a clone.
INSTALLERS = "tools/release.py", "tools/sources.py"
# A library repeats what is in the libraries below it, so zstd looks back this far.
ZSTD = "zstd -q -3 --long=30 -T1"


# The line of a crate in PROVED. Its kind is library, program or archive.
Crate = collections.namedtuple("Crate", "kind stamp sum")


class Proved(collections.namedtuple("Proved", "kit version commit crates")):
    """The contents of PROVED."""

    def __str__(self):
        rows = [f"{head} {value}" for head, value in zip(self._fields[:3], self)]
        rows += [f"{it.kind} {name} {it.stamp} {it.sum}" for name, it in self.crates.items()]
        return "\n".join(rows) + "\n"

    def libraries(self, names):
        """Returns those of these names that are libraries."""
        return [it for it in names if it in self.crates and self.crates[it].kind == "library"]


def stop(why):
    sys.exit(f"release: {why}")


# Commands, and the kit.


def asked(*words, folder=sources.TOP):
    """Returns what a command prints, or nothing if it fails."""
    if not shutil.which(words[0]):
        stop(f"command not found: {words[0]}")
    ran = subprocess.run(words, cwd=folder, capture_output=True, text=True)
    return ran.stdout.strip() if ran.returncode == 0 else ""


def run(*words, folder, why, **how):
    """Runs a command. If it fails, prints its last lines, and stops."""
    how |= {"stdout": subprocess.PIPE, "stderr": subprocess.STDOUT, "errors": "replace"}
    how.setdefault("input", "")
    ran = subprocess.run([str(it) for it in words], cwd=folder, text=True, **how)
    if ran.returncode:
        print("".join(ran.stdout.splitlines(True)[-20:]), end="", file=sys.stderr)
        stop(why)


def stamps(folder):
    """Returns the kit's stamp of each crate in a repository."""
    rt = shutil.which("rt") or stop("command not found: rt (add the kit's bin/ to PATH)")
    path = pathlib.Path(rt).resolve().parent / "rtlib.py"
    loader = importlib.machinery.SourceFileLoader("rtlib", str(path))
    rtlib = importlib.util.module_from_spec(importlib.util.spec_from_loader("rtlib", loader))
    sys.modules["rtlib"] = rtlib
    loader.exec_module(rtlib)
    # Without a cache they are computed once for each path from one crate to another.
    for name in ("below", "stamp"):
        setattr(rtlib.Crate, name, functools.cache(getattr(rtlib.Crate, name)))
    return {crate.name: crate.stamp() for crate in rtlib.crates_below(os.path.realpath(folder))}


def same_kit(proved):
    """Stops if this kit isn't the one that proved the release."""
    here = asked("rt", "version")
    if here != proved.kit:
        stop(f"the release needs the kit '{proved.kit}', and this is '{here}'; use that kit, or "
             "prove the crates here with `./x release prove`")


def gate(folder, crates, *words):
    """Runs `rt ci` in a clone of these crates, and prints its progress."""
    log, last, began = tempfile.mkstemp(prefix="ci-", suffix=".log")[1], "", time.time()
    print(f"{len(crates)} crates; the log is {log}", flush=True)
    how = {"stdin": subprocess.DEVNULL, "stdout": subprocess.PIPE, "stderr": subprocess.STDOUT}
    command = ["rt", "ci", *words]
    with open(log, "w") as opened, subprocess.Popen(command, cwd=folder, text=True, **how) as ran:
        for line in ran.stdout:
            print(line, end="", file=opened, flush=True)
            last = line.strip() or last
            if line.startswith("rt: "):
                print(f"{(time.time() - began) / 60:4.0f} min  {last}", flush=True)
    print(last)
    if ran.returncode or not re.fullmatch(r"\d+ passed, 0 failed", last):
        stop(f"CI failed; its log is {log}")


# Checksums.


def sum_of(path):
    return hashlib.sha256(path.read_bytes()).hexdigest()


def listing(folder):
    """Returns the output of `sha256sum` for the files of a folder, sorted by path."""
    files = (path for path in pathlib.Path(folder).rglob("*") if path.is_file())
    paths = sorted(str(path.relative_to(folder)) for path in files)
    return "".join(f"{sum_of(folder / path)}  {path}\n" for path in paths)


def total_of(folder):
    """Returns one checksum for all files of a folder."""
    return hashlib.sha256(listing(folder).encode()).hexdigest()


def sums(text):
    """Returns the checksum of each path in the output of `sha256sum`."""
    rows = (row.partition("  ") for row in text.removesuffix("\n").split("\n"))
    return {path: digest for digest, _, path in rows}


def read(release, whole=True):
    """Returns PROVED of a release. Stops at the first file that differs from SUMS or PROVED.

    If `whole` is false, only PROVED and SUMS are required."""
    for name in ("SUMS", "PROVED"):
        if not (release / name).is_file():
            stop(f"{release} isn't a release: it has no file {name}")
    wanted, there = sums((release / "SUMS").read_text(errors="replace")), sums(listing(release))
    del there["SUMS"]
    for path in sorted(wanted.keys() | there.keys()):
        if there.get(path) != wanted.get(path) and (whole or path in there or path == "PROVED"):
            why = "isn't listed in" if path not in wanted else "differs from its checksum in"
            stop(f"{release / path} {why if path in there else 'is missing, but listed in'} SUMS")
    rows = [row.split(" ") for row in (release / "PROVED").read_text().splitlines()]
    crates = {name: Crate(kind, *more) for kind, name, *more in rows[3:]}
    proved = {PLACES[it]: crates[it].sum for it in PLACES if it in crates}
    for path in sorted(wanted.keys() | proved.keys()):
        both = wanted.get(path, "none"), proved.get(path, "none")
        if path.startswith(("programs/", "archives/")) and both[0] != both[1]:
            stop("{}: SUMS has {}, but PROVED has {}".format(path, *both))
    return Proved(*(" ".join(row[1:]) for row in rows[:3]), crates)


# Packing and installing libraries.


def place(crates, name):
    """Returns the folder in which `rt` looks for a built library."""
    return crates / name / "out/rlib"


def packed(path, crates, names):
    """Packs libraries so that the same files give the same bytes."""
    files = [it for name in names
             for it in sorted((place(crates, name) / f"{name}.rlib").rglob("*")) if it.is_file()]
    run("tar", "--create", "--format=gnu", "--mtime=@0", "--mode=644", "--owner=0", "--group=0",
        "--numeric-owner", "--transform=s,/out/rlib/,/,", "--verbatim-files-from", "-I", ZSTD,
        "-f", path, "-T", "-", folder=crates, why="the libraries can't be packed",
        input="".join(f"{it.relative_to(crates)}\n" for it in files))


def unpacked(release, proved, names, crates):
    """Unpacks libraries of a release where `rt` looks for them, and verifies their checksums."""
    if names:
        run("tar", "--extract", "--touch", "--transform=s,/,/out/rlib/,", "-I", ZSTD, "-f",
            (release / LIBRARIES).resolve(), *names, folder=crates,
            why=f"{LIBRARIES} can't be read, or lacks a library of PROVED")
    for name in names:
        if total_of(place(crates, name) / f"{name}.rlib") != proved.crates[name].sum:
            stop(f"{name}: checksum differs from PROVED: the release is damaged")


def clear(crates, below, libraries):
    """Removes these libraries, and what was built with them."""
    for name in below:
        if set(libraries).intersection(sources.closure([name], below)):
            shutil.rmtree(place(crates, name), ignore_errors=True)


def lay(release, folder):
    """Installs the libraries of a release in a repository, and prints what differs.

    Returns 0 if all were installed."""
    began, proved = time.time(), read(release)
    same_kit(proved)
    commit = asked("git", "rev-parse", "HEAD")
    if commit != proved.commit:
        print(f"the release is of commit {proved.commit[:12]}, and this is {commit[:12] or 'none'}")
    crates, here, below = folder / "crates", stamps(folder), sources.dependencies(folder)
    there = proved.libraries(here)
    same = [name for name in there if here[name] == proved.crates[name].stamp]
    others = [name for name in there if name not in same]
    if others:
        print(f"these crates differ from the release, so rt proves them again: {' '.join(others)}")
    clear(crates, below, same)
    unpacked(release, proved, same, crates)
    for name in same:
        (place(crates, name) / "stamp").write_text(proved.crates[name].stamp)
    print(f"{len(same)} of {len(there)} libraries installed in {time.time() - began:.0f} seconds")
    return int(bool(others))


# make


def bindings(clone, folder):
    """Builds the bindings from the libraries that CI left."""
    said = "bindings/build.sh or tools/wheel.py failed"
    run(clone / "bindings/build.sh", folder, "--gate", folder=clone, why=said)
    run(clone / "tools/wheel.py", folder, folder, folder=clone, why=said)
    # pkg-config computes the paths, so the folder can be moved.
    for found in folder.glob("*.pc"):
        found.write_text(found.read_text().replace(str(folder), "${pcfiledir}"))
    # Files that read the repository are of no use outside it.
    left = shutil.ignore_patterns("target", "tests", "mutated.rs")
    shutil.copytree(clone / "bindings/rust", folder / "rust", ignore=left)


def libraries_of(clone, names, stamps):
    """Returns the lines of libraries for PROVED, after checking that they were built together."""
    formats = {}
    for name in names:
        library = place(clone / "crates", name) / f"{name}.rlib"
        made, stamp = library / "format", library.parent / "stamp"
        if not made.is_file():
            stop(f"{name} isn't built in {clone}: run .ci/run there")
        if stamp.is_file() and stamp.read_text() != stamps[name]:
            stop(f"{name} was built from other sources than those of {clone}: run .ci/run there")
        for below, over in re.findall(r"^over (\w+) (\S+)$", made.read_text(), re.M):
            if formats.get(below, over) != over:
                stop(f"{name} was built with another {below}: run .ci/run in {clone}")
        formats[name] = sum_of(made)
        yield name, Crate("library", stamps[name], total_of(library))


def write(folder, clone, libraries):
    """Writes a release from the results of CI in a clone, except its libraries and SUMS. Returns
    the contents of PROVED."""
    crates, made = sources.dependencies(clone), stamps(clone)
    found = dict(libraries_of(clone, libraries, made))
    if not ARCHIVES.keys().isdisjoint(crates):
        bindings(clone, folder / "bindings")
    for name, target in PLACES.items():
        (folder / target).parent.mkdir(parents=True, exist_ok=True)
        if name in crates:
            file = clone / "crates" / name / "out" / pathlib.Path(target).name
            if not file.is_file():
                stop(f"{name} isn't built in {clone}: run .ci/run there")
            shutil.copy(file, folder / target)
            kind = "program" if name in PROGRAMS else "archive"
            found[name] = Crate(kind, made[name], sum_of(file))
    for path in INSTALLED.keys() - PROGRAMS.values() | set(INSTALLERS):
        (folder / path).parent.mkdir(parents=True, exist_ok=True)
        shutil.copy(clone / path, folder / path)
    commit = asked("git", "rev-parse", "HEAD", folder=clone)
    proved = Proved(asked("rt", "version"), sources.version(clone), commit, found)
    (folder / "PROVED").write_text(str(proved))
    return proved


def make(words):
    folder, source = words.folder.resolve(), (words.built or sources.TOP).resolve()
    if folder.exists() or not folder.parent.is_dir():
        stop(f"{folder} already exists" if folder.exists() else f"{folder.parent} doesn't exist")
    if asked("git", "status", "--porcelain", folder=source):
        stop(f"{source} has uncommitted changes")
    with tempfile.TemporaryDirectory(dir=folder.parent) as room:
        clone, new = pathlib.Path(room) / "clone", pathlib.Path(room) / "release"
        if words.built:
            clone = source
        else:
            asked("git", "clone", "-q", str(source), str(clone))
            gate(clone, sources.closure(sources.dependencies()))
        crates = sources.dependencies(clone)
        named = {below for libraries in crates.values() for below in libraries}
        libraries = [name for name in sources.closure(crates, crates) if name in named]
        proved = write(new, clone, libraries)
        packed(new / LIBRARIES, clone / "crates", libraries)
        (new / "SUMS").write_text(listing(new))
        size = sum(path.stat().st_size for path in new.rglob("*") if path.is_file()) / 1e6
        others = len(proved.crates) - len(libraries)
        print(f"{len(libraries)} libraries, {others} programs and archives, {size:.0f} MB")
        total = sum_of(new / "SUMS")
        print(f"checksum of SUMS ({proved.version}, commit {proved.commit[:12]}): {total}")
        new.rename(folder)
    return 0


# install


def bindings_of(release):
    """Returns the files of the bindings, with their paths below the prefix."""
    places = {".h": "include", ".a": "lib", ".so": "lib", ".pc": "lib/pkgconfig",
              ".whl": "share/wurstdrape"}
    for path in sorted((release / "bindings").glob("*")):
        if path.suffix in places:
            yield path, f"{places[path.suffix]}/{path.name}"
    for path in sorted((release / "bindings/rust").rglob("*")):
        yield path, f"share/wurstdrape/{path.relative_to(release / 'bindings')}"


def install(words):
    release = words.release or sources.TOP
    is_release = words.release is not None or (release / "SUMS").is_file()
    if is_release:
        read(release)
    built = {PROGRAMS[it]: sources.CRATES / it / "out" / it for it in PROGRAMS}
    found = [(release / path if is_release else built.get(path, release / path), place)
             for path, place in INSTALLED.items()]
    # bash looks for the completion of a command in the file of its name.
    completion = release / "docs/man/cert_tool.bash"
    names = "cert_tool_answer", "cert_tool_verify_pem"
    found += [(completion, f"{COMPLETIONS}/{name}") for name in names]
    missing = [path for path, place in found if place == "bin/cert_tool" and not path.is_file()]
    if missing:
        stop(f"{missing[0]} isn't built: use --from RELEASE, or `./x test`, which takes hours")
    for path, place in [*found, *(bindings_of(release) if is_release else [])]:
        target = words.prefix / place
        if path.is_file():
            target.parent.mkdir(parents=True, exist_ok=True)
            shutil.copy(path, target)
            target.chmod(0o755 if place.startswith("bin/") else 0o644)
            print(target)
        elif place.startswith("bin/"):
            print(f"release: {path} isn't built, so it is left out", file=sys.stderr)
    for path in sorted((words.prefix / "lib/pkgconfig").glob("wurstdrape*.pc")):
        text = path.read_text().replace("prefix=${pcfiledir}", "prefix=${pcfiledir}/../..")
        text = text.replace("libdir=${prefix}\n", "libdir=${prefix}/lib\n")
        path.write_text(text.replace("includedir=${prefix}\n", "includedir=${prefix}/include\n"))
    programs = str(words.prefix.resolve() / "bin")
    if programs not in os.environ.get("PATH", "").split(os.pathsep):
        print(f"release: add {programs} to PATH", file=sys.stderr)
    return 0


def unpack(words):
    if not (words.folder / "crates.txt").is_file():
        stop(f"{words.folder} isn't a repository of crates: it has no crates.txt")
    return lay(words.release, words.folder)


# confirm


def kept_rows(top, names):
    """Returns the lines of a repository's crates.txt for these crates."""
    return "".join(f"{row}\n" for name, row in sources.rows(top).items() if name in names)


def cloned(clone, proved, names):
    """Clones the commit with only these crates and their dependencies, and returns their names."""
    asked("git", "clone", "-q", str(sources.TOP), str(clone))
    asked("git", "checkout", "-q", proved.commit, folder=clone)
    here = asked("git", "rev-parse", "HEAD", folder=clone), sources.version(clone)
    if here != (proved.commit, proved.version):
        stop(f"this repository has no commit {proved.commit} of version {proved.version}")
    # The archives are built together.
    names = [*names, *([] if ARCHIVES.keys().isdisjoint(names) else ARCHIVES)]
    wanted = sources.closure(names or proved.crates, sources.dependencies(clone))
    for folder in (clone / "crates").iterdir():
        shutil.rmtree(folder / "must-fail" if folder.name in wanted else folder, ignore_errors=True)
    (clone / "crates.txt").write_text(kept_rows(clone, wanted))
    return wanted


def confirm(words):
    release, proved = words.release, read(words.release, whole=False)
    same_kit(proved)
    unknown = [name for name in words.crates if name not in proved.crates]
    if unknown:
        stop(f"the release has no crate {unknown[0]}")
    with tempfile.TemporaryDirectory() as room:
        clone, new, laid = (pathlib.Path(room) / name for name in ("clone", "new", "laid"))
        wanted = cloned(clone, proved, words.crates)
        if (release / LIBRARIES).is_file():
            laid.mkdir()
            unpacked(release, proved, proved.libraries(wanted), laid)
            shutil.rmtree(laid)
        gate(clone, wanted, *[] if words.kept else ["--anew"])
        made = write(new, clone, proved.libraries(wanted)).crates
        same = {name: made.get(name) == proved.crates[name] for name in wanted}
        if not ARCHIVES.keys().isdisjoint(wanted):
            texts = listing(new), (release / "SUMS").read_text()
            beside = r"^.*  (?:bindings/|examples/|docs/|tools/|LICENSE-).*$"
            rows = [re.findall(beside, text, re.M) for text in texts]
            same["bindings, scripts, licences"] = rows[0] == rows[1]
    for name, is_same in same.items():
        print(f"{name}: {'the same bytes' if is_same else 'differs'}")
    print(f"{sum(same.values())} of {len(same)} are the same")
    return int(not all(same.values()))


# prove


def state_of(library, name):
    """Returns what distinguishes a built library from others of its name."""
    parts = library / "stamp", library / f"{name}.rlib/format"
    return [part.read_text() for part in parts if part.is_file()]


def lay_made(room, names):
    """Installs the libraries that were built in a folder, unless they are installed already.
    Returns their number."""
    crates, found, laid = sources.dependencies(), stamps(room), {}
    for name in names:
        made, library = (place(it, name) for it in (room / "crates", sources.CRATES))
        if made.is_dir():
            (made / "stamp").write_text(found[name])
            if laid.keys() & crates[name] or state_of(made, name) != state_of(library, name):
                laid[name] = made, library
    clear(sources.CRATES, crates, laid)
    for made, library in laid.values():
        library.parent.mkdir(exist_ok=True)
        shutil.move(made, library)
    return len(laid)


def prove(words):
    unknown = [word for word in words.crates if word not in sources.dependencies()]
    if unknown:
        stop(f"this repository has no crate {unknown[0]}")
    wanted, left = sources.closure(words.crates), shutil.ignore_patterns("out", "must-fail")
    with tempfile.TemporaryDirectory() as room:
        room = pathlib.Path(room)
        for name in wanted:
            shutil.copytree(sources.CRATES / name, room / "crates" / name, ignore=left)
        (room / "crates.txt").write_text(kept_rows(sources.TOP, wanted))
        shutil.copy(sources.TOP / "HANDLES", room)
        (room / ".git").mkdir()
        gate(room, wanted)
        print(f"{lay_made(room, wanted)} libraries installed")
    return 0


def about(name):
    """Returns the paragraph of the help about one command."""
    return next(text for text in __doc__.split("\n\n") if text.startswith(f"{name} "))


def arguments():
    words = sources.arguments(__doc__)
    verbs = words.add_subparsers(required=True, dest="command")
    of = {}
    for verb in (make, install, unpack, confirm, prove):
        form = {"description": about(verb.__name__), "formatter_class": words.formatter_class}
        of[verb] = verbs.add_parser(verb.__name__, **form)
        of[verb].set_defaults(verb=verb)
    of[make].add_argument("--built", type=pathlib.Path, metavar="CLONE")
    of[make].add_argument("folder", type=pathlib.Path, metavar="FOLDER")
    of[install].add_argument("--from", type=pathlib.Path, metavar="RELEASE", dest="release")
    of[install].add_argument("prefix", type=pathlib.Path, metavar="PREFIX")
    of[confirm].add_argument("--kept", action="store_true")
    for verb in (unpack, confirm):
        of[verb].add_argument("release", type=pathlib.Path, metavar="RELEASE")
    of[unpack].add_argument("folder", type=pathlib.Path, nargs="?", default=sources.TOP,
                            metavar="FOLDER")
    of[confirm].add_argument("crates", nargs="*", metavar="CRATE")
    of[prove].add_argument("crates", nargs="+", metavar="CRATE")
    return words.parse_args()


if __name__ == "__main__":
    words = arguments()
    sys.exit(words.verb(words))
