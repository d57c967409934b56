#!/usr/bin/env python3
"""Copies crates of this repository, with their dependencies, into another repository.

    tools/take.py [--again] [--edits] [--release RELEASE] CRATE... FOLDER

Copies src/, specs/ and proofs/ of each crate to FOLDER/crates, adds their lines to
FOLDER/crates.txt, and writes the version of each crate to FOLDER/TAKEN.md. A crate that exists
there is kept.

--again      replaces existing crates
--edits      also copies must-fail/, the mutants that `rt ci` tries
--release    also installs the proved libraries of a release, as tools/release.py does, so that `rt`
             doesn't prove them again; this needs the kit and zstd
"""

import pathlib
import re
import shutil

import release
import sources


def note(path, taken):
    """Writes the version of each crate. Those that were copied now have the present version."""
    versions, head = {}, ""
    for line in path.read_text().splitlines() if path.exists() else []:
        head = head if not line or line.startswith("- ") else line
        if line.startswith("- "):
            versions[line] = head
    commit = release.asked("git", "rev-parse", "--short=12", "HEAD") or "unknown"
    now = f"Taken from Wurstdrape {sources.version()}, commit {commit}, under Apache-2.0 or MIT:"
    versions |= {f"- `{name}`": now for name in taken}
    parts = ["\n".join([head, "", *(it for it in versions if versions[it] == head)])
             for head in dict.fromkeys(versions.values())]
    path.write_text("\n\n".join(parts) + "\n")


def take(lines, folder, again, parts):
    """Copies these parts of the crates, given their lines of crates.txt. Returns the names."""
    (folder / "crates").mkdir(parents=True, exist_ok=True)
    listing, taken = folder / "crates.txt", []
    text = listing.read_text() if listing.exists() else ""
    for name, line in lines.items():
        target = folder / "crates" / name
        if target.exists() and not again:
            print(f"{name}: already there, and kept (--again replaces it)")
            continue
        for part in parts:
            shutil.rmtree(target / part, ignore_errors=True)
            if (sources.CRATES / name / part).is_dir():
                shutil.copytree(sources.CRATES / name / part, target / part)
        text, found = re.subn(rf"^{name}\b.*$", line, text, flags=re.M)
        if not found:
            text = text.rstrip("\n") + "\n" * bool(text) + line + "\n"
        taken.append(name)
    listing.write_text(text)
    note(folder / "TAKEN.md", taken)
    return taken


def main():
    words = sources.arguments(__doc__)
    words.add_argument("--release", type=pathlib.Path)
    words.add_argument("--again", action="store_true")
    words.add_argument("--edits", action="store_true")
    words.add_argument("names", nargs="+", metavar="CRATE")
    words.add_argument("folder", type=pathlib.Path, metavar="FOLDER")
    given, rows, crates = words.parse_args(), sources.rows(), sources.dependencies()
    unknown = [name for name in given.names if name not in crates]
    if unknown:
        words.error(f"this repository has no crate {unknown[0]}")
    # What can't be installed is reported before anything is written.
    if given.release:
        release.same_kit(release.read(given.release))
        release.asked("zstd", "--version")
    lines = {name: rows[name] for name in sources.closure(given.names)}
    parts = ["src", "specs", "proofs", *["must-fail"] * given.edits]
    taken = take(lines, given.folder, given.again, parts)
    libraries = sorted({it for name in lines for it in crates[name]} - set(crates))
    print(f"taken: {' '.join(taken) or 'nothing'}")
    print(f"libraries of the kit: {' '.join(libraries) or 'none'}")
    if given.release:
        release.lay(given.release, given.folder)


if __name__ == "__main__":
    main()
