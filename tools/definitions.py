#!/usr/bin/env python3
"""Lists the definitions that a reader has to trust for each claim.

    tools/definitions.py            writes the numbers and tables of docs/tables/DEFINITIONS.md
    tools/definitions.py --check    writes nothing; the status is 1 if that page is out of date, or
                                    an import names no definition
    tools/definitions.py CALL...    lists the definitions on which the contracts of these calls rest

A CALL is a function (`check`, or `cert_desk_checking::check` with its crate), a method
(`Issued::audit`), or a type with its invariant (`Issued`). Each line of the list names a definition
and its place, after one of these words:

    cited    a clause of the call names the definition
    below    a definition of the list uses it
    ghost    a ghost member through which the contract sees an argument

The definitions of the kit (`std/specs`) aren't counted. A variable of a `λ` with the name of a
definition counts as the definition, so the list can be too long by such names, and is never too
short.
"""

import itertools
import re
import signal
import sys
import textwrap

import sources

PAGE = sources.TOP / "docs" / "tables" / "DEFINITIONS.md"
PROOFS = "## Proofs in `specs/`"


class Book:
    """The definitions by their files, the files of code, their calls, and the ghost members."""

    def __init__(self):
        self.files, self.code = sources.read_all()
        self.calls = [call for source in self.code for call in source.calls]
        self.ghosts = [call for call in self.calls if call.is_ghost]

    def find(self, name):
        """Returns the calls with this name (the public ones, if there are any), or the ghost
        members of the type with this name."""
        crate, _, bare = name.partition("::")
        calls = [call for call in self.calls if call.crate == crate and bare]
        name, calls = (bare, calls) if calls else (name, self.calls)
        found = [call for call in calls if call.title == name]
        found = [call for call in found if call.public] or found
        stated = [call for call in calls if call.owner == name and call.is_ghost]
        return [call for call in found if call.clauses] or found or stated

    def rests_on(self, calls):
        """Returns the definitions that contracts of calls rest on, without proofs of members."""
        found = sources.reached(self.files, [key for call in calls for key in call.cites])
        return [one for _, one in sorted(found.items()) if one.sort != "proof"]

    def members_of(self, calls):
        """Returns the ghost members through which the contracts of calls see their arguments."""
        models = [member for member in self.ghosts if member.stated == "Model"]
        told = [member for source in self.code for member in source.declared]
        found = {call for call in calls if call.is_ghost}
        for call in (call for call in calls if not call.is_ghost):
            below = sources.closure([call.crate])
            types = set(re.findall(r"\w+", call.text.removesuffix(call.contract)))
            types |= {call.owner} if "self" in types else set()
            found |= {member for member in models if member.owner in types}
            for name in set(re.findall(r"\b(?:Self|[A-Z])\.(\w+)", call.contract)):
                named = {it for it in told if it.name == f"ghost {name}" and it.crate in below}
                found |= {it for it in named if it.owner in types} or named
        return found


# The page.


def filled(line, indent=""):
    """Returns a paragraph, or an item of a list, in lines of at most 100 columns."""
    how = {"break_long_words": False, "break_on_hyphens": False, "subsequent_indent": indent}
    return textwrap.fill(line, sources.WIDTH, **how)


def many(count, noun):
    return f"{count} {noun}{'s' * (count != 1)}"


def claim(book, words, names):
    """Returns a row of the table of claims, with the numbers of the calls that it names."""
    calls = [call for name in re.findall("`(.+?)`", names) for call in book.find(name)]
    kept = book.rests_on(calls)
    lines, files = sum(one.lines for one in kept), len({one.key[:2] for one in kept})
    members = len(book.members_of(calls))
    return f"| {words} | {names} | {len(kept)} | {lines} | {files} | {members} |"


def file_row(file):
    """Returns the row of a file in the table of its crate, or None if there is nothing to read. It
    has the first sentence of the comment at the head, up to a colon if the sentence is long."""
    count = sum(one.sort != "proof" for one in file.definitions.values())
    head = itertools.takewhile(lambda line: line.startswith("--"), file.lines)
    text = " ".join(line[2:].strip() for line in head).replace("|", "\\|").replace("<", "\\<")
    text = text.partition(". ")[0].rstrip(".:")
    text = text if len(text.split()) < 16 else text.partition(": ")[0]
    link = f"[`{file.name}`](../../crates/{file.crate}/specs/{file.name}.antt)"
    return f"| {link} | {len(file.lines)} | {count} | {text} |" if count else None


def sizes():
    """Returns the sentence about the number of lines, in thousands."""
    counts = []
    for files in ("src/**/*.rt", "specs/**/*.antt", "proofs/**/*.antt"):
        paths = [it for crate in sources.dependencies()
                 for it in (sources.TOP / "crates" / crate).glob(files)]
        counts.append(round(sum(len(it.read_text().splitlines()) for it in paths), -3))
    code, definitions, lemmas = (f"{count:,}" for count in counts)
    return filled(f"The crates have some {code} lines of code with its contracts (`src/`), "
                  f"{definitions} of definitions (`specs/`) and {lemmas} of proofs (`proofs/`), "
                  "with comments and blank lines.")


def section(book, crate, own):
    """Returns the section of a crate, given its files of definitions."""
    rows = {file: row for file in own if (row := file_row(file))}
    stated = [call for call in book.ghosts if call.crate == crate]
    size = sum(len(call.text.splitlines()) for call in stated)
    lines = sum(len(file.lines) for file in rows)
    total = f"{many(len(rows), 'file')}, {many(lines, 'line')}"
    members = f"{many(len(stated), 'ghost member')} of impls, {many(size, 'line')}"
    yield filled("; ".join([total] * bool(rows) + [members] * bool(stated)) + ".")
    head = "| File | Lines | Definitions | What it says |\n|---|---|---|---|\n"
    yield head + "\n".join(rows.values()) if rows else ""
    passing = ", ".join(f"`{it.name}`" for it in own if it.passed_on and it not in rows)
    yield filled(f"Passed on from the crates below: {passing}.") if passing else ""


def proofs(book):
    """Returns the paragraph about proofs in `specs/`."""
    found = [one for file in book.files.values() for one in file.definitions.values()
             if one.sort == "proof"]
    direct = set().union(*(call.cites for call in book.ghosts))
    behind_them = sources.reached(book.files, direct, proofs=True)
    counted = sum(proof.key in direct for proof in found)
    serving = sum(proof.key in behind_them for proof in found) - counted
    told = (
        f"`specs/` also has {len(found)} proofs that no definition names; you don't have to read "
        f"them. Ghost members name {counted} of them, for example that an order is total, because "
        "a ghost member can import only from `specs/` of its own crate. The trait states what such "
        f"a proof shows. These {counted} proofs use the other {serving}"
    )
    left = [proof for proof in found if proof.key not in behind_them]
    yield filled(told + (". These belong into `proofs/`:" if left else "."))
    yield "\n".join(f"- `{it.crate}/specs/{it.file}`: `{it.name}` ({it.line})." for it in left)


def page(book):
    """Returns the page. Its text and its claims are kept, and the rest is written from the sources.

    Files that only re-export definitions or open them are left out.
    """
    crates = {}
    for crate in sources.closure(sources.dependencies()):
        files = [file for file in book.files.values() if file.crate == crate]
        crates[crate] = [file for file in files if file.name not in ("Lib", "Opened")]
    crates = {crate: own for crate, own in crates.items() if own}
    links = filled(f"- By crate: {', '.join(f'[`{it}`](#{it})' for it in crates)}", "  ")
    text = PAGE.read_text().partition("\n\n## `")[0]
    text = re.sub(r"^The crates have some .*?(?=\n\n)", sizes(), text, flags=re.M | re.S)
    text = re.sub(r"^- By crate: .*?$(?=\n- )", links, text, flags=re.M | re.S)
    text = re.sub(r"^\| (.+) \| (`.+`) \|.*$", lambda row: claim(book, *row.groups()), text,
                  flags=re.M)
    parts = [text]
    for crate, own in crates.items():
        parts += [f"## `{crate}`", *section(book, crate, own)]
    return "\n\n".join(filter(None, [*parts, PROOFS, *proofs(book)])) + "\n"


def told(book, names):
    """Prints each definition that the contracts of these calls rest on."""
    unknown = [name for name in names if not book.find(name)]
    calls = [call for name in names for call in book.find(name)]
    for name in unknown:
        print(f"there is no function or type {name}", file=sys.stderr)
    for call in calls:
        print(f"{call.title}: crates/{call.crate}/src/{call.path}:{call.line}")
    cited, kept = {key for call in calls for key in call.cites}, book.rests_on(calls)
    for one in kept:
        mark = "cited" if one.key in cited else "below"
        print(f"  {mark} {one.name}: crates/{one.crate}/specs/{one.file}.antt:{one.line}")
    for member in sorted(book.members_of(calls), key=lambda it: (it.crate, it.path, it.line)):
        name = member.name.removeprefix("ghost ")
        place = f"crates/{member.crate}/src/{member.path}:{member.line}"
        print(f"  ghost {member.owner}.{name}: {place}")
    lines = sum(one.lines for one in kept)
    print(f"{many(len(kept), 'definition')}, {many(lines, 'line')}")
    return bool(unknown)


def check(book):
    """Returns whether an import names no definition, or the page is out of date."""
    faults = [f"{it}: an import that names no definition"
              for it in sources.lost(book.files, book.code)]
    if not faults and PAGE.read_text() != page(book):
        faults = ["docs/tables/DEFINITIONS.md is out of date: run tools/definitions.py"]
    print(*faults, sep="\n", end="\n" if faults else "", file=sys.stderr)
    return bool(faults)


def main():
    words = sources.arguments(__doc__)
    words.add_argument("--check", action="store_true")
    words.add_argument("calls", nargs="*", metavar="CALL")
    words = words.parse_args()
    if words.check:
        return check(Book())
    if words.calls:
        # A reader that ends early, such as `head`, ends this program silently.
        signal.signal(signal.SIGPIPE, signal.SIG_DFL)
        return told(Book(), words.calls)
    PAGE.write_text(page(Book()))
    return 0


if __name__ == "__main__":
    sys.exit(main())
