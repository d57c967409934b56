#!/usr/bin/env python3
"""Tries mutants: changes that make a crate wrong, each of which the prover must reject.

    tools/mutants.py try [NAME...]    tries the mutants of these crates or of these names (all)
    tools/mutants.py check            reports mutants that no longer apply, and an outdated page
    tools/mutants.py page             writes the tables of tests/MUTANTS.md from the files

    try --marked     tries those with a line `rejected:`, and updates these lines and the page
    try --untried    tries those of them that say `rejected: not tried yet`, in the same way
    try --built DIR  uses the libraries that were built in the checkout DIR; otherwise builds them

The mutants of a crate are in crates/NAME/mutants.txt; tests/MUTANTS.md describes the format. They
are tried in a copy of the crate. Mutants of different functions share one check of these functions.
A mutant that isn't rejected there is tried alone: in its functions, in their modules, and with the
whole crate. Four crates are tried at the same time, or as many as the variable SIDE_BY_SIDE says. A
mutant with a line `vectors:` can't be rejected by the prover; the test vectors of the program on
that line detect it. The status is 0 if all mutants were rejected.
"""

import concurrent.futures
import dataclasses
import datetime
import os
import pathlib
import re
import shutil
import subprocess
import sys
import tempfile
import textwrap

import release
import sources
from sources import TOP

PAGE = TOP / "tests" / "MUTANTS.md"
TABLES = "\n## What was rejected, and when\n"
COLUMNS = "| Mutant | What it does | What rejects it | Date | Commit |\n|---|---|---|---|---|"
# The crates with the code and the definitions of the main claim.
MAIN_CLAIM = "cert_desk_checking", "cert_desk_rules"
# The layers of crates, by how the names of their crates begin.
LAYERS = {
    "Object identifiers": "const_oid", "The core of DER": "der_core",
    "Typed values of DER": "der_types", "Certificates": "x509_cert", "Containers": "pki_",
    "Validation and issuing": "cert_desk", "`cert_tool`": "cert_tool", "Tests": "test_",
}
UNTRIED = "not tried yet"
MUTANT = re.compile(r"^## (.*?)(?:: (.*))?\n((?:(?!## ).*\n)*)", re.M)
# What follows such a heading: a key, a change, or another line.
WITHIN = re.compile(
    r"^(?:(file|vectors|rejected): (.*)\n|((?:-.*\n)+)((?:\+.*\n)*)|(.+)\n)", re.M)
LINE = re.compile(r"(?:note: )?(?:\./)?(?P<path>(?:src|proofs)/\S+?):(?P<line>\d+):\d+: ")
HEADER = re.compile(r"(?:unsafe )?(?:impl\b|(?:pub(?:\(\w+\))? )?trait\b)")
# What a proof file reports if a name is gone, which says nothing about a contract.
NAMES = re.compile(r".*(has no field|is not in scope|has no `|was not admitted|\(nearest: )")
FAULT = re.compile(r"(?:\./)?(?:src|specs|proofs)/\S+?:\d+:\d+: error: ")
# What isn't proved for a reason of its own, not because of something that it calls.
UNPROVED = re.compile(
    r"(?:fn|impl|struct|enum|trait) \w+::(?P<path>\S+): (?:not proved|no proof)(?!.* it calls )"
)


@dataclasses.dataclass(eq=False)
class Mutant:
    """A mutant: its file, its name, what it does, a file, an old and a new text per change, and the
    values of its keys."""

    path: pathlib.Path
    name: str
    text: str
    changes: list = dataclasses.field(default_factory=list)
    file: str = None
    vectors: str = None
    rejected: str = None

    @property
    def crate(self):
        return self.path.parent.name

    @property
    def title(self):
        return f"{self.crate}/{self.name}"

    def changed(self, crate):
        """Returns the new text of each file, and the file and the line of each change."""
        texts, places = {}, []
        for file, old, new in self.changes:
            text = texts.get(file) or (crate / file).read_text()
            if text.count(old) != 1:
                raise ValueError(f"{file} contains this {text.count(old)} times, not once: {old}")
            places.append((file, text[: text.index(old)].count("\n")))
            texts[file] = text.replace(old, new)
        return texts, places

    def apply(self, crate):
        """Changes a copy of the crate, and returns the file and the line of each change."""
        texts, places = self.changed(crate)
        for file, text in texts.items():
            (crate / file).write_text(text)
        return places


def parse(path):
    """Returns the mutants of a file `mutants.txt`."""
    for name, says, below in MUTANT.findall(path.read_text()):
        mutant = Mutant(path, name, says)
        for key, value, old, new, other in WITHIN.findall(below):
            if key:
                setattr(mutant, key, value)
            elif old and mutant.file:
                texts = (re.sub("^.", "", it, flags=re.M).removesuffix("\n") for it in (old, new))
                mutant.changes.append((mutant.file, *texts))
            elif other and not mutant.file:
                mutant.text += f" {other}"
            else:
                sys.exit(f"{path.relative_to(TOP)}: {name}: unexpected line: {old or other}")
        yield mutant


def read_all():
    """Returns the mutants of all crates."""
    return [it for path in sorted(TOP.glob("crates/*/mutants.txt")) for it in parse(path)]


def named(kind, parameters):
    """Returns the prover's name of a type: `Option`, `RefSliceU8`, `Any`."""
    kind = re.sub(r"'\w+,? ?|\w+::", "", kind)
    if kind.startswith("("):
        return f"Tuple{kind.count(',') + 1}" if kind != "()" else "Unit"
    kind = re.sub(r"\[[^;\]]*;[^\]]*\]", "Array", kind).replace("[", "Slice ")
    words = re.findall(r"\w+", kind.replace("&mut ", "RefMut ").replace("&", "Ref "))
    name = ""
    for before, word in zip(["Ref", *words], words):
        if word not in parameters:
            name += word[:1].upper() + word[1:]
        elif before in ("Ref", "RefMut", "Slice"):
            name += "Any"
    return name


def owner(header):
    """Returns the prover's name of an `impl` or a trait."""
    header = re.sub(r"\bwhere\b.*", "", header).strip()
    trait = re.match(r"(?:pub(?:\(\w+\))? )?trait (\w+)", header)
    if trait:
        return trait[1]
    given, body = re.match(rf"(?:unsafe )?impl(?:<({sources.GENERICS})>)? ?(.*)", header).groups("")
    parameters = re.findall(r"(?:^|, )(?:const )?(\w+)\b(?!>)", given)
    stated, _, target = body.partition(" for ")
    if target:
        return named(target, parameters) + named(stated, parameters)
    plain, whole = named(stated.partition("<")[0], parameters), named(stated, parameters)
    return plain if plain == whole else f"{plain}+{whole.removeprefix(plain)}"


def module_of(file):
    """Returns the module path of a file of src/."""
    module = pathlib.PurePath(file).relative_to("src").with_suffix("").parts
    return [it for it in module if it not in ("lib", "main")]


def module_of_type(crate, kind):
    """Returns the path of the module that declares a type, to which the prover counts its inherent
    impls, or None."""
    declared = re.compile(rf"^(?:pub(?:\(\w+\))? )?(?:struct|enum) {re.escape(kind)}\b", re.M)
    paths = (it for it in sorted((crate / "src").rglob("*.rt")) if declared.search(it.read_text()))
    return next((module_of(path.relative_to(crate)) for path in paths), None)


def function_at(crate, file, number):
    """Returns the prover's name of the function that a line belongs to, or None."""

    def part_at(parts):
        return next((it for it in parts if number < it.number - 1 + len(it.lines)), None)

    lines, module = (crate / file).read_text().splitlines(), module_of(file)
    part = part_at(sources.parts_of(lines))
    function = part and sources.FUNCTION.match(part.lines[0])
    if function:
        return "::".join((*module, function[2]))
    if not part or not HEADER.match(part.lines[0]) or number < part.number - 1 + part.opening:
        return None
    member, stated = part_at(part.members), owner(part.header)
    function = member and sources.FUNCTION.match(member.lines[0])
    if not re.search(r"\btrait\b|\bfor\b", part.header):
        module = module_of_type(crate, stated.partition("+")[0]) or module
    return "::".join((*module, stated, function[2])) if function else None


def goals_left(copy, told):
    """Returns the goals that aren't proved, by function."""
    goals = {}
    for line in (line for line in told if not NAMES.match(line)):
        if place := LINE.match(line):
            path = pathlib.PurePath(place["path"])
            if path.parts[0] == "proofs":
                function, goal = "::".join(path.parts[1:-1]), re.search(r"error: `([\w-]+)`", line)
            else:
                function = function_at(copy, path, int(place["line"]) - 1)
                goal = re.search(r"\(`([\w-]+)`\)", line)
            if goal and function:
                goals.setdefault(function, []).append(goal[1])
    if not goals and any(FAULT.match(line) and not NAMES.match(line) for line in told):
        # An `impl` that states a law, or a law whose proof cites a lemma that is false.
        goals = {it["path"]: [] for it in map(UNPROVED.match, told) if it}
    return goals


def clause_of(path, left):
    """Returns the clause that rejects a mutant, given the goals that a function leaves open."""
    *around, name = path.split("::")
    function = "::".join([*(it for it in around if it[0].isupper()), name])
    clause, required = (next(filter(None, (re.search(form, goal) for goal in left)), None)
                        for form in (r"-clause-(\w+)$", r"^(\w+)-requires"))
    if clause:
        return f"`{function}`: `{clause[1]}`"
    # The goal of a function's only clause is called `returns`.
    if required and not any(goal.startswith("returns") for goal in left):
        return f"`{function}`: what `{required[1]}` requires"
    return f"`{function}`"


class Trial:
    """A copy of a crate in which mutants are tried. What one check proves is kept for the next."""

    def __init__(self, crate, room, built):
        self.source, self.copy = TOP / "crates" / crate, room / "crate"
        kit = pathlib.Path(shutil.which("rt")).resolve().parents[1]
        libraries = sources.dependencies()
        root = "src/lib.rt" if (self.source / "src/lib.rt").exists() else "src/main.rt"
        words = [f"{kit}/bin/rattle", "check", "--crate-name", crate, root, "--jobs", "1"]
        words += ["--antt-project", f"{kit}/rattle/logic/antt-project.json"]
        words += ["--logic-built", f"{kit}/logic_built", "-L", f"dependency={kit}/rlibs"]
        for name in ("std", *libraries[crate]):
            folder = built / "crates" / name / "out/rlib" if name in libraries else kit / "rlibs"
            words += ["--extern", f"{name}={folder}/{name}.rlib"]
        for name in sources.closure(libraries[crate]):
            words += ["-L", f"dependency={built}/crates/{name}/out/rlib"]
        words += ["--links", f"{crate}="] if root.endswith("main.rt") else []
        self.words = [*words, "--incremental", str(room / "kept")]

    def apply(self, mutants):
        """Makes the copy anew with these mutants. Returns the places that each changes."""
        shutil.rmtree(self.copy, ignore_errors=True)
        left = shutil.ignore_patterns("out", "must-fail", "data")
        shutil.copytree(self.source, self.copy, ignore=left)
        return [mutant.apply(self.copy) for mutant in mutants]

    def goals(self, functions):
        """Checks these functions, or all if there are none. Returns open goals, and an error."""
        only = [word for name in functions for word in ("--only", name)]
        ran = subprocess.run([*self.words, *only], cwd=self.copy, text=True, capture_output=True)
        told = (ran.stdout + ran.stderr).splitlines()
        if any(line.startswith("fn ") for line in told):
            return goals_left(self.copy, told), None
        return {}, next((line for line in told if "error" in line), "the prover printed nothing")

    def together(self, changed):
        """Returns what rejects each of some mutants, given the functions that each changes."""
        try:
            self.apply(changed)
            goals, error = self.goals(sorted(set().union(*changed.values())))
        except ValueError as hidden:
            goals, error = {}, hidden
        if error and len(changed) > 1:
            pairs, half = list(changed.items()), len(changed) // 2
            return self.together(dict(pairs[:half])) | self.together(dict(pairs[half:]))
        left = {it: next(filter(goals.__contains__, sorted(changed[it])), None) for it in changed}
        return {it: clause_of(name, goals[name]) for it, name in left.items() if name}

    def alone(self, mutant):
        """Returns what rejects a mutant, or None and why it wasn't rejected."""
        try:
            places = [it for it in self.apply([mutant])[0] if it[0].startswith("src/")]
        except (OSError, ValueError) as error:
            return None, f"DOES NOT APPLY: {error}"
        names = {function_at(self.copy, *place) for place in places} - {None}
        modules = {"::".join(module_of(file)) for file, _ in places} - {""}
        for functions in [it for it in (sorted(names), sorted(modules)) if it] + [[]]:
            goals, error = self.goals(functions)
            if error and "has no function" not in error:
                return None, f"CANNOT BE READ: {error[:200]}"
            if goals:
                return clause_of(*next(iter(goals.items()))), None
        return None, "NOT REJECTED"

    def groups(self, mutants):
        """Returns the mutants that share a check, with the functions that each of them changes."""
        found = []
        for mutant in mutants:
            try:
                places = self.apply([mutant])[0]
            except (OSError, ValueError):
                continue
            functions = {it[0].startswith("src/") and function_at(self.copy, *it) for it in places}
            if all(functions):
                free = (it for it in found if functions.isdisjoint(set().union(*it.values())))
                group = next(free, None)
                if group is None:
                    found.append(group := {})
                group[mutant] = functions
        return [group for group in found if len(group) > 1]


def try_crate(crate, mutants, built):
    """Returns what rejects each mutant of a crate, or None."""
    with tempfile.TemporaryDirectory() as folder:
        trial, found = Trial(crate, pathlib.Path(folder), built), {}
        for group in trial.groups(mutants):
            found.update(trial.together(group))
        for it in mutants:
            found[it], why = (found[it], None) if it in found else trial.alone(it)
            print(f"{it.title}: {why or f'rejected: {found[it]}'}", flush=True)
    return found


def try_vectors(mutant):
    """Returns the test vectors, named by the line `vectors:`, whose answers change, or None."""
    program, word = mutant.vectors.split()
    with tempfile.TemporaryDirectory() as folder:
        crates = pathlib.Path(folder) / "top/crates"
        left = shutil.ignore_patterns("out", "must-fail", ".git")
        shutil.copytree(TOP, crates.parent, ignore=left)
        mutant.apply(crates / mutant.crate)
        texts = [(crates / program / it).read_text() for it in ("stdin", "stdout")]
        rows = [row for row in zip(*map(str.splitlines, texts)) if row[0].startswith(f"{word} ")]
        asked, wanted = zip(*rows[:20])
        given = {"input": "\n".join([*asked, ""]), "text": True, "capture_output": True}
        ran = subprocess.run(["rt", "try"], cwd=crates / program, **given)
    others = sum(one != other for one, other in zip(wanted, ran.stdout.splitlines()))
    print(f"{mutant.title}: {others} of {len(asked)} test vectors of {program} differ", flush=True)
    return f"test vectors `{word}` of `{program}`" if others else None


def try_all(mutants, built):
    """Returns what rejects each mutant, or None. Several crates are tried at once."""
    by_crate, by_vectors = {}, [it for it in mutants if it.vectors]
    for mutant in (it for it in mutants if not it.vectors):
        by_crate.setdefault(mutant.crate, []).append(mutant)
    if built is None:
        libraries = sources.dependencies()
        for name in sources.closure([it for crate in by_crate for it in libraries[crate]]):
            folder = TOP / "crates" / name
            subprocess.run(["rt", "lib"], cwd=folder, check=True, capture_output=True)
    longest = sorted(by_crate.items(), key=lambda pair: -len(pair[1]))
    with concurrent.futures.ThreadPoolExecutor(int(os.environ.get("SIDE_BY_SIDE", "4"))) as pool:
        tries = [pool.submit(try_crate, *pair, built or TOP) for pair in longest]
        found = dict(zip(by_vectors, pool.map(try_vectors, by_vectors)))
        return found | {it: clause for done in tries for it, clause in done.result().items()}


def mark(found):
    """Writes what rejected each mutant, the day and the commit into the files."""
    commit = release.asked("git", "rev-parse", "--short=8", "HEAD")
    if release.asked("git", "status", "--porcelain", "crates", ":!crates/*/mutants.txt"):
        commit += "+changes"
    for it, clause in found.items():
        said = f"{datetime.date.today()} {commit} {clause or 'NOT REJECTED'}"
        head, name, below = it.path.read_text().partition(f"\n## {it.name}: ")
        below = re.sub(r"^rejected: .*$", lambda _: f"rejected: {said}", below, 1, re.M)
        it.path.write_text(head + name + below)


def as_rust(clause, crate):
    """Returns a clause in which the name of an impl, such as `TypeTrait::f`, is as in Rust."""
    for path in sorted((TOP / "crates" / crate / "src").rglob("*.rt")):
        for trait, kind in re.findall(r"^impl\b(.*) for (\w+)", path.read_text(), re.M):
            trait = re.findall(r"\w+", re.sub(r"<[^<>]*>", "", re.sub(r"<[^<>]*>", "", trait)))[-1:]
            glued, both = f"`{kind}{''.join(trait)}::", f"`<{kind} as {''.join(trait)}>::"
            clause = clause.replace(glued, both)
    return clause


def table(mutants):
    """Returns the lines of a table of mutants with a recorded result."""
    yield COLUMNS
    for it in mutants:
        day, commit, clause = it.rejected.split(" ", 2)
        link = f"[`{it.title}`](../crates/{it.crate}/mutants.txt)"
        does = it.text.partition(" Test vectors notice")[0]
        yield f"| {link} | {does} | {as_rust(clause, it.crate)} | {day} | {commit} |"


def page():
    """Returns the page: its text as it is, but for the counts, and its tables from the marks."""
    every, rows = read_all(), []
    lines = ["", "The third column has the function and the clause at which the prover stopped. If "
             "it has no clause, a",
             "law rejected the mutant, or the prover didn't name the clause."]
    waiting = [it for it in every if it.rejected == UNTRIED]
    recorded = [it for it in every if it.rejected and it not in waiting]
    for layer, begin in LAYERS.items():
        here = [it for it in every if it.crate.startswith(begin)]
        told = [it for it in here if it in recorded]
        rows += [f"| {layer} | {len(here):,} | {len(told)} |"] * bool(here)
        lines += ["", f"### {layer}", "", *table(told)] * bool(told)
    vectors = sum(bool(it.vectors) for it in recorded)
    main = [it for it in every if it.crate in MAIN_CLAIM]
    summary = (
        f"Of these {len(recorded)}, the prover rejected {len(recorded) - vectors}, and only test "
        f"vectors detect the other {vectors}. For all others, the repository records no result, so "
        f"they are no evidence. [{len(waiting)}](#to-be-tried) of them haven't been tried in their "
        f"present form. Of the {len(main)} mutants of the [main "
        "claim](../docs/TRUST.md#the-main-claim), which are those of "
        f"{' and '.join(f'`{it}`' for it in MAIN_CLAIM)}, {len({*main} & {*recorded})} have a "
        "recorded result.")
    counts = "\n".join(["| Layer | Mutants | With a recorded result |", "|---|---|---|", *rows,
        f"| all | {len(every):,} | {len(recorded)} |", "", textwrap.fill(summary, 100) + "\n\n"])
    text = re.sub(r"^\| Layer .*?(?=^A result is)", counts, PAGE.read_text(), 1, re.M | re.S)
    lines += ["", "### To be tried", "", f"{len(waiting)} mutants were never tried, or they or "
              "their code have changed since:", "", *(f"- `{it.title}`" for it in waiting)]
    return "\n".join([text.partition(TABLES)[0] + TABLES, *lines[1:]]) + "\n"


def check(mutants):
    """Prints mutants that don't apply, names that are used twice, and a page out of date."""
    errors, titles = [], [it.title for it in mutants]
    for it in mutants:
        try:
            it.changed(it.path.parent)
        except (OSError, ValueError) as error:
            errors.append(f"{it.title}: {error}")
        if not it.changes or titles.count(it.title) > 1:
            errors.append(f"{it.title}: it has no change, or another mutant has its name")
    if PAGE.read_text() != page():
        errors.append(f"{PAGE.relative_to(TOP)} is out of date: tools/mutants.py page writes it")
    print(*errors, f"{len(mutants)} mutants, {len(errors)} errors", sep="\n")
    return bool(errors)


def main():
    words = sources.arguments(__doc__)
    words.add_argument("verb", choices=["try", "check", "page"])
    words.add_argument("--marked", dest="marks", action="store_const", const=".", default="")
    words.add_argument("--untried", dest="marks", action="store_const", const=UNTRIED)
    words.add_argument("--built", type=pathlib.Path)
    words.add_argument("names", nargs="*")
    words = words.parse_intermixed_args()
    mutants, names = read_all(), set(words.names)
    if words.verb == "check":
        return check(mutants)
    if words.verb == "try":
        unknown = names - {name for it in mutants for name in (it.crate, it.name)}
        if unknown:
            sys.exit(f"no crate or mutant has the name {', '.join(sorted(unknown))}")
        mutants = [it for it in mutants if re.match(words.marks, it.rejected or "")]
        mutants = [it for it in mutants if not names or {it.crate, it.name} & names]
        found = try_all(mutants, words.built and words.built.resolve())
        rejected = sum(1 for it in mutants if found[it])
        print(f"{rejected} rejected, {len(mutants) - rejected} not rejected")
        if not words.marks:
            return rejected != len(mutants)
        mark(found)
    PAGE.write_text(page())
    return words.verb == "try" and rejected != len(mutants)


if __name__ == "__main__":
    sys.exit(main())
