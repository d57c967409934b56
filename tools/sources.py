"""Parses the sources for the scripts of this folder: crates, definitions, contracts and items.

It parses crates.txt, and `specs/` and `src/` of each crate in the layout of `rt fmt`.
"""

import argparse
import collections
import pathlib
import re

TOP = pathlib.Path(__file__).resolve().parent.parent
CRATES = TOP / "crates"
# The largest number of columns of a line, except in tables and in the output of programs.
WIDTH = 100


def arguments(told):
    """Returns a parser of a script's arguments, given the text of `--help`."""
    form = argparse.RawDescriptionHelpFormatter
    return argparse.ArgumentParser(description=told, formatter_class=form)


# Tables, the version, and crates.txt.


def cells(row):
    """Returns the cells of a row of a table in Markdown."""
    return [cell.strip() for cell in re.split(r"(?<!\\)\|", row.strip())[1:-1]]


def version(top=TOP):
    """Returns the number of the last version in a repository's CHANGELOG.md."""
    return re.search(r"^## (\d\S*)", (top / "CHANGELOG.md").read_text(), re.M)[1]


def rows(top=TOP):
    """Returns each crate of a repository's crates.txt with its line, in the order of the file."""
    text = (top / "crates.txt").read_text()
    return {match[1]: match[0].rstrip() for match in re.finditer(r"^(\w+)[^#\n]*", text, re.M)}


def dependencies(top=TOP):
    """Returns each crate of a repository's crates.txt with the libraries that its line names."""
    return {name: line.partition(":")[2].split() for name, line in rows(top).items()}


def closure(names, crates=None):
    """Returns these crates and their dependencies in crates.txt, the lowest first."""
    crates, order = dependencies() if crates is None else crates, {}

    def visit(name):
        if name in crates and name not in order:
            for below in crates[name]:
                visit(below)
            order[name] = True

    for name in names:
        visit(name)
    return list(order)


# The names that `use` lines import, of definitions and of code.

USED = re.compile(r"(pub )?use ((?:\w+(?:::|\.))*)(?:\{(.*)\}|(\w+|\*)(?: as (\w+))?);?$")


def uses_in(line):
    """Yields each name of a `use` line: whether it is public, the path, the name and its alias."""
    match = USED.search(line)
    path = re.split(r"::|\.", match[2])[:-1] if match else []
    for part in (match[3] or match[4]).split(",") if match else ():
        name, _, alias = part.strip().partition(" as ")
        *more, name = name.split("::")
        if name:
            yield bool(match[1]), [*path, *more], name, match[5] or alias or name


class Imports(dict):
    """Maps each imported name to its definition or its file, as a path from its crate."""

    def read(self, line):
        """Adds the names of a `use` line that imports definitions."""
        for _, path, name, alias in uses_in(line):
            path = [*path, name]
            if path[0] == "Rattle" and path[2:3] == ["specs"]:
                self[alias] = (path[1], *path[3:])

    def find(self, word):
        """Returns the path of a word: the path of its first name, followed by its other names."""
        head, *rest = word.split(".")
        return (*self[head], *rest) if head in self else None


# The definitions: files of `specs/`.

COMMENT = re.compile(r"(?:^|(?<=\s))(?:--|//).*$", re.M)
SIGN = re.compile(r"(?<=\s)[^\w\s(){},]+(?=\s)")
WORD = re.compile(r"(?<![\w.'-])[^\W\d][\w'-]*(?:\.[^\W\d][\w'-]*)*")
LABEL = re.compile(r"(?:(?<=[{;])|^)\s*[\w'-]+ =(?=\s)", re.M)
FIELD = re.compile(r"^ +(?:pub )?[\w'-]+(?: [\w'-]+)* :(?=\s)", re.M)
SIGNATURE = re.compile(
    r"(?!unfolding )(?P<opened>abbrev |unfoldable )?(?P<pub>pub )?(?P<sort>data |record )?"
    r"(?P<name>[^\s:({]+)\s*(?P<rest>.*)$"
)
CASE = re.compile(r"  (\w+) :")
BLOCK = re.compile(r"(?P<opened>abbrev |unfoldable )?(?:mutual|module \S+.*)$")
Block = collections.namedtuple("Block", "opened parameters")


class Definition:
    """A definition in a file of `specs/`: its text, and the names that it cites.

    `lines` includes the lines of its comment. `around` has the parameters of the enclosing modules.
    """

    def __init__(self, file, match, number, block, comment):
        self.key = self.crate, self.file, self.name = file.crate, file.name, match["name"]
        self.line, self.lines, self.around = number, comment, block.parameters
        opened = (match["opened"] or "").strip() or block.opened
        self.sort = (match["sort"] or "").strip() or opened or "proof"
        self.text, self.proof = "", ""
        self.cases, self.cites, self.serving = set(), set(), set()

    def add(self, line):
        """Adds a line. The text of a proof is its statement only: readers skip the rest."""
        if self.sort == "proof" and (self.proof or line.startswith(f"{self.name} ") and self.text):
            self.proof += line + "\n"
        else:
            self.text += line + "\n"
            self.lines += 1

    @property
    def clauses(self):
        """The text in parts, each with the patterns before its `=`, if it has any.

        Names that the definition declares itself, such as fields, are left out.
        """
        text = LABEL.sub(" ", self.text)
        if self.sort in ("data", "record"):
            return [("", FIELD.sub(" ", text))]
        first, *parts = re.split(rf"^(?={re.escape(self.name)} (?!:))", text, flags=re.M)
        return [("", first), *((part[: max(part.find(" ="), 0)], part) for part in parts)]


def unnested(lines):
    """Yields each line with its number, without the indentation of enclosing blocks (`mutual`,
    modules), and with what these blocks say about it: the word before `mutual`, and the parameters
    of modules.
    """
    blocks, numbered = [Block("", "")], iter(enumerate(lines, 1))
    for number, line in numbered:
        while line.strip() and not line.startswith("  " * (len(blocks) - 1)):
            blocks.pop()
        line = line[2 * (len(blocks) - 1) :]
        match = BLOCK.match(line)
        if not match:
            yield number, line, blocks[-1]
            continue
        while "module" in line and not line.endswith("where"):
            line += " " + next(numbered)[1].strip()
        opened = (match["opened"] or "").strip() or blocks[-1].opened
        blocks.append(Block(opened, f"{blocks[-1].parameters}{line}\n"))


class SpecFile:
    """A file of `specs/`: its definitions, and the names that it imports and re-exports."""

    def __init__(self, path):
        self.path, self.crate, self.name = path, path.parts[-3], path.stem
        self.lines = path.read_text().splitlines()
        self.definitions, self.cases = {}, {}
        self.imports, self.passed_on = Imports(), Imports()
        current, comment = None, 0
        for number, line, block in unnested(self.lines):
            use = re.match(r"(?:abbrev |unfoldable )?(pub )?use ", line)
            if use or not line.strip():
                current, comment = None, 0
                self.imports.read(line)
                if use and use[1]:
                    self.passed_on.read(line)
            elif line.startswith("--"):
                current, comment = None, comment + 1
            elif line[0].isspace():
                self.add_to(current, line)
            elif match := SIGNATURE.match(line):
                begun = self.begun(match, number, block, comment)
                current, comment = begun or current, 0 if begun or current else comment
                self.add_to(current, line)

    def find(self, name):
        """Returns the definition of a name; for a case, that of its type."""
        return self.definitions.get(name) or self.cases.get(name)

    def add_to(self, definition, line):
        """Adds a line, which may be a case of a type, to its definition, if it has one."""
        if definition:
            definition.add(line)
            case = CASE.match(line)
            if case and definition.sort == "data":
                self.cases[case[1]] = definition
                definition.cases.add(case[1])

    def begun(self, match, number, block, comment):
        """Returns the definition that begins with an unindented line, or None if the line is an
        operator's clause, which begins with an argument."""
        name, is_opened = match["name"], match["opened"] or block.opened or match["sort"]
        if name in self.definitions or is_opened or re.match(r"(\{.*\} )?:", match["rest"]):
            new = Definition(self, match, number, block, comment)
            return self.definitions.setdefault(name, new)
        return None


# The code: files of `src/`.

FUNCTION = re.compile(r'(pub )?(?:pub\(\w+\) |final |const |unsafe |extern "C" )*fn (\w+)')
DECLARED = re.compile(
    r"(?:pub(?:\(\w+\))? )?(?:unsafe )?(struct|enum|trait|type|const|static|macro_rules!) (\w+)"
)
CLAUSE = re.compile(r"^\s+(requires|ensures)\b\*? ?(\w*)", re.M)
# The text between the brackets of generic parameters, which are nested at most three deep.
GENERICS = r"(?:->|[^<>]|<(?:->|[^<>]|<(?:->|[^<>])*>)*>)*"


class Part:
    """An item of a file or a member of an impl, with the comments and attributes above it."""

    def __init__(self, number, above):
        self.number, self.above, self.lines = number, above, []

    @property
    def opening(self):
        """The number of lines of an impl, a trait or a module up to its opening bracket."""
        return next(at for at, it in enumerate(self.lines, 1) if it.endswith(("{", "}", ";")))

    @property
    def header(self):
        """The text before the opening bracket, as one line."""
        header = " ".join(line.strip() for line in self.lines[: self.opening])
        return re.sub(r"\s*\{\}?$", "", header)

    @property
    def body(self):
        """The lines between the brackets."""
        return [line.removeprefix("    ") for line in self.lines[self.opening :] if line != "}"]

    @property
    def members(self):
        """The parts between the brackets."""
        return parts_of(self.body, self.number + self.opening - 1)

    @property
    def signature(self):
        """The lines of a function before its body."""
        has_clause = False
        for at, line in enumerate(self.lines):
            has_clause = has_clause or CLAUSE.match(line)
            if line in ("{", "{}"):
                return self.lines[:at]
            if not has_clause and line.endswith(("{", "{}")):
                return self.lines[: at + 1]
        return self.lines


def parts_of(lines, before=0):
    """Returns the parts that begin with an unindented line, given the number of lines before."""
    parts, above, part = [], [], None
    for number, line in enumerate(lines, before + 1):
        begins = line[:1].strip() and line[0] not in "{})]>" and not line.startswith("where")
        if begins and line.startswith(("//", "#")):
            part = None
        elif begins:
            part, above = Part(number, above), []
            parts.append(part)
        if part:
            part.lines.append(line)
        elif line:
            above.append(line)
    return parts


class Call:
    """A function with a contract, or a `ghost` member of an impl, which states a fact of a type."""

    def __init__(self, source, part, name, owner=None, stated=None, public=False):
        self.crate, self.path, self.name, self.line = source.crate, source.name, name, part.number
        self.owner, self.stated, self.public = owner, stated, public
        self.is_ghost = part.lines[0].startswith("ghost ")
        self.text = "\n".join(part.lines if self.is_ghost else part.signature).rstrip() + "\n"
        comment = (line for line in part.above if line.startswith("///"))
        self.doc = next(comment, "").removeprefix("///").removeprefix(" ")
        first = None if self.is_ghost else CLAUSE.search(self.text)
        # The text of the clauses; for a ghost member, the whole text.
        self.contract = self.text[first.start() if first else 0 :] * bool(first or self.is_ghost)
        self.clauses = CLAUSE.findall(self.contract) if first else []
        self.title = f"{owner}::{name}" if owner else name
        self.is_exported = self.text.startswith('pub extern "C"')
        self.cites = set()


def members(source, part, owner, stated=None, public=False):
    """Returns the functions and ghost members of an impl or a trait; `public`: all are public."""
    for member in part.members:
        ghost = re.match(r"ghost \w+(?= ?[:=])", member.lines[0])
        match = FUNCTION.match(member.lines[0])
        if ghost or match:
            name, is_public = ghost[0] if ghost else match[2], ghost or public or match[1]
            yield Call(source, member, name, owner, stated, bool(is_public))


class Item:
    """A type, a trait, a constant, a macro or a function outside of impls."""

    def __init__(self, kind, name, part, call=None):
        self.kind, self.name, self.call = kind, name, call
        self.derives = [line for line in part.above if line.startswith("#[derive")]
        self.text = "\n".join([*self.derives, *part.lines]).rstrip()
        self.is_macro = kind == "macro_rules!"
        self.is_public = self.is_macro or part.lines[0].startswith("pub ")
        self.methods, self.impls, self.imports = [], [], []


class Impl:
    """An impl block: its type, its trait if it has one, and its members."""

    def __init__(self, source, part):
        self.source, header = source, re.sub(rf"^impl(<{GENERICS}>)?\s*", "", part.header)
        self.stated, _, self.of = header.partition(" for ")
        name = re.match(r"&?(?:'\w+ )?(?:mut )?([\w:\[(]+)", self.of or self.stated)
        self.owner = name[1] if name else self.of or self.stated
        self.trait = re.match(r"[\w:]+", self.stated)[0] if self.of else None
        self.members = list(members(source, part, self.owner, self.trait, bool(self.of)))


class Source:
    """A file of `src/`, or a module in braces: its items, impls, modules and `use` lines.

    `calls` has the functions and the ghost members, in the order of the file, and `declared` the
    ghost members that traits declare.
    """

    def __init__(self, crate, name, lines, path):
        self.crate, self.name, self.lines, self.path = crate, name, lines, path
        self.items, self.impls, self.calls, self.declared = {}, [], [], []
        self.uses, self.modules, self.inline = [], {}, []
        self.imports = Imports()
        for line in re.findall(r"^\s*ghost (use .*?);$", "\n".join(lines), re.M | re.S):
            self.imports.read(" ".join(line.split()))
        for part in parts_of(lines):
            self.read(part)

    def read(self, part):
        """Adds an item."""
        first = part.lines[0]
        module = re.match(r"(pub )?mod (\w+)(;| \{)$", first)
        declared, function = DECLARED.match(first), FUNCTION.match(first)
        if module:
            self.modules[module[2]] = bool(module[1])
            if module[3] == " {":
                above = re.sub(r"(lib|main)?\.rt$", "", self.name)
                name = "/".join(filter(None, [above, f"{module[2]}.rt"]))
                self.inline.append(Source(self.crate, name, part.body, self.path))
        elif first.startswith(("use ", "pub use ")):
            self.uses += uses_in(" ".join(map(str.strip, part.lines)).strip())
        elif re.match(r"impl\b", first):
            self.impls.append(Impl(self, part))
            self.calls += self.impls[-1].members
        elif function:
            self.calls.append(Call(self, part, function[2], public=bool(function[1])))
            self.items[function[2]] = Item("fn", function[2], part, self.calls[-1])
        elif declared and (declared[1] != "macro_rules!" or "#[macro_export]" in part.above):
            kind, name = declared.groups()
            item = self.items[name] = Item(kind, name, part)
            for call in members(self, part, name, public=item.is_public) if kind == "trait" else ():
                if re.match(r"ghost \w+ ?:", call.text):
                    self.declared.append(call)
                else:
                    item.methods.append(call)
                    self.calls.append(call)


def sources(crates=CRATES):
    """Returns all files of code. A call is public if the root of its crate re-exports it or its
    type, if it is `pub` in a program, or if it is exported to C."""
    found = {}
    for path in sorted(crates.glob("*/src/**/*.rt")):
        crate, _, *name = path.relative_to(crates).parts
        lines = path.read_text().splitlines()
        found[crate, "/".join(name)] = Source(crate, "/".join(name), lines, path)
    for (crate, name), source in found.items():
        root = found.get((crate, "lib.rt"))
        public = [it for it in root.modules if root.modules[it]] if root else []
        files = [root, *root.inline] if root else []
        files += filter(None, (found.get((crate, f"{module}.rt")) for module in public))
        words = {word for file in files for use in file.uses if use[0] for word in use[2:]}
        is_inside = re.split(r"[/.]", name)[0] in (*public, "lib")
        for call in source.calls:
            is_passed_on = (call.owner or call.name).split("::")[-1] in words
            is_given = is_inside or is_passed_on or root is None or call.is_exported
            call.public = call.public and is_given
    return list(found.values())


# The meanings of the names in a text.


def stands_at(files, path):
    """Returns the definition or the file at a path, which begins with a crate."""
    crate, *rest = path
    here = files.get((crate, "Lib"))
    for at, name in enumerate(rest, 1):
        if here is None or name in ("declared", "contracts"):  # what the kit makes
            return here
        if found := here.find(name):
            return found
        if onward := here.passed_on.find(name):
            return stands_at(files, (*onward, *rest[at:]))
        here = files.get((crate, name)) if here.name == "Lib" else None
    return here


def lost(files, code):
    """Yields the imports that name no definition of the repository, each with its file."""
    crates = {crate for crate, _ in files}
    for source in (*files.values(), *code):
        for path in source.imports.values():
            told = path[0] in crates and not {"declared", "contracts"} & set(path)
            if told and stands_at(files, path) is None:
                yield f"{source.path.relative_to(TOP)}: {'.'.join(path)}"


def words_of(text):
    """Returns the names in a text, and the operators between blanks, except in comments."""
    text = COMMENT.sub("", text)
    return set(WORD.findall(text)) | {f"◌{sign}◌" for sign in SIGN.findall(text)}


def target_of(files, imports, word, own=None):
    """Returns the definition that a word names, or whose case it names."""
    here = own and own.find(word.split(".")[0])
    path = imports.find(word)
    target = here or path and stands_at(files, path)
    return target if isinstance(target, Definition) else None


def cite(files, imports, text, own=None, cases=(), patterns=""):
    """Returns the definitions that a text names. The names in `cases` are its own cases. A name in
    `patterns` that isn't a case is a variable.
    """
    left = set(cases)
    for word in words_of(patterns) if patterns else ():
        target = target_of(files, imports, word, own)
        if target is None or (target.sort != "data" or target.name == word) and "." not in word:
            left.add(word)
    words = (word for word in words_of(text) if word.split(".")[0] not in left)
    targets = (target_of(files, imports, word, own) for word in words)
    return {target.key for target in targets if target}


def read_all():
    """Returns the files of definitions, by crate and name, and the files of code, with what
    definitions and contracts cite. The file `Lib` of a crate lists its other files.

    If a definition names a proof, the statement of the proof counts.
    """
    files = map(SpecFile, sorted(CRATES.glob("*/specs/*.antt")))
    files, code = {(file.crate, file.name): file for file in files}, sources()
    definitions = [(file, it) for file in files.values() for it in file.definitions.values()]
    for file, one in definitions:
        one.cites = cite(files, file.imports, one.around, file)
        for patterns, text in one.clauses:
            one.cites |= cite(files, file.imports, text, file, one.cases, patterns)
        one.cites.discard(one.key)
        one.serving = cite(files, file.imports, one.proof, file)
    named = {key for _, one in definitions if one.sort != "proof" for key in one.cites}
    for _, one in definitions:
        if one.sort == "proof" and one.key in named:
            one.sort = "stated"
    for source in code:
        for call in source.calls:
            call.cites = cite(files, source.imports, call.contract)
    return files, code


def reached(files, keys, proofs=False):
    """Returns these definitions and all that they rest on, with those of their proofs if asked."""
    seen, todo = {}, list(keys)
    while todo:
        key = todo.pop()
        if key not in seen:
            one = seen[key] = files[key[:2]].definitions[key[2]]
            todo += one.cites
            todo += one.serving if proofs else ()
    return seen
