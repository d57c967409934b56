#!/usr/bin/env python3
"""Compares the promises of this version (CHANGELOG.md) with those of another commit.

    tools/promised.py COMMIT

Prints a line for each promise that was removed, changed or added: declarations, public fields and
traits of the public items of facades; signatures and clauses of functions; functions and numbers of
wurstdrape.h; public names of the Rust crate and the Python module. The last line says which part of
the version number must rise. It can't compare the meanings of definitions, nor what CLI promises.
"""

import pathlib
import re
import subprocess
import sys
import tempfile

import sources

FACADES = ("const_oid", "der_core", "der_types", "x509_cert", "cert_desk",
           "x509_cert_reading", "der_types_more", "pki_key_containers", "pki_ocsp", "pki_cms",
           "pki_timestamps")
# Neither the items by which types are declared are promised, nor items that are re-exported for
# crates above, nor the path from which a crate imports a name.
OTHERS = ("der_core::making", "der_core::describing", "der_core::oid",
          "der_types::der", "der_types::oid", "der_types::making")
PATH = re.compile(r"\b(?:const_oid|(?:der|x509_cert|cert)_\w+|x509_cert)::(?:\w+::)*(?=\w)")


class Facades:
    """The items of all libraries, and the paths by which users import them (`Item.imports`)."""

    def __init__(self, top):
        files = [it for file in sources.sources(top / "crates") for it in (file, *file.inline)]
        self.code = {(file.crate, file.name): file for file in files}
        self.items = [item for file in files for item in file.items.values()]
        for file in files:  # macros stand at the root of their crate
            if root := self.file_of(file.crate, ()):
                root.items |= {name: it for name, it in file.items.items() if it.is_macro}
        for crate in FACADES:
            self.walk(crate, ())
        for impl in (impl for file in files for impl in file.impls):
            self.give(impl)

    def file_of(self, crate, path):
        """Returns the file of a module."""
        return self.code.get((crate, "/".join(path or ["lib"]) + ".rt"))

    def names(self, crate, path):
        """Returns the names of a module that its users see."""
        file = self.file_of(crate, path)
        if file is None:
            return set()
        found = {*file.modules, *file.items, *(use[3] for use in file.uses)} - {"*"}
        for place in self.starred(crate, path, False):
            found |= self.names(*place)
        return found

    def starred(self, crate, path, inside):
        """Returns the modules whose names a module imports by `*`."""
        for public, start, name, _ in self.file_of(crate, path).uses:
            place = self.at(crate, path, start) if name == "*" and (public or inside) else None
            if isinstance(place, tuple):
                yield place

    def find(self, crate, path, word, inside):
        """Returns the item or the module with a name in a module, as seen inside of its crate or
        from outside."""
        file = self.file_of(crate, path)
        if file is None:
            return None
        item = file.items.get(word)
        if item and (inside or item.is_public):
            return item
        if inside and word in file.modules or file.modules.get(word):
            return (crate, (*path, word))
        for public, start, name, alias in file.uses:
            if (public or inside) and alias == word != "*":
                return self.at(crate, path, [*start, name])
        found = (self.find(*place, word, False) for place in self.starred(crate, path, inside))
        return next(filter(None, found), None)

    def at(self, crate, path, words):
        """Returns the item or the module at a path that a `use` line of a module has."""
        head, *rest = words or ["self"]
        if head == "crate":
            place = (crate, ())
        elif head in ("self", "super"):
            place = (crate, path if head == "self" else path[:-1])
        elif (head, "lib.rt") in self.code:
            place = (head, ())
        else:
            place, rest = (crate, path), words
        for word in rest:
            if not isinstance(place, tuple):
                return None
            place = self.find(*place, word, place[0] == crate)
        return place

    def walk(self, crate, path, start=None):
        """Records the path by which a facade's users import each item of a module. If the module
        is re-exported from a crate below, the modules inside it are left out."""
        for name in self.names(crate, path):
            target, place = self.find(crate, path, name, False), (*(start or (crate, *path)), name)
            if isinstance(target, sources.Item):
                target.imports.append("::".join(place))
            elif target and not start:
                self.walk(*target, None if target[0] == crate else place)

    def give(self, impl):
        """Adds an impl to its type or, if the repository doesn't have the type, to its trait. An
        impl of a trait of the repository that no facade passes on isn't promised."""
        name = impl.source.name.removesuffix(".rt")
        path = () if name == "lib" else tuple(name.split("/"))
        item, trait = (self.find(impl.source.crate, path, (name or "").split("::")[-1], True)
                       for name in (impl.owner, impl.trait))
        if isinstance(item, sources.Item):
            if not isinstance(trait, sources.Item) or trait.imports:
                item.impls.append(impl)
            item.methods += [call for call in impl.members if call.public and not impl.trait]
        elif isinstance(trait, sources.Item):
            trait.impls.append(impl)


def clauses(path, call):
    """Returns the signature of a function, and each clause of its contract by its name."""
    name, found = path, {}
    for line in filter(str.strip, sources.COMMENT.sub("", call.text).splitlines()):
        clause = sources.CLAUSE.match(line)
        if clause:
            name = " ".join(word for word in (path, *clause.groups()) if word)
            while name in found:
                name += "'"
        found[name] = found.get(name, "") + f" {line.strip().rstrip(';')}"
    return found


def declaration(item):
    """Returns the public part of a declaration: without private fields, and of a trait the head."""
    lines = [line for line in item.text.splitlines() if not line.strip().startswith("//")]
    if item.kind == "trait":
        return " ".join(lines).partition("{")[0]
    if item.kind == "struct":
        lines = [line for line in lines if not line.startswith("    ") or "pub " in line]
    return " ".join(line.strip() for line in lines)


def of_item(path, item):
    """Returns what is promised about an item that is imported from this path."""
    if item.call:
        return clauses(path, item.call)
    found = {path: item.name if item.is_macro else declaration(item)}
    for call in item.methods:
        found |= clauses(f"{path}::{call.name}", call)
    for impl in item.impls:
        if impl.of:
            trait = PATH.sub("", impl.stated)
            found[f"{path}: {trait}" + (" of a reference" if impl.of.startswith("&") else "")] = ""
    derived = re.findall(r"\w+", " ".join(re.findall(r"\(([\w, ]+)", " ".join(item.derives))))
    return found | {f"{path}: {trait}": "" for trait in derived if trait != "Drop"}


def promised(top):
    """Returns each part of what a repository promises, with the text that is compared."""
    found = {}
    for item in Facades(top).items:
        for path in item.imports:
            found |= {} if path.startswith(OTHERS) else of_item(path, item)
        if item.call and item.call.is_exported:
            found |= clauses(item.call.name, item.call)
    for path, told in (
        ("wurstdrape.h", r"\b(WD_\w+)( = \d+)"),
        ("rust/src/lib.rs", r"(?m)^ *pub (?:const )?(?:fn|struct|enum|type|const) (\w+)([^;{]*)"),
        ("python/src/wurstdrape/__init__.py", r"(?m)^(?:def|class) ([a-zA-Z]\w*)(.*)"),
    ):
        # The folder of the bindings of 1.0.0 was calls/.
        file = next(it for it in (top / "bindings" / path, top / "calls" / path) if it.exists())
        for name, said in re.findall(told, file.read_text()):
            found[f"{path} {name}"] = " ".join(said.split())
    return {part: PATH.sub("", said) for part, said in found.items()}


def main():
    words = sources.arguments(__doc__)
    words.add_argument("commit", metavar="COMMIT")
    commit = words.parse_args().commit
    with tempfile.TemporaryDirectory() as room:
        packed = subprocess.run(["git", "archive", commit], cwd=sources.TOP, stdout=subprocess.PIPE)
        if packed.returncode:
            return 2
        subprocess.run(["tar", "-x", "-C", room], input=packed.stdout, check=True)
        was, version = promised(pathlib.Path(room)), sources.version(pathlib.Path(room))
    now = promised(sources.TOP)
    gone, new = sorted(was.keys() - now.keys()), sorted(now.keys() - was.keys())
    others = sorted(part for part in was.keys() & now.keys() if was[part] != now[part])
    for told, parts in (("removed", gone), ("changed", others), ("new", new)):
        print("".join(f"{told:10}{part}\n" for part in parts), end="")
    rises = "first" if gone else "second" if others or new else "third"
    if others and not gone:
        rises += " (or the first, if a changed one is weaker or requires more of a caller)"
    told = f"{len(gone)} removed, {len(others)} changed, {len(new)} new, of {len(now)} promises"
    print(f"{told}: after {version}, this part of the version number must rise: the {rises}")
    return 0


if __name__ == "__main__":
    sys.exit(main())
