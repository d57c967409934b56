#!/usr/bin/env python3
"""Compares bindings/wurstdrape.h with the sources, and the Rust and Python bindings with it.

    tools/header.py     prints each difference; the status is 1 if there is one

In the header it compares the functions of crates/cert_desk_c and cert_desk_issuing_c, the structs,
and the numbers of statuses, rules, errors and reasons, which the contracts cite; in Rust the
functions and numbers, and in Python the numbers.
"""

import re
import sys

from sources import CRATES, TOP

BINDINGS = TOP / "bindings"
# The prefix of the names of each enumeration, and the definition of its numbers.
NUMBERS = {
    "WD_": ("cert_desk_io/specs/Statuses.antt", "code_of"),
    "WD_FAULT_": ("cert_desk_c/specs/FaultNumbers.antt", "fault_number"),
    "WD_CHAIN_": ("cert_desk_bundle/specs/Faults.antt", "rank"),
    "WD_RULE_": ("cert_desk_rules/specs/Judging.antt", "number"),
    "WD_ORDER_": ("cert_desk_issuing_c/specs/Reasons.antt", "reason_number"),
}
# In Rust, the statuses are variants without numbers.
STATUSES = {f"WD_{it}" for it in "DONE REFUSED FAULTY EMPTY ARGUMENTS NO_ROOM MEMORY".split()}
# The enumerations of Rust and Python, and the prefix of their names in C.
ENUMERATIONS = {
    "Status": "WD_", "Rule": "WD_", "ChainFault": "WD_CHAIN_", "FaultKind": "WD_FAULT_",
    "OrderFault": "WD_ORDER_",
}
# The types of C for those of the sources.
TYPES = {"u8": "uint8_t", "u32": "uint32_t", "u64": "uint64_t", "usize": "size_t", "bool": "bool"}


def constant(name):
    """Converts a name to that of a constant in C. In lower case it is that of a struct."""
    return re.sub(r"(?<=[a-z0-9])(?=[A-Z])", "_", name).upper()


def type_in_c(kind):
    """Returns the type in C for a number, a struct, or a pointer to one."""
    pointer, _, of = kind.strip().rpartition(" ")
    of = TYPES.get(of) or constant(of).lower()
    return {"": of, "*const": f"const {of} *", "*mut": f"{of} *", "&mut": f"{of} *"}[pointer]


def text_of(path):
    """Returns the text of a file of the sources or of the Rust crate, without comments."""
    return re.sub(r"//.*", "", path.read_text())


def parameters(text):
    """Returns the parameters of a call in C, each with its type."""
    for name, kind in re.findall(r"(\w+): ([^,]+)", text):
        kind = kind.strip()
        if kind in ("&[u8]", "&mut [u8]"):
            yield f"{'' if 'mut' in kind else 'const '}uint8_t *", name
            yield "size_t", f"{name}_len"
        elif kind != "Global":
            yield type_in_c(kind), name


def of_sources():
    """Returns the calls, the structs and the numbers that the header must have."""
    text = "".join(text_of(path) for crate in ("cert_desk_c", "cert_desk_issuing_c")
                   for path in (CRATES / crate / "src").glob("*.rt"))
    call = r'pub extern "C" fn (\w+)\(([^)]*)\)(?: -> (\w+))?'
    calls = {name: (TYPES[result], list(parameters(inside)))
             for name, inside, result in re.findall(call, text)}
    shape = r"#\[repr\(C\)\]\s*(?:#\[derive\([^)]*\)\]\s*)?pub struct (\w+) \{([^}]*)\}"
    structs = {type_in_c(name): list(parameters(inside))
               for name, inside in re.findall(shape, text)}
    numbers = {}
    for prefix, (file, function) in NUMBERS.items():
        clause = rf"^{function} \(?\w+\.(\w+)[^=\n]*= (\d+)$"
        for name, number in re.findall(clause, (CRATES / file).read_text(), re.M):
            # The sources name this status after its meaning for a program, the header differently.
            name = "NO_ROOM" if (prefix, name) == ("WD_", "Device") else constant(name)
            numbers[("WD_" if prefix == "WD_RULE_" else prefix) + name] = int(number)
    return calls, structs, numbers


def of_header():
    """Returns the calls, the structs and the numbers of the header."""
    text = re.sub(r"/\*.*?\*/", " ", (BINDINGS / "wurstdrape.h").read_text(), flags=re.S)
    text = " ".join(text.split())

    def named(inside):
        found = re.findall(r"([^,;]+?[ *])(\w+)[,;]", inside)
        return [(kind.strip(), name) for kind, name in found]

    calls = {name: (result, named(f"{inside},"))
             for result, name, inside in re.findall(r"(\w+) (wd_\w+)\(([^)]*)\);", text)}
    structs = {name: named(inside)
               for inside, name in re.findall(r"typedef struct \{([^}]*)\} (\w+);", text)}
    numbers = {name: int(number) for name, number in re.findall(r"(WD_\w+) = (\d+)", text)}
    return calls, structs, numbers


def of_rust():
    """Returns the types of each call that the Rust crate declares."""
    text = text_of(BINDINGS / "rust/src/calls.rs")
    for name, inside, result in re.findall(r"fn (wd_\w+)\(([^)]*)\) -> (\w+);", text):
        kinds = re.findall(r"\w+: ([^,]+)", inside)
        yield name, (TYPES[result], list(map(type_in_c, kinds)))


def numbers_in(path, head, row):
    """Returns the numbers of the enumerations of a file, by their names in C."""
    text = (BINDINGS / path).read_text()
    for name, prefix in ENUMERATIONS.items():
        block = re.search(head.format(name), text)
        for variant, number in re.findall(row, block[1]) if block else ():
            yield prefix + constant(variant), int(number)


def main():
    if sys.argv[1:]:
        print(__doc__.strip())
        return 2 * (sys.argv[1:] != ["--help"])
    calls, structs, numbers = header = of_header()
    types = {name: (result, [kind for kind, _ in inside])
             for name, (result, inside) in calls.items()}
    others = {name: number for name, number in numbers.items() if name not in STATUSES}
    rust = numbers_in("rust/src/numbers.rs", r"pub enum {} \{{([^}}]*)\}}", r"(\w+) = (\d+),")
    head = r"class {}\(enum.IntEnum\):((?:\n(?:    .*)?)*)"
    python = numbers_in("python/src/wurstdrape/__init__.py", head, r"    (\w+) = (\d+)")
    found = [*zip(("call", "struct", "number"), of_sources(), header),
             ("call in Rust", types, dict(of_rust())),
             ("number in Rust", others, dict(rust)), ("number in Python", numbers, dict(python))]
    told = [f"{what} {name}: source {source.get(name)}, header {told.get(name)}"
            for what, source, told in found for name in sorted(source.keys() | told.keys())
            if source.get(name) != told.get(name)]
    counts = f"{len(calls)} calls, {len(structs)} structs, {len(numbers)} numbers"
    print(*told, f"{counts}; {len(told)} differ", sep="\n")
    return bool(told)


if __name__ == "__main__":
    sys.exit(main())
