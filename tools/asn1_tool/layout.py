"""Lays out Rust source as `rt fmt` does."""

from __future__ import annotations

import dataclasses
import re

# The maximum width of a line, of the members of a call or a tuple, and of the fields of a literal.
LINE, MEMBERS, LITERAL = 100, 60, 18


@dataclasses.dataclass(frozen=True)
class Tuple:
    members: tuple[Node, ...]


@dataclasses.dataclass(frozen=True)
class Call:
    """A call, or a tuple struct."""

    head: str
    members: tuple[Node, ...]


@dataclasses.dataclass(frozen=True)
class Literal:
    """A struct literal. A field whose value is its own name is written as the name alone."""

    head: str
    fields: tuple[tuple[str, Node], ...]


@dataclasses.dataclass(frozen=True)
class Lent:
    """A reference to a value."""

    value: Node


@dataclasses.dataclass(frozen=True)
class Generic:
    """A type with its parameters."""

    head: str
    members: tuple[str, ...]


Node = str | Tuple | Call | Literal | Lent | Generic


def field_text(name, value):
    return name if value == name else f"{name}: {flat(value)}"


def flat(node):
    """Returns the source on one line."""
    match node:
        case Tuple(members):
            return f"({members_text(members)})"
        case Call(head, members):
            return f"{head}({members_text(members)})"
        case Generic(head, members):
            return f"{head}<{members_text(members)}>"
        case Literal(head, fields):
            return f"{head} {{ {', '.join(field_text(*field) for field in fields)} }}"
        case Lent(value):
            return f"&{flat(value)}"
    return node


def members_text(members):
    return ", ".join(map(flat, members))


def is_short(node):
    """Returns whether `rt fmt` leaves a node on one line, if it fits."""
    match node:
        case Tuple(members) | Call(_, members):
            return len(members_text(members)) <= MEMBERS and all(map(is_short, members))
        case Literal(_, fields):
            inner = ", ".join(field_text(*field) for field in fields)
            return len(inner) <= LITERAL and all(is_short(value) for _, value in fields)
        case Lent(value):
            return is_short(value)
    return True


def laid(node, indent, before=0, after=0):
    """Returns the source of a node that begins at column `indent + before`.

    `after` columns are needed behind it.
    """
    text = flat(node)
    if is_short(node) and indent + before + len(text) + after <= LINE:
        return text
    inner, pad, end = indent + 4, " " * (indent + 4), "\n" + " " * indent
    match node:
        case Call(head, [Literal() as only]):
            return f"{head}({laid(only, indent, before + len(head) + 1, after + 1)})"
        case Tuple(members) | Call(_, members) | Generic(_, members):
            head = "" if isinstance(node, Tuple) else node.head
            opened, closed = "<>" if isinstance(node, Generic) else "()"
            rows = "".join(f"\n{pad}{laid(it, inner, 0, 1)}," for it in members)
            return f"{head}{opened}{rows}{end}{closed}"
        case Literal(head, fields):
            rows = []
            for name, value in fields:
                start = "" if value == name else f"{name}: "
                rows.append(f"\n{pad}{start}{laid(value, inner, len(start), 1)},")
            return f"{head} {{{''.join(rows)}{end}}}"
        case Lent(value):
            return "&" + laid(value, indent, before + 1, after)
    return text


def pattern(node, indent, before=0, after=0):
    """Returns a pattern of nested pairs, which `rt fmt` breaks only if a line is too long."""
    text = flat(node)
    if isinstance(node, str) or indent + before + len(text) + after <= LINE:
        return text
    rows = "".join(f"{' ' * (indent + 4)}{pattern(it, indent + 4, 0, 1)},\n"
                   for it in node.members)
    return f"(\n{rows}{' ' * indent})"


def nested(members, last="()"):
    """Returns the nested pairs of a row."""
    found = last
    for member in reversed(members):
        found = Tuple((member, found))
    return found


def alias(name, node):
    """Returns the declaration of a type alias."""
    start = f"type {name} = "
    return f"{start}{laid(node, 0, len(start), 1)};"


# Imports.


def order(name):
    """Returns the sort key of a name: numbers by value, and a list in braces after names."""
    return [
        (1, int(part), "") if part.isdigit() else (0, 0, part.replace("{", "\x7f"))
        for part in re.split(r"(\d+)", name) if part
    ]


def imports(paths):
    """Returns the `use` lines of some paths, with one line for each module."""
    by_module = {}
    for path in set(paths):
        module, _, name = path.rpartition("::")
        by_module.setdefault(module, []).append(name)
    lines = {}
    for module, found in by_module.items():
        found.sort(key=order)
        key = [order(part) for part in module.split("::")]
        if len(found) == 1:
            lines[f"use {module}::{found[0]};"] = [*key, order(found[0])]
        else:
            lines[use_list(module, found)] = [*key, order("{")]
    return "\n".join(sorted(lines, key=lines.get))


def use_list(module, found):
    text = f"use {module}::{{{', '.join(found)}}};"
    if len(text) < LINE - 1:
        return text
    return f"use {module}::{{\n{filled(found, 4, ',', LINE - 1)}\n}};"


def filled(items, indent, end=",", width=LINE):
    """Returns the items with commas, as many on each line as fit."""
    lines, pad = [""], " " * indent
    for number, item in enumerate(items):
        is_last = number + 1 == len(items)
        comma, room = (end, LINE) if is_last else (",", width)
        if lines[-1] and indent + len(lines[-1]) + len(item) + len(comma) + 1 > room:
            lines.append("")
        lines[-1] += (" " if lines[-1] else "") + item + comma
    return "\n".join(pad + line for line in lines)


# Ghost terms.


def pairs(parts, indent):
    """Returns the nested pairs of some terms, one term on each line."""
    pad, inner = " " * indent, " " * (indent + 2)
    first, *rest = parts
    row = f"({first}, tt)"
    if not rest and indent + len(row) < LINE:
        return row
    following = pairs(rest, indent + 2) if rest else "tt"
    if indent + 2 + len(first) >= LINE:
        first = f"\n{inner}    ".join(broken(first, LINE - indent - 6))
    return f"(\n{inner}{first},\n{inner}{following},\n{pad})"


def broken(term, room):
    """Returns the lines of a term that is longer than a line: as many arguments as fit on each."""
    lines = [""]
    for word in re.findall(r"(?:⟦[^⟧]*⟧|[^ ⟦])+", term):
        if lines[-1] and len(lines[-1]) + 1 + len(word) > room:
            lines.append("")
        lines[-1] += (" " if lines[-1] else "") + word
    return lines


def list_term(items, indent, before, after):
    """Returns a list of terms, broken into lines."""
    words, lines = [*items, "[]"], [""]
    room = LINE - before - after
    for number, word in enumerate(words):
        piece = word if number == 0 else f" ∷ {word}"
        if len(lines[-1]) + len(piece) > room:
            lines.append(f"∷ {word}")
            room = LINE - indent - after
        else:
            lines[-1] += piece
    return f"\n{' ' * indent}".join(lines)


# Comments.


def comment(definition, notes=()):
    """Returns the doc comment of a type: notes, and the ASN.1 that declares it."""
    first, *rest = definition.text.splitlines()
    rest = [line.rstrip() for line in rest if line.strip()]
    inner = [line for line in rest if line.strip() != "}"]
    cut = min((len(line) - len(line.lstrip()) for line in inner), default=0)
    lines = [first.rstrip()]
    lines += ["}" if line.strip() == "}" else "    " + line[cut:] for line in rest]
    above = [f"/// {note}" for note in notes] + (["///"] if notes else [])
    text = ["/// ```text", *(f"/// {line}" for line in lines), "/// ```"]
    return "\n".join(above + text)
