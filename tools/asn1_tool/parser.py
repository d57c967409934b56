"""Parses the text of an ASN.1 module: X.680, and the parts of X.681 to X.683 that RFC 5912 uses."""

import re
import typing

from .syntax import (
    ClassField, ComponentsOf, Constraint, Definition, Field, Item, ListOf, Module, Named, Numbered,
    Open, Plain, Refused, Structure, Tag, Tagged, Type,
)

TOKEN = re.compile(
    r"""
    (?P<space>\s+)
  | (?P<comment>--(?:[^\n-]|-(?!-))*(?:--|(?=\n)|\Z) | /\*.*?\*/)
  | (?P<name>&?[A-Za-z](?:-?[A-Za-z0-9])*)
  | (?P<number>-?[0-9]+(?:\.(?!\.)[0-9]*)?)
  | (?P<text>"(?:[^"]|"")*")
  | (?P<bits>'[0-9A-Fa-f\s]*'[BH])
  | (?P<mark>::=|\.\.\.|\.\.|\[\[|\]\]|[{}()\[\],;|<>.:@!^*&])
    """,
    re.X | re.S,
)
# The header and the footer of a page of an RFC.
PAGE = re.compile(r"^(?:\S.*\[Page \d+\]|RFC \d+ .* [A-Z][a-z]+ \d{4})[ \t]*$", re.M)
PAIRS = {"{": "}", "(": ")", "[": "]", "[[": "]]"}
# Types whose names are one word or two.
WORDS = {
    "BOOLEAN", "NULL", "REAL", "EXTERNAL", "RELATIVE-OID", "OID-IRI", "RELATIVE-OID-IRI", "TIME",
    "DATE", "TIME-OF-DAY", "DATE-TIME", "DURATION", "UTF8String", "PrintableString", "IA5String",
    "TeletexString", "BMPString", "VisibleString", "GeneralString", "UniversalString",
    "NumericString", "VideotexString", "GraphicString", "UTCTime", "GeneralizedTime",
    "ObjectDescriptor",
}
SECOND = {
    "OCTET": "STRING", "BIT": "STRING", "CHARACTER": "STRING", "OBJECT": "IDENTIFIER",
    "EMBEDDED": "PDV", "INSTANCE": "OF",
}
SYNONYMS = {"T61String": "TeletexString", "ISO646String": "VisibleString"}


class Token(typing.NamedTuple):
    kind: str
    text: str
    line: int
    start: int
    end: int


def tokens(text):
    """Returns the tokens of a text, followed by one of the kind "end"."""
    found, place, line = [], 0, 1
    while place < len(text):
        match = TOKEN.match(text, place)
        if not match:
            raise Refused(line, f"`{text[place]}` isn't part of ASN.1")
        if match.lastgroup not in ("space", "comment"):
            found.append(Token(match.lastgroup, match.group(), line, place, match.end()))
        line += match.group().count("\n")
        place = match.end()
    found.append(Token("end", "", line, place, place))
    return found


def parsed(text):
    """Returns the module that a text contains."""
    return Parser(PAGE.sub("", text.replace("\r", "").replace("\f", "").expandtabs(8))).module()


def is_upper(token):
    return token.kind == "name" and token.text[0].isupper()


def is_lower(token):
    return token.kind == "name" and token.text[0].islower()


class Parser:
    def __init__(self, text):
        self.text, self.tokens, self.at = text, tokens(text), 0
        self.found = Module()

    # Tokens.

    @property
    def now(self):
        return self.tokens[self.at]

    @property
    def next(self):
        return self.tokens[min(self.at + 1, len(self.tokens) - 1)]

    def step(self):
        token = self.now
        if token.kind == "end":
            raise Refused(token.line, "the module ends too early")
        self.at += 1
        return token

    def expected(self, what):
        return Refused(self.now.line, f"expected {what}, found `{self.now.text or 'the end'}`")

    def take(self, *texts):
        if self.now.text not in texts or self.now.kind == "end":
            raise self.expected(" or ".join(f"`{text}`" for text in texts))
        return self.step()

    def took(self, text):
        if self.now.kind != "end" and self.now.text == text:
            self.at += 1
            return True
        return False

    def upper(self, what):
        if not is_upper(self.now):
            raise self.expected(what)
        return self.step()

    def lower(self, what):
        if not is_lower(self.now):
            raise self.expected(what)
        return self.step()

    def bracket(self):
        """Skips a pair of brackets, and returns the tokens inside."""
        opened, start = self.take("{", "(", "["), self.at
        wanted = [PAIRS[opened.text]]  # closing brackets; `]]` counts as two
        while wanted:
            if self.now.kind == "end":
                raise Refused(opened.line, f"`{opened.text}` isn't closed")
            token = self.step()
            if token.text in PAIRS:
                wanted += PAIRS[token.text]
            for end in token.text if token.text in PAIRS.values() else "":
                if end == wanted[-1]:
                    wanted.pop()
        return self.tokens[start : self.at - 1]

    def said(self, start):
        """Returns the text from a token up to here, as one line."""
        return " ".join(self.text[start.start : self.tokens[self.at - 1].end].split())

    def inside(self, inner):
        """Returns a parser of some tokens."""
        part = Parser("")
        part.text, part.found = self.text, self.found
        last = inner[-1] if inner else self.now
        part.tokens = [*inner, Token("end", "", last.line, last.end, last.end)]
        return part

    # A module.

    def module(self):
        found = self.found
        found.name = self.upper("the name of a module").text
        if self.now.text == "{":
            self.bracket()
        self.take("DEFINITIONS")
        if self.now.text in ("EXPLICIT", "IMPLICIT", "AUTOMATIC"):
            found.tags = self.step().text
            self.take("TAGS")
        if self.took("EXTENSIBILITY"):
            self.take("IMPLIED")
        self.take("::=")
        self.take("BEGIN")
        if self.took("EXPORTS"):
            while not self.took(";"):
                self.step()
        if self.took("IMPORTS"):
            self.imports()
        while not self.took("END"):
            self.assignment()
        if self.now.kind != "end":
            raise Refused(self.now.line, "a second module begins here: put each into its own file")
        return found

    def imports(self):
        names = []
        while not self.took(";"):
            token = self.step()
            if token.text == "FROM":
                module = self.upper("the name of a module").text
                for name in names:
                    self.found.imports[name.text] = (module, name.line)
                names = []
                if self.now.text == "{":
                    self.bracket()
                elif is_lower(self.now):
                    self.step()
            elif token.kind == "name":
                names.append(token)
                if self.now.text == "{":
                    self.bracket()
            elif token.text != ",":
                raise Refused(token.line, f"`{token.text}` can't be imported")

    def assignment(self):
        if self.took(";"):
            return
        name = self.now
        if is_lower(name):
            self.value_assignment()
            return
        self.upper("a name")
        parameters = self.parameters() if self.now.text == "{" else []
        if self.now.text != "::=":
            self.type()
            self.take("::=")
            self.bracket()
            self.found.others[name.text] = name.line
            return
        self.take("::=")
        if self.now.text == "CLASS":
            self.found.classes[name.text] = self.class_fields()
        elif self.now.text in ("TYPE-IDENTIFIER", "ABSTRACT-SYNTAX"):
            self.step()
            self.found.classes[name.text] = {}
        else:
            found = self.type()
            if name.text in self.found.types:
                raise Refused(name.line, f"{name.text} is declared twice")
            text = self.text[name.start : self.tokens[self.at - 1].end]
            self.found.types[name.text] = Definition(name.text, found, name.line, text, parameters)

    def value_assignment(self):
        name = self.step()
        if self.now.text == "{":
            self.bracket()
        governor = self.type()
        self.take("::=")
        if self.now.kind == "number" and re.fullmatch(r"-?\d+", self.now.text):
            self.found.numbers[name.text] = int(self.step().text)
        elif self.now.text in self.found.numbers:
            self.found.numbers[name.text] = self.found.numbers[self.step().text]
        elif self.now.text == "{":
            arcs = self.arcs(self.bracket())
            if arcs is None:
                self.found.others[name.text] = name.line
            else:
                self.found.values[name.text] = (governor, arcs, name.line)
        elif is_lower(self.now) and self.next.text not in (":", "."):
            self.found.values[name.text] = (governor, [self.step().text], name.line)
        else:
            self.default()
            self.found.others[name.text] = name.line

    def arcs(self, inner):
        """Returns the arcs of an object identifier, or None if the tokens aren't one."""
        arcs, part = [], self.inside(inner)
        while part.now.kind != "end":
            token = part.step()
            if token.kind == "number" and token.text.isdigit():
                arcs.append(int(token.text))
            elif is_lower(token) and part.now.text == "(":
                number = part.bracket()
                if len(number) != 1 or not number[0].text.isdigit():
                    return None
                arcs.append(int(number[0].text))
            elif is_lower(token):
                arcs.append(token.text)
            else:
                return None
        return arcs

    def parameters(self):
        """Returns the names of parameters, without their governors."""
        names = []
        for part in split(self.bracket()):
            if not part or part[-1].kind != "name":
                raise Refused(self.now.line, "expected the name of a parameter")
            names.append(part[-1].text)
        return names

    def class_fields(self):
        """Returns the types of those fields of a class that have a fixed type."""
        self.take("CLASS")
        fields = {}
        for part in split(self.bracket()):
            part = self.inside(part)
            name = part.step().text
            if name.startswith("&") and name[1].islower() and is_upper(part.now):
                if part.now.text not in ("OPTIONAL", "DEFAULT", "UNIQUE"):
                    fields[name] = part.type()
        if self.took("WITH"):
            self.take("SYNTAX")
            self.bracket()
        return fields

    # Types.

    def type(self):
        found = self.unconstrained()
        while self.now.text == "(":
            found.constraints.append(self.constraint())
        return found

    def unconstrained(self):
        token = self.step()
        line, text = token.line, SYNONYMS.get(token.text, token.text)
        if text == "[":
            return self.tagged(line)
        if text in ("SEQUENCE", "SET") and self.now.text != "{":
            return self.list_of(line, text)
        if text in ("SEQUENCE", "SET", "CHOICE"):
            return self.structure(line, text)
        if text in SECOND:
            text += " " + self.take(SECOND[text]).text
        if text in ("INTEGER", "ENUMERATED", "BIT STRING") and self.now.text == "{":
            return self.numbered(line, text)
        if text == "INSTANCE OF":
            self.upper("the name of a class")
        if text in WORDS or " " in text or text == "INTEGER":
            return Plain(line, text)
        if text == "ANY":
            if self.took("DEFINED"):
                self.take("BY")
                self.lower("the name of a field")
            return Open(line)
        if not is_upper(token):
            self.at -= 1
            raise self.expected("a type")
        return self.reference(line, text)

    def reference(self, line, text):
        if self.now.text == "." and self.next.text.startswith("&"):
            self.step()
            field = self.step().text
            while self.now.text == "." and self.next.text.startswith("&"):
                self.step()
                field = self.step().text
            return ClassField(line, text, field)
        if self.took("."):
            text = self.upper("the name of a type").text
        found = Named(line, text)
        if self.now.text == "{":
            found.arguments = [self.argument(part) for part in split(self.bracket())]
        return found

    def argument(self, part):
        """Returns an argument for a parameter: a type, a number, the name of a value, or None."""
        if not part or part[0].text == "{":
            return None
        if len(part) == 1 and part[0].kind == "number":
            return int(part[0].text)
        if len(part) == 1 and is_lower(part[0]):
            return part[0].text
        inner = self.inside(part)
        return inner.type() if is_upper(inner.now) or inner.now.text == "[" else None

    def tagged(self, line):
        cls = "CONTEXT"
        if self.now.text in ("UNIVERSAL", "APPLICATION", "PRIVATE"):
            cls = self.step().text
        number = self.number("the number of a tag")
        if not 0 <= number < 2**32:
            raise Refused(line, f"the number of a tag is from 0 to {2**32 - 1}")
        self.take("]")
        mode = self.step().text if self.now.text in ("IMPLICIT", "EXPLICIT") else None
        return Tagged(line, Tag(cls, number, mode, line), self.type())

    def number(self, what):
        """Returns a number, or the value of a name that stands for one."""
        token = self.now
        if token.kind == "number" and re.fullmatch(r"-?\d+", token.text):
            self.step()
            return int(token.text)
        if token.text not in self.found.numbers:
            raise self.expected(what)
        self.step()
        return self.found.numbers[token.text]

    def list_of(self, line, word):
        constraints = []
        if self.now.text == "SIZE":
            start = self.step()
            constraints.append(self.sizes(start, self.bracket()))
        while self.now.text == "(":
            constraints.append(self.constraint())
        self.take("OF")
        if is_lower(self.now):
            self.step()
        return ListOf(line, f"{word} OF", self.type(), constraints=constraints)

    def structure(self, line, word):
        self.take("{")
        fields, marks = [], 0
        while not self.took("}"):
            if self.took("..."):
                marks += 1
                if self.took("!"):
                    self.step()
            elif self.took("[["):
                if self.next.text == ":":
                    self.step()
                    self.step()
                while not self.took("]]"):
                    fields.append(self.field(True))
                    self.took(",")
            else:
                fields.append(self.field(marks == 1))
            if not self.took(",") and self.now.text != "}":
                raise self.expected("`,` or `}`")
        return Structure(line, word, fields, marks > 0)

    def field(self, is_addition):
        if self.now.text == "COMPONENTS":
            line = self.step().line
            self.take("OF")
            return ComponentsOf(self.type(), line)
        name = self.lower("the name of a field")
        found = Field(name.text, self.type(), name.line, is_addition=is_addition)
        if self.took("OPTIONAL"):
            found.optional = True
        elif self.took("DEFAULT"):
            found.default = self.default()
        return found

    def default(self):
        """Returns a value, as one line."""
        start = self.now
        if start.text == "{":
            self.bracket()
        else:
            self.step()
        if self.took(":"):
            self.default()
        return self.said(start)

    def numbered(self, line, word):
        """Parses the names in an INTEGER, ENUMERATED or BIT STRING.

        In an ENUMERATED, a name can be without a number.
        """
        self.take("{")
        roots, others, extensible = [], [], False
        while not self.took("}"):
            if self.took("..."):
                extensible = True
            else:
                name, number = self.lower("a name"), None
                if self.took("("):
                    number = self.number("a number")
                    self.take(")")
                elif word != "ENUMERATED":
                    raise self.expected("`(`")
                (others if extensible else roots).append((name, number))
            if not self.took(",") and self.now.text != "}":
                raise self.expected("`,` or `}`")
        items = counted(roots, {number for _, number in roots}, False)
        items += counted(others, {item.number for item in items}, True)
        return Numbered(line, word, items, extensible)

    # Constraints.

    def constraint(self):
        start = self.now
        inner = self.bracket()
        text, line = self.said(start), start.line
        words = [token.text for token in inner]
        if words[:1] == ["{"] or words[:1] in (["CONTAINING"], ["ENCODED"]):
            return Constraint("contents", text, line)
        if words[:1] == ["SIZE"]:
            part = self.inside(inner)
            start = part.step()
            sizes = part.bracket() if part.now.text == "(" else None
            if sizes is not None and part.now.kind == "end":
                return self.sizes(start, sizes, text)
            return Constraint("other", text, line)
        ranges, extensible = ranges_of(inner)
        if ranges is None:
            return Constraint("other", text, line)
        return Constraint("values", text, line, ranges, extensible)

    def sizes(self, start, inner, text=None):
        text = text or "SIZE (" + self.text[inner[0].start : inner[-1].end] + ")"
        ranges, extensible = ranges_of(inner)
        if ranges is None:
            return Constraint("other", text, start.line)
        return Constraint("size", text, start.line, ranges, extensible)


def split(tokens):
    """Returns the parts between commas that are outside of brackets."""
    parts, depth = [[]], 0
    for token in tokens:
        depth += (token.text in PAIRS) - (token.text in PAIRS.values())
        if token.text == "," and not depth:
            parts.append([])
        else:
            parts[-1].append(token)
    return parts


def ranges_of(tokens):
    """Returns the ranges of a constraint, and whether it is extensible; or None, False."""
    found, extensible = [], False
    for part in split(tokens):
        if [token.text for token in part] == ["..."]:
            extensible = True
            continue
        for words in alternatives(part):
            ends = words if len(words) == 3 and words[1] == ".." else [*words, "..", *words]
            if len(ends) != 3 or not all(map(is_bound, ends[::2])):
                return None, False
            found.append(tuple(int(end) if end.lstrip("-").isdigit() else end for end in ends[::2]))
    return (tuple(found), extensible) if found else (None, False)


def alternatives(tokens):
    """Returns the parts of a union, which bars separate."""
    words = [[]]
    for token in tokens:
        if token.text in ("|", "UNION"):
            words.append([])
        else:
            words[-1].append(token.text)
    return words


def is_bound(word):
    """Returns whether a word is the end of a range: a number, MIN, MAX or the name of a value."""
    return word in ("MIN", "MAX") or bool(re.fullmatch(r"-?\d+|[a-z][A-Za-z0-9-]*", word))


def counted(names, used, is_ascending):
    """Returns named numbers. A name without a number gets the least one that isn't used; if they
    ascend, as those after an extension mark, it is also above those before it (X.680 20)."""
    items, free = [], 0
    for name, number in names:
        while number is None and free in used:
            free += 1
        found = free if number is None else number
        items.append(Item(name.text, found, name.line))
        free = max(free, found + 1) if is_ascending or number is None else free
    return items
