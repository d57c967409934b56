"""Makes Rust names from ASN.1 names."""

import re

KEYWORDS = set(
    """as break const continue crate else enum extern false fn for if impl in let loop match mod
    move mut pub ref return self static struct super trait true type unsafe use where while async
    await dyn abstract become box do final macro override priv typeof unsized virtual yield try
    ghost syntax prove union std core""".split()
)
# The written files use these names for something else, so a type with such a name ends with `Type`.
TAKEN = set(
    """Any AsEnumerated AsNumbered AsRead AsRecord BitString Box Cases CasesRef Choice Clone Copy
    Debug Decode DecodeFields DecodeRow DefaultContent DerOrd Described Drop Element Encode
    EncodeFields EncodeRef Eq Err Error Explicit FieldRow Fields FieldsOrd FieldsView FirstTag Flag
    FlagSet Flags GeneralizedTime Global Implicit ImplicitRef InRange InRangeValue Int Length Member
    NamedBits None Null Numbered ObjectIdentifier OctetString Ok Opened Option Ordered Ordering
    PartialEq R Reader Rest RestRef RestRow RestRowRef Result Row RowUser Rows Self SequenceOf
    Shaped ShapedValue Some StrictSetOf String Tag Uint UtcTime Vec WithDefault Writer""".split()
)
# Modules of the crate that contain no types of the ASN.1 module.
MODULES = {"aliases", "identifiers", "defaults", "laws", "lib", "main"}


def words(name):
    """Returns the words of a name, such as OCSP and Request, or SHA2 and Family."""
    found = []
    for part in re.split(r"[-_]", name):
        found += re.findall(
            r"[A-Z]+(?=v[0-9])|v[0-9]+$|[A-Z]+(?=[A-Z][a-z])|[A-Z]?[a-z]+[0-9]*|"
            r"[A-Z]+[0-9]*|[0-9]+",
            part,
        )
    return found


def variant(name):
    """Returns the name of a variant: `KeyHash` for `keyHash`."""
    return "".join(word[0].upper() + word[1:].lower() for word in words(name))


def camel(name):
    """Returns the name of a type."""
    found = variant(name)
    return found + "Type" if found in TAKEN else found


def snake(name):
    """Returns the name of a field or a function."""
    found = "_".join(word.lower() for word in words(name))
    return found + "_" if found in KEYWORDS else found


def module(name):
    """Returns the name of the module that contains a type."""
    found = "_".join(word.lower() for word in words(name))
    return found + "_type" if found in KEYWORDS | MODULES else found
