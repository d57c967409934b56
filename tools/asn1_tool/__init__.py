"""Parses ASN.1 modules and writes the sources of crates over Wurstdrape (docs/ASN1.md).

syntax   the tree of a module, and the errors that name a line
parser   parses a module's text into the tree
library  the types of the library, and the tables from which modules import types
module   resolves names, tags and constraints, and finds the Rust type of each ASN.1 type
names    Rust names of ASN.1 names
layout   Rust source, laid out as `rt fmt` does
records, choices, numbers, bits    the source of each kind of type
crate    the files of a crate
command  the command line
"""
