#!/usr/bin/env python3
"""Prints the subject of a root certificate, and validates a chain under it:

    first.py ROOT CHAIN SECONDS
"""

import pathlib
import sys

import wurstdrape

if len(sys.argv) != 4:
    sys.exit("usage: first.py ROOT CHAIN SECONDS")
root, chain = (pathlib.Path(name).read_bytes() for name in sys.argv[1:3])
print(wurstdrape.describe(root)["subject"]["text"])
verdict = wurstdrape.verify(root, chain, at=int(sys.argv[3]))
print("trusted" if verdict.trusted else f"not trusted: {verdict}")
