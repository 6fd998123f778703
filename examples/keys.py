"""Prints the key of each entry of a .bib file, with its place in bytes, or what the file is refused with."""

import sys

import bib

with open(sys.argv[1], "rb") as source:
    file = source.read()
try:
    for row in bib.read(file):
        if row.kind == bib.Kind.KEY:
            print(file[row.start : row.end].decode(), row.start, row.end)
except bib.Refusal as refusal:
    sys.exit(f"{refusal}")
