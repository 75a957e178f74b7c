#!/usr/bin/env python3
"""Compares the words that `ssidx index` finds with the test vectors for word boundaries of the Unicode Standard.

    word_breaks.py SSIDX [--unicode FOLDER]

The folder is where Debian's package `unicode-data` puts the standard's files. Where it isn't installed nothing is
compared, which is said, and is no failure.

Each vector is two documents: by itself, and as a line between lines of ASCII. Its words are the pieces between its
boundaries that hold an alphabetic character or a number, folded by Python. A vector with a character whose word
break property isn't that of the program's tables, which are newer, can be another here: such lines are printed.
Ends with 1 where any vector differs.
"""
import argparse
import pathlib
import re
import subprocess
import sys
import tempfile
import unicodedata
from collections import defaultdict

FOLDER = "/usr/share/unicode"
VECTORS = "auxiliary/WordBreakTest.txt"
PROPERTIES = "DerivedCoreProperties.txt"
BOUNDARY = "\u00f7"


def alphabetic_characters(path):
    """The characters that are Alphabetic."""
    found = set()
    for line in path.read_text().splitlines():
        match = re.match(r"([0-9A-F]+)(?:\.\.([0-9A-F]+))?\s*; Alphabetic\b", line)
        if match:
            first, last = match.group(1), match.group(2) or match.group(1)
            found.update(map(chr, range(int(first, 16), int(last, 16) + 1)))
    return found


def vectors(path):
    """The pieces of each test vector."""
    for line in path.read_text().splitlines():
        signs = line.split("#")[0].split()
        if signs:
            pieces = "".join(BOUNDARY if sign == BOUNDARY else "" if sign == "\u00d7" else chr(int(sign, 16)) for sign in signs)
            yield [piece for piece in pieces.split(BOUNDARY) if piece]


def words_found(program, folder, count):
    """The terms of each of so many documents, in the order of their positions."""
    names = [str(document) for document in range(1, count + 1)]
    printed = subprocess.run([program, "index", *names], cwd=folder, stdout=subprocess.PIPE, check=True).stdout
    words = defaultdict(dict)
    for line in printed.split(b"\n")[4:-1]:
        term, _, postings = line.split(b" ")
        term = re.sub(rb"\\x([0-9a-f]{2})", lambda escape: bytes([int(escape.group(1), 16)]), term).decode()
        for postings_of_document in postings.split(b";"):
            document, positions = postings_of_document.split(b":")
            for position in positions.split(b","):
                words[int(document)][int(position)] = term
    return [[term for _, term in sorted(words[document].items())] for document in range(1, count + 1)]


def main():
    parser = argparse.ArgumentParser(description=__doc__, formatter_class=argparse.RawDescriptionHelpFormatter)
    parser.add_argument("program", type=pathlib.Path)
    parser.add_argument("--unicode", type=pathlib.Path, default=FOLDER)
    given = parser.parse_args()
    if not (given.unicode / VECTORS).exists():
        print(f"skipped: {given.unicode / VECTORS} isn't there (Debian's package unicode-data has it)")
        return 0

    alphabetic = alphabetic_characters(given.unicode / PROPERTIES)

    def is_word(piece):
        return any(c in alphabetic or unicodedata.category(c)[0] == "N" for c in piece)

    documents = []
    for pieces in vectors(given.unicode / VECTORS):
        words = [piece.casefold() for piece in pieces if is_word(piece)]
        text = "".join(pieces)
        documents.append((text, words))
        documents.append((f"It's 1.5\n{text}\nx_y", ["it's", "1.5", *words, "x_y"]))

    with tempfile.TemporaryDirectory() as folder:
        for number, (text, _) in enumerate(documents, 1):
            (pathlib.Path(folder) / str(number)).write_bytes(text.encode())
        found = words_found(given.program.resolve(), folder, len(documents))

    differing = [(text, wanted, got) for (text, wanted), got in zip(documents, found) if wanted != got]
    for text, wanted, got in differing:
        print(f"{ascii(text)}: {ascii(got)}, and not {ascii(wanted)}")
    print(f"{len(documents)} documents of {len(documents) // 2} vectors, {len(differing)} differ")
    return 1 if differing else 0


if __name__ == "__main__":
    sys.exit(main())
