#!/usr/bin/env python3
"""Times `ssidx index` on documents that are hard for it, beside English of as many bytes, in turns on one machine.

    hard_documents.py SSIDX [--english FILE...] [--compare]

    small        65,536 documents of 1 KiB of English
    distinct     8 documents of 8 MiB in which no word comes twice
    colliding    8 documents of nearly 1 MiB. Their words are all different, and all fall into one bucket of each of
                 the program's tables of texts
    all in each  8 documents of nearly 8 MiB, in each of which stand all of these words

The English beside them is 8 documents of 8 MiB, or for `colliding` of 1 MiB. Its files are joined, and repeated where
they are too short. The colliding words come from the program in hard_documents/, which takes half a minute, and are
checked here.

Prints for each the least time of the repeats, the peak of memory, and the ratio of its time for a byte to that of
English. Ends with 1 where a run fails, a ratio is over the limit, or an index that is compared is another than the
yardstick's.
"""
import argparse
import itertools
import os
import pathlib
import subprocess
import sys
import tempfile
from typing import NamedTuple

from measure import HERE, WORK, best_of, cargo_program, held_bytes, measured, yardstick

MIB = 2**20
DOCUMENTS = 8
MOST = 8 * MIB  # bytes of a document
SMALL = 1024  # bytes of a small document
WORD = 17  # bytes of a colliding word with the space behind it
COLLIDING = MOST // WORD  # as many words as fill a document

STATE = 0x243F6A8885A308D3
MULTIPLIER = 0x9E3779B97F4A7C15
ALIKE = 2**28 - 1  # the bits of the colliding words' tags that are alike, all zero


class Case(NamedTuple):
    name: str
    folder: pathlib.Path
    documents: list[str]
    english: str = None  # the case that it is timed beside

    def size(self):
        return sum(os.path.getsize(self.folder / document) for document in self.documents)


def tag_of(word):
    """The tag of a word of 16 bytes in the program's tables, whose low bits tell its bucket."""
    first, second = (int.from_bytes(half, "little") for half in (word[:8], word[8:]))
    product = (first ^ (STATE + 16)) * (second ^ MULTIPLIER)
    return (product ^ product >> 64) >> 32 & 0xFFFFFFFF


def colliding_words(path):
    """Writes the words to a file, a space behind each, and checks them."""
    program = cargo_program(os.path.join(HERE, "hard_documents"), os.path.join(WORK, "hard_documents"))
    with open(path, "wb") as words:
        subprocess.run([program, str(COLLIDING)], stdout=words, check=True)
    words = path.read_bytes().split()
    are_alike = all(len(word) == WORD - 1 and tag_of(word) & ALIKE == 0 for word in words)
    if not are_alike or len(set(words)) != COLLIDING:
        sys.exit("the colliding words aren't what they should be")
    path.write_bytes(path.read_bytes().replace(b"\n", b" "))


def write_text(path, pieces):
    """As many bytes of the pieces as all documents may have."""
    left = DOCUMENTS * MOST
    with open(path, "wb") as text:
        for piece in pieces:
            left -= text.write(piece[:left])
            if left == 0:
                return


def numbered(numbers):
    """A word for each number, of one length: what a cut leaves of a word is none of the others."""
    return "".join(f"w{i:07} " for i in numbers).encode()


def cut(path, name, count, size, english=None):
    """A case of so many documents of so many bytes, cut from a text."""
    folder = path.with_name(name)
    folder.mkdir()
    documents = [str(i) for i in range(count)]
    with open(path, "rb") as text:
        for document in documents:
            (folder / document).write_bytes(text.read(size))
    return Case(name, folder, documents, english)


def cases(top, english_files):
    english, distinct, colliding = (top / name for name in ("english.txt", "distinct.txt", "colliding.txt"))
    # First, so that what the check of the words holds isn't held with a text.
    colliding_words(colliding)
    write_text(english, (pathlib.Path(path).read_bytes() for path in itertools.cycle(english_files)))
    write_text(distinct, (numbered(range(i, i + 1000)) for i in itertools.count(step=1000)))
    return [
        cut(english, "English", DOCUMENTS, MOST),
        cut(english, "short English", DOCUMENTS, MIB),
        cut(english, "small", DOCUMENTS * MOST // SMALL, SMALL, "English"),
        cut(distinct, "distinct", DOCUMENTS, MOST, "English"),
        cut(colliding, "colliding", DOCUMENTS, COLLIDING // DOCUMENTS * WORD, "short English"),
        Case("all in each", top, [colliding.name] * DOCUMENTS, "English"),
    ]


def best_runs(ssidx, all_cases, repeats):
    """The best run of each case, by its name. The cases take turns."""
    runs = {case.name: [] for case in all_cases}
    for _ in range(repeats):
        for case in all_cases:
            run = measured([ssidx, "index", *case.documents], folder=case.folder)
            if run.status != 0:
                sys.exit(f"{case.name}: ssidx ended with status {run.status}")
            runs[case.name].append(run)
    return {name: best_of(those) for name, those in runs.items()}


def differing(baseline, all_cases, best):
    """The names of the cases whose index is another than the yardstick's."""
    for case in all_cases:
        if measured([baseline, "fast", "1", *case.documents], folder=case.folder).digest != best[case.name].digest:
            yield case.name


def show(all_cases, best, limit):
    """Prints the table, and tells whether every ratio is within the limit."""
    print(f"{'':14}{'documents':>10}{'MiB':>8}{'s':>9}{'peak MiB':>10}{'for a byte':>12}{'x English':>11}")
    paces = {case.name: best[case.name].seconds / case.size() for case in all_cases}
    is_within = True
    for case in all_cases:
        run, size = best[case.name], case.size()
        ratio = paces[case.name] / paces[case.english or case.name]
        is_within &= ratio <= limit
        print(
            f"{case.name:14}{len(case.documents):10}{size / MIB:8.2f}{run.seconds:9.3f}{run.peak_bytes / MIB:10.1f}"
            f"{run.peak_bytes / size:12.1f}{ratio:11.2f}{'' if ratio <= limit else '  OVER THE LIMIT'}"
        )
    return is_within


def main():
    parser = argparse.ArgumentParser(description=__doc__, formatter_class=argparse.RawDescriptionHelpFormatter)
    parser.add_argument("ssidx", help="the built program")
    parser.add_argument("--english", nargs="+", metavar="FILE", default=[os.path.join(WORK, "corpora", "english.txt")],
                        help="English text (work/corpora/english.txt)")
    parser.add_argument("--repeats", type=int, default=3, help="runs of each (3)")
    parser.add_argument("--at-most-english", type=float, default=8.0, metavar="X", help="the limit on the ratio (8)")
    parser.add_argument("--compare", action="store_true", help="compare the indexes with those of the yardstick")
    options = parser.parse_args()

    with tempfile.TemporaryDirectory() as folder:
        all_cases = cases(pathlib.Path(folder), options.english)
        print(f"no peak below {held_bytes() / MIB:.1f} MiB can be seen")
        best = best_runs(os.path.abspath(options.ssidx), all_cases, options.repeats)
        is_within = show(all_cases, best, options.at_most_english)
        others = list(differing(yardstick(), all_cases, best)) if options.compare else []
    for name in others:
        print(f"{name}: the index is OTHER than the yardstick's")
    sys.exit(0 if is_within and not others else 1)


if __name__ == "__main__":
    main()
