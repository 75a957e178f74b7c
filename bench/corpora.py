"""Second half of corpora.sh: takes documents from the unpacked packages and writes the corpora.

Documents are taken in the order of the SHA-1 of their origin's name, so they are the same on every machine with the
same packages, and short and long ones, and their subjects, come mixed.
"""
import gzip
import hashlib
import os
import re
import shutil
import sys

MIB = 2**20
LIMIT = 8 * MIB  # bytes of a document
ENGLISH = "manpages manpages-dev git-man tcl8.6-doc perl-doc glibc-doc linux-doc-6.1".split()
REFERENCES = ["debian-reference-ja", "debian-reference-zh-cn"]
MANUAL_PAGE = re.compile(r"/usr/share/man/.*\.gz$")
ENGLISH_TEXT = re.compile(r"\.(pod|rst|txt)$|\.(rst|txt)\.gz$|/Documentation/.*\.yaml\.gz$")


def files_below(top):
    for folder, folders, names in os.walk(top):
        folders.sort()
        for name in sorted(names):
            path = os.path.join(folder, name)
            if os.path.isfile(path) and not os.path.islink(path):
                yield path


def origins(files, packages, is_wanted):
    """Name and path of the wanted files of the packages. A package that isn't there has none."""
    for package in packages:
        for path in files_below(os.path.join(files, package)):
            if is_wanted(path):
                yield os.path.relpath(path, files), path


def manuals(files):
    def is_wanted(path):
        is_left_out = "/html/" in path or "/translations/" in path
        return not is_left_out and bool(MANUAL_PAGE.search(path) or ENGLISH_TEXT.search(path))

    return list(origins(files, ENGLISH, is_wanted))


def multilingual(files):
    packages = [name for name in sorted(os.listdir(files)) if name.startswith("manpages-") and name != "manpages-dev"]
    return [
        *origins(files, packages, MANUAL_PAGE.search),
        *origins(files, REFERENCES, lambda path: path.endswith(".txt.gz")),
        *origins(files, ["linux-doc-6.1"], lambda path: "/Documentation/translations/" in path),
    ]


def contents(path):
    with gzip.open(path) if path.endswith(".gz") else open(path, "rb") as file:
        return file.read()


def documents(found):
    """Name and bytes of each document, without doubles."""
    seen = set()
    for name, path in sorted(found, key=lambda each: hashlib.sha1(each[0].encode()).digest()):
        data = contents(path)
        digest = hashlib.sha1(data).digest()
        # U+00B8 is cut otherwise by ssidx than by the yardstick, whose tables are of an older Unicode.
        if 64 <= len(data) <= LIMIT and digest not in seen and b"\xc2\xb8" not in data:
            seen.add(digest)
            yield name, data


def write_corpus(out, corpus, found, mib, one_document=None):
    """Writes as many documents as fit in so many MiB, and maybe all of them as one document too."""
    folder = os.path.join(out, f"{corpus}-{mib}")
    size = sum(len(data) for _, data in found)
    if size < 0.9 * mib * MIB:
        print(f"{corpus}-{mib}: left out, there are {size} bytes in all")
        return
    shutil.rmtree(folder, ignore_errors=True)
    os.makedirs(folder)
    taken = []
    room = mib * MIB
    for name, data in found:
        if len(data) <= room:
            taken.append((f"d{len(taken) + 1:05}.txt", name, data))
            room -= len(data)
        if room < 2048:
            break
    with open(folder + ".list", "w") as listing:
        for file_name, name, data in taken:
            listing.write(f"{file_name}\t{len(data)}\t{name}\n")
            with open(os.path.join(folder, file_name), "wb") as file:
                file.write(data)
    if one_document:
        with open(os.path.join(out, one_document), "wb") as file:
            file.writelines(data for _, _, data in taken)
    print(f"{corpus}-{mib}: {len(taken)} documents, {mib * MIB - room} bytes")


def main():
    files, out = sys.argv[1:]
    for corpus, found, one_document in [
        ("manuals", manuals(files), "english.txt"),
        ("multilingual", multilingual(files), "multilingual.txt"),
    ]:
        found = list(documents(found))
        write_corpus(out, corpus, found, 1)
        write_corpus(out, corpus, found, 8, one_document)
        write_corpus(out, corpus, found, 62)


if __name__ == "__main__":
    main()
