#!/usr/bin/env python3
"""Refuses the program one allocation after the other: each run must print all or nothing.

    refused_memory.py SSIDX

Run by hand. A small library, compiled here by `cc`, stands before the C library's allocator and refuses
the Nth request. N rises from 1 until no request is refused any more. A run with a refused request has to
end with status 5 and its text, and print nothing; or, where the program could do without that memory, as
a run without a refusal does.
"""
import os
import subprocess
import sys
import tempfile

from measure import preloaded

SHIM = r"""
#define _GNU_SOURCE
#include <dlfcn.h>
#include <stddef.h>
#include <stdlib.h>
#include <unistd.h>

static long left = -1;

__attribute__((constructor)) static void begin(void) { left = atol(getenv("REFUSE")); }

static int refused(void) {
    if (left < 0 || --left != 0) return 0;
    /* A line that the script looks for: the request was made and refused. */
    (void)!write(9, "refused\n", 8);
    return 1;
}

void *malloc(size_t n) {
    static void *(*next)(size_t);
    if (!next) next = dlsym(RTLD_NEXT, "malloc");
    return refused() ? NULL : next(n);
}

void *realloc(void *p, size_t n) {
    static void *(*next)(void *, size_t);
    if (!next) next = dlsym(RTLD_NEXT, "realloc");
    return refused() ? NULL : next(p, n);
}

int posix_memalign(void **p, size_t align, size_t n) {
    static int (*next)(void **, size_t, size_t);
    if (!next) next = dlsym(RTLD_NEXT, "posix_memalign");
    return refused() ? 12 : next(p, align, n);
}

void *aligned_alloc(size_t align, size_t n) {
    static void *(*next)(size_t, size_t);
    if (!next) next = dlsym(RTLD_NEXT, "aligned_alloc");
    return refused() ? NULL : next(align, n);
}
"""

# Files in the folder of the runs.
FILES = {
    "three words": b"a b A\n",
    "folded by the tables": "Straße STRASSE".encode(),
    "300 terms": b" ".join(b"w%d" % i for i in range(300)),
    "malformed": b"a\xffb",
    "two reads": b"x " * 3000,
    "nothing": b"",
    "stop list": b"a b w1 w2 w3 w299",
    **{f"document {i}": b" ".join(b"w%d" % (i * j % 53) for j in range(20)) for i in range(40)},
    "script": b"object a 1\nobject b 2 own\nfixed c 3\nisolate\ndo a give\ndo b add 4 in 7\nmix a c\nshow a\n"
    b"write a set 5\ndo a mul 3\nshow b\njoin\ntotal\nisolate\ndo b mul 2 in 8\nshow b\n",
    "long script": b"".join(b"object o%d %d\n" % (i, i) for i in range(200)) + b"isolate\n"
    + b"".join(b"do o%d give\n" % (i * 7 % 200) for i in range(400)) + b"".join(b"show o%d\n" % i for i in range(200)),
    "bad script": b"object a 1\nshow b\n",
    "broken script": b"object a 1 own\nshow a\nisolate\ndo a add 1 in 1\ndo a add 1 in 2\n",
}

# What is run, each on standard input of the third word if there is one.
RUNS = [
    *[(f"index, {name}", ["index", "-"], name) for name in ["three words", "folded by the tables", "300 terms"]],
    *[(f"index, {name}", ["index", "-"], name) for name in ["malformed", "two reads", "nothing"]],
    ("index, 40 documents and a stop list", ["index", "--stop", "stop list", *[f"document {i}" for i in range(40)]], ""),
    ("index, one name 300 times", ["index", *["three words"] * 300], ""),
    ("index, an absent name", ["index", "three words", "absent"], ""),
    ("script", ["script", "script"], ""),
    ("script, 800 lines", ["script", "long script"], ""),
    ("script, a bad line", ["script", "bad script"], ""),
    ("script, a break", ["script", "broken script"], ""),
    ("gen 3 20 1", ["gen", "3", "20", "1"], ""),
    ("gen 40 30 7", ["gen", "40", "30", "7"], ""),
    ("gen 65537 1 1", ["gen", "65537", "1", "1"], ""),
    ("usage", ["index"], ""),
]
WANT_OF_MEMORY = (5, b"", b"ssidx: out of memory\n")


def main():
    if len(sys.argv) != 2:
        sys.exit(__doc__)
    ssidx = os.path.abspath(sys.argv[1])
    wrong = 0
    with tempfile.TemporaryDirectory() as folder:
        run = preloaded(SHIM, folder)
        for name, data in FILES.items():
            with open(os.path.join(folder, name), "wb") as file:
                file.write(data)
        for case, words, given in RUNS:
            right, _ = run([ssidx, *words], FILES.get(given, b""), REFUSE="0")
            number, told, whole = 0, b"refused\n", 0
            while told:
                number += 1
                answer, told = run([ssidx, *words], FILES.get(given, b""), REFUSE=str(number))
                whole += bool(told) and answer == right
                if answer != right and not (told and answer == WANT_OF_MEMORY):
                    wrong += 1
                    print(f"WRONG  {case}, request {number}: {answer}")
            print(f"{case}: {number - 1} requests, each refused once; {whole} were done without")
    sys.exit(1 if wrong else 0)


if __name__ == "__main__":
    main()
