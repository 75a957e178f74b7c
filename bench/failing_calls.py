#!/usr/bin/env python3
"""Fails one system call of the program after the other: each run must tell exactly the fault that came.

    failing_calls.py SSIDX

Run by hand. A small library, compiled here by `cc`, stands before the C library's open, read and write. The
Nth of them fails, is cut short to a byte, or is interrupted by a signal, and N rises until there is no Nth
call any more. An open and a read that fail have to end with status 3 and the input's name, a write to
standard output with status 4 behind a front part of the text, and a write to the error stream must change
nothing but that stream's text. Calls that are cut short or interrupted must change nothing at all.
"""
import os
import sys
import tempfile

from measure import preloaded

SHIM = r"""
#define _GNU_SOURCE
#include <dlfcn.h>
#include <errno.h>
#include <fcntl.h>
#include <stdarg.h>
#include <stdio.h>
#include <stdlib.h>
#include <string.h>
#include <unistd.h>

static long left = -1;
static const char *how;
static char names[64][256];
static ssize_t (*next_write)(int, const void *, size_t);

__attribute__((constructor)) static void begin(void) {
    left = atol(getenv("CALL"));
    how = getenv("HOW");
    strcpy(names[0], "-");
}

/* Whether this call is the one; a line says so to the script. */
static int is_due(const char *call, const char *name) {
    char line[512];
    if (left < 0 || --left != 0) return 0;
    if (!next_write) next_write = dlsym(RTLD_NEXT, "write");
    (void)!next_write(9, line, snprintf(line, sizeof line, "%s %s\n", call, name));
    return 1;
}

static int fails(void) {
    if (strcmp(how, "short") == 0) return 0;
    errno = strcmp(how, "interrupt") == 0 ? EINTR : EIO;
    return 1;
}

static int opened(int file, const char *name) {
    if (file >= 0 && file < 64) snprintf(names[file], sizeof names[file], "%s", name);
    return file;
}

int open(const char *name, int flags, ...) {
    static int (*next)(const char *, int, ...);
    va_list rest;
    va_start(rest, flags);
    mode_t mode = flags & O_CREAT ? va_arg(rest, mode_t) : 0;
    va_end(rest);
    if (!next) next = dlsym(RTLD_NEXT, "open");
    return is_due("open", name) && fails() ? -1 : opened(next(name, flags, mode), name);
}

int open64(const char *name, int flags, ...) {
    static int (*next)(const char *, int, ...);
    va_list rest;
    va_start(rest, flags);
    mode_t mode = flags & O_CREAT ? va_arg(rest, mode_t) : 0;
    va_end(rest);
    if (!next) next = dlsym(RTLD_NEXT, "open64");
    return is_due("open", name) && fails() ? -1 : opened(next(name, flags, mode), name);
}

int openat(int folder, const char *name, int flags, ...) {
    static int (*next)(int, const char *, int, ...);
    va_list rest;
    va_start(rest, flags);
    mode_t mode = flags & O_CREAT ? va_arg(rest, mode_t) : 0;
    va_end(rest);
    if (!next) next = dlsym(RTLD_NEXT, "openat");
    return is_due("open", name) && fails() ? -1 : opened(next(folder, name, flags, mode), name);
}

ssize_t read(int file, void *into, size_t size) {
    static ssize_t (*next)(int, void *, size_t);
    if (!next) next = dlsym(RTLD_NEXT, "read");
    if (is_due("read", names[file < 64 ? file : 0])) {
        if (fails()) return -1;
        return next(file, into, size < 1 ? size : 1);
    }
    return next(file, into, size);
}

ssize_t write(int file, const void *from, size_t size) {
    if (!next_write) next_write = dlsym(RTLD_NEXT, "write");
    if (is_due("write", file == 1 ? "out" : "err")) {
        if (fails()) return -1;
        return next_write(file, from, size < 1 ? size : 1);
    }
    return next_write(file, from, size);
}
"""

# Files in the folder of the runs.
FILES = {
    "a": b"a b A\n",
    "b": b"b c",
    "empty": b"",
    "long": b"word " * 4000,
    "stop": b"b",
    "script": b"object a 1\nisolate\ndo a add 1\nshow a\njoin\ntotal\n",
    "bad": b"object a 1\nshow b\n",
    "broken": b"object a 1 own\nshow a\nisolate\ndo a add 1 in 1\ndo a add 1 in 2\n",
}
RUNS = [
    (["index", "-"], b"x y x"),
    (["index", "a"], b""),
    (["index", "a", "-", "b", "a", "empty", "-"], b"from standard input"),
    (["index", "--stop", "stop", "long", "a", "b"], b""),
    (["index", "--stop", "-", "a"], b"b"),
    (["script", "script"], b""),
    (["script", "-"], FILES["script"]),
    (["script", "bad"], b""),
    (["script", "broken"], b""),
    (["gen", "3", "20", "1"], b"nobody reads this"),
    (["gen", "65537", "1", "1"], b""),
    (["index"], b""),
]
CANNOT_WRITE = b"ssidx: cannot write\n"


def is_right(right, answer, fault):
    """Whether a run answered as one without a fault does, but for what the fault makes of it."""
    status, out, err = answer
    match fault.decode().split():
        case [("open" | "read"), name]:
            return answer == (3, b"", f"ssidx: cannot read {name}\n".encode())
        case ["write", "out"]:
            return status == 4 and err == CANNOT_WRITE and right[1].startswith(out) and out != right[1]
        case ["write", "err"]:
            return (status, out) == right[:2] and right[2].startswith(err)
    return False


def main():
    if len(sys.argv) != 2:
        sys.exit(__doc__)
    ssidx = os.path.abspath(sys.argv[1])
    wrong = 0
    with tempfile.TemporaryDirectory() as folder:
        run = preloaded(SHIM, folder)
        for name, data in FILES.items():
            with open(os.path.join(folder, name), "wb") as file:
                file.write(data)
        for words, given in RUNS:
            right, _ = run([ssidx, *words], given, CALL="0", HOW="fail")
            for how in ["fail", "interrupt", "short"]:
                number, fault = 0, b"first"
                while fault:
                    number += 1
                    answer, fault = run([ssidx, *words], given, CALL=str(number), HOW=how)
                    if not (is_right(right, answer, fault) if fault and how == "fail" else answer == right):
                        wrong += 1
                        print(f"WRONG  {' '.join(words)}, {how} at call {number}, {fault}: {answer}")
                print(f"{' '.join(words)}: {number - 1} calls, {how}")
    sys.exit(1 if wrong else 0)


if __name__ == "__main__":
    main()
