#!/usr/bin/env python3
"""Runs ssidx on bad and hard inputs, and tells for each whether the answer is the right one.

    bad_inputs.py SSIDX [--english FILE] [--compare]

A line for each case: ok or FAILS, the case, the exit status, and what came on standard output and on the error
stream. A status below 0 is that of a program which a signal ended. Ends with 1 where a case fails.

The hard inputs come first, 8 MiB each. They must end with status 0. --english names a text of about that size, and
then none of them may take more than 4 times the time of that text, byte for byte, in the least of 3 runs each.
--compare compares their indexes with those of the yardstick in baseline/, but for the random bytes: they hold
characters that the yardstick's older Unicode tables cut otherwise.

No peak below what this script holds, about 20 MiB, can be seen.

A program that Python starts has SIGPIPE at its default, as one from a shell, so one that neither ignores nor
catches it ends with status -13 where nobody reads its output.
"""
import argparse
import contextlib
import fcntl
import itertools
import os
import random
import shutil
import subprocess
import sys
import tempfile
import termios
import threading

import gen_model
from measure import best_of, measured, yardstick

LIMIT = 8_388_608  # bytes of a document
MIB = 2**20
SECONDS = 60  # after which a run is killed, with status -9
AT_MOST_ENGLISH = 4.0

USAGE = b"""\
usage: ssidx index [--delegates N] [--mode lanes|batch] [--ring N] [--stop FILE] NAME...
       ssidx script [--delegates N] [--mode lanes|batch] [--ring N] [--trace] NAME
       ssidx replay [--delegates N] [--order] SCRIPT SCHEDULE
       ssidx gen [--delegates N] [--mode lanes|batch] [--ring N] DOCS WORDS SEED
"""
CANNOT_READ = b"ssidx: cannot read -\n"
CANNOT_WRITE = b"ssidx: cannot write\n"
OUT_OF_MEMORY = b"ssidx: out of memory\n"
TOO_LONG = b"ssidx: limit: document 1 is over 8388608 bytes: -\n"
EMPTY = b"documents 1\nwords 0\nlongest 0\nterms 0\n"

# Words that are no command. A command that is added takes its lines away from here.
NOT_COMMANDS = [
    ("no words", []),
    ("`index` alone", ["index"]),
    ("`index -x`", ["index", "-x"]),
    ("`index a -x`", ["index", "a", "-x"]),
    ("`index --`", ["index", "--"]),
    ("`index` and an empty word", ["index", ""]),
    ("an empty word among names", ["index", "a", "", "a"]),
    ("`index --stop`", ["index", "--stop"]),
    ("`index --stop a`", ["index", "--stop", "a"]),
    ("`index --stop -x a`", ["index", "--stop", "-x", "a"]),
    ("`--stop` and an empty word", ["index", "--stop", "", "a"]),
    ("`--stop` twice", ["index", "--stop", "a", "--stop", "a", "a"]),
    ("`--stop=`", ["index", "--stop=", "a"]),
    ("an empty word behind `--`", ["index", "--", ""]),
    ("`--delegates 65`", ["index", "--delegates", "65", "a"]),
    ("`--ring 0`", ["index", "--ring", "0", "a"]),
    ("`--mode threads`", ["index", "--mode", "threads", "a"]),
    ("`gen --stop`", ["gen", "--stop", "a", "1", "1", "1"]),
    ("`--Stop`", ["index", "--Stop", "a", "a"]),
    ("`--stop` before the command", ["--stop", "a", "index", "a"]),
    ("`script`", ["script"]),
    ("`script a a`", ["script", "a", "a"]),
    ("`gen`", ["gen"]),
    ("`gen 1 1`", ["gen", "1", "1"]),
    ("`gen 1 1 1 1`", ["gen", "1", "1", "1", "1"]),
    ("`gen 0 1 1`", ["gen", "0", "1", "1"]),
    ("`gen 1 1 -1`", ["gen", "1", "1", "-1"]),
    ("`gen +1 1 1`", ["gen", "+1", "1", "1"]),
    ("`gen 1 1.0 1`", ["gen", "1", "1.0", "1"]),
    ("`gen 1 0x1 1`", ["gen", "1", "0x1", "1"]),
    ("`gen` and an empty word", ["gen", "1", "", "1"]),
    ("`gen` and a space", ["gen", "1", " 1", "1"]),
    ("`gen` and a digit that isn't ASCII", ["gen", "1", "١", "1"]),
    ("a seed of 2^31", ["gen", "1", "1", "2147483648"]),
    ("2^32 documents", ["gen", "4294967296", "1", "1"]),
    ("2^32 words", ["gen", "1", "4294967296", "1"]),
    ("a number of 11 digits", ["gen", "12345678901", "1", "1"]),
    ("a 1 of 11 digits", ["gen", "1", "00000000001", "1"]),
    ("`Index -`", ["Index", "-"]),
    ("`- index`", ["-", "index"]),
    ("`--help`", ["--help"]),
    ("`--version`", ["--version"]),
    ("byte FF", [b"\xff"]),
    ("`index` and byte FF", ["index", b"\xff"]),
    ("`index -` and byte FF", ["index", "-", b"\xff"]),
    ("20,000 names and an option", ["index"] + ["-"] * 20_000 + ["--stop"]),
]

INDEX = ["index", "-"]

# What the shell does to the program's streams, with the words, the status and the text on the error stream.
STREAMS = [
    ("standard input closed", "<&-", INDEX, 3, CANNOT_READ),
    ("standard input a folder", "</", INDEX, 3, CANNOT_READ),
    ("standard output full", ">/dev/full", INDEX, 4, CANNOT_WRITE),
    ("standard output closed", ">&-", INDEX, 4, CANNOT_WRITE),
    ("both outputs full", ">/dev/full 2>/dev/full", INDEX, 4, b""),
    ("all three streams closed", "<&- >&- 2>&-", INDEX, 3, b""),
    ("error stream closed, usage due", "2>&-", [], 2, b""),
    ("error stream full, usage due", "2>/dev/full", [], 2, b""),
    ("error stream closed, standard input too", "<&- 2>&-", INDEX, 3, b""),
]


def read_fault(name):
    return 3, b"", f"ssidx: cannot read {name}\n".encode()


def over_limit(told):
    return 6, b"", f"ssidx: limit: {told}\n".encode()


def indexed(documents, words, longest, *terms):
    """The answer with this index, of which `terms` are the lines."""
    head = [f"documents {documents}", f"words {words}", f"longest {longest}", f"terms {len(terms)}"]
    return 0, "".join(line + "\n" for line in [*head, *terms]).encode(), b""


# Files in the folder of the cases below. There is a folder `d` too.
FILES = {"a": b"a b A", "b": b"b c", "empty": b"", "all": b"c b a", "capital": b"B", "-x": b"b c"}
GIVEN = b"x b"  # on standard input
OF_A = indexed(1, 3, 1, "a 2 1:1,3", "b 1 1:2")

# Words behind `index` that name inputs, with the right answers.
NAMES = [
    ("two documents", ["a", "b"], indexed(2, 5, 1, "a 2 1:1,3", "b 2 1:2;2:1", "c 1 2:2")),
    ("a name twice", ["a", "a"], indexed(2, 6, 1, "a 4 1:1,3;2:1,3", "b 2 1:2;2:2")),
    ("`-` among names", ["a", "-", "b"], indexed(3, 7, 1, "a 2 1:1,3", "b 3 1:2;2:2;3:1", "c 1 3:2", "x 1 2:1")),
    ("`-` twice", ["-", "-"], indexed(2, 2, 1, "b 1 1:2", "x 1 1:1")),
    ("20,000 times `-`", ["-"] * 20_000, indexed(20_000, 2, 1, "b 1 1:2", "x 1 1:1")),
    ("an empty file", ["empty"], indexed(1, 0, 0)),
    ("a document between empty ones", ["empty", "a", "empty"], indexed(3, 3, 1, "a 2 2:1,3", "b 1 2:2")),
    ("`./-x`", ["./-x"], indexed(1, 2, 1, "b 1 1:1", "c 1 1:2")),
    ("a stop list", ["--stop", "capital", "a", "b"], indexed(2, 3, 1, "a 2 1:1,3", "c 1 2:2")),
    ("a stop list that stops all", ["--stop", "all", "a", "b"], indexed(2, 0, 0)),
    ("a document that is its own stop list", ["--stop", "a", "a"], indexed(1, 0, 0)),
    ("an empty stop list", ["--stop", "empty", "a"], OF_A),
    ("`-` as the stop list", ["--stop", "-", "a"], indexed(1, 2, 1, "a 2 1:1,3")),
    ("`-` as the stop list and as a document", ["--stop", "-", "-", "a"], indexed(2, 2, 1, "a 2 2:1,3")),
    ("an absent name among present ones", ["a", "absent", "b"], read_fault("absent")),
    ("two absent names", ["a", "absent", "gone"], read_fault("absent")),
    ("an absent stop list", ["--stop", "absent", "a"], read_fault("absent")),
    ("an absent stop list and an absent name", ["--stop", "absent", "gone"], read_fault("absent")),
    ("a folder as a document", ["a", "d"], read_fault("d")),
    ("a folder as a stop list", ["--stop", "d", "a"], read_fault("d")),
    ("a name below a file", ["a/b"], read_fault("a/b")),
    ("a file with a slash behind its name", ["a/"], read_fault("a/")),
    ("an absent name of two lines", ["x\ny"], read_fault("x\ny")),
    ("a name that is too long for the system", ["a" * 256], read_fault("a" * 256)),
    ("a name of 131,071 bytes", ["a" * 131_071], read_fault("a" * 131_071)),
    ("a file that opens and can't be read", ["a", "/proc/self/mem"], read_fault("/proc/self/mem")),
    ("an endless file", ["a", "/dev/zero"], over_limit("document 2 is over 8388608 bytes: /dev/zero")),
    ("an endless stop list", ["--stop", "/dev/zero", "a"], over_limit("stop list is over 8388608 bytes")),
]

# The same of limits. `full` has as many bytes as a document may have, and `over` one more, all spaces.
IN_EACH = [";".join(f"{i}:{positions}" for i in range(1, 65_537)) for positions in ("1,3", "2")]
LIMITS = [
    ("a document at its limit", ["full"], indexed(1, 0, 0)),
    ("a document over its limit", ["a", "over"], over_limit("document 2 is over 8388608 bytes: over")),
    ("all documents at their limit", ["full"] * 8, indexed(8, 0, 0)),
    ("the same and an empty one", ["full"] * 8 + ["empty"], indexed(9, 0, 0)),
    ("nine documents at the limit", ["full"] * 9, over_limit("documents to 9 are over 67108864 bytes")),
    ("a small document over the limit of all", ["full"] * 8 + ["b"],
     over_limit("documents to 9 are over 67108864 bytes")),
    ("both limits at one byte", ["full"] * 7 + ["over"], over_limit("document 8 is over 8388608 bytes: over")),
    ("that of all documents some bytes before", ["b"] + ["full"] * 7 + ["over"],
     over_limit("documents to 9 are over 67108864 bytes")),
    ("a stop list at its limit", ["--stop", "full", "a"], OF_A),
    ("a stop list over its limit", ["--stop", "over", "a"], over_limit("stop list is over 8388608 bytes")),
    ("a stop list and a document over theirs", ["--stop", "over", "over"],
     over_limit("stop list is over 8388608 bytes")),
    ("65,536 names", ["a"] * 65_536, indexed(65_536, 196_608, 1, f"a 131072 {IN_EACH[0]}", f"b 65536 {IN_EACH[1]}")),
    ("65,537 names", ["a"] * 65_537, over_limit("65537 names are over 65536")),
    ("65,537 absent names and an absent stop list", ["--stop", "absent"] + ["y"] * 65_537,
     over_limit("65537 names are over 65536")),
]

# Documents, words and seed, whose summaries the model knows, and those that meet a limit.
GENERATED = [
    (1, 0, 0), (65_536, 0, 0), (1, 1, 0), (1, 1, 2**31 - 1), (2, 5, 1), (3, 1000, 42), (100, 37, 2**31 - 1),
    (65_536, 1, 7), (2, 100_000, 5),
]
OVER_GENERATED = [(1, 2_000_000, 3), (9, 1_700_000, 7), (65_536, 1100, 0)]
OVER_AT_ONCE = [
    ("65,537 documents", (65_537, 0, 0), "65537 names are over 65536"),
    ("all that can be said", (2**32 - 1, 2**32 - 1, 2**31 - 1), "4294967295 names are over 65536"),
    ("2^32 - 1 words", (1, 2**32 - 1, 0), "document 1 is over 8388608 bytes"),
]

# Documents, with their indexes. `a` and `b` stand around what is malformed where two words are told.
TWO_WORDS = b"documents 1\nwords 2\nlongest 1\nterms 2\na 1 1:1\nb 1 1:2\n"
DOCUMENTS = [
    ("empty", b"", EMPTY),
    ("`a b A`", b"a b A", b"documents 1\nwords 3\nlongest 1\nterms 2\na 2 1:1,3\nb 1 1:2\n"),
    ("a byte that begins nothing", b"a\xffb", TWO_WORDS),
    ("a lone continuation byte", b"a\x80b", TWO_WORDS),
    ("two of three bytes", b"a\xe2\x82b", TWO_WORDS),
    ("three of four bytes", b"a\xf0\x9f\x98b", TWO_WORDS),
    ("two of three bytes at the end", b"a b\xe2\x82", TWO_WORDS),
    ("one of four bytes at the end", b"a b\xf0", TWO_WORDS),
    ("`/` overlong in two bytes", b"a\xc0\xafb", TWO_WORDS),
    ("`/` overlong in three bytes", b"a\xe0\x80\xafb", TWO_WORDS),
    ("U+FFFF overlong in four bytes", b"a\xf0\x8f\xbf\xbfb", TWO_WORDS),
    ("a high surrogate", b"a\xed\xa0\x80b", TWO_WORDS),
    ("a pair of surrogates", b"a\xed\xa0\xbd\xed\xb8\x80b", TWO_WORDS),
    ("past U+10FFFF", b"a\xf4\x90\x80\x80b", TWO_WORDS),
    ("five and six byte forms", b"a\xf8\x88\x80\x80\x80\xfc\x84\x80\x80\x80\x80b", TWO_WORDS),
    ("zero bytes", b"a\0b\0", TWO_WORDS),
]

SENTENCES = (
    "The quick brown fox. Ξεσκεπάζω την ψυχοφθόρα βδελυγμία. Съешь же ещё этих мягких булок. "
    "דג סקרן שט בים מאוכזב. نص حكيم له سر قاطع. ऋषियों को सताने वाले. เป็นมนุษย์สุดประเสริฐ "
    "いろはにほへと チリヌルヲ 天地玄黃宇宙洪荒 키스의 고유조건은 Straße ﬁn İstanbul 3.14 1,000 can't 👍🏽 🇩🇪\n"
)

RANDOM = "random bytes"


def repeated(text):
    piece = text.encode()
    return itertools.repeat(piece * (1 + 4096 // len(piece)))


def numbered(prefix):
    return (f"{prefix}{i} ".encode() for i in itertools.count())


# Hard documents as endless pieces, which are cut at 8 MiB.
HARD = [
    ("one letter repeated", lambda: repeated("a")),
    ("spaces", lambda: repeated(" ")),
    ("`a b c` and so on", lambda: repeated("a b c d e f g h i j k l m n o p q r s t u v w x y z ")),
    ("distinct words, `w0 w1 w2` and so on", lambda: numbered("w")),
    ("distinct words with a common prefix of 200 letters", lambda: numbered("p" * 200)),
    ("a letter and combining marks to the end", lambda: itertools.chain([b"a"], repeated("\u0301"))),
    ("families of emoji with joiners", lambda: repeated("👨\u200d👩\u200d👧\u200d👦")),
    ("one chain of emoji and joiners", lambda: repeated("👩\u200d")),
    ("regional indicators", lambda: repeated("🇩🇪")),
    ("`a.b.c.` repeated", lambda: repeated("a.b.c.")),
    ("`1,` repeated", lambda: repeated("1,")),
    ("`a. ` repeated", lambda: repeated("a. ")),
    ("a letter that folds to three", lambda: repeated("\u0390")),
    ("all bytes FF", lambda: itertools.repeat(b"\xff" * 4096)),
    ("a mix of scripts", lambda: repeated(SENTENCES)),
    (RANDOM, lambda: map(random.Random(1).randbytes, itertools.repeat(4096))),
]


def shown(text):
    """The start of a text, on one line."""
    return repr(text[:44])[1:] + (f" and {len(text) - 44} bytes more" if len(text) > 44 else "")


class Report:
    def __init__(self):
        self.failed = 0

    def line(self, case, is_ok, told):
        self.failed += not is_ok
        print(f"{'ok' if is_ok else 'FAILS':5}  {case}: {told}", flush=True)

    def answer(self, case, wanted, got):
        """`wanted` and `got` are status, standard output and error stream."""
        told = "status {}, printed {}, told {}".format(got[0], shown(got[1]), shown(got[2]))
        if got != wanted:
            told += "; wanted status {}, {} and {}".format(wanted[0], shown(wanted[1]), shown(wanted[2]))
        self.line(case, got == wanted, told)


def answer(words, given=b"", **streams):
    """Status, standard output and error stream of a run."""
    streams = {"stdout": subprocess.PIPE, "stderr": subprocess.PIPE, **streams}
    try:
        run = subprocess.run(words, input=given, timeout=SECONDS, **streams)
    except subprocess.TimeoutExpired as error:
        return -9, error.stdout or b"", error.stderr or b""
    return run.returncode, run.stdout or b"", run.stderr or b""


@contextlib.contextmanager
def started(words, stdin=subprocess.PIPE):
    """A run whose pipes are in the caller's hands."""
    child = subprocess.Popen(words, stdin=stdin, stdout=subprocess.PIPE, stderr=subprocess.PIPE, bufsize=0)
    alarm = threading.Timer(SECONDS, child.kill)
    alarm.start()
    try:
        with child:
            yield child
    finally:
        alarm.cancel()


@contextlib.contextmanager
def file_of(pieces):
    with tempfile.TemporaryFile() as document:
        document.writelines(pieces)
        document.seek(0)
        yield document


def try_streams(ssidx, report):
    for case, redirections, words, status, told in STREAMS:
        got = answer(["sh", "-c", 'exec "$@" ' + redirections, "sh", ssidx, *words], b"a b A")
        report.answer(case, (status, b"", told), got)
    for case, name, words, wanted in [
        ("standard output a pipe that nobody reads", "stdout", INDEX, (4, b"", CANNOT_WRITE)),
        ("error stream a pipe that nobody reads, usage due", "stderr", [], (2, b"", b"")),
    ]:
        reader, writer = os.pipe()
        os.close(reader)
        report.answer(case, wanted, answer([ssidx, *words], b"a b A", **{name: writer}))
        os.close(writer)


def try_want_of_memory(ssidx, report):
    document = b"".join(itertools.islice(numbered("w"), 900_000))
    got = answer(["sh", "-c", 'ulimit -v 24576; exec "$@"', "sh", ssidx, *INDEX], document)
    report.answer("900,000 distinct words and 24 MiB of address space", (5, b"", OUT_OF_MEMORY), got)


def try_reader_that_leaves(ssidx, report):
    """More is printed than a pipe holds, and the reader closes it after 10 bytes."""
    with file_of(b"w%d " % i for i in range(100_000)) as given, started([ssidx, *INDEX], given) as child:
        start = child.stdout.read(10)
        child.stdout.close()
        got = (child.wait(), start, child.stderr.read())
    report.answer("standard output a pipe whose reader leaves", (4, b"documents ", CANNOT_WRITE), got)


def try_limits(ssidx, report):
    report.answer("8,388,608 spaces", (0, EMPTY, b""), answer([ssidx, *INDEX], b" " * LIMIT))
    report.answer("8,388,609 spaces", (6, b"", TOO_LONG), answer([ssidx, *INDEX], b" " * (LIMIT + 1)))
    report.answer("8,388,609 letters", (6, b"", TOO_LONG), answer([ssidx, *INDEX], b"a" * (LIMIT + 1)))
    with started([ssidx, *INDEX]) as child:
        held = fcntl.fcntl(child.stdin, fcntl.F_GETPIPE_SZ)
        given = 0
        with contextlib.suppress(BrokenPipeError):
            # A program without a limit isn't fed until it has taken all memory.
            while given < 16 * LIMIT:
                given += child.stdin.write(b"a b " * 1024)
            child.stdin.close()
        out, err = child.stdout.read(), child.stderr.read()
        status = child.wait()
    report.answer("endless input", (6, b"", TOO_LONG), (status, out, err))
    # Of what was given, the pipe may still have held some.
    over = max(given - held - LIMIT, 0)
    told = f"at least {over}, and at most 65536 are right"
    report.line("endless input, bytes read past the limit", over <= 65_536, told)


def try_names(ssidx, report, folder):
    for case, words, wanted in NAMES:
        report.answer(f"names, {case}", wanted, answer([ssidx, "index", *words], GIVEN, cwd=folder))
    for case, words, wanted in LIMITS:
        report.answer(f"limits, {case}", wanted, answer([ssidx, "index", *words], GIVEN, cwd=folder))
    got = answer([ssidx, "index", "a", "-"], b" " * (LIMIT + 1), cwd=folder)
    report.answer("limits, `-` behind a name", over_limit("document 2 is over 8388608 bytes: -"), got)
    try_permission(ssidx, report, folder)


def try_permission(ssidx, report, folder):
    """Nothing is kept from a superuser, so the program runs as another user then."""
    program = shutil.copy(ssidx, os.path.join(folder, "ssidx"))
    os.chmod(folder, 0o755)
    os.chmod(os.path.join(folder, "b"), 0)
    user = {"user": 65_534, "group": 65_534, "extra_groups": []} if os.geteuid() == 0 else {}
    for case, words in [("a document", ["a", "b"]), ("a stop list", ["--stop", "b", "a"])]:
        got = answer([program, "index", *words], GIVEN, cwd=folder, **user)
        report.answer(f"names, {case} without permission", read_fault("b"), got)


@contextlib.contextmanager
def folder_of_files():
    with tempfile.TemporaryDirectory() as folder:
        os.mkdir(os.path.join(folder, "d"))
        for name, document in [*FILES.items(), ("full", b" " * LIMIT), ("over", b" " * (LIMIT + 1))]:
            with open(os.path.join(folder, name), "wb") as file:
                file.write(document)
        yield folder


def try_gen(ssidx, report):
    for numbers in GENERATED:
        wanted = (0, gen_model.summary(*numbers).encode(), b"")
        report.answer("gen, {} documents, {} words, seed {}".format(*numbers), wanted, generated(ssidx, numbers))
    for numbers in OVER_GENERATED:
        wanted = (6, b"", gen_model.limit(*numbers).encode())
        report.answer("gen, {} documents, {} words, seed {}".format(*numbers), wanted, generated(ssidx, numbers))
    for case, numbers, told in OVER_AT_ONCE:
        report.answer(f"gen, {case}", over_limit(told), generated(ssidx, numbers))
    wanted = generated(ssidx, (1, 1, 1))
    report.answer("gen, numbers of ten digits", wanted, answer([ssidx, "gen"] + ["0000000001"] * 3))


def generated(ssidx, numbers):
    return answer([ssidx, "gen", *map(str, numbers)])


def try_documents(ssidx, report):
    for case, document, index in DOCUMENTS:
        report.answer(f"document, {case}", (0, index, b""), answer([ssidx, *INDEX], document))
    # Python too takes one U+FFFD for the longest run that begins a well-formed sequence.
    document = random.Random(2).randbytes(2 * MIB)
    _, index, _ = answer([ssidx, *INDEX], document.decode("utf-8", "replace").encode())
    report.answer("random bytes, indexed as Python decodes them", (0, index, b""), answer([ssidx, *INDEX], document))


def bytes_in(pipe):
    return int.from_bytes(fcntl.ioctl(pipe, termios.FIONREAD, bytes(4)), sys.byteorder)


def try_slow_pipes(ssidx, report):
    document = (SENTENCES.encode() + b"\xf0\x9f\xe2\x82 ") * 3
    _, index, _ = answer([ssidx, *INDEX], document)
    with started([ssidx, *INDEX]) as child:
        with contextlib.suppress(BrokenPipeError):
            for byte in document:
                child.stdin.write(bytes([byte]))
                # The next byte comes when this one is read.
                while bytes_in(child.stdin) and child.poll() is None:
                    pass
            child.stdin.close()
        out, err = child.stdout.read(), child.stderr.read()
        got = (child.wait(), out, err)
    report.answer("input byte by byte", (0, index, b""), got)

    pieces = [b"w%d " % i for i in range(20_000)]
    _, index, _ = answer([ssidx, *INDEX], b"".join(pieces))
    with file_of(pieces) as given, started([ssidx, *INDEX], given) as child:
        # A small pipe makes the program wait more often. It can be refused once bytes stand in it.
        with contextlib.suppress(OSError):
            fcntl.fcntl(child.stdout, fcntl.F_SETPIPE_SZ, 4096)
        out = b"".join(iter(lambda: child.stdout.read(7), b""))
        got = (child.wait(), out, child.stderr.read())
    report.answer("output taken 7 bytes at a time", (0, index, b""), got)


def write_document(path, pieces):
    """Piece by piece: a run's peak can't be seen below what this process has held."""
    left = LIMIT
    with open(path, "wb") as document:
        for piece in pieces:
            left -= document.write(piece[:left])
            if left == 0:
                return


def try_hard(ssidx, report, english, baseline):
    with tempfile.TemporaryDirectory() as folder:
        texts = [("English text", english)] if english else []
        for i, (case, pieces) in enumerate(HARD):
            texts.append((case, os.path.join(folder, str(i))))
            write_document(texts[-1][1], pieces())
        runs = {case: [] for case, _ in texts}
        for _ in range(3):
            for case, path in texts:
                # What failed or was killed isn't tried again.
                if not runs[case] or runs[case][-1].status == 0:
                    runs[case].append(measured([ssidx, *INDEX], path, SECONDS))
        pace = best_of(runs["English text"]).seconds / os.path.getsize(english) if english else None
        for case, path in texts:
            best = best_of(runs[case])
            is_ok = best.status == 0
            told = f"status {best.status}, {best.seconds:.3f} s, peak {best.peak_bytes / MIB:.0f} MiB"
            if pace:
                ratio = best.seconds / os.path.getsize(path) / pace
                is_ok &= ratio <= AT_MOST_ENGLISH
                told += f", {ratio:.2f} x the time of English text"
            if baseline and case != RANDOM:
                is_same = measured([baseline, "plain", "1", "-"], path, SECONDS).digest == best.digest
                is_ok &= is_same
                told += ", as the yardstick's" if is_same else ", OTHER than the yardstick's"
            report.line(f"hard, {case}", is_ok, told)


def main():
    parser = argparse.ArgumentParser(description=__doc__, formatter_class=argparse.RawDescriptionHelpFormatter)
    parser.add_argument("ssidx")
    parser.add_argument("--english", metavar="FILE", help="English text of about 8 MiB, to time the hard inputs beside")
    parser.add_argument("--compare", action="store_true", help="compare the hard inputs' indexes with the yardstick's")
    options = parser.parse_args()
    ssidx, report = os.path.abspath(options.ssidx), Report()
    # First, since the documents of later cases are held in memory, and no peak below that could be seen.
    try_hard(ssidx, report, options.english, yardstick() if options.compare else None)
    with folder_of_files() as folder:
        for case, words in NOT_COMMANDS:
            report.answer(f"usage, {case}", (2, b"", USAGE), answer([ssidx, *words], b"a b A", cwd=folder))
        try_names(ssidx, report, folder)
    try_gen(ssidx, report)
    try_streams(ssidx, report)
    try_reader_that_leaves(ssidx, report)
    try_limits(ssidx, report)
    try_want_of_memory(ssidx, report)
    try_documents(ssidx, report)
    try_slow_pipes(ssidx, report)
    print(f"{report.failed} cases fail" if report.failed else "every case is ok")
    sys.exit(1 if report.failed else 0)


if __name__ == "__main__":
    main()
