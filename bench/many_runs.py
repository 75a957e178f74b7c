#!/usr/bin/env python3
"""Runs the program on delegates in threads again and again, and wants what it prints without delegates.

    many_runs.py SSIDX

Makes 50 small documents and ten scripts, always the same. `index` of the documents, and `script --trace` of
each script, are run with `--mode lanes`, each number of delegates and each room of lanes in turns, 10,000
runs in all. What a run prints on both streams, and its status, are compared byte by byte with the run with
0 delegates.

Ends with 1 where a run differs or doesn't end within its time limit, or leaves a process behind. A process
has ended once its last thread has, so then no thread is left either.
"""
import argparse
import concurrent.futures
import ctypes
import itertools
import os
import random
import subprocess
import sys
import tempfile
import time
from dataclasses import dataclass

DELEGATES = (1, 2, 4, 64)
RINGS = (1, 2, 256)
DOCUMENTS = 50
SEED = 20_090_214
MOST_TOLD = 20  # of the runs that went wrong
DONE, REFUSED = 0, 7
PR_SET_CHILD_SUBREAPER = 36
ACTS = ("add 7", "mul 3", "set 11", "give", "add 4294967295", "mul 2654435761")
WORDS = (
    "rain Harvest LADDER gloves ada ben tarpaulin Straße STRASSE naïve Ωmega "
    "e\u0301te\u0301 don't 3.14 a b c \ufffd 日本"
).split()


@dataclass(frozen=True)
class Job:
    """A command: its words before the options, those behind them, and the status with which it has to end."""

    name: str
    command: tuple
    rest: tuple
    status: int


def documents(rng):
    """Texts of 0 to 400 words. Some words are those of many documents, some of one."""
    for number in range(DOCUMENTS):
        words = rng.choices(WORDS + [f"w{number}", f"x{rng.randrange(500)}"], k=rng.randrange(401))
        yield "".join(word + rng.choice((" ", "\n", ", ", "; ")) for word in words)


def objects(count, kind):
    return [f"object x{i} {i + 1} {kind}" for i in range(count)]


def acts(rng, names, count):
    """Delegations of some act, each to one of so many objects."""
    return [f"do x{rng.randrange(names)} {rng.choice(ACTS)}" for _ in range(count)]


def epochs(count, body):
    """So many epochs, each with the lines that `body` gives for its number."""
    return [line for epoch in range(count) for line in ("isolate", *body(epoch), "join")]


def shows(count):
    return [f"show x{i}" for i in range(count)] + ["total"]


def by_object(rng):
    return [*objects(64, "object"), *epochs(6, lambda _: acts(rng, 64, 300)), *shows(64)]


def own_sets(rng):
    """In an epoch an object keeps its set, and in the next it has another."""

    def body(epoch):
        which = rng.choices(range(40), k=250)
        return [f"do x{i} {rng.choice(ACTS)} in {(i * 7 + epoch * 5) % 97}" for i in which]

    return [*objects(40, "own"), *epochs(8, body), *shows(40)]


def by_sequence(rng):
    return [*objects(70, "sequence"), *epochs(5, lambda _: acts(rng, 70, 250)), *shows(70)]


def mixes(rng):
    """The even objects change and read the odd ones, which change in the epochs between, and a fixed one."""

    def body(epoch):
        writes = [2 * rng.randrange(16) + epoch % 2 for _ in range(200)]
        return [f"mix x{i} {rng.choice((f'x{2 * rng.randrange(16) + 1 - epoch % 2}', 'f'))}" for i in writes]

    return ["fixed f 17", *objects(32, "object"), *epochs(8, body), *shows(32)]


def shows_in_epochs(rng):
    """A show brings a lane home in the midst, and frees its object for another set."""

    def body(epoch):
        lines = []
        for number in range(60):
            i = rng.randrange(12)
            lines += [f"do x{i} {rng.choice(ACTS)} in {epoch + number}", f"show x{i}"]
        return lines

    return [*objects(12, "own"), *epochs(5, body), *shows(12)]


def writes_in_epochs(rng):
    """Writes come between the operations that are delegated around them."""

    def body(_):
        return [rng.choice(("do", "do", "do", "write")) + line[len("do"):] for line in acts(rng, 9, 200)]

    return [*objects(9, "object"), *epochs(5, body), *shows(9)]


def totals(rng):
    """All operations contribute, and the last epoch is open at the end."""
    lines = objects(48, "object")
    for _ in range(10):
        lines += [*epochs(1, lambda _: [f"do x{rng.randrange(48)} give" for _ in range(100)]), "total"]
    return [*lines, "isolate", *[f"do x{i} give" for i in range(48)], "show x5"]


def one_set(_):
    """More operations on one object than any lane has room for, whose order matters."""
    body = [f"do x0 {'mul 31' if i % 2 else f'add {i}'}" for i in range(3000)]
    return [*objects(1, "object"), "isolate", *body, "join", "show x0"]


def a_second_set(rng):
    """Refused in an epoch, while delegates are at work."""
    body = [f"do x{i} {rng.choice(ACTS)} in {i}" for i in rng.choices(range(20), k=400)]
    sets = ["do x0 add 1 in 0", "do x0 add 1 in 1"]
    return [*objects(20, "own"), "show x3", "isolate", *body, *sets, "show x0"]


def a_read_object(rng):
    """The same, of an object that operations under way read."""
    body = [f"mix x{i} x0" for i in rng.choices(range(1, 20), k=400)]
    return [*objects(20, "object"), "isolate", *body, "show x4", "do x0 add 1", "show x0"]


SCRIPTS = {
    by_object: DONE,
    own_sets: DONE,
    by_sequence: DONE,
    mixes: DONE,
    shows_in_epochs: DONE,
    writes_in_epochs: DONE,
    totals: DONE,
    one_set: DONE,
    a_second_set: REFUSED,
    a_read_object: REFUSED,
}


def make_jobs(folder):
    """Writes the documents and scripts to a folder, and gives what is run of them."""

    def written(name, text):
        path = os.path.join(folder, name)
        with open(path, "w", encoding="utf-8", newline="") as file:
            file.write(text)
        return path

    rng = random.Random(SEED)
    names = [written(f"document-{number}", text) for number, text in enumerate(documents(rng), 1)]
    jobs = [Job(f"index of {DOCUMENTS} documents", ("index",), tuple(names), DONE)]
    for script, status in SCRIPTS.items():
        path = written(script.__name__, "\n".join(script(rng)) + "\n")
        jobs.append(Job(f"script {script.__name__}", ("script", "--trace"), (path,), status))
    return jobs


@dataclass
class Ran:
    seconds: float
    answer: tuple  # status and both streams, or none where the run was killed at the limit
    leaves: bool  # a process of its group


def is_left(group):
    """Whether there is a process of this group. Kills all of it."""
    try:
        os.killpg(group, 9)
    except ProcessLookupError:
        return False
    return True


def run(ssidx, job, options, seconds):
    """Runs a command in a process group of its own, and kills it at the time limit."""
    words = [ssidx, *job.command, *options, *job.rest]
    start = time.perf_counter()
    child = subprocess.Popen(
        words,
        stdin=subprocess.DEVNULL,
        stdout=subprocess.PIPE,
        stderr=subprocess.PIPE,
        start_new_session=True,
    )
    try:
        out, err = child.communicate(timeout=seconds)
    except subprocess.TimeoutExpired:
        os.killpg(child.pid, 9)
        child.communicate()
        return Ran(time.perf_counter() - start, (), is_left(child.pid))
    return Ran(time.perf_counter() - start, (child.returncode, out, err), is_left(child.pid))


def wanted_of(ssidx, jobs, seconds):
    """What each prints without delegates. One that ends otherwise than it must would compare nothing."""
    wanted = {}
    for job in jobs:
        ran = run(ssidx, job, ["--delegates", "0"], seconds)
        if not ran.answer or ran.answer[0] != job.status:
            sys.exit(f"{job.name} without delegates: status {job.status} is wanted, not {ran.answer!r}")
        wanted[job] = ran.answer
    return wanted


def difference(answer, wanted):
    if not answer:
        return "didn't end within the time limit"
    names = ("status", "standard output", "error stream")
    pairs = zip(names, answer, wanted)
    return "; ".join(f"{name} {got!r:.200} and not {want!r:.200}" for name, got, want in pairs if got != want)


def adopt():
    """Has a process whose parent ended become a child of this one."""
    if ctypes.CDLL(None, use_errno=True).prctl(PR_SET_CHILD_SUBREAPER, 1, 0, 0, 0) != 0:
        sys.exit("the system lets this process adopt none")


def has_child():
    try:
        os.waitpid(-1, os.WNOHANG)
    except ChildProcessError:
        return False
    return True


def tell(kinds, results, wanted):
    """Prints what came of the runs, and answers whether all are like those without delegates."""
    wrong, left, slowest = 0, 0, (0.0, "none")
    for (delegates, ring, job), ran in zip(kinds, results):
        name = f"{job.name}, {delegates} delegates, ring {ring}"
        slowest = max(slowest, (ran.seconds, name))
        left += ran.leaves
        if ran.answer != wanted[job]:
            wrong += 1
            if wrong <= MOST_TOLD:
                print(f"{name}: {difference(ran.answer, wanted[job])}")
    print(f"{len(results)} runs: {len(results) - wrong} like those without delegates, {wrong} not")
    print(f"the slowest took {slowest[0]:.3f} s: {slowest[1]}")
    is_more = has_child()
    print(f"{left} left a process, {'and something else is left' if is_more else 'and no process or thread is left'}")
    return bool(results) and not wrong and not left and not is_more


def main():
    form = argparse.RawDescriptionHelpFormatter
    parser = argparse.ArgumentParser(description=__doc__, formatter_class=form)
    add = parser.add_argument
    add("--runs", type=int, default=10_000, metavar="N", help="runs in all (10,000)")
    add("--jobs", type=int, default=os.cpu_count(), metavar="N", help="runs at once (one a processor)")
    add("--seconds", type=float, default=10.0, help="the time limit of each run (10)")
    add("ssidx")
    options = parser.parse_args()
    ssidx = os.path.abspath(options.ssidx)
    adopt()

    def run_kind(kind):
        delegates, ring, job = kind
        words = ["--mode", "lanes", "--delegates", str(delegates), "--ring", str(ring)]
        return run(ssidx, job, words, options.seconds)

    with tempfile.TemporaryDirectory() as folder:
        jobs = make_jobs(folder)
        wanted = wanted_of(ssidx, jobs, options.seconds)
        all_kinds = itertools.cycle(itertools.product(DELEGATES, RINGS, jobs))
        kinds = list(itertools.islice(all_kinds, options.runs))
        with concurrent.futures.ThreadPoolExecutor(options.jobs) as pool:
            results = list(pool.map(run_kind, kinds))
    sys.exit(0 if tell(kinds, results, wanted) else 1)


if __name__ == "__main__":
    main()
