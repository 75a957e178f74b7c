"""What the scripts of this folder share: the yardstick's program, one measured run of any program, and limits."""
import hashlib
import os
import resource
import subprocess
import tempfile
import threading
import time
from dataclasses import dataclass

HERE = os.path.dirname(os.path.abspath(__file__))
WORK = os.path.join(HERE, "work")


def cargo_program(package, target):
    """Builds a package where it changed, into a target folder, and returns the path of its program, which has its name."""
    subprocess.run(
        ["cargo", "build", "--release", "--quiet", "--offline"],
        cwd=package,
        check=True,
        env=dict(os.environ, CARGO_TARGET_DIR=target),
    )
    return os.path.join(target, "release", os.path.basename(package))


def yardstick():
    """The program of baseline/, which is built where it changed."""
    target = os.environ.get("CARGO_TARGET_DIR") or os.path.join(WORK, "baseline")
    return cargo_program(os.path.join(HERE, "baseline"), target)


def held_bytes():
    """The most memory that this process has held. No peak of a run below it can be seen."""
    return resource.getrusage(resource.RUSAGE_SELF).ru_maxrss * 1024


@dataclass
class Run:
    status: int  # minus the signal's number where a signal ended it
    seconds: float
    processor_seconds: float  # of all its threads
    peak_bytes: int
    digest: str


def measured(words, input_path=os.devnull, seconds_limit=600.0, folder=None):
    """Runs a command with a file as standard input, maybe in a folder, and kills it (status -9) at the limit.

    The system counts a child's peak from the highest that its parent has held, so callers keep their data in files.
    """
    with open(input_path, "rb") as given, tempfile.TemporaryFile() as printed:
        start = time.perf_counter()
        child = subprocess.Popen(words, stdin=given, stdout=printed, stderr=subprocess.DEVNULL, cwd=folder)
        alarm = threading.Timer(seconds_limit, child.kill)
        alarm.start()
        _, status, usage = os.wait4(child.pid, 0)
        seconds = time.perf_counter() - start
        alarm.cancel()
        child.returncode = os.waitstatus_to_exitcode(status)
        printed.seek(0)
        digest = hashlib.file_digest(printed, "sha256").hexdigest()
    processor = usage.ru_utime + usage.ru_stime
    return Run(child.returncode, seconds, processor, usage.ru_maxrss * 1024, digest)


def best_of(runs):
    """The least times and the highest peak of several runs of one command."""
    last = runs[-1]
    seconds, processor = min(r.seconds for r in runs), min(r.processor_seconds for r in runs)
    return Run(last.status, seconds, processor, max(r.peak_bytes for r in runs), last.digest)


def is_within(what, figure, limit):
    """Prints a figure, with its limit where it has one, and answers whether it is kept."""
    if limit is None:
        print(f"{what}: {figure:.2f}")
        return True
    print(f"{what}: {figure:.2f}, limit {limit:g}{'' if figure <= limit else ', OVER THE LIMIT'}")
    return figure <= limit


def preloaded(code, folder):
    """Compiles C code to a library in a folder, and gives a function that runs a command there with the library before
    the C library. It takes the command, its standard input, and variables of the environment, and answers the command's
    status, what it printed on both streams, and what the library wrote to file 9."""
    source, shim = os.path.join(folder, "shim.c"), os.path.join(folder, "shim.so")
    with open(source, "w") as file:
        file.write(code)
    subprocess.run(["cc", "-O1", "-shared", "-fPIC", "-o", shim, source, "-ldl"], check=True)

    def run(words, given, **variables):
        told, tell = os.pipe()
        child = subprocess.Popen(
            words, cwd=folder, stdin=subprocess.PIPE, stdout=subprocess.PIPE, stderr=subprocess.PIPE,
            env=dict(os.environ, LD_PRELOAD=shim, **variables), preexec_fn=lambda: os.dup2(tell, 9), pass_fds=(9,),
        )
        os.close(tell)
        out, err = child.communicate(given)
        with os.fdopen(told, "rb") as lines:
            return (child.returncode, out, err), lines.read()

    return run
