"""Programs that time their own parts: how one in Rattle is built, and the least times of several that take turns.

Such a program prints a line `part NAME TIMES NANOSECONDS` for each part that it did so many times, and a line
`checksum NAME VALUE` for each figure that all programs and runs must agree on.
"""
import argparse
import contextlib
import os
import pathlib
import subprocess
import sys
import tempfile

from measure import HERE

SHARED = pathlib.Path(HERE) / "runtime" / "clock.rt.txt"


def parser_of(text, repeats):
    """A parser with the options that the scripts share."""
    parser = argparse.ArgumentParser(description=text, formatter_class=argparse.RawDescriptionHelpFormatter)
    parser.add_argument("--repeats", type=int, default=repeats, help=f"runs of each program ({repeats})")
    parser.add_argument("--keep", metavar="FOLDER", help="keeps the clone and what was built in FOLDER, for the next run")
    return parser


@contextlib.contextmanager
def room(keep):
    """A folder for what is built: the one that is kept, or a temporary one."""
    if keep:
        os.makedirs(keep, exist_ok=True)
        yield keep
    else:
        with tempfile.TemporaryDirectory() as folder:
            yield folder


def clone_in(folder):
    """A clone of the repository's last commit. One that is there is brought up to it, and keeps what was built."""
    top, clone = pathlib.Path(HERE).parent, pathlib.Path(folder) / "repository"
    if not clone.exists():
        subprocess.run(["git", "clone", "--quiet", top, clone], check=True)
    subprocess.run(["git", "fetch", "--quiet", top, "HEAD"], cwd=clone, check=True)
    subprocess.run(["git", "checkout", "--quiet", "--force", "--detach", "FETCH_HEAD"], cwd=clone, check=True)
    return clone


def rattle_program(sources, name, dependencies, folder):
    """Makes the texts *.rt.txt of a folder a crate of a clone, proves and builds it, and returns the program's path."""
    clone = clone_in(folder)
    crate = clone / "crates" / name
    (crate / "src").mkdir(parents=True, exist_ok=True)
    for source in {SHARED, *sources.glob("*.rt.txt")}:
        (crate / "src" / source.stem).write_text(source.read_text())
    with open(clone / "crates.txt", "a") as crates:
        crates.write(f"{name}: {dependencies}\n")
    # The command that builds a program also runs it.
    built = subprocess.run(["rt", "run"], cwd=crate, stdout=subprocess.PIPE, stderr=subprocess.STDOUT, text=True)
    if built.returncode != 0:
        sys.exit(f"{built.stdout}\nthe measured program wasn't built")
    return crate / "out" / name


def lines_of(words, environment=None):
    """What a run printed: times and nanoseconds by part, and the checksums by name."""
    parts, checksums = {}, {}
    printed = subprocess.run(words, stdout=subprocess.PIPE, text=True, check=True, env=environment).stdout
    for kind, name, *numbers in map(str.split, printed.splitlines()):
        if kind == "part":
            parts[name] = tuple(map(int, numbers))
        elif checksums.setdefault(name, numbers) != numbers:
            sys.exit(f"a program's checksums of {name} differ")
    return parts, checksums


def best_parts(programs, repeats, environment=None):
    """Each program's times and least nanoseconds by part. They take turns."""
    best = {name: {} for name in programs}
    seen = set()
    for turn in range(repeats):
        names = list(programs)
        for name in names[turn % 2 :] + names[: turn % 2]:
            parts, checksums = lines_of(programs[name], environment)
            seen.add(frozenset((figure, *value) for figure, value in checksums.items()))
            for part, figures in parts.items():
                best[name][part] = min(figures, best[name].get(part, figures))
    if len(seen) != 1:
        sys.exit("the checksums differ")
    return best


def load():
    return "load {:.1f} {:.1f} {:.1f}".format(*os.getloadavg())
