#!/usr/bin/env python3
"""Compares the program on delegates with itself on none, in turns on one machine.

    delegates.py SSIDX FILE...

Runs `gen 64 1000 1` and the index of the files with 0, 1 and 4 delegates, in threads (`--mode lanes`) or as
pending lists (`--mode batch`). Prints the least wall and processor times of the repeats and the highest peaks
of memory, and their ratios to those with 0 delegates. Where the yardstick's program is given, its `fast 4`
takes its turns at the index, and has to print the same.

Ends with 1 where a run fails, prints something else, or a ratio is over its limit: of wall times both of `gen`
and the index, of peaks that of the index alone, since `gen` takes less memory than a script can see. The ratio
with 4 delegates needs four idle processors.
"""
import argparse
import os
import sys

from measure import best_of, held_bytes, is_within, measured

MIB = 2**20
NUMBERS = (0, 1, 4)
NONE, ONE, FOUR = (f"{number} delegates" for number in NUMBERS)
FAST = "baseline fast 4"


def words_for(options, command, rest):
    """What is run, by the names that are printed."""
    ssidx = [os.path.abspath(options.ssidx), command, "--mode", options.mode]
    words = {f"{number} delegates": [*ssidx, "--delegates", str(number), *rest] for number in NUMBERS}
    if options.baseline and command == "index":
        words[FAST] = [os.path.abspath(options.baseline), "fast", "4", *rest]
    return words


def best_runs(words, repeats):
    """The best run of each. They take turns, and another one begins each time."""
    names = list(words)
    runs = {name: [] for name in names}
    for turn in range(repeats):
        first = turn % len(names)
        for name in names[first:] + names[:first]:
            run = measured(words[name])
            if run.status != 0:
                sys.exit(f"{name} ended with status {run.status}")
            runs[name].append(run)
    if len({run.digest for those in runs.values() for run in those}) != 1:
        sys.exit("they printed different bytes")
    return {name: best_of(those) for name, those in runs.items()}


def compare(text, best, options, most_peak):
    """Prints the figures of a command, and answers whether they keep their limits."""
    print(text)
    none, one, four = (best[name] for name in (NONE, ONE, FOUR))
    for name, run in best.items():
        print(f"  {name}: {run.seconds:.4f} s, processor time {run.processor_seconds:.4f} s, "
              f"{run.processor_seconds / none.processor_seconds:.2f} x that of 0, "
              f"peak {run.peak_bytes / MIB:.1f} MiB")
    if FAST in best:
        is_within(f"  {FOUR} / {FAST}", four.seconds / best[FAST].seconds, None)
    # A list, so that every figure is shown.
    return all([
        is_within(f"  {ONE} / 0", one.seconds / none.seconds, options.at_most_one),
        is_within(f"  {FOUR} / 0", four.seconds / none.seconds, options.at_most_four),
        is_within(f"  {FOUR} / 0, peaks", four.peak_bytes / none.peak_bytes, most_peak),
    ])


def main():
    parser = argparse.ArgumentParser(description=__doc__, formatter_class=argparse.RawDescriptionHelpFormatter)
    parser.add_argument("--repeats", type=int, default=15, help="runs with each number of delegates (15)")
    modes = ("lanes", "batch")
    parser.add_argument("--mode", choices=modes, default="lanes", help="how delegates run (lanes)")
    parser.add_argument("--only", choices=("gen", "index"), help="runs this command alone")
    parser.add_argument("--baseline", metavar="PROGRAM", help="the built program of baseline/")
    parser.add_argument("--at-most-one", type=float, metavar="X", help="limit on: the time with 1 delegate / with 0")
    parser.add_argument("--at-most-four", type=float, metavar="X", help="limit on: the time with 4 delegates / with 0")
    peak = "limit on: the index's peak with 4 delegates / with 0"
    parser.add_argument("--at-most-peak", type=float, metavar="X", help=peak)
    parser.add_argument("ssidx")
    parser.add_argument("files", nargs="+", metavar="FILE")
    options = parser.parse_args()
    size = sum(map(os.path.getsize, options.files))
    print(f"{options.repeats} runs of each, mode {options.mode}; load {os.getloadavg()[0]:.1f} before them")
    print(f"no peak below {held_bytes() / MIB:.1f} MiB can be seen")
    most_peak = options.at_most_peak
    jobs = {
        "gen": ("gen 64 1000 1", ["64", "1000", "1"], None),
        "index": (f"index of {len(options.files)} document(s), {size} bytes", options.files, most_peak),
    }
    within = [
        compare(text, best_runs(words_for(options, command, rest), options.repeats), options, peak)
        for command, (text, rest, peak) in jobs.items()
        if options.only in (None, command)
    ]
    sys.exit(0 if all(within) else 1)


if __name__ == "__main__":
    main()
