#!/usr/bin/env python3
"""Compares the speed of `ssidx index` with the unverified yardstick of baseline/, in turns on one machine.

    ratio.py SSIDX FILE...            several documents: `ssidx index FILE...`
    ratio.py --stdin SSIDX FILE       one document on standard input: `ssidx index -`

Prints for each program the least time of the repeats and the peak of its memory, and the ratio of ssidx's time to
each of `baseline fast 1` and `baseline plain 1`. Where a limit is given, the figure is printed beside it. Ends with
1 where the printed indexes differ or a figure is over its limit.
"""
import argparse
import bisect
import itertools
import os
import subprocess
import sys
import tempfile

from measure import best_of, held_bytes, is_within, measured, yardstick

MIB = 2**20

# What can be limited, by the end of its option's name.
LIMITS = {
    "fast": "ssidx's time / that of baseline fast 1",
    "plain": "ssidx's time / that of baseline plain 1",
    "bytes": "ssidx's peak memory in bytes for a byte of input",
    "growth": "the time for twice the input / the time, at worst",
}


def compared(groups, repeats):
    """The best run of each contender, by the size of its input.

    All sizes and contenders take turns in each repeat, and each repeat begins with another contender: the least
    times of a long run of one alone would be those of a slow or a fast phase of the machine.
    """
    runs = {size: {name: [] for name, _, _ in contenders} for size, contenders in groups.items()}
    for turn in range(repeats):
        for size, contenders in groups.items():
            first = turn % len(contenders)
            for name, words, input_path in contenders[first:] + contenders[:first]:
                run = measured(words, input_path)
                if run.status != 0:
                    sys.exit(f"{name} ended with status {run.status}")
                runs[size][name].append(run)
    for by_name in runs.values():
        if len({run.digest for those in by_name.values() for run in those}) != 1:
            sys.exit("the printed indexes differ")
    return {size: {name: best_of(those) for name, those in by_name.items()} for size, by_name in runs.items()}


def contenders_for(options, baseline, files):
    """Name, words and standard input of each."""
    names = ["-"] if options.stdin else files
    given = files[0] if options.stdin else os.devnull
    ssidx = [os.path.abspath(options.ssidx), "index", *options.args.split(), *names]
    return [
        ("ssidx", ssidx, given),
        ("baseline fast 1", [baseline, "fast", "1", *names], given),
        ("baseline plain 1", [baseline, "plain", "1", *names], given),
    ]


def show(best, size, documents):
    print(f"{size / MIB:.2f} MiB in {documents} document(s)")
    for name, run in best.items():
        print(
            f"  {name:16} {run.seconds:8.3f} s {size / MIB / run.seconds:7.1f} MiB/s"
            f"   peak {run.peak_bytes / MIB:7.1f} MiB, {run.peak_bytes / size:5.1f} for a byte of input"
            f"   ssidx takes {best['ssidx'].seconds / run.seconds:.2f} x its time"
        )


def prefixes_of(path, folder):
    """Files with 1/8, 1/4, 1/2 and the whole of a file, by their sizes in bytes."""
    whole = os.path.getsize(path)
    prefixes = {}
    for part in (8, 4, 2, 1):
        prefixes[whole // part] = os.path.join(folder, str(part))
        with open(prefixes[whole // part], "wb") as prefix:
            subprocess.run(["head", "-c", str(whole // part), path], stdout=prefix, check=True)
    return prefixes


def fronts_of(files):
    """Documents from the front with at most 1/8, 1/4, 1/2 and the whole of the bytes, by their sizes in bytes."""
    ends = list(itertools.accumulate(map(os.path.getsize, files)))
    counts = [bisect.bisect_right(ends, ends[-1] // part) for part in (8, 4, 2, 1)]
    return {ends[count - 1]: files[:count] for count in counts if count}


def worst_growth(seconds):
    """The most that time grows for twice the input. Fronts aren't just halves, so each step is taken for its size."""
    sizes = sorted(seconds)
    return max(seconds[b] / seconds[a] * 2 * a / b for a, b in zip(sizes, sizes[1:]))


def main():
    parser = argparse.ArgumentParser(description=__doc__, formatter_class=argparse.RawDescriptionHelpFormatter)
    parser.add_argument("--stdin", action="store_true", help="give the one file on standard input")
    parser.add_argument("--growth", action="store_true", help="1/8, 1/4 and 1/2 of the file or documents too")
    parser.add_argument("--repeats", type=int, default=5, help="runs of each program (5)")
    parser.add_argument("--args", default="", help="further words after `index`, as one argument")
    for name, what in LIMITS.items():
        parser.add_argument(f"--at-most-{name}", type=float, metavar="X", help=f"limit on: {what}")
    parser.add_argument("ssidx")
    parser.add_argument("files", nargs="+", metavar="FILE")
    options = parser.parse_args()
    growth = options.growth or options.at_most_growth is not None
    if options.stdin and len(options.files) != 1:
        parser.error("--stdin takes one file")

    baseline = yardstick()
    print(f"no peak below {held_bytes() / MIB:.1f} MiB can be seen")
    size = sum(os.path.getsize(name) for name in options.files)
    with tempfile.TemporaryDirectory() as folder:
        inputs = {size: options.files}
        if growth and options.stdin:
            inputs = {part: [prefix] for part, prefix in prefixes_of(options.files[0], folder).items()}
        elif growth:
            inputs = fronts_of(options.files)
            if len(inputs) == 1:
                parser.error("no documents at the front have half of the bytes")
        groups = {part: contenders_for(options, baseline, files) for part, files in inputs.items()}
        results = compared(groups, options.repeats)
    for part, files in inputs.items():
        show(results[part], part, len(files))

    best = results[size]
    figures = {
        "fast": best["ssidx"].seconds / best["baseline fast 1"].seconds,
        "plain": best["ssidx"].seconds / best["baseline plain 1"].seconds,
        "bytes": best["ssidx"].peak_bytes / size,
    }
    if growth:
        figures["growth"] = worst_growth({part: result["ssidx"].seconds for part, result in results.items()})
    # A list, so that every figure is shown.
    within = [is_within(LIMITS[name], figure, getattr(options, f"at_most_{name}")) for name, figure in figures.items()]
    sys.exit(0 if all(within) else 1)


if __name__ == "__main__":
    main()
