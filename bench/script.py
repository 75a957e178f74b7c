#!/usr/bin/env python3
"""Compares the speed of `ssidx script -` with plain Rust that runs the same lines, in turns on one machine.

    script.py SSIDX

The scripts are lines `do x add 1`, some of them `show x`, over one name or over many, up to the most lines that a
script may have. The yardstick is script/. Prints the least time of the repeats for each, the ratio of the two, and
the growth of ssidx's time from half of the lines to all. Ends with 1 where the two print different bytes or a figure
is over its limit.
"""
import argparse
import os
import sys
import tempfile

from measure import HERE, WORK, best_of, cargo_program, measured

MOST_LINES = 65_536


def script(lines, names):
    """A script of so many lines. Every eighth shows what the lines before it left."""
    made = [f"object x{i} {i}" for i in range(names)]
    rest = lines - names - 2
    body = [f"show x{i % names}" if i % 8 == 7 else f"do x{i % names} add {i % 1000}" for i in range(rest)]
    return "\n".join(made + ["isolate"] + body + ["join"]) + "\n"


def main():
    parser = argparse.ArgumentParser(description=__doc__, formatter_class=argparse.RawDescriptionHelpFormatter)
    parser.add_argument("ssidx", help="the built program")
    parser.add_argument("--repeats", type=int, default=30, help="runs of each (30)")
    parser.add_argument("--at-most-plain", type=float, help="a limit on ssidx's time / plain Rust's")
    parser.add_argument("--at-most-growth", type=float, help="a limit on the time for twice the lines / the time")
    options = parser.parse_args()
    plain = cargo_program(os.path.join(HERE, "script"), os.path.join(WORK, "script"))
    programs = {"ssidx": [os.path.abspath(options.ssidx), "script", "-"], "plain": [plain]}

    failed = False
    with tempfile.TemporaryDirectory() as folder:
        for names in (1, 1000):
            paths = {}
            for lines in (MOST_LINES // 2, MOST_LINES):
                paths[lines] = os.path.join(folder, f"{names}-{lines}")
                with open(paths[lines], "w") as file:
                    file.write(script(lines, names))
            runs = {(program, lines): [] for program in programs for lines in paths}
            for _ in range(options.repeats):
                for (program, lines), those in runs.items():
                    those.append(measured(programs[program], paths[lines]))
            best = {key: best_of(those) for key, those in runs.items()}
            if any(run.status != 0 for those in runs.values() for run in those):
                sys.exit("a program failed")
            for lines in paths:
                if best["ssidx", lines].digest != best["plain", lines].digest:
                    sys.exit("the two print different bytes")
            ratio = best["ssidx", MOST_LINES].seconds / best["plain", MOST_LINES].seconds
            growth = best["ssidx", MOST_LINES].seconds / best["ssidx", MOST_LINES // 2].seconds
            milliseconds = {key: run.seconds * 1000 for key, run in best.items()}
            print(f"{MOST_LINES} lines, {names} names: ssidx {milliseconds['ssidx', MOST_LINES]:.1f} ms, "
                  f"plain {milliseconds['plain', MOST_LINES]:.1f} ms, ratio {ratio:.2f}, growth {growth:.2f}")
            failed |= options.at_most_plain is not None and ratio > options.at_most_plain
            failed |= options.at_most_growth is not None and growth > options.at_most_growth
    sys.exit(1 if failed else 0)


if __name__ == "__main__":
    main()
