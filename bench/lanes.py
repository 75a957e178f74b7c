#!/usr/bin/env python3
"""Times a lane and its delegate beside plain Rust, and passes through lanes what must never be lost.

    lanes.py

The measured program is lanes/*.rt.txt, a crate of its own in a clone of the repository's last commit; the yardstick
is lanes/plain/, whose lanes are bounded channels of crossbeam-channel. Four things are done with it:

    rings   a million messages through one lane, and through four, each with its delegate in a thread: the two
            programs take turns, and the least times are compared
    epoch   a million delegated operations on the runtime with lanes, from the first to the end of their
            epoch, on 1 and 4 delegates and over 4, 16 and 65,536 objects: additions, and operations that each
            read an object. The two programs take turns, and the least times are compared
    narrow  1,000 messages through a lane of one place, with pauses before them, again and again: each run ends
            within the time limit, or a wake-up was lost
    pairs   two sets look for each other at a gate, again and again: in two lanes they meet, in one they don't

Ends with 1 where a build fails, the checksums differ, a run doesn't end or says something else, or a ratio is over its
limit.
"""
import os
import pathlib
import subprocess
import sys
import time

from measure import HERE, cargo_program, is_within
from parts import best_parts, load, parser_of, rattle_program, room

SOURCES = pathlib.Path(HERE) / "lanes"
DEPENDENCIES = (
    "ss_base execution_definitions class_laws delegation set_queue delegates lane_rt lane_tests script_lang "
    "crossbeam_utils"
)
RINGS = {"one_lane": "one lane", "four_lanes": "four lanes"}
OPERATIONS = {"add": "additions", "mix": "operations that read"}
EPOCHS = {
    f"{name}_{delegates}_{objects}": f"{text}, {delegates} delegate(s), {objects} objects"
    for delegates in (1, 4)
    for objects in (4, 16, 65_536)
    for name, text in OPERATIONS.items()
}
# 0 + 1 + .. + 999, on the object 1.
NARROW = "checksum runs 1000\nchecksum sum 499500\n"
PAIRS = """\
checksum runs_of_one 1
checksum runs_of_other 1
checksum met_in_two_lanes 1
checksum runs_of_both 2
checksum met_in_one_lane 0
"""


def compare(programs, parts, repeats, limit):
    """The times of each part beside those of plain Rust. `parts` gives the parts' texts by their names."""
    before = load()
    best = best_parts(programs, repeats)
    print(f"{repeats} runs of each; {before} before them, {load()} after")
    within = []
    for part, text in parts.items():
        (times, ours), (plain_times, theirs) = (best[name][part] for name in programs)
        if times != plain_times:
            sys.exit(f"the two do {text} at different sizes")
        print(f"{text}: {ours / times:.1f} ns each, plain Rust {theirs / times:.1f} ns")
        within.append(is_within(f"{text} / plain Rust", ours / theirs, limit))
    return all(within)


def repeat(what, words_of, runs, seconds, wanted):
    """Runs a command again and again, each within a time limit, and tells how often it printed what was wanted."""
    good, longest = 0, 0.0
    for number in range(runs):
        start = time.perf_counter()
        try:
            ran = subprocess.run(words_of(number), stdout=subprocess.PIPE, text=True, timeout=seconds)
        except subprocess.TimeoutExpired:
            print(f"{what}: run {number} didn't end within {seconds} s")
            continue
        longest = max(longest, time.perf_counter() - start)
        if ran.returncode == 0 and ran.stdout == wanted:
            good += 1
        else:
            print(f"{what}: run {number} ended with {ran.returncode} and printed {ran.stdout!r}")
    print(f"{what}: {good} of {runs} runs went well, the longest took {longest:.3f} s")
    return good == runs


def main():
    parser = parser_of(__doc__, repeats=12)
    parser.add_argument("--at-most-plain", type=float, metavar="X", help="limit on: a lane's time / plain Rust's")
    epoch = "limit on: an epoch's time / plain Rust's"
    parser.add_argument("--at-most-epoch", type=float, metavar="X", help=epoch)
    parser.add_argument("--narrow", type=int, default=10_000, metavar="N", help="runs through a lane of one place (10,000)")
    parser.add_argument("--pairs", type=int, default=1_000, metavar="N", help="runs of two sets at a gate (1,000)")
    parser.add_argument("--seconds", type=float, default=20.0, help="the time limit of each of these runs (20)")
    options = parser.parse_args()

    with room(options.keep) as folder:
        plain = cargo_program(SOURCES / "plain", os.path.join(folder, "lanes"))
        lanes = rattle_program(SOURCES, "lanes_bench", DEPENDENCIES, folder)
        rings, epochs = ({"Rattle": [lanes, part], "plain": [plain, part]} for part in ("rings", "epoch"))
        # A list, so that all is done.
        within = [
            compare(rings, RINGS, options.repeats, options.at_most_plain),
            compare(epochs, EPOCHS, options.repeats, options.at_most_epoch),
            repeat("a lane of one place", lambda number: [lanes, "narrow", str(number)], options.narrow, options.seconds, NARROW),
            repeat("two sets at a gate", lambda _: [lanes, "pairs"], options.pairs, options.seconds, PAIRS),
        ]
    sys.exit(0 if all(within) else 1)


if __name__ == "__main__":
    main()
