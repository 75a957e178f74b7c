#!/usr/bin/env python3
"""Times the judges of an execution: the check of logs, the replay of an order of calls, and of a schedule.

    judges.py

The measured program is judges/*.rt.txt, a crate of its own in a clone of the repository's last commit. Each part is
done at three sizes, each twice the one before; what must be linear takes at most so many times as long for twice the
size. A replay under a schedule is compared with `run_script` of the same lines on the runtime without delegates, for
the calls alone and with what a command does besides, reading the texts and making what is shown.

Prints the least times of the repeats. Ends with 1 where the build fails, runs differ, or a figure is over its limit.
"""
import pathlib
import sys

from measure import HERE, is_within
from parts import best_parts, load, parser_of, rattle_program, room

SOURCES = pathlib.Path(HERE) / "judges"
DEPENDENCIES = (
    "ss_base execution_definitions class_laws serializer delegation script_lang history legal_merges schedule_core"
)
SHARES = (1, 2, 4)  # of the least size, at the end of a part's name
LINEAR = {
    "check": "check of logs of 64 lanes, 1, 2 and 4 million runs",
    "merge_of": "merge_of on 64 lanes, up to 65,536 calls",
    "replay_merge": "replay_merge on 64 lanes, up to 65,536 calls",
    "replay": "replay on 4 lanes, up to 65,536 calls, 500,000 events",
    "replay_many": "replay on 64 lanes, up to 65,536 calls, 500,000 events",
    "replay_whole": "replay on 4 lanes with its texts",
    "run_script": "run_script, up to 65,536 lines",
    "run_whole": "run_script with its text",
}
RATIOS = {
    "replay on 4 lanes / run_script": ("replay", "run_script"),
    "replay on 64 lanes / run_script": ("replay_many", "run_script"),
    "replay on 4 lanes / run_script, with their texts": ("replay_whole", "run_whole"),
}


def growth(times):
    """The most that the time grows for twice the size."""
    return max(after / before for before, after in zip(times, times[1:]))


def main():
    parser = parser_of(__doc__, repeats=20)
    parser.add_argument("--at-most-growth", type=float, metavar="X", help="limit on: the time for twice the size / the time")
    parser.add_argument("--at-most-script", type=float, metavar="X", help="limit on: a replay's time / that of run_script")
    options = parser.parse_args()
    with room(options.keep) as folder:
        program = rattle_program(SOURCES, "judges_bench", DEPENDENCIES, folder)
        before = load()
        best = best_parts({"Rattle": [program]}, options.repeats)["Rattle"]
    print(f"{options.repeats} runs; {before} before them, {load()} after")
    nanoseconds = {name: [best[f"{name}_{share}"][1] for share in SHARES] for name in LINEAR}
    within = []
    for name, text in LINEAR.items():
        print(f"{text}: " + ", ".join(f"{time / 1e6:.1f} ms" for time in nanoseconds[name]))
        within.append(is_within("  twice the size", growth(nanoseconds[name]), options.at_most_growth))
    for text, (measured, other) in RATIOS.items():
        figure = nanoseconds[measured][-1] / nanoseconds[other][-1]
        within.append(is_within(text, figure, options.at_most_script))
    sys.exit(0 if all(within) else 1)


if __name__ == "__main__":
    main()
