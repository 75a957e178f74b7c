#!/usr/bin/env python3
"""Times the crates partition_check, delegation, batch_rt and class_laws beside plain Rust that does the same, in turns on one machine.

    runtime.py

The measured program is runtime/*.rt.txt. It is a crate of its own in a clone of the repository's last commit,
where it is proved and built; the yardstick is runtime/plain/. Prints for each part the least time of the repeats and
the ratio of the two. Ends with 1 where a build fails, the checksums of the two differ, or a limit is passed.
"""
import os
import pathlib
import sys

from measure import HERE, cargo_program, is_within
from parts import best_parts, load, parser_of, rattle_program, room

SOURCES = pathlib.Path(HERE) / "runtime"
DEPENDENCIES = "ss_base execution_definitions class_laws partition_check delegation batch_rt script_lang"

# What is shown: a part's text, its name in either program, and its unit with the nanoseconds that it has.
NS = ("ns", 1)
MS = ("ms", 1_000_000)
ROWS = [
    ("a delegation, the objects in order", "delegate_in_order", "delegate_in_order", NS),
    ("a delegation, the objects scattered", "delegate_scattered", "delegate_scattered", NS),
    ("the same, each reading an object", "delegate_reading", "delegate_reading", NS),
    ("an empty epoch of 65,536 objects", "epoch_many_objects", "epoch_many_objects", NS),
    ("an empty epoch of 16 objects", "epoch_few_objects", "epoch_few_objects", NS),
    ("a delegated addition / one in a Vec", "delegate_plain", "add_in_vec", NS),
    ("the same / one in a Vec with a log", "delegate_plain", "add_in_vec_logged", NS),
    ("add of a new key / HashMap", "add_new", "hash_add_new", NS),
    ("add of a new key / BTreeMap", "add_new", "tree_add_new", NS),
    ("add of a known key / HashMap", "add_again", "hash_add_again", NS),
    ("add of a known key / BTreeMap", "add_again", "tree_add_again", NS),
    ("join of 100,000 keys / HashMap", "join", "hash_join", MS),
    ("join of 100,000 keys / BTreeMap", "join", "tree_join", MS),
]


def show(best):
    print(f"{'':37}{'Rattle':>13}{'plain Rust':>13}{'ratio':>8}")
    for text, measured, plain, (unit, scale) in ROWS:
        times, nanoseconds = best["Rattle"][measured]
        plain_times, plain_nanoseconds = best["plain"][plain]
        if times != plain_times:
            sys.exit(f"the two do {text} at different sizes")
        ours, theirs = (whole / times / scale for whole in (nanoseconds, plain_nanoseconds))
        print(f"{text:37}{ours:10.1f} {unit}{theirs:10.1f} {unit}{ours / theirs:8.2f}")
    many, few = (best["Rattle"][name][1] for name in ("epoch_many_objects", "epoch_few_objects"))
    print(f"an empty epoch of 65,536 objects / one of 16 objects: {many / few:.2f}")


def ratio(best, measured, plain, program="plain"):
    return best["Rattle"][measured][1] / best[program][plain][1]


def main():
    parser = parser_of(__doc__, repeats=40)
    parser.add_argument("--huge-pages", action="store_true", help="lets both have their memory in pages of 2 MiB")
    parser.add_argument("--at-most-check", type=float, metavar="X", help="limit on: a delegation's check / plain Rust's")
    parser.add_argument("--at-most-addition", type=float, metavar="X", help="limit on: an addition on Plain / one in a Vec")
    parser.add_argument("--at-most-batch", type=float, metavar="X", help="limit on: additions on 4 delegates / on Plain")
    options = parser.parse_args()
    environment = dict(os.environ)
    if options.huge_pages:
        environment["GLIBC_TUNABLES"] = "glibc.malloc.hugetlb=1"

    with room(options.keep) as folder:
        plain = cargo_program(SOURCES / "plain", os.path.join(folder, "runtime"))
        programs = {"Rattle": [rattle_program(SOURCES, "runtime_bench", DEPENDENCIES, folder)], "plain": [plain]}
        before = load()
        best = best_parts(programs, options.repeats, environment)
    print(f"{options.repeats} runs of each; {before} before them, {load()} after")
    show(best)
    checks = [ratio(best, name, name) for name in ("delegate_in_order", "delegate_scattered", "delegate_reading")]
    # A list, so that every figure is shown.
    within = [
        is_within("a delegation's check / plain Rust's, at worst", max(checks), options.at_most_check),
        is_within("an addition on Plain / one in a Vec", ratio(best, "delegate_plain", "add_in_vec"), options.at_most_addition),
        is_within("delegations alone, 4 delegates / Plain", ratio(best, "delegate_batch", "delegate_plain", "Rattle"), None),
        is_within("an epoch of additions, 4 delegates / Plain", ratio(best, "epoch_batch", "epoch_plain", "Rattle"), options.at_most_batch),
    ]
    sys.exit(0 if all(within) else 1)


if __name__ == "__main__":
    main()
