#!/bin/sh
# Runs all that is measured, one after the other, on a machine that does nothing else.
#
#   all.sh SSIDX CORPORA OUT
#
# SSIDX is the built program, and CORPORA what corpora.sh made. OUT gets a file for each command, with what it printed,
# and a clone in which the measured crates are built. Prints one line for each command: its name, whether it kept
# its limits, and the seconds that it took. Ends with 1 where one didn't. README.md says what each compares.
set -u
here=$(cd "$(dirname "$0")" && pwd)
ssidx=$(realpath "${1:?usage: all.sh SSIDX CORPORA OUT}")
corpora=$(realpath "${2:?usage: all.sh SSIDX CORPORA OUT}")
out=${3:?usage: all.sh SSIDX CORPORA OUT}
mkdir -p "$out"
out=$(cd "$out" && pwd)
failed=0

# run NAME COMMAND...
run() {
    name=$1
    shift
    begun=$(date +%s)
    if "$@" >"$out/$name.txt" 2>&1; then
        kept=ok
    else
        kept=NOT-KEPT
        failed=1
    fi
    echo "$name $kept $(($(date +%s) - begun)) s"
}

# The crates: what is built first is kept for the next.
run runtime "$here/runtime.py" --keep "$out/built" --at-most-check 2.2 --at-most-addition 10 --at-most-batch 4
run judges "$here/judges.py" --keep "$out/built" --at-most-growth 2.2 --at-most-script 3
run lanes "$here/lanes.py" --keep "$out/built" --at-most-plain 1.5 --at-most-epoch 2

# The program, first on delegates, beside the yardstick on four threads.
target=${CARGO_TARGET_DIR:-$here/work/baseline}
(cd "$here/baseline" && CARGO_TARGET_DIR=$target cargo build --release --quiet --offline) || exit 1
run delegates-index "$here/delegates.py" "$ssidx" "$corpora"/manuals-62/* --only index \
    --baseline "$target/release/baseline" --at-most-one 1.15 --at-most-four 0.55 --at-most-peak 1.3
run delegates "$here/delegates.py" "$ssidx" "$corpora"/manuals-8/* --at-most-one 1.25 --at-most-four 0.6
run delegates-batch "$here/delegates.py" "$ssidx" "$corpora"/manuals-8/* --mode batch \
    --at-most-one 1.25 --at-most-four 0.6
run script "$here/script.py" "$ssidx" --at-most-plain 2.5 --at-most-growth 2.2
for corpus in manuals-8 manuals-62 multilingual-8 multilingual-62; do
    run "ratio-$corpus" "$here/ratio.py" "$ssidx" "$corpora/$corpus"/* --args='--delegates 0' \
        --at-most-fast 2.5 --at-most-plain 1.0 --at-most-bytes 8 --at-most-growth 2.2
done
run ratio-one-document "$here/ratio.py" --stdin "$ssidx" "$corpora/english.txt" --args='--delegates 0' \
    --at-most-fast 4.0 --at-most-plain 1.0 --at-most-bytes 16 --at-most-growth 2.3
run hard-documents "$here/hard_documents.py" "$ssidx" --english "$corpora"/manuals-62/* --at-most-english 8 --compare

# What isn't timed.
run many-runs "$here/many_runs.py" "$ssidx"
run word-breaks "$here/word_breaks.py" "$ssidx"
run bad-inputs "$here/bad_inputs.py" "$ssidx" --english "$corpora/english.txt" --compare
run refused-memory "$here/refused_memory.py" "$ssidx"
run failing-calls "$here/failing_calls.py" "$ssidx"
run guide "$here/guide.py" "$ssidx"
run readme "$here/guide.py" "$ssidx" "$here/../README.md"
exit $failed
