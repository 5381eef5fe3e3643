#!/bin/sh
# Writes the fixed list anew, which crates/replay replays: fix.sh, after run.sh has built the driver and the generator.
# For each form of accumulators: the scenarios, and line by line what the original answers to them.
set -eu
cd "$(dirname "$0")"
built=${CARGO_TARGET_DIR:-target}/release
lists=../../crates/replay/data
for form in grouped single; do
    {
        echo "# The fixed list, form $form: each limit from both sides, each refusal in each place, each order, each output part,"
        echo "# the inputs of the named differences, and 150 small scenarios drawn at random (in both forms together)."
        echo "# Written by 'generate fixed $form'; the file of answers beside it is what the original's own source answered."
        "$built/generate" fixed "$form"
    } > "$lists/$form.scenarios"
    {
        echo "# The original's answers to $form.scenarios, a line for each command. Where a line is ANSWER ## NAME ## ASKED, the"
        echo "# first is the original's, NAME stands in docs/DIFFERENCES.md, and the last is what is answered here."
        "$built/driver" < "$lists/$form.scenarios"
    } > "$lists/$form.answers"
done
