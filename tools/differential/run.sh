#!/bin/sh
# Builds the original beside its driver and compares a program with it: run.sh FOLDER PROGRAM [--grouped] [--random N] [--seed N]
# FOLDER has the original's first_last.rs and first_last/state.rs, which are read there and not copied; PROGRAM answers scenarios, as
# the built `replay` does. SQLite then judges the program's answers to the same scenarios, and the fixed list is replayed.
set -eu
ORIGINAL=$(cd "$1" && pwd)
export ORIGINAL
program=$(cd "$(dirname "$2")" && pwd)/$(basename "$2")
shift 2
forms="grouped single"
# Fewer answers than this are a failure, where nothing else is said of how many scenarios are drawn.
least=200000
for word; do
    case $word in
    --grouped) forms=grouped ;;
    --random) least=0 ;;
    --seed | [0-9]*) ;;
    *) echo "run.sh FOLDER PROGRAM [--grouped] [--random N] [--seed N]: not $word" >&2; exit 2 ;;
    esac
done
cd "$(dirname "$0")"
cargo build --release --offline --quiet
built=${CARGO_TARGET_DIR:-target}/release
python3 compare.py --original "$built/driver" --port "$program" --generate "$built/generate" --least "$least" "$@"
python3 sql.py --original "$built/driver" --program "$program" --generate "$built/generate" "$@"
# Unquoted: one word or two.
sh fixed.sh "$program" $forms
