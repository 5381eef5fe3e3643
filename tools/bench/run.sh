#!/bin/sh
# Measures the stage against plain Rust.
#
#   run.sh CLONE [--only TEXT] [--reps N] [--ms N]    all cases, or those whose name has the text: ns on both sides, and the ratio
#   run.sh --count CLONE NAME                         instructions a unit of one case on each side, by callgrind
#   run.sh --counts CLONE                             the same for the five cases that docs/SPEED.md shows
#
# CLONE is a clone of the repository that may be changed, proved or not: the crate stagebench is put into it, proved and built as a
# static library. NO_BUILD=1 takes the library that an earlier run built. What is built here goes to the folder that BENCH_OUT names,
# or to stage-bench in the folder for temporary files.
#
# `rt lib` builds the library with LLVM at -O3 for x86-64-v2; the Rust side is built likewise.
set -eu
here=$(cd "$(dirname "$0")" && pwd)
what=
case ${1:-} in
--count | --counts) what=$1; shift ;;
esac
if [ $# = 0 ] || { [ "$what" = --count ] && [ $# = 1 ]; }; then
    sed -n 's/^#   //p' "$0" >&2
    exit 2
fi
clone=$(cd "$1" && pwd)
shift
out=${BENCH_OUT:-$(dirname "$(mktemp -u)")/stage-bench}
mkdir -p "$out"
crate=$clone/crates/stagebench
if [ -z "${NO_BUILD:-}" ]; then
    grep -v '^stagebench ' "$clone/crates.txt" > "$out/crates.txt"
    # The libraries that the crate calls, and those below them.
    echo 'stagebench staticlib: column layout tables values orders book faults keeping agreement grouped ungrouped midnight' >> "$out/crates.txt"
    cp "$out/crates.txt" "$clone/crates.txt"
    rm -rf "$crate/src"
    mkdir -p "$crate/src"
    for file in "$here"/rattle/*.rt.txt; do
        cp "$file" "$crate/src/$(basename "$file" .txt)"
    done
    (cd "$crate" && rt lib) > "$out/rt.log" 2>&1 || { tail -40 "$out/rt.log"; exit 1; }
fi
rustc --edition 2024 -C opt-level=3 -C codegen-units=1 -C target-cpu=x86-64-v2 -g -o "$out/stage-bench" "$here/rust/main.rs" \
    -L "$crate/out" -l static=stagebench

# The total of callgrind over so many rounds of a case.
total() {
    valgrind --tool=callgrind --callgrind-out-file="$out/callgrind" "$out/stage-bench" --count "$@" > "$out/said" 2> "$out/err"
    sed -n 's/^totals: //p' "$out/callgrind"
}

# Instructions a unit of a case, on each side: what a hundred more rounds take.
count() {
    for side in rust rattle read; do
        few=$(total $side 20 "$1")
        many=$(total $side 120 "$1")
        units=$(sed 's/units=\([0-9]*\).*/\1/' "$out/said")
        echo "$1 $side: $(echo "scale=2; ($many - $few) / 100 / $units" | bc) instructions a unit"
    done
}

case $what in
--count) count "$*" ;;
--counts)
    for name in "number 256 groups 1 col" "number 1 group 3 cols" "bytes 256 groups text" "record 256 groups 1 col" "LAST alone number 1 col"; do
        count "$name"
    done
    ;;
*) "$out/stage-bench" "$@" ;;
esac
