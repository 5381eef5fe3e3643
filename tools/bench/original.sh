#!/bin/sh
# Measures the original's update_batch over the same cases, behind the stand-ins of tools/differential.
#
#   original.sh FOLDER [--only TEXT] [--reps N] [--ms N]    ns a unit of each case that updates or merges; FOLDER is named as for
#                                                           tools/differential/run.sh
#   original.sh --count FOLDER NAME                         instructions a unit of one case, by callgrind
#
# Needs cargo, and no crate from outside. The stand-ins make the original slower than with the real Arrow: see README.md.
set -eu
what=
if [ "${1:-}" = --count ]; then what=count; shift; fi
if [ $# = 0 ]; then
    sed -n 's/^#   //p' "$0" >&2
    exit 2
fi
ORIGINAL=$(cd "$1" && pwd)
export ORIGINAL
shift
cd "$(dirname "$0")/original"
RUSTFLAGS='-C target-cpu=x86-64-v2' cargo build --release --offline --quiet
built=${CARGO_TARGET_DIR:-target}/release/original-bench
if [ -z "$what" ]; then
    exec "$built" "$@"
fi
out=${BENCH_OUT:-$(dirname "$(mktemp -u)")/stage-bench}
mkdir -p "$out"
total() {
    valgrind --tool=callgrind --callgrind-out-file="$out/callgrind" "$built" --count "$1" "$2" > "$out/said" 2> "$out/err"
    sed -n 's/^totals: //p' "$out/callgrind"
}
few=$(total 5 "$*")
many=$(total 25 "$*")
units=$(sed 's/units=\([0-9]*\).*/\1/' "$out/said")
echo "$* original: $(echo "scale=2; ($many - $few) / 20 / $units" | bc) instructions a unit"
