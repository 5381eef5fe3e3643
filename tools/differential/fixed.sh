#!/bin/sh
# Replays the fixed list through a program and compares its answers with the original's: fixed.sh PROGRAM [grouped|single]..
# At a named difference the answer must be the one that stands last in its line, and the name must stand in docs/DIFFERENCES.md.
set -eu
top=$(cd "$(dirname "$0")/../.." && pwd)
lists=$top/crates/replay/data
page=$top/docs/DIFFERENCES.md
program=$1
shift
[ $# -gt 0 ] || set -- grouped single
folder=$(mktemp -d)
trap 'rm -rf "$folder"' EXIT
for form in "$@"; do
    grep -v '^#' "$lists/$form.answers" > "$folder/original"
    awk -F ' ## ' '{ print $NF }' "$folder/original" > "$folder/asked"
    "$program" < "$lists/$form.scenarios" > "$folder/answers"
    diff "$folder/asked" "$folder/answers" || { echo "fixed list, $form: answers differ" >&2; exit 1; }
    for name in $(awk -F ' ## ' 'NF == 3 { gsub(/\+/, "\n", $2); print $2 }' "$folder/original" | sort -u); do
        grep -q -- "$name" "$page" || { echo "$name is not in docs/DIFFERENCES.md" >&2; exit 1; }
    done
    echo "fixed list, $form: $(grep -c '^# scenario' "$lists/$form.scenarios") scenarios, $(wc -l < "$folder/asked") answers," \
        "$(awk -F ' ## ' 'NF == 3' "$folder/original" | wc -l) of them named differences"
done
