#!/usr/bin/env python3
"""Instructions a unit by function, of one case on one side, by callgrind over what run.sh built.

profile.py [--top N] SIDE ROUNDS NAME      SIDE is rust or rattle; NAME as run.sh shows it
"""
import os, re, subprocess, sys, tempfile

args = sys.argv[1:]
top = 8
if args[0] == "--top":
    top, args = int(args[1]), args[2:]
side, rounds, name = args[0], int(args[1]), " ".join(args[2:])
out = os.environ.get("BENCH_OUT", os.path.join(tempfile.gettempdir(), "stage-bench"))


def counts(rounds):
    file = f"{out}/cg.{os.getpid()}"
    said = subprocess.run(
        ["valgrind", "--tool=callgrind", f"--callgrind-out-file={file}", f"{out}/stage-bench", "--count", side, str(rounds), name],
        capture_output=True, text=True, check=True).stdout
    text = subprocess.run(["callgrind_annotate", "--auto=no", "--threshold=100", file], capture_output=True, text=True).stdout
    os.remove(file)
    found = {}
    for line in text.splitlines():
        m = re.match(r" *([\d,]+) \([ \d.%]*\) +(\S.*)", line)
        if m and "PROGRAM" not in line:
            found[m[2]] = found.get(m[2], 0) + int(m[1].replace(",", ""))
    return found, int(re.search(r"units=(\d+)", said)[1])


a, units = counts(rounds)
b, _ = counts(2 * rounds)
each = sorted(((b[n] - a.get(n, 0)) / (units * rounds), n) for n in b)[::-1]
print(f"{side}, {name}: {sum(v for v, _ in each):.1f} instructions a unit")
for v, n in each[:top]:
    if v > 0.2:
        n = re.sub(r"/rustc/[0-9a-f]+/library/|\[/.*\]|\./[\w./-]*sysdeps/x86_64/multiarch/", "", n)
        print(f"  {v:9.2f}  {n[:110]}")
