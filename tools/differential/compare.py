#!/usr/bin/env python3
"""Runs scenarios through two programs and compares their answers to the byte.

    compare.py --original PROGRAM --port PROGRAM --generate PROGRAM [--seed N] [--random N] [--only FAMILY] [--least N] [--grouped] [--as-found]

It takes all short scenarios, those of the limits, and N drawn at random; of the fixed list only if told so. An answer `A ## NAME ## B` of the original's
driver says that A is the original's, B is what the rules ask, and NAME is the difference: the port must answer B, and the name must
stand in docs/DIFFERENCES.md. Every other answer must be the same. Where one differs, the smallest scenario that still differs
is shown, and the exit code is 1.
"""

import argparse
import pathlib
import re
import subprocess
import sys
import tempfile
import time
from collections import Counter

from minimise import minimise
from scenarios import is_command, scenarios

CHUNK = 4_000_000
DIFFERENCES = pathlib.Path(__file__).resolve().parents[2] / "docs" / "DIFFERENCES.md"


def asked(answer):
    """What the port must answer, and the name of the difference where there is one."""
    parts = answer.split(" ## ")
    return (parts[2], parts[1]) if len(parts) == 3 else (answer, None)


def answers(programs, text):
    """The answers of programs that run beside each other over one text."""
    with tempfile.TemporaryDirectory() as folder:
        source = pathlib.Path(folder, "scenario")
        source.write_text(text)
        running = []
        for place, program in enumerate(programs):
            target = pathlib.Path(folder, str(place))
            with open(source) as stdin, open(target, "w") as stdout:
                running.append((subprocess.Popen([program], stdin=stdin, stdout=stdout, stderr=subprocess.DEVNULL), target))
        for process, _ in running:
            process.wait()
        return [target.read_text().splitlines() for _, target in running]


def unlike(answer, port):
    """Whether the port's answer is not the one that is asked."""
    return asked(answer) != (port, asked(answer)[1]) or asked(answer)[1] == "unnamed"


def padded(lines, count, missing):
    """As many answers as there are commands, where a program may have ended before."""
    return lines + [missing] * (count - len(lines))


def first_difference(programs, candidates):
    """Of some scenarios the first whose answers differ: its place, the differing command's, and both answers; or None."""
    original, port = (iter(lines) for lines in answers(programs, "\n".join(line for lines in candidates for line in lines) + "\n"))
    for place, lines in enumerate(candidates):
        for command in range(sum(map(is_command, lines))):
            left, right = next(original, "(no answer)"), next(port, "(no answer)")
            if unlike(left, right):
                return place, command, left, right
    return None


class Tally:
    """What was compared so far, and the scenarios that differ."""

    def __init__(self):
        self.answers = Counter()
        self.names = Counter()
        self.sorts = Counter()
        self.differing = []

    def compare(self, family, chunk, programs):
        """Compares the answers to a chunk of scenarios."""
        text = "".join("\n".join([heading, *lines]) + "\n" for heading, lines in chunk)
        original, port = answers(programs, text)
        place = 0
        for _, lines in chunk:
            commands = sum(map(is_command, lines))
            here = padded(original[place : place + commands], commands, "(no answer of the original)")
            there = padded(port[place : place + commands], commands, "(no answer)")
            place += commands
            self.answers[family] += commands
            for answer in here:
                self.sorts[re.sub(r"(declined \d+|\w+).*", r"\1", answer)] += 1
                if asked(answer)[1]:
                    self.names[asked(answer)[1]] += 1
            different = [command for command in range(commands) if unlike(here[command], there[command])]
            if different:
                first = different[0]
                self.differing.append((sum(map(len, lines)), lines, first, here[first], there[first]))


def without_single(stream):
    """The scenarios in which every accumulator is a grouped one."""
    return ((heading, lines) for heading, lines in stream if not any("make single" in line for line in lines))


def chunks(stream):
    """Scenarios in lists of bounded size."""
    chunk, size = [], 0
    for heading, lines in stream:
        chunk.append((heading, lines))
        size += sum(map(len, lines))
        if size > CHUNK:
            yield chunk
            chunk, size = [], 0
    if chunk:
        yield chunk


def show(programs, tally, as_found):
    """Shows the smallest scenario that differs, made smaller where that is wanted."""
    tally.differing.sort(key=lambda found: found[0])
    _, smallest, command, left, right = tally.differing[0]
    print(f"{len(tally.differing)} scenarios differ; the smallest{'' if as_found else ', made smaller'}:")
    if not as_found:
        smallest = minimise(smallest, lambda candidates: first_difference(programs, candidates))
        _, command, left, right = first_difference(programs, [smallest])
    print("\n".join("    " + line for line in smallest))
    print(f"at command {command + 1}:\n    original: {left}\n    port:     {right}")


def report(tally, seconds):
    """Says what was compared."""
    total = sum(tally.answers.values())
    print(f"{total} answers in {seconds:.0f} s: " + ", ".join(f"{n} {family}" for family, n in tally.answers.items()))
    print("by sort: " + ", ".join(f"{n} {sort}" for sort, n in sorted(tally.sorts.items())))
    for name, count in sorted(tally.names.items()):
        print(f"named: {count} {name}")


def unknown_names(tally):
    """Names of differences that the page of differences does not have."""
    page = DIFFERENCES.read_text()
    return sorted({part for name in tally.names for part in name.split("+") if part not in page and part != "unnamed"})


def main():
    parser = argparse.ArgumentParser(description=__doc__.splitlines()[0])
    parser.add_argument("--original", required=True)
    parser.add_argument("--port", required=True)
    parser.add_argument("--generate", required=True)
    parser.add_argument("--seed", type=int, default=1)
    parser.add_argument("--random", type=int, default=20_000)
    parser.add_argument("--only", choices=["short", "limits", "random", "fixed"])
    parser.add_argument("--grouped", action="store_true", help="leave out accumulators without groups")
    parser.add_argument("--as-found", action="store_true", help="show a scenario that differs without making it smaller")
    parser.add_argument("--least", type=int, default=0, help="fewer answers than this are a failure")
    options = parser.parse_args()
    programs = [options.original, options.port]
    families = [("limits", ["limits"]), ("short", ["short"]), ("random", ["random", str(options.seed), str(options.random)])]
    fixed = [("fixed", ["fixed", form]) for form in ("grouped", "single")]
    tally, start = Tally(), time.time()
    for family, arguments in fixed if options.only == "fixed" else families:
        if options.only in (None, family):
            with subprocess.Popen([options.generate, *arguments], stdout=subprocess.PIPE, text=True) as source:
                found = scenarios(source.stdout)
                for chunk in chunks(without_single(found) if options.grouped else found):
                    tally.compare(family, chunk, programs)
                    if tally.differing:
                        break
        if tally.differing:
            break
    report(tally, time.time() - start)
    if tally.differing:
        show(programs, tally, options.as_found)
        sys.exit(1)
    if sum(tally.answers.values()) < options.least:
        sys.exit(f"fewer than {options.least} answers")
    if unknown := unknown_names(tally):
        sys.exit("not in docs/DIFFERENCES.md: " + ", ".join(unknown))
    print("no difference that has no name")


if __name__ == "__main__":
    main()
