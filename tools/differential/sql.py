#!/usr/bin/env python3
"""Has SQLite judge a program's answers where it can.

    sql.py --program PROGRAM --generate PROGRAM [--original PROGRAM] [--seed N] [--random N] [--grouped]

The rows of every batch that was taken are put into a table; at each `evaluate` and `state` that was answered, FIRST_VALUE or
LAST_VALUE over that table, ordered by the scenario's own keys with ASC or DESC and NULLS FIRST or NULLS LAST, says which value,
key and flag each group must have. SQL leaves ties open: arrival stands in the order as the last key, turned so that the tie
is settled as the stage settles it (FIRST, and LAST by groups, the earliest row; LAST without groups the latest row of the
earliest batch, and where its rows are said to come in order the latest row of all). Filters and flags are judged by SQL's own
WHERE, nulls among them. An accumulator that takes its rows as ordered is judged where SQL says that the rows of its updates came
in order; rows that were merged are promised no order, and may stand anywhere. Refusals, conversions and the layout of bytes
are not SQL's, and are not judged.

With --original, the driver of the original answers too, and the emissions at which it differs under a name are counted: how many
were judged, and in how many of these SQL, with its ties left open, could answer as the original does. Each name must be judged.
"""

import argparse
import itertools
import sqlite3
import subprocess
import sys
import tempfile
import time
from collections import Counter

from scenarios import cells_of_parts, column, fields, hex_bytes, is_command, marks, scenarios, words

OPTIONS = {
    "asc-last": "ASC NULLS LAST",
    "asc-first": "ASC NULLS FIRST",
    "desc-last": "DESC NULLS LAST",
    "desc-first": "DESC NULLS FIRST",
}


class Judge:
    """The table of one accumulator's rows, and the questions to it."""

    def __init__(self, line):
        _, form, end, self.value, order, *policies = words(line)
        kind, options = order.split(":")
        self.grouped, self.first = form == "grouped", end == "first"
        self.key = "number" if kind == "number" else "bytes"
        self.options = [OPTIONS[option] for option in options.split(",")]
        self.ignore_nulls = "ignore-nulls" in policies
        self.ordered = "pre-ordered" in policies
        self.held, self.batches = (0, 0) if self.grouped else (1, 0)
        self.table = sqlite3.connect(":memory:")
        keys = "".join(f", key{i}" for i in range(len(self.options)))
        self.table.execute(f"CREATE TABLE rows (grp INTEGER, batch INTEGER, row INTEGER, merged INTEGER, mark, value{keys})")

    def take(self, word, pairs):
        """Puts a batch's rows into the table."""
        said = dict(pairs)
        values = column(said["values"], self.value)
        keys = [column(text, self.key) for name, text in pairs if name == "key"]
        mask = marks(said.get("filter") or said.get("flags") or "[" + "1 " * len(values) + "]")
        groups = [int(word) for word in words(said["groups"][1:-1])] if self.grouped else [0] * len(values)
        if self.grouped:
            self.held = int(said["total"])
        self.batches += 1
        rows = [
            (group, self.batches, row, word == "merge", mark, *cells)
            for row, (group, mark, *cells) in enumerate(zip(groups, mask, values, *keys))
        ]
        places = ", ".join("?" * (6 + len(self.options)))
        self.table.executemany(f"INSERT INTO rows VALUES ({places})", rows)

    def arrival(self):
        """Arrival as the last key of the order. FIRST gives way to no tie, nor does LAST by groups; LAST without groups takes the
        latest tied row of a batch, and gives way to a later tied batch where its rows are said to come in order, merged or not."""
        if self.ordered or self.first:
            return "batch ASC, row ASC"
        return "batch DESC, row DESC" if self.grouped else "batch DESC, row ASC"

    def admitted(self):
        """Which rows count; merges without groups look at no null policy."""
        if not self.ignore_nulls:
            return "mark"
        return "mark AND value IS NOT NULL" if self.grouped else "mark AND (merged OR value IS NOT NULL)"

    def winners(self, leaving):
        """The value and key of each group that has rows, of the first so many."""
        keys = [f"key{i} {option}" for i, option in enumerate(self.options)]
        end = "FIRST_VALUE" if self.first else "LAST_VALUE"
        columns = ["value"] + [f"key{i}" for i in range(len(self.options))]
        asked = ", ".join(f"{end}({name}) OVER w" for name in columns)
        text = f"""SELECT DISTINCT grp, {asked} FROM rows WHERE ({self.admitted()}) AND grp < ?
            WINDOW w AS (PARTITION BY grp ORDER BY {', '.join(keys)}, {self.arrival()}
            ROWS BETWEEN UNBOUNDED PRECEDING AND UNBOUNDED FOLLOWING)"""
        return {group: cells for group, *cells in self.table.execute(text, (leaving,))}

    def in_order(self):
        """Whether the rows of updates came in the order of their keys, as was promised; of merged rows nothing is."""
        keys = ", ".join(f"key{i} {option}" for i, option in enumerate(self.options))
        text = f"""SELECT COUNT(*) FROM (SELECT ROW_NUMBER() OVER (ORDER BY {keys}, batch, row) AS sorted,
            ROW_NUMBER() OVER (ORDER BY batch, row) AS came FROM rows WHERE ({self.admitted()}) AND NOT merged)
            WHERE sorted <> came"""
        return self.table.execute(text).fetchone()[0] == 0

    def drop(self, leaving):
        """The first groups leave, and the others move up."""
        self.table.execute("DELETE FROM rows WHERE grp < ?", (leaving,))
        self.table.execute("UPDATE rows SET grp = grp - ?", (leaving,))
        self.held -= leaving

    def wanted(self, word, leaving):
        """The columns that an emission must show, as lists of cells."""
        winners = self.winners(leaving)
        missing = [None] * (1 + len(self.options))
        rows = [winners.get(group, missing) for group in range(leaving)]
        shown = [list(cells) for cells in zip(*rows)] or [[] for _ in missing]
        return shown[:1] if word == "evaluate" else shown + [[int(group in winners) for group in range(leaving)]]

    def tied(self, group, winner):
        """The value, key and flag of each row with the key of a group's winner; where there is none, what an unset group shows."""
        if winner is None:
            return [(None,) * (1 + len(self.options)) + (0,)]
        names = [f"key{i}" for i in range(len(self.options))]
        text = f"""SELECT value, {', '.join(names)}, 1 FROM rows WHERE ({self.admitted()}) AND grp = ?
            AND {' AND '.join(f'{name} IS ?' for name in names)}"""
        return self.table.execute(text, (group, *winner[1:])).fetchall()

    def allows(self, columns):
        """Whether SQL, with ties left open, could answer these columns of an emission."""
        winners = self.winners(len(columns[0]))
        return all(
            any(row[: len(cells)] == cells for row in self.tied(group, winners.get(group)))
            for group, cells in enumerate(zip(*columns))
        )


def shown_column(parts, name, kind, rows):
    """A column that an answer shows; what lies behind it in the buffers is not looked at."""
    offsets = [int(word) for word in words(parts.get(f"{name}.offsets", "[]")[1:-1])]
    return cells_of_parts(kind, rows, hex_bytes(parts[f"{name}.validity"]), offsets, hex_bytes(parts[f"{name}.data"]))


def shown(judge, word, answer, rows):
    """The columns that an answer shows, as lists of cells."""
    parts = dict(pair for pair in fields(answer))
    columns = [shown_column(parts, "values", judge.value, rows)]
    if word == "state":
        names = [f"key{i + 1}" for i in range(len(judge.options))]
        columns += [shown_column(parts, name, judge.key, rows) for name in names]
        columns.append(marks(f"{{rows={rows} bits={parts['flags.bits']} validity={parts['flags.validity']}}}"))
    return columns


def judge_emission(judge, word, answer, original, counts):
    """Judges an emission; answers what SQL says where that is something else, and whether a tie alone makes it so, or None. Of the
    original's answer only the name of a difference is looked at, and whether SQL could answer so in a tie."""
    leaving = int(dict(fields(answer)).get("dropped", 1))
    theirs, *named = original.split(" ## ")
    names = ["pre-ordered"] * judge.ordered + named[:1]
    if judge.ordered and not judge.in_order():
        counts.update((name, "left out") for name in names)
        return None
    wanted, found = judge.wanted(word, leaving), shown(judge, word, answer, leaving)
    if wanted != found:
        return wanted, judge.allows(found)
    counts.update(emissions=1, winners=leaving)
    counts.update((name, "judged") for name in names)
    if named and theirs.startswith("ok") and judge.allows(shown(judge, word, theirs, leaving)):
        counts[named[0], "open"] += 1
    return None


def judge_scenario(lines, answers, originals, counts):
    """Judges the answers to a scenario; answers the first line that SQL contradicts, what SQL says, and whether in a tie alone."""
    judge = None
    for line, answer, original in zip(filter(is_command, lines), answers, originals):
        word = words(line)[0]
        answer = answer.split(" ## ")[-1]
        if answer == "made":
            judge = Judge(line)
        elif word in ("update", "merge") and answer == "ok":
            judge.take(word, fields(line))
        elif word in ("evaluate", "state") and answer.startswith("ok"):
            if contradicted := judge_emission(judge, word, answer, original, counts):
                return line, answer, *contradicted
            if judge.grouped:
                judge.drop(int(dict(fields(answer))["dropped"]))
    return None


def answers_of(program, text):
    """The answers of a program to scenarios."""
    with tempfile.TemporaryFile() as stdin:
        stdin.write(text)
        stdin.seek(0)
        run = subprocess.run([program], stdin=stdin, stdout=subprocess.PIPE, stderr=subprocess.DEVNULL, text=True)
    return iter(run.stdout.splitlines())


def judge_family(options, arguments, counts):
    """Judges the answers to all scenarios of a family."""
    text = subprocess.run([options.generate, *arguments], stdout=subprocess.PIPE, check=True).stdout
    answers = answers_of(options.program, text)
    originals = answers_of(options.original, text) if options.original else itertools.repeat("")
    for heading, lines in scenarios(text.decode().splitlines()):
        commands = sum(map(is_command, lines))
        given, beside = (list(itertools.islice(source, commands)) for source in (answers, originals))
        if min(len(given), len(beside)) < commands:
            sys.exit("a program ended before it had answered all")
        if options.grouped and any("make single" in line for line in lines):
            continue
        counts["scenarios"] += 1
        if contradicted := judge_scenario(lines, given, beside, counts):
            print("\n".join([heading, *lines]))
            line, answer, wanted, tie = contradicted
            what = "a tie is settled otherwise than the rules say" if tie else "SQL contradicts"
            sys.exit(f"{what}: {line}\n    answer: {answer}\n    SQL:    {wanted}")


def report(counts, seconds):
    """Says what was judged; each name of a difference must be."""
    print(f"SQLite {sqlite3.sqlite_version}: {counts['scenarios']} scenarios in {seconds:.0f} s, no contradiction")
    print(f"judged: {counts['emissions']} emissions, {counts['winners']} winners")
    names = sorted({key[0] for key in counts if isinstance(key, tuple)})
    for name in names:
        judged, left_out, tied = (counts[name, sort] for sort in ("judged", "left out", "open"))
        ties = "" if name == "pre-ordered" else f" ({tied} by a tie that SQL leaves open)"
        print(f"{name}: {judged} judged{ties}, {left_out} left out since the rows of updates did not come in order")
    for part in sorted({part for name in names for part in name.split("+")}):
        if not any(counts[name, "judged"] for name in names if part in name.split("+")):
            sys.exit(f"{part}: no emission was judged")


def main():
    parser = argparse.ArgumentParser(description=__doc__.splitlines()[0])
    parser.add_argument("--program", required=True)
    parser.add_argument("--generate", required=True)
    parser.add_argument("--original", help="the driver of the original, whose named differences are then counted")
    parser.add_argument("--seed", type=int, default=1)
    parser.add_argument("--random", type=int, default=20_000)
    parser.add_argument("--grouped", action="store_true", help="leave out accumulators without groups")
    options = parser.parse_args()
    counts, start = Counter(), time.time()
    for arguments in (["limits"], ["short"], ["random", str(options.seed), str(options.random)]):
        judge_family(options, arguments, counts)
    report(counts, time.time() - start)


if __name__ == "__main__":
    main()
