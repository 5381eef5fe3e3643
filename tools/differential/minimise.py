"""Makes a scenario that differs smaller: fewer lines, rows, columns and options, and simpler cells, as long as it differs."""

import itertools

from scenarios import fields, is_command, words

# The fields of a batch that have an item for each row.
BY_ROW = {"values", "key", "groups", "filter", "flags"}


def split_list(text):
    """What stands before a bracket, and the items in it; None where the text is no such list."""
    bracket = text.find("[")
    if text.startswith("{") or bracket < 0 or not text.endswith("]"):
        return None
    return text[:bracket], words(text[bracket + 1 : -1])


def join(word, pairs):
    """A line of a word and fields."""
    return " ".join([word] + [f"{name}={text}" if name else text for name, text in pairs])


def with_line(lines, place, line):
    """The lines with one of them changed."""
    return lines[:place] + [line] + lines[place + 1 :]


def fewer_lines(lines):
    """Without some lines, the largest cuts first."""
    size = len(lines) // 2
    while size:
        for start in range(len(lines) - size, -1, -1):
            yield lines[:start] + lines[start + size :]
        size //= 2


def fewer_rows(lines):
    """Without some rows of a batch, the largest cuts first."""
    for place, line in enumerate(lines):
        pairs = fields(line)
        lists = {i: split_list(text) for i, (name, text) in enumerate(pairs) if name in BY_ROW}
        if not lists or None in lists.values():
            continue
        rows = max(len(items) for _, items in lists.values())
        size = rows
        while size:
            for start in range(0, rows, size):
                cut = list(pairs)
                for i, (kind, items) in lists.items():
                    kept = items[:start] + items[start + size :]
                    cut[i] = (pairs[i][0], f"{kind}[{' '.join(kept)}]")
                yield with_line(lines, place, join(words(line)[0], cut))
            size //= 2


def fewer_groups(lines):
    """With all rows of all batches in one group."""
    smaller = []
    for line in lines:
        pairs = fields(line)
        for i, (name, text) in enumerate(pairs):
            if name == "groups" and split_list(text):
                pairs[i] = (name, f"[{' '.join('0' for _ in split_list(text)[1])}]")
            elif name == "total":
                pairs[i] = (name, "1")
        smaller.append(join(words(line)[0], pairs))
    yield smaller


def fewer_columns(lines):
    """Without one order column, everywhere."""
    orders = [words(line)[4] for line in lines if line.startswith("make ") and len(words(line)) > 4]
    options = orders[0].split(":")[1].split(",") if orders else []
    for column in range(len(options) if len(options) > 1 and len(orders) == 1 else 0):
        smaller = []
        for line in lines:
            if line.startswith("make "):
                kept = options[:column] + options[column + 1 :]
                smaller.append(line.replace(",".join(options), ",".join(kept)))
                continue
            pairs = fields(line)
            keys = [i for i, (name, _) in enumerate(pairs) if name == "key"]
            if len(keys) > column:
                del pairs[keys[column]]
            smaller.append(join(words(line)[0], pairs))
        yield smaller


def fewer_fields(lines):
    """Without a filter, a room, or a word of a making; options as the plainest are."""
    for place, line in enumerate(lines):
        pairs = fields(line)
        for i, (name, text) in enumerate(pairs):
            if name in ("filter", "room") or text in ("ignore-nulls", "pre-ordered"):
                yield with_line(lines, place, join(words(line)[0], pairs[:i] + pairs[i + 1 :]))
        for option in ("asc-first", "desc-last", "desc-first"):
            if line.startswith("make ") and option in line:
                yield with_line(lines, place, line.replace(option, "asc-last"))


def simpler(item):
    """Simpler items than this one."""
    if item.startswith("x"):
        plainer = ["x", "x61"]
    elif "/" in item:
        plainer = ["_/_/_", "1/_/_"]
    elif item == "null":
        plainer = []
    else:
        plainer = ["0", "1", "2"]
    return plainer[: plainer.index(item)] if item in plainer else plainer


def simpler_items(lines):
    """With one item of a list, or a total, simpler."""
    for place, line in enumerate(lines):
        pairs = fields(line)
        for i, (name, text) in enumerate(pairs):
            if name == "total":
                texts = [number for number in ("0", "1", "2") if int(number) < int(text)] if text.isdigit() else []
            elif name in BY_ROW and split_list(text):
                kind, items = split_list(text)
                marks = name in ("filter", "flags")
                texts = [
                    f"{kind}[{' '.join(items[:j] + [plain] + items[j + 1 :])}]"
                    for j, item in enumerate(items[:40])
                    for plain in (["1"] if marks and item != "1" else [] if marks else simpler(item))
                ]
            else:
                texts = []
            for text in texts:
                yield with_line(lines, place, join(words(line)[0], pairs[:i] + [(name, text)] + pairs[i + 1 :]))


# So many candidates are tried in one run of the programs.
TOGETHER = 200


def first_that_differs(candidates, first_difference, together_at_most):
    """The first of the candidates that differs, cut behind the difference, or None."""
    while together := list(itertools.islice(candidates, together_at_most)):
        if found := first_difference(together):
            return together[found[0]][: found[1] + 1]
    return None


def minimise(lines, first_difference):
    """The smallest scenario that is found from this one; `first_difference` answers, of a list of scenarios, the place of the
    first that differs, and the place of the command."""
    lines = [line for line in lines if is_command(line)]
    # Candidates that begin with a making know nothing of one another, and run together.
    makes = lines[0].startswith("make ")
    at_most = TOGETHER if makes else 1
    shrinking = True
    while shrinking:
        shrinking = False
        for smaller in (fewer_lines, fewer_rows, fewer_groups, fewer_columns, fewer_fields, simpler_items):
            step = lines
            while step:
                candidates = (less for less in smaller(lines) if less and less != lines)
                candidates = (less for less in candidates if not makes or less[0].startswith("make "))
                step = first_that_differs(candidates, first_difference, at_most)
                if step:
                    lines, shrinking = step, True
    return lines
