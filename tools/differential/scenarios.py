"""Reading scenarios and their answers: shared by the scripts of this folder.

A stream of scenarios is text in which each scenario stands under a comment line that begins with `# scenario`.
"""


def words(text):
    """The words of a text: pieces between spaces, brackets staying whole."""
    found, word, depth = [], "", 0
    for letter in text:
        depth += (letter in "[{") - (letter in "]}")
        if letter == " " and depth == 0:
            found.append(word)
            word = ""
        else:
            word += letter
    found.append(word)
    return [word for word in found if word]


def is_command(line):
    """Whether a line gets an answer."""
    return bool(line.strip()) and not line.startswith("#")


def fields(line):
    """A call's words after the first, as pairs of a name and a text; a word without a name has the name ''."""
    pairs = []
    for word in words(line)[1:]:
        name, equals, text = word.partition("=")
        pairs.append((name, text) if equals else ("", word))
    return pairs


def scenarios(stream):
    """The scenarios of a stream: a heading and the lines under it."""
    heading, lines = None, []
    for line in stream:
        line = line.rstrip("\n")
        if line.startswith("# scenario"):
            if heading:
                yield heading, lines
            heading, lines = line, []
        else:
            lines.append(line)
    if heading:
        yield heading, lines


def record_bytes(record):
    """A record's 25 bytes, from its three fields."""
    presence = sum((field is not None) << place for place, field in enumerate(record))
    return bytes([presence]) + b"".join((field or 0).to_bytes(8, "little", signed=True) for field in record)


def cell(word, kind):
    """A cell as a value of SQL: a number, bytes, or the 25 bytes of a record; None is null."""
    if word == "null":
        return None
    if kind == "number":
        return int(word)
    if kind == "bytes":
        return bytes.fromhex(word[1:])
    return record_bytes([None if field == "_" else int(field) for field in word.split("/")])


def bit(data, row):
    """A row's bit, the lowest of a byte first."""
    return bool(data[row // 8] >> row % 8 & 1)


def cells_of_parts(kind, rows, validity, offsets, data):
    """A column's cells from its parts, which fit."""
    width = {"number": 8, "record": 25}.get(kind)
    ends = offsets if width is None else [width * row for row in range(rows + 1)]
    cells = []
    for row in range(rows):
        value = data[ends[row] : ends[row + 1]]
        if validity and not bit(validity, row):
            cells.append(None)
        elif kind == "number":
            cells.append(int.from_bytes(value, "little", signed=True))
        else:
            cells.append(value)
    return cells


def hex_bytes(word):
    """The bytes of a word that begins with x, or of none."""
    return b"" if word == "none" else bytes.fromhex(word[1:])


def column(text, kind):
    """A column's cells, from its cells or its parts; the kind is the one that is read there."""
    if text.startswith("{"):
        parts = dict(word.split("=", 1) for word in words(text[1:-1]))
        offsets = [] if parts["offsets"] == "none" else [int(word) for word in words(parts["offsets"][1:-1])]
        return cells_of_parts(kind, int(parts["rows"]), hex_bytes(parts["validity"]), offsets, hex_bytes(parts["data"]))
    return [cell(word, kind) for word in words(text[text.index("[") + 1 : -1])]


def marks(text):
    """A boolean column: 1, 0 or None for each row."""
    if text.startswith("{"):
        parts = dict(word.split("=", 1) for word in words(text[1:-1]))
        bits, validity = hex_bytes(parts["bits"]), hex_bytes(parts["validity"])
        rows = range(int(parts["rows"]))
        return [int(bit(bits, row)) if not validity or bit(validity, row) else None for row in rows]
    return [{"1": 1, "0": 0}.get(word) for word in words(text[1:-1])]
