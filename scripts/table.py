"""Reads the table of rows, crates/mdast_replay/data/rows.txt: its sections, the spans of a row, and their event lines."""

import os
import re

TOP = os.path.join(os.path.dirname(os.path.abspath(__file__)), "..")
DATA = os.path.join(TOP, "crates", "mdast_replay", "data")
ROWS = os.path.join(DATA, "rows.txt")

ESCAPES = {"n": "\n", "r": "\r", "t": "\t", "0": "\0", "\\": "\\", '"': '"'}


def sections(path=ROWS):
    """The name of each section of a table, and its rows: what each says, by the word that its line begins with, and its lines.

    Cases with event lines are passed over.
    """
    found = []
    row = None
    for line in open(path, encoding="utf-8").read().split("\n"):
        word, _, rest = line.partition(" ")
        if line.startswith("#") or not line:
            continue
        if word == "section":
            found.append((rest, []))
            continue
        if word == "case":
            row = None
        if word == "row":
            row = {"name": rest, "lines": []}
            found[-1][1].append(row)
        elif row is None:
            continue
        elif line.startswith('"'):
            row["document"] = line
        elif word in ("columns", "decoder", "values", "ordered", "json", "plain", "report"):
            row[word] = rest
        elif word == "=":
            row["tree"] = rest
        elif word == "!":
            row["refused"] = rest
        else:
            row["spans"] = line
        row["lines"].append(line)
    return found


def unescaped(text):
    """The bytes of a text in quotes."""
    return re.sub(r"\\(.)", lambda match: ESCAPES[match.group(1)], text[1:-1]).encode()


def document(row):
    return unescaped(row["document"])


def line_starts(row):
    """The offset at which each line of the document begins."""
    text = document(row)
    starts = [0]
    index = 0
    while index < len(text) and not row.get("columns"):
        index += 2 if text[index : index + 2] == b"\r\n" else 1
        if text[index - 1] in b"\r\n":
            starts.append(index)
    return starts


def point(text, starts):
    """The line, the column and the offset of an end of a span, and its virtual spaces, if they are given."""
    if text.startswith("@"):
        return tuple(int(number) for number in text[1:].split(":"))
    offset = int(text)
    line = max(number for number, start in enumerate(starts) if start <= offset)
    return (line + 1, offset - starts[line] + 1, offset, None)


def spans(row):
    """The spans of a row, each with its name, its two ends, and the spans in it."""
    tokens = re.findall(r"[A-Za-z]+ @?[\d:]+-@?[\d:]+|[{},]", row.get("spans", ""))
    starts = line_starts(row)

    def read():
        found = []
        while tokens and tokens[0] != "}":
            token = tokens.pop(0)
            if token == ",":
                continue
            name, ends = token.split(" ")
            begin, end = ends.split("-")
            inner = []
            if tokens and tokens[0] == "{":
                tokens.pop(0)
                inner = read()
                tokens.pop(0)
            found.append((name, point(begin, starts), point(end, starts), inner))
        return found

    return read()


def event_lines(spans):
    """The lines of the events of spans: each enter, the lines of the spans in it, and its exit."""
    for name, begin, end, inner in spans:
        yield event_line("+", name, begin)
        yield from event_lines(inner)
        yield event_line("-", name, end)


def event_line(sign, name, point):
    numbers = [number for number in point if number is not None]
    return f"{sign}{name} " + ":".join(str(number) for number in numbers) + "\n"


def write_or_compare(command, path, text, compares):
    """Writes a file, or, where it is only to be compared, says that it is stale and returns so."""
    if not compares:
        with open(path, "w", encoding="utf-8") as file:
            file.write(text)
        return False
    if os.path.exists(path) and open(path, encoding="utf-8").read() == text:
        return False
    print(f"{command}: {os.path.basename(path)} is not what its table says")
    return True
