"""Reads trees as Debug prints them, and says what else is made of them: JSON, plain text, and the report of what is found.

It shares no code with the crates, so that their forms and these are two readings of the same rules.
"""

import re

TOKEN = re.compile(r'\s*(?:("(?:[^"\\]|\\.)*")|(\d+:\d+-\d+:\d+ \(\d+-\d+\))|(\d+)|(\w+)|([{}\[\](),:]))')
LETTERS = {"n": "\n", "r": "\r", "t": "\t", "0": "\0", "\\": "\\", '"': '"', "'": "'"}
FIELDS = {
    "heading": ["depth"],
    "list": ["ordered", "start", "spread"],
    "listItem": ["spread", "checked"],
    "table": ["align"],
    "code": ["lang", "meta", "value"],
    "math": ["meta", "value"],
    "link": ["title", "url"],
    "image": ["title", "url", "alt"],
    "linkReference": ["identifier", "label", "referenceType"],
    "imageReference": ["identifier", "label", "referenceType", "alt"],
    "footnoteReference": ["identifier", "label"],
    "footnoteDefinition": ["identifier", "label"],
    "definition": ["identifier", "label", "title", "url"],
}
LITERALS = {"text", "html", "inlineCode", "inlineMath", "yaml", "toml", "code", "math"}
REFERENCES = {"linkReference": "link", "imageReference": "image", "footnoteReference": "footnote"}
DEFINITIONS = {"linkReference": "definition", "imageReference": "definition", "footnoteReference": "footnoteDefinition"}


def tree_of(line):
    """The tree of a line, as a dictionary with the names of mdast."""
    tokens = [match.groups() for match in TOKEN.finditer(line)]
    tree, end = value_at(tokens, 0)
    assert end == len(tokens), line
    return tree


def value_at(tokens, at):
    text, place, number, word, sign = tokens[at]
    if text is not None:
        return unescaped(text), at + 1
    if place is not None:
        return position_of(place), at + 1
    if number is not None:
        return int(number), at + 1
    if sign == "[":
        return items_at(tokens, at + 1)
    if word == "Some":
        value, at = value_at(tokens, at + 2)
        return value, at + 1
    if at + 1 < len(tokens) and tokens[at + 1][4] == "{":
        return node_at(tokens, at)
    return {"None": None, "true": True, "false": False}.get(word, word.lower()), at + 1


def items_at(tokens, at):
    items = []
    while tokens[at][4] != "]":
        item, at = value_at(tokens, at)
        items.append(item)
        at += tokens[at][4] == ","
    return items, at + 1


def node_at(tokens, at):
    kind = tokens[at][3]
    node = {"type": kind[0].lower() + kind[1:]}
    at += 2
    while tokens[at][4] != "}":
        name = tokens[at][3]
        value, at = value_at(tokens, at + 2)
        node["referenceType" if name == "reference_kind" else name] = value
        at += tokens[at][4] == ","
    return node, at + 1


def position_of(text):
    first = re.fullmatch(r"(\d+):(\d+)-(\d+):(\d+) \((\d+)-(\d+)\)", text)
    line, column, end_line, end_column, offset, end_offset = map(int, first.groups())
    return {
        "start": {"line": line, "column": column, "offset": offset},
        "end": {"line": end_line, "column": end_column, "offset": end_offset},
    }


def unescaped(text):
    return re.sub(r"\\(?:u\{([0-9a-f]+)\}|(.))", lambda it: chr(int(it[1], 16)) if it[1] else LETTERS[it[2]], text[1:-1])


def json_of(node):
    """A node as JSON, with its fields in the order of markdown_json."""
    fields = ['"type":' + string(node["type"])]
    names = FIELDS.get(node["type"], ["value"] if node["type"] in LITERALS else [])
    fields += [f'"{name}":{scalar(node[name])}' for name in names]
    if "children" in node:
        fields.append('"children":[' + ",".join(map(json_of, node["children"])) + "]")
    if node["position"]:
        ends = [f'"{end}":' + point(node["position"][end]) for end in ("start", "end")]
        fields.append('"position":{' + ",".join(ends) + "}")
    return "{" + ",".join(fields) + "}"


def point(place):
    return "{" + ",".join(f'"{name}":{place[name]}' for name in ("line", "column", "offset")) + "}"


def scalar(value):
    if isinstance(value, list):
        return "[" + ",".join("null" if item is None or item == "none" else string(item) for item in value) + "]"
    if isinstance(value, str):
        return string(value)
    return {None: "null", True: "true", False: "false"}[value] if value is None or isinstance(value, bool) else str(value)


def string(text):
    """A text as JSON.stringify writes it."""
    letters = {'"': '\\"', "\\": "\\\\", "\b": "\\b", "\t": "\\t", "\n": "\\n", "\f": "\\f", "\r": "\\r"}
    return '"' + "".join(letters.get(c) or (f"\\u{ord(c):04x}" if c < " " else c) for c in text) + '"'


def plain(node):
    """The values of the literals in a node, in order."""
    if node["type"] in LITERALS:
        return node["value"]
    return "".join(map(plain, node.get("children", [])))


def walk(node):
    yield node
    for child in node.get("children", []):
        yield from walk(child)


def report(tree):
    """A line for each heading, and then one for each reference that no definition answers."""
    lines = [f"heading {node['depth']} {quoted(plain(node))}\n" for node in walk(tree) if node["type"] == "heading"]
    defined = {(node["type"], node["identifier"]) for node in walk(tree) if node["type"] in DEFINITIONS.values()}
    for node in walk(tree):
        kind = node["type"]
        if kind in REFERENCES and (DEFINITIONS[kind], node["identifier"]) not in defined:
            lines.append(f"open {REFERENCES[kind]} {quoted(node['identifier'])} {place(node['position'])}\n")
    return "".join(lines)


def place(position):
    start, end = position["start"], position["end"]
    return f"{start['line']}:{start['column']}-{end['line']}:{end['column']} ({start['offset']}-{end['offset']})"


def quoted(text):
    """A text of printable characters as Rust's Debug quotes it."""
    letters = {'"': '\\"', "\\": "\\\\", "\t": "\\t", "\n": "\\n", "\r": "\\r", "\0": "\\0"}
    return '"' + "".join(letters.get(c) or (f"\\u{{{ord(c):x}}}" if c < " " or c == "\x7f" else c) for c in text) + '"'


def lines_of(line):
    """The lines of a table for what is made of the tree that this line prints.

    A table has no control characters, so there is no plain text with one. The report quotes characters beyond ASCII as
    they are, so there is none where Debug writes one as its code.
    """
    tree = tree_of(line)
    lines = [f"json {json_of(tree)}"]
    if not re.search(r"[^\n\r\t -~\u00a0-\U0010ffff]", plain(tree)):
        lines.append(f"plain {table_text(plain(tree))}")
    if not re.search(r"\\u\{[0-9a-f]{3}", line.replace("\\\\", "")):
        lines.append(f"report {table_text(report(tree))}")
    return lines


def table_text(text):
    """A text between quotes, in the notation of rows.txt."""
    for byte, letter in (("\\", "\\"), ('"', '"'), ("\n", "n"), ("\r", "r"), ("\t", "t")):
        text = text.replace(byte, "\\" + letter)
    return f'"{text}"'
