"""HTML of an mdast tree, as the examples of CommonMark and GFM print it, raw HTML included."""

import re

ESCAPES = str.maketrans({"&": "&amp;", "<": "&lt;", ">": "&gt;", '"': "&quot;"})
# The bytes that stand as they are in an address. All others are percent-encoded.
IN_ADDRESS = set(b"abcdefghijklmnopqrstuvwxyzABCDEFGHIJKLMNOPQRSTUVWXYZ0123456789!#$%&'()*+,-./:;=?@_~")
# Begins a new line, unless one has just begun.
LINE = object()


def escape(text):
    return text.translate(ESCAPES)


def address(url):
    parts = [chr(byte) if byte in IN_ADDRESS else "%%%02X" % byte for byte in url.encode()]
    return "".join(parts).replace("&", "&amp;").replace("'", "&#x27;")


def walk(node):
    """A node and those in it, in order."""
    stack = [node]
    while stack:
        node = stack.pop()
        yield node
        stack.extend(reversed(node.get("children", [])))


def definitions(tree):
    """The first definition of each identifier."""
    found = {}
    for node in walk(tree):
        if node["type"] == "definition":
            found.setdefault(node["identifier"].upper(), node)
    return found


def html_of(tree):
    """The HTML of a tree. No function calls itself, so a tree may be as deep as it likes."""
    defined = definitions(tree)
    out = []
    stack = [(tree, "block")]
    while stack:
        part = stack.pop()
        if part is LINE:
            if out and not out[-1].endswith("\n"):
                out.append("\n")
        elif isinstance(part, str):
            out.extend([part] if part else [])
        else:
            node, context = part
            stack.extend(reversed(PARTS[node["type"]](node, context, defined)))
    return "".join(out)


def inside(node, context=None):
    return [(child, context) for child in node.get("children", [])]


def between(tag):
    return lambda node, context, defined: [f"<{tag}>", *inside(node), f"</{tag}>"]


def paragraph(node, context, defined):
    if context == "tight":
        return inside(node)
    return [LINE, "<p>", *inside(node), "</p>\n"]


def heading(node, context, defined):
    return [LINE, "<h%d>" % node["depth"], *inside(node), "</h%d>\n" % node["depth"]]


def html(node, context, defined):
    return [node["value"]] if context is None else [LINE, node["value"], LINE]


def code(node, context, defined):
    language = ' class="language-%s"' % escape(node["lang"]) if node.get("lang") else ""
    value = node["value"] + "\n" if node["value"] else ""
    return [LINE, f"<pre><code{language}>{escape(value)}</code></pre>\n"]


def inline_code(node, context, defined):
    return ["<code>%s</code>" % escape(re.sub(r"\r?\n|\r", " ", node["value"]))]


def block_quote(node, context, defined):
    return [LINE, "<blockquote>\n", *inside(node, "block"), LINE, "</blockquote>\n"]


def list_of(node, context, defined):
    is_loose = node.get("spread") or any(item.get("spread") for item in node["children"])
    begin, end = "<ul>\n", "</ul>\n"
    if node.get("ordered"):
        begin, end = "<ol>\n", "</ol>\n"
        if node.get("start") not in (None, 1):
            begin = '<ol start="%d">\n' % node["start"]
    return [LINE, begin, *inside(node, "block" if is_loose else "tight"), end]


def list_item(node, context, defined):
    box = ""
    if node.get("checked") is not None:
        box = '<input type="checkbox"%s disabled="" /> ' % (' checked=""' if node["checked"] else "")
    return [LINE, "<li>" + box, *inside(node, context), "</li>\n"]


def table(node, context, defined):
    parts = [LINE, "<table>\n"]
    for number, row in enumerate(node["children"]):
        parts += {0: ["<thead>\n"], 1: ["<tbody>\n"]}.get(number, [])
        parts += ["<tr>\n", *cells(row, node["align"], "td" if number else "th"), "</tr>\n"]
        parts += [] if number else ["</thead>\n"]
    parts += ["</tbody>\n"] if len(node["children"]) > 1 else []
    return parts + ["</table>\n"]


def cells(row, aligns, tag):
    """The cells of a row: as many as the table has columns."""
    for number, align in enumerate(aligns):
        yield f"<{tag}%s>" % (f' align="{align}"' if align else "")
        yield from inside(row["children"][number]) if number < len(row["children"]) else []
        yield f"</{tag}>\n"


def title_of(node):
    return ' title="%s"' % escape(node["title"]) if node.get("title") else ""


def link(node, context, defined, target=None):
    target = target or node
    return [f'<a href="{address(target["url"])}"{title_of(target)}>', *inside(node), "</a>"]


def image(node, context, defined, target=None):
    target = target or node
    return [f'<img src="{address(target["url"])}" alt="{escape(node.get("alt") or "")}"{title_of(target)} />']


def reference(node, context, defined):
    """A link or an image by reference, or its source text where nothing defines it."""
    target = defined.get(node["identifier"].upper())
    is_image = node["type"] == "imageReference"
    if target:
        return (image if is_image else link)(node, context, defined, target)
    label = node.get("label") or node["identifier"]
    after = {"collapsed": "][]", "full": f"][{label}]"}.get(node["referenceType"], "]")
    return [escape("![" + (node.get("alt") or "") + after)] if is_image else ["[", *inside(node), escape(after)]


# What stands for a node: texts, nodes with their contexts, and new lines.
PARTS = {
    "root": lambda node, context, defined: inside(node, "block"),
    "text": lambda node, context, defined: [escape(node["value"])],
    "paragraph": paragraph,
    "heading": heading,
    "thematicBreak": lambda node, context, defined: [LINE, "<hr />\n"],
    "break": lambda node, context, defined: ["<br />\n"],
    "emphasis": between("em"),
    "strong": between("strong"),
    "delete": between("del"),
    "inlineCode": inline_code,
    "code": code,
    "html": html,
    "blockquote": block_quote,
    "list": list_of,
    "listItem": list_item,
    "table": table,
    "link": link,
    "image": image,
    "linkReference": reference,
    "imageReference": reference,
    "definition": lambda node, context, defined: [],
}
