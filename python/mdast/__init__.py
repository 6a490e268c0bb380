"""The syntax tree of a markdown document, as mdast has it.

>>> import mdast
>>> tree = mdast.parse("# Hi *Earth*!")
>>> [node["type"] for node in mdast.walk(tree)]
['root', 'heading', 'text', 'emphasis', 'text', 'text']

The nodes are plain dicts, with the names and fields of https://github.com/syntax-tree/mdast. The work is done by a
proved library, which is loaded at the first call: the one that the environment variable ``MDAST_LIBRARY`` names, else
``libmdast.so`` beside this package, else the one that the system's loader finds. docs/PYTHON.md tells more.
"""

from __future__ import annotations

import json
import re
import sys
from typing import Any, Dict, Iterable, Iterator, Union

from . import _library
from ._constructs import CONSTRUCTS, bits_of
from ._errors import DepthError, Error, LibraryNotFound, OptionsError, Refused, UnreadLine, Utf8Error

__all__ = [
    "CONSTRUCTS",
    "DepthError",
    "Error",
    "LibraryNotFound",
    "OptionsError",
    "Refused",
    "UnreadLine",
    "Utf8Error",
    "compile",
    "html",
    "outline",
    "parse",
    "plain_text",
    "walk",
]
__version__ = "0.1.0"

Node = Dict[str, Any]
Document = Union[str, bytes]
Constructs = Union[str, Iterable[str]]


def parse(text: Document, *, constructs: Constructs = "everything", utf16: bool = False) -> Node:
    """The syntax tree of a document.

    ``constructs`` says what the document is read with: ``"commonmark"``, ``"gfm"``, ``"everything"`` (GFM with
    frontmatter and math), a construct by its name (``CONSTRUCTS`` has all), or several of these. In positions ``line``
    counts from 1. ``column`` counts from 1 and ``offset`` from 0, both in bytes of UTF-8, or with ``utf16`` in UTF-16
    units, as JavaScript counts.

    Raises ``Utf8Error`` where the document is not UTF-8 or a ``str`` with a lone surrogate, ``OptionsError`` where a
    construct is none, ``DepthError`` where the tree is nested too deep for Python's ``json``, and ``MemoryError``.

    >>> heading = parse("# Hi")["children"][0]
    >>> heading["depth"], heading["children"][0]["value"]
    (1, 'Hi')
    >>> parse("# Hi", constructs=["heading_setext"])["children"][0]["type"]
    'paragraph'
    """
    form = _library.JSON_UTF16 if utf16 else _library.JSON
    return _tree(_library.parse(_utf8(text), bits_of(constructs), form))


def outline(text: Document, *, constructs: Constructs = "everything") -> str:
    """The headings of a document, a line each.

    A line has two blanks for each level below the first, the text of the heading, and in parentheses the line and the
    column where it begins. Raises what ``parse`` raises, but for ``DepthError``.

    >>> print(outline("# Use\\n\\n## Events"), end="")
    Use (1:1)
      Events (3:1)
    """
    return _library.parse(_utf8(text), bits_of(constructs), _library.OUTLINE)


def plain_text(text: Document, *, constructs: Constructs = "everything") -> str:
    """The text of a document without its markup, each block on a line of its own, as for a search.

    Raises what ``parse`` raises, but for ``DepthError``.

    >>> plain_text("# Hi *Earth*!\\n\\nNext")
    'Hi Earth!\\nNext\\n'
    """
    return _library.parse(_utf8(text), bits_of(constructs), _library.PLAIN_TEXT)


def html(
    text: Document, *, constructs: Constructs = "everything", unsafe: bool = False, tag_filter: bool = False
) -> str:
    """A document as HTML that is safe in a page, whoever wrote it.

    HTML of the document is left out, and so is an address whose scheme is not allowed: docs/HTML.md says what that means,
    and what it asks of the page around. With ``unsafe`` both pass, and what the document says runs in the page.
    ``tag_filter`` goes with ``unsafe``: the tags that GFM disallows are text, and the page is not safe either. Raises what
    ``parse`` raises, but for ``DepthError``, and ``ValueError`` where ``tag_filter`` stands alone.

    >>> html("*Hi* <b>[a](javascript:b)")
    '<p><em>Hi</em> <a href="">a</a></p>\\n'
    """
    if tag_filter and not unsafe:
        raise ValueError("tag_filter goes with unsafe alone")
    form = _library.FILTERED_HTML if tag_filter else _library.UNSAFE_HTML if unsafe else _library.HTML
    return _library.parse(_utf8(text), bits_of(constructs), form)


def walk(node: Node) -> Iterator[Node]:
    """A node and all nodes in it, each before those in it.

    >>> [node["value"] for node in walk(parse("a *b* c")) if node["type"] == "text"]
    ['a ', 'b', ' c']
    """
    waiting = [node]
    while waiting:
        node = waiting.pop()
        yield node
        waiting.extend(reversed(node.get("children", ())))


def compile(text: Document, event_lines: Document, references: Document = "") -> Node:
    """The syntax tree of a document, from the events of another tokenizer.

    ``event_lines`` has an event on each line, as docs/EVENTS.md says. ``references`` is a table of character
    references, with lines such as ``copy=©``; without one ``amp``, ``lt``, ``gt``, ``quot``, ``NewLine`` and numbers are
    known.

    Raises ``Refused`` where the events have no tree, ``UnreadLine`` where a line is no event, and otherwise what
    ``parse`` raises, but for ``OptionsError``.

    >>> tree = compile("Hi", "+Data 1:1:0\\n-Data 1:3:2\\n")
    >>> tree["children"][0]["value"]
    'Hi'
    """
    return _tree(_library.compile_events(_utf8(text), _utf8(event_lines), _utf8(references)))


def _utf8(text: Document) -> bytes:
    """The bytes of a text."""
    if not isinstance(text, str):
        return bytes(memoryview(text))
    try:
        return text.encode()
    except UnicodeEncodeError as error:
        message = f"character {error.start} is a lone surrogate, U+{ord(text[error.start]):04X}, which UTF-8 cannot write"
        raise Utf8Error(message, len(text[: error.start].encode())) from None


# How many levels of JSON are read at most, whatever the recursion limit is. Python's json calls itself for each level, and
# before Python 3.12 a high limit lets it use up the stack.
_LEVELS = 10_000

_TOKEN = re.compile(r'"(?:[^"\\]|\\.)*"|[\[{]|[\]}]')


def _tree(text: str) -> Node:
    """The tree that a text in JSON says."""
    if sys.getrecursionlimit() > _LEVELS and _levels(text) > _LEVELS:
        raise DepthError(f"the tree is nested deeper than the {_LEVELS} levels of JSON that are read")
    try:
        tree: Node = json.loads(text)
    except RecursionError:
        raise DepthError("the tree is nested deeper than Python's json reads") from None
    return tree


def _levels(text: str) -> int:
    """How many arrays and objects of a text in JSON stand in one another."""
    level = most = 0
    for token in _TOKEN.finditer(text):
        if token[0] in "[{":
            level += 1
            most = max(most, level)
        elif token[0] in "]}":
            level -= 1
    return most
