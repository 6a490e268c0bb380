"""The calls of the shared library, as include/mdast.h declares them."""

from __future__ import annotations

import ctypes
import ctypes.util
import functools
import os
from pathlib import Path
from typing import Callable, NamedTuple

from ._errors import LibraryNotFound, OptionsError, Refused, UnreadLine, Utf8Error

TREE, REFUSED, UNREAD, MEMORY, TABLE, TEXT, OPTIONS, UNSET = range(8)
JSON, JSON_UTF16, OUTLINE, PLAIN_TEXT, HTML, UNSAFE_HTML, FILTERED_HTML = range(7)

HELP = (
    "get libmdast.so by scripts/install PREFIX in the repository of mdast, and set MDAST_LIBRARY to "
    "PREFIX/lib/libmdast.so"
)


class Text(ctypes.Structure):
    """A pointer and a length in bytes. The pointer is not null."""

    _fields_ = [("bytes", ctypes.POINTER(ctypes.c_char)), ("length", ctypes.c_size_t)]

    def read(self) -> str:
        return self.bytes[: self.length].decode()


class Outcome(ctypes.Structure):
    """What a call comes to."""

    _fields_ = [
        ("status", ctypes.c_uint32),
        ("text", Text),
        ("rule", Text),
        ("reason", Text),
        ("line", ctypes.c_size_t),
        ("column", ctypes.c_size_t),
        ("offset", ctypes.c_size_t),
    ]


EMPTY = ctypes.create_string_buffer(1)  # what the texts of a new outcome point to


def new_outcome() -> Outcome:
    """An outcome to begin with, as MDAST_OUTCOME_INIT."""
    text = Text(ctypes.cast(EMPTY, ctypes.POINTER(ctypes.c_char)), 0)
    return Outcome(UNSET, text, text, text, 0, 0, 0)


class Library(NamedTuple):
    """The functions of the shared library, and ``free`` of the C library from which it allocates."""

    parse: Callable[..., None]
    compile: Callable[..., None]
    free: Callable[..., None]


def opened(name: str, why: str) -> Library:
    """The shared library with this name. ``why`` says where the name comes from."""
    try:
        shared = ctypes.CDLL(name)
        parse, compile_events = shared.mdast_parse, shared.mdast_compile
    except (OSError, AttributeError) as error:
        raise LibraryNotFound(f"cannot load {name}, {why}: {error}; {HELP}") from error
    text = [ctypes.c_char_p, ctypes.c_size_t]
    outcome = [ctypes.POINTER(Outcome)]
    parse.restype = compile_events.restype = None
    parse.argtypes = text + [ctypes.c_uint32, ctypes.c_uint32] + outcome
    compile_events.argtypes = text * 3 + outcome
    free = ctypes.CDLL(None).free
    free.restype = None
    free.argtypes = [ctypes.c_void_p]
    return Library(parse, compile_events, free)


@functools.lru_cache(maxsize=None)
def library() -> Library:
    """The shared library: the one that MDAST_LIBRARY names, the one beside this package, or the system's."""
    named = os.environ.get("MDAST_LIBRARY")
    if named:
        return opened(named, "which MDAST_LIBRARY names")
    beside = Path(__file__).with_name("libmdast.so")
    if beside.exists():
        return opened(str(beside), "which lies beside the package mdast")
    found = ctypes.util.find_library("mdast")
    if found:
        return opened(found, "which the system's loader names")
    raise LibraryNotFound(f"there is no libmdast.so; {HELP}")


def parse(document: bytes, constructs: int, form: int) -> str:
    """A form of the tree of a document."""
    calls = library()
    outcome = new_outcome()
    calls.parse(document, len(document), constructs, form, ctypes.byref(outcome))
    return taken(calls, outcome)


def compile_events(document: bytes, event_lines: bytes, references: bytes) -> str:
    """The tree of a document as JSON, from its event lines."""
    calls = library()
    outcome = new_outcome()
    texts = (document, len(document), event_lines, len(event_lines), references, len(references))
    calls.compile(*texts, ctypes.byref(outcome))
    return taken(calls, outcome)


def taken(calls: Library, outcome: Outcome) -> str:
    """The text of an outcome, which is given back, or the exception for its status."""
    status = outcome.status
    if status == TREE:
        try:
            return outcome.text.read()
        finally:
            calls.free(outcome.text.bytes)
    if status == MEMORY:
        raise MemoryError
    if status == REFUSED:
        place = (outcome.line, outcome.column, outcome.offset)
        raise Refused(outcome.rule.read(), outcome.reason.read(), *place)
    if status == UNREAD:
        raise UnreadLine(outcome.line)
    if status == TEXT:
        raise Utf8Error(f"byte {outcome.offset} of the document begins no character of UTF-8", outcome.offset)
    if status == TABLE:
        raise Utf8Error("the table of references is not UTF-8")
    raise OptionsError("the library does not know these constructs or this form")
