"""What the package raises."""

from __future__ import annotations

from typing import Optional


class Error(Exception):
    """What this package raises, but for ``MemoryError``."""


class OptionsError(Error, ValueError):
    """A construct that is none."""


class Utf8Error(Error, ValueError):
    """A text that is not UTF-8, or a ``str`` that cannot be written as UTF-8.

    ``offset`` counts bytes from 0, and is that of the first byte that begins no character. In a ``str`` it is that of
    the first lone surrogate, in the UTF-8 of what stands before it. Of a table of references it is ``None``.
    """

    def __init__(self, message: str, offset: Optional[int] = None) -> None:
        super().__init__(message, offset)
        self.message = message
        self.offset = offset

    def __str__(self) -> str:
        return self.message


class DepthError(Error, RecursionError):
    """A tree that is nested deeper than Python's ``json`` reads. docs/PYTHON.md says how deep that is."""


class Refused(Error):
    """Events that have no tree.

    ``rule`` is an identifier for programs and ``reason`` a sentence for people; docs/REFUSALS.md has both. ``line`` and
    ``column`` count from 1, and ``offset`` counts bytes from 0.
    """

    def __init__(self, rule: str, reason: str, line: int, column: int, offset: int) -> None:
        super().__init__(rule, reason, line, column, offset)
        self.rule = rule
        self.reason = reason
        self.line = line
        self.column = column
        self.offset = offset

    def __str__(self) -> str:
        return f"{self.line}:{self.column} ({self.offset}): {self.reason} ({self.rule})"


class UnreadLine(Error, ValueError):
    """A line that is neither empty nor an event. ``line`` is its number, counted from 1."""

    def __init__(self, line: int) -> None:
        super().__init__(line)
        self.line = line

    def __str__(self) -> str:
        return f"event line {self.line} cannot be read"


class LibraryNotFound(Error, ImportError):
    """The shared library is not there, or cannot be loaded."""
