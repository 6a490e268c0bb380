"""The document that bench/documents measures: the markdown that a machine has, or the files that are named."""

import hashlib
import os
import sys

ROOT = os.path.dirname(os.path.dirname(os.path.realpath(__file__)))
HOME = os.path.expanduser("~")

# Where machines keep the pages of their programs, and where toolchains keep theirs in the home folder.
SHARED = ("/usr/share", "/usr/lib", "/usr/local", "/opt")
TOOLCHAINS = (".cargo/registry", ".rustup", ".nvm", ".pyenv", ".rbenv", ".local/lib", "go/pkg")

# A file is left out if it is longer, in bytes.
LONGEST = 1_000_000

# What stands between two files: a blank line.
BETWEEN = b"\n\n"


def package_folders(folder):
    """The outermost folders named `node_modules` below a folder, without looking into hidden ones."""
    for path, names, _ in os.walk(folder):
        if "node_modules" in names:
            yield os.path.join(path, "node_modules")
        names[:] = [name for name in names if name != "node_modules" and not name.startswith(".")]


def markdown_below(folder):
    """The paths of the markdown below a folder."""
    for path, _, names in os.walk(folder):
        yield from (os.path.join(path, name) for name in names if name.endswith((".md", ".markdown")))


def paths():
    """The paths of the machine's markdown in their order, without what is in this repository."""
    folders = [*SHARED, *(os.path.join(HOME, name) for name in TOOLCHAINS), *package_folders(HOME)]
    found = {os.path.realpath(path) for folder in folders for path in markdown_below(folder)}
    return sorted(path for path in found if not path.startswith(ROOT + os.sep))


def text_of(path):
    """The text of a file, if it can be read, is UTF-8 and is not too long, and otherwise none."""
    try:
        if not os.path.isfile(path) or os.path.getsize(path) > LONGEST:
            return b""
        with open(path, "rb") as file:
            text = file.read()
        text.decode()
    except (OSError, UnicodeDecodeError):
        return b""
    return text


def gathered(size):
    """The machine's markdown as one document, which ends with the file that brings it to a size, and how many files it has."""
    document, seen = bytearray(), set()
    for path in paths():
        text = text_of(path)
        digest = hashlib.sha256(text).digest()
        if text and digest not in seen:
            document += text + BETWEEN
            seen.add(digest)
        if len(document) >= size:
            break
    return bytes(document), len(seen)


def joined(names):
    """The named files as one document."""
    texts = []
    for name in names:
        try:
            with open(name, "rb") as file:
                texts.append(file.read())
        except OSError as error:
            sys.exit(f"bench: {error}")
    return BETWEEN.join(texts)
