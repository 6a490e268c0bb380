"""The measured numbers that are kept: those of the last release, and those of the original.

A line of bench/numbers.tsv has a shape, how many events the list has, and the instructions an event of reading, compiling, printing and
dropping; one of bench/original.tsv has those of the original's compiling with dropping. The first line of bench/documents.tsv has the
files and bytes of a document, and each after it what a program takes for it.
"""

import os
from typing import NamedTuple, Optional

HERE = os.path.dirname(os.path.abspath(__file__))
RELEASED = os.path.join(HERE, "numbers.tsv")
ORIGINAL = os.path.join(HERE, "original.tsv")
DOCUMENTS = os.path.join(HERE, "documents.tsv")
HEAD = "# Instructions an event at the last release of these numbers, which `bench/run --release` writes.\n# shape\tevents\treading\tcompiling\tprinting\tdropping\n"
DOCUMENT_HEAD = "# A document at the last release of these numbers, which `bench/documents --release` writes.\n# files\tbytes\n"
PROGRAM_HEAD = "# program\tversion\tprints\tinstructions a byte\tseconds\tMB/s\tMiB\n"

# A program that takes more seconds for a document is not measured further.
LIMIT = 60


class Taken(NamedTuple):
    """What a program takes for a document: instructions a byte, seconds, millions of bytes a second, and peak memory in MiB."""

    program: str
    version: str
    prints: str
    instructions: Optional[float] = None
    seconds: Optional[float] = None
    speed: Optional[float] = None
    peak: Optional[float] = None


def rows(path):
    """The rows of a file, each as its words."""
    if not os.path.exists(path):
        return []
    with open(path) as file:
        return [line.rstrip("\n").split("\t") for line in file if not line.startswith("#")]


def released():
    """The instructions an event of each phase, by shape and events."""
    return {(shape, int(events)): [float(count) for count in counts] for shape, events, *counts in rows(RELEASED)}


def original():
    """The instructions an event of the original's compiling with dropping, by shape and events."""
    return {(shape, int(events)): float(count) for shape, events, count in rows(ORIGINAL)}


def documents():
    """The files and bytes of the document, and what each program takes for it, if there was a release of these."""
    kept = rows(DOCUMENTS)
    if not kept:
        return None
    taken = [Taken(*words[:3], *(float(number) if number else None for number in words[3:])) for words in kept[1:]]
    return int(kept[0][0]), int(kept[0][1]), taken


def write(numbers):
    """Keeps these as the numbers of the last release."""
    with open(RELEASED, "w") as file:
        file.write(HEAD)
        for (shape, events), counts in numbers.items():
            file.write("\t".join([shape, str(events), *(f"{count:.1f}" for count in counts)]) + "\n")


def write_documents(files, size, taken):
    """Keeps these as the numbers of the last release about a document."""
    with open(DOCUMENTS, "w") as file:
        file.write(f"{DOCUMENT_HEAD}{files}\t{size}\n{PROGRAM_HEAD}")
        for row in taken:
            file.write("\t".join([*row[:3], *("" if number is None else f"{number:.3f}" for number in row[3:])]) + "\n")
