#!/usr/bin/env python3
"""tree.py DOCUMENT: prints the tree of a markdown document as JSON, by the package mdast of python/."""

import json
import sys

import mdast


def main() -> None:
    if len(sys.argv) != 2:
        sys.exit("usage: tree.py DOCUMENT")
    with open(sys.argv[1], "rb") as file:
        tree = mdast.parse(file.read())
    print(json.dumps(tree, ensure_ascii=False, separators=(",", ":")))


if __name__ == "__main__":
    main()
