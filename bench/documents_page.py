"""The table and the plot of what programs take for a document."""

import numbers_file

TITLES = ["Program", "Prints", "Instructions a byte", "Seconds", "MB/s", "Peak, MiB"]

# The colours of our program, and of the others.
OURS, OTHERS = "#1f77b4", "#7f7f7f"

# The size of the plot, where its bars begin and end, and the height of one.
WIDTH, LEFT, RIGHT, TOP, ROW = 870, 300, 810, 40, 22


def cells(row):
    """The cells of a program in the table."""
    numbers = [row.instructions, row.seconds, row.speed, row.peak]
    places = [1, 2, 1, 0]
    shown = ["" if number is None else f"{number:,.{place}f}" for number, place in zip(numbers, places)]
    if row.seconds is None:
        shown[1] = f"over {numbers_file.LIMIT}"
    return [f"`{row.program}` {row.version}".strip(), row.prints, *shown]


def table(files, size, rows):
    """The size of the document, the table with a line for each program, and the plot's place."""
    lines = [f"Files in the document: {files:,}. Bytes: {size:,}.", ""]
    lines += ["| " + " | ".join(TITLES) + " |", "|---" * len(TITLES) + "|"]
    lines += ["| " + " | ".join(cells(row)) + " |" for row in rows]
    lines += ["", "![Instructions a byte of each program](documents.svg)"]
    return "\n".join(lines)


# The columns of docs/COMPARISON.md after the first, with the programs whose instructions stand there.
COMPARED = [
    [("mdast --commonmark", "JSON"), ("mdast --commonmark --html", "HTML")],
    [("cmark --unsafe", "HTML"), ("cmark -t xml", "XML")],
    [],
    [],
    [("pulldown-cmark", "HTML")],
]
COMPARED_TITLE = "| Instructions for each byte of markdown |"


def compared(rows):
    """The line of docs/COMPARISON.md that has the instructions of each parser."""
    counted = {row.program: row.instructions for row in rows if row.instructions is not None}
    columns = ["; ".join(f"{counted[program]:.0f} to {form}" for program, form in column if program in counted) for column in COMPARED]
    return COMPARED_TITLE + "".join(f" {column} |" if column else " |" for column in columns)


def bar(at, row, most):
    """The bar of a program, after its name and what it prints, and before its number."""
    y, length = TOP + at * ROW, row.instructions / most * (RIGHT - LEFT)
    colour = OURS if row.program.split()[0] == "mdast" else OTHERS
    return [
        f'<text x="{LEFT - 8}" y="{y + 15}" text-anchor="end">{row.program}: {row.prints}</text>',
        f'<rect x="{LEFT}" y="{y + 3}" width="{length:.1f}" height="{ROW - 6}" fill="{colour}"/>',
        f'<text x="{LEFT + length + 6:.1f}" y="{y + 15}">{row.instructions:.1f}</text>',
    ]


def plot(rows):
    """The plot of the instructions that were counted, as SVG."""
    counted = [row for row in rows if row.instructions is not None]
    most = max((row.instructions for row in counted), default=1)
    bottom = TOP + len(counted) * ROW
    height = bottom + 10
    parts = [f'<svg xmlns="http://www.w3.org/2000/svg" width="{WIDTH}" height="{height}" font-family="sans-serif" font-size="12">']
    parts.append(f'<rect width="{WIDTH}" height="{height}" fill="white"/>')
    parts.append('<text x="10" y="24" font-weight="bold">Instructions a byte of the document: fewer are better</text>')
    for at, row in enumerate(counted):
        parts += bar(at, row, most)
    parts.append(f'<line x1="{LEFT}" y1="{TOP}" x2="{LEFT}" y2="{bottom}" stroke="#999"/>')
    return "\n".join([*parts, "</svg>", ""])
