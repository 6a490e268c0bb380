"""Documents with the events of their tokenizer, in shapes whose size can be chosen.

Each shape is a function of a size, the count of events that is wanted about, which gives a `Writer`.
"""


class Writer:
    """A document, and the event lines of it, written from front to end."""

    def __init__(self):
        self.lines = []
        self.parts = []
        self.line = 1
        self.column = 1
        self.index = 0

    def size(self):
        """How many events there are so far."""
        return len(self.lines)

    def events(self):
        """The event lines, as bytes."""
        return "".join(self.lines).encode()

    def document(self):
        """The bytes of the document."""
        return "".join(self.parts).encode()

    def enter(self, *names):
        """Begins spans, the outer ones first."""
        for name in names:
            self.lines.append(f"+{name} {self.line}:{self.column}:{self.index}\n")

    def exit(self, *names):
        """Ends spans, the inner ones first."""
        for name in names:
            self.lines.append(f"-{name} {self.line}:{self.column}:{self.index}\n")

    def put(self, text):
        """Writes characters of a line, which are ASCII."""
        self.parts.append(text)
        self.column += len(text)
        self.index += len(text)

    def span(self, name, text):
        """A span that holds these characters alone."""
        self.enter(name)
        self.put(text)
        self.exit(name)

    def ending(self, name="LineEnding"):
        """The end of a line, as a span."""
        self.enter(name)
        self.parts.append("\n")
        self.line += 1
        self.column = 1
        self.index += 1
        self.exit(name)

    def blank(self):
        """The end of a block, and a blank line."""
        self.ending()
        self.ending("BlankLineEnding")


# Text


def emphasis(writer, kind, sequence, text):
    """A run of text between two sequences."""
    writer.enter(kind)
    writer.span(f"{kind}Sequence", sequence)
    writer.enter(f"{kind}Text")
    writer.span("Data", text)
    writer.exit(f"{kind}Text")
    writer.span(f"{kind}Sequence", sequence)
    writer.exit(kind)


def code_text(writer, text):
    """Code in a line."""
    writer.enter("CodeText")
    writer.span("CodeTextSequence", "`")
    writer.span("CodeTextData", text)
    writer.span("CodeTextSequence", "`")
    writer.exit("CodeText")


def label(writer, opening, text):
    """The label of a link or an image."""
    writer.enter("Label", opening)
    if opening == "LabelImage":
        writer.span("LabelImageMarker", "!")
    writer.span("LabelMarker", "[")
    writer.exit(opening)
    writer.enter("LabelText")
    writer.span("Data", text)
    writer.exit("LabelText")
    writer.enter("LabelEnd")
    writer.span("LabelMarker", "]")
    writer.exit("LabelEnd", "Label")


def resource(writer, destination, title):
    """A destination and a title in parentheses."""
    writer.enter("Resource")
    writer.span("ResourceMarker", "(")
    writer.enter("ResourceDestination", "ResourceDestinationRaw", "ResourceDestinationString")
    writer.span("Data", destination)
    writer.exit("ResourceDestinationString", "ResourceDestinationRaw", "ResourceDestination")
    writer.span("SpaceOrTab", " ")
    writer.enter("ResourceTitle")
    writer.span("ResourceTitleMarker", '"')
    writer.enter("ResourceTitleString")
    writer.span("Data", title)
    writer.exit("ResourceTitleString")
    writer.span("ResourceTitleMarker", '"')
    writer.exit("ResourceTitle")
    writer.span("ResourceMarker", ")")
    writer.exit("Resource")


def reference(writer, text):
    """The name of a definition in brackets."""
    writer.enter("Reference")
    writer.span("ReferenceMarker", "[")
    writer.enter("ReferenceString")
    writer.span("Data", text)
    writer.exit("ReferenceString")
    writer.span("ReferenceMarker", "]")
    writer.exit("Reference")


def link(writer, text):
    """A link with a resource."""
    writer.enter("Link")
    label(writer, "LabelLink", text)
    resource(writer, "https://example.com/page", "a title")
    writer.exit("Link")


def image(writer, text):
    """An image with a resource."""
    writer.enter("Image")
    label(writer, "LabelImage", text)
    resource(writer, "picture.png", "a picture")
    writer.exit("Image")


def link_reference(writer, text, name):
    """A link to a definition."""
    writer.enter("Link")
    label(writer, "LabelLink", text)
    reference(writer, name)
    writer.exit("Link")


def character_escape(writer):
    """An asterisk after a backslash."""
    writer.enter("CharacterEscape")
    writer.span("CharacterEscapeMarker", "\\")
    writer.span("CharacterEscapeValue", "*")
    writer.exit("CharacterEscape")


# Blocks


def heading(writer, depth, text):
    """An ATX heading."""
    writer.enter("HeadingAtx")
    writer.span("HeadingAtxSequence", "#" * depth)
    writer.span("SpaceOrTab", " ")
    writer.enter("HeadingAtxText")
    writer.span("Data", text)
    writer.exit("HeadingAtxText", "HeadingAtx")
    writer.blank()


def long_paragraph(writer):
    """A paragraph of three lines with what stands in lines."""
    writer.enter("Paragraph")
    writer.span("Data", "A paragraph of a few lines, with ")
    emphasis(writer, "Emphasis", "*", "stressed")
    writer.span("Data", " words and ")
    emphasis(writer, "Strong", "**", "strong")
    writer.span("Data", " ones, and some code, ")
    code_text(writer, "fn main()")
    writer.span("Data", ",")
    writer.ending()
    writer.span("Data", "and ")
    link(writer, "a link")
    writer.span("Data", " and ")
    link_reference(writer, "another one", "name")
    writer.span("Data", " and ")
    image(writer, "a picture")
    writer.span("HardBreakEscape", "\\")
    writer.ending()
    writer.span("Data", "two ")
    character_escape(writer)
    writer.span("Data", " three, and so on to the end of the line.")
    writer.exit("Paragraph")
    writer.blank()


def short_paragraph(writer):
    """A paragraph of two lines of text."""
    writer.enter("Paragraph")
    writer.span("Data", "Most lines of most documents have nothing in them but words, and this")
    writer.ending()
    writer.span("Data", "is such a line.")
    writer.exit("Paragraph")
    writer.blank()


def item(writer, marker, text):
    """An item of a list, with a paragraph."""
    writer.enter("ListItem", "ListItemPrefix")
    if marker != "*":
        writer.span("ListItemValue", marker[:-1])
    writer.span("ListItemMarker", marker[-1])
    writer.span("SpaceOrTab", " ")
    writer.exit("ListItemPrefix")
    writer.enter("Paragraph")
    writer.span("Data", text)
    writer.exit("Paragraph", "ListItem")


def item_list(writer, kind, markers):
    """A list with an item for each marker."""
    writer.enter(kind)
    for number, marker in enumerate(markers):
        if number > 0:
            writer.ending()
        item(writer, marker, "one of the items")
    writer.exit(kind)
    writer.blank()


def fence(writer, info):
    """A fence of a block of code."""
    writer.enter("CodeFencedFence")
    writer.span("CodeFencedFenceSequence", "```")
    if info:
        writer.enter("CodeFencedFenceInfo")
        writer.span("Data", info)
        writer.exit("CodeFencedFenceInfo")
    writer.exit("CodeFencedFence")


def fenced_code(writer):
    """A block of code of four lines."""
    writer.enter("CodeFenced")
    fence(writer, "rust")
    for line in ["fn main() {", '    println!("hello");', "    // and more", "}"]:
        writer.ending()
        writer.span("CodeFlowChunk", line)
    writer.ending()
    fence(writer, None)
    writer.exit("CodeFenced")
    writer.blank()


def cell(writer, text):
    """A cell of a table."""
    writer.enter("GfmTableCell")
    writer.span("GfmTableCellDivider", "|")
    writer.span("SpaceOrTab", " ")
    writer.enter("GfmTableCellText")
    writer.span("Data", text)
    writer.exit("GfmTableCellText")
    writer.span("SpaceOrTab", " ")
    writer.exit("GfmTableCell")


def row(writer, texts):
    """A row of a table."""
    writer.enter("GfmTableRow")
    for text in texts:
        cell(writer, text)
    writer.exit("GfmTableRow")


def delimiter_cell(writer, colons):
    """A cell under the head of a table, with colons at its ends or not."""
    writer.enter("GfmTableDelimiterCell")
    writer.span("GfmTableCellDivider", "|")
    writer.span("SpaceOrTab", " ")
    writer.enter("GfmTableDelimiterCellValue")
    if colons[0]:
        writer.span("GfmTableDelimiterMarker", ":")
    writer.span("GfmTableDelimiterFiller", "---")
    if colons[1]:
        writer.span("GfmTableDelimiterMarker", ":")
    writer.exit("GfmTableDelimiterCellValue")
    writer.span("SpaceOrTab", " ")
    writer.exit("GfmTableDelimiterCell")


def table(writer):
    """A table of a head, three columns and two rows more."""
    writer.enter("GfmTable", "GfmTableHead")
    row(writer, ["name", "size", "note"])
    writer.ending()
    writer.enter("GfmTableDelimiterRow")
    for colons in [(False, False), (False, True), (True, True)]:
        delimiter_cell(writer, colons)
    writer.exit("GfmTableDelimiterRow", "GfmTableHead")
    writer.ending()
    writer.enter("GfmTableBody")
    row(writer, ["a", "10", "the first"])
    writer.ending()
    row(writer, ["b", "200", "the second"])
    writer.exit("GfmTableBody", "GfmTable")
    writer.blank()


def quote(writer):
    """A block quote with a paragraph."""
    writer.enter("BlockQuote")
    quote_prefix(writer)
    writer.enter("Paragraph")
    writer.span("Data", "What somebody said.")
    writer.exit("Paragraph", "BlockQuote")
    writer.blank()


def quote_prefix(writer):
    """What stands before the content of a block quote."""
    writer.enter("BlockQuotePrefix")
    writer.span("BlockQuoteMarker", ">")
    writer.span("SpaceOrTab", " ")
    writer.exit("BlockQuotePrefix")


def definition(writer, name="name"):
    """What a reference with this name leads to."""
    writer.enter("Definition", "DefinitionLabel")
    writer.span("DefinitionLabelMarker", "[")
    writer.enter("DefinitionLabelString")
    writer.span("Data", name)
    writer.exit("DefinitionLabelString")
    writer.span("DefinitionLabelMarker", "]")
    writer.exit("DefinitionLabel")
    writer.span("DefinitionMarker", ":")
    writer.span("SpaceOrTab", " ")
    writer.enter("DefinitionDestination", "DefinitionDestinationRaw", "DefinitionDestinationString")
    writer.span("Data", "https://example.com/name")
    writer.exit("DefinitionDestinationString", "DefinitionDestinationRaw", "DefinitionDestination")
    writer.exit("Definition")
    writer.blank()


# Shapes


def ordinary(size):
    """Sections of all that stands in ordinary documents, as a tokenizer of CommonMark with tables gives it."""
    writer = Writer()
    while writer.size() < size:
        heading(writer, 2, "A section")
        long_paragraph(writer)
        short_paragraph(writer)
        item_list(writer, "ListUnordered", ["*", "*", "*"])
        short_paragraph(writer)
        heading(writer, 3, "A part of it")
        fenced_code(writer)
        item_list(writer, "ListOrdered", ["1.", "2."])
        long_paragraph(writer)
        table(writer)
        quote(writer)
        short_paragraph(writer)
        definition(writer)
    return writer


def paragraphs(size):
    """Paragraphs of one data span each, with nothing between them."""
    writer = Writer()
    while writer.size() < size:
        writer.enter("Paragraph")
        writer.span("Data", "ab")
        writer.exit("Paragraph")
        writer.parts.append("\n\n")
        writer.line += 2
        writer.column = 1
        writer.index += 2
    return writer


def text(size):
    """One paragraph of many lines, each of a data span, an escape and a data span: one text, which grows."""
    writer = Writer()
    writer.enter("Paragraph")
    while writer.size() < size:
        writer.span("Data", "some words ")
        character_escape(writer)
        writer.span("Data", " and more")
        writer.ending()
    writer.exit("Paragraph")
    return writer


def tables(size):
    """Tables of one row and two cells without a delimiter row, so that no column has an alignment."""
    writer = Writer()
    while writer.size() < size:
        writer.enter("GfmTable", "GfmTableHead")
        row(writer, ["a", "b"])
        writer.exit("GfmTableHead", "GfmTable")
        writer.blank()
    return writer


def quote_tower(writer, depth):
    """Block quotes in one another, all in one line."""
    for _ in range(depth):
        writer.enter("BlockQuote")
        quote_prefix(writer)
    writer.enter("Paragraph")
    writer.span("Data", "a")
    writer.exit("Paragraph")
    writer.exit(*["BlockQuote"] * depth)


def list_tower(writer, depth):
    """Lists of one item in one another, all in one line."""
    for _ in range(depth):
        writer.enter("ListUnordered", "ListItem", "ListItemPrefix")
        writer.span("ListItemMarker", "*")
        writer.span("SpaceOrTab", " ")
        writer.exit("ListItemPrefix")
    writer.enter("Paragraph")
    writer.span("Data", "a")
    writer.exit("Paragraph")
    writer.exit(*["ListItem", "ListUnordered"] * depth)


def plain_tower(writer, depth):
    """Plain spans in one another, with a break at both ends of each."""
    for _ in range(depth):
        writer.enter("Content")
        writer.span("ThematicBreak", "***")
    for _ in range(depth):
        writer.span("ThematicBreak", "***")
        writer.exit("Content")


def label_tower(name):
    """Links or images, by their name, that refer to their labels, each in the label of the next with a letter of its own."""

    def tower(writer, depth):
        for _ in range(depth):
            writer.enter(name)
            writer.span("LabelMarker", "[")
            writer.enter("LabelText")
            writer.span("Data", "a")
        for _ in range(depth):
            writer.exit("LabelText")
            writer.span("LabelMarker", "]")
            writer.exit(name)

    return tower


def nest(outer, level, inner):
    """A tower of spans of one byte, by their names: outer ones, levels with nothing else in them, and inner ones."""

    def tower(writer, depth):
        names = [*outer, *level * depth, *inner]
        writer.enter(*names)
        writer.put("a")
        writer.exit(*reversed(names))

    return tower


quote_nest = nest([], ["BlockQuote"], ["Paragraph", "Data"])
list_nest = nest([], ["ListUnordered", "ListItem"], ["Paragraph", "Data"])
emphasis_nest = nest(["Paragraph"], ["Emphasis"], ["Data"])
label_nest = nest(["Image", "LabelText"], ["Emphasis"], ["Data"])


def towers(tower, depth):
    """Ten towers of a depth, one after the other."""
    writer = Writer()
    for _ in range(10):
        tower(writer, depth)
        writer.blank()
    return writer


def quotes(size):
    """Block quotes in one another, in ten towers: eight events a level."""
    return towers(quote_tower, size // 80)


def lists(size):
    """Lists in one another, in ten towers: ten events a level."""
    return towers(list_tower, size // 100)


def plain(size):
    """Plain spans in one another, in ten towers: six events a level."""
    return towers(plain_tower, size // 60)


def labels(size):
    """Links in one another, in ten towers: ten events a level."""
    return towers(label_tower("Link"), size // 100)


def images(size):
    """Images in one another, in ten towers: ten events a level."""
    return towers(label_tower("Image"), size // 100)


def references(count):
    """So many paragraphs with a reference each, and then a definition for each of them, in another order."""
    writer = Writer()
    for number in range(count):
        writer.enter("Paragraph")
        link_reference(writer, "text", f"name{number}")
        writer.exit("Paragraph")
        writer.blank()
    for number in range(count):
        definition(writer, f"name{number * 7919 % count}")
    return writer
