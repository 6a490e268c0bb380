"""The constructs of markdown by their names."""

from __future__ import annotations

from typing import Dict, Iterable, Union

from ._errors import OptionsError

CONSTRUCTS = (
    "attention",
    "autolink",
    "block_quote",
    "character_escape",
    "character_reference",
    "code_indented",
    "code_fenced",
    "code_text",
    "definition",
    "frontmatter",
    "gfm_autolink_literal",
    "gfm_footnote_definition",
    "gfm_label_start_footnote",
    "gfm_strikethrough",
    "gfm_table",
    "gfm_task_list_item",
    "hard_break_escape",
    "hard_break_trailing",
    "heading_atx",
    "heading_setext",
    "html_flow",
    "html_text",
    "label_start_image",
    "label_start_link",
    "label_end",
    "list_item",
    "math_flow",
    "math_text",
    "thematic_break",
)
"""The constructs that a document may be read with, in the order of their bits."""

BITS: Dict[str, int] = {name: 1 << bit for bit, name in enumerate(CONSTRUCTS)}
EVERYTHING = (1 << len(CONSTRUCTS)) - 1
GFM = EVERYTHING & ~(BITS["frontmatter"] | BITS["math_flow"] | BITS["math_text"])
COMMONMARK = GFM & ~sum(bit for name, bit in BITS.items() if name.startswith("gfm_"))
BITS.update(commonmark=COMMONMARK, gfm=GFM, everything=EVERYTHING)


def bits_of(constructs: Union[str, Iterable[str]]) -> int:
    """The bits of constructs, which are given by their names, or by the names of sets of them."""
    bits = 0
    for name in [constructs] if isinstance(constructs, str) else constructs:
        bit = BITS.get(name)
        if bit is None:
            raise OptionsError(f"{name!r} is neither a construct nor one of 'commonmark', 'gfm' and 'everything'")
        bits |= bit
    return bits
