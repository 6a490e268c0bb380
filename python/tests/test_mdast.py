"""Tests of the package mdast over the library that MDAST_LIBRARY names. All expected trees were worked by hand."""

import doctest
import os
import pickle
import re
import subprocess
import sys
import tempfile
import threading
import unittest
from unittest import mock

import mdast
from mdast import _library
from mdast._constructs import bits_of


def point(line, column, offset):
    return {"line": line, "column": column, "offset": offset}


def placed(kind, start, end, **fields):
    """A node that lies from one point to another."""
    position = {"start": point(*start), "end": point(*end)}
    return {"type": kind, **fields, "position": position}


def on_line(kind, start, end, **fields):
    """A node on the first line, from one offset to another."""
    return placed(kind, (1, start + 1, start), (1, end + 1, end), **fields)


def root(length, *children):
    """The root of a document of one line with so many bytes."""
    return on_line("root", 0, length, children=list(children))


def paragraph(length, *children):
    """A document that is one paragraph on one line."""
    return root(length, on_line("paragraph", 0, length, children=list(children)))


def kinds(tree):
    """The types of all nodes but the root."""
    return [node["type"] for node in mdast.walk(tree)][1:]


class Trees(unittest.TestCase):
    def test_a_heading(self):
        heading = on_line(
            "heading",
            0,
            13,
            depth=1,
            children=[
                on_line("text", 2, 5, value="Hi "),
                on_line("emphasis", 5, 12, children=[on_line("text", 6, 11, value="Earth")]),
                on_line("text", 12, 13, value="!"),
            ],
        )
        self.assertEqual(mdast.parse("# Hi *Earth*!"), root(13, heading))

    def test_two_lines(self):
        text = placed("text", (1, 1, 0), (2, 2, 3), value="a\nb")
        wanted = placed(
            "root",
            (1, 1, 0),
            (3, 1, 4),
            children=[placed("paragraph", (1, 1, 0), (2, 2, 3), children=[text])],
        )
        self.assertEqual(mdast.parse("a\nb\n"), wanted)

    def test_an_empty_document(self):
        self.assertEqual(mdast.parse(""), root(0))
        self.assertEqual(mdast.parse(b""), root(0))

    def test_bytes_and_str_are_the_same(self):
        self.assertEqual(mdast.parse("é €"), mdast.parse("é €".encode()))

    def test_a_byte_0_is_replaced(self):
        self.assertEqual(mdast.parse("a\0b"), paragraph(3, on_line("text", 0, 3, value="a\ufffdb")))

    def test_points_count_bytes(self):
        emphasis = on_line("emphasis", 5, 8, children=[on_line("text", 6, 7, value="a")])
        self.assertEqual(mdast.parse("😀 *a*"), paragraph(8, on_line("text", 0, 5, value="😀 "), emphasis))

    def test_points_count_units(self):
        emphasis = on_line("emphasis", 3, 6, children=[on_line("text", 4, 5, value="a")])
        wanted = paragraph(6, on_line("text", 0, 3, value="😀 "), emphasis)
        self.assertEqual(mdast.parse("😀 *a*", utf16=True), wanted)


class Declarations(unittest.TestCase):
    """What the package, include/mdast.h and the code say of the same thing."""

    TOP = os.path.join(os.path.dirname(os.path.abspath(__file__)), "..", "..")

    def contents(self, *path):
        with open(os.path.join(self.TOP, *path), encoding="utf-8") as file:
            return file.read()

    def test_constructs(self):
        header = re.findall(r"MDAST_(\w+) = 1 << (\d+),", self.contents("include", "mdast.h"))
        self.assertEqual(header, [(name.upper(), str(bit)) for bit, name in enumerate(mdast.CONSTRUCTS)])
        code = self.contents("crates", "markdown_options", "src", "lib.rt")
        fields = re.search(r"pub struct Constructs \{(.*?)\n\}", code, re.S)[1]
        self.assertEqual(re.findall(r"pub (\w+): bool,", fields), list(mdast.CONSTRUCTS))

    def test_sets_of_constructs(self):
        header = self.contents("include", "mdast.h")
        sets = {}
        for name in ["commonmark", "gfm", "everything"]:
            members = re.search(rf"MDAST_{name.upper()} = ([^,}}]*)", header)[1].split("|")
            members = [member.strip().removeprefix("MDAST_").lower() for member in members]
            sets[name] = set().union(*(sets.get(member, {member}) for member in members))
            self.assertEqual(bits_of(name), bits_of(sets[name]))
        code = self.contents("crates", "markdown_options", "src", "lib.rt")
        bodies = [re.search(rf"fn {name}\(\) -> Constructs\b(.*?)\n    \}}", code, re.S)[1] for name in ["default", "gfm"]]
        default, gfm = (set(re.findall(r"(\w+): true", body)) for body in bodies)
        self.assertEqual((sets["commonmark"], sets["gfm"]), (default, default | gfm))
        self.assertEqual(sets["everything"], set(mdast.CONSTRUCTS))

    def test_statuses_and_forms(self):
        header = dict(re.findall(r"MDAST_(\w+) = (\d+)\b(?! <<)", self.contents("include", "mdast.h")))
        statuses = ["TREE", "REFUSED", "UNREAD", "MEMORY", "TABLE", "TEXT", "OPTIONS", "UNSET"]
        forms = ["JSON", "JSON_UTF16", "OUTLINE", "PLAIN_TEXT", "HTML", "UNSAFE_HTML", "FILTERED_HTML"]
        wanted = {name: str(getattr(_library, name)) for name in statuses}
        wanted.update({f"FORM_{name}": str(getattr(_library, name)) for name in forms})
        self.assertEqual(header, wanted)


class Constructs(unittest.TestCase):
    def test_struck_text_is_of_gfm(self):
        struck = on_line("delete", 0, 5, children=[on_line("text", 2, 3, value="a")])
        self.assertEqual(mdast.parse("~~a~~"), paragraph(5, struck))
        self.assertEqual(mdast.parse("~~a~~", constructs="gfm"), paragraph(5, struck))
        plain = paragraph(5, on_line("text", 0, 5, value="~~a~~"))
        self.assertEqual(mdast.parse("~~a~~", constructs="commonmark"), plain)

    def test_math_is_of_everything(self):
        self.assertEqual(mdast.parse("$a$"), paragraph(3, on_line("inlineMath", 0, 3, value="a")))
        self.assertEqual(mdast.parse("$a$", constructs="gfm"), paragraph(3, on_line("text", 0, 3, value="$a$")))

    def test_frontmatter_is_of_everything(self):
        self.assertEqual(kinds(mdast.parse("---\na: b\n---")), ["yaml"])
        self.assertEqual(kinds(mdast.parse("---\na: b\n---", constructs="gfm")), ["thematicBreak", "heading", "text"])

    def test_sets_and_constructs_are_joined(self):
        document = "| a |\n| - |\n\n~~b~~"
        wanted = ["table", "tableRow", "tableCell", "text", "paragraph", "text"]
        self.assertEqual(kinds(mdast.parse(document, constructs=["commonmark", "gfm_table"])), wanted)
        self.assertEqual(kinds(mdast.parse(document, constructs="gfm_table")), wanted)
        self.assertEqual(kinds(mdast.parse("# a", constructs=[])), ["paragraph", "text"])

    def test_each_construct_alone(self):
        """Of each construct a document in which it alone makes the difference, with what else it needs."""
        examples = {
            "attention": ("*a*", "emphasis"),
            "autolink": ("<https://a.b>", "link"),
            "block_quote": ("> a", "blockquote"),
            "code_indented": ("    a", "code"),
            "code_fenced": ("```\na\n```", "code"),
            "code_text": ("`a`", "inlineCode"),
            "definition": ("[a]: b", "definition"),
            "frontmatter": ("---\na\n---", "yaml"),
            "gfm_autolink_literal": ("www.a.b", "link"),
            "gfm_footnote_definition": ("[^a]: b", "footnoteDefinition"),
            "gfm_strikethrough": ("~~a~~", "delete"),
            "gfm_table": ("| a |\n| - |", "table"),
            "hard_break_escape": ("a\\\nb", "break"),
            "hard_break_trailing": ("a  \nb", "break"),
            "heading_atx": ("# a", "heading"),
            "heading_setext": ("a\n=", "heading"),
            "html_flow": ("<!A", "html"),
            "html_text": ("a <b>", "html"),
            "list_item": ("* a", "list"),
            "math_flow": ("$$\na\n$$", "math"),
            "math_text": ("$a$", "inlineMath"),
            "thematic_break": ("***", "thematicBreak"),
        }
        for construct, (document, kind) in examples.items():
            with self.subTest(construct=construct):
                self.assertIn(kind, kinds(mdast.parse(document, constructs=construct)))
                others = [name for name in mdast.CONSTRUCTS if name != construct]
                self.assertNotIn(kind, kinds(mdast.parse(document, constructs=others)))

    def test_constructs_that_need_others(self):
        def value(document, constructs):
            tree = mdast.parse(document, constructs=constructs)
            return [node["value"] for node in mdast.walk(tree) if "value" in node]

        self.assertEqual(value("\\*", "character_escape"), ["*"])
        self.assertEqual(value("\\*", []), ["\\*"])
        self.assertEqual(value("&amp;", "character_reference"), ["&"])
        self.assertEqual(value("&amp;", []), ["&amp;"])
        self.assertIn("link", kinds(mdast.parse("[a](b)", constructs=["label_start_link", "label_end"])))
        self.assertNotIn("link", kinds(mdast.parse("[a](b)", constructs=["label_start_link"])))
        self.assertIn("image", kinds(mdast.parse("![a](b)", constructs=["label_start_image", "label_end"])))
        self.assertNotIn("image", kinds(mdast.parse("![a](b)", constructs=["label_start_link", "label_end"])))
        call = "[^a]\n\n[^a]: b"
        needed = ["gfm_label_start_footnote", "label_end", "gfm_footnote_definition"]
        self.assertIn("footnoteReference", kinds(mdast.parse(call, constructs=needed)))
        self.assertNotIn("footnoteReference", kinds(mdast.parse(call, constructs=needed[1:])))
        task = mdast.parse("* [x] a", constructs=["list_item", "gfm_task_list_item"])
        self.assertIs(task["children"][0]["children"][0]["checked"], True)
        task = mdast.parse("* [x] a", constructs=["list_item"])
        self.assertIsNone(task["children"][0]["children"][0]["checked"])

    def test_a_construct_that_is_none(self):
        for constructs in ["tables", "", ["gfm", "tables"]]:
            with self.subTest(constructs=constructs):
                with self.assertRaises(mdast.OptionsError) as raised:
                    mdast.parse("a", constructs=constructs)
                self.assertIsInstance(raised.exception, ValueError)
                self.assertIsInstance(raised.exception, mdast.Error)

    def test_what_the_library_does_not_know(self):
        with self.assertRaises(mdast.OptionsError):
            _library.parse(b"a", 1 << 29, _library.JSON)
        with self.assertRaises(mdast.OptionsError):
            _library.parse(b"a", 0, _library.FILTERED_HTML + 1)


class Texts(unittest.TestCase):
    def test_an_outline(self):
        document = "# Use\n\n## *Ev*ents\n\n> # Quoted\n\nNo heading\n"
        self.assertEqual(mdast.outline(document), "Use (1:1)\n  Events (3:1)\nQuoted (5:3)\n")
        self.assertEqual(mdast.outline("a"), "")

    def test_a_plain_text(self):
        self.assertEqual(mdast.plain_text("# Hi *Earth*!\n\n* `a`\n* b"), "Hi Earth!\na\nb\n")
        self.assertEqual(mdast.plain_text(""), "")

    def test_html(self):
        self.assertEqual(mdast.html("# Hi *Earth*!"), "<h1>Hi <em>Earth</em>!</h1>\n")
        self.assertEqual(mdast.html(""), "")
        self.assertEqual(mdast.html("<b>a</b> [c](data:d)"), '<p>a <a href="">c</a></p>\n')
        self.assertEqual(mdast.html("<b>a</b> [c](data:d)", unsafe=True), '<p><b>a</b> <a href="data:d">c</a></p>\n')
        self.assertEqual(mdast.html("<b> <xmp>", unsafe=True, tag_filter=True), "<p><b> &lt;xmp></p>\n")
        with self.assertRaises(ValueError):
            mdast.html("a", tag_filter=True)
        self.assertEqual(mdast.html("~~a~~", constructs="commonmark"), "<p>~~a~~</p>\n")

    def test_constructs_count(self):
        self.assertEqual(mdast.outline("# a", constructs=[]), "")
        self.assertEqual(mdast.plain_text("~~a~~", constructs="commonmark"), "~~a~~\n")


class Walks(unittest.TestCase):
    def test_each_node_comes_before_those_in_it(self):
        tree = {"type": "root", "children": [{"type": "a", "children": [{"type": "b"}, {"type": "c"}]}, {"type": "d"}]}
        self.assertEqual([node["type"] for node in mdast.walk(tree)], ["root", "a", "b", "c", "d"])

    def test_a_deep_tree(self):
        tree = {"type": "leaf"}
        for _ in range(100_000):
            tree = {"type": "node", "children": [tree]}
        self.assertEqual(sum(1 for _ in mdast.walk(tree)), 100_001)


class Faults(unittest.TestCase):
    def test_bytes_that_are_not_utf8(self):
        for call in [mdast.parse, mdast.outline, mdast.plain_text, mdast.html]:
            with self.subTest(call=call), self.assertRaises(mdast.Utf8Error) as raised:
                call(b"a\xc3\xa9\xff")
            self.assertIsInstance(raised.exception, ValueError)
            self.assertEqual(raised.exception.offset, 3)
            self.assertEqual(str(raised.exception), "byte 3 of the document begins no character of UTF-8")

    def test_a_lone_surrogate(self):
        with self.assertRaises(mdast.Utf8Error) as raised:
            mdast.parse("é\ud800")
        self.assertEqual(raised.exception.offset, 2)
        self.assertEqual(str(raised.exception), "character 1 is a lone surrogate, U+D800, which UTF-8 cannot write")

    def test_what_is_no_text(self):
        with self.assertRaises(TypeError):
            mdast.parse(None)

    def test_want_of_memory(self):
        def without_memory(*arguments):
            arguments[-1]._obj.status = _library.MEMORY

        calls = _library.library()._replace(parse=without_memory)
        with mock.patch.object(_library, "library", lambda: calls), self.assertRaises(MemoryError):
            mdast.parse("a")

    def test_each_text_is_given_back_once(self):
        calls = _library.library()
        free = mock.Mock(side_effect=calls.free)
        with mock.patch.object(_library, "library", lambda: calls._replace(free=free)):
            mdast.parse("a")
            mdast.outline("a")
            with self.assertRaises(mdast.Utf8Error):
                mdast.parse(b"\xff")
        self.assertEqual(free.call_count, 2)

    def test_exceptions_can_be_pickled(self):
        refused = mdast.Refused("a", "b", 1, 2, 3)
        for error in [refused, mdast.Utf8Error("a", 1), mdast.UnreadLine(4), mdast.OptionsError("a")]:
            again = pickle.loads(pickle.dumps(error))
            self.assertEqual((type(again), str(again), vars(again)), (type(error), str(error), vars(error)))


class Depths(unittest.TestCase):
    """Block quotes in block quotes, each of which takes two levels of JSON."""

    def test_a_hundred_levels(self):
        self.assertEqual(kinds(mdast.parse("> " * 100 + "a")), ["blockquote"] * 100 + ["paragraph", "text"])

    def test_a_hundred_thousand_levels(self):
        with self.assertRaises(mdast.DepthError) as raised:
            mdast.parse(">" * 100_000)
        self.assertIsInstance(raised.exception, RecursionError)

    def test_a_hundred_thousand_levels_with_a_high_limit(self):
        """With such a limit Python's json would use up the stack."""
        program = (
            "import sys, mdast\n"
            "sys.setrecursionlimit(10_000_000)\n"
            "try:\n"
            "    mdast.parse('>' * 100_000)\n"
            "except mdast.DepthError as error:\n"
            "    print(error)\n"
        )
        done = subprocess.run([sys.executable, "-c", program], capture_output=True, text=True)
        self.assertEqual((done.returncode, done.stderr), (0, ""))
        self.assertIn("nested", done.stdout)

    def test_other_forms_have_no_limit(self):
        self.assertEqual(mdast.plain_text(">" * 100_000 + "a"), "a\n")


class Compiling(unittest.TestCase):
    EVENTS = "+Paragraph 1:1:0\n+Data 1:1:0\n-Data 1:3:2\n-Paragraph 1:3:2\n"

    def test_a_tree(self):
        self.assertEqual(mdast.compile("Hi", self.EVENTS), paragraph(2, on_line("text", 0, 2, value="Hi")))
        self.assertEqual(mdast.compile(b"Hi", self.EVENTS.encode(), b""), mdast.parse("Hi"))

    def test_a_refusal(self):
        with self.assertRaises(mdast.Refused) as raised:
            mdast.compile("Hi", self.EVENTS[: -len("-Paragraph 1:3:2\n")])
        error = raised.exception
        self.assertEqual((error.rule, error.line, error.column, error.offset), ("events-unbalanced", 1, 3, 2))
        self.assertEqual(error.reason, "an exit does not match the open span, or a span is left open")
        self.assertEqual(str(error), f"1:3 (2): {error.reason} (events-unbalanced)")

    def test_an_unread_line(self):
        with self.assertRaises(mdast.UnreadLine) as raised:
            mdast.compile("Hi", "+Data 1:1:0\n\n-Data 1:3\n")
        self.assertIsInstance(raised.exception, ValueError)
        self.assertEqual(raised.exception.line, 3)

    def test_a_table_of_references(self):
        events = (
            "+CharacterReference 1:1:0\n+CharacterReferenceMarker 1:1:0\n-CharacterReferenceMarker 1:2:1\n"
            "+CharacterReferenceValue 1:2:1\n-CharacterReferenceValue 1:6:5\n-CharacterReference 1:7:6\n"
        )
        self.assertEqual(mdast.compile("&copy;", events, "copy=©"), root(6, on_line("text", 0, 6, value="©")))
        with self.assertRaises(mdast.Refused):
            mdast.compile("&copy;", events)
        with self.assertRaises(mdast.Utf8Error) as raised:
            mdast.compile("&copy;", events, b"copy=\xa9")
        self.assertIsNone(raised.exception.offset)


class Threads(unittest.TestCase):
    def test_eight_threads(self):
        documents = ["# a\n\n> b", "| a |\n| - |", "$a$ *b* `c`", "é 😀", "", "* [x] a\n* b"]
        calls = [(call, document) for document in documents for call in (mdast.parse, mdast.outline, mdast.plain_text, mdast.html)]
        wanted = [call(document) for call, document in calls]
        faults = []

        def run(first):
            for number in range(first, first + 2000):
                call, document = calls[number % len(calls)]
                if call(document) != wanted[number % len(calls)]:
                    faults.append((call, document))

        threads = [threading.Thread(target=run, args=(first,)) for first in range(8)]
        for thread in threads:
            thread.start()
        for thread in threads:
            thread.join()
        self.assertEqual(faults, [])


class Loading(unittest.TestCase):
    """Each in a process of its own, since the library is loaded once."""

    def run_with(self, library, package=None):
        environment = {name: value for name, value in os.environ.items() if name != "MDAST_LIBRARY"}
        if library is not None:
            environment["MDAST_LIBRARY"] = library
        if package is not None:
            environment["PYTHONPATH"] = package
        program = (
            "import mdast\n"
            "try:\n"
            "    print(mdast.plain_text('a'), end='')\n"
            "except ImportError as error:\n"
            "    print(type(error).__name__, error)\n"
        )
        done = subprocess.run([sys.executable, "-c", program], env=environment, capture_output=True, text=True)
        self.assertEqual((done.returncode, done.stderr), (0, ""))
        return done.stdout

    def test_the_variable_names_the_library(self):
        self.assertEqual(self.run_with(os.environ["MDAST_LIBRARY"]), "a\n")

    def test_the_variable_names_no_library(self):
        said = self.run_with("/nowhere/libmdast.so")
        self.assertIn("LibraryNotFound cannot load /nowhere/libmdast.so, which MDAST_LIBRARY names", said)
        self.assertIn("scripts/install", said)

    def test_the_variable_names_another_library(self):
        with tempfile.NamedTemporaryFile(suffix=".so") as file:
            self.assertIn("LibraryNotFound", self.run_with(file.name))

    def test_the_library_lies_beside_the_package(self):
        source = os.path.dirname(os.path.abspath(mdast.__file__))
        with tempfile.TemporaryDirectory() as folder:
            package = os.path.join(folder, "mdast")
            os.mkdir(package)
            for name in os.listdir(source):
                if name.endswith(".py"):
                    os.symlink(os.path.join(source, name), os.path.join(package, name))
            os.symlink(os.environ["MDAST_LIBRARY"], os.path.join(package, "libmdast.so"))
            self.assertEqual(self.run_with(None, folder), "a\n")


def load_tests(loader, tests, pattern):
    tests.addTests(doctest.DocTestSuite(mdast))
    return tests


if __name__ == "__main__":
    unittest.main()
