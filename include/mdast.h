/*
 * The syntax tree of a markdown document, for C and C++. A whole program, which prints the tree as JSON:
 *
 *     #include <stdio.h>
 *     #include <string.h>
 *     #include <mdast.h>
 *
 *     int main(void) {
 *         const char *document = "# Hi *Earth*!\n";
 *         mdast_outcome outcome = MDAST_OUTCOME_INIT;
 *         mdast_parse((const uint8_t *)document, strlen(document), MDAST_EVERYTHING, MDAST_FORM_JSON, &outcome);
 *         if (outcome.status == MDAST_TREE)
 *             fwrite(outcome.text.bytes, 1, outcome.text.length, stdout);
 *         int status = (int)outcome.status;
 *         mdast_outcome_free(&outcome);
 *         return status;
 *     }
 *
 * After scripts/install it is built by: cc hi.c $(pkg-config --cflags --libs mdast). docs/C.md tells more.
 *
 * Lengths and offsets count bytes, offsets from 0. Lines and columns count from 1.
 */
#ifndef MDAST_H
#define MDAST_H

#include <stddef.h>
#include <stdint.h>
#include <stdlib.h>

#ifdef __cplusplus
extern "C" {
#endif

/* A text: so many bytes at a pointer, which is not null even where there are none. It does not end with a byte 0. */
typedef struct mdast_text {
    const uint8_t *bytes;
    size_t length;
} mdast_text;

/* What a status says. */
enum {
    MDAST_TREE = 0,    /* The tree is in `text`, as JSON or in the form that was asked for. */
    MDAST_REFUSED = 1, /* The events are refused: `rule`, `reason`, and the place in `line`, `column`, `offset`. */
    MDAST_UNREAD = 2,  /* The event line with the number `line` is the first one that cannot be read. */
    MDAST_MEMORY = 3,  /* Memory ran out. */
    MDAST_TABLE = 4,   /* The table of references is not UTF-8. */
    MDAST_TEXT = 5,    /* The document is not UTF-8: the byte at `offset` is the first one that begins no character. */
    MDAST_OPTIONS = 6, /* `constructs` has a bit that is of no construct, or `form` is no form. */
    MDAST_UNSET = 7    /* No call has set the outcome yet. */
};

/* What a call comes to. What a status does not say is an empty text or 0. */
typedef struct mdast_outcome {
    /* One of the statuses above. mdast_parse and mdast_html give 0, 3, 5 and 6, and mdast_compile 0 to 4. */
    uint32_t status;
    /* With MDAST_TREE what was asked for, in UTF-8. It may be empty. It is the caller's, who gives it back by
     * mdast_outcome_free, or by free((void *)text.bytes), also where it is empty. */
    mdast_text text;
    /* With MDAST_REFUSED the rule that is violated, such as slice-invalid. A constant, which is never freed. */
    mdast_text rule;
    /* With MDAST_REFUSED what is wrong, as a sentence for people. A constant, which is never freed. */
    mdast_text reason;
    /* With MDAST_REFUSED the line of the place, with MDAST_UNREAD the number of the event line. Counted from 1. */
    size_t line;
    /* With MDAST_REFUSED the column of the place, counted from 1. */
    size_t column;
    /* With MDAST_REFUSED the place, and with MDAST_TEXT the first byte that begins no character: so many bytes of the
     * document come before it. */
    size_t offset;
} mdast_outcome;

/* An outcome to begin with: its texts are empty, at pointers that are not null, and nothing in it is to be freed. */
#define MDAST_NO_TEXT {(const uint8_t *)"", 0}
#define MDAST_OUTCOME_INIT {MDAST_UNSET, MDAST_NO_TEXT, MDAST_NO_TEXT, MDAST_NO_TEXT, 0, 0, 0}

/*
 * The constructs that a document is read with: a bit for each, to be joined by | and left out by & ~, as in
 * MDAST_GFM & ~MDAST_HTML_FLOW & ~MDAST_HTML_TEXT.
 */
enum {
    MDAST_ATTENTION = 1 << 0,                 /* Emphasis and strong emphasis: *a*, **a**. */
    MDAST_AUTOLINK = 1 << 1,                  /* Autolinks in angle brackets: <https://a.b>. */
    MDAST_BLOCK_QUOTE = 1 << 2,               /* Block quotes: > a. */
    MDAST_CHARACTER_ESCAPE = 1 << 3,          /* Escapes of punctuation: a backslash before it. */
    MDAST_CHARACTER_REFERENCE = 1 << 4,       /* Character references: &amp;. */
    MDAST_CODE_INDENTED = 1 << 5,             /* Code that is indented by four columns. */
    MDAST_CODE_FENCED = 1 << 6,               /* Code between fences of backticks or tildes. */
    MDAST_CODE_TEXT = 1 << 7,                 /* Code in a text: `a`. */
    MDAST_DEFINITION = 1 << 8,                /* Definitions of links: [a]: b. */
    MDAST_FRONTMATTER = 1 << 9,               /* Frontmatter at the start, between lines of --- or +++. */
    MDAST_GFM_AUTOLINK_LITERAL = 1 << 10,     /* Addresses as they are: www.a.b, a@b.c. */
    MDAST_GFM_FOOTNOTE_DEFINITION = 1 << 11,  /* Definitions of footnotes: [^a]: b. */
    MDAST_GFM_LABEL_START_FOOTNOTE = 1 << 12, /* Calls of footnotes: [^a]. */
    MDAST_GFM_STRIKETHROUGH = 1 << 13,        /* Struck text: ~a~, ~~a~~. */
    MDAST_GFM_TABLE = 1 << 14,                /* Tables. */
    MDAST_GFM_TASK_LIST_ITEM = 1 << 15,       /* Marks of tasks: * [x] a. */
    MDAST_HARD_BREAK_ESCAPE = 1 << 16,        /* A hard break by a backslash at the end of a line. */
    MDAST_HARD_BREAK_TRAILING = 1 << 17,      /* A hard break by two spaces at the end of a line. */
    MDAST_HEADING_ATX = 1 << 18,              /* Headings that begin with number signs: # a. */
    MDAST_HEADING_SETEXT = 1 << 19,           /* Headings with a line of = or - under them. */
    MDAST_HTML_FLOW = 1 << 20,                /* Blocks of HTML. */
    MDAST_HTML_TEXT = 1 << 21,                /* HTML in a text. */
    MDAST_LABEL_START_IMAGE = 1 << 22,        /* The start of an image: ![. */
    MDAST_LABEL_START_LINK = 1 << 23,         /* The start of a link: [. */
    MDAST_LABEL_END = 1 << 24,                /* The end of a link, an image or a call of a footnote: ]. */
    MDAST_LIST_ITEM = 1 << 25,                /* Items of lists: * a, 1. a. */
    MDAST_MATH_FLOW = 1 << 26,                /* Math between fences of dollars. */
    MDAST_MATH_TEXT = 1 << 27,                /* Math in a text: $a$. */
    MDAST_THEMATIC_BREAK = 1 << 28,           /* Thematic breaks: ***. */

    /* Those of CommonMark. */
    MDAST_COMMONMARK = MDAST_ATTENTION | MDAST_AUTOLINK | MDAST_BLOCK_QUOTE | MDAST_CHARACTER_ESCAPE |
                       MDAST_CHARACTER_REFERENCE | MDAST_CODE_INDENTED | MDAST_CODE_FENCED | MDAST_CODE_TEXT |
                       MDAST_DEFINITION | MDAST_HARD_BREAK_ESCAPE | MDAST_HARD_BREAK_TRAILING | MDAST_HEADING_ATX |
                       MDAST_HEADING_SETEXT | MDAST_HTML_FLOW | MDAST_HTML_TEXT | MDAST_LABEL_START_IMAGE |
                       MDAST_LABEL_START_LINK | MDAST_LABEL_END | MDAST_LIST_ITEM | MDAST_THEMATIC_BREAK,
    /* Those of CommonMark and of GFM. */
    MDAST_GFM = MDAST_COMMONMARK | MDAST_GFM_AUTOLINK_LITERAL | MDAST_GFM_FOOTNOTE_DEFINITION |
                MDAST_GFM_LABEL_START_FOOTNOTE | MDAST_GFM_STRIKETHROUGH | MDAST_GFM_TABLE | MDAST_GFM_TASK_LIST_ITEM,
    /* Those of GFM, frontmatter and math. */
    MDAST_EVERYTHING = MDAST_GFM | MDAST_FRONTMATTER | MDAST_MATH_FLOW | MDAST_MATH_TEXT
};

/* What is written of a tree. */
enum {
    /* JSON on one line, with the names and fields of mdast. Columns and offsets count bytes. */
    MDAST_FORM_JSON = 0,
    /* The same, but columns and offsets count UTF-16 units, as programs in JavaScript do. */
    MDAST_FORM_JSON_UTF16 = 1,
    /* The headings, a line each: two blanks for each level below the first, the text, and line and column in parentheses. */
    MDAST_FORM_OUTLINE = 2,
    /* The text without its markup, each block on a line of its own. */
    MDAST_FORM_PLAIN_TEXT = 3,
    /* HTML that is safe in a page, whoever wrote the document: docs/HTML.md says what that means. HTML of the document is left
     * out, and so is an address whose scheme is not allowed. Each id begins with user-content-. */
    MDAST_FORM_HTML = 4,
    /* HTML with that of the document, and with addresses of any scheme: what the document says runs in the page. */
    MDAST_FORM_UNSAFE_HTML = 5,
    /* The same, with the tags that GFM disallows as text: script, style, iframe and six more. It is not safe either. */
    MDAST_FORM_FILTERED_HTML = 6
};

/*
 * Parses a document, and gives its tree in a form. Every document in UTF-8 has a tree.
 *
 * document    the bytes of the document. They stay the caller's.
 * constructs  what it is read with: bits of the constructs, such as MDAST_EVERYTHING.
 * form        what is written of the tree: one of the forms.
 * outcome     what the call comes to: MDAST_TREE, MDAST_MEMORY, MDAST_TEXT or MDAST_OPTIONS. It is
 *             MDAST_OUTCOME_INIT, or what an earlier call left; each field is set anew, and nothing is freed, so that a
 *             text of an earlier call is to be freed before.
 *
 * What the caller owes, and nothing checks:
 * - No pointer is null, even where the length is 0. Each points to as many bytes as its length says.
 * - The outcome does not overlap the document, nobody else reads or writes it during the call, and nobody writes the
 *   document.
 * - malloc, realloc and free are those of one allocator. Memory is asked for by malloc and realloc alone.
 * - It is not called from a signal handler, nor in a forked child of a process with threads.
 *
 * Calls may run at the same time, each with an outcome of its own. The library keeps nothing from one call to the next.
 */
void mdast_parse(const uint8_t *document, size_t document_length, uint32_t constructs, uint32_t form,
                 mdast_outcome *outcome);

/*
 * Parses a document, and gives it as HTML that is safe in a page: the same as mdast_parse with MDAST_FORM_HTML.
 */
void mdast_html(const uint8_t *document, size_t document_length, uint32_t constructs, mdast_outcome *outcome);

/*
 * Compiles the tree of a document from the events of another tokenizer, as JSON.
 *
 * document     the bytes of the document.
 * event_lines  its events, one on a line: docs/EVENTS.md has their form.
 * references   a table of character references: lines of name=text, in UTF-8, without & and ; (copy=©). An empty table
 *              leaves amp, lt, gt, quot, NewLine and numbers, which are always known.
 * outcome      what the call comes to: MDAST_TREE, MDAST_REFUSED, MDAST_UNREAD, MDAST_MEMORY or MDAST_TABLE.
 *
 * The caller owes what is said at mdast_parse, of each of the three texts.
 */
void mdast_compile(const uint8_t *document, size_t document_length,
                   const uint8_t *event_lines, size_t event_lines_length,
                   const uint8_t *references, size_t references_length,
                   mdast_outcome *outcome);

/*
 * Frees what an outcome holds: its text after MDAST_TREE, and nothing after another status. The outcome is then
 * MDAST_OUTCOME_INIT, so it may be freed twice, and be used for the next call.
 */
static inline void mdast_outcome_free(mdast_outcome *outcome) {
    static const mdast_outcome initial = MDAST_OUTCOME_INIT;
    if (outcome->status == MDAST_TREE)
        free((void *)outcome->text.bytes);
    *outcome = initial;
}

#ifdef __cplusplus
}
#endif

#endif
