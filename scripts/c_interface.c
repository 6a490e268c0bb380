/*
 * Calls the C interface, and compares what it says with what it must say. DOCUMENT is a document, and TREE its tree as
 * JSON, with a line feed: together one more example.
 *
 * c_interface DOCUMENT TREE statuses   each example twice, of which there is one for each status and form; all fields of
 *                                      the outcome are compared. Then a text cut at each of its bytes
 * c_interface DOCUMENT TREE calls N    N calls, and the peak of resident memory before and after them, which may grow by
 *                                      1 MB
 * c_interface DOCUMENT TREE threads    2,000 calls in each of 8 threads at once
 * c_interface DOCUMENT TREE once       each example once; the status is 3 where memory ran out for any of them
 */
#include <fcntl.h>
#include <pthread.h>
#include <stdio.h>
#include <stdlib.h>
#include <string.h>
#include <sys/resource.h>
#include <unistd.h>

#include "mdast.h"

#define THREADS 8
#define CALLS 2000

/* What goes in, and what must come out. A text that is left out is empty. */
struct example {
    const char *name, *document;
    size_t length;          /* of the document, if not up to its byte 0 */
    const char *event_lines; /* without them mdast_parse is called, and else mdast_compile */
    const char *references;
    uint32_t constructs, form;
    uint32_t status;
    const char *text, *rule, *reason;
    size_t line, column, offset;
};

#define POINT(line, column, offset) "{\"line\":" #line ",\"column\":" #column ",\"offset\":" #offset "}"
#define POSITION(start, end) "\"position\":{\"start\":" start ",\"end\":" end "}"
#define HI_POSITION POSITION(POINT(1, 1, 0), POINT(1, 3, 2))
#define COPY_POSITION POSITION(POINT(1, 1, 0), POINT(1, 7, 6))
#define HI_EVENTS "+Paragraph 1:1:0\n+Data 1:1:0\n-Data 1:3:2\n-Paragraph 1:3:2\n"
#define COPY_EVENTS \
    "+CharacterReference 1:1:0\n+CharacterReferenceMarker 1:1:0\n-CharacterReferenceMarker 1:2:1\n" \
    "+CharacterReferenceValue 1:2:1\n-CharacterReferenceValue 1:6:5\n-CharacterReference 1:7:6\n"
#define HI_TREE \
    "{\"type\":\"root\",\"children\":[{\"type\":\"paragraph\",\"children\":[{\"type\":\"text\",\"value\":\"Hi\"," HI_POSITION \
    "}]," HI_POSITION "}]," HI_POSITION "}"

/* A heading with a character of two bytes and one UTF-16 unit, and a paragraph. */
#define PARTS "# \xc3\xa9 *b*\n\nc\n"
#define PARTS_TREE(begin, marker, b, after, end, c, c_end, last) \
    "{\"type\":\"root\",\"children\":[{\"type\":\"heading\",\"depth\":1,\"children\":[" \
    "{\"type\":\"text\",\"value\":\"\xc3\xa9 \"," POSITION(begin, marker) "}," \
    "{\"type\":\"emphasis\",\"children\":[{\"type\":\"text\",\"value\":\"b\"," POSITION(b, after) "}]," POSITION(marker, end) "}]," \
    POSITION(POINT(1, 1, 0), end) "},{\"type\":\"paragraph\",\"children\":[{\"type\":\"text\",\"value\":\"c\"," \
    POSITION(c, c_end) "}]," POSITION(c, c_end) "}]," POSITION(POINT(1, 1, 0), last) "}"

/* `$a$` as math, and as a text. */
#define DOLLARS_POSITION POSITION(POINT(1, 1, 0), POINT(1, 4, 3))
#define DOLLARS_TREE(kind, value) \
    "{\"type\":\"root\",\"children\":[{\"type\":\"paragraph\",\"children\":[{\"type\":\"" kind "\",\"value\":\"" value "\"," \
    DOLLARS_POSITION "}]," DOLLARS_POSITION "}]," DOLLARS_POSITION "}"

static struct example examples[] = {
    {.name = "JSON", .document = PARTS, .constructs = MDAST_EVERYTHING, .form = MDAST_FORM_JSON, .status = MDAST_TREE,
     .text = PARTS_TREE(POINT(1, 3, 2), POINT(1, 6, 5), POINT(1, 7, 6), POINT(1, 8, 7), POINT(1, 9, 8), POINT(3, 1, 10),
                        POINT(3, 2, 11), POINT(4, 1, 12))},
    {.name = "JSON in UTF-16 units", .document = PARTS, .constructs = MDAST_EVERYTHING, .form = MDAST_FORM_JSON_UTF16,
     .status = MDAST_TREE,
     .text = PARTS_TREE(POINT(1, 3, 2), POINT(1, 5, 4), POINT(1, 6, 5), POINT(1, 7, 6), POINT(1, 8, 7), POINT(3, 1, 9),
                        POINT(3, 2, 10), POINT(4, 1, 11))},
    {.name = "outline", .document = PARTS, .constructs = MDAST_EVERYTHING, .form = MDAST_FORM_OUTLINE, .status = MDAST_TREE,
     .text = "\xc3\xa9 b (1:1)\n"},
    {.name = "plain text", .document = PARTS, .constructs = MDAST_EVERYTHING, .form = MDAST_FORM_PLAIN_TEXT,
     .status = MDAST_TREE, .text = "\xc3\xa9 b\nc\n"},
    {.name = "outline without headings", .document = "Hi", .constructs = MDAST_EVERYTHING, .form = MDAST_FORM_OUTLINE,
     .status = MDAST_TREE},
    {.name = "plain text of nothing", .document = "", .constructs = MDAST_EVERYTHING, .form = MDAST_FORM_PLAIN_TEXT,
     .status = MDAST_TREE},
    {.name = "HTML", .document = "*b* <i> [c](javascript:d)", .constructs = MDAST_EVERYTHING, .form = MDAST_FORM_HTML,
     .status = MDAST_TREE, .text = "<p><em>b</em>  <a href=\"\">c</a></p>\n"},
    {.name = "unsafe HTML", .document = "*b* <i>", .constructs = MDAST_EVERYTHING, .form = MDAST_FORM_UNSAFE_HTML,
     .status = MDAST_TREE, .text = "<p><em>b</em> <i></p>\n"},
    {.name = "filtered HTML", .document = "<i> <xmp>", .constructs = MDAST_EVERYTHING, .form = MDAST_FORM_FILTERED_HTML,
     .status = MDAST_TREE, .text = "<p><i> &lt;xmp></p>\n"},
    {.name = "no constructs", .document = "Hi", .constructs = 0, .form = MDAST_FORM_JSON, .status = MDAST_TREE, .text = HI_TREE},
    {.name = "math", .document = "$a$", .constructs = MDAST_EVERYTHING, .form = MDAST_FORM_JSON, .status = MDAST_TREE,
     .text = DOLLARS_TREE("inlineMath", "a")},
    {.name = "no math", .document = "$a$", .constructs = MDAST_GFM, .form = MDAST_FORM_JSON, .status = MDAST_TREE,
     .text = DOLLARS_TREE("text", "$a$")},
    {.name = "a byte 0", .document = "a\0b", .length = 3, .constructs = MDAST_EVERYTHING, .form = MDAST_FORM_PLAIN_TEXT,
     .status = MDAST_TREE, .text = "a\xef\xbf\xbd" "b\n"},
    {.name = "a document that is not UTF-8", .document = "a\xc3\xa9\xa9", .constructs = MDAST_EVERYTHING,
     .form = MDAST_FORM_JSON, .status = MDAST_TEXT, .offset = 3},
    {.name = "a surrogate", .document = "\xed\xa0\x80", .constructs = MDAST_EVERYTHING, .form = MDAST_FORM_JSON,
     .status = MDAST_TEXT},
    {.name = "a bit of no construct", .document = "Hi", .constructs = MDAST_EVERYTHING + 1u, .form = MDAST_FORM_JSON,
     .status = MDAST_OPTIONS},
    {.name = "the highest bit", .document = "Hi", .constructs = UINT32_C(1) << 31, .form = MDAST_FORM_JSON,
     .status = MDAST_OPTIONS},
    {.name = "no form", .document = "\xff", .constructs = MDAST_EVERYTHING, .form = MDAST_FORM_FILTERED_HTML + 1u,
     .status = MDAST_OPTIONS},
    {.name = "the last number", .document = "Hi", .constructs = MDAST_EVERYTHING, .form = UINT32_MAX, .status = MDAST_OPTIONS},
    {.name = "a tree of events", .document = "Hi", .event_lines = HI_EVENTS, .status = MDAST_TREE, .text = HI_TREE},
    {.name = "a name of the table", .document = "&copy;", .event_lines = COPY_EVENTS, .references = "copy=\xc2\xa9\n",
     .status = MDAST_TREE,
     .text = "{\"type\":\"root\",\"children\":[{\"type\":\"text\",\"value\":\"\xc2\xa9\"," COPY_POSITION "}]," COPY_POSITION "}"},
    {.name = "a name that no table has", .document = "&copy;", .event_lines = COPY_EVENTS, .status = MDAST_REFUSED,
     .rule = "reference-unknown", .reason = "the decoder does not know this reference", .line = 1, .column = 6, .offset = 5},
    {.name = "a refusal", .document = "Hi", .event_lines = "+Paragraph 1:1:0\n+Data 1:1:0\n-Paragraph 1:3:2\n",
     .status = MDAST_REFUSED, .rule = "events-unbalanced",
     .reason = "an exit does not match the open span, or a span is left open", .line = 1, .column = 3, .offset = 2},
    {.name = "an unread line", .document = "Hi", .event_lines = "+Data 1:1:0\n\n-Data 1:3\n", .status = MDAST_UNREAD, .line = 3},
    {.name = "a table that is not UTF-8", .document = "Hi", .event_lines = "+Data 1:1:0\n-Data 1:3:2\n",
     .references = "copy=\xa9\n", .status = MDAST_TABLE},
    /* the document of the command line */
    {.name = "the document", .constructs = MDAST_EVERYTHING, .form = MDAST_FORM_JSON, .status = MDAST_TREE},
};

#define COUNT (sizeof examples / sizeof examples[0])

/* The bytes of a text that ends with a byte 0. */
static const uint8_t *bytes(const char *text) {
    return (const uint8_t *)(text == NULL ? "" : text);
}

static size_t length(const char *text) {
    return text == NULL ? 0 : strlen(text);
}

/* The outcome of an example. */
static void call(const struct example *it, mdast_outcome *outcome) {
    size_t document_length = it->length == 0 ? length(it->document) : it->length;
    if (it->event_lines == NULL)
        mdast_parse(bytes(it->document), document_length, it->constructs, it->form, outcome);
    else
        mdast_compile(bytes(it->document), document_length, bytes(it->event_lines), length(it->event_lines),
                      bytes(it->references), length(it->references), outcome);
}

static int is(mdast_text text, const char *wanted) {
    return text.bytes != NULL && text.length == length(wanted) && memcmp(text.bytes, bytes(wanted), text.length) == 0;
}

/* Whether each field of an outcome is what the example says. */
static int is_right(const mdast_outcome *outcome, const struct example *it) {
    return outcome->status == it->status && is(outcome->text, it->text) && is(outcome->rule, it->rule) &&
           is(outcome->reason, it->reason) && outcome->line == it->line && outcome->column == it->column &&
           outcome->offset == it->offset;
}

/* Tells of an outcome that is not right, and gives the exit status. */
static int wrong(const char *name, const mdast_outcome *outcome) {
    fprintf(stderr, "c-interface: %s: status %u, line %zu, column %zu, offset %zu, text %.*s\n", name,
            (unsigned)outcome->status, outcome->line, outcome->column, outcome->offset, (int)outcome->text.length,
            (const char *)outcome->text.bytes);
    return 1;
}

/* Parses a text whose characters take one to four bytes, cut after each number of bytes. Its status is MDAST_TEXT where a
   character is cut, and the offset is then that of the character. */
static int cuts(mdast_outcome *outcome) {
    static const char text[] = "a\xc3\xa9\xe2\x82\xac\xf0\x9f\x98\x80";
    static const size_t starts[] = {0, 1, 1, 3, 3, 3, 6, 6, 6, 6, 10};
    for (size_t cut = 0; cut < sizeof text; cut++) {
        uint32_t status = starts[cut] == cut ? MDAST_TREE : MDAST_TEXT;
        size_t offset = status == MDAST_TEXT ? starts[cut] : 0;
        mdast_parse(bytes(text), cut, MDAST_COMMONMARK, MDAST_FORM_PLAIN_TEXT, outcome);
        if (outcome->status != status || outcome->offset != offset)
            return wrong("a cut text", outcome);
        mdast_outcome_free(outcome);
    }
    printf("a text cut after each byte: status 0 or 5\n");
    return 0;
}

/* HTML by the function of its own. */
static int html(mdast_outcome *outcome) {
    mdast_html(bytes("# Hi"), 4, MDAST_COMMONMARK, outcome);
    if (outcome->status != MDAST_TREE || !is(outcome->text, "<h1>Hi</h1>\n"))
        return wrong("mdast_html", outcome);
    mdast_outcome_free(outcome);
    return 0;
}

/* Calls each example twice with one outcome, so that fields are seen to be set anew. */
static int statuses(void) {
    mdast_outcome outcome = MDAST_OUTCOME_INIT;
    for (size_t i = 0; i < 2 * COUNT; i++) {
        const struct example *it = &examples[i % COUNT];
        call(it, &outcome);
        if (!is_right(&outcome, it))
            return wrong(it->name, &outcome);
        if (i < COUNT)
            printf("%s: status %u\n", it->name, (unsigned)outcome.status);
        if (outcome.status == MDAST_TREE)
            free((void *)outcome.text.bytes);
    }
    mdast_outcome_free(&(mdast_outcome)MDAST_OUTCOME_INIT);
    outcome = (mdast_outcome)MDAST_OUTCOME_INIT;
    call(&examples[0], &outcome);
    mdast_outcome_free(&outcome);
    mdast_outcome_free(&outcome);
    if (outcome.status != MDAST_UNSET || !is(outcome.text, "") || outcome.text.bytes == NULL)
        return wrong("an outcome that was freed twice", &outcome);
    outcome = (mdast_outcome)MDAST_OUTCOME_INIT;
    return html(&outcome) || cuts(&outcome);
}

/* So many calls, all examples in turn but for the document of the command line. */
static void repeat(long count) {
    mdast_outcome outcome = MDAST_OUTCOME_INIT;
    for (long i = 0; i < count; i++) {
        call(&examples[(size_t)i % (COUNT - 1)], &outcome);
        mdast_outcome_free(&outcome);
    }
}

/* The peak of resident memory, in KB. */
static long peak(void) {
    struct rusage usage;
    getrusage(RUSAGE_SELF, &usage);
    return usage.ru_maxrss;
}

static int calls(long count) {
    repeat(1000);
    long before = peak();
    repeat(count);
    long after = peak();
    printf("%ld calls: %ld KB of memory at most before, %ld KB after\n", count, before, after);
    if (after - before <= 1024)
        return 0;
    fprintf(stderr, "c-interface: memory grew by more than 1 MB\n");
    return 1;
}

/* Calls all examples in turn, and gives how many outcomes were not right. */
static void *run_thread(void *first) {
    mdast_outcome outcome = MDAST_OUTCOME_INIT;
    size_t faults = 0;
    for (size_t i = 0; i < CALLS; i++) {
        const struct example *it = &examples[((size_t)first + i) % COUNT];
        call(it, &outcome);
        faults += !is_right(&outcome, it);
        mdast_outcome_free(&outcome);
    }
    return (void *)faults;
}

/* The same in each of eight threads, each of which begins with another example. */
static int threads(void) {
    pthread_t thread[THREADS];
    size_t faults = 0;
    for (size_t i = 0; i < THREADS; i++) {
        if (pthread_create(&thread[i], NULL, run_thread, (void *)i) != 0) {
            fprintf(stderr, "c-interface: no thread could be made\n");
            return 1;
        }
    }
    for (size_t i = 0; i < THREADS; i++) {
        void *found;
        pthread_join(thread[i], &found);
        faults += (size_t)found;
    }
    printf("%d calls in each of %d threads: %zu of them not right\n", CALLS, THREADS, faults);
    return faults != 0;
}

/* Each example once. Memory may run out, and else each outcome must be right. */
static int once(void) {
    mdast_outcome outcome = MDAST_OUTCOME_INIT;
    int status = 0;
    for (size_t i = 0; i < COUNT; i++) {
        call(&examples[i], &outcome);
        if (outcome.status == MDAST_MEMORY)
            status = 3;
        else if (!is_right(&outcome, &examples[i]))
            return 70;
        mdast_outcome_free(&outcome);
    }
    return status;
}

/* Reads a file, with a byte 0 after its end. No memory is asked for, since a request may be refused. */
static const char *contents(const char *name, char *room, size_t size) {
    int file = open(name, O_RDONLY);
    ssize_t read_bytes = file < 0 ? -1 : read(file, room, size - 1);
    if (read_bytes < 0 || (size_t)read_bytes == size - 1) {
        fprintf(stderr, "c-interface: cannot read %s\n", name);
        exit(2);
    }
    room[read_bytes] = 0;
    close(file);
    return room;
}

int main(int count, char **arguments) {
    static char document[1 << 16], tree[1 << 20];
    if (count < 4) {
        fprintf(stderr, "usage: c_interface DOCUMENT TREE statuses | calls N | threads | once\n");
        return 2;
    }
    examples[COUNT - 1].document = contents(arguments[1], document, sizeof document);
    examples[COUNT - 1].text = contents(arguments[2], tree, sizeof tree);
    tree[strcspn(tree, "\n")] = 0;
    if (strcmp(arguments[3], "statuses") == 0)
        return statuses();
    if (count == 5 && strcmp(arguments[3], "calls") == 0)
        return calls(atol(arguments[4]));
    if (strcmp(arguments[3], "threads") == 0)
        return threads();
    if (strcmp(arguments[3], "once") == 0)
        return once();
    return 2;
}
