/* tree DOCUMENT: prints the tree of a markdown document as JSON. */
#include <stdio.h>
#include <stdlib.h>

#include <mdast.h>

/* Ends the program where a file cannot be read. */
static void fail(const char *name) {
    fprintf(stderr, "tree: cannot read %s\n", name);
    exit(2);
}

/* The bytes of a file, which the caller frees. There is room for one byte more, so that no pointer is null. */
static mdast_text contents(const char *name) {
    FILE *file = fopen(name, "rb");
    if (file == NULL || fseek(file, 0, SEEK_END) != 0)
        fail(name);
    long length = ftell(file);
    if (length < 0 || fseek(file, 0, SEEK_SET) != 0)
        fail(name);
    uint8_t *bytes = malloc((size_t)length + 1);
    if (bytes == NULL || fread(bytes, 1, (size_t)length, file) != (size_t)length)
        fail(name);
    fclose(file);
    return (mdast_text){bytes, (size_t)length};
}

/* Prints what a call came to, and gives the exit status. */
static int answer(const char *name, const mdast_outcome *outcome) {
    switch (outcome->status) {
    case MDAST_TREE:
        fwrite(outcome->text.bytes, 1, outcome->text.length, stdout);
        putchar('\n');
        return 0;
    case MDAST_TEXT:
        fprintf(stderr, "tree: %s: byte %zu is not UTF-8\n", name, outcome->offset);
        return 2;
    default:
        fprintf(stderr, "tree: out of memory\n");
        return 3;
    }
}

int main(int count, char **arguments) {
    if (count != 2) {
        fprintf(stderr, "usage: tree DOCUMENT\n");
        return 2;
    }
    mdast_text document = contents(arguments[1]);
    mdast_outcome outcome = MDAST_OUTCOME_INIT;
    mdast_parse(document.bytes, document.length, MDAST_EVERYTHING, MDAST_FORM_JSON, &outcome);
    int status = answer(arguments[1], &outcome);
    mdast_outcome_free(&outcome);
    free((void *)document.bytes);
    return status;
}
