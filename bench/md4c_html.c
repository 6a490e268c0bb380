/* Prints the HTML that md4c makes of standard input. Debian has the library of md4c, and no program. */
#include <md4c-html.h>
#include <stdio.h>
#include <stdlib.h>

static void print(const MD_CHAR *text, MD_SIZE length, void *output)
{
    fwrite(text, 1, length, output);
}

/* The whole of standard input, which the caller frees. */
static char *read_input(size_t *length)
{
    size_t capacity = 1 << 16, count;
    char *text = malloc(capacity);

    *length = 0;
    while (text != NULL && (count = fread(text + *length, 1, capacity - *length, stdin)) > 0) {
        *length += count;
        if (*length == capacity)
            text = realloc(text, capacity *= 2);
    }
    return text;
}

int main(void)
{
    size_t length;
    char *text = read_input(&length);

    if (text == NULL || md_html(text, (MD_SIZE)length, print, stdout, 0, 0) != 0)
        return 1;
    free(text);
    return fflush(stdout) == 0 ? 0 : 1;
}
