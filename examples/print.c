/* Prints a fragment file laid out at a width: `print [--html] WIDTH FILE`, as a plain page, or as an HTML document. */
#include "hazomeny.h"
#include <stdio.h>
#include <stdlib.h>
#include <string.h>

/* A longer file than may be is refused whatever it holds, so that one byte more is enough of it. */
enum { MOST = HAZOMENY_MOST_BYTES + 1 };

typedef uint64_t (*page_entry)(const uint8_t *file, size_t length, uint8_t *page, size_t room);

/* A refusal exits with 1; whatever is not the file's fault with 2. */
static int mistake(const char *why) {
    fprintf(stderr, "print: %s\n", why);
    return 2;
}

static int refused(uint64_t answer) {
    fprintf(stderr, "refused %u at %llu\n", hazomeny_refusal(answer), (unsigned long long)hazomeny_number(answer));
    return 1;
}

/* Room that is enough for every file of the length. */
static size_t enough(page_entry entry, size_t length) {
    if (entry == hazomeny_plain) return HAZOMENY_PLAIN_PER_BYTE * length;
    return HAZOMENY_HTML_PER_BYTE * length + HAZOMENY_HTML_FRAME;
}

static int write_out(const uint8_t *page, size_t length) {
    int whole = fwrite(page, 1, length, stdout) == length && fflush(stdout) == 0;
    return whole ? 0 : mistake("cannot write the page");
}

/* Prints the page of a file that is laid out. */
static int print(page_entry entry, const uint8_t *file, size_t length) {
    size_t room = enough(entry, length);
    uint8_t *page = malloc(room + 1);
    if (!page) return mistake("no memory");
    uint64_t answer = entry(file, length, page, room);
    int status = hazomeny_refusal(answer) ? refused(answer) : write_out(page, hazomeny_number(answer));
    free(page);
    return status;
}

int main(int count, char **words) {
    static uint8_t file[MOST];
    int html = count > 1 && strcmp(words[1], "--html") == 0;
    if (count != 3 + html) return mistake("usage: print [--html] WIDTH FILE");
    char *end;
    size_t width = strtoul(words[1 + html], &end, 10);
    if (*end || end == words[1 + html]) return mistake("no such width");
    FILE *from = fopen(words[2 + html], "rb");
    if (!from) return mistake("cannot open the file");
    size_t length = fread(file, 1, MOST, from);
    if (ferror(from)) return mistake("cannot read the file");
    fclose(from);
    uint64_t laid_out = hazomeny_layout(file, length, width);
    if (hazomeny_refusal(laid_out)) return refused(laid_out);
    return print(html ? hazomeny_html_document : hazomeny_plain, file, length);
}
