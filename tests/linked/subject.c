/* Answers a request batch with the functions of libhazomeny.a, for `oracle compare`: requests on standard input, responses on
 * standard output (oracle/src/wire.rs has both formats). Each file and each page is lent from a buffer of just its length. */
#include "hazomeny.h"
#include <stdio.h>
#include <stdlib.h>
#include <string.h>

/* Declared here too, so that the compiler tells of a header that has them otherwise. */
uint64_t hazomeny_check_strict(const uint8_t *file, size_t length);
uint64_t hazomeny_html_body_strict(const uint8_t *file, size_t length, uint8_t *page, size_t room);
uint64_t hazomeny_html_document_strict(const uint8_t *file, size_t length, uint8_t *page, size_t room);

enum { HEADER = 11, CHECK = 0, LAYOUT = 1, PLAIN = 2, BODY = 3, DOCUMENT = 4, CHECK_STRICT = 5, BODY_STRICT = 6, DOCUMENT_STRICT = 7 };

/* What a page is lent filled with: of it a refusal changes nothing, and a page only what it covers. */
enum { PATTERN = 0xa5 };

static void stop(const char *why) {
    fprintf(stderr, "subject: %s\n", why);
    exit(1);
}

static void *room_for(size_t length) {
    void *room = malloc(length ? length : 1);
    if (!room) stop("no memory");
    return room;
}

static uint32_t read_number(const uint8_t *bytes) {
    return (uint32_t)bytes[0] << 24 | (uint32_t)bytes[1] << 16 | (uint32_t)bytes[2] << 8 | bytes[3];
}

static void write_number(uint64_t number) {
    if (number > UINT32_MAX) stop("an answer of over 32 bits");
    for (int shift = 24; shift >= 0; shift -= 8) putchar((int)(number >> shift & 255));
}

static void respond(uint64_t answer, const uint8_t *lent, size_t length) {
    putchar((int)hazomeny_refusal(answer));
    write_number(hazomeny_number(answer));
    write_number(length);
    fwrite(lent, 1, length, stdout);
}

typedef uint64_t (*page_entry)(const uint8_t *file, size_t length, uint8_t *page, size_t room);

static void answer_page(page_entry entry, const uint8_t *file, size_t length, size_t room) {
    uint8_t *page = room_for(room);
    memset(page, PATTERN, room);
    respond(entry(file, length, page, room), page, room);
    free(page);
}

static void answer(const uint8_t *header, uint8_t *file, size_t length) {
    size_t width = (size_t)header[1] << 8 | header[2], room = read_number(header + 3);
    switch (header[0]) {
    case CHECK: respond(hazomeny_check(file, length), file, 0); break; /* nothing is lent */
    case LAYOUT: respond(hazomeny_layout(file, length, width), file, length); break;
    case PLAIN: answer_page(hazomeny_plain, file, length, room); break;
    case BODY: answer_page(hazomeny_html_body, file, length, room); break;
    case DOCUMENT: answer_page(hazomeny_html_document, file, length, room); break;
    case CHECK_STRICT: respond(hazomeny_check_strict(file, length), file, 0); break;
    case BODY_STRICT: answer_page(hazomeny_html_body_strict, file, length, room); break;
    case DOCUMENT_STRICT: answer_page(hazomeny_html_document_strict, file, length, room); break;
    default: stop("no such operation");
    }
}

/* A whole read; 0 at the end of the batch. */
static int read_all(uint8_t *into, size_t length) {
    size_t n = fread(into, 1, length, stdin);
    if (n == length) return 1;
    if (n == 0 && feof(stdin)) return 0;
    stop("a request is cut short");
    return 0;
}

int main(void) {
    uint8_t header[HEADER];
    while (read_all(header, HEADER)) {
        size_t length = read_number(header + 7);
        uint8_t *file = room_for(length);
        if (length && !read_all(file, length)) stop("a request has no file");
        answer(header, file, length);
        free(file);
    }
    return fflush(stdout) == 0 ? 0 : 1;
}
