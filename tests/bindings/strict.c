/* Strict HTML as the C header has it: CRs of texts beside loose HTML, in every room around the body's length; and NULs, which are refused. */
#include "hazomeny.h"
#include <stdio.h>
#include <stdlib.h>
#include <string.h>

#define COUNT(array) (sizeof(array) / sizeof *(array))
#define PRE "<pre class=\"spirt-90c2056d-5b38-4644-824a-b4be1c82f14d\">\n"

static void need(int holds, const char *what) {
    if (holds) return;
    fprintf(stderr, "strict.c: not so: %s\n", what);
    exit(1);
}

static uint64_t accepted(uint64_t number) { return number << 8; }
static uint64_t refused(unsigned number, uint64_t place) { return place << 8 | number; }

/* An anchor whose name has a CR and a NUL, with a text; and a text that shows, since its block is broken. */
static const uint8_t RETURNS[] = {
    2, 0, 14, 19, 0, 2, '\r', 0, 1, 0, 6, 17, 0, 3, '\r', '&', '\r',
    3, 0, 8, 8, 0, 5, 7, 0, 2, '\r', '\n',
};
static const char LOOSE[] = PRE "<a href=\"#\r\0\">\r&amp;\r</a>\n  \r\n</pre>";
static const char STRICT[] = PRE "<a href=\"#\r\0\">&#13;&amp;&#13;</a>\n  &#13;\n</pre>";
enum { LENGTH = sizeof RETURNS, LOOSE_LENGTH = sizeof LOOSE - 1, STRICT_LENGTH = sizeof STRICT - 1, MOST = STRICT_LENGTH + 10 };

static void both_bodies(void) {
    uint8_t page[MOST];
    need(hazomeny_html_body(RETURNS, LENGTH, page, MOST) == accepted(LOOSE_LENGTH), "the length of the loose body");
    need(memcmp(page, LOOSE, LOOSE_LENGTH) == 0, "the loose body has the CRs as they are");
    for (size_t room = 0; room <= MOST; room++) {
        uint8_t right[MOST];
        memset(page, 0xa5, MOST);
        memset(right, 0xa5, MOST);
        if (room >= STRICT_LENGTH) memcpy(right, STRICT, STRICT_LENGTH);
        uint64_t answer = room < STRICT_LENGTH ? refused(10, STRICT_LENGTH) : accepted(STRICT_LENGTH);
        need(hazomeny_html_body_strict(RETURNS, LENGTH, page, room) == answer, "the strict body's length");
        need(memcmp(page, right, MOST) == 0, "the strict body is written whole or not at all, and nothing behind it");
    }
}

static void document(void) {
    static uint8_t page[HAZOMENY_HTML_PER_BYTE * LENGTH + HAZOMENY_HTML_FRAME];
    static const char end[] = "</body>\n</html>\n";
    uint64_t answer = hazomeny_html_document_strict(RETURNS, LENGTH, page, sizeof page);
    need(hazomeny_refusal(answer) == 0, "the room is enough");
    const uint8_t *behind = page + hazomeny_number(answer) - (sizeof end - 1);
    need(memcmp(behind, end, sizeof end - 1) == 0, "a document's end");
    need(memcmp(behind - STRICT_LENGTH, STRICT, STRICT_LENGTH) == 0, "the document has the strict body");
    need(hazomeny_html_document_strict(NULL, 0, page, HAZOMENY_HTML_FRAME) == accepted(HAZOMENY_HTML_FRAME), "the frame");
}

static void nuls(void) {
    static const struct {
        uint8_t file[12];
        size_t length;
        unsigned number, place;
    } FILES[] = {
        {{1, 0, 5, 17, 0, 2, 'a', 0}, 8, 14, 3},
        {{7, 0, 1, 0}, 4, 14, 0},
        {{7, 0, 2, 0, 0xff}, 5, 7, 0},           /* UTF-8 comes first */
        {{7, 0, 1, 0, 99}, 5, 14, 0},            /* the first of two faults */
        {{5, 0, 0, 99, 0, 0, 7, 0, 1, 0}, 10, 4, 3},
    };
    uint8_t page[100], before[sizeof page];
    memset(page, 0xa5, sizeof page);
    memset(before, 0xa5, sizeof before);
    for (size_t i = 0; i < COUNT(FILES); i++) {
        uint64_t right = refused(FILES[i].number, FILES[i].place);
        need(hazomeny_check_strict(FILES[i].file, FILES[i].length) == right, "the strict check");
        need(hazomeny_html_body_strict(FILES[i].file, FILES[i].length, page, 0) == right, "the file comes before the room");
        need(hazomeny_html_document_strict(FILES[i].file, FILES[i].length, page, sizeof page) == right, "a document is refused too");
    }
    need(memcmp(page, before, sizeof page) == 0, "a refusal changes nothing");
    need(hazomeny_check(FILES[0].file, FILES[0].length) == accepted(0), "the loose check takes a NUL");
    need(hazomeny_check_strict(RETURNS, LENGTH) == accepted(0), "a NUL in a name is none in a text");
}

int main(void) {
    both_bodies();
    document();
    nuls();
    return 0;
}
