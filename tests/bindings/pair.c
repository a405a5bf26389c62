/* Masks and pairs as the C header has them: the mask of a file in every room around its length; the texts of a pair for both rights; and every
 * refusal of a pair with its place. */
#include "hazomeny.h"
#include <stdio.h>
#include <stdlib.h>
#include <string.h>

#define COUNT(array) (sizeof(array) / sizeof *(array))

static void need(int holds, const char *what) {
    if (holds) return;
    fprintf(stderr, "pair.c: not so: %s\n", what);
    exit(1);
}

static uint64_t accepted(uint64_t number) { return number << 8; }
static uint64_t refused(unsigned number, uint64_t place) { return place << 8 | number; }

/* A text, an anchor with a text, a block with an empty text, a text that shows only in a broken block, and one with a style; and what their mask is. */
static const uint8_t ORIGINAL[] = {
    1, 0, 6, 17, 0, 3, 'a', '\n', 'b',                   /* 0: a text of two lines */
    2, 0, 11, 18, 0, 1, 'n', 1, 0, 4, 17, 0, 1, 'n',     /* 9: an anchor's name is not masked, its text is */
    4, 0, 9, 8, 0, 6, 1, 0, 3, 17, 0, 0,                 /* 23: a block */
    7, 0, 2, ',', '\n',                                  /* 35 */
    1, 0, 10, 16, 0, 3, 39, 0, 0, 17, 0, 1, 39,          /* 40: an underline, and a text that is its tag */
};
static const uint8_t MASK[] = {
    1, 0, 6, 17, 0, 3, 'x', '\n', 'x',
    2, 0, 11, 18, 0, 1, 'n', 1, 0, 4, 17, 0, 1, 'x',
    4, 0, 9, 8, 0, 6, 1, 0, 3, 17, 0, 0,
    7, 0, 2, 'x', '\n',
    1, 0, 10, 16, 0, 3, 39, 0, 0, 17, 0, 1, 'x',
};
enum { LENGTH = sizeof ORIGINAL };

static const struct {
    uint32_t place;
    const char *name, *shown;
} TEXTS[] = {{3, "a\nb", "x\nx"}, {19, "n", "x"}, {32, "", ""}, {35, ",\n", "x\n"}, {49, "\x27", "x"}};

static void every_room(void) {
    for (size_t room = 0; room < LENGTH + 10; room++) {
        uint8_t page[LENGTH + 10], right[sizeof page];
        memset(page, 0xa5, sizeof page);
        memset(right, 0xa5, sizeof right);
        if (room >= LENGTH) memcpy(right, MASK, LENGTH);
        uint64_t answer = room < LENGTH ? refused(10, LENGTH) : accepted(LENGTH);
        need(hazomeny_mask(ORIGINAL, LENGTH, page, room) == answer, "a mask needs its file's length");
        need(memcmp(page, right, sizeof page) == 0, "the mask is written whole or not at all, and nothing behind it");
    }
    need(hazomeny_mask(NULL, 0, NULL, 0) == accepted(0), "no file has no mask");
}

static void every_text(void) {
    for (size_t i = 0; i < COUNT(TEXTS); i++) {
        uint32_t place = TEXTS[i].place;
        uint64_t answer = hazomeny_pair(ORIGINAL, LENGTH, MASK, LENGTH, place);
        size_t length = strlen(TEXTS[i].name);
        need(answer == accepted(length), "a text's length");
        const uint8_t *name = hazomeny_text(ORIGINAL, MASK, place, true), *shown = hazomeny_text(ORIGINAL, MASK, place, false);
        need(name == ORIGINAL + place + 3 && shown == MASK + place + 3, "a text is a part of its file");
        need(memcmp(name, TEXTS[i].name, length) == 0, "the name");
        need(memcmp(shown, TEXTS[i].shown, length) == 0, "what is shown of it");
    }
}

static int is_text(uint32_t place) {
    for (size_t i = 0; i < COUNT(TEXTS); i++) {
        if (TEXTS[i].place == place) return 1;
    }
    return 0;
}

static void no_text(void) {
    for (uint32_t place = 0; place < LENGTH + 10; place++) {
        if (is_text(place)) continue;
        need(hazomeny_pair(ORIGINAL, LENGTH, MASK, LENGTH, place) == refused(13, place), "13 has the place");
    }
    need(hazomeny_pair(ORIGINAL, LENGTH, MASK, LENGTH, UINT32_MAX) == refused(13, UINT32_MAX), "13 has any place");
    need(hazomeny_pair(NULL, 0, NULL, 0, 0) == refused(13, 0), "no file has no text");
}

static void not_the_mask(void) {
    static const uint8_t bytes[] = {6, 7, 8, 15, 22, 23, 38, 39, 52};
    uint8_t other[LENGTH];
    memcpy(other, MASK, LENGTH);
    for (size_t i = COUNT(bytes); i-- > 0;) {
        other[bytes[i]] = bytes[i] == 23 ? 3 : 'y'; /* a tag has to be one that may stand there */
        need(hazomeny_pair(ORIGINAL, LENGTH, other, LENGTH, 3) == refused(12, bytes[i]), "12 has the first byte that differs");
    }
    need(hazomeny_pair(ORIGINAL, LENGTH, MASK, 35, 3) == refused(12, 35), "12 has the length of a shorter mask");
    need(hazomeny_pair(ORIGINAL, 35, MASK, LENGTH, 3) == refused(12, 35), "12 has the length of a shorter original");
    need(hazomeny_pair(ORIGINAL, LENGTH, NULL, 0, 3) == refused(12, 0), "no file is no mask");
    need(hazomeny_pair(ORIGINAL, LENGTH, ORIGINAL, LENGTH, 3) == refused(12, 6), "a file is not its own mask");
    need(hazomeny_pair(MASK, LENGTH, MASK, LENGTH, 3) == accepted(3), "a mask is");
}

static void files_first(void) {
    static const uint8_t cut[] = {1, 0}, wrong[] = {8, 0, 0};
    static uint8_t page[LENGTH], zeros[LENGTH];
    need(hazomeny_mask(cut, sizeof cut, page, 0) == refused(3, 0), "the file is looked at before the room");
    need(hazomeny_mask(cut, sizeof cut, page, sizeof page) == refused(3, 0) && memcmp(page, zeros, sizeof page) == 0, "nothing is written");
    need(hazomeny_pair(cut, sizeof cut, wrong, sizeof wrong, 3) == refused(3, 0), "the original comes first");
    need(hazomeny_pair(ORIGINAL, LENGTH, wrong, sizeof wrong, 3) == refused(4, 0), "then the mask");
}

int main(void) {
    every_room();
    every_text();
    no_text();
    not_the_mask();
    files_first();
    return 0;
}
