/* The writer as the C header has it: every step by its function, in a buffer that is enlarged by what each refusal asks for; every member of a
 * style; and refusals, by which neither buffer nor writer change. */
#include "hazomeny.h"
#include <stdio.h>
#include <stdlib.h>
#include <string.h>

#define COUNT(array) (sizeof(array) / sizeof *(array))

static void need(int holds, const char *what) {
    if (holds) return;
    fprintf(stderr, "writer.c: not so: %s\n", what);
    exit(1);
}

static uint64_t accepted(uint64_t number) { return number << 8; }
static uint64_t refused(unsigned number, uint64_t place) { return place << 8 | number; }

static const hazomeny_style DIM = {.styled = 1, .dim = 1}, UNDERLINED = {.styled = 1, .underline = 1};

/* A script with every step in it. */
static uint64_t scripted(hazomeny_writer *w, int number) {
    switch (number) {
    case 0: return hazomeny_write_text(w, NULL, "t", 1);
    case 1: return hazomeny_begin_join_space_behind(w);
    case 2: return hazomeny_next_entry(w);
    case 3: return hazomeny_write_breaking_only_space(w);
    case 4: return hazomeny_begin_join_comma_sep_behind(w);
    case 5: return hazomeny_next_entry(w);
    case 6: return hazomeny_open_anchor_definition(w, "d", 1);
    case 7: return hazomeny_write_text(w, &DIM, "s", 1);
    case 8: return hazomeny_close_anchor(w);
    case 9: return hazomeny_next_entry(w);
    case 10: return hazomeny_open_anchor_use(w, "u", 1);
    case 11: return hazomeny_close_anchor(w);
    case 12: return hazomeny_end_join_comma_sep(w, &DIM, NULL, 0);
    case 13: return hazomeny_end_join_space(w);
    case 14: return hazomeny_open_indented_block(w);
    case 15: return hazomeny_open_fragment(w);
    case 16: return hazomeny_write_force_line_separation(w);
    case 17: return hazomeny_write_if_block_layout(w, ",", 1);
    case 18: return hazomeny_close_fragment(w);
    case 19: return hazomeny_close_block(w);
    case 20: return hazomeny_open_inline_or_indented_block(w);
    case 21: return hazomeny_close_block(w);
    case 22: return hazomeny_begin_join_space(w, &UNDERLINED, "h", 1);
    case 23: return hazomeny_end_join_space(w);
    case 24: return hazomeny_begin_join_comma_sep(w, NULL, "p", 1);
    default: return hazomeny_end_join_comma_sep(w, NULL, "q", 1);
    }
}
enum { STEPS = 26 };

static const uint8_t SCRIPTED[] = {
    1, 0, 4, 17, 0, 1, 't', 4, 0, 71,                        /* a header, and a join by spaces behind it */
    8, 0, 68, 5, 0, 0, 5, 0, 0, 4, 0, 47,                    /* its entry: a space, and a join by commas behind it */
    8, 0, 30, 2, 0, 17, 18, 0, 1, 'd',                       /* the first entry: a definition */
    1, 0, 10, 16, 0, 3, 38, 0, 0, 17, 0, 1, 's',             /* with a text in it */
    1, 0, 4, 17, 0, 1, ',', 5, 0, 0,                         /* the comma behind the entry */
    8, 0, 11, 2, 0, 4, 19, 0, 1, 'u', 7, 0, 1, ',',          /* the second: a use */
    1, 0, 9, 16, 0, 3, 38, 0, 0, 17, 0, 0,                   /* the suffix */
    3, 0, 10, 8, 0, 7, 6, 0, 0, 7, 0, 1, ',',                /* an indented block */
    4, 0, 0,                                                 /* one that may stay on its line */
    1, 0, 10, 16, 0, 3, 39, 0, 0, 17, 0, 1, 'h', 4, 0, 0,    /* a join of no entry by spaces */
    1, 0, 4, 17, 0, 1, 'p', 4, 0, 0, 1, 0, 4, 17, 0, 1, 'q', /* and one by commas */
};

/* Gives the writer just so many bytes, those written so far among them. */
static void enlarge(hazomeny_writer *w, size_t room) {
    w->file = realloc(w->file, room);
    need(w->file != NULL, "there is memory");
    w->room = room;
}

static void every_step(void) {
    hazomeny_writer w = hazomeny_writer_over(NULL, 0);
    for (int number = 0; number < STEPS; number++) {
        uint64_t answer = scripted(&w, number);
        if (hazomeny_refusal(answer) == 10) {
            size_t needed = hazomeny_number(answer);
            need(needed > w.room, "10 is said of a buffer that is too short");
            enlarge(&w, needed);
            need(scripted(&w, number) == accepted(needed), "a step fits in the bytes that it asked for");
        } else {
            need(answer == accepted(w.room), "a step that needs no room is accepted");
        }
    }
    need(hazomeny_finish(&w) == accepted(sizeof SCRIPTED), "the file's length");
    need(memcmp(w.file, SCRIPTED, sizeof SCRIPTED) == 0, "the file's bytes");
    need(hazomeny_check(w.file, w.room) == accepted(0), "the file is accepted");
    free(w.file);
}

/* The text `x` in a style is a field 1 with this inside. */
static void style_is(const hazomeny_style *style, const uint8_t *inside, size_t length) {
    uint8_t file[100];
    hazomeny_writer w = hazomeny_writer_over(file, sizeof file);
    need(hazomeny_write_text(&w, style, "x", 1) == accepted(3 + length), "a styled text's length");
    need(file[0] == 1 && file[1] == 0 && file[2] == length && memcmp(file + 3, inside, length) == 0, "a styled text's bytes");
}
#define STYLE_IS(style, ...)                            \
    do {                                                \
        static const uint8_t inside[] = {__VA_ARGS__};  \
        style_is(style, inside, sizeof inside);         \
    } while (0)

static void every_style(void) {
    hazomeny_style style = {.styled = 1, .has_colour = 1, .colour = {1, 2, 3}};
    STYLE_IS(NULL, 17, 0, 1, 'x');
    STYLE_IS(&style, 16, 0, 6, 32, 0, 3, 1, 2, 3, 17, 0, 1, 'x');
    hazomeny_set_opacity(&style, 0.5f);
    STYLE_IS(&style, 16, 0, 13, 32, 0, 3, 1, 2, 3, 33, 0, 4, 0x3f, 0, 0, 0, 17, 0, 1, 'x');
    style.has_colour = style.has_opacity = 0;
    style.thickness = (uint8_t)-2;
    style.size = 117;
    STYLE_IS(&style, 16, 0, 0, 17, 0, 1, 'x');
    style.has_thickness = style.has_size = style.subscript = 1;
    STYLE_IS(&style, 16, 0, 11, 34, 0, 1, 254, 35, 0, 1, 117, 36, 0, 0, 17, 0, 1, 'x');
    style.has_thickness = style.has_size = style.subscript = 0;
    style.superscript = style.dim = 255;
    STYLE_IS(&style, 16, 0, 6, 37, 0, 0, 38, 0, 0, 17, 0, 1, 'x');
    style.underline = 128;
    STYLE_IS(&style, 16, 0, 9, 37, 0, 0, 38, 0, 0, 39, 0, 0, 17, 0, 1, 'x');
    style.superscript = style.dim = 0;
    STYLE_IS(&style, 16, 0, 3, 39, 0, 0, 17, 0, 1, 'x');
    style.styled = 0; /* what would be refused is then not looked at */
    style.subscript = style.superscript = style.has_opacity = style.has_size = 1;
    style.size = 118;
    STYLE_IS(&style, 17, 0, 1, 'x');
}

/* A step that is refused in a block, or in a fragment. */
static uint64_t faulty(hazomeny_writer *w, int number) {
    static const hazomeny_style both = {.styled = 1, .subscript = 1, .superscript = 1};
    switch (number) {
    case 0: return hazomeny_write_text(w, &both, "\xff", 1);
    case 1: return hazomeny_write_text(w, NULL, "\xff", 1);
    case 2: return hazomeny_open_anchor_use(w, "\"", 1);
    case 3: return hazomeny_write_text(w, NULL, NULL, 0);
    case 4: return hazomeny_step(w, HAZOMENY_STEP_FINISH + 1);
    default: return hazomeny_finish(w);
    }
}

static void every_refusal(void) {
    static const unsigned in_fragment[] = {8, 7, 9, 10, 11, 11};
    uint8_t file[6], before[sizeof file];
    hazomeny_writer w = hazomeny_writer_over(file, sizeof file);
    need(hazomeny_open_indented_block(&w) == accepted(3), "a block may stand there");
    for (int number = 0; number < (int)COUNT(in_fragment); number++) {
        need(faulty(&w, number) == refused(11, 3), "no node may stand in a block, whatever it is");
    }
    need(hazomeny_open_fragment(&w) == accepted(6), "a fragment may stand in a block");
    memcpy(before, file, sizeof file);
    for (int number = 0; number < (int)COUNT(in_fragment); number++) {
        unsigned right = in_fragment[number];
        need(faulty(&w, number) == refused(right, right == 10 ? 12 : 6), "the refusal and its place");
        need(memcmp(file, before, sizeof file) == 0, "a refusal changes no byte");
    }
    need(hazomeny_close_fragment(&w) == accepted(6) && hazomeny_close_block(&w) == accepted(6), "the writer stood where it was");
}

/* What a caller in C can do to a state is answered, and nothing is written. */
static void spoilt_states(void) {
    static const uint32_t spoilt[][2] = {{101, 0}, {60001, 0}, {UINT32_MAX, 0}, {0, 1}, {50, 49}, {50, UINT32_MAX}};
    for (size_t i = 0; i < COUNT(spoilt); i++) {
        uint8_t file[100] = {0}, zeros[sizeof file] = {0};
        hazomeny_writer w = hazomeny_writer_over(file, sizeof file);
        memcpy(w.state, spoilt[i], sizeof w.state);
        for (int number = 0; number < STEPS; number++) {
            need(scripted(&w, number) == refused(11, spoilt[i][0]), "a spoilt state is refused by 11");
        }
        need(memcmp(file, zeros, sizeof file) == 0 && memcmp(w.state, spoilt[i], sizeof w.state) == 0, "and changes nothing");
    }
}

int main(void) {
    every_step();
    every_style();
    every_refusal();
    spoilt_states();
    return 0;
}
