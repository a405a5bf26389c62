/* The C interface of libhazomeny.a (x86-64 Linux). Every function is total and terminates: it accepts or refuses whatever bytes it is given.
 * docs/FORMAT.md describes the file format, the layout, the pages, masks, the writer and the refusals.
 *
 * An answer is one number. Its low byte is 0 if the file, or a writer's step, is accepted, else the number of the refusal; the bytes above it
 * are the count, or the place of the refusal. A refusal changes no byte.
 *
 * The caller guarantees what any C function expects of its pointers: `length` bytes can be read at `file` (for hazomeny_layout also
 * written), at `original` and at `text`, `mask_length` bytes at `mask`, `room` bytes can be written at `page` and at a writer's `file`, no two
 * of these overlap (but an original and its mask may, being only read), and nobody writes to any of them during the call. A page is only
 * written: what stood in it decides nothing, so it need not be initialised. If a length is 0 its pointer is not followed and may be NULL. The
 * functions keep no pointer and no state and use no memory but the stack, so threads may call them at the same time. */
#ifndef HAZOMENY_H
#define HAZOMENY_H

#include <stdbool.h>
#include <stddef.h>
#include <stdint.h>
#include <string.h>

#ifdef __cplusplus
extern "C" {
#endif

/* The limits, as the proved library has them: the most bytes that a file may have, the widest layout in columns, the most bytes of a plain
 * page for each byte of its file, those of an HTML page, and the bytes that an HTML document has around them. */
enum {
    HAZOMENY_MOST_BYTES = 60000,
    HAZOMENY_MOST_COLUMNS = 6553,
    HAZOMENY_PLAIN_PER_BYTE = 67,
    HAZOMENY_HTML_PER_BYTE = 236,
    HAZOMENY_HTML_FRAME = 1072
};

/* The number of the refusal, 1 to 14, or 0 if the file, pair or step is accepted. */
static inline unsigned hazomeny_refusal(uint64_t answer) { return (unsigned)(answer & 255); }

/* The count of an accepted answer, or the place of a refusal: a byte of the file, or for refusal 10 the bytes that the page or a writer's file
 * needs, or for 13 the place that was asked for. */
static inline uint64_t hazomeny_number(uint64_t answer) { return answer >> 8; }

/* The file check. Only reads the file. Answers the count 0 if the file is accepted, else the first fault: refusal 1 or 3 to 9. */
uint64_t hazomeny_check(const uint8_t *file, size_t length);

/* The file check of strict HTML. As hazomeny_check, but a NUL in a text (field 17 or 7) is refused by 14, after 7 at the same field: a browser
 * would drop it. */
uint64_t hazomeny_check_strict(const uint8_t *file, size_t length);

/* Layout in place, at a width in columns. Answers how many tags it changed from 4 (inline or indented) to 3 (indented); no other byte
 * changes, and the file stays an accepted one. Refusals: 1, then 2 for a width over 6,553, then those of the file check. */
uint64_t hazomeny_layout(uint8_t *file, size_t length, size_t width);

/* The plain page of a file, laid out or not. Only reads the file. Answers the page's length and writes that many bytes from the start of
 * `page`; later bytes stay as they were, and no terminating 0 is written. Refusals: those of the file check, then 10, with the bytes needed,
 * if the page does not fit. So a `room` of 0 measures; and with a `room` of HAZOMENY_PLAIN_PER_BYTE * length, which is proved to be enough for
 * every file, 10 never comes. */
uint64_t hazomeny_plain(const uint8_t *file, size_t length, uint8_t *page, size_t room);

/* The HTML body: one `pre` element, for a document that has the style element of hazomeny_html_document. Otherwise as hazomeny_plain, but the
 * `room` with which 10 never comes is HAZOMENY_HTML_PER_BYTE * length + HAZOMENY_HTML_FRAME. */
uint64_t hazomeny_html_body(const uint8_t *file, size_t length, uint8_t *page, size_t room);

/* The whole HTML document: the body, with its style element. Otherwise as hazomeny_html_body. */
uint64_t hazomeny_html_document(const uint8_t *file, size_t length, uint8_t *page, size_t room);

/* The strict HTML body: in texts a CR is written as `&#13;`, so that a browser gives the plain page back byte for byte; without it a browser reads
 * a CR as a newline. Where no text has a CR it is the body of hazomeny_html_body. Refusals: those of hazomeny_check_strict, then 10. Otherwise as
 * hazomeny_html_body, with the same `room` being enough. */
uint64_t hazomeny_html_body_strict(const uint8_t *file, size_t length, uint8_t *page, size_t room);

/* The whole HTML document with the strict body. Otherwise as hazomeny_html_body_strict. */
uint64_t hazomeny_html_document_strict(const uint8_t *file, size_t length, uint8_t *page, size_t room);

/* The mask of a file: the same file, but each byte of its texts (fields 17 and 7) that is no newline is `x`. All else is copied, the names of
 * anchors too. Only reads the file. The mask has the file's length, is accepted itself, and its pages break into the same lines. Otherwise as
 * hazomeny_plain, but the `room` with which 10 never comes is `length`. */
uint64_t hazomeny_mask(const uint8_t *file, size_t length, uint8_t *page, size_t room);

/* The check of a pair, which is a file and its mask, and of a place in both. Only reads them. Answers the length of the text whose field, a 17
 * or 7, has its tag at `place`. The first of these refusals answers:
 *
 *     1, 3 to 9  the original's, by the file check; then the mask's
 *            12  the second file is not the mask of the first; the place is the first byte that is not the mask's, or the length of the
 *                shorter file if there is none before it
 *            13  no 17 or 7 begins at `place` */
uint64_t hazomeny_pair(const uint8_t *original, size_t length, const uint8_t *mask, size_t mask_length, uint32_t place);

/* The text at a place of a pair, no copy but a part of one of the two files: of the original for a reader with the right to names, else of the
 * mask. Its length is the number that hazomeny_pair answered; only where that accepted the same files and place may this be called. */
static inline const uint8_t *hazomeny_text(const uint8_t *original, const uint8_t *mask, uint32_t place, bool names) {
    return (names ? original : mask) + place + 3; /* behind the field's tag and its two bytes of length */
}

/* A writer: the bytes that it writes a fragment file into, how many they are, and how far it has come. The struct is the caller's own.
 * hazomeny_writer_over starts one; below are the steps, which write a file from its front to its end. examples/write.c writes a call.
 *
 * Each step answers how many bytes are written so far, and hazomeny_finish the length of the file, which hazomeny_check accepts: that is
 * proved.
 *
 * Every answer has to be looked at: a refused step has changed nothing, neither file nor writer, and the next step is taken as if it had not
 * been tried. The first of these refusals answers, and its place, but for 10, is how many bytes were written before the step:
 *
 *     11  the step is not allowed where the writer stands: a node in a block but not in a fragment of it, a close of what is not the innermost
 *         open field, a join behind a node where none is, a finish while a field is open; or there is no such step; or `state` is none that a
 *         writer can have
 *      8  the style is not allowed: an opacity that is neither 0 nor from 1/1024 to 1, or without a colour; a size over 117; both scripts
 *      7  the text or name is not UTF-8
 *      9  an anchor's name has a `"`
 *      6  a block, or a join, which has one, inside 32 blocks
 *      1  the file would be longer than HAZOMENY_MOST_BYTES
 *     10  the file would be longer than `room`; the place is the bytes that it needs. Give the writer more room, with the bytes written so far
 *         at its start, and make the step again. */
typedef struct hazomeny_writer {
    uint8_t *file;
    size_t room;
    uint32_t state[2]; /* the library's own; {0, 0} at the start */
} hazomeny_writer;

/* The style of a text. A `has_` member that is not 0 says that the value behind it counts, and `styled` that any of it does: without it the
 * text has no style, with it alone an empty one. Where a function takes a style NULL is none. */
typedef struct hazomeny_style {
    uint8_t styled;
    uint8_t has_colour;
    uint8_t colour[3]; /* red, green, blue */
    uint8_t has_opacity;
    uint8_t opacity[4]; /* the bits of a float, high byte first; see hazomeny_set_opacity */
    uint8_t has_thickness;
    uint8_t thickness; /* a signed byte, so (uint8_t)-1 is thinner by one step */
    uint8_t has_size;
    uint8_t size; /* a signed byte, in tenths of an em above or below 1 */
    uint8_t subscript;
    uint8_t superscript;
    uint8_t dim;
    uint8_t underline;
} hazomeny_style;

/* The library takes a style as its bytes. */
#if defined(__cplusplus) && __cplusplus >= 201103L
static_assert(sizeof(hazomeny_style) == 18, "a style is 18 bytes");
#elif defined(__STDC_VERSION__) && __STDC_VERSION__ >= 201112L
_Static_assert(sizeof(hazomeny_style) == 18, "a style is 18 bytes");
#endif

/* The steps by their numbers. */
enum {
    HAZOMENY_STEP_TEXT = 0,
    HAZOMENY_STEP_BREAKING_ONLY_SPACE = 1,
    HAZOMENY_STEP_FORCE_LINE_SEPARATION = 2,
    HAZOMENY_STEP_IF_BLOCK_LAYOUT = 3,
    HAZOMENY_STEP_OPEN_ANCHOR_DEFINITION = 4,
    HAZOMENY_STEP_OPEN_ANCHOR_USE = 5,
    HAZOMENY_STEP_CLOSE_ANCHOR = 6,
    HAZOMENY_STEP_OPEN_INDENTED_BLOCK = 7,
    HAZOMENY_STEP_OPEN_INLINE_OR_INDENTED_BLOCK = 8,
    HAZOMENY_STEP_CLOSE_BLOCK = 9,
    HAZOMENY_STEP_OPEN_FRAGMENT = 10,
    HAZOMENY_STEP_CLOSE_FRAGMENT = 11,
    HAZOMENY_STEP_BEGIN_JOIN_SPACE = 12,
    HAZOMENY_STEP_BEGIN_JOIN_SPACE_BEHIND = 13,
    HAZOMENY_STEP_BEGIN_JOIN_COMMA_SEP = 14,
    HAZOMENY_STEP_BEGIN_JOIN_COMMA_SEP_BEHIND = 15,
    HAZOMENY_STEP_NEXT_ENTRY = 16,
    HAZOMENY_STEP_END_JOIN_SPACE = 17,
    HAZOMENY_STEP_END_JOIN_COMMA_SEP = 18,
    HAZOMENY_STEP_FINISH = 19
};

/* One step of a writer, by its number. At every step `style` points to 18 bytes that can be read; text is looked at only by the steps that take
 * one. The functions below name the steps. */
uint64_t hazomeny_write(uint8_t *file, size_t room, uint32_t state[2], uint8_t step, const uint8_t style[18], const uint8_t *text,
                        size_t length);

/* A writer at the start of a file, into `room` bytes at `file`. HAZOMENY_MOST_BYTES are always enough. */
static inline hazomeny_writer hazomeny_writer_over(uint8_t *file, size_t room) {
    hazomeny_writer writer = {file, room, {0, 0}};
    return writer;
}

/* Gives a style an opacity, which is 0 or from 1/1024 to 1. Only a style with a colour may have one. */
static inline void hazomeny_set_opacity(hazomeny_style *style, float opacity) {
    uint32_t bits;
    memcpy(&bits, &opacity, sizeof bits);
    style->has_opacity = 1;
    for (int i = 0; i < 4; i++) style->opacity[i] = (uint8_t)(bits >> (24 - 8 * i));
}

/* A step with a style and a text, or a name; and one with neither. */
static inline uint64_t hazomeny_step_with(hazomeny_writer *writer, uint8_t step, const hazomeny_style *style, const void *text,
                                          size_t length) {
    static const uint8_t none[sizeof(hazomeny_style)] = {0};
    const uint8_t *bytes = style ? (const uint8_t *)style : none;
    return hazomeny_write(writer->file, writer->room, writer->state, step, bytes, (const uint8_t *)text, length);
}
static inline uint64_t hazomeny_step(hazomeny_writer *writer, uint8_t step) { return hazomeny_step_with(writer, step, NULL, NULL, 0); }

/* Nodes without an inside: a text, which is also allowed in an anchor; a space, or a line's end in its place; what follows goes on another
 * line; a text that shows only where the block around it is broken into lines. */
static inline uint64_t hazomeny_write_text(hazomeny_writer *writer, const hazomeny_style *style, const void *text, size_t length) {
    return hazomeny_step_with(writer, HAZOMENY_STEP_TEXT, style, text, length);
}
static inline uint64_t hazomeny_write_breaking_only_space(hazomeny_writer *writer) {
    return hazomeny_step(writer, HAZOMENY_STEP_BREAKING_ONLY_SPACE);
}
static inline uint64_t hazomeny_write_force_line_separation(hazomeny_writer *writer) {
    return hazomeny_step(writer, HAZOMENY_STEP_FORCE_LINE_SEPARATION);
}
static inline uint64_t hazomeny_write_if_block_layout(hazomeny_writer *writer, const void *text, size_t length) {
    return hazomeny_step_with(writer, HAZOMENY_STEP_IF_BLOCK_LAYOUT, NULL, text, length);
}

/* An anchor: uses of a name lead to its definition. Texts may stand in it. */
static inline uint64_t hazomeny_open_anchor_definition(hazomeny_writer *writer, const void *name, size_t length) {
    return hazomeny_step_with(writer, HAZOMENY_STEP_OPEN_ANCHOR_DEFINITION, NULL, name, length);
}
static inline uint64_t hazomeny_open_anchor_use(hazomeny_writer *writer, const void *name, size_t length) {
    return hazomeny_step_with(writer, HAZOMENY_STEP_OPEN_ANCHOR_USE, NULL, name, length);
}
static inline uint64_t hazomeny_close_anchor(hazomeny_writer *writer) { return hazomeny_step(writer, HAZOMENY_STEP_CLOSE_ANCHOR); }

/* A block, always broken into lines, or staying on its line if it fits there. Fragments stand in it, and in a fragment any nodes. */
static inline uint64_t hazomeny_open_indented_block(hazomeny_writer *writer) {
    return hazomeny_step(writer, HAZOMENY_STEP_OPEN_INDENTED_BLOCK);
}
static inline uint64_t hazomeny_open_inline_or_indented_block(hazomeny_writer *writer) {
    return hazomeny_step(writer, HAZOMENY_STEP_OPEN_INLINE_OR_INDENTED_BLOCK);
}
static inline uint64_t hazomeny_close_block(hazomeny_writer *writer) { return hazomeny_step(writer, HAZOMENY_STEP_CLOSE_BLOCK); }
static inline uint64_t hazomeny_open_fragment(hazomeny_writer *writer) { return hazomeny_step(writer, HAZOMENY_STEP_OPEN_FRAGMENT); }
static inline uint64_t hazomeny_close_fragment(hazomeny_writer *writer) { return hazomeny_step(writer, HAZOMENY_STEP_CLOSE_FRAGMENT); }

/* A join: entries, each begun by hazomeny_next_entry and holding any nodes. By spaces it shows as `header a b`, by commas as
 * `prefix a, b suffix`, or with each entry on lines of its own. The header or prefix is the text given here; for the functions with `_behind`
 * it is the node just written, of whatever kind. The suffix is a text. */
static inline uint64_t hazomeny_begin_join_space(hazomeny_writer *writer, const hazomeny_style *style, const void *header, size_t length) {
    return hazomeny_step_with(writer, HAZOMENY_STEP_BEGIN_JOIN_SPACE, style, header, length);
}
static inline uint64_t hazomeny_begin_join_space_behind(hazomeny_writer *writer) {
    return hazomeny_step(writer, HAZOMENY_STEP_BEGIN_JOIN_SPACE_BEHIND);
}
static inline uint64_t hazomeny_begin_join_comma_sep(hazomeny_writer *writer, const hazomeny_style *style, const void *prefix, size_t length) {
    return hazomeny_step_with(writer, HAZOMENY_STEP_BEGIN_JOIN_COMMA_SEP, style, prefix, length);
}
static inline uint64_t hazomeny_begin_join_comma_sep_behind(hazomeny_writer *writer) {
    return hazomeny_step(writer, HAZOMENY_STEP_BEGIN_JOIN_COMMA_SEP_BEHIND);
}
static inline uint64_t hazomeny_next_entry(hazomeny_writer *writer) { return hazomeny_step(writer, HAZOMENY_STEP_NEXT_ENTRY); }
static inline uint64_t hazomeny_end_join_space(hazomeny_writer *writer) { return hazomeny_step(writer, HAZOMENY_STEP_END_JOIN_SPACE); }
static inline uint64_t hazomeny_end_join_comma_sep(hazomeny_writer *writer, const hazomeny_style *style, const void *suffix, size_t length) {
    return hazomeny_step_with(writer, HAZOMENY_STEP_END_JOIN_COMMA_SEP, style, suffix, length);
}

/* The length of the file, if nothing is open. It changes nothing. */
static inline uint64_t hazomeny_finish(hazomeny_writer *writer) { return hazomeny_step(writer, HAZOMENY_STEP_FINISH); }

#ifdef __cplusplus
}
#endif

#endif
