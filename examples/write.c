/* Writes the call `f(a, b)` step by step, checks the file, and prints it at widths 7 and 6. */
#include "hazomeny.h"
#include <stdio.h>
#include <stdlib.h>
#include <string.h>

enum { ROOM = 200 };

/* The number of an answer; a refusal ends the program. */
static size_t accepted(uint64_t answer) {
    if (hazomeny_refusal(answer)) {
        fprintf(stderr, "refused %u at %llu\n", hazomeny_refusal(answer), (unsigned long long)hazomeny_number(answer));
        exit(1);
    }
    return hazomeny_number(answer);
}

/* A call with its arguments joined by commas; answers the length of the file. */
static size_t write_call(uint8_t *file, size_t room) {
    static const char *const arguments[] = {"a", "b"};
    hazomeny_writer writer = hazomeny_writer_over(file, room);
    accepted(hazomeny_begin_join_comma_sep(&writer, NULL, "f(", 2));
    for (size_t i = 0; i < sizeof arguments / sizeof *arguments; i++) {
        accepted(hazomeny_next_entry(&writer));
        accepted(hazomeny_write_text(&writer, NULL, arguments[i], strlen(arguments[i])));
    }
    accepted(hazomeny_end_join_comma_sep(&writer, NULL, ")", 1));
    return accepted(hazomeny_finish(&writer));
}

static void print_at(uint8_t *file, size_t length, size_t width) {
    uint8_t page[HAZOMENY_PLAIN_PER_BYTE * ROOM];
    accepted(hazomeny_layout(file, length, width));
    fwrite(page, 1, accepted(hazomeny_plain(file, length, page, sizeof page)), stdout);
    putchar('\n');
}

int main(void) {
    uint8_t file[ROOM];
    size_t length = write_call(file, sizeof file);
    accepted(hazomeny_check(file, length));
    print_at(file, length, 7);
    print_at(file, length, 6);
    return fflush(stdout) == 0 ? 0 : 2;
}
