/* Fuzzes the writer of libhazomeny.a: `steps SEED SECONDS FINDING` makes random steps, on new writers and on states that no writer has. Buffer,
 * state, style and text are lent twice: flush before memory that may not be touched, and flush behind such; a text that a step does not take is such
 * memory itself. So whatever is read or written beside what was lent stops the run, as do answers that are not as
 * include/hazomeny.h says. The buffer before the step of a finding is written to FINDING. */
#define _DEFAULT_SOURCE
#include "guards.h"
#include "hazomeny.h"

enum {
    MOST_ROOM = 61000, /* more than any file needs */
    MOST_TEXT = 61000,
    STYLE = sizeof(hazomeny_style),
    STATE = 2 * sizeof(uint32_t),
    HEADER = 3,
    PATTERN = 0xa5 /* what a buffer is lent filled with */
};

/* ---- the writer that is tried, the step, and where things are said about them ---- */

static uint8_t file[MOST_ROOM];
static size_t room;
static uint32_t state[2];
static int is_true; /* the state is one that steps led to */

static struct {
    uint8_t step, style[STYLE], text[MOST_TEXT];
    size_t length;
} call;

static const char *finding_path, *where = "";
static uint64_t seed, steps;

static void show(const char *name, const uint8_t *bytes, size_t count) {
    fprintf(stderr, "  %s of %zu bytes:", name, count);
    for (size_t i = 0; i < count && i < 64; i++) fprintf(stderr, " %02x", bytes[i]);
    fprintf(stderr, "\n");
}

/* Says what was found, keeps the buffer and stops. */
static void finding(const char *why) {
    fprintf(stderr, "fuzz: %s\n  step %u, lent flush %s a guard, state %lu %lu, room %zu: %s\n  seed %llu, step number %llu\n", why, call.step, where,
            (unsigned long)state[0], (unsigned long)state[1], room, finding_path, (unsigned long long)seed, (unsigned long long)steps);
    show("style", call.style, STYLE);
    show("text", call.text, call.length);
    FILE *to = fopen(finding_path, "wb");
    if (to) {
        fwrite(file, 1, room, to);
        fclose(to);
    }
    exit(1);
}

static void demand(int holds, const char *why) {
    if (!holds) finding(why);
}

/* ---- which steps ---- */

static int takes_style(uint8_t step) {
    return step == HAZOMENY_STEP_TEXT || step == HAZOMENY_STEP_BEGIN_JOIN_SPACE || step == HAZOMENY_STEP_BEGIN_JOIN_COMMA_SEP ||
           step == HAZOMENY_STEP_END_JOIN_COMMA_SEP;
}

static int takes_text(uint8_t step) {
    return takes_style(step) || step == HAZOMENY_STEP_IF_BLOCK_LAYOUT || step == HAZOMENY_STEP_OPEN_ANCHOR_DEFINITION ||
           step == HAZOMENY_STEP_OPEN_ANCHOR_USE;
}

/* 0 at the root, else 1 and the kind of the innermost open field, as its header says it: a block's fragment, an entry of a join by spaces or by
 * commas, the two blocks, the two joins, an anchor. */
static size_t standing(void) {
    size_t top = state[1];
    return top && top <= room ? 1 + file[top - 1] / 32u : 0;
}

static int deep; /* whether steps lead further in, to where a block is inside too many others */

/* A step that what is open may allow. */
static uint8_t fitting_step(void) {
    static const uint8_t any[9][4] = {{0, 4, 12, 14},  {7, 8, 13, 11},   {14, 15, 16, 17}, {12, 8, 16, 18}, {10, 10, 10, 9},
                                      {10, 10, 10, 9}, {16, 16, 16, 17}, {16, 16, 16, 18}, {0, 0, 6, 6}};
    static const uint8_t inward[9][4] = {{7, 8, 12, 14},   {7, 8, 12, 14},   {7, 8, 12, 14},   {7, 8, 12, 14}, {10, 10, 10, 10},
                                         {10, 10, 10, 10}, {16, 16, 16, 16}, {16, 16, 16, 16}, {6, 6, 6, 6}};
    return (deep ? inward : any)[standing()][below(4)];
}

/* The step that leads out of what is open, and at the root the last. */
static uint8_t closing_step(void) {
    static const uint8_t closing[9] = {HAZOMENY_STEP_FINISH,
                                       HAZOMENY_STEP_CLOSE_FRAGMENT,
                                       HAZOMENY_STEP_END_JOIN_SPACE,
                                       HAZOMENY_STEP_END_JOIN_COMMA_SEP,
                                       HAZOMENY_STEP_CLOSE_BLOCK,
                                       HAZOMENY_STEP_CLOSE_BLOCK,
                                       HAZOMENY_STEP_END_JOIN_SPACE,
                                       HAZOMENY_STEP_END_JOIN_COMMA_SEP,
                                       HAZOMENY_STEP_CLOSE_ANCHOR};
    return closing[standing()];
}

static uint8_t any_step(void) {
    if (one_in(40)) return (uint8_t)bits();
    return one_in(deep ? 30 : 4) ? (uint8_t)below(20) : fitting_step();
}

static void any_style(void) {
    static const uint8_t values[] = {0, 0, 0, 1, 0x3a, 0x3f, 0x7f, 0x80, 117, 118, 255};
    memset(call.style, 0, STYLE);
    if (one_in(2)) return;
    for (size_t i = 0; i < STYLE; i++) call.style[i] = one_in(3) ? values[below(sizeof values)] : 0;
    call.style[0] = !one_in(4);
}

static void any_text(void) {
    static const char *const pieces[] = {"a", "b", ",", "\n", "\"", "&", "<", "\xc3\xa9", "\xe2\x82\xac", "\xf0\x9f\x98\x80", "\xff", "\xe2\x82", ""};
    size_t count = one_in(8) ? below(60) : below(6), left = MOST_TEXT;
    call.length = 0;
    if (one_in(400)) { /* as long as a file may be, or about that */
        call.length = HAZOMENY_MOST_BYTES - 100 + below(120);
        memset(call.text, 'p', call.length);
        left -= call.length;
    }
    for (; count > 0 && left > 8; count--) {
        const char *piece = pieces[one_in(6) ? below(sizeof pieces / sizeof *pieces) : below(4)];
        memcpy(call.text + call.length, piece, strlen(piece));
        call.length += strlen(piece);
        left -= strlen(piece);
    }
}

static void next_call(uint8_t step) {
    call.step = step;
    any_style();
    any_text();
}

/* ---- which states ---- */

static uint32_t any_number(void) {
    static const uint32_t edges[] = {0, 1, 2, 3, HAZOMENY_MOST_BYTES, 0x7fffffff, 0x80000000, 0xfffffffd, 0xfffffffe, 0xffffffff};
    uint32_t near = (uint32_t)below(7) - 3;
    switch (below(5)) {
    case 0: return edges[below(sizeof edges / sizeof *edges)];
    case 1: return (uint32_t)bits();
    case 2: return (uint32_t)room + near;
    case 3: return state[below(2)] + near;
    default: return (uint32_t)below(room + 4);
    }
}

/* A number of the state, or a byte of the innermost open field's header, or one anywhere. */
static void corrupt(void) {
    size_t top = state[1];
    is_true = 0;
    switch (below(4)) {
    case 0: state[0] = any_number(); break;
    case 1: state[1] = any_number(); break;
    case 2:
        if (top && top + 2 <= room) file[top - 1 + below(HEADER)] = one_in(2) ? (uint8_t)bits() : (uint8_t)below(8);
        break;
    default:
        if (room) file[below(room)] = (uint8_t)bits();
    }
}

static size_t any_room(void) {
    switch (below(30)) {
    case 0:
    case 1: return below(10);
    case 2: return HAZOMENY_MOST_BYTES - 3 + below(7);
    default: return below(600);
    }
}

static void new_writer(void) {
    room = any_room();
    memset(file, PATTERN, room);
    state[0] = state[1] = 0;
    is_true = 1;
    deep = one_in(8);
}

/* ---- lending ---- */

static struct {
    struct region file, state, style, text;
} ways[2];
static uint8_t *untouchable;

/* What a step leaves behind, lent in one way. */
struct left {
    uint64_t answer;
    uint8_t *file;
    uint32_t state[2];
};

static struct left made(int way) {
    uint8_t *lent_file = lent(way, ways[way].file, room), *lent_state = lent(way, ways[way].state, STATE);
    uint8_t *style = lent(way, ways[way].style, STYLE), *text = lent(way, ways[way].text, call.length);
    int texted = takes_text(call.step);
    struct left left = {.file = lent_file};
    where = where_lent[way];
    memcpy(lent_file, file, room);
    memcpy(lent_state, state, STATE);
    memcpy(style, call.style, STYLE);
    memcpy(text, call.text, call.length);
    left.answer = hazomeny_write(lent_file, room, (uint32_t *)(void *)lent_state, call.step, style, texted ? text : untouchable, call.length);
    memcpy(left.state, lent_state, STATE);
    demand(memcmp(style, call.style, STYLE) == 0 && memcmp(text, call.text, call.length) == 0, "a step that changed its style or text");
    return left;
}

/* ---- what has to hold of a step ---- */

static uint64_t accepted, finished, refusals[12];

static int is_refusal(unsigned number) { return number == 1 || (number >= 6 && number <= 11); }

/* A refused step changes nothing, and is refused at the write position, or by 10 with more than there is room for. */
static void refused_soundly(const struct left *left, unsigned number) {
    uint64_t place = hazomeny_number(left->answer);
    demand(is_refusal(number), "a refusal that a step does not have");
    refusals[number]++;
    demand(number == 10 ? place > room && place <= HAZOMENY_MOST_BYTES : place == state[0], "a refusal at a wrong place");
    demand(memcmp(left->file, file, room) == 0 && memcmp(left->state, state, STATE) == 0, "a refused step that changed something");
}

/* An accepted step writes on from where it stood, changes no byte before but at most two headers, and none behind. */
static void accepted_soundly(const struct left *left) {
    size_t at = state[0], end = left->state[0], changed = 0;
    accepted++;
    demand(call.step <= HAZOMENY_STEP_FINISH, "a step that there is not");
    demand(hazomeny_number(left->answer) == end && end >= at && end <= room && end <= HAZOMENY_MOST_BYTES, "a wrong write position");
    for (size_t i = 0; i < at; i++) changed += left->file[i] != file[i];
    demand(changed <= 2 * HEADER, "a step that changes what is written");
    demand(memcmp(left->file + end, file + end, room - end) == 0, "a step that writes behind its end");
    if (call.step == HAZOMENY_STEP_FINISH) demand(end == at && changed == 0 && left->state[1] == 0, "a finish that changes something");
}

/* The file of a writer that was never corrupted is accepted. */
static void finished_soundly(const struct left *left) {
    finished++;
    demand(hazomeny_check(left->file, left->state[0]) == 0, "a finished file that is refused");
}

static void try_step(void) {
    struct left left[2] = {made(0), made(1)};
    demand(left[0].answer == left[1].answer && memcmp(left[0].state, left[1].state, STATE) == 0, "two answers to one step");
    demand(memcmp(left[0].file, left[1].file, room) == 0, "two files from one step");
    unsigned number = hazomeny_refusal(left[0].answer);
    if (number) {
        refused_soundly(&left[0], number);
        return;
    }
    accepted_soundly(&left[0]);
    if (call.step == HAZOMENY_STEP_FINISH && is_true) finished_soundly(&left[0]);
    memcpy(file, left[0].file, room);
    memcpy(state, left[0].state, STATE);
}

/* A new writer and some steps, after some of which its state is corrupted; then the steps out of what is open, as far as they lead. */
static void try_writer(void) {
    alarm(PATIENCE);
    new_writer();
    for (size_t left = below(80); left > 0; left--, steps++) {
        if (one_in(100)) corrupt();
        next_call(any_step());
        try_step();
    }
    for (size_t left = 100; left > 0 && call.step != HAZOMENY_STEP_FINISH; left--, steps++) {
        next_call(closing_step());
        try_step();
    }
}

static void tell(void) {
    printf("fuzz: %llu steps, %llu of them accepted, %llu files finished and checked\nfuzz: refused by", (unsigned long long)steps,
           (unsigned long long)accepted, (unsigned long long)finished);
    for (unsigned number = 1; number <= 11; number++)
        if (is_refusal(number)) printf(" %u: %llu", number, (unsigned long long)refusals[number]);
    printf("\n");
}

static void make_room(void) {
    for (int way = 0; way < 2; way++) {
        ways[way].file = guarded(MOST_ROOM);
        ways[way].state = guarded(STATE);
        ways[way].style = guarded(STYLE);
        ways[way].text = guarded(MOST_TEXT);
    }
    struct region none = guarded(MOST_TEXT);
    if (mprotect(none.start, (size_t)(none.end - none.start), PROT_NONE)) stop("memory cannot be protected");
    untouchable = none.start;
}

int main(int count, char **words) {
    if (count != 4) stop("usage: steps SEED SECONDS FINDING");
    seed = seeded(words[1]);
    const time_t end = time(NULL) + atol(words[2]);
    finding_path = words[3];
    make_room();
    printf("fuzz: seed %llu, steps of writers\n", (unsigned long long)seed);
    fflush(stdout);
    int number = sigsetjmp(stopped, 1);
    if (number) finding(stopped_by(number));
    catch_signals();
    while (time(NULL) < end) try_writer();
    tell();
    return 0;
}
