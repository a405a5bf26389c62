/* Fuzzes the masks and pairs of libhazomeny.a: `pairs SEED SECONDS FINDING SEEDS..` changes seed files at random, has each masked, and reads couples of
 * it and its mask, one or both of them changed, at random places. Files and pages are lent twice: flush before a page of memory that may not be touched,
 * and flush behind one; the files may not be written either. So whatever is read or written beside what was lent stops the run, as does an answer that
 * is not that of the walk below. SEEDS are fragment files, and request batches of tests/recorded; the file of a finding is written to FINDING, the second
 * of a couple to FINDING.second. */
#define _DEFAULT_SOURCE
#include "files.h"
#include "hazomeny.h"

/* Declared here too, so that the compiler tells of a header that has them otherwise. */
uint64_t hazomeny_mask(const uint8_t *file, size_t length, uint8_t *page, size_t room);
uint64_t hazomeny_pair(const uint8_t *original, size_t length, const uint8_t *mask, size_t mask_length, uint32_t place);
uint64_t hazomeny_check_strict(const uint8_t *file, size_t length);
uint64_t hazomeny_html_body_strict(const uint8_t *file, size_t length, uint8_t *page, size_t room);

enum {
    MOST_PAGE = MOST_FILE + 100,
    COUPLES = 10, /* of an accepted file; few of a refused one, of which no couple is a pair */
    FEW = 2,
    TEXT_BYTES = 17,
    IF_BLOCK_LAYOUT = 7,
    PATTERN = 0xa5 /* what a page is lent filled with */
};

/* ---- the couple that is tried, and where things are said about it ---- */

static uint8_t second[MOST_FILE];
static size_t second_length;

/* What is being done, for a finding. */
static struct {
    const char *entry, *where;
    size_t room;
    uint32_t place;
} now = {"none", "", 0, 0};

/* Says what was found, keeps the files and stops. */
static void finding(const char *why) {
    char path[4096];
    fprintf(stderr, "fuzz: %s\n  %s, lent flush %s a guard, room %zu, place %lu, files of %zu and %zu bytes: %s\n  seed %llu, file %llu\n", why, now.entry,
            now.where, now.room, (unsigned long)now.place, length, second_length, finding_path, (unsigned long long)seed, (unsigned long long)files);
    save(finding_path, file, length);
    snprintf(path, sizeof path, "%s.second", finding_path);
    save(path, second, second_length);
    exit(1);
}

static void demand(int holds, const char *why) {
    if (!holds) finding(why);
}

/* ---- what is right ---- */

static uint64_t coded(unsigned number, uint64_t above) { return above << 8 | number; }

/* The mask of the file, and its texts. */
static uint8_t mask[MOST_FILE];
static struct {
    size_t place, length;
} texts[MOST_FILE / HEADER];
static size_t texted;

static void mask_text(size_t at, size_t inside, size_t after) {
    texts[texted].place = at;
    texts[texted++].length = after - inside;
    for (size_t i = inside; i < after; i++)
        if (file[i] != '\n') mask[i] = 'x';
}

/* The fields from `at` to `end`, of a refused file as far as they are whole. */
static void mask_fields(size_t at, size_t end, size_t depth) {
    while (end - at >= HEADER && read_length(at) <= end - at - HEADER) {
        size_t inside = at + HEADER, after = inside + read_length(at);
        if (file[at] == TEXT_BYTES || file[at] == IF_BLOCK_LAYOUT) mask_text(at, inside, after);
        if (holds_fields(file[at]) && depth < MOST_DEPTH) mask_fields(inside, after, depth + 1);
        at = after;
    }
}

static void mask_file(void) {
    memcpy(mask, file, length);
    texted = 0;
    mask_fields(0, length, 0);
}

static uint64_t right_mask(uint64_t checked, size_t room) {
    if (checked) return checked;
    return room < length ? coded(10, length) : coded(0, length);
}

/* What is said of the couple at any place, if it is no pair; else 0. */
static uint64_t no_pair(void) {
    size_t shorter = length < second_length ? length : second_length;
    uint64_t first = hazomeny_check(file, length), other = hazomeny_check(second, second_length);
    if (first || other) return first ? first : other;
    for (size_t i = 0; i < shorter; i++)
        if (mask[i] != second[i]) return coded(12, i);
    return length == second_length ? 0 : coded(12, shorter);
}

static uint64_t right_text(uint32_t place) {
    for (size_t i = 0; i < texted; i++)
        if (texts[i].place == place) return coded(0, texts[i].length);
    return coded(13, place);
}

/* ---- lending ---- */

static struct {
    struct region files, seconds, pages;
} ways[2];

static uint8_t *lent_file(int way) { return lent(way, ways[way].files, length); }
static uint8_t *lent_second(int way) { return lent(way, ways[way].seconds, second_length); }

static void allow(struct region region, int protection) {
    if (mprotect(region.start, (size_t)(region.end - region.start), protection)) stop("memory cannot be protected");
}

/* Both files twice, which can be read from now on and not be written. */
static void lend_files(void) {
    for (int way = 0; way < 2; way++) {
        allow(ways[way].files, PROT_READ | PROT_WRITE);
        allow(ways[way].seconds, PROT_READ | PROT_WRITE);
        memcpy(lent_file(way), file, length);
        memcpy(lent_second(way), second, second_length);
        allow(ways[way].files, PROT_READ);
        allow(ways[way].seconds, PROT_READ);
    }
}

/* ---- calls, and what has to hold of them ---- */

static uint64_t accepted, masks[14], pairs[14];
static uint8_t pattern[MOST_PAGE];

static void begin(const char *entry, int way, size_t room, uint32_t place) {
    now.entry = entry;
    now.where = where_lent[way];
    now.room = room;
    now.place = place;
}

static void try_mask(uint64_t checked, size_t room) {
    uint64_t right = right_mask(checked, room);
    size_t written = hazomeny_refusal(right) ? 0 : length;
    masks[hazomeny_refusal(right)]++;
    for (int way = 0; way < 2; way++) {
        uint8_t *page = lent(way, ways[way].pages, room);
        memcpy(page, pattern, room);
        begin("mask", way, room, 0);
        demand(hazomeny_mask(lent_file(way), length, page, room) == right, "a mask that is answered wrongly");
        demand(memcmp(page, mask, written) == 0, "a mask that is not the file's");
        demand(memcmp(page + written, pattern, room - written) == 0, "bytes behind the mask that changed, or a refusal that writes");
    }
}

/* In no room, a byte too few, just enough, more, and any. */
static void try_masks(uint64_t checked) {
    size_t rooms[] = {0, length ? length - 1 : 0, length, length + below(100), below(length + 20)};
    second_length = 0;
    lend_files();
    for (int i = 0; i < 5; i++) try_mask(checked, rooms[i]);
}

/* Whether a text of the file has a byte that strict HTML refuses or writes otherwise. */
static int escaped(void) {
    for (size_t i = 0; i < texted; i++)
        for (size_t at = texts[i].place + HEADER, left = texts[i].length; left > 0; at++, left--)
            if (file[at] == 0 || strchr("\r&<", file[at])) return 1;
    return 0;
}

/* Strict mode accepts the mask of every accepted file, and where no byte is escaped it measures the bodies of both alike. */
static void try_strict(void) {
    begin("check_strict", 0, 0, 0);
    demand(hazomeny_check_strict(mask, length) == 0, "a mask that strict mode refuses");
    if (escaped()) return;
    begin("html_body_strict", 0, 0, 0);
    demand(hazomeny_html_body_strict(file, length, NULL, 0) == hazomeny_html_body_strict(mask, length, NULL, 0), "a strict body of another length than the mask's");
}

/* A text's place mostly; else one that is a text's if only its low bytes count, or any. */
static uint32_t any_place(void) {
    uint32_t text = texted ? (uint32_t)texts[below(texted)].place : 0;
    switch (below(8)) {
    case 0: return (uint32_t)bits();
    case 1: return UINT32_MAX - (uint32_t)below(4);
    case 2: return text + ((uint32_t)(1 + below(3)) << 16);
    case 3:
    case 4: return (uint32_t)below(length + 4);
    default: return text;
    }
}

/* The couple as it stands, at some places. */
static void try_couple(void) {
    mask_file();
    uint64_t refused = no_pair();
    lend_files();
    for (size_t left = refused ? 2 : 6; left > 0; left--) {
        uint32_t place = any_place();
        uint64_t right = refused ? refused : right_text(place);
        pairs[hazomeny_refusal(right)]++;
        for (int way = 0; way < 2; way++) {
            begin("pair", way, 0, place);
            demand(hazomeny_pair(lent_file(way), length, lent_second(way), second_length, place) == right, "a pair that is answered wrongly");
        }
    }
}

/* ---- which couples ---- */

static void set_second(const uint8_t *bytes, size_t count) {
    memcpy(second, bytes, count);
    second_length = count;
}

/* The two files change places. */
static void exchange(void) {
    static uint8_t kept[MOST_FILE];
    size_t kept_length = length;
    memcpy(kept, file, length);
    memcpy(file, second, second_length);
    length = second_length;
    set_second(kept, kept_length);
}

/* One byte of the file, often one of a text. */
static void spoil(void) {
    static const uint8_t likely[] = {'a', 'x', '\n'};
    if (length == 0) return;
    size_t text = texted ? below(texted) : 0;
    if (texted && texts[text].length && texts[text].place + HEADER + texts[text].length <= length && one_in(2))
        file[texts[text].place + HEADER + below(texts[text].length)] = likely[below(3)];
    else
        file[below(length)] = likely_byte();
}

static void change(void) {
    switch (below(6)) {
    case 0: change_bytes(); break;
    case 1: change_field(); break;
    default: spoil();
    }
}

/* The mask in the place of the second, and a change in either file or both; or some other file. */
static void next_couple(void) {
    size_t other = below(pooled);
    set_second(mask, length);
    switch (below(8)) {
    case 0: break;
    case 1:
        if (one_in(3)) set_second(file, length);
        exchange();
        break;
    case 2: set_second(pool[other].bytes, pool[other].length); break;
    case 3: change(); /* falls through */
    case 4:
    case 5:
        exchange();
        change();
        exchange();
        break;
    default: change();
    }
}

static void try_file(void) {
    static uint8_t kept[MOST_FILE];
    size_t kept_length = length;
    alarm(PATIENCE);
    memcpy(kept, file, length);
    mask_file();
    uint64_t checked = hazomeny_check(file, length);
    accepted += checked == 0;
    if (checked == 0) keep_some();
    if (checked == 0) try_strict();
    try_masks(checked);
    for (int i = checked ? FEW : COUPLES; i > 0; i--) {
        memcpy(file, kept, kept_length);
        length = kept_length;
        mask_file();
        next_couple();
        try_couple();
    }
}

static void tell_answers(const char *name, const uint64_t *answers) {
    printf("fuzz: %s: accepted %llu", name, (unsigned long long)answers[0]);
    for (unsigned number = 1; number <= 13; number++)
        if (answers[number]) printf(", %u: %llu", number, (unsigned long long)answers[number]);
    printf("\n");
}

static void tell(void) {
    printf("fuzz: %llu files, %llu of them accepted\n", (unsigned long long)files, (unsigned long long)accepted);
    tell_answers("masks", masks);
    tell_answers("pairs", pairs);
}

static void make_room(void) {
    memset(pattern, PATTERN, sizeof pattern);
    for (int way = 0; way < 2; way++) {
        ways[way].files = guarded(MOST_FILE);
        ways[way].seconds = guarded(MOST_FILE);
        ways[way].pages = guarded(MOST_PAGE);
    }
}

int main(int count, char **words) {
    make_room();
    printf("fuzz: masks and pairs\n");
    try_files(count, words, try_file, finding);
    tell();
    return 0;
}
