/* Fuzzes libhazomeny.a: `fuzz SEED SECONDS FINDING SEEDS..` changes seed files at random and calls the entries with each, those of strict mode too. Each file and
 * page is lent twice: flush before a page of memory that may not be touched, and flush behind one; a file that an entry only reads may not
 * be written either. So whatever is read or written beside what was lent stops the run, as do answers that are not as include/hazomeny.h
 * says. SEEDS are fragment files, and request batches of tests/recorded; the file of a finding is written to FINDING. */
#define _DEFAULT_SOURCE
#include "files.h"
#include "hazomeny.h"

/* Declared here too, so that the compiler tells of a header that has them otherwise. */
uint64_t hazomeny_check_strict(const uint8_t *file, size_t length);
uint64_t hazomeny_html_body_strict(const uint8_t *file, size_t length, uint8_t *page, size_t room);
uint64_t hazomeny_html_document_strict(const uint8_t *file, size_t length, uint8_t *page, size_t room);

enum {
    MOST_PAGE = 1 << 20, /* a longer page is asked for only in rooms that are too short */
    WIDEST = 6553,
    NUL_IN_TEXT = 14, /* the refusal that strict mode alone has */
    REFUSALS = 15,
    PATTERN = 0xa5 /* what a page is lent filled with */
};

/* ---- where things are said about the file that is tried ---- */

/* What is being done, for a finding. */
static struct {
    const char *entry, *where;
    size_t width, room;
} now = {"none", "", 0, 0};

/* Says what was found, keeps the file and stops. */
static void finding(const char *why) {
    fprintf(stderr, "fuzz: %s\n  %s, lent flush %s a guard, width %zu, room %zu, a file of %zu bytes: %s\n  seed %llu, file %llu\n", why, now.entry,
            now.where, now.width, now.room, length, finding_path, (unsigned long long)seed, (unsigned long long)files);
    save(finding_path, file, length);
    exit(1);
}

/* ---- lending ---- */

/* The two ways of lending: flush behind a guard, and flush before one. */
static struct {
    struct region files, pages;
} ways[2];

static uint8_t *lent_file(int way) { return lent(way, ways[way].files, length); }

static void allow(int protection) {
    for (int way = 0; way < 2; way++) {
        struct region region = ways[way].files;
        if (mprotect(region.start, (size_t)(region.end - region.start), protection)) stop("memory cannot be protected");
    }
}

/* Both copies of the file, which can be read from now on and not be written. */
static void lend_files(void) {
    allow(PROT_READ | PROT_WRITE);
    for (int way = 0; way < 2; way++) memcpy(lent_file(way), file, length);
    allow(PROT_READ);
}

/* ---- calls, and what has to hold of them ---- */

static uint64_t calls, accepted, refusals[REFUSALS];

/* Whether it is strict mode's entries that are called. */
static int strict;

static void demand(int holds, const char *why) {
    if (!holds) finding(why);
}

/* Counts an answer and holds it to the refusals of the check and the one that the entry has beside them. */
static void note(uint64_t answer, unsigned beside) {
    unsigned number = hazomeny_refusal(answer);
    calls++;
    demand(number == beside || (strict && number == NUL_IN_TEXT) || (number != 2 && number < 10), "a refusal that the entry does not have");
    refusals[number]++;
    if (number == 1 || number == 2) demand(hazomeny_number(answer) == 0, "a refusal of the whole that is not at 0");
    if (number >= 3 && number != 10) demand(hazomeny_number(answer) < length, "a refusal behind the file");
}

static void begin(const char *entry, int way, size_t width, size_t room) {
    now.entry = entry;
    now.where = where_lent[way];
    now.width = width;
    now.room = room;
}

static uint64_t check(const char *name, uint64_t (*entry)(const uint8_t *file, size_t length)) {
    uint64_t said[2];
    for (int way = 0; way < 2; way++) {
        begin(name, way, 0, 0);
        said[way] = entry(lent_file(way), length);
        note(said[way], 0);
    }
    demand(said[0] == said[1], "two answers to one file");
    demand(hazomeny_refusal(said[0]) || said[0] == 0, "a check that counts");
    return said[0];
}

/* The layout changes only 4s into 3s, as many as it says, and nothing where it refuses. */
static void laid_out_soundly(const uint8_t *now_there, uint64_t answer) {
    uint64_t changed = 0;
    for (size_t i = 0; i < length; i++) {
        if (now_there[i] == file[i]) continue;
        demand(file[i] == 4 && now_there[i] == 3, "a layout that changes more than 4 to 3");
        changed++;
    }
    demand(changed == (hazomeny_refusal(answer) ? 0 : hazomeny_number(answer)), "a layout that counts wrongly, or refuses and changes");
}

static void layout(uint64_t checked, size_t width) {
    uint64_t said[2];
    allow(PROT_READ | PROT_WRITE);
    for (int way = 0; way < 2; way++) {
        begin("layout", way, width, 0);
        said[way] = hazomeny_layout(lent_file(way), length, width);
        note(said[way], 2);
        laid_out_soundly(lent_file(way), said[way]);
    }
    allow(PROT_READ);
    demand(said[0] == said[1] && memcmp(lent_file(0), lent_file(1), length) == 0, "two layouts of one file");
    uint64_t refused = width > WIDEST && checked != 1 ? 2 : checked;
    demand(!refused == !hazomeny_refusal(said[0]) && (!refused || said[0] == refused), "a layout that refuses otherwise than the check");
    memcpy(file, lent_file(0), length);
    if (!refused) demand(hazomeny_check(lent_file(0), length) == 0, "a layout that leaves a bad file");
}

typedef uint64_t (*page_entry)(const uint8_t *file, size_t length, uint8_t *page, size_t room);

/* A part of memory that is still as it was lent; copying is quicker under an emulator than filling. */
static uint8_t pattern[MOST_PAGE];

static void page_written_soundly(const uint8_t *page, size_t room, uint64_t answer) {
    size_t written = hazomeny_refusal(answer) ? 0 : (size_t)hazomeny_number(answer);
    demand(written <= room, "a page that is longer than its room");
    demand(memcmp(page + written, pattern, room - written) == 0, "bytes behind the page that changed, or a refusal that writes");
}

/* One page in one room; its answer is the same both times, and so is the page. */
static uint64_t print(const char *name, page_entry entry, size_t room) {
    uint64_t said[2];
    uint8_t *page[2];
    for (int way = 0; way < 2; way++) {
        page[way] = lent(way, ways[way].pages, room);
        memcpy(page[way], pattern, room);
        begin(name, way, 0, room);
        said[way] = entry(lent_file(way), length, page[way], room);
        note(said[way], 10);
        page_written_soundly(page[way], room, said[way]);
        demand(memcmp(lent_file(way), file, length) == 0, "an entry that changed the file");
    }
    demand(said[0] == said[1] && memcmp(page[0], page[1], room) == 0, "two pages of one file");
    return said[0];
}

static uint64_t coded(unsigned number, uint64_t above) { return above << 8 | number; }

/* A page whose length is known, in some room. */
static void in_room(const char *name, page_entry entry, size_t needed, size_t asked) {
    size_t room = asked < MOST_PAGE ? asked : MOST_PAGE;
    demand(print(name, entry, room) == (room < needed ? coded(10, needed) : coded(0, needed)), "a page that is answered otherwise than measured");
}

/* A page measured, then in just enough room, a byte too few, more, and any room; now and then in the most that such a file's page can need, where it is not
 * measured first, and a byte less. */
static void pages(const char *name, page_entry entry, size_t most, uint64_t checked) {
    uint64_t measured = print(name, entry, 0);
    if (checked) {
        demand(measured == checked && print(name, entry, below(60)) == checked, "a page that is refused otherwise than by the check");
        return;
    }
    size_t needed = (size_t)hazomeny_number(measured);
    demand(needed == 0 ? measured == 0 : measured == coded(10, needed), "a page that is not measured");
    demand(needed <= most, "a page that is longer than its bound");
    size_t rooms[] = {needed, needed ? needed - 1 : 0, needed + below(100), below(needed + 20)};
    for (int i = 0; i < 4; i++) in_room(name, entry, needed, rooms[i]);
    if (one_in(8)) {
        in_room(name, entry, needed, most);
        in_room(name, entry, needed, most ? most - 1 : 0);
    }
}

/* ---- strict mode ---- */

/* The place of the first 17 or 7 from `at` to `end` that has a NUL, or the file's length; of a refused file as far as its fields are whole. */
static size_t first_nul(size_t at, size_t end, size_t depth) {
    while (end - at >= HEADER && read_length(at) <= end - at - HEADER) {
        size_t inside = at + HEADER, after = inside + read_length(at), found = length;
        if ((file[at] == 17 || file[at] == 7) && memchr(file + inside, 0, after - inside)) return at;
        if (holds_fields(file[at]) && depth < MOST_DEPTH) found = first_nul(inside, after, depth + 1);
        if (found < length) return found;
        at = after;
    }
    return length;
}

/* What the strict check has to say. Whether the walk gets to the first text with a NUL, the check tells: it then refuses it by 7 if the NUL is made a byte
 * that UTF-8 does not have. If that is all that is wrong with the text, the NUL counts. */
static uint64_t right_strict(uint64_t checked) {
    static uint8_t broken[MOST_FILE];
    size_t nul = first_nul(0, length, 0);
    if (nul == length) return checked;
    memcpy(broken, file, length);
    memset(memchr(broken + nul + HEADER, 0, read_length(nul)), 0xff, 1);
    uint64_t refused = hazomeny_check(broken, length);
    return refused == coded(7, nul) && refused != checked ? coded(NUL_IN_TEXT, nul) : checked;
}

/* Whether a strict page is a page with each CR outside its tags written out. A `<` or `>` in quotes is one of a name. */
static int written_out(const uint8_t *page, size_t count, const uint8_t *strict_page, size_t strict_count) {
    static const char reference[] = "&#13;";
    size_t size = sizeof reference - 1, at = 0;
    int in_tag = 0, in_quotes = 0;
    for (size_t i = 0; i < count; i++) {
        int out = page[i] == '\r' && !in_tag;
        size_t some = out ? size : 1;
        if (strict_count - at < some || memcmp(strict_page + at, out ? (const void *)reference : page + i, some) != 0) return 0;
        at += some;
        if (in_tag && page[i] == '"') in_quotes = !in_quotes;
        if (page[i] == '<') in_tag = 1;
        if (page[i] == '>' && !in_quotes) in_tag = 0;
    }
    return at == strict_count;
}

/* A page and the strict one of a file that both modes accept. */
static void both_modes(const char *name, page_entry loose, page_entry strictly) {
    static uint8_t page[MOST_PAGE], strict_page[MOST_PAGE];
    begin(name, 0, 0, MOST_PAGE);
    uint64_t said = loose(file, length, page, MOST_PAGE), strict_said = strictly(file, length, strict_page, MOST_PAGE);
    if (hazomeny_refusal(said) || hazomeny_refusal(strict_said)) return; /* it is longer than that */
    size_t count = (size_t)hazomeny_number(said), strict_count = (size_t)hazomeny_number(strict_said);
    demand(written_out(page, count, strict_page, strict_count), "a strict page that is not the page with its CRs written out");
}

/* All strict entries with the file as it is lent, which the check has spoken of. */
static void try_strict(uint64_t checked, size_t most) {
    strict = 1;
    uint64_t said = check("check_strict", hazomeny_check_strict);
    demand(said == right_strict(checked), "a strict check that is not as the check and the NULs are");
    pages("html_body_strict", hazomeny_html_body_strict, most, said);
    pages("html_document_strict", hazomeny_html_document_strict, most, said);
    strict = 0;
    if (said) return;
    both_modes("html_body in both modes", hazomeny_html_body, hazomeny_html_body_strict);
    both_modes("html_document in both modes", hazomeny_html_document, hazomeny_html_document_strict);
}

/* ---- a page at a width in one call ---- */

/* The header leaves it out, since only the command and the benchmark use it. */
uint64_t hazomeny_print(const uint8_t *file, size_t length, size_t width, uint8_t *page, size_t room);

static size_t print_width;
static uint8_t printed[MOST_PAGE];

static uint64_t print_at(const uint8_t *file, size_t length, uint8_t *page, size_t room) { return hazomeny_print(file, length, print_width, page, room); }

/* It answers and writes what the layout that follows and the plain page of what that leaves do. */
static void print_and_layout(uint64_t checked, size_t width) {
    print_width = width;
    uint64_t refused = width > WIDEST && checked != 1 ? 2 : checked;
    if (refused != 2) pages("print", print_at, HAZOMENY_PLAIN_PER_BYTE * length, refused);
    uint64_t said = print_at(lent_file(0), length, printed, MOST_PAGE);
    demand(!refused || said == refused, "a page in one call that is refused otherwise than the layout");
    layout(checked, width);
    if (refused) return;
    uint8_t *page = lent(0, ways[0].pages, MOST_PAGE);
    demand(hazomeny_plain(lent_file(0), length, page, MOST_PAGE) == said && memcmp(page, printed, hazomeny_number(said)) == 0, "a page in one call that is not the one in two");
}

static size_t any_width(void) {
    switch (below(8)) {
    case 0: return WIDEST + below(3);
    case 1: return (size_t)bits();
    case 2: return below(WIDEST + 1);
    default: return below(length / 4 + 20);
    }
}

/* All entries with the file, laid out before its pages are asked for or not. */
static void try_file(void) {
    alarm(PATIENCE);
    lend_files();
    uint64_t checked = check("check", hazomeny_check);
    if (checked == 0) accepted++;
    size_t width = any_width();
    if (one_in(2)) layout(checked, width);
    size_t html = HAZOMENY_HTML_PER_BYTE * length + HAZOMENY_HTML_FRAME;
    pages("plain", hazomeny_plain, HAZOMENY_PLAIN_PER_BYTE * length, checked);
    pages("html_body", hazomeny_html_body, html, checked);
    pages("html_document", hazomeny_html_document, html, checked);
    try_strict(checked, html);
    print_and_layout(checked, width);
    if (checked == 0) keep_some();
}

static void tell(void) {
    printf("fuzz: %llu files, %llu of them accepted, %llu calls\nfuzz: answers: accepted %llu", (unsigned long long)files, (unsigned long long)accepted,
           (unsigned long long)calls, (unsigned long long)refusals[0]);
    for (int number = 1; number < REFUSALS; number++)
        if (refusals[number]) printf(", %d: %llu", number, (unsigned long long)refusals[number]);
    printf("\n");
}

static void make_room(void) {
    memset(pattern, PATTERN, sizeof pattern);
    for (int way = 0; way < 2; way++) {
        ways[way].files = guarded(MOST_FILE);
        ways[way].pages = guarded(MOST_PAGE);
    }
}

int main(int count, char **words) {
    make_room();
    try_files(count, words, try_file, finding);
    tell();
    return 0;
}
