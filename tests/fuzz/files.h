/* The file that is tried, files to start from, and random changes to them: what the fuzzers of files need. */
#ifndef FILES_H
#define FILES_H

#include "guards.h"

enum {
    MOST_FILE = 66000, /* longer than any that is accepted */
    MOST_POOL = 4096,  /* files to start from */
    MOST_DEPTH = 80,   /* fields around a field, as far as they are looked for */
    HEADER = 3
};

static uint8_t file[MOST_FILE];
static size_t length;

/* ---- files to start from ---- */

static struct {
    uint8_t *bytes;
    size_t length;
} pool[MOST_POOL];
static size_t pooled, firm; /* the first `firm` stay */

static void keep(size_t slot, const uint8_t *bytes, size_t count) {
    free(pool[slot].bytes);
    pool[slot].bytes = malloc(count + 1);
    if (!pool[slot].bytes) stop("no memory");
    memcpy(pool[slot].bytes, bytes, count);
    pool[slot].length = count;
}

static void add(const uint8_t *bytes, size_t count) {
    if (count <= MOST_FILE && pooled < MOST_POOL) keep(pooled++, bytes, count);
}

/* Now and then the file becomes one to start from; an accepted one is worth it. */
static void keep_some(void) {
    if (length >= 8000 || firm >= MOST_POOL || !one_in(8)) return;
    size_t slot = pooled < MOST_POOL ? pooled++ : firm + below(MOST_POOL - firm);
    keep(slot, file, length);
}

/* The files of a request batch (oracle/src/wire.rs): 7 bytes, the file's length in 4, the file. */
static void add_batch(const uint8_t *batch, size_t size) {
    size_t at = 0;
    while (size - at >= 11) {
        const uint8_t *said = batch + at + 7;
        size_t count = (size_t)said[0] << 24 | (size_t)said[1] << 16 | (size_t)said[2] << 8 | said[3];
        at += 11;
        if (count > size - at) stop("a batch is cut short");
        add(batch + at, count);
        at += count;
    }
}

static void read_seed(const char *path) {
    static uint8_t bytes[8 << 20];
    FILE *from = fopen(path, "rb");
    if (!from) stop("a seed cannot be opened");
    size_t size = fread(bytes, 1, sizeof bytes, from);
    fclose(from);
    const char *ending = strrchr(path, '.');
    if (ending && strcmp(ending, ".requests") == 0)
        add_batch(bytes, size);
    else
        add(bytes, size);
}

static void read_seeds(int count, char **paths) {
    for (int i = 0; i < count; i++) read_seed(paths[i]);
    firm = pooled;
}

/* ---- changes ---- */

static size_t read_length(size_t at) { return (size_t)file[at + 1] << 8 | file[at + 2]; }

static void write_length(size_t at, size_t value) {
    file[at + 1] = (uint8_t)(value >> 8);
    file[at + 2] = (uint8_t)value;
}

static int holds_fields(uint8_t tag) { return (tag >= 1 && tag <= 4) || tag == 8 || tag == 16; }

/* A field with those around it, the outermost first: the last is the field itself. */
struct spot {
    size_t depth, path[MOST_DEPTH];
};

/* Picks one of the fields from `at` to `end`, each as likely as the others. */
static void pick(size_t at, size_t end, size_t depth, struct spot *way, struct spot *picked, size_t *seen) {
    while (end - at >= HEADER && read_length(at) <= end - at - HEADER) {
        size_t inside = at + HEADER, after = inside + read_length(at);
        way->path[depth] = at;
        way->depth = depth + 1;
        if (one_in(++*seen)) *picked = *way;
        if (holds_fields(file[at]) && depth + 1 < MOST_DEPTH) pick(inside, after, depth + 1, way, picked, seen);
        at = after;
    }
}

static int any_field(struct spot *picked) {
    struct spot way;
    size_t seen = 0;
    pick(0, length, 0, &way, picked, &seen);
    return seen > 0;
}

/* Puts bytes in the place of others; leaves it if that gets too long. */
static int replace(size_t at, size_t old, const uint8_t *bytes, size_t count) {
    if (length - old + count > MOST_FILE) return 0;
    memmove(file + at + count, file + at + old, length - at - old);
    memcpy(file + at, bytes, count);
    length += count - old;
    return 1;
}

/* The same inside fields whose lengths then have to be said anew, so many of the path. */
static void replace_inside(const struct spot *spot, size_t around, size_t at, size_t old, const uint8_t *bytes, size_t count) {
    if (!replace(at, old, bytes, count)) return;
    for (size_t i = 0; i < around; i++) write_length(spot->path[i], read_length(spot->path[i]) + count - old);
}

static uint8_t likely_byte(void) {
    static const uint8_t likely[] = {0, 1, 2, 3, 4, 5, 6, 7, 8, 16, 17, 18, 19, 32, 33, 34, 35, 36, 37, 38, 39, 40, '\n', '\r', '"', '&', '<', 'a', 0x80, 0xc3, 0xe2, 0xf0, 0xff};
    return one_in(3) ? (uint8_t)bits() : likely[below(sizeof likely)];
}

/* A copy of some field of some file of the pool, as the bytes to put somewhere. */
static size_t another_field(uint8_t *bytes) {
    static uint8_t kept[MOST_FILE];
    size_t count = 0, kept_length = length, from = below(pooled);
    struct spot spot;
    memcpy(kept, file, length);
    memcpy(file, pool[from].bytes, pool[from].length);
    length = pool[from].length;
    if (any_field(&spot)) {
        size_t at = spot.path[spot.depth - 1];
        count = HEADER + read_length(at);
        memcpy(bytes, file + at, count);
    }
    memcpy(file, kept, kept_length);
    length = kept_length;
    return count;
}

/* A change that knows of lengths: most leave those around it right. */
static void change_field(void) {
    static uint8_t bytes[MOST_FILE];
    struct spot spot;
    if (!any_field(&spot)) return;
    size_t around = spot.depth - 1, at = spot.path[around], inside = at + HEADER, value = read_length(at), whole = HEADER + value;
    size_t some = below(8), place = inside + below(value + 1), cut = below(inside + value - place + 1);
    for (size_t i = 0; i < some; i++) bytes[i] = likely_byte();
    static const size_t wrong[] = {0, 1, 2, 0xff, 0x100, 0x7fff, 0x8000, 0xffff};
    switch (below(9)) {
    case 0: write_length(at, value + 1); break;
    case 1: write_length(at, value - 1); break;
    case 2: write_length(at, one_in(2) ? wrong[below(8)] : (size_t)bits()); break;
    case 3: file[at] = likely_byte(); break;
    case 4: replace_inside(&spot, around, at, whole, bytes, 0); break;
    case 5: replace_inside(&spot, around + 1, place, 0, bytes, some); break;
    case 6: replace_inside(&spot, around + 1, place, cut, bytes, 0); break;
    case 7: replace_inside(&spot, around, at, one_in(2) ? whole : 0, bytes, another_field(bytes)); break;
    default: /* the field twice */
        memcpy(bytes, file + at, whole);
        replace_inside(&spot, around, at, 0, bytes, whole);
    }
}

static void change_bytes(void) {
    if (length == 0) return;
    size_t at = below(length), other = below(pooled), from = below(pool[other].length + 1);
    uint8_t byte = likely_byte();
    switch (below(6)) {
    case 0: file[at] ^= (uint8_t)(1u << below(8)); break;
    case 1: file[at] = byte; break;
    case 2: replace(at, 1, &byte, 0); break;
    case 3: replace(at, 0, &byte, 1); break;
    case 4: length = at; break;
    default: replace(at, length - at, pool[other].bytes + from, pool[other].length - from); /* a splice */
    }
}

/* Puts the whole file into a block. */
static void wrap(void) {
    uint8_t headers[2 * HEADER] = {(uint8_t)(3 + below(2)), 0, 0, 8, 0, 0};
    size_t inside = length;
    if (!replace(0, 0, headers, sizeof headers)) return;
    write_length(0, inside + HEADER);
    write_length(HEADER, inside);
}

/* Repeats the file until it is about as long as a file may be. */
static void repeat(void) {
    static uint8_t copy[MOST_FILE];
    size_t once = length, most = 59900 + below(200);
    memcpy(copy, file, once);
    while (once > 0 && length + once <= most) replace(length, 0, copy, once);
    if (one_in(2)) replace(length, 0, copy, most > length && most - length < once ? most - length : 0);
}

static void next_file(void) {
    size_t from = below(pooled);
    memcpy(file, pool[from].bytes, pool[from].length);
    length = pool[from].length;
    for (size_t times = below(6); times > 0; times--) {
        if (one_in(3))
            change_bytes();
        else
            change_field();
    }
    if (one_in(30))
        for (size_t times = below(34); times > 0; times--) wrap();
    if (one_in(2000)) repeat();
}

/* ---- a run: PROGRAM SEED SECONDS FINDING SEEDS.. ---- */

static const char *finding_path;
static uint64_t seed, files;

static void save(const char *path, const uint8_t *bytes, size_t count) {
    FILE *to = fopen(path, "wb");
    if (to) {
        fwrite(bytes, 1, count, to);
        fclose(to);
    }
}

/* Tries one changed file after the other until the time is over; a signal is a finding. */
static void try_files(int count, char **words, void (*try_file)(void), void (*finding)(const char *why)) {
    if (count < 5) stop("usage: PROGRAM SEED SECONDS FINDING SEEDS..");
    seed = seeded(words[1]);
    const time_t end = time(NULL) + atol(words[2]);
    finding_path = words[3];
    read_seeds(count - 4, words + 4);
    printf("fuzz: seed %llu, %zu files to start from\n", (unsigned long long)seed, firm);
    fflush(stdout);
    int number = sigsetjmp(stopped, 1);
    if (number) finding(stopped_by(number));
    catch_signals();
    for (; time(NULL) < end; files++) {
        next_file();
        try_file();
    }
}

#endif
