/* What both fuzzers need: random numbers, memory between guards, and being told of an entry that touches them or does not end. */
#ifndef GUARDS_H
#define GUARDS_H

#include <setjmp.h>
#include <signal.h>
#include <stdint.h>
#include <stdio.h>
#include <stdlib.h>
#include <string.h>
#include <sys/mman.h>
#include <time.h>
#include <unistd.h>

enum { PATIENCE = 60 /* seconds after which an entry has not ended */ };

static void stop(const char *why) {
    fprintf(stderr, "fuzz: %s\n", why);
    exit(2);
}

/* ---- random numbers (splitmix64) ---- */

static uint64_t source;

static uint64_t seeded(const char *number) { return source = strtoull(number, NULL, 10); }

static uint64_t bits(void) {
    uint64_t z = source += 0x9e3779b97f4a7c15u;
    z = (z ^ z >> 30) * 0xbf58476d1ce4e5b9u;
    z = (z ^ z >> 27) * 0x94d049bb133111ebu;
    return z ^ z >> 31;
}

/* Below a bound that is not 0. */
static size_t below(size_t bound) { return (size_t)(bits() % bound); }

static int one_in(size_t times) { return below(times) == 0; }

/* ---- memory ---- */

/* Memory between two pages that may not be touched. */
struct region {
    uint8_t *start, *end;
};

static struct region guarded(size_t size) {
    size_t page = (size_t)sysconf(_SC_PAGESIZE);
    size = (size + page - 1) / page * page;
    uint8_t *all = mmap(NULL, size + 2 * page, PROT_NONE, MAP_PRIVATE | MAP_ANONYMOUS, -1, 0);
    if (all == MAP_FAILED || mprotect(all + page, size, PROT_READ | PROT_WRITE)) stop("no memory");
    return (struct region){all + page, all + page + size};
}

/* So many bytes of a region: the first way lends them flush behind its guard, the second flush before the other. */
static uint8_t *lent(int way, struct region region, size_t count) { return way == 0 ? region.start : region.end - count; }

static const char *const where_lent[2] = {"behind", "before"};

/* ---- signals ---- */

/* An entry that was stopped by a signal is told of outside of the handler, where all may be called. */
static sigjmp_buf stopped;

static void on_signal(int number) { siglongjmp(stopped, number); }

static void catch_signals(void) {
    signal(SIGSEGV, on_signal);
    signal(SIGBUS, on_signal);
    signal(SIGALRM, on_signal);
}

static const char *stopped_by(int number) { return number == SIGALRM ? "an entry does not end" : "an entry touched what it was not lent"; }

#endif
