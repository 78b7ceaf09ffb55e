// What the benchmarks share: a clock, buffers, random numbers, and the cells of their tables.
#ifndef BENCH_COMMON_H
#define BENCH_COMMON_H

#include <stdint.h>
#include <stdio.h>
#include <stdlib.h>
#include <time.h>

#define COUNT(a) (sizeof(a) / sizeof *(a))

static inline int rounds_from(int argc, char **argv, int usual) { return argc > 1 && atoi(argv[1]) > 0 ? atoi(argv[1]) : usual; }

// ---- buffers

// Whole pages, every word written.
static inline uint32_t *new_words(size_t n) {
    uint32_t *words = aligned_alloc(4096, (n * sizeof *words + 4095) / 4096 * 4096);
    if (!words) exit(1);
    for (size_t i = 0; i < n; i++) words[i] = (uint32_t)i * 2654435761u;
    return words;
}

// ---- random numbers

static inline uint32_t random_word(void) { return (uint32_t)rand() * 2654435761u ^ (uint32_t)rand(); }

// Most often a number up to a little above the limit, now and then one near a power of two or near 2^32.
static inline uint32_t random_number(uint32_t limit) {
    static const uint32_t hostile[] = {0, 0x7FFFFFFF, 0x80000000, 0xFFFFFFFE, 0xFFFFFFFF};
    if (rand() % 12 == 0) return hostile[rand() % 5] - (uint32_t)(rand() % 3);
    return (uint32_t)rand() % (limit + 4);
}

// ---- time

// Of this thread, so that a run of others in between does not count.
static inline double now_ns(void) {
    struct timespec t;
    clock_gettime(CLOCK_THREAD_CPUTIME_ID, &t);
    return (double)t.tv_sec * 1e9 + (double)t.tv_nsec;
}

// The times of one contender. Their median counts, not the least: now and then this clock reads far too short, and the least is then that.
struct times {
    double *t;
    size_t count, room;
};

static inline void add_time(struct times *s, double t) {
    if (s->count == s->room) {
        s->room = s->room ? 2 * s->room : 64;
        s->t = realloc(s->t, s->room * sizeof *s->t);
        if (!s->t) exit(1);
    }
    s->t[s->count++] = t;
}

static inline int compare_times(const void *a, const void *b) {
    double x = *(const double *)a, y = *(const double *)b;
    return (x > y) - (x < y);
}

static inline double median(struct times *s) {
    qsort(s->t, s->count, sizeof *s->t, compare_times);
    return s->t[s->count / 2];
}

// ---- cells

// A ratio and its target; a target of 0: there is none.
static inline void print_ratio(double ratio, double target) {
    printf(" %.2f |", ratio);
    if (target > 0) printf(" %.2f%s |", target, ratio <= target + 0.005 ? "" : " **missed**");
    else printf(" |");
}

#endif
