// Speed of the painters, as C calls them: a Markdown table of our time, a peer's time, their ratio and the target.
// First some thousand random rectangles, hostile ones too, are compared with a plain loop over the pixels.
// The exit status is 1 if one differs, and 0 otherwise: a missed target is only marked in the table.
// Both buffers are written before anything is timed. All contenders of a row run in turn, and the median of all rounds counts.
//
//   raster [ROUNDS]        (default 100)
#include "common.h"
#include <pixman.h>
#include <stdbool.h>
#include <string.h>

// ---- the library under test: total functions, lengths in words

void raster_fill(uint32_t *screen, size_t screen_len, uint32_t width, uint32_t rows,
                 uint32_t x, uint32_t y, uint32_t w, uint32_t h, uint32_t colour, uint32_t rop);
void raster_update(const uint32_t *framebuffer, size_t framebuffer_len, uint32_t *screen, size_t screen_len,
                   uint32_t width, uint32_t rows, uint32_t x, uint32_t y, uint32_t w, uint32_t h);
void raster_copy(uint32_t *screen, size_t screen_len, uint32_t width, uint32_t rows, uint32_t sx, uint32_t sy,
                 uint32_t x, uint32_t y, uint32_t w, uint32_t h, uint32_t rop);

enum { ROP_COPY = 3, ROP_XOR = 6 };
enum { MAX_WIDTH = 2560, MAX_ROWS = 1600 };

static uint32_t *screen;
static uint32_t *framebuffer;

// One painting: the mode, the rectangle, and for a copy where it comes from.
struct job {
    uint32_t width, rows;
    uint32_t sx, sy;
    uint32_t x, y, w, h;
    uint32_t colour;
};

static size_t words(const struct job *job) { return (size_t)job->width * job->rows; }
static size_t source(const struct job *job) { return (size_t)job->sy * job->width + job->sx; }
static size_t destination(const struct job *job) { return (size_t)job->y * job->width + job->x; }

// ---- our painters

static void our_fill(const struct job *j) {
    raster_fill(screen, words(j), j->width, j->rows, j->x, j->y, j->w, j->h, j->colour, ROP_COPY);
}
static void our_xor_fill(const struct job *j) {
    raster_fill(screen, words(j), j->width, j->rows, j->x, j->y, j->w, j->h, j->colour, ROP_XOR);
}
static void our_update(const struct job *j) {
    raster_update(framebuffer, words(j), screen, words(j), j->width, j->rows, j->x, j->y, j->w, j->h);
}
static void our_copy(const struct job *j) {
    raster_copy(screen, words(j), j->width, j->rows, j->sx, j->sy, j->x, j->y, j->w, j->h, ROP_COPY);
}
static void our_xor_copy(const struct job *j) {
    raster_copy(screen, words(j), j->width, j->rows, j->sx, j->sy, j->x, j->y, j->w, j->h, ROP_XOR);
}

// ---- the references

static void pixman_fills(const struct job *j) {
    pixman_fill(screen, (int)j->width, 32, (int)j->x, (int)j->y, (int)j->w, (int)j->h, j->colour);
}
static void pixman_updates(const struct job *j) {
    pixman_blt(framebuffer, screen, (int)j->width, (int)j->width, 32, 32, (int)j->x, (int)j->y, (int)j->x, (int)j->y,
               (int)j->w, (int)j->h);
}
// Only where source and destination do not overlap, or the destination comes first.
static void pixman_copies(const struct job *j) {
    pixman_blt(screen, screen, (int)j->width, (int)j->width, 32, 32, (int)j->sx, (int)j->sy, (int)j->x, (int)j->y,
               (int)j->w, (int)j->h);
}
// The whole screen at once.
static void memcpy_updates(const struct job *j) { memcpy(screen, framebuffer, words(j) * sizeof *screen); }

static void memmove_copies(const struct job *j) {
    size_t from = source(j), to = destination(j), bytes = j->w * sizeof *screen;
    if (to <= from) {
        for (size_t row = 0; row < j->h; row++) memmove(screen + to + row * j->width, screen + from + row * j->width, bytes);
    } else {
        for (size_t row = j->h; row-- > 0;) memmove(screen + to + row * j->width, screen + from + row * j->width, bytes);
    }
}
// Plain loops: rows, and in them columns, each in the order that an overlap asks for.
static void loop_fills(const struct job *j) {
    size_t n = j->w;
    uint32_t colour = j->colour;
    for (size_t row = 0; row < j->h; row++) {
        uint32_t *d = screen + destination(j) + row * j->width;
        for (size_t i = 0; i < n; i++) d[i] = colour;
    }
}
static void loop_copies(const struct job *j) {
    size_t from = source(j), to = destination(j), width = j->width, n = j->w, h = j->h;
    uint32_t *pixels = screen;
    if (to <= from) {
        for (size_t row = 0; row < h; row++)
            for (size_t i = 0; i < n; i++) pixels[to + row * width + i] = pixels[from + row * width + i];
    } else {
        for (size_t row = h; row-- > 0;)
            for (size_t i = n; i-- > 0;) pixels[to + row * width + i] = pixels[from + row * width + i];
    }
}
static void loop_xor_fills(const struct job *j) {
    size_t n = j->w;
    uint32_t colour = j->colour;
    for (size_t row = 0; row < j->h; row++) {
        uint32_t *d = screen + destination(j) + row * j->width;
        for (size_t i = 0; i < n; i++) d[i] ^= colour;
    }
}
// A plain loop for XOR alone: rows, and within overlapping rows columns, in the order that the overlap asks for.
static void loop_xor_copies(const struct job *j) {
    size_t from = source(j), to = destination(j), width = j->width, n = j->w, h = j->h;
    uint32_t *pixels = screen;
    if (to <= from) {
        for (size_t row = 0; row < h; row++) {
            uint32_t *d = pixels + to + row * width, *s = pixels + from + row * width;
            for (size_t i = 0; i < n; i++) d[i] ^= s[i];
        }
    } else if (to - from >= n) {
        for (size_t row = h; row-- > 0;) {
            uint32_t *d = pixels + to + row * width, *s = pixels + from + row * width;
            for (size_t i = 0; i < n; i++) d[i] ^= s[i];
        }
    } else {
        for (size_t row = h; row-- > 0;) {
            uint32_t *d = pixels + to + row * width, *s = pixels + from + row * width;
            for (size_t i = n; i-- > 0;) d[i] ^= s[i];
        }
    }
}

// ---- timing

struct contender {
    const char *name;
    void (*paint)(const struct job *job);
    double target; // of the ratio of our time to this one's; 0: shown only
};

// Jobs that are run one after the other, by our painter and by one or two peers in turn.
struct comparison {
    const char *title;
    struct contender ours;
    struct contender reference[2]; // an empty name: there is no second
};

// The time of one job, in the mean of all.
static double time_jobs(const struct contender *c, const struct job *jobs, size_t count) {
    double start = now_ns();
    for (size_t i = 0; i < count; i++) c->paint(&jobs[i]);
    return (now_ns() - start) / (double)count;
}

static void print_row(const char *size, const struct comparison *c, int reference, const double *typical) {
    printf("| %s %s | %.0f | %s | %.0f |", size, c->title, typical[0], c->reference[reference].name, typical[1 + reference]);
    print_ratio(typical[0] / typical[1 + reference], c->reference[reference].target);
    printf("\n");
}

static void compare(const char *size, const struct comparison *c, const struct job *jobs, size_t count, int rounds) {
    struct times times[3] = {0};
    double typical[3];
    int references = c->reference[1].name ? 2 : 1;
    for (int round = 0; round < rounds; round++) {
        add_time(&times[0], time_jobs(&c->ours, jobs, count));
        for (int r = 0; r < references; r++) add_time(&times[1 + r], time_jobs(&c->reference[r], jobs, count));
    }
    for (int k = 0; k <= references; k++) typical[k] = median(&times[k]), free(times[k].t);
    for (int r = 0; r < references; r++) print_row(size, c, r, typical);
}

// ---- what is measured

static const struct comparison whole_screen[] = {
    {"fill", {"ours", our_fill, 0}, {{"pixman_fill", pixman_fills, 1.05}}},
    {"XOR fill", {"ours", our_xor_fill, 0}, {{"C XOR loop", loop_xor_fills, 0}}},
    {"update", {"ours", our_update, 0}, {{"pixman_blt", pixman_updates, 1.05}, {"memcpy, whole", memcpy_updates, 1.05}}},
};
static const struct comparison moved_screen[] = {
    {"copy", {"ours", our_copy, 0}, {{"memmove per row", memmove_copies, 1.05}, {"ours again", our_copy, 0}}}, // the second: what is noise
    {"XOR copy", {"ours", our_xor_copy, 0}, {{"C XOR loop", loop_xor_copies, 1.25}}},
};
// Rows of one pixel, as many as the largest screen has: offscreen rows are no fewer for a mode that is narrow.
static const struct comparison tall_screen[] = {
    {"fill", {"ours", our_fill, 0}, {{"pixman_fill", pixman_fills, 1.05}, {"C loop", loop_fills, 1.05}}},
    {"XOR fill", {"ours", our_xor_fill, 0}, {{"C XOR loop", loop_xor_fills, 0}}},
};
static const struct comparison tall_moved[] = {
    {"copy", {"ours", our_copy, 0}, {{"memmove per row", memmove_copies, 1.05}, {"C loop", loop_copies, 1.05}}},
    {"XOR copy", {"ours", our_xor_copy, 0}, {{"C XOR loop", loop_xor_copies, 1.25}}},
};
static const struct comparison small[] = {
    {"fill", {"ours", our_fill, 0}, {{"pixman_fill", pixman_fills, 1.00}}},
    {"XOR fill", {"ours", our_xor_fill, 0}, {{"C XOR loop", loop_xor_fills, 0}}},
    {"update", {"ours", our_update, 0}, {{"pixman_blt", pixman_updates, 1.00}}},
    {"copy", {"ours", our_copy, 0}, {{"pixman_blt", pixman_copies, 1.00}, {"memmove per row", memmove_copies, 0}}},
    {"XOR copy", {"ours", our_xor_copy, 0}, {{"C XOR loop", loop_xor_copies, 0}}},
};

enum direction { UP, DOWN, LEFT, RIGHT };
static const char *const direction_name[] = {"up 1 row,", "down 1 row,", "left 1 pixel,", "right 1 pixel,"};

// The whole screen, moved by one row or one pixel.
static struct job shifted(uint32_t width, uint32_t rows, enum direction d) {
    struct job job = {.width = width, .rows = rows, .w = width, .h = rows};
    if (d == UP || d == DOWN) job.h--;
    else job.w--;
    job.sy = d == UP;
    job.y = d == DOWN;
    job.sx = d == LEFT;
    job.x = d == RIGHT;
    return job;
}

static void measure_screen(uint32_t width, uint32_t rows, int rounds) {
    char size[64];
    struct job whole = {.width = width, .rows = rows, .w = width, .h = rows, .colour = 0x123456};
    snprintf(size, sizeof size, "%ux%u", width, rows);
    for (size_t i = 0; i < COUNT(whole_screen); i++) compare(size, &whole_screen[i], &whole, 1, rounds);
    for (size_t i = 0; i < COUNT(moved_screen); i++) {
        for (enum direction d = UP; d <= RIGHT; d++) {
            struct job job = shifted(width, rows, d);
            snprintf(size, sizeof size, "%ux%u %s", width, rows, direction_name[d]);
            compare(size, &moved_screen[i], &job, 1, rounds);
        }
    }
}

static void measure_tall(uint32_t rows, int rounds) {
    char size[64];
    struct job whole = {.width = 1, .rows = rows, .w = 1, .h = rows, .colour = 0x123456};
    snprintf(size, sizeof size, "1x%u", rows);
    for (size_t i = 0; i < COUNT(tall_screen); i++) compare(size, &tall_screen[i], &whole, 1, rounds);
    for (size_t i = 0; i < COUNT(tall_moved); i++) {
        for (enum direction d = UP; d <= DOWN; d++) {
            struct job job = shifted(1, rows, d);
            snprintf(size, sizeof size, "1x%u %s", rows, direction_name[d]);
            compare(size, &tall_moved[i], &job, 1, rounds);
        }
    }
}

// A thousand small rectangles here and there on a screen of 1280x720.
static void measure_small(int rounds) {
    enum { JOBS = 1000, SIDE = 16 };
    static struct job jobs[JOBS];
    for (int i = 0; i < JOBS; i++) {
        jobs[i] = (struct job){.width = 1280, .rows = 720, .w = SIDE, .h = SIDE, .colour = (uint32_t)i};
        jobs[i].sx = (uint32_t)rand() % (1280 - SIDE);
        jobs[i].sy = (uint32_t)rand() % (720 - SIDE);
        jobs[i].x = (uint32_t)rand() % (1280 - SIDE);
        jobs[i].y = (uint32_t)rand() % (720 - SIDE);
    }
    for (size_t i = 0; i < COUNT(small); i++) compare("16x16", &small[i], jobs, JOBS, rounds);
}

// ---- the check before it: every pixel, by the rule

static uint32_t raster_rule(uint32_t rop, uint32_t s, uint32_t d) {
    uint32_t result = 0;
    if (rop & 1) result |= s & d;
    if (rop & 2) result |= s & ~d;
    if (rop & 4) result |= ~s & d;
    if (rop & 8) result |= ~s & ~d;
    return result;
}

static bool is_within(uint64_t k, uint64_t from, uint64_t n) { return from <= k && k < from + n; }

enum painter { FILL, UPDATE, COPY };

// What one pixel of the old screen becomes.
static uint32_t expected_pixel(enum painter p, const struct job *j, uint32_t rop, const uint32_t *old,
                               const uint32_t *fb, uint64_t x, uint64_t y) {
    size_t at = y * j->width + x;
    if (!is_within(x, j->x, j->w) || !is_within(y, j->y, j->h)) return old[at];
    if (p == FILL) return raster_rule(rop, j->colour, old[at]);
    if (p == UPDATE) return fb[at];
    uint64_t sx = x - j->x + j->sx, sy = y - j->y + j->sy;
    if (sx >= j->width || sy >= j->rows) return old[at];
    return raster_rule(rop, old[sy * j->width + sx], old[at]);
}

static bool check_one(enum painter p, uint32_t width, uint32_t rows) {
    enum { MOST = 300 * 40 };
    static uint32_t now[MOST], old[MOST], fb[MOST];
    size_t n = (size_t)width * rows;
    struct job j = {.width = width, .rows = rows, .colour = (uint32_t)rand() * 77u};
    uint32_t rop = (uint32_t)rand() % 16;
    j.x = random_number(width), j.y = random_number(rows);
    j.sx = random_number(width), j.sy = random_number(rows);
    j.w = random_number(width), j.h = random_number(rows);
    if (rand() % 3 == 0) j.sy = j.y; // rows that overlap themselves
    for (size_t i = 0; i < n; i++) now[i] = old[i] = (uint32_t)rand() * 2654435761u, fb[i] = (uint32_t)rand() * 40503u;

    if (p == FILL) raster_fill(now, n, width, rows, j.x, j.y, j.w, j.h, j.colour, rop);
    if (p == UPDATE) raster_update(fb, n, now, n, width, rows, j.x, j.y, j.w, j.h);
    if (p == COPY) raster_copy(now, n, width, rows, j.sx, j.sy, j.x, j.y, j.w, j.h, rop);

    for (uint32_t y = 0; y < rows; y++) {
        for (uint32_t x = 0; x < width; x++) {
            if (now[(size_t)y * width + x] == expected_pixel(p, &j, rop, old, fb, x, y)) continue;
            printf("MISMATCH: painter %d, mode %ux%u, rop %u, source %u %u, rectangle %u %u %u %u, pixel %u %u\n", p, width,
                   rows, rop, j.sx, j.sy, j.x, j.y, j.w, j.h, x, y);
            return false;
        }
    }
    return true;
}

static bool check_all(int count) {
    for (int i = 0; i < count; i++) {
        uint32_t width = 1 + (uint32_t)rand() % 300, rows = 1 + (uint32_t)rand() % 40;
        if (!check_one((enum painter)(i % 3), width, rows)) return false;
    }
    printf("%d random fills, updates and copies agree with the pixel loop.\n\n", count);
    return true;
}

int main(int argc, char **argv) {
    int rounds = rounds_from(argc, argv, 100);
    srand(7);
    printf("## Painters\n\n");
    if (!check_all(9000)) return 1;

    size_t n = (size_t)MAX_WIDTH * MAX_ROWS;
    screen = new_words(n), framebuffer = new_words(n);
    for (size_t i = 0; i < n; i++) framebuffer[i] ^= 0x5A5A5A;

    printf("| Case | ours, ns | Reference | ns | Ratio | Target |\n|---|---|---|---|---|---|\n");
    measure_screen(1280, 720, rounds);
    measure_screen(MAX_WIDTH, MAX_ROWS, rounds);
    measure_tall(MAX_WIDTH * MAX_ROWS, rounds);
    measure_small(rounds * 2);
    return 0;
}
