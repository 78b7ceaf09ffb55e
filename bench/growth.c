// How time grows with pixels, commands and the size of the ring: Markdown tables of our time and of the device in plain C, whose rows are
// pixman_fill, memcpy and memmove. "slope" is what each unit more has cost since the row above: a straight line has one slope, however
// large its first row. The C device beside it tells what is the machine's: caches end for both.
// Before a row is timed, both devices run it and have to answer alike. The median of all rounds counts.
// The exit status is 1 if they do not, and 0 otherwise.
//
//   growth [ROUNDS]        (default 10, in each of eight passes)
#include "both.h"
#include "common.h"

enum { WIDTH = SVGA_WIDTH_MAX, HEIGHT = SVGA_HEIGHT_MAX, PIXELS = WIDTH * HEIGHT };
enum { RING_WORDS = SVGA_MEMORY_MAX / 4 };
static const uint32_t ALL = 0xFFFFFFFF; // a budget

static uint32_t *ring, *framebuffer, *screen, *cursor, *output;
static struct lent lent;

static void set_up_both(uint32_t width, uint32_t height) {
    lent = (struct lent){ring, RING_WORDS, framebuffer, screen, PIXELS, cursor, width, height};
    empty_ring(ring, RING_WORDS);
    our_set_up(&lent), c_set_up(&lent);
}

// ---- commands in the ring

static void put_fence(uint32_t *at, size_t words, uint32_t number) {
    put(ring, words, at, SVGA_CMD_FENCE), put(ring, words, at, number + 1); // 0 is a fault
}
// A fill of one pixel in the first 64 by 64, which stay in the cache.
static void put_dot(uint32_t *at, size_t words, uint32_t number) {
    const uint32_t command[] = {SVGA_CMD_RECT_FILL, number, number % 64, number / 64 % 64, 1, 1};
    for (size_t i = 0; i < COUNT(command); i++) put(ring, words, at, command[i]);
}

typedef void put_function(uint32_t *at, size_t words, uint32_t number);

static void put_commands(put_function *put_one, uint32_t count) {
    uint32_t at = FIRST;
    for (uint32_t i = 0; i < count; i++) put_one(&at, RING_WORDS, i);
    ring[SVGA_FIFO_NEXT_CMD] = at * 4;
}

// ---- both devices, again and again on the same commands

enum { STOP_WORD = 27 }; // of the device words: the remembered STOP, restored as it was

static uint64_t run_ours(uint32_t stop, uint32_t budget) {
    ring[SVGA_FIFO_STOP] = stop * 4, device[STOP_WORD] = stop;
    return our_run(&lent, budget);
}
static uint64_t run_theirs(uint32_t stop, uint32_t budget) {
    ring[SVGA_FIFO_STOP] = stop * 4, peer.stop = stop;
    return c_run(&lent, budget);
}
typedef uint64_t run_function(uint32_t stop, uint32_t budget);

static double time_runs(run_function *run, uint32_t stop, uint32_t budget, int times) {
    double start = now_ns();
    for (int i = 0; i < times; i++) run(stop, budget);
    return (now_ns() - start) / times;
}

// The time of a run from FIRST on, by both, for each of `shares`.
static bool time_both(uint32_t budget, int repeats, int rounds, uint32_t shares, struct times *times) {
    if (run_ours(FIRST, budget) != run_theirs(FIRST, budget) || !both_keep_alike()) return false;
    for (int round = 0; round < rounds; round++) {
        add_time(&times[0], time_runs(run_ours, FIRST, budget, repeats) / shares);
        add_time(&times[1], time_runs(run_theirs, FIRST, budget, repeats) / shares);
    }
    return true;
}

static bool differ(const char *what, uint32_t n) {
    printf("MISMATCH: %s, %u\n", what, n);
    return false;
}

// ---- a table: time over a number of units

enum { MOST_ROWS = 8, PASSES = 8 }; // all rows are timed in each pass, so that a slow spell of the machine falls on all

struct row {
    uint32_t n; // units
    struct times times[2];
    double typical[2];
};

static void widen(double *low, double *high, double t) {
    if (*high == 0 || t < *low) *low = t;
    if (t > *high) *high = t;
}

// Times, times for one unit, slopes, and the largest time for one unit to the least, from a number of units on.
static void print_table(const char *title, const char *unit, const char *peer_name, struct row *rows, size_t count, uint32_t from) {
    double low[2] = {0, 0}, high[2] = {0, 0};
    printf("| %s: %ss | ours, ns | for each %s | slope | %s, ns | for each %s | slope | Ratio |\n|---|---|---|---|---|---|---|---|\n",
           title, unit, unit, peer_name, unit);
    for (struct row *r = rows; r < rows + count; r++) {
        printf("| %u |", r->n);
        for (int c = 0; c < 2; c++) {
            r->typical[c] = median(&r->times[c]), free(r->times[c].t);
            double each = r->typical[c] / r->n;
            printf(" %.0f | %.3f |", r->typical[c], each);
            if (r > rows) printf(" %.3f |", (r->typical[c] - r[-1].typical[c]) / (r->n - r[-1].n));
            else printf(" |");
            if (r->n >= from) widen(&low[c], &high[c], each);
        }
        printf(" %.2f |\n", r->typical[0] / r->typical[1]);
    }
    printf("\nFrom %u %ss on, the largest time for a %s to the least: ours %.2f, the other %.2f.\n\n", from, unit, unit, high[0] / low[0],
           high[1] / low[1]);
}

// ---- over pixels

static const uint32_t sizes[][2] = {{1, 1}, {16, 16}, {64, 64}, {160, 100}, {640, 400}, {1280, 800}, {2560, 1600}};

// Small ones are done some times for one reading of the clock.
static uint32_t times_for(uint32_t pixels) { return 1 + 200000 / (200 + pixels); }

// Equal commands for the rectangle at the top left; a copy brings it up from one row below. Returned are the pixels that one paints.
static uint32_t put_rectangles(uint32_t command, uint32_t w, uint32_t h, uint32_t count) {
    uint32_t at = FIRST;
    if (command == SVGA_CMD_RECT_COPY && h == HEIGHT) h--;
    for (uint32_t i = 0; i < count; i++) {
        put(ring, RING_WORDS, &at, command);
        if (command == SVGA_CMD_RECT_FILL) put(ring, RING_WORDS, &at, 0x123456 + i);
        if (command == SVGA_CMD_RECT_COPY) put(ring, RING_WORDS, &at, 0), put(ring, RING_WORDS, &at, 1);
        put(ring, RING_WORDS, &at, 0), put(ring, RING_WORDS, &at, 0);
        put(ring, RING_WORDS, &at, w), put(ring, RING_WORDS, &at, h);
    }
    ring[SVGA_FIFO_NEXT_CMD] = at * 4;
    return w * h;
}

static bool painting_grows(const char *title, uint32_t command, const char *peer_name, int rounds) {
    struct row rows[MOST_ROWS] = {0};
    set_up_both(WIDTH, HEIGHT);
    for (int pass = 0; pass < PASSES; pass++) {
        for (size_t i = 0; i < COUNT(sizes); i++) {
            uint32_t w = sizes[i][0], h = sizes[i][1], count = times_for(w * h);
            rows[i].n = put_rectangles(command, w, h, count);
            if (!time_both(ALL, 1, rounds, count, rows[i].times)) return differ(title, rows[i].n);
        }
    }
    print_table(title, "pixel", peer_name, rows, COUNT(sizes), 4096);
    return true;
}

static uint32_t picture_by_ours(void) {
    return svga_picture(device, SVGA_DEVICE_WORDS, screen, PIXELS, cursor, SVGA_CURSOR_WORDS, output, PIXELS);
}
static uint32_t picture_by_theirs(void) { return peer_picture(&peer, screen, PIXELS, cursor, SVGA_CURSOR_WORDS, output, PIXELS); }

static double time_pictures(uint32_t (*picture)(void), uint32_t times) {
    double start = now_ns();
    for (uint32_t i = 0; i < times; i++) picture();
    return (now_ns() - start) / times;
}

// Pictures in modes of these sizes, without a cursor.
static bool pictures_grow(int rounds) {
    struct row rows[MOST_ROWS] = {0};
    for (int pass = 0; pass < PASSES; pass++) {
        for (size_t i = 0; i < COUNT(sizes); i++) {
            uint32_t w = sizes[i][0], h = sizes[i][1];
            rows[i].n = w * h;
            set_up_both(w, h);
            if (picture_by_ours() || picture_by_theirs()) return differ("picture", w * h);
            for (int round = 0; round < rounds; round++) {
                add_time(&rows[i].times[0], time_pictures(picture_by_ours, times_for(w * h)));
                add_time(&rows[i].times[1], time_pictures(picture_by_theirs, times_for(w * h)));
            }
        }
    }
    print_table("Picture", "pixel", "C device (memcpy)", rows, COUNT(sizes), 4096);
    return true;
}

// ---- over commands

// All commands in one run.
static bool commands_grow(const char *title, put_function *put_one, uint32_t most, int rounds) {
    const uint32_t counts[] = {1, 8, 64, 512, 4096, 32768, most};
    struct row rows[MOST_ROWS] = {0};
    set_up_both(WIDTH, HEIGHT);
    for (int pass = 0; pass < PASSES; pass++) {
        for (size_t i = 0; i < COUNT(counts); i++) {
            rows[i].n = counts[i];
            put_commands(put_one, counts[i]);
            if (!time_both(ALL, (int)(1 + 5000 / counts[i]), rounds, 1, rows[i].times)) return differ(title, counts[i]);
        }
    }
    print_table(title, "command", "C device", rows, COUNT(counts), 512);
    return true;
}

// ---- what costs nothing: commands that wait behind a budget of 1, and the size of the ring

enum { MOST_COLUMNS = 8 };

// One line for each number, of times that should not depend on it, and the largest of each column to its least.
static void print_constants(const uint32_t *numbers, struct times (*times)[MOST_COLUMNS], size_t count, int columns) {
    double low[MOST_COLUMNS] = {0}, high[MOST_COLUMNS] = {0};
    for (size_t i = 0; i < count; i++) {
        printf("| %u |", numbers[i]);
        for (int k = 0; k < columns; k++) {
            double typical = median(&times[i][k]);
            free(times[i][k].t);
            printf(" %.2f |", typical);
            widen(&low[k], &high[k], typical);
        }
        printf("\n");
    }
    printf("| largest to least |");
    for (int k = 0; k < columns; k++) printf(" %.2f |", high[k] / low[k]);
    printf("\n");
}

static bool waiting_costs_nothing(uint32_t most, int rounds) {
    const uint32_t counts[] = {1, 64, 4096, most};
    struct times times[MOST_ROWS][MOST_COLUMNS] = {0};
    set_up_both(WIDTH, HEIGHT);
    for (int pass = 0; pass < PASSES; pass++) {
        for (size_t i = 0; i < COUNT(counts); i++) {
            put_commands(put_fence, counts[i]);
            if (!time_both(1, 1000, rounds, 1, times[i])) return differ("budget 1", counts[i]);
        }
    }
    printf("| FENCE commands waiting, a run of budget 1 | ours, ns | C device, ns |\n|---|---|---|\n");
    print_constants(counts, times, COUNT(counts), 2);
    printf("\n");
    return true;
}

// The same number of commands in each round, going round the ring; by both devices from the same place.
static bool time_round(put_function *put_one, uint32_t count, int rounds, struct times *times) {
    uint32_t stop = ring[SVGA_FIFO_STOP] / 4;
    for (int round = 0; round < rounds; round++) {
        uint32_t at = stop;
        for (uint32_t i = 0; i < count; i++) put_one(&at, lent.ring_len, i);
        ring[SVGA_FIFO_NEXT_CMD] = at * 4;
        uint64_t done = (uint64_t)SVGA_ANSWER_DRAINED << 32 | count;
        if (run_ours(stop, ALL) != done || run_theirs(stop, ALL) != done || !both_keep_alike()) return false;
        add_time(&times[0], time_runs(run_ours, stop, ALL, 1) / count);
        add_time(&times[1], time_runs(run_theirs, stop, ALL, 1) / count);
        stop = at;
    }
    return true;
}

static void time_appends(int rounds, struct times *times) {
    enum { APPENDS = 2000 };
    for (int round = 0; round < rounds; round++) {
        for (int c = 0; c < 2; c++) {
            ring[SVGA_FIFO_STOP] = ring[SVGA_FIFO_NEXT_CMD];
            double start = now_ns();
            for (uint32_t i = 0; i < APPENDS; i++) c == 0 ? svga_append(ring, lent.ring_len, i) : peer_append(ring, lent.ring_len, i);
            add_time(&times[c], (now_ns() - start) / APPENDS);
        }
    }
}

static bool ring_size_costs_nothing(int rounds) {
    static const uint32_t ring_bytes[] = {10240, 20480, 65536, 262144, 1048576, SVGA_MEMORY_MAX - 4 * FIRST};
    struct times times[MOST_ROWS][MOST_COLUMNS] = {0};
    for (int pass = 0; pass < PASSES; pass++) {
        for (size_t i = 0; i < COUNT(ring_bytes); i++) {
            size_t words = FIRST + ring_bytes[i] / 4;
            lent = (struct lent){ring, words, framebuffer, screen, PIXELS, cursor, WIDTH, HEIGHT};
            empty_ring(ring, words);
            our_set_up(&lent), c_set_up(&lent);
            if (!time_round(put_fence, 1200, rounds * 4, times[i])) return differ("FENCE in a ring", ring_bytes[i]);
            if (!time_round(put_dot, 400, rounds * 4, times[i] + 2)) return differ("fills in a ring", ring_bytes[i]);
            time_appends(rounds, times[i] + 4);
        }
    }
    printf("| Bytes of the ring | FENCE, ns each | C device | 1x1 fill, ns each | C device | append, ns | C device |\n|---|---|---|---|---|---|---|\n");
    print_constants(ring_bytes, times, COUNT(ring_bytes), 6);
    return true;
}

int main(int argc, char **argv) {
    int rounds = rounds_from(argc, argv, 10);
    ring = new_words(RING_WORDS), cursor = new_words(SVGA_CURSOR_WORDS), output = new_words(PIXELS);
    framebuffer = new_words(PIXELS), screen = new_words(PIXELS);

    printf("## Growth\n\n\"slope\": what each unit more has cost since the row above. A straight line has one slope.\n\n");
    bool good = painting_grows("RECT_FILL", SVGA_CMD_RECT_FILL, "C device (pixman_fill)", rounds) &&
                painting_grows("UPDATE", SVGA_CMD_UPDATE, "C device (memcpy)", rounds) &&
                painting_grows("RECT_COPY", SVGA_CMD_RECT_COPY, "C device (memmove)", rounds) && pictures_grow(rounds) &&
                commands_grow("FENCE, one run", put_fence, 262138, rounds) && commands_grow("1x1 fill, one run", put_dot, 87380, rounds) &&
                waiting_costs_nothing(262138, rounds) && ring_size_costs_nothing(rounds);
    return good ? 0 : 1;
}
