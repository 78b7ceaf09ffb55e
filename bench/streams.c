// Speed of a run: streams of small commands with a large budget, run by our device and by a device in plain C, on the same memories; and a
// strip that is scrolled in offscreen rows and shown.
// A Markdown table of the time for one command, ours and the C device's, and of the same rectangles painted directly, with nothing parsed.
// First some thousand small hostile rings are run by both devices and compared whole. Before a stream is timed, each contender runs it from
// one screen and has to end with the same screen, and the devices with the same fence, posted to ring word 6; then all run in turn, and the
// median of all rounds counts. A device is made and set up anew for each stream, which is timed with it.
// With BEFORE_ABI the device of an older archive is a contender too: `bench/run --before LIB`.
// The exit status is 1 if anything differs, and 0 otherwise: a missed target is only marked in the table.
//
//   streams [ROUNDS]        (default 50; ten times as many for fences and 1x1 fills)
#include "before.h"
#include "both.h"
#include "common.h"

static const uint32_t ALL = 0xFFFFFFFF; // a budget

// ---- the check before it: small hostile rings, run by both

enum { SMALL_SIZE = SVGA_RING_BYTES_MIN / 4, SMALL_RING = FIRST + 1 + SMALL_SIZE, SMALL_PIXELS = 1200 }; // rings from words 4 to 8 on

// Its rectangles go by so many rows, the mode's or all that the screen has.
static void put_hostile_command(uint32_t *ring, uint32_t first, uint32_t *at, uint32_t width, uint32_t rows) {
    enum { UPDATE = 1, FILL = 2, COPY = 3, ROP_FILL = 13, ROP_COPY = 14, CURSOR = 22, UPDATE_VERBOSE = 25, FENCE = 30, ESCAPE = 33 };
    static const uint32_t numbers[] = {UPDATE, FILL, COPY, ROP_FILL, ROP_COPY, CURSOR, UPDATE_VERBOSE, FENCE, ESCAPE};
    uint32_t number = rand() % 200 == 0 ? random_number(40) : numbers[rand() % 9], a[8], n = 0;
    uint32_t data = 0; // words after the arguments
    if (number == FILL || number == ROP_FILL || number == FENCE) a[n++] = rand() % 100 == 0 ? 0 : random_word();
    if (number == COPY || number == ROP_COPY) a[n++] = random_number(width), a[n++] = random_number(rows);
    if (number <= ROP_COPY || number == UPDATE_VERBOSE) {
        a[n++] = random_number(width), a[n++] = random_number(rows), a[n++] = random_number(width), a[n++] = random_number(rows);
    }
    if (number == ROP_FILL || number == ROP_COPY) a[n++] = rand() % 100 == 0 ? random_number(16) : (uint32_t)rand() % 16;
    if (number == UPDATE_VERBOSE) a[n++] = random_word();
    if (number == ESCAPE) {
        data = (uint32_t)rand() % 20;
        a[n++] = random_word(), a[n++] = data * 4 - (data ? (uint32_t)rand() % 4 : 0);
        if (rand() % 50 == 0) a[1] = rand() % 2 ? 10220 + (uint32_t)rand() % 10 : random_number(10240); // the ring carries up to 10,224
    }
    if (number == CURSOR) {
        uint32_t w = 1 + (uint32_t)rand() % 12, h = 1 + (uint32_t)rand() % 12;
        if (rand() % 30 == 0) w = random_number(64);
        if (rand() % 30 == 0) h = random_number(64);
        data = w <= 64 && h <= 64 ? w * h : 0;
        a[n++] = random_word(), a[n++] = w ? (uint32_t)rand() % w : 0, a[n++] = h ? (uint32_t)rand() % h : 0;
        if (rand() % 50 == 0) a[1] = random_number(64);
        a[n++] = w, a[n++] = h;
    }
    put_at(ring, first, first + SMALL_SIZE, at, number);
    for (uint32_t i = 0; i < n; i++) put_at(ring, first, first + SMALL_SIZE, at, a[i]);
    for (uint32_t i = 0; i < data; i++) put_at(ring, first, first + SMALL_SIZE, at, random_word());
}

static bool check_one(int trial) {
    static uint32_t ring[2][SMALL_RING], fb[SMALL_PIXELS], screen[2][SMALL_PIXELS], cursor[2][SVGA_CURSOR_WORDS];
    uint32_t width = 1 + (uint32_t)rand() % 40, rows = SMALL_PIXELS / width;
    uint32_t height = rand() % 3 ? 1 + (uint32_t)rand() % 30 : rows; // most of them with offscreen rows behind the mode
    uint32_t first = rand() % 2 ? FIRST : 4 + (uint32_t)rand() % 5; // most of them where fences are posted
    uint32_t stop = first + (uint32_t)rand() % SMALL_SIZE, at = stop;
    for (int i = 0; i < SMALL_RING; i++) ring[0][i] = random_word();
    for (int i = 0; i < SMALL_PIXELS; i++) screen[0][i] = random_word(), fb[i] = random_word();
    for (int i = 0; i < SVGA_CURSOR_WORDS; i++) cursor[0][i] = random_word();
    for (int n = rand() % 40; n > 0; n--) put_hostile_command(ring[0], first, &at, width, rand() % 3 ? rows : height);
    if (rand() % 4 == 0) at = first + (uint32_t)rand() % SMALL_SIZE;
    empty_ring_at(ring[0], first, first + SMALL_SIZE);
    ring[0][SVGA_FIFO_NEXT_CMD] = at * 4, ring[0][SVGA_FIFO_STOP] = stop * 4;
    if (rand() % 50 == 0) ring[0][rand() % 4] += (uint32_t)rand() % 8;
    if (rand() % 50 == 0) width = random_number(2560), height = random_number(1600);
    uint32_t budget = rand() % 3 ? ALL : (uint32_t)rand() % 30;
    memcpy(ring[1], ring[0], sizeof ring[0]), memcpy(screen[1], screen[0], sizeof screen[0]);
    memcpy(cursor[1], cursor[0], sizeof cursor[0]);

    struct lent ours = {ring[0], SMALL_RING, fb, screen[0], SMALL_PIXELS, cursor[0], width, height};
    struct lent theirs = {ring[1], SMALL_RING, fb, screen[1], SMALL_PIXELS, cursor[1], width, height};
    our_set_up(&ours), c_set_up(&theirs);
    // NEXT_CMD may go bad after it was accepted, and MIN, which is not read again.
    if (rand() % 20 == 0) ring[0][SVGA_FIFO_NEXT_CMD] = ring[1][SVGA_FIFO_NEXT_CMD] = random_number(SMALL_RING * 4);
    if (rand() % 10 == 0) ring[0][SVGA_FIFO_MIN] = ring[1][SVGA_FIFO_MIN] = random_number(40);
    uint64_t our_end = our_run(&ours, budget), c_end = c_run(&theirs, budget);
    if (our_end == c_end && !memcmp(ring[0], ring[1], sizeof ring[0]) && !memcmp(screen[0], screen[1], sizeof screen[0]) &&
        !memcmp(cursor[0], cursor[1], sizeof cursor[0]) && both_keep_alike())
        return true;
    printf("MISMATCH: hostile ring %d, mode %ux%u, budget %u: ours %u after %u commands, the C device's %u after %u\n", trial, width, height,
           budget, svga_answer_of(our_end), svga_value_of(our_end), svga_answer_of(c_end), svga_value_of(c_end));
    return false;
}

static bool check_all(int count) {
    for (int i = 0; i < count; i++)
        if (!check_one(i)) return false;
    printf("%d hostile rings end alike in both devices: answer, count, ring, whole screen, cursor image, defined cursor and fence.\n\n",
           count);
    return true;
}

// ---- streams

enum { WIDTH = 1920, HEIGHT = 1080, PIXELS = WIDTH * HEIGHT };
enum { RING_WORDS = SVGA_MEMORY_MAX / 4, SIDE = 16, MOST_COMMANDS = RING_WORDS / 2 };
enum { STRIP = 120, STRIP_TOP = HEIGHT - STRIP, STEPS = 64 }; // the rows of the strip, its first one, and how often it is scrolled

static uint32_t *ring, *framebuffer, *screen;
static uint32_t *old_screen, *first_screen; // for the check: before each contender's run, and after the first one's
static struct lent lent;

// One command as the direct rows paint it: already cut.
struct job {
    uint32_t command;
    uint32_t colour;
    struct rect from, to;
};
static struct job *jobs;
static size_t job_count;

enum kind { FENCES, FILLS_1, FILLS_16, UPDATES_16, COPIES_16, MIXED, SCROLL };
static const char *const kind_name[] = {"FENCE", "RECT_FILL 1x1", "RECT_FILL 16x16", "UPDATE 16x16", "RECT_COPY 16x16", "all five, mixed",
                                        "strip of 1920x120 scrolled offscreen"};

// The mode has all pixels, but for those of a strip that is kept offscreen.
static uint32_t mode_height(enum kind kind) { return kind == SCROLL ? STRIP_TOP : HEIGHT; }

// Drawn places reach over the right and the lower edge now and then.
static void put_command(enum kind kind, uint32_t *at) {
    static const uint32_t command[] = {SVGA_CMD_FENCE, SVGA_CMD_RECT_FILL, SVGA_CMD_RECT_FILL, SVGA_CMD_UPDATE, SVGA_CMD_RECT_COPY};
    uint32_t side = kind == FILLS_1 ? 1 : SIDE, colour = random_word() | 1; // FENCE 0 is a fault
    uint32_t to[4] = {(uint32_t)rand() % WIDTH, (uint32_t)rand() % HEIGHT, side, side};
    uint32_t from[4] = {(uint32_t)rand() % WIDTH, (uint32_t)rand() % HEIGHT, side, side};
    struct job *j = &jobs[job_count++];
    *j = (struct job){command[kind], colour, cut(from, WIDTH, HEIGHT), cut(to, WIDTH, HEIGHT)};
    put(ring, RING_WORDS, at, j->command);
    if (kind == FENCES || kind == FILLS_1 || kind == FILLS_16) put(ring, RING_WORDS, at, colour);
    if (kind == COPIES_16) {
        j->to.w = smaller(j->to.w, j->from.w), j->to.h = smaller(j->to.h, j->from.h);
        put(ring, RING_WORDS, at, from[0]), put(ring, RING_WORDS, at, from[1]);
    }
    if (kind != FENCES)
        for (int i = 0; i < 4; i++) put(ring, RING_WORDS, at, to[i]);
}

static void put_fill(uint32_t *at, uint32_t colour, struct rect to) {
    const uint32_t words[] = {SVGA_CMD_RECT_FILL, colour, to.x, to.y, to.w, to.h};
    jobs[job_count++] = (struct job){.command = words[0], .colour = colour, .to = to};
    for (size_t i = 0; i < COUNT(words); i++) put(ring, RING_WORDS, at, words[i]);
}
static void put_copy(uint32_t *at, struct rect from, uint32_t x, uint32_t y) {
    const uint32_t words[] = {SVGA_CMD_RECT_COPY, from.x, from.y, x, y, from.w, from.h};
    jobs[job_count++] = (struct job){.command = words[0], .from = from, .to = {x, y, from.w, from.h}};
    for (size_t i = 0; i < COUNT(words); i++) put(ring, RING_WORDS, at, words[i]);
}

// A curve moves on by a column: the strip in the offscreen rows, then a new column in it; and the strip is shown.
static void put_scroll(uint32_t *at) {
    uint32_t level = 1 + (uint32_t)rand() % (STRIP - 1);
    put_copy(at, (struct rect){1, STRIP_TOP, WIDTH - 1, STRIP}, 0, STRIP_TOP);
    put_fill(at, 0x0E1E38, (struct rect){WIDTH - 1, STRIP_TOP, 1, STRIP});
    put_fill(at, 0x0E5CB0, (struct rect){WIDTH - 1, STRIP_TOP + level, 1, STRIP - level});
    put_copy(at, (struct rect){0, STRIP_TOP, WIDTH, STRIP}, 0, 200);
}

// Fills the ring, or scrolls some times. It begins in the middle, so that the words of a full ring wrap once.
static uint32_t start_of_stream(void) { return RING_WORDS / 2 + 1; }

static void make_stream(enum kind kind) {
    uint32_t at = start_of_stream(), size = RING_WORDS - FIRST;
    job_count = 0;
    for (int i = 0; kind == SCROLL && i < STEPS; i++) put_scroll(&at);
    while (kind != SCROLL) {
        uint32_t used = (at + size - start_of_stream()) % size;
        if (job_count > 0 && used + 8 > size - 1) break;
        put_command(kind == MIXED ? (enum kind)(rand() % MIXED) : kind, &at);
    }
    empty_ring(ring, RING_WORDS);
    ring[SVGA_FIFO_NEXT_CMD] = at * 4;
}

// ---- contenders

static uint64_t ours(void) {
    our_set_up(&lent);
    return our_run(&lent, ALL);
}
static uint64_t c_device(void) {
    c_set_up(&lent);
    return c_run(&lent, ALL);
}
#ifdef BEFORE_ABI
static uint32_t before_device[SVGA_DEVICE_WORDS];

static uint64_t before(void) {
    const uint32_t writes[][2] = {{SVGA_REG_WIDTH, WIDTH}, {SVGA_REG_HEIGHT, lent.height}, {SVGA_REG_ENABLE, 1}, {SVGA_REG_CONFIG_DONE, 1}};
    before_make(before_device, SVGA_DEVICE_WORDS, RING_WORDS * 4, PIXELS);
    for (size_t i = 0; i < COUNT(writes); i++)
        before_write(before_device, SVGA_DEVICE_WORDS, ring, RING_WORDS, writes[i][0], writes[i][1]);
    return before_run(before_device, SVGA_DEVICE_WORDS, ring, RING_WORDS, framebuffer, PIXELS, screen, PIXELS, lent.cursor, SVGA_CURSOR_WORDS,
                      ALL);
}
#endif

static bool apart(const struct job *j) {
    return j->to.x + j->to.w <= j->from.x || j->from.x + j->to.w <= j->to.x || j->to.y + j->to.h <= j->from.y || j->from.y + j->to.h <= j->to.y;
}
static void copy_directly(const struct job *j) {
    copy_rows(screen + (size_t)j->to.y * WIDTH + j->to.x, screen + (size_t)j->from.y * WIDTH + j->from.x, WIDTH, j->to.w, j->to.h);
}

// pixman; a copy that overlaps itself by memmove, since pixman_blt does not mind the overlap.
static uint64_t by_pixman(void) {
    for (const struct job *j = jobs; j < jobs + job_count; j++) {
        int x = (int)j->to.x, y = (int)j->to.y, w = (int)j->to.w, h = (int)j->to.h;
        if (j->command == SVGA_CMD_RECT_FILL) pixman_fill(screen, WIDTH, 32, x, y, w, h, j->colour);
        if (j->command == SVGA_CMD_UPDATE) pixman_blt(framebuffer, screen, WIDTH, WIDTH, 32, 32, x, y, x, y, w, h);
        if (j->command == SVGA_CMD_RECT_COPY && apart(j))
            pixman_blt(screen, screen, WIDTH, WIDTH, 32, 32, (int)j->from.x, (int)j->from.y, x, y, w, h);
        if (j->command == SVGA_CMD_RECT_COPY && !apart(j)) copy_directly(j);
    }
    return 0;
}
// A loop for fills, memcpy and memmove row by row.
static uint64_t by_rows(void) {
    for (const struct job *j = jobs; j < jobs + job_count; j++) {
        size_t at = (size_t)j->to.y * WIDTH + j->to.x;
        if (j->command == SVGA_CMD_RECT_FILL) fill_rows(screen + at, WIDTH, j->to.w, j->to.h, j->colour);
        if (j->command == SVGA_CMD_UPDATE) update_rows(screen + at, framebuffer + at, WIDTH, j->to.w, j->to.h);
        if (j->command == SVGA_CMD_RECT_COPY) copy_directly(j);
    }
    return 0;
}

// ---- timing

enum { OURS, C_DEVICE, PIXMAN, ROWS, BEFORE, MOST_CONTENDERS };
static uint64_t (*const contender[])(void) = {
    ours, c_device, by_pixman, by_rows,
#ifdef BEFORE_ABI
    before,
#endif
};
enum { CONTENDERS = COUNT(contender), HAS_BEFORE = CONTENDERS > BEFORE };
static const double TARGET = 1.0, TARGET_SCROLL = 1.05, TARGET_BEFORE = 1.05;

// Whether every device reaches offscreen rows; an older archive may be one that does not.
static bool all_reach_offscreen(void) {
#ifdef BEFORE_ABI
    return svga_value_of(before_read(before_device, SVGA_DEVICE_WORDS, SVGA_REG_CAPABILITIES)) & SVGA_CAP_OFFSCREEN_1;
#else
    return true;
#endif
}

enum { NONE_POSTED = 0x5A5A5A };

// Runs one contender from the stream's start; a device has to consume every command.
static bool run_stream(int c) {
    ring[SVGA_FIFO_STOP] = start_of_stream() * 4, ring[SVGA_FIFO_FENCE] = NONE_POSTED;
    uint64_t ended = contender[c]();
    if (c == PIXMAN || c == ROWS) return true;
    return svga_answer_of(ended) == SVGA_ANSWER_DRAINED && svga_value_of(ended) == job_count &&
           ring[SVGA_FIFO_STOP] == ring[SVGA_FIFO_NEXT_CMD];
}

// Whether all devices keep the same fence, and ours and the C device the same cursor.
static bool devices_keep_alike(void) {
#ifdef BEFORE_ABI
    if (before_fence(before_device, SVGA_DEVICE_WORDS) != svga_fence(device, SVGA_DEVICE_WORDS)) return false;
#endif
    return both_keep_alike();
}

// The number of the stream's last FENCE, which ring word 6 then has to hold.
static uint32_t last_fence(void) {
    for (size_t i = job_count; i-- > 0;)
        if (jobs[i].command == SVGA_CMD_FENCE) return jobs[i].colour;
    return NONE_POSTED;
}

// Whether all contenders, from one screen, end with one screen, and the devices with one fence. Ours and the C device have to post it; an
// older archive may be one that posts none.
static bool all_agree(void) {
    for (int c = 0; c < CONTENDERS; c++) {
        memcpy(screen, old_screen, PIXELS * sizeof *screen);
        if (!run_stream(c)) return false;
        if ((c == OURS || c == C_DEVICE) && ring[SVGA_FIFO_FENCE] != last_fence()) return false;
        if (c == 0) memcpy(first_screen, screen, PIXELS * sizeof *screen);
        if (memcmp(first_screen, screen, PIXELS * sizeof *screen)) return false;
    }
    return devices_keep_alike();
}

// The contenders in an order by chance, so that what the last one left in the caches favours none. The seed is not rand's: each process has
// other orders, and the same streams.
static unsigned seed;
static void shuffle(int *order) {
    for (int i = 0; i < CONTENDERS; i++) {
        int j = rand_r(&seed) % (i + 1);
        order[i] = order[j], order[j] = i;
    }
}

static bool measure(enum kind kind, int rounds) {
    struct times times[MOST_CONTENDERS] = {0};
    double typical[MOST_CONTENDERS];
    int order[MOST_CONTENDERS] = {0};
    make_stream(kind);
    lent.height = mode_height(kind);
    if (kind == FENCES || kind == FILLS_1) rounds *= 10; // theirs take a millisecond
    bool agree = all_agree();
    for (int round = 0; agree && round < rounds; round++) {
        shuffle(order);
        for (int i = 0; i < CONTENDERS; i++) {
            double start = now_ns();
            agree = run_stream(order[i]) && agree;
            add_time(&times[order[i]], (now_ns() - start) / (double)job_count);
        }
    }
    if (!agree || !devices_keep_alike()) {
        printf("MISMATCH: %s\n", kind_name[kind]);
        return false;
    }
    for (int c = 0; c < CONTENDERS; c++) typical[c] = median(&times[c]), free(times[c].t);
    printf("| %s | %zu | %.1f | %.1f |", kind_name[kind], job_count, typical[OURS], typical[C_DEVICE]);
    print_ratio(typical[OURS] / typical[C_DEVICE], kind == SCROLL ? TARGET_SCROLL : TARGET);
    if (HAS_BEFORE) {
        printf(" %.1f |", typical[BEFORE]);
        print_ratio(typical[OURS] / typical[BEFORE], TARGET_BEFORE);
    }
    if (kind == FENCES) printf(" | |\n");
    else printf(" %.1f | %.1f |\n", typical[PIXMAN], typical[ROWS]);
    return true;
}

int main(int argc, char **argv) {
    int rounds = rounds_from(argc, argv, 50);
    srand(7), seed = (unsigned)time(NULL);
    printf("## Streams of small commands\n\n");
    if (!check_all(20000)) return 1;

    ring = new_words(RING_WORDS), framebuffer = new_words(PIXELS), screen = new_words(PIXELS);
    old_screen = new_words(PIXELS), first_screen = new_words(PIXELS);
    jobs = calloc(MOST_COMMANDS, sizeof *jobs);
    if (!jobs) return 1;
    for (size_t i = 0; i < PIXELS; i++) framebuffer[i] ^= 0x5A5A5A;
    lent = (struct lent){ring, RING_WORDS, framebuffer, screen, PIXELS, new_words(SVGA_CURSOR_WORDS), WIDTH, HEIGHT};

    printf("| Stream, %dx%d | commands | ours, ns each | C device, ns | Ratio | Target |%s pixman directly, ns | rows directly, ns |\n"
           "|---|---|---|---|---|---|%s---|---|\n", WIDTH, HEIGHT, HAS_BEFORE ? " before, ns | Ratio | Target |" : "",
           HAS_BEFORE ? "---|---|---|" : "");
    for (enum kind kind = FENCES; kind <= MIXED; kind++)
        if (!measure(kind, rounds)) return 1;
    return all_reach_offscreen() && !measure(SCROLL, rounds);
}
