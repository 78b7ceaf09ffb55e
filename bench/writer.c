// Cost of appending a command: a Markdown table of the time for one, by svga_append_command and by a C loop that checks the same and stores
// word by word (peer_append_command); for a cursor also by a memcpy of its pixels alone. First both writers get the same random commands, bad
// ones and bad rings too, and have to answer alike and leave the same ring. Some thousand commands, or 60 cursors, are appended for one
// reading of the clock, by the contenders in turn, and the median of all rounds counts. Where the ring is full it is emptied, as by a run:
// STOP becomes NEXT_CMD. That is timed with every contender: one store for some thousand commands, or for three cursors.
// The exit status is 1 if anything differs, and 0 otherwise: a missed target is only marked in the table.
//
//   writer [ROUNDS]        (default 1000)
#include "both.h"
#include "common.h"

enum { SIDE = SVGA_CURSOR_SIDE_MAX, RING_WORDS = 65536 / 4 };

static uint32_t ring[RING_WORDS], pixels[SIDE * SIDE + 1];

// ---- the check before it: random commands in small rings

enum { SMALL_SIZE = SVGA_RING_BYTES_MIN / 4, SMALL_RING = FIRST + 1 + SMALL_SIZE }; // rings from words 4 to 8 on

struct command {
    uint32_t words[9];
    size_t count, pixel_count, byte_count;
};

static uint32_t random_side(void) { return rand() % 8 ? 1 + (uint32_t)rand() % 12 : random_number(SIDE); }

// Most of them good, and with as many pixels and bytes as they ask for.
static struct command random_command(void) {
    static const uint32_t heads[][2] = {
        {SVGA_CMD_UPDATE, 5},        {SVGA_CMD_RECT_FILL, 6},           {SVGA_CMD_RECT_COPY, 7},
        {SVGA_CMD_RECT_ROP_FILL, 7}, {SVGA_CMD_RECT_ROP_COPY, 8},       {SVGA_CMD_UPDATE_VERBOSE, 6},
        {SVGA_CMD_FENCE, 2},         {SVGA_CMD_DEFINE_ALPHA_CURSOR, 6}, {SVGA_CMD_ESCAPE, 3},
    };
    const uint32_t *head = heads[(size_t)rand() % COUNT(heads)];
    struct command c = {.count = head[1]};
    uint32_t *a = c.words;
    a[0] = rand() % 30 ? head[0] : random_number(40);
    for (size_t i = 1; i < COUNT(c.words); i++) a[i] = random_number(SVGA_ROP_SET);
    if (a[0] == SVGA_CMD_DEFINE_ALPHA_CURSOR) {
        a[4] = random_side(), a[5] = random_side();
        a[2] = rand() % 30 ? a[4] / 2 : random_number(SIDE), a[3] = rand() % 30 ? a[5] / 2 : random_number(SIDE);
        c.pixel_count = a[4] <= SIDE && a[5] <= SIDE ? a[4] * a[5] : 0;
    }
    if (a[0] == SVGA_CMD_ESCAPE) {
        a[2] = (uint32_t)rand() % 80;
        if (rand() % 4 == 0) a[2] = rand() % 4 ? 10220 + (uint32_t)rand() % 10 : random_number(10240); // an empty ring has room up to 10,224
        c.byte_count = a[2] <= 10240 ? a[2] : 0;
    }
    if (rand() % 30 == 0) c.count = (size_t)rand() % COUNT(c.words);
    if (rand() % 30 == 0) c.pixel_count += (size_t)rand() % 2, c.byte_count += (size_t)rand() % 2;
    return c;
}

static bool check_all(int trials) {
    static uint32_t small[2][SMALL_RING];
    static uint8_t data[10241];
    int taken = 0;
    for (int i = 0; i < SMALL_RING; i++) small[0][i] = random_word();
    for (size_t i = 0; i < COUNT(data); i++) data[i] = (uint8_t)rand();
    for (size_t i = 0; i < COUNT(pixels); i++) pixels[i] = random_word();
    for (int trial = 0; trial < trials; trial++) {
        uint32_t first = 4 + (uint32_t)rand() % 5, stop = (uint32_t)rand() % SMALL_SIZE;
        uint32_t free = rand() % 2 ? (uint32_t)rand() % SMALL_SIZE : (uint32_t)rand() % 12, next = stop + SMALL_SIZE - 1 - free;
        size_t lent = rand() % 30 ? SMALL_RING : (size_t)rand() % (SMALL_RING + 1);
        struct command c = random_command();
        empty_ring_at(small[0], first, first + SMALL_SIZE);
        small[0][SVGA_FIFO_STOP] = (first + stop) * 4, small[0][SVGA_FIFO_NEXT_CMD] = (first + next % SMALL_SIZE) * 4;
        if (rand() % 30 == 0) small[0][rand() % 4] += (uint32_t)rand() % 8;
        if (rand() % 30 == 0) small[0][rand() % 4] = random_number(SMALL_RING * 4);
        memcpy(small[1], small[0], sizeof small[0]);
        uint32_t our = svga_append_command(small[0], lent, c.words, c.count, pixels, c.pixel_count, data, c.byte_count);
        uint32_t their = peer_append_command(small[1], lent, c.words, c.count, pixels, c.pixel_count, data, c.byte_count);
        taken += our == SVGA_ANSWER_TAKEN;
        if (our == their && !memcmp(small[0], small[1], sizeof small[0])) continue;
        printf("MISMATCH: random command %d, number %u: ours %u, the C loop's %u\n", trial, c.words[0], our, their);
        return false;
    }
    printf("%d random commands, %d of them taken, are answered alike by both writers and leave the same ring.\n\n", trials, taken);
    return true;
}

// ---- contenders: each appends one command to the ring

typedef __typeof__(svga_append_command) writer;

// Pixels to where the command has them, in two parts where the ring ends between. Nothing is checked.
static uint32_t copy_pixels(uint32_t *r, size_t r_len, const uint32_t *command, size_t command_len, const uint32_t *p, size_t p_len,
                            const uint8_t *data, size_t data_len) {
    (void)command, (void)data, (void)data_len;
    size_t at = r[SVGA_FIFO_NEXT_CMD] / 4 + command_len, size = r_len - FIRST;
    if (at >= r_len) at -= size;
    size_t in_row = p_len < r_len - at ? p_len : r_len - at;
    memcpy(r + at, p, in_row * sizeof *p);
    if (in_row < p_len) memcpy(r + FIRST, p + in_row, (p_len - in_row) * sizeof *p);
    at += p_len;
    r[SVGA_FIFO_NEXT_CMD] = (uint32_t)(at < r_len ? at : at - size) * 4;
    return SVGA_ANSWER_TAKEN;
}

static const struct row {
    const char *name;
    uint32_t words[6];
    size_t count, pixel_count;
    int batch, batches; // so many that fit the ring, so many times
} rows[] = {
    {"FENCE", {SVGA_CMD_FENCE, 7}, 2, 0, 8000, 2},
    {"RECT_FILL", {SVGA_CMD_RECT_FILL, 0x3399FF, 30, 31, 16, 16}, 6, 0, 2500, 4},
    {"DEFINE_ALPHA_CURSOR 64x64", {SVGA_CMD_DEFINE_ALPHA_CURSOR, 1, 0, 0, SIDE, SIDE}, 6, SIDE * SIDE, 3, 20},
};
static const struct {
    const char *name;
    writer *append;
    double target;
    bool pixels_only;
} contenders[] = {
    {"", svga_append_command, 0, false},
    {"C loop", peer_append_command, 1.00, false},
    {"memcpy of its pixels", copy_pixels, 1.10, true},
    {"ours again", svga_append_command, 0, false},
};

static bool runs(size_t contender, const struct row *row) { return !contenders[contender].pixels_only || row->pixel_count; }

// ---- timing

static bool time_row(const struct row *row, writer *append, struct times *times) {
    uint32_t answers = 0;
    empty_ring(ring, RING_WORDS);
    double start = now_ns();
    for (int i = 0; i < row->batches; i++) {
        for (int j = 0; j < row->batch; j++) answers |= append(ring, RING_WORDS, row->words, row->count, pixels, row->pixel_count, NULL, 0);
        ring[SVGA_FIFO_STOP] = ring[SVGA_FIFO_NEXT_CMD];
    }
    add_time(times, (now_ns() - start) / (row->batches * row->batch));
    if (answers == SVGA_ANSWER_TAKEN) return true;
    printf("MISMATCH: %s is refused\n", row->name);
    return false;
}

int main(int argc, char **argv) {
    int rounds = rounds_from(argc, argv, 1000);
    static struct times times[COUNT(rows)][COUNT(contenders)];
    srand(7);
    printf("## The guest's writer\n\n");
    if (!check_all(50000)) return 1;
    for (int round = 0; round < rounds; round++)
        for (size_t row = 0; row < COUNT(rows); row++)
            for (size_t i = 0; i < COUNT(contenders); i++)
                if (runs(i, &rows[row]) && !time_row(&rows[row], contenders[i].append, &times[row][i])) return 1;
    printf("| Command, ring of 65,536 bytes | ours, ns | Reference | ns | Ratio | Target |\n|---|---|---|---|---|---|\n");
    for (size_t row = 0; row < COUNT(rows); row++)
        for (size_t i = 1; i < COUNT(contenders); i++) {
            if (!runs(i, &rows[row])) continue;
            double our = median(&times[row][0]), other = median(&times[row][i]);
            printf("| %s | %.1f | %s | %.1f |", rows[row].name, our, contenders[i].name, other);
            print_ratio(our / other, contenders[i].target);
            printf("\n");
        }
    return 0;
}
