// Cost of single calls: a Markdown table of the time for one, ours and of the device in plain C, whose registers are a struct and a switch.
// First both devices get the same random calls, bad ones too, and have to answer alike. The calls of a row are made some hundred times
// for one reading of the clock, by ours and by the C device in turn, and the median of all rounds counts.
// The exit status is 1 if an answer differs, and 0 otherwise.
//
//   calls [ROUNDS]        (default 1000)
#include "both.h"
#include "common.h"

enum { RING_WORDS = FIRST + SVGA_RING_BYTES_MIN / 4, PIXELS = 1024, CALLS = 500 };

static uint32_t ring[2][RING_WORDS]; // ours, the C device's
static uint32_t framebuffer[PIXELS], screen[PIXELS], cursor[SVGA_CURSOR_WORDS];
static struct lent ours, theirs;

static void set_up_both(void) {
    for (int i = 0; i < 2; i++) empty_ring(ring[i], RING_WORDS);
    ours = (struct lent){ring[0], RING_WORDS, framebuffer, screen, PIXELS, cursor, 32, 32};
    theirs = ours;
    theirs.ring = ring[1];
    our_set_up(&ours), c_set_up(&theirs);
}

// ---- the check before it

// A value of some meaning for a register, or any.
static uint32_t random_value(uint32_t index) {
    if (index == SVGA_REG_ID) return SVGA_ID_0 + (uint32_t)rand() % 5;
    if (index == SVGA_REG_WIDTH || index == SVGA_REG_HEIGHT) return rand() % 2 ? random_number(40) : random_number(2560);
    return random_number(4);
}

static bool write_alike(void) {
    uint32_t index = random_number(32), value = random_value(index);
    return our_write(&ours, index, value) == c_write(&theirs, index, value);
}
static bool read_alike(void) {
    uint32_t index = random_number(32);
    return svga_read(device, SVGA_DEVICE_WORDS, index) == peer_read(&peer, index);
}
// Most words are of FENCE commands; another number is a fault.
static bool append_alike(void) {
    uint32_t word = rand() % 60 ? SVGA_CMD_FENCE : random_number(40);
    return svga_append(ring[0], RING_WORDS, word) == peer_append(ring[1], RING_WORDS, word);
}
static bool run_alike(void) {
    uint32_t budget = random_number(8);
    return our_run(&ours, budget) == c_run(&theirs, budget) && ring[0][SVGA_FIFO_STOP] == ring[1][SVGA_FIFO_STOP] &&
           ring[0][SVGA_FIFO_FENCE] == ring[1][SVGA_FIFO_FENCE];
}
static bool fences_alike(void) {
    uint32_t fence = random_number(40);
    return both_keep_alike() && svga_fence_passed(device, SVGA_DEVICE_WORDS, fence) == peer_fence_passed(&peer, fence);
}

static bool check_all(int count) {
    static bool (*const alike[])(void) = {write_alike, read_alike, append_alike, append_alike, run_alike, fences_alike};
    set_up_both();
    for (int i = 0; i < count; i++) {
        size_t call = (size_t)rand() % COUNT(alike);
        if (rand() % 200 == 0) our_set_up(&ours), c_set_up(&theirs);
        if (alike[call]()) continue;
        printf("MISMATCH: call %d, of kind %zu\n", i, call);
        return false;
    }
    printf("%d random calls answer alike in both devices: register writes and reads, appends, runs and fences.\n\n", count);
    return true;
}

// ---- contenders: each makes CALLS calls and adds up what they answer

#define CALLED(call)                                        \
    {                                                       \
        uint64_t sum = 0;                                   \
        for (uint32_t i = 0; i < CALLS; i++) sum += (call); \
        return sum;                                         \
    }
#define OUR_WRITE(index, value) CALLED(our_write(&ours, index, value))
#define C_WRITE(index, value) CALLED(c_write(&theirs, index, value))
#define OUR_READ(index) CALLED(svga_read(device, SVGA_DEVICE_WORDS, index))
#define C_READ(index) CALLED(peer_read(&peer, index))
#define ABSENT 1024 // a palette register

static uint64_t our_width(void) OUR_WRITE(SVGA_REG_WIDTH, 20 + i % 2)
static uint64_t c_width(void) C_WRITE(SVGA_REG_WIDTH, 20 + i % 2)
static uint64_t our_cursor_x(void) OUR_WRITE(SVGA_REG_CURSOR_X, i)
static uint64_t c_cursor_x(void) C_WRITE(SVGA_REG_CURSOR_X, i)
static uint64_t our_cursor_on(void) OUR_WRITE(SVGA_REG_CURSOR_ON, SVGA_CURSOR_ON_SHOW)
static uint64_t c_cursor_on(void) C_WRITE(SVGA_REG_CURSOR_ON, SVGA_CURSOR_ON_SHOW)
static uint64_t our_sync(void) OUR_WRITE(SVGA_REG_SYNC, 1)
static uint64_t c_sync(void) C_WRITE(SVGA_REG_SYNC, 1)
static uint64_t our_config(void) OUR_WRITE(SVGA_REG_CONFIG_DONE, 1)
static uint64_t c_config(void) C_WRITE(SVGA_REG_CONFIG_DONE, 1)
static uint64_t our_absent(void) OUR_WRITE(ABSENT, i)
static uint64_t c_absent(void) C_WRITE(ABSENT, i)
static uint64_t our_read_width(void) OUR_READ(SVGA_REG_WIDTH)
static uint64_t c_read_width(void) C_READ(SVGA_REG_WIDTH)
static uint64_t our_read_busy(void) OUR_READ(SVGA_REG_BUSY)
static uint64_t c_read_busy(void) C_READ(SVGA_REG_BUSY)
static uint64_t our_read_absent(void) OUR_READ(ABSENT)
static uint64_t c_read_absent(void) C_READ(ABSENT)
static uint64_t our_fence(void) CALLED(svga_fence(device, SVGA_DEVICE_WORDS))
static uint64_t c_fence(void) CALLED(peer_fence(&peer))
static uint64_t our_passed(void) CALLED(svga_fence_passed(device, SVGA_DEVICE_WORDS, i))
static uint64_t c_passed(void) CALLED(peer_fence_passed(&peer, i))
static uint64_t our_append(void) CALLED(svga_append(ring[0], RING_WORDS, i))
static uint64_t c_append(void) CALLED(peer_append(ring[1], RING_WORDS, i))
static uint64_t our_empty(void) CALLED(our_run(&ours, 1000))
static uint64_t c_empty(void) CALLED(c_run(&theirs, 1000))

static const struct {
    const char *name;
    uint64_t (*ours)(void), (*theirs)(void);
} rows[] = {
    {"`svga_write` WIDTH", our_width, c_width},
    {"`svga_write` CURSOR_X", our_cursor_x, c_cursor_x},
    {"`svga_write` CURSOR_ON 1", our_cursor_on, c_cursor_on},
    {"`svga_write` SYNC", our_sync, c_sync},
    {"`svga_write` CONFIG_DONE 1", our_config, c_config},
    {"`svga_write`, absent", our_absent, c_absent},
    {"`svga_read` WIDTH", our_read_width, c_read_width},
    {"`svga_read` BUSY", our_read_busy, c_read_busy},
    {"`svga_read`, absent", our_read_absent, c_read_absent},
    {"`svga_fence`", our_fence, c_fence},
    {"`svga_fence_passed`", our_passed, c_passed},
    {"`svga_append`", our_append, c_append},
    {"`svga_run`, empty ring", our_empty, c_empty},
};

// ---- timing

static double time_calls(uint64_t (*calls)(void), uint64_t *sum) {
    for (int i = 0; i < 2; i++) empty_ring(ring[i], RING_WORDS);
    double start = now_ns();
    *sum = calls();
    return (now_ns() - start) / CALLS;
}

// All rows in each round, so that a slow spell of the machine falls on all.
static bool measure(int rounds, struct times (*times)[2]) {
    uint64_t sum[2];
    for (int round = 0; round < rounds; round++) {
        for (size_t row = 0; row < COUNT(rows); row++) {
            set_up_both();
            add_time(&times[row][0], time_calls(rows[row].ours, &sum[0]));
            add_time(&times[row][1], time_calls(rows[row].theirs, &sum[1]));
            if (sum[0] == sum[1]) continue;
            printf("MISMATCH: %s\n", rows[row].name);
            return false;
        }
    }
    return true;
}

int main(int argc, char **argv) {
    int rounds = rounds_from(argc, argv, 1000);
    static struct times times[COUNT(rows)][2];
    srand(7);
    printf("## Single calls\n\n");
    if (!check_all(1000000) || !measure(rounds, times)) return 1;
    printf("| Call | ours, ns | C device, ns | Ratio |\n|---|---|---|---|\n");
    for (size_t row = 0; row < COUNT(rows); row++) {
        double our = median(&times[row][0]), their = median(&times[row][1]);
        printf("| %s | %.1f | %.1f | %.1f |\n", rows[row].name, our, their, our / their);
    }
    return 0;
}
