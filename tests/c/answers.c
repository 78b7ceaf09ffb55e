// Every call of svga.h from C, taken and refused, as the header tells it. Prints 'failed: ..' for each line that does not hold.
#include "svga.h"

#include <stdio.h>
#include <string.h>

enum { MEMORY = SVGA_RING_BYTES_MIN + 64, WORDS = MEMORY / 4, PIXELS = 12, WIDTH = 4, HEIGHT = 3 };

static uint32_t device[SVGA_DEVICE_WORDS], ring[WORDS], framebuffer[PIXELS], screen[PIXELS], cursor[SVGA_CURSOR_WORDS], output[PIXELS];
static int checks, failures;

static void check(int line, const char *what, uint64_t is, uint64_t should) {
    checks++;
    if (is == should) return;
    failures++;
    printf("failed: answers.c:%d: %s is %llu, not %llu\n", line, what, (unsigned long long)is, (unsigned long long)should);
}
#define IS(what, should) check(__LINE__, #what, (uint64_t)(what), (uint64_t)(should))

static uint64_t both(uint32_t answer, uint32_t value) { return (uint64_t)answer << 32 | value; }
static uint32_t put(uint32_t index, uint32_t value) { return svga_write(device, SVGA_DEVICE_WORDS, ring, WORDS, index, value); }
static uint64_t get(uint32_t index) { return svga_read(device, SVGA_DEVICE_WORDS, index); }
static uint64_t run(uint32_t budget) {
    return svga_run(device, SVGA_DEVICE_WORDS, ring, WORDS, framebuffer, PIXELS, screen, PIXELS, cursor, SVGA_CURSOR_WORDS, budget);
}
static uint32_t picture(void) {
    return svga_picture(device, SVGA_DEVICE_WORDS, screen, PIXELS, cursor, SVGA_CURSOR_WORDS, output, PIXELS);
}
// An empty ring, the smallest one, from byte min on; it is empty at byte stop.
static void reset_ring(uint32_t min, uint32_t stop) {
    ring[SVGA_FIFO_MIN] = min, ring[SVGA_FIFO_MAX] = min + SVGA_RING_BYTES_MIN;
    ring[SVGA_FIFO_NEXT_CMD] = ring[SVGA_FIFO_STOP] = stop;
}
static void append(int line, const uint32_t *words, size_t count) {
    for (size_t i = 0; i < count; i++) check(line, "append", svga_append(ring, WORDS, words[i]), SVGA_APPEND_TAKEN);
}
#define APPEND(...)                                                  \
    do {                                                             \
        const uint32_t words[] = {__VA_ARGS__};                      \
        append(__LINE__, words, sizeof words / sizeof words[0]);     \
    } while (0)

static void making(void) {
    IS(svga_make(device, 63, MEMORY, PIXELS), SVGA_ANSWER_LENT_LENGTH);
    IS(svga_make(NULL, 0, MEMORY, PIXELS), SVGA_ANSWER_LENT_LENGTH);
    IS(svga_make(device, SVGA_DEVICE_WORDS, SVGA_MEMORY_MIN - 4, PIXELS), SVGA_ANSWER_BAD_SIZES);
    IS(svga_make(device, SVGA_DEVICE_WORDS, SVGA_MEMORY_MAX + 4, PIXELS), SVGA_ANSWER_BAD_SIZES);
    IS(svga_make(device, SVGA_DEVICE_WORDS, MEMORY, SVGA_PIXELS_MIN - 1), SVGA_ANSWER_BAD_SIZES);
    IS(svga_make(device, SVGA_DEVICE_WORDS, MEMORY, SVGA_PIXELS_MAX + 1), SVGA_ANSWER_BAD_SIZES);
    IS(get(SVGA_REG_ID), both(SVGA_ANSWER_NO_REGISTER, 0)); // nothing was made: zeros are no device
    IS(svga_make(device, SVGA_DEVICE_WORDS, SVGA_MEMORY_MAX, SVGA_PIXELS_MAX), SVGA_ANSWER_TAKEN);
    IS(svga_make(device, SVGA_DEVICE_WORDS, MEMORY, PIXELS), SVGA_ANSWER_TAKEN);
    IS(get(SVGA_REG_ID), both(SVGA_ANSWER_TAKEN, SVGA_ID_0));
}

static void registers(void) {
    IS(svga_write(device, SVGA_DEVICE_WORDS, NULL, 0, SVGA_REG_WIDTH, WIDTH), SVGA_ANSWER_TAKEN); // no ring is needed
    IS(put(SVGA_REG_HEIGHT, HEIGHT), SVGA_ANSWER_TAKEN);
    IS(put(SVGA_REG_WIDTH, SVGA_WIDTH_MAX + 1), SVGA_ANSWER_BAD_VALUE);
    IS(put(SVGA_REG_HEIGHT, SVGA_HEIGHT_MAX + 1), SVGA_ANSWER_BAD_VALUE);
    IS(put(SVGA_REG_BITS_PER_PIXEL, 32), SVGA_ANSWER_READ_ONLY);
    IS(put(29, 0), SVGA_ANSWER_NO_REGISTER);
    IS(get(29), both(SVGA_ANSWER_NO_REGISTER, 0));
    IS(get(SVGA_REG_FB_SIZE), both(SVGA_ANSWER_TAKEN, 4 * WIDTH * HEIGHT));
    IS(get(SVGA_REG_CAPABILITIES), both(SVGA_ANSWER_TAKEN, SVGA_CAPABILITIES));
    IS(put(SVGA_REG_ID, SVGA_ID_2), SVGA_ANSWER_TAKEN);
    IS(put(SVGA_REG_ID, SVGA_ID_2 + 1), SVGA_ANSWER_TAKEN);
    IS(svga_value_of(get(SVGA_REG_ID)), SVGA_ID_2);
    IS(svga_read(device, 65, SVGA_REG_ID), both(SVGA_ANSWER_LENT_LENGTH, 0));
    IS(svga_write(device, 65, ring, WORDS, SVGA_REG_WIDTH, WIDTH), SVGA_ANSWER_LENT_LENGTH);
}

static void starting(void) {
    IS(run(1), both(SVGA_ANSWER_NOT_CONFIGURED, 0));
    IS(put(SVGA_REG_CONFIG_DONE, 1), SVGA_ANSWER_RING_REFUSED); // zeros are no ring
    IS(svga_append(ring, WORDS, 1), SVGA_APPEND_REFUSED);
    reset_ring(SVGA_RING_START_MIN, SVGA_RING_START_MIN);
    IS(svga_write(device, SVGA_DEVICE_WORDS, ring, WORDS - 1, SVGA_REG_CONFIG_DONE, 1), SVGA_ANSWER_LENT_LENGTH);
    IS(put(SVGA_REG_CONFIG_DONE, 2), SVGA_ANSWER_BAD_VALUE);
    IS(put(SVGA_REG_CONFIG_DONE, 1), SVGA_ANSWER_TAKEN);
    IS(run(1), both(SVGA_ANSWER_DISABLED, 0));
    IS(put(SVGA_REG_ENABLE, 1), SVGA_ANSWER_TAKEN);
    IS(put(SVGA_REG_HEIGHT, HEIGHT + 1), SVGA_ANSWER_TAKEN);
    IS(run(1), both(SVGA_ANSWER_MODE_TOO_LARGE, 0));
    IS(picture(), SVGA_ANSWER_MODE_TOO_LARGE);
    IS(put(SVGA_REG_HEIGHT, HEIGHT), SVGA_ANSWER_TAKEN);
    IS(run(1), both(SVGA_ANSWER_DRAINED, 0));
    IS(run(0), both(SVGA_ANSWER_SPENT, 0));
    IS(svga_run(device, SVGA_DEVICE_WORDS, ring, WORDS, framebuffer, PIXELS, screen, PIXELS, cursor, SVGA_CURSOR_WORDS - 1, 1),
       both(SVGA_ANSWER_LENT_LENGTH, 0));
    IS(svga_run(device, SVGA_DEVICE_WORDS, ring, WORDS, NULL, 0, screen, PIXELS, cursor, SVGA_CURSOR_WORDS, 1), both(SVGA_ANSWER_LENT_LENGTH, 0));
}

static void drawing(void) {
    framebuffer[0] = 0xA0B0C0;
    APPEND(SVGA_CMD_UPDATE, 0, 0, 1, 1);
    APPEND(SVGA_CMD_RECT_FILL, 7, 3, 2, UINT32_MAX, UINT32_MAX);
    APPEND(SVGA_CMD_RECT_COPY, 0, 0, 1, 0, 4, 1);
    APPEND(SVGA_CMD_RECT_ROP_FILL, 5, 3, 2, 1, 1, SVGA_ROP_XOR);
    APPEND(SVGA_CMD_DEFINE_ALPHA_CURSOR, 9, 0, 0, 1, 1, 0x80FFFFFFu);
    APPEND(SVGA_CMD_ESCAPE, 0, 5, 0, 0);
    APPEND(SVGA_CMD_FENCE, 77);
    APPEND(SVGA_CMD_FENCE);
    IS(run(3), both(SVGA_ANSWER_SPENT, 3));
    IS(svga_fence_passed(device, SVGA_DEVICE_WORDS, 77), both(SVGA_ANSWER_TAKEN, 0));
    IS(run(99), both(SVGA_ANSWER_WAITING, 4));
    IS(svga_fence(device, SVGA_DEVICE_WORDS), both(SVGA_ANSWER_TAKEN, 77));
    IS(svga_fence_passed(device, SVGA_DEVICE_WORDS, 77), both(SVGA_ANSWER_TAKEN, 1));
    IS(screen[0], 0xA0B0C0);
    IS(screen[1], 0xA0B0C0);
    IS(screen[2], 0);
    IS(screen[11], 7 ^ 5);
    IS(ring[SVGA_FIFO_NEXT_CMD] - ring[SVGA_FIFO_STOP], 4);

    IS(put(SVGA_REG_CURSOR_ID, 9), SVGA_ANSWER_TAKEN);
    IS(put(SVGA_REG_CURSOR_X, 3), SVGA_ANSWER_TAKEN);
    IS(put(SVGA_REG_CURSOR_Y, 0), SVGA_ANSWER_TAKEN);
    IS(put(SVGA_REG_CURSOR_ON, SVGA_CURSOR_ON_SHOW), SVGA_ANSWER_TAKEN);
    IS(picture(), SVGA_ANSWER_TAKEN);
    IS(output[0], 0xA0B0C0);
    IS(output[3], 0x808080);
    IS(svga_picture(device, SVGA_DEVICE_WORDS, screen, PIXELS, cursor, SVGA_CURSOR_WORDS, output, PIXELS - 1), SVGA_ANSWER_LENT_LENGTH);

    uint32_t edges[SVGA_EDGES_WORDS] = {9, 9, 9, 9};
    IS(svga_offscreen(device, SVGA_DEVICE_WORDS, edges, SVGA_EDGES_WORDS - 1), SVGA_ANSWER_LENT_LENGTH);
    IS(edges[0], 9);
    IS(svga_offscreen(device, SVGA_DEVICE_WORDS, edges, SVGA_EDGES_WORDS), SVGA_ANSWER_TAKEN);
    IS(edges[1], HEIGHT);
}

static void saving(void) {
    uint32_t saved[SVGA_DEVICE_WORDS];
    memcpy(saved, device, sizeof saved);
    memset(device, 0xFF, sizeof device);
    IS(get(SVGA_REG_ID), both(SVGA_ANSWER_NO_REGISTER, 0));
    IS(put(SVGA_REG_WIDTH, WIDTH), SVGA_ANSWER_NO_REGISTER);
    IS(run(1), both(SVGA_ANSWER_NOT_CONFIGURED, 0));
    IS(picture(), SVGA_ANSWER_MODE_TOO_LARGE);
    IS(svga_fence(device, SVGA_DEVICE_WORDS), both(SVGA_ANSWER_NO_REGISTER, 0));
    IS(svga_fence_passed(device, SVGA_DEVICE_WORDS, 0), both(SVGA_ANSWER_NO_REGISTER, 0));
    uint32_t edges[SVGA_EDGES_WORDS] = {9, 9, 9, 9};
    IS(svga_offscreen(device, SVGA_DEVICE_WORDS, edges, SVGA_EDGES_WORDS), SVGA_ANSWER_NO_REGISTER);
    IS(svga_offscreen(device, SVGA_DEVICE_WORDS, edges, SVGA_EDGES_WORDS - 1), SVGA_ANSWER_LENT_LENGTH);
    for (int i = 0; i < SVGA_EDGES_WORDS; i++) IS(edges[i], 9);
    memcpy(device, saved, sizeof device);
    device[63] = 1; // a spare word
    IS(get(SVGA_REG_ID), both(SVGA_ANSWER_NO_REGISTER, 0));
    device[63] = 0;
    IS(run(9), both(SVGA_ANSWER_WAITING, 0));
    APPEND(78);
    IS(run(9), both(SVGA_ANSWER_DRAINED, 1));
    IS(svga_value_of(svga_fence(device, SVGA_DEVICE_WORDS)), 78);
}

static void faults(void) {
    APPEND(20);
    IS(run(9), both(SVGA_ANSWER_NOT_OFFERED, 0));
    IS(svga_is_fault(svga_answer_of(run(9))), 0);
    IS(svga_is_refusal(svga_answer_of(run(9))), 1);
    IS(run(9), both(SVGA_ANSWER_FAULT_STANDS, 0));
    IS(device[24], SVGA_ANSWER_NOT_OFFERED);
    reset_ring(SVGA_RING_START_MIN, SVGA_RING_START_MIN);
    IS(put(SVGA_REG_CONFIG_DONE, 1), SVGA_ANSWER_TAKEN);
    APPEND(SVGA_CMD_DEFINE_ALPHA_CURSOR, 1, 0, 0, SVGA_CURSOR_SIDE_MAX + 1, 1);
    IS(run(9), both(SVGA_ANSWER_BAD_OPERAND, 0));
    reset_ring(SVGA_RING_START_MIN, SVGA_RING_START_MIN);
    IS(put(SVGA_REG_CONFIG_DONE, 1), SVGA_ANSWER_TAKEN);
    APPEND(SVGA_CMD_FENCE, 1, SVGA_CMD_FENCE);
    IS(run(9), both(SVGA_ANSWER_WAITING, 1));
    APPEND(0);
    IS(run(9), both(SVGA_ANSWER_BAD_OPERAND, 0));
    IS(svga_fence(device, SVGA_DEVICE_WORDS), both(SVGA_ANSWER_TAKEN, 1));
    reset_ring(SVGA_RING_START_MIN, SVGA_RING_START_MIN);
    IS(put(SVGA_REG_CONFIG_DONE, 1), SVGA_ANSWER_TAKEN);
    APPEND(SVGA_CMD_FENCE, 1, SVGA_CMD_ESCAPE, 0, 10225);
    IS(run(9), both(SVGA_ANSWER_TOO_LONG, 1));
    reset_ring(SVGA_RING_START_MIN, SVGA_RING_START_MIN);
    IS(put(SVGA_REG_CONFIG_DONE, 1), SVGA_ANSWER_TAKEN);
    ring[SVGA_FIFO_NEXT_CMD] = MEMORY;
    IS(svga_is_fault(svga_answer_of(run(9))), 1);
    IS(device[24], SVGA_ANSWER_BAD_NEXT_CMD);
}

// Accepts an empty ring, has one FENCE run and gives back ring word 6, which held 99 before. Ring word 0 is rewritten in between.
static uint32_t posted(int line, uint32_t min, uint32_t stop, uint32_t word_0, uint32_t fence) {
    const uint32_t words[] = {SVGA_CMD_FENCE, fence};
    reset_ring(min, stop);
    ring[SVGA_FIFO_FENCE] = 99;
    check(line, "CONFIG_DONE", put(SVGA_REG_CONFIG_DONE, 1), SVGA_ANSWER_TAKEN);
    check(line, "word 6 of an accepted ring", ring[SVGA_FIFO_FENCE], 99);
    append(line, words, 2);
    ring[SVGA_FIFO_MIN] = word_0;
    check(line, "run", run(9), both(SVGA_ANSWER_DRAINED, 1));
    check(line, "the fence", svga_fence(device, SVGA_DEVICE_WORDS), both(SVGA_ANSWER_TAKEN, fence));
    check(line, "word 0", ring[SVGA_FIFO_MIN], word_0);
    check(line, "STOP", ring[SVGA_FIFO_STOP], ring[SVGA_FIFO_NEXT_CMD]);
    return ring[SVGA_FIFO_FENCE];
}
#define POSTED(min, stop, word_0, fence, is) check(__LINE__, "word 6", posted(__LINE__, min, stop, word_0, fence), is)

static void fences(void) {
    enum { MIDDLE = 1000, SIZE = SVGA_RING_BYTES_MIN };
    POSTED(16, MIDDLE, 16, 7, 99); // below 28 it is one of the ring's own words ..
    POSTED(20, MIDDLE, 20, 8, 99);
    POSTED(24, MIDDLE, 24, 9, 99);
    POSTED(24, 24 + SIZE - 4, 24, 10, 10); // .. here the FENCE's number, which the guest has appended
    POSTED(28, MIDDLE, 28, 7, 7);
    POSTED(32, MIDDLE, 32, UINT32_MAX, UINT32_MAX);
    POSTED(28, 28, 28, 1, 1);
    POSTED(28, 28 + SIZE - 4, 28, 8, 8); // over the ring's end, and up to it
    POSTED(28, 28 + SIZE - 8, 28, 9, 9);
    POSTED(28, MIDDLE, 16, 7, 7); // the accepted MIN decides
    POSTED(24, MIDDLE, 28, 8, 99);

    reset_ring(SVGA_RING_START_FENCE, MIDDLE);
    ring[SVGA_FIFO_FENCE] = 99;
    IS(put(SVGA_REG_CONFIG_DONE, 1), SVGA_ANSWER_TAKEN);
    APPEND(SVGA_CMD_RECT_FILL, 7, 0, 0, 1, 1, SVGA_CMD_FENCE);
    IS(run(0), both(SVGA_ANSWER_SPENT, 0));
    IS(run(9), both(SVGA_ANSWER_WAITING, 1));
    IS(ring[SVGA_FIFO_FENCE], 99); // no FENCE was executed
    APPEND(11, SVGA_CMD_FENCE, 12, 20);
    IS(run(1), both(SVGA_ANSWER_SPENT, 1));
    IS(ring[SVGA_FIFO_FENCE], 11);
    IS(run(9), both(SVGA_ANSWER_NOT_OFFERED, 1));
    IS(ring[SVGA_FIFO_FENCE], 12); // before the fault
}

// In a mode of two rows the third is offscreen: fills and copies reach it, UPDATE and pictures do not.
static void offscreen(void) {
    uint32_t edges[SVGA_EDGES_WORDS];
    reset_ring(SVGA_RING_START_MIN, SVGA_RING_START_MIN);
    IS(put(SVGA_REG_CONFIG_DONE, 1), SVGA_ANSWER_TAKEN);
    IS(put(SVGA_REG_HEIGHT, HEIGHT - 1), SVGA_ANSWER_TAKEN);
    IS(svga_offscreen(device, SVGA_DEVICE_WORDS, edges, SVGA_EDGES_WORDS), SVGA_ANSWER_TAKEN);
    IS(edges[0], 0);
    IS(edges[1], HEIGHT - 1);
    IS(edges[2], WIDTH);
    IS(edges[3], HEIGHT);
    IS(get(SVGA_REG_CAPABILITIES) & SVGA_CAP_OFFSCREEN_1, SVGA_CAP_OFFSCREEN_1);
    APPEND(SVGA_CMD_RECT_FILL, 3, 0, 0, WIDTH, 1);
    APPEND(SVGA_CMD_RECT_COPY, 0, 0, 0, 2, WIDTH, 1); // kept ..
    APPEND(SVGA_CMD_RECT_FILL, 4, 0, 0, WIDTH, 2);
    APPEND(SVGA_CMD_RECT_COPY, 0, 2, 0, 1, WIDTH, 1); // .. and shown again, in the row below
    APPEND(SVGA_CMD_RECT_ROP_FILL, 1, 2, 1, UINT32_MAX, UINT32_MAX, SVGA_ROP_XOR);
    APPEND(SVGA_CMD_UPDATE, 0, 2, WIDTH, 1);
    IS(run(9), both(SVGA_ANSWER_DRAINED, 6));
    for (int i = 0; i < WIDTH; i++) {
        IS(screen[i], 4);
        IS(screen[WIDTH + i], i < 2 ? 3 : 3 ^ 1);
        IS(screen[2 * WIDTH + i], i < 2 ? 3 : 3 ^ 1);
    }
    output[2 * WIDTH] = 99;
    IS(picture(), SVGA_ANSWER_TAKEN);
    IS(output[WIDTH], 3);
    IS(output[2 * WIDTH], 99);
    IS(put(SVGA_REG_HEIGHT, HEIGHT), SVGA_ANSWER_TAKEN);
}

static void appending(void) {
    reset_ring(SVGA_RING_START_MIN, SVGA_RING_START_MIN);
    for (uint32_t i = 0; i < SVGA_RING_BYTES_MIN / 4 - 1; i++) IS(svga_append(ring, WORDS, i), SVGA_APPEND_TAKEN);
    IS(svga_append(ring, WORDS, 0), SVGA_APPEND_REFUSED);
    IS(svga_append(NULL, 0, 0), SVGA_APPEND_REFUSED);
}

// Appends a command of these words, with `pixel_count` pixels and `byte_count` bytes. A refused one has to leave the ring as it was.
static uint32_t command(int line, const uint32_t *words, size_t count, size_t pixel_count, size_t byte_count) {
    static const uint32_t pixels[4] = {0x80FFFFFFu, 1, 2, 3};
    static const uint8_t data[5] = {1, 2, 3, 4, 255};
    static uint32_t before[WORDS];
    memcpy(before, ring, sizeof before);
    uint32_t answer = svga_append_command(ring, WORDS, words, count, pixel_count ? pixels : NULL, pixel_count, byte_count ? data : NULL, byte_count);
    if (svga_is_refusal(answer)) check(line, "a ring that is left as it was", memcmp(before, ring, sizeof before) == 0, 1);
    return answer;
}
#define COMMAND(should, pixel_count, byte_count, ...)                                                            \
    do {                                                                                                         \
        const uint32_t words[] = {__VA_ARGS__};                                                                  \
        uint32_t answer = command(__LINE__, words, sizeof words / sizeof words[0], pixel_count, byte_count);     \
        check(__LINE__, "append_command", answer, should);                                                       \
    } while (0)

static void appending_commands(void) {
    enum { MIN = SVGA_RING_START_MIN, MAX = MIN + SVGA_RING_BYTES_MIN, CARRIED = SVGA_RING_BYTES_MIN / 4 - 1 };
    static uint8_t data[4 * (CARRIED - 3) + 1];
    reset_ring(MIN, MAX - 12); // the second command goes over the ring's end
    COMMAND(SVGA_ANSWER_TAKEN, 0, 0, SVGA_CMD_FENCE, 79);
    COMMAND(SVGA_ANSWER_TAKEN, 0, 5, SVGA_CMD_ESCAPE, 7, 5);
    COMMAND(SVGA_ANSWER_TAKEN, 4, 0, SVGA_CMD_DEFINE_ALPHA_CURSOR, 6, 1, 1, 2, 2);
    COMMAND(SVGA_ANSWER_TAKEN, 0, 0, SVGA_CMD_UPDATE, 0, 0, 1, 1);
    COMMAND(SVGA_ANSWER_TAKEN, 0, 0, SVGA_CMD_RECT_FILL, 9, 0, 0, 1, 1);
    COMMAND(SVGA_ANSWER_TAKEN, 0, 0, SVGA_CMD_RECT_COPY, 0, 0, 1, 1, 1, 1);
    COMMAND(SVGA_ANSWER_TAKEN, 0, 0, SVGA_CMD_RECT_ROP_FILL, 5, 0, 0, 1, 1, SVGA_ROP_SET);
    COMMAND(SVGA_ANSWER_TAKEN, 0, 0, SVGA_CMD_RECT_ROP_COPY, 0, 0, 2, 1, 1, 1, SVGA_ROP_COPY);
    COMMAND(SVGA_ANSWER_TAKEN, 0, 0, SVGA_CMD_UPDATE_VERBOSE, 0, 0, 1, 1, 5);
    IS(ring[MAX / 4 - 3], SVGA_CMD_FENCE);
    IS(ring[MAX / 4 - 2], 79);
    IS(ring[MAX / 4 - 1], SVGA_CMD_ESCAPE);
    IS(ring[MIN / 4], 7);
    IS(ring[MIN / 4 + 2], 0x04030201);
    IS(ring[MIN / 4 + 3], 255); // and zeros above it
    IS(ring[SVGA_FIFO_NEXT_CMD], MIN + 4 * (4 + 10 + 5 + 6 + 7 + 7 + 8 + 6));
    IS(ring[SVGA_FIFO_STOP], MAX - 12);
    IS(put(SVGA_REG_CONFIG_DONE, 1), SVGA_ANSWER_TAKEN);
    IS(run(99), both(SVGA_ANSWER_DRAINED, 9));
    IS(svga_fence(device, SVGA_DEVICE_WORDS), both(SVGA_ANSWER_TAKEN, 79));
    IS(cursor[0], 0x80FFFFFFu);
    IS(cursor[3], 3);
    IS(screen[WIDTH + 1], 9);
    IS(screen[WIDTH + 2], UINT32_MAX);

    // the longest command that fits, and the refusals then: of room, of lengths before it, of the command before these, of the ring before all
    reset_ring(MIN, MIN + 400);
    const uint32_t longest[] = {SVGA_CMD_ESCAPE, 0, 4 * (CARRIED - 3)}, longer[] = {SVGA_CMD_ESCAPE, 0, 4 * (CARRIED - 3) + 1};
    IS(svga_append_command(ring, WORDS, longer, 3, NULL, 0, data, longer[2]), SVGA_ANSWER_NOT_A_COMMAND);
    IS(svga_append_command(ring, WORDS, longer, 3, NULL, 0, NULL, 0), SVGA_ANSWER_NOT_A_COMMAND);
    IS(svga_append_command(ring, WORDS, longest, 3, NULL, 0, data, longest[2]), SVGA_ANSWER_TAKEN);
    IS(ring[SVGA_FIFO_NEXT_CMD], MIN + 396);
    COMMAND(SVGA_ANSWER_NO_ROOM, 0, 0, SVGA_CMD_FENCE, 1);
    COMMAND(SVGA_ANSWER_LENT_LENGTH, 1, 0, SVGA_CMD_FENCE, 1);
    COMMAND(SVGA_ANSWER_LENT_LENGTH, 0, 1, SVGA_CMD_FENCE, 1);
    COMMAND(SVGA_ANSWER_LENT_LENGTH, 0, 4, SVGA_CMD_ESCAPE, 0, 5);
    COMMAND(SVGA_ANSWER_LENT_LENGTH, 3, 0, SVGA_CMD_DEFINE_ALPHA_CURSOR, 1, 0, 0, 2, 2);
    COMMAND(SVGA_ANSWER_LENT_LENGTH, 4, 1, SVGA_CMD_DEFINE_ALPHA_CURSOR, 1, 0, 0, 2, 2);
    COMMAND(SVGA_ANSWER_NOT_A_COMMAND, 1, 1, SVGA_CMD_FENCE);
    COMMAND(SVGA_ANSWER_NOT_A_COMMAND, 1, 1, SVGA_CMD_FENCE, 1, 2);
    COMMAND(SVGA_ANSWER_NOT_A_COMMAND, 1, 1, SVGA_CMD_FENCE, 0);
    COMMAND(SVGA_ANSWER_NOT_A_COMMAND, 1, 1, 20, 1);
    COMMAND(SVGA_ANSWER_NOT_A_COMMAND, 1, 1, SVGA_CMD_RECT_ROP_FILL, 5, 0, 0, 1, 1, SVGA_ROP_SET + 1);
    COMMAND(SVGA_ANSWER_NOT_A_COMMAND, 1, 1, SVGA_CMD_DEFINE_ALPHA_CURSOR, 1, 0, 0, SVGA_CURSOR_SIDE_MAX + 1, 1);
    IS(svga_append_command(ring, WORDS, NULL, 0, NULL, 0, data, 1), SVGA_ANSWER_NOT_A_COMMAND);
    ring[SVGA_FIFO_STOP] += 4; // as if a run had freed a word: one is still too few
    COMMAND(SVGA_ANSWER_NO_ROOM, 0, 0, SVGA_CMD_FENCE, 1);
    ring[SVGA_FIFO_STOP] += 4;
    COMMAND(SVGA_ANSWER_TAKEN, 0, 0, SVGA_CMD_FENCE, 1);
    ring[SVGA_FIFO_STOP] += 2;
    COMMAND(SVGA_ANSWER_RING_REFUSED, 1, 1, 20, 1);
    IS(svga_append_command(NULL, 0, NULL, 0, NULL, 0, NULL, 0), SVGA_ANSWER_RING_REFUSED);
    IS(svga_append_command(ring, 3, longest, 3, NULL, 0, data, longest[2]), SVGA_ANSWER_RING_REFUSED);
}

int main(void) {
    making();
    registers();
    starting();
    drawing();
    saving();
    faults();
    fences();
    offscreen();
    appending();
    appending_commands();
    printf("answers: %d checks, %d failed\n", checks, failures);
    return failures != 0;
}
