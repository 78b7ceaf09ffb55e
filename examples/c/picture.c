// A device from making to picture, in C: sets a mode, appends commands as a guest does, runs them, waits for a fence, shows a cursor and
// writes what a monitor would show as a PPM file.
//
//   picture FILE.ppm
#include "svga.h"

#include <stdio.h>
#include <stdlib.h>

#define COUNT(a) (sizeof(a) / sizeof *(a))
enum { WIDTH = 320, HEIGHT = 200, PIXELS = WIDTH * HEIGHT, RING_BYTES = 16384, RING_WORDS = RING_BYTES / 4 };

// The memories. In a hypervisor ring and framebuffer are the guest's.
static uint32_t device[SVGA_DEVICE_WORDS], ring[RING_WORDS], framebuffer[PIXELS], screen[PIXELS], cursor[SVGA_CURSOR_WORDS], output[PIXELS];

static void give_up(const char *what, uint32_t answer) {
    fprintf(stderr, "picture: %s: answer %u\n", what, (unsigned)answer);
    exit(1);
}

static void write_register(const char *name, uint32_t index, uint32_t value) {
    uint32_t answer = svga_write(device, SVGA_DEVICE_WORDS, ring, RING_WORDS, index, value);
    if (answer != SVGA_ANSWER_TAKEN) give_up(name, answer);
}

// Runs commands. Drained, waiting and spent are all fine; a fault or a refusal is not.
static uint32_t run(uint32_t budget) {
    uint64_t result = svga_run(device, SVGA_DEVICE_WORDS, ring, RING_WORDS, framebuffer, PIXELS, screen, PIXELS, cursor, SVGA_CURSOR_WORDS, budget);
    uint32_t answer = svga_answer_of(result);
    if (svga_is_fault(answer) || svga_is_refusal(answer)) give_up("run", answer);
    return svga_value_of(result);
}

// Appends a command, as the guest does: its number and arguments, and the pixels of a cursor. Where the ring has no room for all of it, the
// guest waits and the host runs.
static void append_with(const uint32_t *command, size_t command_len, const uint32_t *pixels, size_t pixels_len) {
    uint32_t answer;
    while ((answer = svga_append_command(ring, RING_WORDS, command, command_len, pixels, pixels_len, NULL, 0)) != SVGA_ANSWER_TAKEN)
        if (answer != SVGA_ANSWER_NO_ROOM || run(UINT32_MAX) == 0) give_up("append", answer);
}

static void append(const uint32_t *command, size_t command_len) { append_with(command, command_len, NULL, 0); }

static void fill(uint32_t colour, uint32_t x, uint32_t y, uint32_t w, uint32_t h) {
    const uint32_t command[] = {SVGA_CMD_RECT_FILL, colour, x, y, w, h};
    append(command, COUNT(command));
}

static void rop_fill(uint32_t colour, uint32_t x, uint32_t y, uint32_t w, uint32_t h, uint32_t rop) {
    const uint32_t command[] = {SVGA_CMD_RECT_ROP_FILL, colour, x, y, w, h, rop};
    append(command, COUNT(command));
}

static void copy(uint32_t sx, uint32_t sy, uint32_t dx, uint32_t dy, uint32_t w, uint32_t h) {
    const uint32_t command[] = {SVGA_CMD_RECT_COPY, sx, sy, dx, dy, w, h};
    append(command, COUNT(command));
}

static void update(uint32_t x, uint32_t y, uint32_t w, uint32_t h) {
    const uint32_t command[] = {SVGA_CMD_UPDATE, x, y, w, h};
    append(command, COUNT(command));
}

// What a driver does first: the version, the mode, the ring.
static void start(void) {
    uint32_t answer = svga_make(device, SVGA_DEVICE_WORDS, RING_BYTES, PIXELS);
    if (answer != SVGA_ANSWER_TAKEN) give_up("make", answer);
    write_register("ID", SVGA_REG_ID, SVGA_ID_2);
    write_register("WIDTH", SVGA_REG_WIDTH, WIDTH);
    write_register("HEIGHT", SVGA_REG_HEIGHT, HEIGHT);
    write_register("ENABLE", SVGA_REG_ENABLE, 1);
    ring[SVGA_FIFO_MIN] = SVGA_RING_START_FENCE; // late enough for the word in which the last fence is posted
    ring[SVGA_FIFO_MAX] = RING_BYTES;
    ring[SVGA_FIFO_NEXT_CMD] = SVGA_RING_START_FENCE;
    ring[SVGA_FIFO_STOP] = SVGA_RING_START_FENCE;
    ring[SVGA_FIFO_FENCE] = 0; // none yet: accepting the ring does not write it
    write_register("CONFIG_DONE", SVGA_REG_CONFIG_DONE, 1);
}

static void draw(void) {
    for (uint32_t y = 0; y < 140; y++) fill((12 + y / 5) << 16 | (28 + y / 3) << 8 | (58 + y / 2), 0, y, WIDTH, 1); // evening sky
    for (uint32_t y = 140; y < HEIGHT; y++) fill((60 - (y - 140) / 2) << 8 | (120 - (y - 140)), 0, y, UINT32_MAX, 1); // sea: cut at the right edge

    // a lighthouse, its copy on the other side, and the beam between them, which lights what it falls on
    fill(0xD8D0C0, 40, 60, 16, 80), fill(0xB03030, 40, 76, 16, 12), fill(0xB03030, 40, 106, 16, 12);
    fill(0x403830, 36, 56, 24, 4), fill(0xFFE080, 42, 46, 12, 10), fill(0x403830, 40, 42, 16, 4);
    copy(36, 42, 250, 42, 24, 98);
    rop_fill(0x404020, 60, 46, 190, 10, SVGA_ROP_OR);
    rop_fill(0x181800, 60, 150, 190, UINT32_MAX, SVGA_ROP_OR); // in the water too: cut at the bottom edge

    // the guest draws a flag in the framebuffer and has it brought to the screen
    for (uint32_t y = 0; y < 16; y++)
        for (uint32_t x = 0; x < 32; x++) framebuffer[(96 + y) * WIDTH + 144 + x] = (x / 4 + y / 4) % 2 ? 0xF0F0F0 : 0x2050A0;
    update(144, 96, 32, 16);
    fill(0x302820, 142, 92, 2, 48);
    copy(142, 92, 300, 92, UINT32_MAX, 48); // flown again at the right: what lies outside is cut
}

// An arrow with a soft shadow, hotspot at its tip.
static void show_cursor(void) {
    enum { ID = 5, SIDE = 16 };
    const uint32_t command[] = {SVGA_CMD_DEFINE_ALPHA_CURSOR, ID, 0, 0, SIDE, SIDE};
    uint32_t pixels[SIDE * SIDE];
    for (uint32_t y = 0; y < SIDE; y++)
        for (uint32_t x = 0; x < SIDE; x++) {
            int inside = x <= y && 4 * x + 11 * y <= 150, edge = x == 0 || x == y || 4 * x + 11 * y > 138;
            int shadow = x <= y + 1 && 4 * x + 11 * y <= 172;
            pixels[y * SIDE + x] = inside ? (edge ? 0xFF000000u : 0xFFFFFFFFu) : shadow ? 0x60000000u : 0;
        }
    append_with(command, COUNT(command), pixels, COUNT(pixels));
    write_register("CURSOR_ID", SVGA_REG_CURSOR_ID, ID);
    write_register("CURSOR_X", SVGA_REG_CURSOR_X, 200);
    write_register("CURSOR_Y", SVGA_REG_CURSOR_Y, 120);
    write_register("CURSOR_ON", SVGA_REG_CURSOR_ON, SVGA_CURSOR_ON_SHOW);
}

// Appends a fence, as the guest does, and polls for it in the ring memory, while the host runs a few commands at a time.
static void wait_for_all(uint32_t fence) {
    const uint32_t command[] = {SVGA_CMD_FENCE, fence};
    append(command, COUNT(command));
    while (ring[SVGA_FIFO_FENCE] != fence)
        if (run(16) == 0) give_up("fence that never passes", SVGA_ANSWER_WAITING);
    uint64_t passed = svga_fence_passed(device, SVGA_DEVICE_WORDS, fence); // what a host asks instead
    if (svga_answer_of(passed) != SVGA_ANSWER_TAKEN || !svga_value_of(passed)) give_up("fence", svga_answer_of(passed));
}

static void write_picture(const char *file) {
    uint32_t answer = svga_picture(device, SVGA_DEVICE_WORDS, screen, PIXELS, cursor, SVGA_CURSOR_WORDS, output, PIXELS);
    if (answer != SVGA_ANSWER_TAKEN) give_up("picture", answer);
    FILE *f = fopen(file, "wb");
    if (f == NULL) {
        perror(file);
        exit(1);
    }
    int bad = fprintf(f, "P6\n%d %d\n255\n", WIDTH, HEIGHT) < 0;
    for (int i = 0; i < PIXELS; i++) {
        unsigned char rgb[3] = {(unsigned char)(output[i] >> 16 & 255), (unsigned char)(output[i] >> 8 & 255), (unsigned char)(output[i] & 255)};
        bad |= fwrite(rgb, 1, sizeof rgb, f) != sizeof rgb;
    }
    bad |= fclose(f) != 0;
    if (bad) {
        perror(file);
        exit(1);
    }
}

int main(int argc, char **argv) {
    if (argc != 2) {
        fprintf(stderr, "usage: picture FILE.ppm\n");
        return 2;
    }
    start();
    draw();
    show_cursor();
    wait_for_all(1);
    write_picture(argv[1]);
    printf("%s: %d by %d\n", argv[1], WIDTH, HEIGHT);
    return 0;
}
