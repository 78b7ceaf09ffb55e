// Speed of pictures, with and without the cursor: a Markdown table of our time and of three peers'.
//   memcpy     the mode's rows, and no cursor
//   C device   memcpy, and the cursor blended in a plain loop by document 01's formula: its picture has to equal ours
//   pixman     composites the screen, and the cursor OVER it. pixman takes colours that are multiplied by alpha already and rounds
//              otherwise, so its picture is another one: it only shows what such a blend costs
// First some thousand small pictures, most with a cursor over an edge, are made by both devices and compared whole.
// All contenders of a row run in turn, and the median of all rounds counts. The exit status is 1 if one differs, and 0 otherwise.
//
//   pictures [ROUNDS]        (default 50)
#include "both.h"
#include "common.h"

enum { RING_WORDS = 8192, SMALL_PIXELS = 1200, CURSOR_ID = 7 };

static uint32_t *ring, *framebuffer, *screen, *cursor;
static uint32_t *output, *our_output; // all contenders write the first; the second keeps ours for a comparison

// A cursor: its size and hotspot, and the position at which it is shown. w 0: there is none.
struct shown {
    uint32_t w, h, hotx, hoty, x, y;
};

static void define_cursor(const struct lent *l, const struct shown *s) {
    const uint32_t head[] = {SVGA_CMD_DEFINE_ALPHA_CURSOR, CURSOR_ID, s->hotx, s->hoty, s->w, s->h};
    uint32_t at = ring[SVGA_FIFO_NEXT_CMD] / 4;
    for (size_t i = 0; i < COUNT(head); i++) put(ring, RING_WORDS, &at, head[i]);
    for (uint32_t i = 0; i < s->w * s->h; i++) put(ring, RING_WORDS, &at, random_word());
    ring[SVGA_FIFO_NEXT_CMD] = at * 4;
    our_run(l, 1), c_run(l, 1);
}

static void show_cursor(const struct lent *l, const struct shown *s) {
    const uint32_t writes[][2] = {{SVGA_REG_CURSOR_ID, CURSOR_ID}, {SVGA_REG_CURSOR_X, s->x}, {SVGA_REG_CURSOR_Y, s->y},
                                  {SVGA_REG_CURSOR_ON, SVGA_CURSOR_ON_SHOW}};
    for (size_t i = 0; i < COUNT(writes); i++) our_write(l, writes[i][0], writes[i][1]), c_write(l, writes[i][0], writes[i][1]);
}

// Both devices in a mode, with the cursor.
static void set_up_both(uint32_t width, uint32_t height, size_t pixels, const struct shown *s) {
    struct lent l = {ring, RING_WORDS, framebuffer, screen, pixels, cursor, width, height};
    empty_ring(ring, RING_WORDS);
    our_set_up(&l), c_set_up(&l);
    if (!s->w) return;
    define_cursor(&l, s);
    show_cursor(&l, s);
}

static uint32_t our_picture(size_t pixels) {
    return svga_picture(device, SVGA_DEVICE_WORDS, screen, pixels, cursor, SVGA_CURSOR_WORDS, output, pixels);
}
static uint32_t c_picture(size_t pixels) { return peer_picture(&peer, screen, pixels, cursor, SVGA_CURSOR_WORDS, output, pixels); }

// Whether both devices answer alike and write the same picture, and nothing behind it.
static bool pictures_agree(size_t pixels) {
    size_t bytes = pixels * sizeof *output;
    memset(output, 0x5A, bytes);
    uint32_t answer = our_picture(pixels);
    memcpy(our_output, output, bytes);
    memset(output, 0x5A, bytes);
    return c_picture(pixels) == answer && !memcmp(output, our_output, bytes);
}

// ---- the check before it

static bool check_all(int count) {
    for (int i = 0; i < count; i++) {
        uint32_t width = 1 + (uint32_t)rand() % 40, height = 1 + (uint32_t)rand() % 35;
        struct shown s = {.w = 1 + (uint32_t)rand() % 64, .h = 1 + (uint32_t)rand() % 64};
        s.hotx = (uint32_t)rand() % s.w, s.hoty = (uint32_t)rand() % s.h;
        s.x = random_number(width) - (uint32_t)rand() % 8, s.y = random_number(height) - (uint32_t)rand() % 8;
        for (int k = 0; k < SMALL_PIXELS; k++) screen[k] = random_word();
        set_up_both(width, height, SMALL_PIXELS, &s);
        if (pictures_agree(SMALL_PIXELS)) continue;
        printf("MISMATCH: picture %d, mode %ux%u, cursor %ux%u, hotspot %u %u, position %u %u\n", i, width, height, s.w, s.h, s.hotx,
               s.hoty, s.x, s.y);
        return false;
    }
    printf("%d small pictures with a cursor are the same in both devices.\n\n", count);
    return true;
}

// ---- contenders

static pixman_image_t *pixman_screen, *pixman_output, *pixman_cursor; // for one row of the table
static uint32_t width, height;
static struct shown shown;

static void ours(void) { our_picture(SVGA_PIXELS_MAX); }
static void by_memcpy(void) { memcpy(output, screen, (size_t)width * height * sizeof *output); }
static void c_device(void) { c_picture(SVGA_PIXELS_MAX); }
static void by_pixman(void) {
    pixman_image_composite32(PIXMAN_OP_SRC, pixman_screen, NULL, pixman_output, 0, 0, 0, 0, 0, 0, (int)width, (int)height);
    if (shown.w)
        pixman_image_composite32(PIXMAN_OP_OVER, pixman_cursor, NULL, pixman_output, 0, 0, 0, 0, (int32_t)shown.x - (int32_t)shown.hotx,
                                 (int32_t)shown.y - (int32_t)shown.hoty, (int)shown.w, (int)shown.h);
}

enum { CONTENDERS = 4 };
static void (*const contender[CONTENDERS])(void) = {ours, by_memcpy, c_device, by_pixman};

// ---- timing

static void open_images(void) {
    int rows = (int)(width * sizeof *screen), cursor_row = (int)(shown.w * sizeof *cursor);
    pixman_screen = pixman_image_create_bits(PIXMAN_x8r8g8b8, (int)width, (int)height, screen, rows);
    pixman_output = pixman_image_create_bits(PIXMAN_x8r8g8b8, (int)width, (int)height, output, rows);
    pixman_cursor = shown.w ? pixman_image_create_bits(PIXMAN_a8r8g8b8, (int)shown.w, (int)shown.h, cursor, cursor_row) : NULL;
}
static void close_images(void) {
    pixman_image_unref(pixman_screen), pixman_image_unref(pixman_output);
    if (pixman_cursor) pixman_image_unref(pixman_cursor);
}

static void print_row(const char *name, const double *typical) {
    printf("| %ux%u, %s | %.0f |", width, height, name, typical[0]);
    for (int c = 1; c < CONTENDERS; c++) printf(" %.0f | %.2f |", typical[c], typical[0] / typical[c]);
    printf("\n");
}

// Small pictures are made some times for one reading of the clock.
static bool measure(const char *name, int rounds) {
    struct times times[CONTENDERS] = {0};
    double typical[CONTENDERS];
    int repeats = 1 + 100000 / (int)(width * height);
    set_up_both(width, height, SVGA_PIXELS_MAX, &shown);
    if (!pictures_agree(SVGA_PIXELS_MAX)) {
        printf("MISMATCH: picture of %ux%u, %s\n", width, height, name);
        return false;
    }
    open_images();
    for (int round = 0; round < rounds; round++) {
        for (int c = 0; c < CONTENDERS; c++) {
            double start = now_ns();
            for (int i = 0; i < repeats; i++) contender[c]();
            add_time(&times[c], (now_ns() - start) / repeats);
        }
    }
    close_images();
    for (int c = 0; c < CONTENDERS; c++) typical[c] = median(&times[c]), free(times[c].t);
    print_row(name, typical);
    return true;
}

static const uint32_t modes[][2] = {{64, 64}, {640, 480}, {1280, 720}, {2560, 1600}};
static const struct {
    const char *name;
    struct shown shown;
} cursors[] = {
    {"no cursor", {0}},
    {"cursor 64x64 inside", {64, 64, 3, 3, 3, 3}},
    {"cursor 64x64, a quarter inside", {64, 64, 0, 0, (uint32_t)-32, (uint32_t)-32}},
};

int main(int argc, char **argv) {
    int rounds = rounds_from(argc, argv, 50);
    srand(7);
    ring = new_words(RING_WORDS), cursor = new_words(SVGA_CURSOR_WORDS);
    framebuffer = new_words(SVGA_PIXELS_MAX), screen = new_words(SVGA_PIXELS_MAX);
    our_output = new_words(SVGA_PIXELS_MAX), output = new_words(SVGA_PIXELS_MAX);
    printf("## Pictures\n\n");
    if (!check_all(3000)) return 1;

    printf("| Picture | ours, ns | memcpy, ns | Ratio | C device, ns | Ratio | pixman, ns | Ratio |\n|---|---|---|---|---|---|---|---|\n");
    for (size_t m = 0; m < COUNT(modes); m++) {
        for (size_t c = 0; c < COUNT(cursors); c++) {
            width = modes[m][0], height = modes[m][1], shown = cursors[c].shown;
            if (!measure(cursors[c].name, rounds)) return 1;
        }
    }
    return 0;
}
