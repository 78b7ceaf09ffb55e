// The peer: the same device in plain C, as one would write it by hand, with its own bounds checks. It answers what ours answers; the
// benchmarks compare the two before they time them. It trusts its own state, where ours looks at its words in every call.
#ifndef BENCH_PEER_H
#define BENCH_PEER_H

#include <pixman.h>
#include <stdbool.h>
#include <stddef.h>
#include <stdint.h>
#include <string.h>

struct peer {
    uint32_t memory, pixels; // M, P
    uint32_t id, width, height, guest_id, cursor_id, cursor_x, cursor_y, cursor_on;
    bool enabled, configured, busy;
    uint32_t fault;          // 0, or the answer that stands
    uint32_t min, max, stop; // in words
    uint32_t fence;
    struct {
        bool shown;
        uint32_t id, x, y;
    } plane;
    struct {
        uint32_t id, hotx, hoty, w, h; // w 0: none is defined
    } cursor;
    struct { // for a run
        uint32_t *ring;
        const uint32_t *framebuffer;
        uint32_t *screen, *cursor;
        uint32_t rows; // of the screen: those of the mode, and the offscreen ones behind it
    } lent;
};

uint32_t peer_make(struct peer *p, uint32_t memory, uint32_t pixels);
uint32_t peer_write(struct peer *p, const uint32_t *ring, size_t ring_len, uint32_t index, uint32_t value);
uint64_t peer_read(const struct peer *p, uint32_t index);
uint64_t peer_run(struct peer *p, uint32_t *ring, size_t ring_len, const uint32_t *framebuffer, size_t framebuffer_len, uint32_t *screen,
                  size_t screen_len, uint32_t *cursor, size_t cursor_len, uint32_t budget);
uint32_t peer_picture(const struct peer *p, const uint32_t *screen, size_t screen_len, const uint32_t *cursor, size_t cursor_len,
                      uint32_t *output, size_t output_len);
uint64_t peer_fence(const struct peer *p);
uint64_t peer_fence_passed(const struct peer *p, uint32_t fence);
uint32_t peer_append(uint32_t *ring, size_t ring_len, uint32_t word);
uint32_t peer_append_command(uint32_t *ring, size_t ring_len, const uint32_t *command, size_t command_len, const uint32_t *pixels,
                             size_t pixels_len, const uint8_t *data, size_t data_len);

// ---- painting, as the peer does it, and as it is done with nothing parsed

struct rect {
    uint32_t x, y, w, h;
};

static inline uint32_t smaller(uint32_t a, uint32_t b) { return a < b ? a : b; }

// The part of x, y, w, h inside so many columns and rows; empty where w or h is 0. Nothing is added, so nothing wraps.
static inline struct rect cut(const uint32_t *a, uint32_t width, uint32_t rows) {
    struct rect r = {a[0], a[1], 0, 0};
    if (r.x < width && r.y < rows) r.w = smaller(a[2], width - r.x), r.h = smaller(a[3], rows - r.y);
    return r;
}

// The quickest way for each width: pixman only from some 16 pixels on.
static inline void fill_rows(uint32_t *d, size_t pitch, size_t w, size_t h, uint32_t colour) {
    if (w >= 16) {
        pixman_fill(d, (int)pitch, 32, 0, 0, (int)w, (int)h, colour);
        return;
    }
    if (w == 1) {
        for (; h > 0; h--, d += pitch) *d = colour;
        return;
    }
    for (; h > 0; h--, d += pitch)
        for (size_t i = 0; i < w; i++) d[i] = colour;
}

static inline void update_rows(uint32_t *d, const uint32_t *s, size_t pitch, size_t w, size_t h) {
    for (; h > 0; h--, d += pitch, s += pitch) memcpy(d, s, w * sizeof *d);
}

// Rows in the order that an overlap asks for; memmove minds the overlap within a row.
static inline void copy_rows(uint32_t *d, const uint32_t *s, size_t pitch, size_t w, size_t h) {
    if (d <= s) {
        for (; h > 0; h--, d += pitch, s += pitch) memmove(d, s, w * sizeof *d);
    } else {
        while (h-- > 0) memmove(d + h * pitch, s + h * pitch, w * sizeof *d);
    }
}

#endif
