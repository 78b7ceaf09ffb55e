// Our device, as C hosts hold it, and the C device, lent the same memories and set up alike.
#ifndef BENCH_BOTH_H
#define BENCH_BOTH_H

#include "peer.h"
#include "svga.h"

static uint32_t device[SVGA_DEVICE_WORDS];
static struct peer peer;

// What is lent, and the mode.
struct lent {
    uint32_t *ring;
    size_t ring_len;
    const uint32_t *framebuffer;
    uint32_t *screen;
    size_t pixels;
    uint32_t *cursor;
    uint32_t width, height;
};

static inline uint32_t our_write(const struct lent *l, uint32_t index, uint32_t value) {
    return svga_write(device, SVGA_DEVICE_WORDS, l->ring, l->ring_len, index, value);
}
static inline uint32_t c_write(const struct lent *l, uint32_t index, uint32_t value) {
    return peer_write(&peer, l->ring, l->ring_len, index, value);
}

static inline void our_set_up(const struct lent *l) {
    svga_make(device, SVGA_DEVICE_WORDS, (uint32_t)l->ring_len * 4, (uint32_t)l->pixels);
    our_write(l, SVGA_REG_WIDTH, l->width);
    our_write(l, SVGA_REG_HEIGHT, l->height);
    our_write(l, SVGA_REG_ENABLE, 1);
    our_write(l, SVGA_REG_CONFIG_DONE, 1);
}
static inline void c_set_up(const struct lent *l) {
    peer_make(&peer, (uint32_t)l->ring_len * 4, (uint32_t)l->pixels);
    c_write(l, SVGA_REG_WIDTH, l->width);
    c_write(l, SVGA_REG_HEIGHT, l->height);
    c_write(l, SVGA_REG_ENABLE, 1);
    c_write(l, SVGA_REG_CONFIG_DONE, 1);
}

static inline uint64_t our_run(const struct lent *l, uint32_t budget) {
    return svga_run(device, SVGA_DEVICE_WORDS, l->ring, l->ring_len, l->framebuffer, l->pixels, l->screen, l->pixels, l->cursor,
                    SVGA_CURSOR_WORDS, budget);
}
static inline uint64_t c_run(const struct lent *l, uint32_t budget) {
    return peer_run(&peer, l->ring, l->ring_len, l->framebuffer, l->pixels, l->screen, l->pixels, l->cursor, SVGA_CURSOR_WORDS, budget);
}

// Whether both keep the same fence and the same defined cursor: device words 16 to 21.
static inline bool both_keep_alike(void) {
    const uint32_t theirs[] = {peer.cursor.w > 0, peer.cursor.id, peer.cursor.hotx, peer.cursor.hoty, peer.cursor.w, peer.cursor.h};
    return svga_fence(device, SVGA_DEVICE_WORDS) == peer_fence(&peer) && !memcmp(device + 16, theirs, sizeof theirs);
}

// An empty ring from word `first` to below word `end`.
static inline void empty_ring_at(uint32_t *ring, uint32_t first, size_t end) {
    ring[SVGA_FIFO_MIN] = ring[SVGA_FIFO_NEXT_CMD] = ring[SVGA_FIFO_STOP] = first * 4;
    ring[SVGA_FIFO_MAX] = (uint32_t)end * 4;
}

// Writes a word at ring word *at of such a ring.
static inline void put_at(uint32_t *ring, uint32_t first, size_t end, uint32_t *at, uint32_t word) {
    ring[*at] = word;
    if (++*at == end) *at = first;
}

// The rings that are timed begin where fences are posted, as those of boards do, and go to the end of the words that are lent.
enum { FIRST = SVGA_RING_START_FENCE / 4 };
static inline void empty_ring(uint32_t *ring, size_t words) { empty_ring_at(ring, FIRST, words); }
static inline void put(uint32_t *ring, size_t words, uint32_t *at, uint32_t word) { put_at(ring, FIRST, words, at, word); }

#endif
