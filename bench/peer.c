// The device in plain C: see peer.h. Numbers and words have their names from the public header.
#include "peer.h"
#include "svga.h"

static uint64_t result(uint32_t answer, uint32_t value) { return (uint64_t)answer << 32 | value; }

// ---- making and registers

uint32_t peer_make(struct peer *p, uint32_t memory, uint32_t pixels) {
    if (memory % 4 || memory < SVGA_MEMORY_MIN || memory > SVGA_MEMORY_MAX) return SVGA_ANSWER_BAD_SIZES;
    if (pixels < SVGA_PIXELS_MIN || pixels > SVGA_PIXELS_MAX) return SVGA_ANSWER_BAD_SIZES;
    *p = (struct peer){.memory = memory, .pixels = pixels, .id = SVGA_ID_0, .width = 640, .height = 480};
    return SVGA_ANSWER_TAKEN;
}

static bool offset_good(const uint32_t *ring, uint32_t offset) {
    return offset % 4 == 0 && offset >= ring[SVGA_FIFO_MIN] && offset < ring[SVGA_FIFO_MAX];
}

static bool ring_good(const uint32_t *ring, size_t words) {
    return words >= 4 && ring[SVGA_FIFO_MIN] % 4 == 0 && ring[SVGA_FIFO_MAX] % 4 == 0 && ring[SVGA_FIFO_MIN] >= SVGA_RING_START_MIN &&
           ring[SVGA_FIFO_MAX] / 4 <= words && (uint64_t)ring[SVGA_FIFO_MIN] + SVGA_RING_BYTES_MIN <= ring[SVGA_FIFO_MAX] &&
           offset_good(ring, ring[SVGA_FIFO_NEXT_CMD]) && offset_good(ring, ring[SVGA_FIFO_STOP]);
}

static uint32_t write_config_done(struct peer *p, const uint32_t *ring, size_t ring_len, uint32_t value) {
    if (value > 1) return SVGA_ANSWER_BAD_VALUE;
    if (value == 0) {
        p->configured = p->busy = false;
        return SVGA_ANSWER_TAKEN;
    }
    if (ring_len != p->memory / 4) return SVGA_ANSWER_LENT_LENGTH;
    if (!ring_good(ring, ring_len)) return SVGA_ANSWER_RING_REFUSED;
    p->min = ring[SVGA_FIFO_MIN] / 4, p->max = ring[SVGA_FIFO_MAX] / 4, p->stop = ring[SVGA_FIFO_STOP] / 4;
    p->configured = true, p->fault = 0;
    return SVGA_ANSWER_TAKEN;
}

static uint32_t write_cursor_on(struct peer *p, uint32_t value) {
    if (value > SVGA_CURSOR_ON_RESTORE_TO_FB) return SVGA_ANSWER_BAD_VALUE;
    p->cursor_on = value;
    if (value == SVGA_CURSOR_ON_HIDE) p->plane.shown = false;
    if (value == SVGA_CURSOR_ON_SHOW) p->plane.shown = true, p->plane.id = p->cursor_id, p->plane.x = p->cursor_x, p->plane.y = p->cursor_y;
    return SVGA_ANSWER_TAKEN;
}

uint32_t peer_write(struct peer *p, const uint32_t *ring, size_t ring_len, uint32_t index, uint32_t value) {
    switch (index) {
    case SVGA_REG_ID:
        if (value >= SVGA_ID_0 && value <= SVGA_ID_2) p->id = value;
        return SVGA_ANSWER_TAKEN;
    case SVGA_REG_ENABLE:
        if (value > 1) return SVGA_ANSWER_BAD_VALUE;
        p->enabled = value;
        if (!value) p->busy = false;
        return SVGA_ANSWER_TAKEN;
    case SVGA_REG_WIDTH:
        if (value < 1 || value > SVGA_WIDTH_MAX) return SVGA_ANSWER_BAD_VALUE;
        p->width = value;
        return SVGA_ANSWER_TAKEN;
    case SVGA_REG_HEIGHT:
        if (value < 1 || value > SVGA_HEIGHT_MAX) return SVGA_ANSWER_BAD_VALUE;
        p->height = value;
        return SVGA_ANSWER_TAKEN;
    case SVGA_REG_CONFIG_DONE: return write_config_done(p, ring, ring_len, value);
    case SVGA_REG_SYNC:
        if (p->configured && p->enabled && !p->fault) p->busy = true;
        return SVGA_ANSWER_TAKEN;
    case SVGA_REG_GUEST_ID: p->guest_id = value; return SVGA_ANSWER_TAKEN;
    case SVGA_REG_CURSOR_ID: p->cursor_id = value; return SVGA_ANSWER_TAKEN;
    case SVGA_REG_CURSOR_X: p->cursor_x = value; return SVGA_ANSWER_TAKEN;
    case SVGA_REG_CURSOR_Y: p->cursor_y = value; return SVGA_ANSWER_TAKEN;
    case SVGA_REG_CURSOR_ON: return write_cursor_on(p, value);
    default: return index <= SVGA_REG_HOST_BITS_PER_PIXEL ? SVGA_ANSWER_READ_ONLY : SVGA_ANSWER_NO_REGISTER;
    }
}

uint64_t peer_read(const struct peer *p, uint32_t index) {
    switch (index) {
    case SVGA_REG_ID: return p->id;
    case SVGA_REG_ENABLE: return p->enabled;
    case SVGA_REG_WIDTH: return p->width;
    case SVGA_REG_HEIGHT: return p->height;
    case SVGA_REG_MAX_WIDTH: return SVGA_WIDTH_MAX;
    case SVGA_REG_MAX_HEIGHT: return SVGA_HEIGHT_MAX;
    case SVGA_REG_DEPTH: return 24;
    case SVGA_REG_BITS_PER_PIXEL:
    case SVGA_REG_HOST_BITS_PER_PIXEL: return 32;
    case SVGA_REG_RED_MASK: return 0xFF0000;
    case SVGA_REG_GREEN_MASK: return 0xFF00;
    case SVGA_REG_BLUE_MASK: return 0xFF;
    case SVGA_REG_BYTES_PER_LINE: return 4 * p->width;
    case SVGA_REG_VRAM_SIZE: return 4 * p->pixels;
    case SVGA_REG_FB_SIZE: return 4 * p->width * p->height;
    case SVGA_REG_CAPABILITIES: return SVGA_CAPABILITIES;
    case SVGA_REG_MEM_SIZE: return p->memory;
    case SVGA_REG_CONFIG_DONE: return p->configured;
    case SVGA_REG_BUSY: return p->busy;
    case SVGA_REG_GUEST_ID: return p->guest_id;
    case SVGA_REG_CURSOR_ID: return p->cursor_id;
    case SVGA_REG_CURSOR_X: return p->cursor_x;
    case SVGA_REG_CURSOR_Y: return p->cursor_y;
    case SVGA_REG_CURSOR_ON: return p->cursor_on;
    case SVGA_REG_PSEUDOCOLOR:
    case SVGA_REG_FB_START:
    case SVGA_REG_FB_OFFSET:
    case SVGA_REG_MEM_START:
    case SVGA_REG_SYNC: return 0;
    default: return result(SVGA_ANSWER_NO_REGISTER, 0);
    }
}

// ---- fences and the guest's append

uint64_t peer_fence(const struct peer *p) { return p->fence; }

uint64_t peer_fence_passed(const struct peer *p, uint32_t fence) { return p->fence - fence < 0x80000000; }

uint32_t peer_append(uint32_t *ring, size_t ring_len, uint32_t word) {
    if (!ring_good(ring, ring_len)) return SVGA_APPEND_REFUSED;
    uint32_t at = ring[SVGA_FIFO_NEXT_CMD], next = at + 4;
    if (next == ring[SVGA_FIFO_MAX]) next = ring[SVGA_FIFO_MIN];
    if (next == ring[SVGA_FIFO_STOP]) return SVGA_APPEND_REFUSED;
    ring[at / 4] = word;
    ring[SVGA_FIFO_NEXT_CMD] = next;
    return SVGA_APPEND_TAKEN;
}

// ---- a run

static uint32_t *pixel(const struct peer *p, uint32_t x, uint32_t y) { return p->lent.screen + (size_t)y * p->width + x; }

static uint32_t rop_pixel(uint32_t rop, uint32_t s, uint32_t d) {
    return (-(rop & 1) & s & d) | (-(rop >> 1 & 1) & s & ~d) | (-(rop >> 2 & 1) & ~s & d) | (-(rop >> 3 & 1) & ~s & ~d);
}

// An update keeps to the mode; fills and copies reach all rows.
static void update(struct peer *p, const uint32_t *a) {
    struct rect r = cut(a, p->width, p->height);
    size_t at = (size_t)r.y * p->width + r.x;
    if (r.w && r.h) update_rows(p->lent.screen + at, p->lent.framebuffer + at, p->width, r.w, r.h);
}

static void fill(struct peer *p, const uint32_t *a, uint32_t rop) {
    struct rect r = cut(a + 1, p->width, p->lent.rows);
    uint32_t colour = a[0];
    if (!r.w || !r.h) return;
    uint32_t *d = pixel(p, r.x, r.y);
    if (rop == SVGA_ROP_COPY) {
        fill_rows(d, p->width, r.w, r.h, colour);
        return;
    }
    for (; r.h > 0; r.h--, d += p->width)
        for (size_t i = 0; i < r.w; i++) d[i] = rop_pixel(rop, colour, d[i]);
}

// Whether a rectangle and one of b's size elsewhere have no pixel in common.
static bool apart(struct rect a, struct rect b) {
    return a.x + b.w <= b.x || b.x + b.w <= a.x || a.y + b.h <= b.y || b.y + b.h <= a.y;
}

// The quickest way for each width: pixman where rows are short and do not overlap, else memmove for each row.
static void copy(struct peer *p, const uint32_t *a, uint32_t rop) {
    uint32_t from[4] = {a[0], a[1], a[4], a[5]}, to[4] = {a[2], a[3], a[4], a[5]};
    struct rect source = cut(from, p->width, p->lent.rows), r = cut(to, p->width, p->lent.rows);
    r.w = smaller(r.w, source.w), r.h = smaller(r.h, source.h);
    if (!r.w || !r.h) return;
    uint32_t *d = pixel(p, r.x, r.y), *s = pixel(p, source.x, source.y);
    if (rop == SVGA_ROP_COPY && r.w < 32 && apart(source, r)) {
        pixman_blt(p->lent.screen, p->lent.screen, (int)p->width, (int)p->width, 32, 32, (int)source.x, (int)source.y, (int)r.x, (int)r.y,
                   (int)r.w, (int)r.h);
    } else if (rop == SVGA_ROP_COPY) {
        copy_rows(d, s, p->width, r.w, r.h);
    } else if (d <= s) {
        for (size_t row = 0; row < r.h; row++, d += p->width, s += p->width)
            for (size_t i = 0; i < r.w; i++) d[i] = rop_pixel(rop, s[i], d[i]);
    } else {
        for (size_t row = r.h; row-- > 0;)
            for (size_t i = r.w; i-- > 0;) d[row * p->width + i] = rop_pixel(rop, s[row * p->width + i], d[row * p->width + i]);
    }
}

// The ring's words from `at` on, wrapping from max to min.
static void words_from(const struct peer *p, uint32_t at, uint32_t *out, uint32_t n) {
    uint32_t first = smaller(n, p->max - at);
    memcpy(out, p->lent.ring + at, first * sizeof *out);
    memcpy(out + first, p->lent.ring + p->min, (n - first) * sizeof *out);
}

static void define_cursor(struct peer *p, uint32_t stop, const uint32_t *a) {
    uint32_t at = stop + 6;
    if (at >= p->max) at -= p->max - p->min;
    words_from(p, at, p->lent.cursor, a[3] * a[4]);
    p->cursor.id = a[0], p->cursor.hotx = a[1], p->cursor.hoty = a[2], p->cursor.w = a[3], p->cursor.h = a[4];
}

static bool cursor_head_good(const uint32_t *a) { return a[3] - 1 < 64 && a[4] - 1 < 64 && a[1] < a[3] && a[2] < a[4]; }

// A command's first n words, in the ring, or in `local` where they wrap.
static const uint32_t *head(const struct peer *p, uint32_t stop, uint32_t n, uint32_t *local) {
    if (p->max - stop >= n) return p->lent.ring + stop;
    words_from(p, stop, local, n);
    return local;
}

static uint64_t run_commands(struct peer *p, uint32_t budget) {
    uint32_t *const ring = p->lent.ring;
    const uint32_t min = p->min, max = p->max, size = max - min;
    uint32_t stop = p->stop, local[8];
    for (uint32_t count = 0;; count++) {
        if (count == budget) return result(2, count);
        uint32_t next = ring[SVGA_FIFO_NEXT_CMD] / 4;
        if (ring[SVGA_FIFO_NEXT_CMD] % 4 || next < min || next >= max) return result(13, count);
        if (next == stop) return result(0, count);
        uint32_t waiting = next > stop ? next - stop : next + size - stop;
        const uint32_t *a;
        uint64_t words;
        switch (ring[stop]) {
        case SVGA_CMD_UPDATE:
            if (waiting < (words = 5)) return result(1, count);
            update(p, head(p, stop, 5, local) + 1);
            break;
        case SVGA_CMD_RECT_FILL:
            if (waiting < (words = 6)) return result(1, count);
            fill(p, head(p, stop, 6, local) + 1, SVGA_ROP_COPY);
            break;
        case SVGA_CMD_RECT_COPY:
            if (waiting < (words = 7)) return result(1, count);
            copy(p, head(p, stop, 7, local) + 1, SVGA_ROP_COPY);
            break;
        case SVGA_CMD_RECT_ROP_FILL:
            if (waiting < (words = 7)) return result(1, count);
            a = head(p, stop, 7, local);
            if (a[6] > 15) return result(11, count);
            fill(p, a + 1, a[6]);
            break;
        case SVGA_CMD_RECT_ROP_COPY:
            if (waiting < (words = 8)) return result(1, count);
            a = head(p, stop, 8, local);
            if (a[7] > 15) return result(11, count);
            copy(p, a + 1, a[7]);
            break;
        case SVGA_CMD_DEFINE_ALPHA_CURSOR:
            if (waiting < 6) return result(1, count);
            a = head(p, stop, 6, local);
            if (!cursor_head_good(a + 1)) return result(11, count);
            words = 6 + a[4] * a[5];
            if (words > size - 1) return result(12, count);
            if (waiting < words) return result(1, count);
            define_cursor(p, stop, a + 1);
            break;
        case SVGA_CMD_UPDATE_VERBOSE:
            if (waiting < (words = 6)) return result(1, count);
            update(p, head(p, stop, 6, local) + 1);
            break;
        case SVGA_CMD_FENCE:
            if (waiting < (words = 2)) return result(1, count);
            a = head(p, stop, 2, local);
            if (a[1] == 0) return result(11, count);
            p->fence = a[1];
            if (min >= SVGA_RING_START_FENCE / 4) ring[SVGA_FIFO_FENCE] = p->fence;
            break;
        case SVGA_CMD_ESCAPE:
            if (waiting < 3) return result(1, count);
            words = 3 + ((uint64_t)head(p, stop, 3, local)[2] + 3) / 4;
            if (words > size - 1) return result(12, count);
            if (waiting < words) return result(1, count);
            break;
        default: return result(10, count);
        }
        stop += (uint32_t)words;
        if (stop >= max) stop -= size;
        p->stop = stop;
        ring[SVGA_FIFO_STOP] = stop * 4;
    }
}

uint64_t peer_run(struct peer *p, uint32_t *ring, size_t ring_len, const uint32_t *framebuffer, size_t framebuffer_len, uint32_t *screen,
                  size_t screen_len, uint32_t *cursor, size_t cursor_len, uint32_t budget) {
    if (ring_len != p->memory / 4 || framebuffer_len != p->pixels || screen_len != p->pixels || cursor_len != SVGA_CURSOR_WORDS)
        return result(SVGA_ANSWER_LENT_LENGTH, 0);
    if (!p->configured) return result(SVGA_ANSWER_NOT_CONFIGURED, 0);
    if (!p->enabled) return result(SVGA_ANSWER_DISABLED, 0);
    if (p->width * p->height > p->pixels) return result(SVGA_ANSWER_MODE_TOO_LARGE, 0);
    if (p->fault) return result(SVGA_ANSWER_FAULT_STANDS, 0);
    p->lent.ring = ring, p->lent.framebuffer = framebuffer, p->lent.screen = screen, p->lent.cursor = cursor;
    p->lent.rows = p->pixels / p->width;
    uint64_t ended = run_commands(p, budget);
    uint32_t answer = (uint32_t)(ended >> 32);
    if (answer != SVGA_ANSWER_SPENT) p->busy = false;
    if (svga_is_fault(answer)) p->fault = answer;
    return ended;
}

// ---- a picture

// Each colour: floor((a * cursor + (255 - a) * below + 127) / 255). The top byte becomes 0.
static uint32_t blended(uint32_t cursor, uint32_t below) {
    uint32_t a = cursor >> 24, pixel = 0;
    for (int shift = 0; shift < 24; shift += 8)
        pixel |= (a * (cursor >> shift & 255) + (255 - a) * (below >> shift & 255) + 127) / 255 << shift;
    return pixel;
}

uint32_t peer_picture(const struct peer *p, const uint32_t *screen, size_t screen_len, const uint32_t *cursor, size_t cursor_len,
                      uint32_t *output, size_t output_len) {
    if (screen_len != p->pixels || output_len != p->pixels || cursor_len != SVGA_CURSOR_WORDS) return SVGA_ANSWER_LENT_LENGTH;
    if (p->width * p->height > p->pixels) return SVGA_ANSWER_MODE_TOO_LARGE;
    memcpy(output, screen, (size_t)p->width * p->height * sizeof *output);
    if (!p->plane.shown || !p->cursor.w || p->plane.id != p->cursor.id) return SVGA_ANSWER_TAKEN;
    int64_t left = (int64_t)(int32_t)p->plane.x - p->cursor.hotx, top = (int64_t)(int32_t)p->plane.y - p->cursor.hoty;
    int64_t right = left + p->cursor.w < p->width ? left + p->cursor.w : p->width;
    int64_t bottom = top + p->cursor.h < p->height ? top + p->cursor.h : p->height;
    int64_t first = left > 0 ? left : 0;
    for (int64_t y = top > 0 ? top : 0; y < bottom; y++) {
        uint32_t *restrict d = output + y * p->width + first;
        const uint32_t *restrict c = cursor + (y - top) * p->cursor.w + (first - left);
        for (int64_t i = 0; i < right - first; i++) d[i] = blended(c[i], d[i]);
    }
    return SVGA_ANSWER_TAKEN;
}

// ---- the guest's writer

// Whether a device would take a command of this number and these arguments; if so, its pixels and bytes.
static bool command_good(const uint32_t *a, size_t n, uint32_t *pixels, uint32_t *bytes) {
    *pixels = *bytes = 0;
    if (n == 0) return false;
    switch (a[0]) {
    case SVGA_CMD_UPDATE: return n == 5;
    case SVGA_CMD_RECT_FILL: return n == 6;
    case SVGA_CMD_RECT_COPY: return n == 7;
    case SVGA_CMD_RECT_ROP_FILL: return n == 7 && a[6] <= SVGA_ROP_SET;
    case SVGA_CMD_RECT_ROP_COPY: return n == 8 && a[7] <= SVGA_ROP_SET;
    case SVGA_CMD_UPDATE_VERBOSE: return n == 6;
    case SVGA_CMD_FENCE: return n == 2 && a[1] != 0;
    case SVGA_CMD_DEFINE_ALPHA_CURSOR:
        if (n != 6 || !cursor_head_good(a + 1)) return false;
        *pixels = a[4] * a[5];
        return true;
    case SVGA_CMD_ESCAPE:
        if (n != 3) return false;
        *bytes = a[2];
        return true;
    default: return false;
    }
}

// Words one by one from ring word `at` on, max becoming min; gives the place behind them.
static uint32_t put_words(uint32_t *ring, uint32_t min, uint32_t max, uint32_t at, const uint32_t *words, size_t n) {
    for (size_t i = 0; i < n; i++) {
        ring[at] = words[i];
        if (++at == max) at = min;
    }
    return at;
}

uint32_t peer_append_command(uint32_t *ring, size_t ring_len, const uint32_t *command, size_t command_len, const uint32_t *pixels,
                             size_t pixels_len, const uint8_t *data, size_t data_len) {
    if (!ring_good(ring, ring_len)) return SVGA_ANSWER_RING_REFUSED;
    uint32_t min = ring[SVGA_FIFO_MIN] / 4, max = ring[SVGA_FIFO_MAX] / 4, carried = max - min - 1;
    uint32_t at = ring[SVGA_FIFO_NEXT_CMD] / 4, stop = ring[SVGA_FIFO_STOP] / 4, pixels_asked, bytes_asked;
    if (!command_good(command, command_len, &pixels_asked, &bytes_asked)) return SVGA_ANSWER_NOT_A_COMMAND;
    uint64_t words = command_len + pixels_asked + ((uint64_t)bytes_asked + 3) / 4;
    if (words > carried) return SVGA_ANSWER_NOT_A_COMMAND;
    if (pixels_len != pixels_asked || data_len != bytes_asked) return SVGA_ANSWER_LENT_LENGTH;
    if (words > (at < stop ? stop - at - 1 : carried - (at - stop))) return SVGA_ANSWER_NO_ROOM;
    at = put_words(ring, min, max, at, command, command_len);
    at = put_words(ring, min, max, at, pixels, pixels_len);
    for (size_t i = 0; i < data_len; i += 4) {
        uint32_t word = 0;
        memcpy(&word, data + i, data_len - i < 4 ? data_len - i : 4); // x86-64 stores the lowest byte first
        at = put_words(ring, min, max, at, &word, 1);
    }
    ring[SVGA_FIFO_NEXT_CMD] = at * 4;
    return SVGA_ANSWER_TAKEN;
}
