// The shim between the benchmarks and the archive of `bench/run --before LIB`, whose svga_run is named before_svga_run here, and so on.
// BEFORE_ABI is the SVGA_ABI_VERSION that the archive was built with.
//
// When a signature in svga.h changes, this file no longer compiles, and it alone has to change: the version went up with the signature, the
// older archive keeps what stands here, and the wrapper takes today's parameters and drops what the older one lacks. If version 2 lends
// svga_run a memory more:
//
//     #if BEFORE_ABI >= 2
//     uint64_t before_svga_run(.., uint32_t *more, size_t more_len, uint32_t budget);
//     uint64_t before_run(.., uint32_t *more, size_t more_len, uint32_t budget) {
//         return before_svga_run(.., more, more_len, budget);
//     }
//     #else
//     uint64_t before_svga_run(.., uint32_t budget);
//     uint64_t before_run(.., uint32_t *more, size_t more_len, uint32_t budget) {
//         (void)more, (void)more_len;
//         return before_svga_run(.., budget);
//     }
//     #endif
//
// So it is with a length: where a device had fewer words, the wrapper lends so many. A call that the older archive lacks answers
// SVGA_ANSWER_NO_REGISTER. What an archive does otherwise with the same signatures needs nothing here: one that posts no fences to ring word
// 6 is of version 1 too, and the benchmarks do not look at that word after its runs.
#include "before.h"

#if BEFORE_ABI < 1 || BEFORE_ABI > SVGA_ABI_VERSION
#error "no archive of this version: there are 1 to SVGA_ABI_VERSION of include/svga.h"
#endif

uint32_t before_svga_make(uint32_t *device, size_t device_len, uint32_t memory, uint32_t pixels);
uint32_t before_make(uint32_t *device, size_t device_len, uint32_t memory, uint32_t pixels) {
    return before_svga_make(device, device_len, memory, pixels);
}

uint32_t before_svga_write(uint32_t *device, size_t device_len, const uint32_t *ring, size_t ring_len, uint32_t index, uint32_t value);
uint32_t before_write(uint32_t *device, size_t device_len, const uint32_t *ring, size_t ring_len, uint32_t index, uint32_t value) {
    return before_svga_write(device, device_len, ring, ring_len, index, value);
}

uint64_t before_svga_read(const uint32_t *device, size_t device_len, uint32_t index);
uint64_t before_read(const uint32_t *device, size_t device_len, uint32_t index) { return before_svga_read(device, device_len, index); }

uint64_t before_svga_run(uint32_t *device, size_t device_len, uint32_t *ring, size_t ring_len, const uint32_t *framebuffer,
                         size_t framebuffer_len, uint32_t *screen, size_t screen_len, uint32_t *cursor, size_t cursor_len, uint32_t budget);
uint64_t before_run(uint32_t *device, size_t device_len, uint32_t *ring, size_t ring_len, const uint32_t *framebuffer, size_t framebuffer_len,
                    uint32_t *screen, size_t screen_len, uint32_t *cursor, size_t cursor_len, uint32_t budget) {
    return before_svga_run(device, device_len, ring, ring_len, framebuffer, framebuffer_len, screen, screen_len, cursor, cursor_len, budget);
}

uint32_t before_svga_picture(const uint32_t *device, size_t device_len, const uint32_t *screen, size_t screen_len, const uint32_t *cursor,
                             size_t cursor_len, uint32_t *output, size_t output_len);
uint32_t before_picture(const uint32_t *device, size_t device_len, const uint32_t *screen, size_t screen_len, const uint32_t *cursor,
                        size_t cursor_len, uint32_t *output, size_t output_len) {
    return before_svga_picture(device, device_len, screen, screen_len, cursor, cursor_len, output, output_len);
}

uint32_t before_svga_offscreen(const uint32_t *device, size_t device_len, uint32_t *edges, size_t edges_len);
uint32_t before_offscreen(const uint32_t *device, size_t device_len, uint32_t *edges, size_t edges_len) {
    return before_svga_offscreen(device, device_len, edges, edges_len);
}

uint64_t before_svga_fence(const uint32_t *device, size_t device_len);
uint64_t before_fence(const uint32_t *device, size_t device_len) { return before_svga_fence(device, device_len); }

uint64_t before_svga_fence_passed(const uint32_t *device, size_t device_len, uint32_t fence);
uint64_t before_fence_passed(const uint32_t *device, size_t device_len, uint32_t fence) {
    return before_svga_fence_passed(device, device_len, fence);
}

uint32_t before_svga_append(uint32_t *ring, size_t ring_len, uint32_t word);
uint32_t before_append(uint32_t *ring, size_t ring_len, uint32_t word) { return before_svga_append(ring, ring_len, word); }
