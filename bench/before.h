// The calls of svga.h, made to an older archive: before_run takes what svga_run takes today, and so on. What the older archive takes is
// the business of before.c. svga_append_command is left out: no stream makes it.
#ifndef BENCH_BEFORE_H
#define BENCH_BEFORE_H

#include "svga.h"

__typeof__(svga_make) before_make;
__typeof__(svga_write) before_write;
__typeof__(svga_read) before_read;
__typeof__(svga_run) before_run;
__typeof__(svga_picture) before_picture;
__typeof__(svga_offscreen) before_offscreen;
__typeof__(svga_fence) before_fence;
__typeof__(svga_fence_passed) before_fence_passed;
__typeof__(svga_append) before_append;

#endif
