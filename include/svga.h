/*
 * svga.h: the host side of a VMware SVGA II display adapter.
 *
 * Link libsvga.a (`tools/archive svga` puts it into target/staticlib); it needs memcpy and memmove of the C library and an x86-64-v2
 * processor, and nothing else. C99 or C++.
 *
 * The library has no memory of its own and keeps no pointer. A device is SVGA_DEVICE_WORDS words that you hold, and each call is lent
 * the memories that it works on, each as a pointer and a length in 32-bit words:
 *
 *     device        SVGA_DEVICE_WORDS words, first written by svga_make
 *     ring          the ring memory: M / 4 words, M being the bytes that the device was made for; the guest writes commands here
 *     framebuffer   P words, P being the pixels that the device was made for; the guest draws here; no call changes it
 *     screen        P words: what is shown, without the cursor; behind the mode's rows, offscreen rows that fills and copies reach too
 *     cursor        SVGA_CURSOR_WORDS words: the cursor image
 *     output        P words: a finished picture
 *
 * and to append a command (svga_append_command), beside the ring, the command's words, its pixels, and its data, whose length is in bytes.
 *
 * Pixel (x, y) stands at word y * width + x of framebuffer, screen and output, as 0x00RRGGBB.
 *
 * What you have to hold to:
 *   - Memories lent to one call do not overlap.
 *   - Nobody else writes a lent memory during the call: pause the guest's processors, or lend copies. A guest may look on.
 *     Nothing is promised of memories that overlap or that somebody else writes meanwhile.
 *     After a run on a copy of the ring write back word SVGA_FIFO_FENCE if the run changed it, and then word SVGA_FIFO_STOP if it did. It
 *     changes word SVGA_FIFO_FENCE only where the ring was accepted with a MIN of 28 or more (device word 25 is 7 or more before the
 *     run): below 28 that word is one of the ring's own, and the guest may have written it. A run changes no other ring word.
 *   - A pointer has its length's words behind it and is aligned for uint32_t; one to a command's data has its length's bytes behind it.
 *     Where the length is 0 it may be NULL.
 *
 * What you need not look at:
 *   - Contents. Any value in any lent word is safe, ring and device words included, and so is any length: each has an answer.
 *   - Order. Any call may come at any time. Calls on different devices and memories may run at once, in any threads.
 *
 * Every call ends, and gives an answer from the table below. An answer from 20 on is a refusal: the call has changed nothing.
 */
#ifndef SVGA_H
#define SVGA_H

#include <stddef.h>
#include <stdint.h>

#ifdef __cplusplus
extern "C" {
#endif

/* Signatures and the layout of the device words are those of this version. A function or an answer that is added leaves it as it is. */
#define SVGA_ABI_VERSION 1

/* ---- Lengths, in 32-bit words */

#define SVGA_DEVICE_WORDS 64   /* a device */
#define SVGA_CURSOR_WORDS 4096 /* the cursor image: 64 by 64 */
#define SVGA_EDGES_WORDS 4     /* the offscreen rectangle's edges */

/* ---- Limits */

#define SVGA_MEMORY_MIN 10256   /* M, the bytes of the ring memory: a multiple of 4 from here .. */
#define SVGA_MEMORY_MAX 2097152 /* .. to here */
#define SVGA_PIXELS_MIN 1       /* P, the pixels of framebuffer and screen: from here .. */
#define SVGA_PIXELS_MAX 4096000 /* .. to here */
#define SVGA_WIDTH_MAX 2560     /* a mode's width, from 1 */
#define SVGA_HEIGHT_MAX 1600    /* a mode's height, from 1 */
#define SVGA_CURSOR_SIDE_MAX 64 /* a cursor's width and height, from 1 */
#define SVGA_RING_BYTES_MIN 10240 /* the least MAX - MIN of a ring */
#define SVGA_RING_START_MIN 16    /* the least MIN: the ring starts behind its four words */
#define SVGA_RING_START_FENCE 28  /* the least MIN with which fences are posted: the ring starts behind word SVGA_FIFO_FENCE */

/* ---- Answers */

/* svga_make, svga_write, svga_read, svga_picture, svga_offscreen, svga_fence, svga_fence_passed, svga_append_command */
#define SVGA_ANSWER_TAKEN 0 /* done */

/* svga_run: where the run ended */
#define SVGA_ANSWER_DRAINED 0 /* no word waits */
#define SVGA_ANSWER_WAITING 1 /* the rest of a command is not there yet */
#define SVGA_ANSWER_SPENT 2   /* the budget is used up; more may wait */

/* svga_run: a fault. What came before it is done; nothing of its command is. It stands until CONFIG_DONE 1 is accepted. */
#define SVGA_ANSWER_NOT_OFFERED 10  /* a command number that is not offered */
#define SVGA_ANSWER_BAD_OPERAND 11  /* a bad cursor size or hotspot, a raster operation above 15, or FENCE 0 */
#define SVGA_ANSWER_TOO_LONG 12     /* a command longer than the ring can hold */
#define SVGA_ANSWER_BAD_NEXT_CMD 13 /* NEXT_CMD is no multiple of 4, or outside the ring */

/* Refusals: nothing has changed. */
#define SVGA_ANSWER_LENT_LENGTH 20    /* a lent length is not the one that the device was made for; append_command: that the command has */
#define SVGA_ANSWER_DISABLED 21       /* run: ENABLE is 0 */
#define SVGA_ANSWER_NOT_CONFIGURED 22 /* run: CONFIG_DONE is 0 */
#define SVGA_ANSWER_FAULT_STANDS 23   /* run: an earlier run ended in a fault */
#define SVGA_ANSWER_MODE_TOO_LARGE 24 /* run, picture: width * height is above P */
#define SVGA_ANSWER_NO_REGISTER 30    /* write, read: no such register; these, offscreen and fences: the device words are none */
#define SVGA_ANSWER_READ_ONLY 31      /* write: the register is read-only */
#define SVGA_ANSWER_BAD_VALUE 32      /* write: the value is outside the register's range */
#define SVGA_ANSWER_RING_REFUSED 33   /* write of CONFIG_DONE 1, append_command: ring words 0 to 3 are no usable ring */
#define SVGA_ANSWER_BAD_SIZES 34      /* make: M or P is outside its limits; there is no device */
#define SVGA_ANSWER_NO_ROOM 40        /* append_command: the ring could hold the command, but too few of its words are free now */
#define SVGA_ANSWER_NOT_A_COMMAND 41  /* append_command: no command, or one at which a device would fault */

/* svga_append */
#define SVGA_APPEND_TAKEN 0
#define SVGA_APPEND_REFUSED 1 /* the ring is full, or ring words 0 to 3 are unusable; nothing has changed */

/* ---- Registers: the indices for svga_write and svga_read. Every other index is absent. */

#define SVGA_REG_ID 0              /* write the highest SVGA_ID_* you know and read back: others than the three are taken and not stored */
#define SVGA_REG_ENABLE 1          /* 0 or 1 */
#define SVGA_REG_WIDTH 2           /* 1 to SVGA_WIDTH_MAX */
#define SVGA_REG_HEIGHT 3          /* 1 to SVGA_HEIGHT_MAX */
#define SVGA_REG_MAX_WIDTH 4       /* read-only: SVGA_WIDTH_MAX */
#define SVGA_REG_MAX_HEIGHT 5      /* read-only: SVGA_HEIGHT_MAX */
#define SVGA_REG_DEPTH 6           /* read-only: 24 */
#define SVGA_REG_BITS_PER_PIXEL 7  /* read-only: 32 */
#define SVGA_REG_PSEUDOCOLOR 8     /* read-only: 0 */
#define SVGA_REG_RED_MASK 9        /* read-only: 0xFF0000 */
#define SVGA_REG_GREEN_MASK 10     /* read-only: 0xFF00 */
#define SVGA_REG_BLUE_MASK 11      /* read-only: 0xFF */
#define SVGA_REG_BYTES_PER_LINE 12 /* read-only: 4 * width */
#define SVGA_REG_FB_START 13       /* read-only: 0; the host maps the framebuffer */
#define SVGA_REG_FB_OFFSET 14      /* read-only: 0 */
#define SVGA_REG_VRAM_SIZE 15      /* read-only: 4 * P */
#define SVGA_REG_FB_SIZE 16        /* read-only: 4 * width * height */
#define SVGA_REG_CAPABILITIES 17   /* read-only: SVGA_CAPABILITIES */
#define SVGA_REG_MEM_START 18      /* read-only: 0; the host maps the ring memory */
#define SVGA_REG_MEM_SIZE 19       /* read-only: M */
#define SVGA_REG_CONFIG_DONE 20    /* 0 or 1; 1 looks at ring words 0 to 3, remembers them and clears a fault */
#define SVGA_REG_SYNC 21           /* any value: BUSY becomes 1 if configured, enabled and without fault; reads 0 */
#define SVGA_REG_BUSY 22           /* read-only: 1 from SYNC until a run drains, waits or faults, or ENABLE or CONFIG_DONE becomes 0 */
#define SVGA_REG_GUEST_ID 23       /* any value */
#define SVGA_REG_CURSOR_ID 24      /* any value */
#define SVGA_REG_CURSOR_X 25       /* any value, read as a signed number */
#define SVGA_REG_CURSOR_Y 26       /* any value, read as a signed number */
#define SVGA_REG_CURSOR_ON 27      /* SVGA_CURSOR_ON_HIDE to SVGA_CURSOR_ON_RESTORE_TO_FB */
#define SVGA_REG_HOST_BITS_PER_PIXEL 28 /* read-only: 32 */

/* Values of ID */
#define SVGA_ID_0 0x90000000u
#define SVGA_ID_1 0x90000001u
#define SVGA_ID_2 0x90000002u

/* Values of CURSOR_ON. The cursor is never in the framebuffer, so the last two leave it as it is. */
#define SVGA_CURSOR_ON_HIDE 0
#define SVGA_CURSOR_ON_SHOW 1 /* CURSOR_ID, CURSOR_X and CURSOR_Y are remembered now; writing them later moves nothing */
#define SVGA_CURSOR_ON_REMOVE_FROM_FB 2
#define SVGA_CURSOR_ON_RESTORE_TO_FB 3

/* Bits of CAPABILITIES */
#define SVGA_CAP_RECT_FILL 0x1
#define SVGA_CAP_RECT_COPY 0x2
#define SVGA_CAP_RASTER_OP 0x10
#define SVGA_CAP_CURSOR_BYPASS 0x40
#define SVGA_CAP_CURSOR_BYPASS_2 0x80
#define SVGA_CAP_ALPHA_CURSOR 0x200
#define SVGA_CAP_OFFSCREEN_1 0x1000 /* fills and copies reach the offscreen rectangle: svga_offscreen */

/* What CAPABILITIES reads: all of these */
#define SVGA_CAPABILITIES 0x12D3

/* ---- The ring */

/* The ring memory's first words, as byte offsets from its start. The ring goes from MIN to below MAX and is empty where NEXT_CMD is STOP. */
#define SVGA_FIFO_MIN 0
#define SVGA_FIFO_MAX 1
#define SVGA_FIFO_NEXT_CMD 2 /* the guest writes its next word there */
#define SVGA_FIFO_STOP 3     /* the device reads its next word there */

/*
 * The last fence, where the accepted MIN is 28 or more (SVGA_RING_START_FENCE): each FENCE that is executed also writes its number there,
 * before STOP passes it, and a guest polls it. CONFIG_DONE 1 writes nothing there: a guest sets it before, to 0 or to the last fence that
 * it knows. Where MIN is 16 to 24, ring word 6 is one of the ring's own.
 */
#define SVGA_FIFO_FENCE 6

/*
 * Commands: the number, then its arguments, a word each. Coordinates are unsigned; x + w never wraps. UPDATE and UPDATE_VERBOSE are cut to
 * the mode. Fills and copies are cut to the mode and the offscreen rows behind it: width by P / width rows, rounded down. A pixel is copied
 * where both it and the place that it goes to lie there. A fill that is higher than the rest of the mode therefore goes on offscreen.
 */
#define SVGA_CMD_UPDATE 1               /* x y w h: framebuffer pixels come to the screen */
#define SVGA_CMD_RECT_FILL 2            /* colour x y w h */
#define SVGA_CMD_RECT_COPY 3            /* sx sy dx dy w h */
#define SVGA_CMD_RECT_ROP_FILL 13       /* colour x y w h rop */
#define SVGA_CMD_RECT_ROP_COPY 14       /* sx sy dx dy w h rop */
#define SVGA_CMD_DEFINE_ALPHA_CURSOR 22 /* id hotx hoty w h, then w * h pixels 0xAARRGGBB, row by row */
#define SVGA_CMD_UPDATE_VERBOSE 25      /* x y w h reason: as UPDATE */
#define SVGA_CMD_FENCE 30               /* number, not 0: the last one is what svga_fence gives, and SVGA_FIFO_FENCE */
#define SVGA_CMD_ESCAPE 33              /* namespace, size in bytes, then the data in whole words: no effect */

/* Raster operations, as X numbers them: s is the colour or the pixel copied, d the pixel it falls on. */
#define SVGA_ROP_CLEAR 0          /* 0 */
#define SVGA_ROP_AND 1            /* s & d */
#define SVGA_ROP_AND_REVERSE 2    /* s & ~d */
#define SVGA_ROP_COPY 3           /* s */
#define SVGA_ROP_AND_INVERTED 4   /* ~s & d */
#define SVGA_ROP_NOOP 5           /* d */
#define SVGA_ROP_XOR 6            /* s ^ d */
#define SVGA_ROP_OR 7             /* s | d */
#define SVGA_ROP_NOR 8            /* ~(s | d) */
#define SVGA_ROP_EQUIV 9          /* ~(s ^ d) */
#define SVGA_ROP_INVERT 10        /* ~d */
#define SVGA_ROP_OR_REVERSE 11    /* s | ~d */
#define SVGA_ROP_COPY_INVERTED 12 /* ~s */
#define SVGA_ROP_OR_INVERTED 13   /* ~s | d */
#define SVGA_ROP_NAND 14          /* ~(s & d) */
#define SVGA_ROP_SET 15           /* all ones */

/*
 * ---- The device words
 *
 * You may copy them, save them and restore them as they are, together with ring, framebuffer, screen and cursor; and you may look.
 *
 *     word      holds
 *     0, 1      M (bytes of the ring memory), P (pixels)
 *     2         ID
 *     3         ENABLE, 0 or 1
 *     4, 5      WIDTH, HEIGHT
 *     6         CONFIG_DONE, 0 or 1
 *     7         GUEST_ID
 *     8 .. 11   CURSOR_ID, CURSOR_X, CURSOR_Y, CURSOR_ON, as last taken
 *     12 .. 15  the cursor plane: shown (0 or 1), and the id, X and Y that CURSOR_ON 1 remembered
 *     16        1 if a cursor is defined, else 0
 *     17 .. 21  its id, hotx, hoty, w, h; all 0 where none is defined
 *     22        the last fence
 *     23        BUSY, 0 or 1
 *     24        the condition: 0 idle, 1 running with a ring, 10 to 13 the fault that stands
 *     25 .. 27  the remembered MIN, MAX and STOP, in words of the ring memory (a quarter of the bytes); all 0 unless word 24 is 1
 *     28 .. 63  spare: 0
 *
 * Words are well-formed if M and P are within their limits; WIDTH and HEIGHT are ones that a write takes; words 3, 6, 12, 16 and 23 are
 * 0 or 1; word 24 is one of those named, with CONFIG_DONE 0 where it is 0 and 1 where it is 1; a ring has 4 <= MIN,
 * MIN + 2560 <= MAX <= M / 4 and MIN <= STOP < MAX; a defined cursor has w and h from 1 to 64, hotx < w and hoty < h; and what is said to
 * be 0 is 0, the spare words included. Every call on a device but svga_make looks at this first, right after its length
 * (svga_offscreen after both of its lengths). Words that fail are refused and nothing changes:
 *
 *     svga_write, svga_read, svga_offscreen, svga_fence, svga_fence_passed    SVGA_ANSWER_NO_REGISTER
 *     svga_run                                                                SVGA_ANSWER_NOT_CONFIGURED
 *     svga_picture                                                            SVGA_ANSWER_MODE_TOO_LARGE
 *
 * To try restored words, read SVGA_REG_ID: SVGA_ANSWER_TAKEN says that they are well-formed.
 */

/* ---- Calls */

/*
 * Makes a device for a ring memory of `memory` bytes and `pixels` pixels: mode 640 by 480, disabled, not configured. Set a mode that you
 * want before you enable it.
 *
 *   SVGA_ANSWER_TAKEN        all 64 device words are written
 *   SVGA_ANSWER_LENT_LENGTH  device_len is not SVGA_DEVICE_WORDS
 *   SVGA_ANSWER_BAD_SIZES    memory or pixels is outside its limits
 */
uint32_t svga_make(uint32_t *device, size_t device_len, uint32_t memory, uint32_t pixels);

/*
 * Writes a register. Changes device words only. The ring is looked at by CONFIG_DONE 1 alone; every other write may be lent none (NULL, 0).
 *
 *   SVGA_ANSWER_TAKEN         done; for ID, SYNC and CURSOR_ON see there
 *   SVGA_ANSWER_LENT_LENGTH   device_len is not SVGA_DEVICE_WORDS; or, for CONFIG_DONE 1, ring_len is not M / 4
 *   SVGA_ANSWER_NO_REGISTER   there is no register of this index, or the device words are not well-formed
 *   SVGA_ANSWER_READ_ONLY     the register is read-only
 *   SVGA_ANSWER_BAD_VALUE     the value is outside the register's range
 *   SVGA_ANSWER_RING_REFUSED  CONFIG_DONE 1: usable are multiples of 4 with MIN >= 16, MAX <= M, MAX - MIN >= 10,240, and NEXT_CMD and
 *                             STOP from MIN to below MAX
 */
uint32_t svga_write(uint32_t *device, size_t device_len, const uint32_t *ring, size_t ring_len, uint32_t index, uint32_t value);

/*
 * Reads a register: svga_answer_of and svga_value_of take the result apart. Changes nothing. A refusal has the value 0.
 *
 *   SVGA_ANSWER_TAKEN        the value is the register's
 *   SVGA_ANSWER_LENT_LENGTH  device_len is not SVGA_DEVICE_WORDS
 *   SVGA_ANSWER_NO_REGISTER  there is no register of this index, or the device words are not well-formed
 */
uint64_t svga_read(const uint32_t *device, size_t device_len, uint32_t index);

/*
 * Runs commands out of the ring, `budget` at the most: svga_answer_of gives the answer, svga_value_of the number of commands consumed.
 * A budget of 0 answers SVGA_ANSWER_SPENT. The budget bounds the time that a hostile guest can take: one command paints at most P pixels,
 * so a run takes at most `budget` times what the dearest of them takes (README, "Choosing a budget"). Changes:
 *   - of the screen, pixels in the commands' rectangles, cut as said at SVGA_CMD_*, and no others: the P % width words behind the last
 *     whole row never
 *   - of the cursor image, for a cursor of w by h the first w * h words
 *   - of the ring, word SVGA_FIFO_STOP, if a command was consumed, and word SVGA_FIFO_FENCE, if the accepted MIN is 28 or more and a FENCE
 *     was executed
 *   - of the device words, those of BUSY, the fence, the defined cursor, the condition and the remembered STOP
 * MIN, MAX and STOP are the ones that CONFIG_DONE 1 remembered; what the guest writes to ring words 0, 1 and 3 afterwards is not read: it
 * does not change whether fences are posted either.
 *
 *   SVGA_ANSWER_DRAINED, _WAITING, _SPENT                             where it ended
 *   SVGA_ANSWER_NOT_OFFERED, _BAD_OPERAND, _TOO_LONG, _BAD_NEXT_CMD   it ended in a fault; the count is of the commands before it
 * Refusals, in the order in which they are looked for; the count is 0:
 *   SVGA_ANSWER_LENT_LENGTH     device_len is not SVGA_DEVICE_WORDS
 *   SVGA_ANSWER_NOT_CONFIGURED  the device words are not well-formed
 *   SVGA_ANSWER_LENT_LENGTH     ring_len is not M / 4, framebuffer_len or screen_len is not P, or cursor_len is not SVGA_CURSOR_WORDS
 *   SVGA_ANSWER_NOT_CONFIGURED  CONFIG_DONE is 0
 *   SVGA_ANSWER_DISABLED        ENABLE is 0
 *   SVGA_ANSWER_MODE_TOO_LARGE  width * height is above P
 *   SVGA_ANSWER_FAULT_STANDS    device word 24 says which
 */
uint64_t svga_run(uint32_t *device, size_t device_len, uint32_t *ring, size_t ring_len, const uint32_t *framebuffer, size_t framebuffer_len,
                  uint32_t *screen, size_t screen_len, uint32_t *cursor, size_t cursor_len, uint32_t budget);

/*
 * Writes the picture: the screen, with the cursor blended over it where it is shown and its id is the defined cursor's. Changes the first
 * width * height words of the output: offscreen rows are not shown. The device may be disabled, unconfigured or faulted.
 *
 *   SVGA_ANSWER_TAKEN           done
 *   SVGA_ANSWER_LENT_LENGTH     device_len is not SVGA_DEVICE_WORDS; or (looked for after the well-formed words) screen_len or output_len
 *                               is not P, or cursor_len is not SVGA_CURSOR_WORDS
 *   SVGA_ANSWER_MODE_TOO_LARGE  width * height is above P, or the device words are not well-formed
 */
uint32_t svga_picture(const uint32_t *device, size_t device_len, const uint32_t *screen, size_t screen_len, const uint32_t *cursor,
                      size_t cursor_len, uint32_t *output, size_t output_len);

/*
 * Writes the usable offscreen rectangle's left, top, right and bottom edge to the four words of edges; right and bottom are excluded:
 *
 *   left    0
 *   top     FB_SIZE / BYTES_PER_LINE, rounded up: the mode's height
 *   right   8 * BYTES_PER_LINE / BITS_PER_PIXEL: the mode's width
 *   bottom  VRAM_SIZE / BYTES_PER_LINE, rounded down
 *
 * These are the rows of the screen's memory behind the mode, where no picture shows them and UPDATE brings nothing. Fills and copies read
 * and write them as they do the mode's: keep there what is to be shown again, and copy it back. The words stay as they are when the mode
 * changes, but with another width they are other pixels. The rectangle is empty where bottom <= top, as where the mode takes all of P; the
 * edges are as they come out even then. To have rows there, make the device for more pixels than the mode has.
 *
 *   SVGA_ANSWER_TAKEN        done
 *   SVGA_ANSWER_LENT_LENGTH  device_len is not SVGA_DEVICE_WORDS, or edges_len is not SVGA_EDGES_WORDS; the edges stay as they were
 *   SVGA_ANSWER_NO_REGISTER  the device words are not well-formed; the edges stay as they were
 */
uint32_t svga_offscreen(const uint32_t *device, size_t device_len, uint32_t *edges, size_t edges_len);

/*
 * The last fence executed, 0 where there was none. Changes nothing.
 *
 *   SVGA_ANSWER_TAKEN        the value is the fence
 *   SVGA_ANSWER_LENT_LENGTH  device_len is not SVGA_DEVICE_WORDS; value 0
 *   SVGA_ANSWER_NO_REGISTER  the device words are not well-formed; value 0
 */
uint64_t svga_fence(const uint32_t *device, size_t device_len);

/*
 * Whether a fence has passed: the value is 1 if the last fence minus this one, modulo 2^32, is below 2^31, and 0 otherwise. Changes
 * nothing. Answers as svga_fence.
 */
uint64_t svga_fence_passed(const uint32_t *device, size_t device_len, uint32_t fence);

/*
 * Appends one word to the ring, as a guest does: it is written at NEXT_CMD, and NEXT_CMD moves on. Changes that word and ring word
 * SVGA_FIFO_NEXT_CMD.
 *
 *   SVGA_APPEND_TAKEN    done
 *   SVGA_APPEND_REFUSED  the ring is full, or its words 0 to 3 are not ones that CONFIG_DONE 1 would accept with M = 4 * ring_len
 */
uint32_t svga_append(uint32_t *ring, size_t ring_len, uint32_t word);

/*
 * Appends a command to the ring, as a guest does: all its words, or none. command[0] is its number, and behind it stand its arguments in
 * the order in which they stand at SVGA_CMD_* above: 6 words for a RECT_FILL, 2 for a FENCE. Pixels and data are lent beside it:
 *
 *     SVGA_CMD_DEFINE_ALPHA_CURSOR   w * h pixels, no data
 *     SVGA_CMD_ESCAPE                `size` bytes of data, no pixels; they go lowest first into each word, and zeros fill up the last
 *     every other command            neither: NULL, 0
 *
 * The words are stored from NEXT_CMD on, MAX becoming MIN, and NEXT_CMD once, after all of them. STOP is read from ring word
 * SVGA_FIFO_STOP: free are the words from NEXT_CMD up to it, all round where the two are equal, but for the last one, which is never
 * filled. Changes ring word SVGA_FIFO_NEXT_CMD and the free words that the command fills; where it is refused, nothing.
 *
 * All of these are plain stores. Memory order between processors is the host's affair: let no device run on this ring during the call, and
 * put a barrier behind it before a device on another processor may look.
 *
 *   SVGA_ANSWER_TAKEN          done
 * Refusals, in the order in which they are looked for:
 *   SVGA_ANSWER_RING_REFUSED   ring words 0 to 3 are not there, or not ones that CONFIG_DONE 1 would accept with M = 4 * ring_len, any M
 *   SVGA_ANSWER_NOT_A_COMMAND  command_len is 0; the number is none of SVGA_CMD_*, or another number of arguments stands behind it; or a
 *                              device with this ring would fault at it: SVGA_ANSWER_BAD_OPERAND or SVGA_ANSWER_TOO_LONG
 *   SVGA_ANSWER_LENT_LENGTH    pixels_len or data_len is another than the one above
 *   SVGA_ANSWER_NO_ROOM        the ring could hold the command, but too few of its words are free now: try again after a run
 */
uint32_t svga_append_command(uint32_t *ring, size_t ring_len, const uint32_t *command, size_t command_len, const uint32_t *pixels,
                             size_t pixels_len, const uint8_t *data, size_t data_len);

/* ---- Taking answers apart */

/* The answer of svga_read, svga_run, svga_fence and svga_fence_passed: their result's high half. */
static inline uint32_t svga_answer_of(uint64_t result) { return (uint32_t)(result >> 32); }

/* The value, the count, the fence, or 1 or 0: the result's low half. */
static inline uint32_t svga_value_of(uint64_t result) { return (uint32_t)(result & 0xFFFFFFFFu); }

/* 1 if the answer of a run is a fault, 0 otherwise. */
static inline int svga_is_fault(uint32_t answer) { return answer >= SVGA_ANSWER_NOT_OFFERED && answer <= SVGA_ANSWER_BAD_NEXT_CMD; }

/* 1 if the answer is a refusal, so that nothing has changed; 0 otherwise. Not for svga_append. */
static inline int svga_is_refusal(uint32_t answer) { return answer >= SVGA_ANSWER_LENT_LENGTH; }

#ifdef __cplusplus
}
#endif

#endif
