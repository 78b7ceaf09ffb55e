"""Known pixels of the C example's picture, worked out here from the rules, and the checksum of the rest.
    picture.py FILE.ppm"""

import sys
import zlib

CHECKSUM = 0x2500AD46


def sky(y):
    return (12 + y // 5, 28 + y // 3, 58 + y // 2)


def sea(y):
    return (0, 60 - (y - 140) // 2, 120 - (y - 140))


def either(pixel, mask):
    return tuple(a | b for a, b in zip(pixel, mask))


def blend(a, over, below):
    return tuple((a * o + (255 - a) * b + 127) // 255 for o, b in zip(over, below))


def flag(x, y):
    return (0xF0, 0xF0, 0xF0) if (x // 4 + y // 4) % 2 else (0x20, 0x50, 0xA0)


KNOWN = {
    "the sky's first and last pixel": {(0, 0): sky(0), (319, 139): sky(139)},
    "a fill as wide as can be, cut at the right edge and not wrapped": {(0, 199): sea(199), (319, 199): sea(199), (319, 140): sea(140)},
    "the lighthouse and its copy": {(40, 60): (0xD8, 0xD0, 0xC0), (254, 60): (0xD8, 0xD0, 0xC0), (254, 76): (0xB0, 0x30, 0x30), (250, 60): sky(60)},
    "the beam, by OR": {(60, 46): either(sky(46), (0x40, 0x40, 0x20)), (249, 55): either(sky(55), (0x40, 0x40, 0x20)), (100, 45): sky(45)},
    "OR to the bottom edge": {(60, 150): either(sea(150), (0x18, 0x18, 0)), (249, 199): either(sea(199), (0x18, 0x18, 0)), (250, 199): sea(199)},
    "the flag, from the framebuffer": {(144 + x, 96 + y): flag(x, y) for x in range(32) for y in range(16)},
    "no more than the flag": {(176, 96): sky(96), (144, 112): sky(112), (144, 95): sky(95)},
    "the flag's copy, cut at the right edge": {(302 + x, 96 + y): flag(x, y) for x in range(18) for y in range(16)},
    "the cursor: edge, inside, shadow, outside": {
        (200, 120): (0, 0, 0),
        (201, 124): (255, 255, 255),
        (201, 120): blend(0x60, (0, 0, 0), sky(120)),
        (215, 120): sky(120),
        (199, 120): sky(120),
    },
}


def main():
    with open(sys.argv[1], "rb") as file:
        magic, size, depth, pixels = file.read().split(b"\n", 3)
    if (magic, size, depth, len(pixels)) != (b"P6", b"320 200", b"255", 320 * 200 * 3):
        print("failed: the C example's picture is no PPM of 320 by 200")
        return 1
    failed = False
    for what, places in KNOWN.items():
        for (x, y), should in places.items():
            at = 3 * (y * 320 + x)
            found = tuple(pixels[at : at + 3])
            if found != should:
                print(f"failed: {what}: pixel ({x}, {y}) is {found}, not {should}")
                failed = True
                break
    if not failed and zlib.crc32(pixels) != CHECKSUM:
        print(f"failed: the C example's picture has the checksum {zlib.crc32(pixels):#010x}, not {CHECKSUM:#010x}: look at it")
        failed = True
    return int(failed)


sys.exit(main())
