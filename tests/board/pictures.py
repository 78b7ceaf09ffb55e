"""Holds PNG files against a PPM file, pixel by pixel, with a decoder that is not the board's.
    pictures.py FILE.ppm FILE.png.."""

import sys
import zlib


def read_ppm(path):
    with open(path, "rb") as file:
        magic, size, depth, pixels = file.read().split(b"\n", 3)
    assert (magic, depth) == (b"P6", b"255"), path
    width, height = map(int, size.split())
    return width, height, pixels


def read_png(path):
    """An 8-bit RGB file whose rows are stored as they are or as differences from the row above."""
    with open(path, "rb") as file:
        data = file.read()
    assert data[:8] == b"\x89PNG\r\n\x1a\n", path
    at, chunks = 8, {}
    while at < len(data):
        length = int.from_bytes(data[at : at + 4], "big")
        kind, body, crc = data[at + 4 : at + 8], data[at + 8 : at + 8 + length], data[at + 8 + length : at + 12 + length]
        assert zlib.crc32(kind + body) == int.from_bytes(crc, "big"), f"{path}: the sum of {kind}"
        chunks[kind] = chunks.get(kind, b"") + body
        at += 12 + length
    head = chunks[b"IHDR"]
    width, height = int.from_bytes(head[:4], "big"), int.from_bytes(head[4:8], "big")
    assert head[8:] == bytes([8, 2, 0, 0, 0]), path
    lines, above, pixels = zlib.decompress(chunks[b"IDAT"]), bytes(3 * width), []
    for row in range(height):
        line = lines[row * (3 * width + 1) :][: 3 * width + 1]
        assert line[0] in (0, 2), f"{path}: row {row} is stored in another way"
        above = line[1:] if line[0] == 0 else bytes((a + b) & 255 for a, b in zip(line[1:], above))
        pixels.append(above)
    return width, height, b"".join(pixels)


def main():
    picture, failed = read_ppm(sys.argv[1]), 0
    for path in sys.argv[2:]:
        try:
            same = read_png(path) == picture
        except (AssertionError, OSError, zlib.error) as error:
            print(f"failed: {path}: {error}")
            failed = 1
            continue
        if not same:
            print(f"failed: {path} is not the picture that the board draws")
            failed = 1
    return failed


sys.exit(main())
