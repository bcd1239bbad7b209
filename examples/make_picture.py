#!/usr/bin/env python3
"""Writes a ten-bit image as a picture for a page: examples/make_picture.py IMAGE.dpx PICTURE.png"""
import struct, sys, zlib

def chunk(kind, content):
    return struct.pack('>I', len(content)) + kind + content + struct.pack('>I', zlib.crc32(kind + content))

def picture(dpx):
    width, height = struct.unpack('>2I', dpx[772:780])
    lines = b''
    for y in range(height):
        words = struct.unpack_from(f'>{width}I', dpx, 2048 + 4 * width * y)
        lines += b'\0' + bytes(word >> shift & 255 for word in words for shift in (24, 14, 4))
    head = struct.pack('>2I5B', width, height, 8, 2, 0, 0, 0)
    return b'\x89PNG\r\n\x1a\n' + chunk(b'IHDR', head) + chunk(b'IDAT', zlib.compress(lines, 9)) + chunk(b'IEND', b'')

if len(sys.argv) != 3:
    sys.exit(__doc__)
with open(sys.argv[1], 'rb') as source, open(sys.argv[2], 'wb') as target:
    target.write(picture(source.read()))
