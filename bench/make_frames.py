#!/usr/bin/env python3
"""Writes frames of two sizes and two depths into a folder, for timing: bench/make_frames.py FOLDER"""
import pathlib, random, struct, sys

def header(width, height, depth):
    field = bytearray(2048)
    field[0:4] = b'SDPX'
    struct.pack_into('>II', field, 772, width, height)
    struct.pack_into('>H', field, 770, 1)
    struct.pack_into('>BBBBHHI', field, 800, 50, 0, 0, depth, 1 if depth == 10 else 0, 0, 2048)
    return bytes(field)

random.seed(1)
for width, height in ((1920, 1080), (4096, 2160)):
    for depth in (10, 16):
        size = width * height * (4 if depth == 10 else 6)
        name = f'{width}x{height}_{depth}.dpx'
        (pathlib.Path(sys.argv[1]) / name).write_bytes(header(width, height, depth) + random.randbytes(size))
