#!/usr/bin/env python3
"""Writes an example image to a path, or beside this script: examples/make_images.py IMAGE [PATH]

in.dpx is one pixel of ten bits with the codes 1023, 0, 512. ramp.dpx has 1,920 by 1,080 pixels: red rises along each
line, green down the lines, blue along both. scene.dpx has 480 by 270 pixels as a camera with a logarithmic curve would give
them: a sky over a field, the sun, and patches of grey and of colours.
"""
import math, pathlib, struct, sys

NONE = b'\xff' * 4

def header(width, height):
    """The header of SMPTE 268M for an image of R, G and B at ten bits, filled by method A."""
    fields = {
        0: b'SDPX' + struct.pack('>I', 2048) + b'V1.0\0\0\0\0' + struct.pack('>I', 2048 + 4 * width * height),
        20: struct.pack('>4I', 1, 1664, 384, 0),
        660: NONE,                                        # encryption key
        768: struct.pack('>HHII', 0, 1, width, height),   # orientation, elements, pixels per line, lines
        780: struct.pack('>II', 0, 0) + NONE + struct.pack('>I', 1023) + NONE,
        800: bytes([50, 0, 0, 10]) + struct.pack('>HHIII', 1, 0, 2048, 0, 0),
        1408: NONE * 6,
        1620: NONE * 4,
        1712: NONE * 5,
        1920: NONE * 13,
    }
    fields.update({852 + 72 * k: NONE * 10 for k in range(7)})   # the elements that are not there
    out = bytearray(2048)
    for at, content in fields.items():
        out[at:at + len(content)] = content
    return bytes(out)

def image(width, height, pixel):
    words = (r << 22 | g << 12 | b << 2 for y in range(height) for r, g, b in (pixel(x, y) for x in range(width)))
    return header(width, height) + struct.pack(f'>{width * height}I', *words)

PATCHES = [(.44, .32, .27), (.77, .59, .51), (.36, .48, .61), (.35, .42, .26), (.84, .49, .17), (.28, .36, .65), (.76, .33, .38), (.37, .24, .42)]

def light(x, y):
    """The light of red, green and blue at a place of the scene."""
    if 200 <= y < 255 and 20 <= x < 460:
        column, at = (x - 20) // 55, (x - 20) % 55
        if at < 48:
            grey = 0.9 * 0.6 ** column
            return [c ** 2.4 for c in PATCHES[column]] if y < 228 else [grey] * 3
    sun = math.exp(-((x - 350) ** 2 + (y - 70) ** 2) / 900)
    if y < 150:
        share = y / 150
        return [a + (b - a) * share + s * sun for a, b, s in [(.08, .55, .9), (.2, .6, .8), (.55, .7, .5)]]
    share = (y - 150) / 120
    wave = 0.02 * math.sin(x / 9 + y / 5)
    return [a + (b - a) * share + wave for a, b in [(.16, .05), (.22, .09), (.05, .03)]]

def scene(x, y):
    """The codes of a logarithmic curve over two decades, with a straight line at its foot."""
    curve = (10 * l if l < 0.01 else 1 + math.log10(l) / 2 for l in light(x, y))
    return tuple(round(1023 * min(max(c, 0), 1)) for c in curve)

IMAGES = {
    'in.dpx': lambda: image(1, 1, lambda x, y: (1023, 0, 512)),
    'scene.dpx': lambda: image(480, 270, scene),
    'ramp.dpx': lambda: image(1920, 1080, lambda x, y: (x * 1023 // 1919, y * 1023 // 1079, (x + y) % 1024)),
}

if len(sys.argv) not in (2, 3) or sys.argv[1] not in IMAGES:
    sys.exit(__doc__)
path = pathlib.Path(sys.argv[2]) if len(sys.argv) == 3 else pathlib.Path(__file__).parent / sys.argv[1]
path.write_bytes(IMAGES[sys.argv[1]]())
