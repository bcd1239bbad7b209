#!/usr/bin/env python3
"""Prints the headers that are written for two images, as runs of equal bytes.

A row is a run: how many bytes, and which byte. A header is made from the byte ranges of SMPTE 268M, field by field,
without the program. All numbers are most significant byte first, and a number that has no value is all ones.
"""


def header(width, height, depth):
    out = bytearray(2048)

    def number(at, size, value):
        out[at:at + size] = value.to_bytes(size, 'big')

    def ones(first, past):
        out[first:past] = b'\xff' * (past - first)

    pixel = 4 if depth == 10 else 6
    out[0:4] = b'SDPX'
    number(4, 4, 2048)                              # offset to image data
    out[8:12] = b'V1.0'
    number(16, 4, 2048 + width * height * pixel)    # total image file size
    number(20, 4, 1)                                # ditto key
    number(24, 4, 1664)                             # generic section header length
    number(28, 4, 384)                              # industry specific header length
    ones(660, 664)                                  # encryption key
    number(770, 2, 1)                               # number of image elements
    number(772, 4, width)
    number(776, 4, height)
    ones(788, 792)                                  # reference low quantity represented
    number(792, 4, 2 ** depth - 1)                  # reference high data code value
    ones(796, 800)                                  # reference high quantity represented
    out[800] = 50                                   # descriptor
    out[803] = depth                                # bit size
    number(804, 2, 1 if depth == 10 else 0)         # packing
    number(808, 4, 2048)                            # offset to data
    for k in range(7):                              # image elements 1 to 7, but for their descriptions
        ones(852 + 72 * k, 892 + 72 * k)
    ones(1408, 1432)                                # offsets, centers and original sizes
    ones(1620, 1636)                                # border validity, pixel aspect ratio
    ones(1712, 1732)                                # frame position to shutter angle
    ones(1920, 1972)                                # television, but for its reserved bytes
    return bytes(out)


def runs(data):
    found = []
    for byte in data:
        if found and found[-1][1] == byte:
            found[-1][0] += 1
        else:
            found.append([1, byte])
    return found


def table(name, comment, *image):
    rows = runs(header(*image))
    print(f'// {comment}\nstatic {name}: [(usize, u8); {len(rows)}] = [')
    for count, byte in rows:
        print(f'    ({count}, 0x{byte:02X}),')
    print('];\n')


def main():
    print('file: crates/file_rows/src/images.rt')
    table('ONE_PIXEL', 'The header of one pixel of ten bits as runs of equal bytes.', 1, 1, 10)
    table('SIX_PIXELS', 'The same for three pixels by two of sixteen bits.', 3, 2, 16)


main()
