#!/usr/bin/env python3
"""Prints the table of lines that differ, each pixel beside the one whose channels are its halves, with exact integers."""
FRACTION = 32

# The codes of six pixels at ten bits, line by line, two a line.
CODES = [(1023, 0, 512), (1, 2, 3), (4, 1020, 341), (682, 1022, 7), (0, 511, 1023), (100, 333, 900)]


def rnd(n, d):
    return (2 * n + d) // (2 * d)


def half(code):
    raw = rnd(rnd(code * 2**FRACTION, 1023) * 2 ** (FRACTION - 1), 2**FRACTION)
    return rnd(raw * 1023, 2**FRACTION)


def word(codes):
    red, green, blue = codes
    return red << 22 | green << 12 | blue << 2


def print_words(name, pixels):
    words = ", ".join("0x%08X" % word(pixel) for pixel in pixels)
    print("pub static %s: [u32; %d] = [\n    %s,\n];" % (name, len(pixels), words))


def main():
    print("file: crates/rows/src/tables.rt")
    print("//! Printed by tools/rows_tables.py.\n")
    print("/// Words of pixels of ten bits.")
    print_words("PIXELS", CODES)
    print("\n/// The words of the pixels whose channels are their halves.")
    print_words("HALVES", [[half(code) for code in codes] for codes in CODES])


if __name__ == "__main__":
    main()
