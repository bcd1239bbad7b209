#!/usr/bin/env python3
"""Writes texts of 1, 4 and 16 MiB of each sort into a folder, for timing: bench/make_texts.py FOLDER

names: names with a blank or a line feed behind each. comments: comments of both forms. text: one text in quotes.
number: one number with zeros in front. digits: one run of digits, which is no number. functions: many functions.
"""
import pathlib, random, string, sys

def names(size):
    words = [''.join(random.choices(string.ascii_lowercase, k=random.randint(2, 12))) + ' ' for _ in range(4000)]
    words[::9] = [word[:-1] + '\n' for word in words[::9]]
    return ''.join(random.choices(words, k=size // 7))[:size]

def comments(size):
    one = '// up to the end of the line\n/* up to a mark, * or / alone is none */\n'
    return (one * (size // len(one))).ljust(size)

def text(size):
    return '"' + 'a' * (size - 2) + '"'

def number(size):
    return '1.0'.rjust(size, '0')

def digits(size):
    return '7' * size

def functions(size):
    one = ('float f{}(float x, float y[2]) {{\n'
           '  float a[2] = {{ x * 0.5 + y[0], pow(x, 2.2) - y[1] }};\n'
           '  for (int i = 0; i < 4; i = i + 1) {{ if (a[0] > x && i != 2) a[1] = -a[0]; else a[0] = a[1] * (x + 1.0); }}\n'
           '  return a[0] / (a[1] + 0.25);\n'
           '}}\n')
    parts, length = [], 0
    while True:
        part = one.format(len(parts))
        if length + len(part) > size:
            return ''.join(parts).ljust(size)
        parts.append(part)
        length += len(part)

random.seed(1)
for sort in (names, comments, text, number, digits, functions):
    for mib in (1, 4, 16):
        (pathlib.Path(sys.argv[1]) / f'{sort.__name__}_{mib}.txt').write_text(sort(mib << 20))
