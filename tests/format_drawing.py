#!/usr/bin/env python3
"""Draws the two files of a store: docs/format.svg, which docs/FORMAT.md shows.

    tests/format_drawing.py            writes the drawing
    tests/format_drawing.py --check    says whether the drawing there is this one
"""
import os
import sys

TO = os.path.join(os.path.dirname(os.path.dirname(os.path.abspath(__file__))), 'docs', 'format.svg')

WIDTH, HEIGHT, LEFT, TALL = 960, 430, 20, 46
PLAIN, UNREAD = '#ffffff', '#eeeeee'
RECORD, LAST, PAYLOAD = '#cfe3f7', '#f9dfc0', '#dcefd6'

# what stands there, how wide it is drawn, its colour, and the byte at which it begins
DATA = [
    ('header', 'n', 110, RECORD, '0'),
    ('heading', 'FF FF FF 07', 130, PAYLOAD, '4'),
    ('items', 'key length, key, value length, value; and so on', 410, PAYLOAD, '8'),
    ('unread', 'whatever is left, to the end of the last page', 270, UNREAD, '4 + n'),
]

META = [
    ('checksum', 'word 0', 92, RECORD, '0'),
    ('version', '1', 70, PLAIN, '4'),
    ('sequence', '2', 78, PLAIN, '8'),
    ('unread', '3 to 6', 76, UNREAD, '12'),
    ('size', '7', 64, RECORD, '28'),
    ('last size', '8', 84, LAST, '32'),
    ('last checksum', '9', 118, LAST, '36'),
    ('unread', '10 to 25', 96, UNREAD, '40'),
    ('flags', '26, 27', 82, PLAIN, '104'),
    ('unread', 'to the end', 160, UNREAD, '112'),
]

IMAGES = [
    (RECORD, 'the record\u2019s image: as many payload bytes as word 7 says, with the checksum of word 0'),
    (RECORD, 'the header\u2019s image: as many as the header says, with the checksum of word 0'),
    (LAST, 'the last confirmed image: as many as word 8 says, with the checksum of word 9'),
]


def text(x, y, words, size=13, anchor='middle', weight='normal', fill='#222222'):
    return f'<text x="{x}" y="{y}" font-size="{size}" text-anchor="{anchor}" font-weight="{weight}" fill="{fill}">{words}</text>'


def box(x, y, wide, colour):
    return f'<rect x="{x}" y="{y}" width="{wide}" height="{TALL}" fill="{colour}" stroke="#444444"/>'


def file_row(title, y, parts, end):
    """The boxes of a file, each with the byte at which it begins above its left edge."""
    drawn, x = [text(LEFT, y - 26, title, 15, 'start', 'bold')], LEFT
    for name, words, wide, colour, at in parts:
        drawn += [text(x, y - 5, at, 11, 'start', fill='#666666'), box(x, y, wide, colour)]
        drawn += [text(x + wide / 2, y + 20, name, 13, weight='bold'), text(x + wide / 2, y + 37, words, 11)]
        x += wide
    return drawn + [text(x, y - 5, end, 11, 'end', fill='#666666')]


def bracket(from_x, to_x, y, words):
    middle = (from_x + to_x) / 2
    line = f'<path d="M {from_x} {y} v 8 H {to_x} v -8" fill="none" stroke="#444444"/>'
    return [line, text(middle, y + 24, words, 12)]


def drawing():
    lines = [
        f'<svg xmlns="http://www.w3.org/2000/svg" viewBox="0 0 {WIDTH} {HEIGHT}" width="{WIDTH}" height="{HEIGHT}" font-family="sans-serif">',
        '<title>The two files of a store</title>',
        f'<rect width="{WIDTH}" height="{HEIGHT}" fill="{PLAIN}"/>',
    ]
    lines += file_row('ID, the data file', 58, DATA, 'length')
    lines += bracket(LEFT + 110, LEFT + 650, 58 + TALL + 4, 'payload of n bytes')
    lines += file_row('ID.crc, the meta file: words of four bytes, lowest byte first', 208, META, 'length')
    lines.append(text(LEFT, 304, 'Three images may stand in the data file; the first of them that agrees with its checksum is shown:', 13, 'start'))
    for place, (colour, words) in enumerate(IMAGES):
        y = 322 + 28 * place
        lines += [f'<rect x="{LEFT}" y="{y}" width="18" height="18" fill="{colour}" stroke="#444444"/>', text(LEFT + 28, y + 14, words, 13, 'start')]
    return '\n'.join(lines + ['</svg>']) + '\n'


def main():
    if sys.argv[1:] == ['--check']:
        with open(TO, encoding='utf-8') as file:
            return 0 if file.read() == drawing() else f'{TO} is not what this script draws'
    with open(TO, 'w', encoding='utf-8') as file:
        file.write(drawing())
    return 0


if __name__ == '__main__':
    sys.exit(main())
