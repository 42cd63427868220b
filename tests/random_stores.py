#!/usr/bin/env python3
"""Dumps random stores by the program and by the reference model, and says what differs.

    tests/random_stores.py [--count N] [--seed S] [--program PATH]

Most stores are nearly valid: a payload of random items, perhaps cut or with a byte changed, whose size and checksum stand in the record,
as the header, as the last confirmed image, or nowhere. Others are any bytes, have odd lengths, lack a file, have a directory in its
place, or are at the limits of length.
"""
from __future__ import annotations

import collections
import random
import struct
import sys
import zlib
from typing import Counter, Dict, Optional

from beside import Case, Ending, File, run

CLOSED = 0xFFFFFFFF
LARGEST_DATA, LARGEST_META = 1 << 26, 1 << 16


def spelling(draw: random.Random, number: int, is_strict: bool) -> bytes:
    """A length, in more bytes than it needs once in a while."""
    groups = []
    while number >= 128 or not groups:
        groups.append(number % 128)
        number //= 128
    if number:
        groups.append(number)
    while not is_strict and len(groups) < 5 and draw.random() < 0.05:
        groups.append(0)
    return bytes([group + 128 for group in groups[:-1]] + groups[-1:])


def content(draw: random.Random, most: int) -> bytes:
    return bytes(draw.choices(range(256), k=draw.randint(0, most)))


def key(draw: random.Random) -> bytes:
    if draw.random() < 0.03:
        return content(draw, 300)
    return bytes(draw.choices(b'abc', k=draw.randint(1, 2)))


def value(draw: random.Random, expires: bool) -> bytes:
    """A value as it is stored: empty once in a while, and without room for its expiry once in a while where it has one."""
    if draw.random() < 0.15:
        return b''
    plain = content(draw, 300 if draw.random() < 0.05 else 9) or b'\0'
    if not expires:
        return plain
    if draw.random() < 0.02:
        return plain[:4]
    return plain + struct.pack('<I', draw.choice([0, 0, 1, 100, 1_764_633_600, CLOSED]))


def payload_of(draw: random.Random, expires: bool) -> bytes:
    """Random items behind what a payload begins with; nothing once in a while."""
    if draw.random() < 0.06:
        return b''
    is_strict = draw.random() < 0.7
    first = b'\xff\xff\xff\x07' if draw.random() < 0.8 else spelling(draw, draw.choice([0, 1, 127, 128, 1 << 20, (1 << 31) - 1]), False)
    parts = [first]
    for _ in range(draw.choice([0, 1, 2, 3, 5, 8, 20])):
        if draw.random() < 0.04:
            parts.append(spelling(draw, 0, is_strict))
            continue
        for text in (key(draw), value(draw, expires)):
            parts += [spelling(draw, len(text), is_strict), text]
    payload = b''.join(parts)
    if draw.random() < 0.12:
        payload = broken(draw, payload)
    if draw.random() < 0.05:
        payload = filling(draw, payload, expires)
    return payload


def broken(draw: random.Random, payload: bytes) -> bytes:
    """The payload cut, with bytes behind it, or with a byte changed. It may have items all the same."""
    way = draw.randrange(3)
    if way == 0:
        return payload[:draw.randint(0, len(payload))]
    if way == 1:
        return payload + draw.choice([b'\x80' * draw.randint(1, 6), content(draw, 6), b'\xff\xff\xff\xff\x0f'])
    return changed(draw, payload, len(payload))


def changed(draw: random.Random, data: bytes, within: int) -> bytes:
    """With one of the first bytes changed, so many."""
    if not within or not data:
        return data
    at = draw.randrange(min(within, len(data)))
    return data[:at] + bytes([draw.randrange(256)]) + data[at + 1:]


def filling(draw: random.Random, payload: bytes, expires: bool) -> bytes:
    """The payload with an item behind it that ends near a page's end."""
    tail = b'\0\0\0\0' if expires else b''
    room = 4096 - 4 - len(payload) - 4 - len(tail) + draw.randint(-3, 3)
    if room < 1 or room + len(tail) < 128:
        return payload
    text = bytes(room) + tail
    return payload + b'\x01z' + spelling(draw, len(text), True) + text


def words_of(draw: random.Random, payload: bytes, expires: bool) -> Dict[int, int]:
    """The header as word -1, and the words of the record."""
    size, checksum = len(payload), zlib.crc32(payload)
    odd = lambda: draw.choice([0, 4, size, max(size - 1, 0), size + 1, 4092, 4093, CLOSED, draw.randrange(5000)])
    sum_of = lambda: draw.choice([0, checksum, zlib.crc32(payload[:4]), draw.randrange(1 << 32)])
    words = {-1: odd(), 0: sum_of(), 7: odd(), 8: odd(), 9: sum_of()}
    shown = draw.random()
    if shown < 0.45:
        words.update({-1: size if draw.random() < 0.8 else odd(), 0: checksum, 7: size})
    elif shown < 0.65:
        words.update({-1: size, 0: checksum})
    elif shown < 0.85:
        words.update({8: size, 9: checksum})
    words[1] = draw.choice([3, 4]) if draw.random() < 0.93 else draw.choice([0, 1, 2, 5, draw.randrange(1 << 32)])
    words[2] = draw.choice([0, 1, 2, CLOSED, draw.randrange(1 << 32)])
    words[26] = int(expires) if draw.random() < 0.96 else draw.choice([2, 3, CLOSED])
    words[27] = 0 if draw.random() < 0.98 else draw.choice([1, CLOSED])
    if draw.random() < 0.04:
        words.update({-1: 0, 0: 0, 1: 0, 7: 0, 26: 0, 27: 0})
    return words


def near_valid(draw: random.Random) -> Case:
    expires = draw.random() < 0.4
    payload = payload_of(draw, expires)
    words = words_of(draw, payload, expires)
    data = struct.pack('<I', words[-1]) + payload
    meta = bytearray(112)
    for word in [3, 4, 5, 6, *range(10, 26)]:
        if draw.random() < 0.1:
            struct.pack_into('<I', meta, 4 * word, draw.randrange(1 << 32))
    for word in (0, 1, 2, 7, 8, 9, 26, 27):
        struct.pack_into('<I', meta, 4 * word, words[word])
    if draw.random() < 0.1:
        data = changed(draw, data, len(data))
    if draw.random() < 0.06:
        meta = changed(draw, bytes(meta), 112)
    return Case(lengthened(draw, data), lengthened(draw, bytes(meta)))


def lengthened(draw: random.Random, file: bytes) -> File:
    """To whole pages, as it is, to an odd length, or cut."""
    way = draw.random()
    if way < 0.6:
        return File(file, 4096 * (-(-len(file) // 4096)) * draw.choice([1, 1, 1, 2, 3]))
    if way < 0.8:
        return File(file)
    if way < 0.92:
        return File(file, len(file) + draw.randrange(5000))
    return File(file[:draw.randint(0, len(file))])


def any_bytes(draw: random.Random) -> Case:
    long = draw.random() < 0.2
    return Case(File(content(draw, 9000 if long else 130)), File(content(draw, 9000 if long else 130)))


def lacking(draw: random.Random) -> Case:
    """A missing file, or a directory in its place."""
    case = near_valid(draw)
    other: Optional[File] = None if draw.random() < 0.7 else File(b'', is_directory=True)
    return Case(other, case.meta) if draw.random() < 0.4 else Case(case.data, other)


def at_limits(draw: random.Random) -> Case:
    case = near_valid(draw)
    data, meta = case.data, case.meta
    if draw.random() < 0.6:
        data = File(data.start, LARGEST_DATA + draw.choice([-1, 0, 1, 4096]))
    if draw.random() < 0.6:
        meta = File(meta.start, LARGEST_META + draw.choice([-1, 0, 1, 4096]))
    return Case(data, meta)


def case_of(seed: int) -> Case:
    draw = random.Random(f'store {seed}')
    way = draw.random()
    if way < 0.10:
        return any_bytes(draw)
    if way < 0.15:
        return lacking(draw)
    if way < 0.16:
        return at_limits(draw)
    return near_valid(draw)


def tell(ending: Ending) -> Counter[str]:
    """What was shown, and whether it had pairs."""
    lines = ending[1].decode().split('\n')
    if ending[0] == 6:
        return collections.Counter({f'  {lines[0]}': 1})
    if ending[0]:
        return collections.Counter()
    shown = ' '.join(lines[3].split(' ')[:2])
    return collections.Counter({f'  {shown}': 1, '  pairs printed': int(lines[4].split(' ')[1])})


if __name__ == '__main__':
    sys.exit(run('stores', case_of, tell))
