#!/usr/bin/env python3
"""Times `dump` beside a plain C program on stores of 1,000, 100,000 and 1,000,000 small pairs, in one run. See README.md.

What each program takes on a store without pairs is taken off."""
import os
import random
import struct
import zlib

from common import bench, head, tell

counts = [(1_000, 15), (100_000, 7), (1_000_000, 3)]


def length(n):
    spelled = b''
    while n >= 128:
        spelled += bytes([n % 128 + 128])
        n //= 128
    return spelled + bytes([n])


def store(folder, name, count):
    """Makes a store of so many pairs in no order, and gives the size of its payload."""
    draw = random.Random(count)
    keys = [b'key%06d' % i for i in range(count)]
    draw.shuffle(keys)
    items = [b'\xff\xff\xff\x07']
    for key in keys:
        value = b'\x08' + b'%08d' % draw.randrange(10**8)
        items += [length(len(key)), key, length(len(value)), value]
    payload = b''.join(items)
    pages = (4 + len(payload) + 4095) // 4096
    body = struct.pack('<I', len(payload)) + payload
    meta = struct.pack('<III', zlib.crc32(payload), 3, 1) + bytes(16)
    meta += struct.pack('<III', len(payload), 4, zlib.crc32(payload[:4]))
    with open(os.path.join(folder, name), 'wb') as file:
        file.write(body.ljust(4096 * pages, b'\0'))
    with open(os.path.join(folder, name + '.crc'), 'wb') as file:
        file.write(meta.ljust(4096, b'\0'))
    return len(payload)


def main():
    with bench('mmkv_main', 'plain_dump.c') as both:
        words = [both.folder, 'dump', 's'], [both.folder, 's']
        store(both.folder, 's', 0)
        bare = both.beside(*words, 15)
        head()
        before = None
        for count, runs in counts:
            payload = store(both.folder, 's', count)
            now = both.beside(*words, runs).less(bare)
            tell(f'dump of {count:,} pairs in {payload:,} bytes', now, before)
            before = now
        tell('dump of a store without pairs', bare)


if __name__ == '__main__':
    main()
