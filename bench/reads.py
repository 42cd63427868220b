#!/usr/bin/env python3
"""Times reads of one opener between appends of another beside a plain C program, on stores of 10,000 and 100,000 pairs, in one run. See
README.md.

Both programs read the same two files and the same script: opener 2 puts a small value, and opener 1 reads a key, so that each read finds
one more append and goes on from the image that it keeps. A script of the same puts without the reads is taken off, and of the reads too,
but for the first, which loads the store whole; so what counts is the reads alone."""
import os
import random

from common import bench, head, tell
from dump import store

# the pairs that a store has
counts = [10_000, 100_000]

reads, runs = 100_000, 7

# how many of a store's keys are put and read: so few that they stay in the processor's caches, in a store of either size
used = 100

# bytes that are added to the file, so that no append makes the pairs be written anew
room = 1 << 22


def script(pairs, rounds, reading):
    """So many rounds of a put of a key that is there, each with a read of another behind it where they are asked for."""
    draw = random.Random(pairs)
    lines = ['open leave', 'open leave']
    for who in (1, 2):
        lines += [f'begin {who} 0 get {key_of(draw, pairs)}', f'step {who} 1000000']
    for i in range(rounds):
        lines += [f'begin 2 {i} put {key_of(draw, pairs)} u32 {draw.randrange(128, 16384)} 0', 'step 2 1000000']
        read = [f'begin 1 {i} get {key_of(draw, pairs)}', 'step 1 1000000']
        lines += read if reading else []
    return ''.join(line + '\n' for line in lines)


def key_of(draw, pairs):
    """One of the keys in use, which lie evenly among all."""
    return (b'key%06d' % (draw.randrange(used) * (pairs // used))).hex()


def main():
    with bench('mmkv_main', 'plain_play.c') as both:
        words = [both.folder, 'play', 's'], [both.folder, 's']
        path = os.path.join(both.folder, 'script')

        def played(pairs, reading):
            with open(path, 'w') as text:
                text.write(script(pairs, reads, reading))
            return both.beside(*words, runs, path)

        head()
        before = None
        for pairs in counts:
            store(both.folder, 's', pairs)
            with open(os.path.join(both.folder, 's'), 'ab') as file:
                file.write(bytes(room))
            now = played(pairs, True).less(played(pairs, False))
            tell(f'{reads:,} reads between appends, {pairs:,} pairs', now, before)
            before = now


if __name__ == '__main__':
    main()
