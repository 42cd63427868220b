#!/usr/bin/env python3
"""Times `play` beside a plain C program on scripts of 25,000, 100,000 and 400,000 puts and gets by one opener, in one run. See README.md.

Both programs read the same two files and the same script. Every other call is a put of a small value, on a store of 1,000 pairs, so
that an append makes 8 events and the journal's limit of 4,194,304 is far; about every 2,000 puts fill the file, and the pairs are
written anew. What each program takes on a script without calls is taken off."""
import os
import random

from common import bench, head, tell
from dump import store

# the keys that the store has, and how many more the scripts name
had, named = 1_000, 1_100

counts = [(25_000, 7), (100_000, 5), (400_000, 3)]


def script(count):
    """A script of so many calls, every other a put. Its steps are more than a call takes, also where the pairs are written anew."""
    draw = random.Random(count)
    lines = ['open leave']
    for i in range(count):
        key = (b'key%06d' % draw.randrange(named)).hex()
        call = f'get {key}' if i % 2 else f'put {key} u32 {draw.randrange(128, 16384)} 0'
        lines += [f'begin 1 {i} {call}', 'step 1 100000']
    return ''.join(line + '\n' for line in lines)


def main():
    with bench('mmkv_main', 'plain_play.c') as both:
        words = [both.folder, 'play', 's'], [both.folder, 's']
        path = os.path.join(both.folder, 'script')
        store(both.folder, 's', had)

        def played(count, runs):
            with open(path, 'w') as text:
                text.write(script(count))
            return both.beside(*words, runs, path)

        bare = played(0, 15)
        head()
        before = None
        for count, runs in counts:
            now = played(count, runs).less(bare)
            tell(f'play of {count:,} calls', now, before)
            before = now


if __name__ == '__main__':
    main()
