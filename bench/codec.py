#!/usr/bin/env python3
"""Times packing, decoding and the checksum beside a plain C program, in one run. See README.md.

Each program runs with its work done once and some more times, and the difference counts, so that making the data doesn't."""
from common import bench, head, tell

# the deed, what its size counts, and the sizes with how many more times each is done
deeds = [
    ('pack', 'pairs', [(10_000, 200), (100_000, 20)]),
    ('decode', 'pairs', [(10_000, 200), (100_000, 20)]),
    ('crc', 'bytes', [(1_677_721, 100), (16_777_216, 10)]),
]

runs = 9


def main():
    with bench('codec_bench', 'plain_codec.c') as both:
        head()
        for deed, unit, sizes in deeds:
            before = None
            for size, more in sizes:
                now = both.each([deed, str(size)], more, runs)
                tell(f'{deed} {size:,} {unit}', now, before)
                before = now


if __name__ == '__main__':
    main()
