#!/usr/bin/env python3
"""Times the stores of appends and of write-backs beside a plain C program, in one run. See README.md.

Both programs make a region in memory, and in it the words of one append or of one write-back, each with an event in a list beside it.
A region of its own for each time is part of the work. Each program runs with its work done once and some more times, and the
difference counts, so that making the data doesn't."""
from common import bench, head, tell

# sizes in bytes, with how many more times each is done
sizes = [(104_857, 100), (1_048_576, 10)]

runs = 9


def main():
    with bench('stores_bench', 'plain_stores.c') as both:
        head()
        for deed in ['append', 'write_back']:
            before = None
            for size, more in sizes:
                now = both.each([deed, str(size)], more, runs)
                tell(f'{deed} of {size:,} bytes', now, before)
                before = now


if __name__ == '__main__':
    main()
