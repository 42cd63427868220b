"""What the benchmarks share: the programs, the best of several runs, and the lines of ratios.

Ours and the plain program run by turns, so that a busy machine slows both. Of a number of runs the least time counts, and the greatest
peak memory."""
import contextlib
import os
import subprocess
import sys
import tempfile
from typing import NamedTuple

top = os.path.dirname(os.path.dirname(os.path.abspath(__file__)))


class Took(NamedTuple):
    """Seconds of the processor and by the clock, the peak memory in bytes, and what was printed."""
    processor: float
    wall: float
    peak: int
    text: bytes

    def less(self, rest):
        """Without what another run took too. The peak stays."""
        return self._replace(processor=self.processor - rest.processor, wall=self.wall - rest.wall)

    def split(self, times):
        return self._replace(processor=self.processor / times, wall=self.wall / times)


class Beside(NamedTuple):
    """What ours took and what the plain program did."""
    ours: Took
    plain: Took

    def less(self, rest):
        return Beside(self.ours.less(rest.ours), self.plain.less(rest.plain))

    def split(self, times):
        return Beside(self.ours.split(times), self.plain.split(times))


class Bench:
    def __init__(self, crate, source, folder):
        self.folder = folder
        self.program = os.path.join(top, 'crates', crate, 'out', crate)
        if not os.path.exists(self.program):
            sys.exit(f'first: cd crates/{crate} && rt run')
        self.measure = self.build('measure.c')
        self.plain = self.build(source)

    def build(self, source):
        built = os.path.join(self.folder, source.split('.')[0])
        subprocess.run(['gcc', '-O2', '-o', built, os.path.join(top, 'bench', source), '-lz'], check=True)
        return built

    def run(self, words, path):
        with open(path or os.devnull, 'rb') as text:
            done = subprocess.run([self.measure] + words, stdin=text, capture_output=True)
        if done.returncode:
            sys.exit(f'{words} answered {done.returncode}')
        processor, wall, peak = done.stderr.split()
        return Took(float(processor), float(wall), int(peak) * 1024, done.stdout)

    def beside(self, ours, plain, runs, path=None):
        """The best of so many runs of each program with its words; both must print the same."""
        pairs = [(self.run([self.program] + ours, path), self.run([self.plain] + plain, path)) for _ in range(runs)]
        both = Beside(*(best(took) for took in zip(*pairs)))
        if both.ours.text != both.plain.text:
            sys.exit(f'the two programs print different lines: {ours}')
        return both

    def each(self, words, more, runs):
        """What doing it once takes, by so many more times of it. The words end in the number of times."""
        once = self.beside(words + ['1'], words + ['1'], runs)
        often = self.beside(words + [str(1 + more)], words + [str(1 + more)], runs)
        return often.less(once).split(more)


def best(took):
    return Took(min(t.processor for t in took), min(t.wall for t in took), max(t.peak for t in took), took[0].text)


@contextlib.contextmanager
def bench(crate, source):
    """A benchmark of a crate's program beside a plain one, in a folder of its own."""
    with tempfile.TemporaryDirectory() as folder:
        yield Bench(crate, source, folder)


def head():
    print('| Work | Ours, ms | Plain, ms | Ratio | By the clock | Ours, MB | Plain, MB | Growth |')
    print('|---|---|---|---|---|---|---|---|', flush=True)


def tell(work, now, before=None):
    """A row: the times of the processor, how many times the plain program's ours is, the same by the clock, the peaks of memory, and how
    many times as long as the row before ours takes, beside how many times as long the plain program does."""
    ours, plain = now
    cells = [work, milliseconds(ours), milliseconds(plain), ratio(ours.processor, plain.processor), ratio(ours.wall, plain.wall)]
    cells += [f'{took.peak / 1e6:.1f}' for took in now]
    cells += [f'{grown(ours, before.ours):.1f} beside {grown(plain, before.plain):.1f}' if before else '']
    print('| ' + ' | '.join(cells) + ' |', flush=True)


def ratio(ours, plain):
    """Nothing where other work on the machine leaves no difference to look at."""
    return f'{ours / plain:.1f}' if ours > 0 and plain > 0 else ''


def milliseconds(took):
    return f'{1000 * took.processor:.2f}'


def grown(now, before):
    return now.processor / before.processor
