#!/usr/bin/env python3
"""Plays random scripts over random small stores by the program and by the reference model, and says what differs.

    tests/random_scripts.py [--count N] [--seed S] [--program PATH]

A script has up to six openers, whose calls are begun while others run, wait and hold. The model plays along while the script is drawn, so
that most lines can be done; about one script in six goes on with a line that is refused, and a few are at a limit: of openers, of holds,
of lines and of bytes.
"""
from __future__ import annotations

import collections
import random
import struct
import sys
import zlib
from typing import Counter, List

from beside import Case, Ending, File, model, run
from random_stores import key, value

LAST = 0xFFFFFFFF


# ------------------------------------------------------------------------------------------------------------------------------------
# The store


def payload_of(draw: random.Random, expires: bool) -> bytes:
    """Items of few keys, with some removed, and once in a while one that nearly fills the page."""
    if draw.random() < 0.1:
        return b''
    payload = model.PREAMBLE
    for _ in range(draw.randint(0, 9)):
        name, text = key(draw), value(draw, expires)
        if not expires or not text or len(text) > 4:
            payload += model.varint(len(name)) + name + model.varint(len(text)) + text
    if draw.random() < 0.4:
        room = 4096 - 4 - len(payload) - 4 - draw.choice([0, 1, 5, 30, 200])
        if room > 200:
            text = bytes(draw.choices(range(256), k=room - 4)) + bytes(4)
            payload += b'\x01f' + model.varint(len(text)) + text
    return payload


def store(draw: random.Random) -> Case:
    """A store that shows a whole image, as a rule."""
    expires = draw.random() < 0.5
    if draw.random() < 0.12:
        return Case(File(b'', draw.choice([0, 4096, 8192])), draw.choice([None, File(b''), File(b'', 4096)]))
    payload = payload_of(draw, expires)
    size, checksum = len(payload), zlib.crc32(payload)
    last = draw.choice([(size, checksum), (4, zlib.crc32(payload[:4])), (0, 0), (LAST, 7)])
    sequence = LAST - draw.randrange(3) if draw.random() < 0.06 else draw.randrange(9)
    record = {0: checksum, 1: draw.choice([3, 4]), 2: sequence, 7: size, 8: last[0], 9: last[1], 26: int(expires)}
    if draw.random() < 0.03:
        record[draw.choice([0, 1, 7, 26])] = draw.choice([0, 2, 5, LAST])
    meta = bytearray(112)
    for word, content in record.items():
        struct.pack_into('<I', meta, 4 * word, content)
    data = struct.pack('<I', size if draw.random() < 0.9 else draw.randrange(5000)) + payload
    pages = -(-len(data) // 4096)
    return Case(File(data, 4096 * pages * draw.choice([1, 1, 1, 1, 2, 3])), File(bytes(meta), 4096))


# ------------------------------------------------------------------------------------------------------------------------------------
# The words of a line


def hexed(draw: random.Random, content: bytes) -> str:
    text = content.hex() or '-'
    return text.upper() if draw.random() < 0.1 else text


def moment(draw: random.Random) -> int:
    return draw.choice([0, LAST]) if draw.random() < 0.03 else draw.choice([1, 99, 100, 101, 1_764_633_599, 1_764_633_600])


def kind_and_value(draw: random.Random) -> str:
    kind = draw.choice(['bool', 'i32', 'u32', 'i64', 'u64', 'text', 'blob', 'raw', 'raw', 'raw'])
    if kind == 'bool':
        return f'bool {draw.choice(["true", "false"])}'
    if kind in ('text', 'blob', 'raw'):
        most = draw.choice([3, 9, 40, 400, 3000]) if draw.random() < 0.5 else 9
        content = bytes(draw.choices(range(256), k=draw.randint(1 if kind == 'raw' else 0, most)))
        return f'{kind} {hexed(draw, content)}'
    bits = int(kind[1:])
    low, high = (-(1 << bits - 1), (1 << bits - 1) - 1) if kind[0] == 'i' else (0, (1 << bits) - 1)
    return f'{kind} {draw.choice([low, high, 0, 127, 128, draw.randint(low, high)])}'


def call(draw: random.Random, is_holding: bool) -> str:
    name = draw.choice(['get', 'get', 'get', 'put', 'put', 'put', 'put', 'remove', 'keys', 'count', 'sync', 'clear', 'enable', 'disable', 'hold', 'release'])
    if name == 'release' and not is_holding:
        name = 'hold'
    if name in ('get', 'remove'):
        return f'{name} {hexed(draw, key(draw) or b"a")}'
    if name == 'put':
        seconds = draw.choice([0, 0, 0, 0, 1, 100, LAST])
        return f'put {hexed(draw, key(draw) or b"a")} {kind_and_value(draw)} {seconds}'
    if name == 'enable':
        return f'enable {draw.choice([0, 0, 1, 100, LAST])}'
    if name == 'clear' and draw.random() < 0.5:
        return 'keys'
    return name


def refused(draw: random.Random, openers: int) -> str:
    """A line that is none of the grammar, or that can't be done."""
    return draw.choice([
        'open', 'open Leave', 'open leave ', ' open leave', 'open leave leave', 'OPEN leave', 'step 1', 'step 1 0', 'step 1 1048577', 'step 01 1',
        f'step {openers + 1} 1', 'step 0 1', f'begin {openers + 1} 1 count', 'begin 0 1 count', 'begin 1 4294967296 count', 'begin 1 -1 count',
        'begin 1 1 get', 'begin 1 1 get 6', 'begin 1 1 get 6g', 'begin 1 1 get -', 'begin 1 1 get 61 62', 'begin 1 1 put 61 raw - 0',
        'begin 1 1 put - raw 61 0', 'begin 1 1 put 61 bool 1 0', 'begin 1 1 put 61 i32 2147483648 0', 'begin 1 1 put 61 i32 -0 0',
        'begin 1 1 put 61 u32 -1 0', 'begin 1 1 put 61 u64 18446744073709551616 0', 'begin 1 1 put 61 u32 007 0', 'begin 1 1 put 61 text abc 0',
        'begin 1 1 put 61 raw 61', 'begin 1 1 put 61 float 1 0', 'begin 1  1 count', 'begin 1 1 count\r', 'begin 1 1 enable',
        'begin 1 1 enable 4294967296', 'begin 1 1 enable 00', 'begin 1 1 enable 0 0', 'begin 1 1 disable 0', 'begin 1 1 Disable',
        f'die {openers + 1}', 'die 0', 'die', 'die 1 fffffff', 'die 1 fffffffg', 'die 1 1 1', 'call 1 1 count', 'count', 'begin 1 1 drop', '\x01', 'é',
    ])


# ------------------------------------------------------------------------------------------------------------------------------------
# The script


class Drawing:
    """A script as it is drawn, with the model in step."""

    def __init__(self, draw: random.Random, case: Case):
        self.draw = draw
        self.lines: List[str] = []
        # (how often a line is a death: never, or in some scripts)
        self.deaths = draw.choice([0.0, 0.0, 0.02, 0.05])
        data, meta = (file.start.ljust(file.size(), b'\0') if file else b'' for file in (case.data, case.meta))
        self.player = model.Player(model.Region(data, meta))
        # (a play ends where an image isn't whole: at its start, or as an opener comes upon it)
        self.is_whole = model.ended(lambda: model.play(data, meta, lambda: b''))[0] == 0

    def add(self, line: str) -> None:
        self.lines.append(line)
        if self.is_whole:
            try:
                self.player.play_line(model.parse_line(line.encode()))
            except model.Ended:
                self.is_whole = False

    def openers(self) -> int:
        return len(self.player.openers) if self.is_whole else 1

    def lives(self, who: int) -> bool:
        return not self.is_whole or self.player.openers[who - 1].alive

    def death(self) -> str:
        """Mostly of an opener whose call runs, and rather of the one that writes. Whoever comes next may see what it left."""
        living = [who for who in range(1, self.openers() + 1) if self.lives(who)]
        holder = self.player.region.exclusive
        who = holder if holder in living and self.draw.random() < 0.7 else self.draw.choice(living)
        return f'die {who}' + self.draw.choice(['', f' {self.draw.getrandbits(32):08x}', ' 00000000', ' FFFFFFFF'])

    def running(self) -> List[int]:
        return [opener.who for opener in self.player.openers if opener.running]

    def step(self) -> str:
        running = self.running()
        holder = self.player.region.exclusive
        if holder in running and self.draw.random() < 0.5:
            running = [holder]
        living = [who for who in range(1, self.openers() + 1) if self.lives(who)]
        who = self.draw.choice(running) if running and self.draw.random() < 0.95 else self.draw.choice(living)
        return f'step {who} {self.draw.choice([1, 1, 2, 3, 7, 20, 100_000, 1_048_576])}'

    def line(self) -> str:
        draw, running = self.draw, self.running()
        if self.openers() < 6 and draw.random() < 0.06 or not any(self.lives(who) for who in range(1, self.openers() + 1)):
            return f'open {draw.choice(["discard", "recover", "leave"])}'
        if draw.random() < self.deaths:
            return self.death()
        if draw.random() < 0.03:
            return draw.choice(['', '#', '# open leave', '#\x00\xff'])
        idle = [who for who in range(1, self.openers() + 1) if who not in running and self.lives(who)]
        holder = self.player.region.exclusive
        if holder in idle and running and draw.random() < 0.4:
            return f'begin {holder} {moment(draw)} release'
        if not self.is_whole or not idle or running and draw.random() < 0.6:
            return self.step()
        who = draw.choice(idle)
        return f'begin {who} {moment(draw)} {call(draw, self.player.openers[who - 1].holds > 0)}'

    def give_up_holds(self) -> None:
        """Ends the calls that run and the holds that stand, as far as this goes, so that others aren't blocked to the end."""
        for who in self.running():
            self.add(f'step {who} 100000')
        for opener in self.player.openers:
            while opener.alive and opener.holds and not opener.running and self.is_whole:
                self.add(f'begin {opener.who} {moment(self.draw)} release')
                self.add(f'step {opener.who} 1')

    def text(self) -> bytes:
        draw = self.draw
        for _ in range(draw.choice([1, 1, 2, 2, 3, 6])):
            self.add(f'open {draw.choice(["discard", "recover", "leave"])}')
        for _ in range(draw.choice([2, 10, 30, 60, 120])):
            self.add(self.line())
            if not self.is_whole and draw.random() < 0.3:
                break
            if draw.random() < 0.04:
                self.give_up_holds()
        if draw.random() < 0.16:
            self.lines.append(refused(draw, self.openers()))
            self.lines += ['step 1 1'] * draw.randrange(3)
        return ended_somehow(draw, self.lines)


def ended_somehow(draw: random.Random, lines: List[str]) -> bytes:
    text = b'\n'.join(line.encode('latin-1') for line in lines)
    return text + (b'\n' if draw.random() < 0.8 else b'')


def at_limit(draw: random.Random) -> bytes:
    """Scripts at the limits of openers, holds, lines and bytes. What is one too many is refused."""
    more = draw.randrange(2)
    way = draw.choice(['openers', 'holds', 'line', 'lines', 'bytes'])
    if way == 'openers':
        return b'open leave\n' * (64 + more)
    if way == 'holds':
        return b'open leave\n' + b'begin 1 1 hold\nstep 1 1\n' * (1000 + more) + b'begin 1 1 count\nstep 1 1000\n'
    if way == 'line':
        return b'open leave\n#'.ljust(11 + 65_536 + more, b'x') + b'\nopen leave\n'
    if way == 'lines':
        return b'\n' * ((1 << 20) - 1 + more) + b'open leave'
    return (b'#'.ljust(65_536, b'x') + b'\n') * 1023 + b'#'.ljust((1 << 26) - 1023 * 65_537 + more, b'x')


def case_of(seed: int) -> Case:
    draw = random.Random(f'script {seed}')
    case = store(draw)
    text = at_limit(draw) if draw.random() < 0.01 else Drawing(draw, case).text()
    return Case(case.data, case.meta, text)


def tell(ending: Ending) -> Counter[str]:
    """The lines that were printed, by their first word, and the changes by what they do."""
    if ending[0]:
        return collections.Counter()
    found: Counter[str] = collections.Counter()
    for line in ending[1].decode().split('\n'):
        words = line.split(' ')
        if words[0] in ('answer', 'blocked'):
            found[f'  lines {words[0]}'] += 1
        elif words[0] == 'stopped':
            found[f'  lines stopped {words[2]}'] += 1
        elif words[0] == 'change':
            found[f'  changes {words[3]}'] += 1
    return found


if __name__ == '__main__':
    sys.exit(run('scripts', case_of, tell))
