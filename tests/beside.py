"""The program beside the reference model: what tests/random_scripts.py and tests/random_stores.py share.

A case is the two files of a store and, for `play`, a script. Each case is drawn from a number of its own, its seed, so that a run can go on
where another ended, and any case can be made again alone.
"""
from __future__ import annotations

import argparse
import base64
import collections
import gzip
import os
import subprocess
import sys
import tempfile
from dataclasses import dataclass, replace
from typing import Callable, Counter, List, Optional, Tuple

TOP = os.path.dirname(os.path.dirname(os.path.abspath(__file__)))
sys.path.insert(0, os.path.join(TOP, 'tests', 'reference'))

import play as model  # noqa: E402

PROGRAM = os.path.join(TOP, 'crates', 'mmkv_main', 'out', 'mmkv_main')

# a status, and the bytes of standard output
Ending = Tuple[int, bytes]


@dataclass(frozen=True)
class File:
    """A file: its first bytes, and its length where zeros follow them. A directory in its place can be opened, but not read."""
    start: bytes
    length: int = 0
    is_directory: bool = False

    def size(self) -> int:
        return max(len(self.start), self.length)

    def write(self, path: str) -> None:
        if self.is_directory:
            os.mkdir(path)
            return
        with open(path, 'wb') as file:
            file.write(self.start)
            file.truncate(self.size())


@dataclass(frozen=True)
class Case:
    """A store, of which a file may be missing, and a script, or None where the store is dumped."""
    data: Optional[File]
    meta: Optional[File]
    script: Optional[bytes] = None

    def words(self, folder: str) -> List[str]:
        return [folder, 'dump' if self.script is None else 'play', 's']

    def place(self, folder: str) -> None:
        for name, file in [('s', self.data), ('s.crc', self.meta)]:
            if file:
                file.write(os.path.join(folder, name))


def by_program(program: str, case: Case) -> Ending:
    with tempfile.TemporaryDirectory() as folder:
        case.place(folder)
        done = subprocess.run([program] + case.words(folder), input=case.script or b'', stdout=subprocess.PIPE, stderr=subprocess.PIPE)
        return done.returncode, done.stdout


def by_model(case: Case) -> Ending:
    with tempfile.TemporaryDirectory() as folder:
        case.place(folder)

        def lines() -> List[str]:
            data, meta = model.bring(os.fsencode(folder), b's')
            if case.script is None:
                return model.dump(data, meta)
            return model.play(data, meta, lambda: case.script)

        return model.ended(lines)


# ------------------------------------------------------------------------------------------------------------------------------------
# What is said of a case that differs


def smaller(case: Case, differs: Callable[[Case], bool]) -> Case:
    """The case with as few lines of its script as still differ."""
    if case.script is None:
        return case
    lines = case.script.split(b'\n')
    part = len(lines) // 2
    while part:
        at = 0
        while at < len(lines):
            fewer = lines[:at] + lines[at + part:]
            if differs(replace(case, script=b'\n'.join(fewer))):
                lines = fewer
            else:
                at += part
        part //= 2
    return replace(case, script=b'\n'.join(lines))


def here_document(data: bytes, to: str) -> str:
    packed = base64.encodebytes(gzip.compress(data, mtime=0)).decode()
    return f"base64 -d <<'END' | gzip -d >{to}\n{packed}END\n"


def file_lines(name: str, file: Optional[File]) -> str:
    if not file:
        return ''
    if file.is_directory:
        return f'mkdir "$folder/{name}"\n'
    return here_document(file.start, f'"$folder/{name}"') + f'truncate -s {file.size()} "$folder/{name}"\n'


def replay(case: Case, seed: int) -> str:
    """A script of bash that makes the case again and shows what differs. It runs at the top of the repository."""
    verb = case.words('')[1]
    return (
        '#!/usr/bin/env bash\n'
        f'# the case of seed {seed}: run this at the top of the repository; a program of another place is named as its word\n'
        'folder=$(mktemp -d)\n'
        + file_lines('s', case.data)
        + file_lines('s.crc', case.meta)
        + here_document(case.script or b'', '"$folder/script"')
        + f'"${{1:-crates/mmkv_main/out/mmkv_main}}" "$folder" {verb} s <"$folder/script" >"$folder/program"; echo "status $?" >>"$folder/program"\n'
        f'tests/reference/play.py "$folder" {verb} s <"$folder/script" >"$folder/model"; echo "status $?" >>"$folder/model"\n'
        'diff "$folder/program" "$folder/model" && echo "no difference"\n'
    )


# ------------------------------------------------------------------------------------------------------------------------------------
# A run over many cases


def first_words(ending: Ending) -> str:
    """What an ending counts as in the figures: its status, with the first words of a refusal."""
    status, text = ending
    word = b' '.join(text.split(b'\n')[0].split(b' ')[:1]).decode(errors='replace') if status else ''
    return f'{status} {word}'.strip()


def run(what: str, case_of: Callable[[int], Case], tell: Callable[[Ending], Counter[str]]) -> int:
    """Runs as many cases as were asked for, and returns the status: 1 where one of them differs."""
    words = argparse.ArgumentParser(description=f'Runs random {what} on the program and on the reference model, and says what differs.')
    words.add_argument('--count', type=int, default=1000, help='how many (1000)')
    words.add_argument('--seed', type=int, default=0, help='the number of the first, each other has the next (0)')
    words.add_argument('--program', default=PROGRAM, help='the program, where it is not the one of crates/mmkv_main/out')
    asked = words.parse_args()
    if not os.path.exists(asked.program):
        sys.exit('there is no program yet; first: ./mmkv examples/stores dump settings')
    found: Counter[str] = collections.Counter()
    differing = 0
    for seed in range(asked.seed, asked.seed + asked.count):
        case = case_of(seed)
        ours, theirs = by_program(asked.program, case), by_model(case)
        found[first_words(theirs)] += 1
        found += tell(theirs)
        if ours != theirs:
            differing += 1
            least = smaller(case, lambda it: by_program(asked.program, it) != by_model(it))
            print(replay(least, seed), flush=True)
    print(f'{asked.count} {what}, seeds {asked.seed} to {asked.seed + asked.count - 1}: {differing} differ')
    for name, count in sorted(found.items()):
        print(f'{count:8} {name}')
    return 1 if differing else 0
