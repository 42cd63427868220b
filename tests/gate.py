#!/usr/bin/env python3
"""Runs the gate and says what it cost: for each crate the minutes of its proof, of its tests and of its must-fail edits.

    tests/gate.py                        runs .ci/run as it stands
    tests/gate.py --log FILE             the same; FILE keeps the log (else it is gate.log in the folder of temporary files)
    tests/gate.py --read FILE            says it of a log that was kept
    tests/gate.py --functions CRATE      runs rt check in that crate with one job, and says which ten functions took longest

`rt ci` prints no times, and the lines of a proof all at once when it ends, so the lines alone tell only when it did. Therefore this script
also looks twice a second which provers run below the gate, and writes down when each began and ended: lines with an @ in the log. A crate's
proof and its tests run side by side with those of other crates, and edits fill what these leave free: the minutes of proofs and tests are
from begin to end, those of edits are the sum over all tries. The table is one for docs/DEVELOPING.md; functions are counted once for the
proof and once for the tests.

For the same reason no time of a single function can be had from the gate. `rt check` prints a line as it ends with each, so with one job
the time since the line before is that function's. A function that an earlier check has proved has no line: to see all, take the crate's
out/ away first.
"""
from __future__ import annotations

import argparse
import collections
import os
import re
import subprocess
import sys
import tempfile
import threading
import time
from dataclasses import dataclass, field
from typing import Dict, List, Optional, TextIO, Tuple

TOP = os.path.dirname(os.path.dirname(os.path.abspath(__file__)))
STAMPED = re.compile(r'^ *(\d+\.\d) (.*)$')

# a process: its number, and the moment at which it was started, since numbers come again
Process = Tuple[int, str]


class Log:
    """A log whose lines begin with the seconds since the run began."""

    def __init__(self, to: TextIO):
        self.to, self.began, self.alone = to, time.monotonic(), threading.Lock()

    def add(self, text: str) -> None:
        with self.alone:
            self.to.write(f'{time.monotonic() - self.began:9.1f} {text}\n')
            self.to.flush()


# ------------------------------------------------------------------------------------------------------------------------------------
# Which provers run


def stat_of(pid: int) -> Optional[Tuple[int, str]]:
    """The parent of a process, and when it was started."""
    try:
        with open(f'/proc/{pid}/stat', encoding='utf-8', errors='replace') as file:
            behind = file.read().rpartition(')')[2].split()
        return int(behind[1]), behind[19]
    except (OSError, IndexError, ValueError):
        return None


def below(root: int) -> Dict[int, Tuple[int, str]]:
    """The processes below one, each with its parent and its start."""
    every = {pid: stat_of(pid) for pid in (int(it) for it in os.listdir('/proc') if it.isdigit())}
    found: Dict[int, Tuple[int, str]] = {}
    left = [root]
    while left:
        parent = left.pop()
        for pid, stat in every.items():
            if stat and stat[0] == parent and pid not in found:
                found[pid] = stat
                left.append(pid)
    return found


def task_of(pid: int) -> Optional[str]:
    """What a process does where it is a prover: its kind of work, and the crate."""
    try:
        with open(f'/proc/{pid}/cmdline', 'rb') as file:
            words = file.read().decode(errors='replace').split('\0')
        place = os.readlink(f'/proc/{pid}/cwd')
    except OSError:
        return None
    if os.path.basename(words[0]) != 'rattle' or '--crate-name' not in words:
        return None
    crate = words[words.index('--crate-name') + 1]
    if '/rt-edit' in place:
        return f'edits {crate}'
    return f'{"tests" if "--test" in words else "proof"} {crate}'


def watch(root: int, log: Log, is_over: threading.Event) -> None:
    running: Dict[Process, str] = {}
    while not is_over.wait(0.5):
        found = below(root)
        provers = {pid: task for pid in found for task in [task_of(pid)] if task}
        # (a prover may have copies of itself work for it)
        now = {(pid, found[pid][1]): task for pid, task in provers.items() if found[pid][0] not in provers}
        for process, task in now.items():
            if process not in running:
                log.add(f'@begin {task} {process[0]}.{process[1]}')
        for process, task in running.items():
            if process not in now:
                log.add(f'@end {task} {process[0]}.{process[1]}')
        running = now


# ------------------------------------------------------------------------------------------------------------------------------------
# What a log says


@dataclass
class Cost:
    """What was seen of one crate: from when to when each kind of work went on, and what the gate said of it."""
    spans: Dict[str, List[Tuple[float, float]]] = field(default_factory=lambda: collections.defaultdict(list))
    said: Dict[str, int] = field(default_factory=collections.Counter)
    ended: Dict[str, float] = field(default_factory=dict)

    def minutes(self, kind: str) -> str:
        """From the first begin to the last end without the gaps between; of edits the sum of all."""
        spans = sorted(self.spans[kind])
        if kind != 'edits':
            spans = joined(spans)
        return f'{sum(end - begin for begin, end in spans) / 60:.1f}' if spans else '-'


def joined(spans: List[Tuple[float, float]]) -> List[Tuple[float, float]]:
    merged: List[Tuple[float, float]] = []
    for begin, end in spans:
        if merged and begin <= merged[-1][1]:
            merged[-1] = merged[-1][0], max(end, merged[-1][1])
        else:
            merged.append((begin, end))
    return merged


class Reading:
    """A log, read line by line."""

    def __init__(self) -> None:
        self.crates: Dict[str, Cost] = collections.defaultdict(Cost)
        self.begun: Dict[str, float] = {}
        self.functions: List[Tuple[float, str]] = []
        self.last: Optional[float] = None
        self.before: Optional[float] = None
        self.block = ''
        self.verdict: List[str] = []

    def line(self, text: str) -> None:
        stamped = STAMPED.match(text)
        at = float(stamped[1]) if stamped else None
        self.last = at if stamped else self.last
        self.content(stamped[2] if stamped else text, at)

    def content(self, text: str, at: Optional[float]) -> None:
        mark = re.match(r'@(begin|end) (proof|tests|edits) (\w+) (\S+)$', text)
        block = re.match(r'== (\w+)(: its tests)?$', text)
        ended = re.match(r'rt: (\w+)(: its tests are)? (proved|NOT PROVED)', text)
        edit = re.match(r'(?:rt: )?must-fail (\w+)/(\S+): (refused|[A-Z ]+)', text)
        kept = re.match(r'rt: (\w+) is kept', text)
        checked = re.match(r'checked (\S+), \d+ of \d+', text)
        if mark and at is not None:
            self.mark(*mark.groups(), at)
        elif block:
            self.block = block[1]
            self.crates[block[1]].said['tests' if block[2] else 'proofs'] += 1
        elif ended:
            cost = self.crates[ended[1]]
            cost.said['failed'] += ended[3] != 'proved'
            if at is not None:
                cost.ended['tests' if ended[2] else 'proof'] = at
        elif edit:
            self.crates[edit[1]].said['edits'] += 1
            self.crates[edit[1]].said['edits not refused'] += edit[3] != 'refused'
        elif kept:
            self.crates[kept[1]].said['kept'] += 1
        elif checked and at is not None:
            # (before the first of them the prover reads the crate)
            if self.before is not None:
                self.functions.append((at - self.before, checked[1]))
            self.before = at
        elif re.match(r'fn \S+: proved', text) and self.block:
            self.crates[self.block].said['functions'] += 1
        elif re.match(r'rt: (ok|FAILED)|\d+ passed, \d+ failed', text):
            self.verdict.append(text)

    def mark(self, way: str, kind: str, crate: str, process: str, at: float) -> None:
        if way == 'begin':
            self.begun[process] = at
        elif process in self.begun:
            self.crates[crate].spans[kind].append((self.begun.pop(process), at))


def told(reading: Reading) -> List[str]:
    lines = []
    if reading.crates:
        lines += ['| Crate | Proof | Tests | Edits | |', '|---|---|---|---|---|']
        for name, cost in reading.crates.items():
            minutes = ' | '.join(cost.minutes(kind) for kind in ('proof', 'tests', 'edits'))
            said = f'{cost.said["functions"]} functions, {cost.said["edits"]} edits'
            said += ', kept from an earlier run' if cost.said['kept'] else ''
            said += f', {cost.said["edits not refused"]} edits NOT REFUSED' if cost.said['edits not refused'] else ''
            said += ', NOT PROVED' if cost.said['failed'] else ''
            # (a log without the lines of begins and ends tells at least these)
            ends = ', '.join(f'{kind} ended at {at / 60:.1f}' for kind, at in cost.ended.items() if not cost.spans[kind])
            lines.append(f'| `{name}` | {minutes} | {said}{"; " + ends if ends else ""} |')
    if reading.last is None:
        lines.append('the log has no times: it was not kept by this script')
    else:
        lines.append(f'{reading.last / 60:.1f} minutes in all')
    slowest = sorted(reading.functions, reverse=True)[:10]
    if slowest:
        lines += ['the slowest functions:'] + [f'{seconds:8.1f} s  {name}' for seconds, name in slowest]
    return lines + reading.verdict


# ------------------------------------------------------------------------------------------------------------------------------------
# The commands


def run(words: List[str], folder: str, path: str) -> int:
    """Runs a command, shows what it prints, and keeps the log."""
    with open(path, 'w', encoding='utf-8') as to:
        log, is_over = Log(to), threading.Event()
        started = subprocess.Popen(words, cwd=folder, stdin=subprocess.DEVNULL, stdout=subprocess.PIPE, stderr=subprocess.STDOUT, text=True, errors='replace')
        watcher = threading.Thread(target=watch, args=(started.pid, log, is_over))
        watcher.start()
        for line in started.stdout:
            log.add(line.rstrip('\n'))
            print(line, end='', flush=True)
        status = started.wait()
        is_over.set()
        watcher.join()
        log.add(f'ended with status {status}')
    return status


def read(path: str) -> Reading:
    reading = Reading()
    with open(path, encoding='utf-8', errors='replace') as file:
        for line in file:
            reading.line(line.rstrip('\n'))
    return reading


def main() -> int:
    words = argparse.ArgumentParser(description='Runs the gate, and says what it cost.')
    words.add_argument('--log', default=os.path.join(tempfile.gettempdir(), 'gate.log'), help='the file that keeps the log')
    words.add_argument('--read', help='a log that was kept; nothing is run')
    words.add_argument('--functions', metavar='CRATE', help='runs rt check in this crate instead of the gate')
    asked = words.parse_args()
    status, path = 0, asked.read or asked.log
    if asked.functions:
        status = run(['rt', 'check', '--jobs', '1'], os.path.join(TOP, 'crates', asked.functions), path)
    elif not asked.read:
        status = run([os.path.join(TOP, '.ci', 'run')], TOP, path)
    print('\n'.join(told(read(path)) + ([] if asked.read else [f'the log is {path}'])))
    return status


if __name__ == '__main__':
    sys.exit(main())
