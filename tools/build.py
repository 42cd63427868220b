#!/usr/bin/env python3
"""Builds a program with the crates that it stands on, each as soon as those below it are built: tools/build.py mmkv_main

A crate is proved as it is built, so a first build takes minutes. Standard error says how far it is. Where a crate isn't
built, the place of its log is named, and the status is 70, which no command of the program has.
"""
import os
import re
import shutil
import subprocess
import sys
import time
from pathlib import Path

TOP = Path(__file__).resolve().parent.parent
FAILED = 70
PROVED = re.compile(rb"^fn .*: proved", re.MULTILINE)
FUNCTION = re.compile(r"^\s*(?:pub(?:\(crate\))? )?(?:const )?fn \w", re.MULTILINE)


def crates():
    """The crates of this repository, and which of them each stands on."""
    lines = [line.partition(":") for line in (TOP / "crates.txt").read_text().splitlines() if line and not line.startswith("#")]
    named = {name.split()[0]: rest.split() for name, _, rest in lines}
    return {name: [it for it in below if it in named] for name, below in named.items()}


def stands_on(program, below):
    """The program and all crates below it."""
    found, left = set(), [program]
    while left:
        name = left.pop()
        if name not in found:
            found.add(name)
            left += below[name]
    return found


def heights(needed, below):
    """How many crates stand on each, one upon the other, at the most: what stands highest up waits for it longest."""
    found = {}

    def height(name):
        if name not in found:
            found[name] = max((1 + height(it) for it in needed if name in below[it]), default=0)
        return found[name]

    return {name: height(name) for name in needed}


class Build:
    """One crate that is being built."""

    def __init__(self, name, program, jobs):
        self.name, self.began = name, time.monotonic()
        self.folder = TOP / "crates" / name
        self.log = self.folder / "out" / "build.log"
        self.functions = sum(len(FUNCTION.findall(it.read_text())) for it in (self.folder / "src").rglob("*.rt"))
        self.log.parent.mkdir(exist_ok=True)
        words = ["rt", "run" if name == program else "lib", "--jobs", str(jobs)]
        with self.log.open("wb") as log:
            self.run = subprocess.Popen(words, cwd=self.folder, stdin=subprocess.DEVNULL, stdout=log, stderr=subprocess.STDOUT)

    def seconds(self):
        return int(time.monotonic() - self.began)

    def part(self):
        proved = len(PROVED.findall(self.log.read_bytes()))
        return f"{self.name} {min(proved, self.functions)}/{self.functions}"


def say(text, end="\n"):
    print(f"\r\x1b[K{text}" if sys.stderr.isatty() else text, end=end, file=sys.stderr, flush=True)


def build(program):
    """Builds all, and returns the status."""
    if not shutil.which("rt"):
        say("rt, the command of the toolchain, is not on the path")
        return FAILED
    below = crates()
    needed = stands_on(program, below)
    height = heights(needed, below)
    made = TOP / "crates" / program / "out" / program
    processors = len(os.sched_getaffinity(0))
    began, built, running = time.time(), set(), []
    made.unlink(missing_ok=True)
    say(f"building {len(needed)} crates with {processors} processors; the first time takes a while")
    while built != needed:
        under_way = {it.name for it in running}
        ready = [it for it in needed - built - under_way if set(below[it]) <= built]
        ready.sort(key=lambda it: (-height[it], it))
        for name in ready[: max(processors - len(running), 0)]:
            # (the crate for which most others wait may use each processor, and those beside it one)
            is_first = all(height[it] <= height[name] for it in under_way | set(ready))
            running.append(Build(name, program, processors if is_first else 1))
        if sys.stderr.isatty():
            say(f"{len(built)} of {len(needed)} built; " + ", ".join(it.part() for it in running), end="")
        time.sleep(0.2)
        for it in [it for it in running if it.run.poll() is not None]:
            running.remove(it)
            # (a program without words answers with a status of its own)
            if it.run.returncode and it.name != program or it.name == program and not made.exists():
                for other in running:
                    other.run.terminate()
                say(f"{it.name} could not be built; its log is {it.log}")
                return FAILED
            built.add(it.name)
            say(f"built {it.name}, {len(built)} of {len(needed)}, in {it.seconds()} s")
    folders = [TOP / "crates" / name / part for name in sorted(needed) for part in ("src", "specs", "proofs")]
    folders = [str(it.relative_to(TOP)) for it in folders if it.is_dir()]
    (made.parent / "stands_on").write_text("".join(f"{it}\n" for it in ["crates.txt", *folders]))
    # (what was changed meanwhile is newer than the program)
    os.utime(made, (began, began))
    say(f"built {program} in {(time.time() - began) / 60:.0f} min")
    return 0


if __name__ == "__main__":
    try:
        sys.exit(build(*sys.argv[1:]))
    except KeyboardInterrupt:
        # (the builds under way are of this terminal, and end with it)
        sys.exit(FAILED)
