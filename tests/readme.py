#!/usr/bin/env python3
"""Runs the examples of README.md and docs/*.md, and looks at what these pages name.

    tests/readme.py [--program PATH]

An example is a block that begins with ```console. Its lines with `$ ` in front are commands, those with `> ` go on with the command above,
and the others are what the command prints, byte for byte. `./mmkv` stands for the program. The commands run at the top of the repository,
those of a block in one shell.

It also looks whether each relative link leads to a file and to a heading of it, whether each file that is named is there, whether each name
of code in docs/PROVED.md and docs/DEFINITIONS.md stands in some crate, and whether the drawing is what its script draws.
"""
from __future__ import annotations

import argparse
import glob
import os
import re
import subprocess
import sys
from typing import Iterator, List, Set, Tuple

TOP = os.path.dirname(os.path.dirname(os.path.abspath(__file__)))
PROGRAM = 'crates/mmkv_main/out/mmkv_main'
MARK = '@@ the next command @@'

# pages whose names of code are looked up, and where these may stand
OF_CODE = ('docs/PROVED.md', 'docs/DEFINITIONS.md')

# names with a stroke begin with one of these where they are files
FOLDERS = ('bench', 'crates', 'docs', 'examples', 'tests', 'tools', '.ci')

# what a program or a run leaves, and a page may name before it is there
MADE = re.compile(r'(^|/)out(/|$)')


def pages() -> List[str]:
    return ['README.md', 'bench/README.md'] + sorted(os.path.relpath(it, TOP) for it in glob.glob(f'{TOP}/docs/*.md'))


def read(page: str) -> str:
    with open(os.path.join(TOP, page), encoding='utf-8') as file:
        return file.read()


# ------------------------------------------------------------------------------------------------------------------------------------
# Examples


def examples(text: str) -> Iterator[List[Tuple[str, str]]]:
    """Each block as its commands, each with what it prints."""
    for block in re.findall(r'^```console\n(.*?)^```', text, re.S | re.M):
        commands: List[Tuple[str, str]] = []
        for line in block.splitlines():
            if line.startswith('$ '):
                commands.append((line[2:], ''))
            elif line.startswith('> '):
                commands[-1] = (commands[-1][0] + '\n' + line[2:], '')
            else:
                commands[-1] = (commands[-1][0], commands[-1][1] + line + '\n')
        yield commands


def run_block(program: str, commands: List[Tuple[str, str]]) -> List[str]:
    """What each command of a block prints."""
    between = f'\n{{ was=$?; echo "{MARK}"; (exit $was); }}\n'
    script = between.join(command.replace('./mmkv ', f'{program} ') for command, _ in commands) + '\n'
    done = subprocess.run(['bash', '-c', script], cwd=TOP, stdout=subprocess.PIPE, stderr=subprocess.STDOUT)
    return done.stdout.decode(errors='replace').split(MARK + '\n')


def wrong_examples(page: str, program: str) -> Iterator[str]:
    for commands in examples(read(page)):
        for (command, wanted), found in zip(commands, run_block(program, commands)):
            if found != wanted:
                yield f'{page}: {command}\n--- wanted\n{wanted}--- printed\n{found}---'


# ------------------------------------------------------------------------------------------------------------------------------------
# Links and names


def anchors(page: str) -> Set[str]:
    heads = re.findall(r'^#+ (.*)$', read(page), re.M)
    return {re.sub(r'[^\w\- ]', '', head.lower()).replace(' ', '-') for head in heads}


def broken_links(page: str) -> Iterator[str]:
    for link in re.findall(r'\]\(([^)\s]+)\)', read(page)):
        if re.match(r'[a-z]+:', link):
            continue
        path, _, anchor = link.partition('#')
        to = os.path.normpath(os.path.join(os.path.dirname(page), path)) if path else page
        if not os.path.exists(os.path.join(TOP, to)):
            yield f'{page}: the link {link} leads nowhere'
        elif anchor and anchor not in anchors(to):
            yield f'{page}: the link {link} names no heading'


def is_there(page: str, name: str) -> bool:
    """A file of that name, with `*` for any part and NAME for any crate."""
    pattern = name.replace('NAME', '*')
    if '/' not in name and glob.glob(f'{TOP}/crates/*/*/{pattern}'):
        return True
    return any(glob.glob(os.path.join(TOP, base, pattern)) for base in ('', os.path.dirname(page), 'crates'))


def prose(page: str) -> str:
    """The page without its blocks."""
    return re.sub(r'^```.*?^```', '', read(page), flags=re.S | re.M)


def missing_files(page: str) -> Iterator[str]:
    for name in re.findall(r'`([\w./*-]+)`', prose(page)):
        is_path = name.split('/')[0] in FOLDERS and '/' in name or re.search(r'\w\.(rt|antt|py|md|svg)$', name)
        if is_path and not MADE.search(name) and not is_there(page, name.rstrip('/')):
            yield f'{page}: there is no {name}'


def words_of_code() -> Set[str]:
    found: Set[str] = set()
    for kind in ('src', 'specs', 'proofs'):
        for file in glob.glob(f'{TOP}/crates/*/{kind}/**/*', recursive=True):
            if file.endswith(('.rt', '.antt')):
                with open(file, encoding='utf-8') as text:
                    found.update(re.findall(r'\w+', text.read()))
                found.add(os.path.basename(file).split('.')[0])
    return found | set(os.listdir(f'{TOP}/crates')) | {'src', 'specs', 'proofs'}


def unknown_names(page: str, known: Set[str]) -> Iterator[str]:
    for name in re.findall(r'`([A-Za-z][\w:./]*)`', prose(page)):
        if name.split('/')[0] in FOLDERS:
            continue
        for word in re.split(r'::|/|\.', name):
            if word and word not in known and not re.fullmatch(r'rt|antt|must|fail', word):
                yield f'{page}: no crate knows {name}'


# ------------------------------------------------------------------------------------------------------------------------------------


def main() -> int:
    words = argparse.ArgumentParser(description='Runs the examples of the pages, and looks at what these name.')
    words.add_argument('--program', default=PROGRAM, help='the program, from the top of the repository on')
    asked = words.parse_args()
    if not os.path.exists(os.path.join(TOP, asked.program)):
        sys.exit('there is no program yet; first: ./mmkv examples/stores dump settings')
    faults, count, known = [], 0, words_of_code()
    for page in pages():
        count += sum(len(commands) for commands in examples(read(page)))
        faults += [*wrong_examples(page, asked.program), *broken_links(page), *missing_files(page)]
        if page in OF_CODE:
            faults += unknown_names(page, known)
    drawn = subprocess.run([os.path.join(TOP, 'tests/format_drawing.py'), '--check'], stderr=subprocess.PIPE, text=True)
    faults += [drawn.stderr.strip()] if drawn.returncode else []
    print('\n'.join(faults + [f'{len(pages())} pages, {count} commands: {len(faults)} faults']))
    return 1 if faults else 0


if __name__ == '__main__':
    sys.exit(main())
