#!/usr/bin/env python3
"""Tries each misuse that the language refuses by its types: crates/NAME/misuse/*.edit, on a copy of the crates.

Such an edit has the lines of a must-fail edit, and a line 'refused: TEXT': the first error has to say TEXT. A must-fail edit
cannot show such a refusal, since it has to reach the prover, and the compiler is earlier.
"""
import shutil
import subprocess
import sys
import tempfile
from pathlib import Path

TOP = Path(__file__).resolve().parent.parent


def words(edit):
    """The lines of an edit that are read, each with its word."""
    for line in edit.read_text().splitlines():
        word, mark, text = line.partition(': ')
        if mark and word in ('file', 'old', 'new', 'refused'):
            yield word, text


def apply(edit, crate):
    """Applies an edit in a copy of its crate; returns what the refusal has to say."""
    place, old, refused = None, None, None
    for word, text in words(edit):
        if word == 'file':
            place = crate / text
        elif word == 'old':
            old = text
        elif word == 'new':
            source = place.read_text()
            if source.count(old) != 1:
                sys.exit(f'{edit.name}: its old text stands in {place.name} {source.count(old)} times, and not once')
            place.write_text(source.replace(old, text))
        else:
            refused = text
    return refused


def first_error(crate):
    """What the compiler refuses first; nothing where it refuses nothing."""
    run = subprocess.run(['rt', 'try'], cwd=crate, stdin=subprocess.DEVNULL, capture_output=True, text=True, timeout=300)
    said = run.stdout + run.stderr
    return next((line for line in said.splitlines() if 'error' in line), '') if run.returncode == 1 else ''


def main():
    edits = sorted(TOP.glob('crates/*/misuse/*.edit'))
    for edit in edits:
        with tempfile.TemporaryDirectory() as folder:
            copy = Path(folder)
            shutil.copy(TOP / 'crates.txt', copy)
            shutil.copytree(TOP / 'crates', copy / 'crates', ignore=shutil.ignore_patterns('out'))
            crate = copy / 'crates' / edit.parent.parent.name
            refused = apply(edit, crate)
            said = first_error(crate)
        if not refused or refused not in said:
            sys.exit(f'misuse {edit.name}: not refused as it has to be: {said or "no error"}')
        print(f'misuse {edit.name}: refused, as it has to be: {said}')


main()
