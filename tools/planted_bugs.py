#!/usr/bin/env python3
"""The table of docs/PLANTED_BUGS.md: every must-fail edit, what refused it, and since when it is tried.

    planted_bugs.py LOG > TABLE       LOG is what a run of the gate printed
"""
import pathlib
import re
import subprocess
import sys

TOP = pathlib.Path(__file__).resolve().parent.parent


def fields(edit):
    """The old and the new texts of an edit."""
    lines = [line.split(': ', 1) for line in edit.read_text().rstrip('\n').split('\n')]
    texts = {kind: [line[1] if len(line) > 1 else '' for line in lines if line[0].rstrip(':') == kind] for kind in ('old', 'new')}
    return texts['old'], texts['new']


def refusals(log):
    """Where the prover refused each edit first: the place and the goal."""
    found = {}
    for line in log.read_text().split('\n'):
        m = re.match(r'rt: must-fail (\w+)/(\w+)\.edit: refused, as it must be: (?:\w+: )?(?:\./)?((?:src|proofs)/\S+?):\d+:\d+: (.*)', line)
        if m:
            goal = re.search(r'\(`([^`]*)`\)', m.group(4))
            found[m.group(1, 2)] = f'`{m.group(3)}`: ' + (f'goal `{goal.group(1)}`' if goal else m.group(4))
    return found


def since(edit):
    found = subprocess.run(['git', 'log', '--follow', '--diff-filter=A', '--format=%as', '--', str(edit)], cwd=TOP, capture_output=True, text=True)
    return (found.stdout.split() or ['new'])[-1]


def code(text):
    return '`' + text.strip().replace('|', '\\|') + '`' if text.strip() else 'nothing'


def main():
    refused = refusals(pathlib.Path(sys.argv[1]))
    crates = [line.split(':')[0] for line in (TOP / 'crates.txt').read_text().split('\n') if ':' in line and not line.startswith('#')]
    for crate in crates:
        edits = sorted((TOP / 'crates' / crate / 'must-fail').glob('*.edit'))
        if not edits:
            continue
        print(f'\n### {crate}\n\n| edit | in place of | planted | refused by | since |\n|---|---|---|---|---|')
        for edit in edits:
            old, new = (' and '.join(map(code, texts)) for texts in fields(edit))
            label = edit.stem.replace('_', ' ')
            by = refused.get((crate, edit.stem), 'not tried')
            print(f'| {label} | {old} | {new} | {by} | {since(edit)} |')


main()
