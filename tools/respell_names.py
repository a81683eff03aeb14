#!/usr/bin/env python3
"""Turns the names of this repository's own definitions and lemmas to today's spelling: words in snake case, types and facts in
camel case. It was run once, right after the kit's port.py; docs/PORT.md says what came of it.

    respell_names.py [--dry] [TOP]

A name is one that some .antt file of specs/ or proofs/ declares, but not the name of a goal (`returns : goal.returns`), which
Rattle makes. Names that a library has under the same spelling are left alone. In comments only names in camel case and facts are
turned, since a small word with a dash may be plain English there; in README and docs/ what stands in backquotes. Functions
of src/, strings, inputs and outputs keep their names.
"""
import pathlib
import re
import sys

WORD = re.compile(r"[^\s(){}\[\],;.:«»`\"]+")
DECLARED = re.compile(r"^(\s*)((?:abbrev|unfoldable|pub|record|data|ruleset|axiom)\s+)*([^\s:(){},;.]+)\s*(?:\([^)]*\)\s*|\{[^}]*\}\s*)*:(?![:=])(.*)$")
IMPORT = re.compile(r"^\s*(?:pub )?use (?!Rattle\.(?!std\b))\S+\.\{([^}]*)\}")
ODD = re.compile(r"-|[a-z0-9][A-Z]")


# names that would fall together with another or with a word of the library, and what they are called instead: a lemma beside its
# function gets `_lem`
APART = {
    'end-good': 'end_good_lem',
    'node-good': 'node_good_lem',
    'first-bad': 'first_bad_lem',
    'all_live': 'all_live_lem',
    'back-answer': 'back_answer_lem',
    'moves-left': 'moves_left_lem',
    'refused-by': 'refused_by_lem',
    'sameKey': 'same_keys',
    'Is-none': 'IsAbsent',
}

# names that no declaration of this form shows: those after `as`, and variables
OTHERS = """
Right-search at-is b-is back-goes back-same before-is bufferAfter checkOf enough-plays g-on is-e is-k is-next is-pair judged-there
less-deep low-y mine-is n-is next-is none-q on-b on-f on-foe on-own on-s on-w open-yet own-after q-free q-on q-still s-is same-e
same-game same-k same-pair same-x solveNumber solveOf t-is test-true theirs-is taking-back tried-held true-here w-is writeOf x-is
""".split()


def snake(name):
    """An own name as it is spelled today."""
    if name in APART:
        return APART[name]
    if name[0].isupper():
        return ''.join(p[:1].upper() + p[1:] for p in name.split('-')) if '-' in name else name
    parts = re.sub(r"(?<=[a-z0-9])([A-Z])(?=[a-z0-9]|$)", lambda m: '_' + m.group(1).lower(), name)
    return parts.replace('-', '_')


def comment(line, mark):
    """The place where a comment begins, or the line's length."""
    at = line.find(mark) if mark == '//' else (0 if line.lstrip().startswith('--') else line.find(' -- '))
    return len(line) if at < 0 else at


def main():
    words = [w for w in sys.argv[1:] if w != '--dry']
    top = pathlib.Path(words[0] if words else '.')
    files = [p for p in sorted(top.glob('crates/*/*/**/*')) if p.suffix in ('.antt', '.rt') and 'out' not in p.relative_to(top).parts]
    own, library = {}, set()
    for p in files:
        for line in p.read_text().split('\n'):
            m = IMPORT.match(line)
            if m:
                library |= {w.strip().split(' as ')[0] for w in m.group(1).split(',')}
            m = DECLARED.match(line) if p.suffix == '.antt' else None
            if m and (ODD.search(m.group(3)) or m.group(3) in APART) and not m.group(4).strip().startswith('goal.') and not m.group(3)[0].isdigit():
                own.setdefault(m.group(3), p)
    for n in OTHERS:
        own.setdefault(n, files[0])
    both = sorted(n for n in own if n in library)
    for n in both:
        print(f'left, since a library has it: {n} ({own[n].relative_to(top)})')
    turned = {n: snake(n) for n in own if n not in library and snake(n) != n}
    seen = {}
    for p in files:
        for line in p.read_text().split('\n'):
            for w in WORD.findall(line):
                seen.setdefault(w, p)
    back = {}
    for n, t in sorted(turned.items()):
        if t in seen or t in back:
            print(f'falls together: {n} -> {t} ({own[n].relative_to(top)}; {(seen.get(t) or own[back.get(t, n)]).relative_to(top)})')
        back[t] = n
    print(f'{len(turned)} names turned')
    if '--dry' in sys.argv:
        return
    for p in files:
        mark = '//' if p.suffix == '.rt' else '--'
        made = []
        for line in p.read_text().split('\n'):
            at = comment(line, mark)
            code = WORD.sub(lambda m: turned.get(m.group(), m.group()), line[:at])
            if p.suffix == '.rt' and '"' in line:
                code = line[:at]
            said = WORD.sub(lambda m: m.group() if re.match('[^A-Z].*-', m.group()) else turned.get(m.group(), m.group()), line[at:])
            made.append(code + said)
        p.write_text('\n'.join(made))
    for p in [top / 'README.md', *sorted(top.glob('docs/*.md'))]:
        if p.is_file():
            p.write_text(re.sub(r'`[^`\n]+`', lambda q: WORD.sub(lambda m: turned.get(m.group(), m.group()), q.group()), p.read_text()))


main()
