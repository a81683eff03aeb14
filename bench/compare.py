"""Compares the verified programs with the hand-written baseline: equal counts, rates and ratios.

    compare.py BASELINE PROGRAMS CARDS SLOTS

`search_lab` does nothing but the search; `cards` settles the card, writes its proof and checks it twice, and the baseline
does the same when it is asked for a whole card. The measure is the processor's time, the least of some runs, less that of
the same run with a budget of 0, which is what starting and clearing the table cost.
"""
import os
import platform
import re
import resource
import subprocess
import sys

RUNS = 5
BUDGET = 4294967295
TABLES = '6 by 6 capture race'  # the card of the table sizes: it settles with every size


def cards_of(path):
    """Name, position, limit or None, floor."""
    for line in open(path):
        if line.strip() and not line.startswith('#'):
            name, _, words = line.strip().partition(': ')
            position, *words = words.split()
            given = dict(word.split('=') for word in words)
            yield name, position, given.get('limit'), given.get('floor', '2')


def run(command, text):
    before = resource.getrusage(resource.RUSAGE_CHILDREN)
    ran = subprocess.run(command, input=text, capture_output=True, text=True)
    after = resource.getrusage(resource.RUSAGE_CHILDREN)
    if ran.returncode != 0:
        sys.exit(f'{command} ended with status {ran.returncode}:\n{ran.stdout}{ran.stderr}')
    return ran.stdout, after.ru_utime + after.ru_stime - before.ru_utime - before.ru_stime


def measured(program, pattern):
    """What the program counted, and its seconds of the processor less those of a run with budget 0."""
    found, full = None, []
    for _ in range(RUNS):
        out, seconds = run(*program(BUDGET))
        found = re.search(pattern, out, re.MULTILINE | re.DOTALL)
        if not found:
            sys.exit(f'{program(BUDGET)} tells no counts:\n{out}')
        full.append(seconds)
    empty = [run(*program(0))[1] for _ in range(RUNS)]
    return tuple(map(int, found.groups())), max(min(full) - min(empty), 1e-6)


class Bench:
    def __init__(self, baseline, programs):
        self.baseline = baseline
        self.lab = os.path.join(programs, 'search_lab', 'out', 'search_lab')
        self.cards = os.path.join(programs, 'cards', 'out', 'cards')

    def plain(self, position, limit, floor, slots, card):
        words = [self.baseline, position, floor, str(slots)]
        pattern = r'^(?:yes|no) \d+ (\d+)$' + (r'.*^proof (\d+) (\d+)$' if card else '')
        return measured(lambda budget: (words + [str(budget), limit or '-'] + ['card'] * card, ''), pattern)

    def search(self, position, limit, floor, slots):
        layer = f' limit={limit}' if limit else ''
        case = f'{position}{layer} slots={slots} solve=-/{floor}/'
        return measured(lambda budget: ([self.lab], f'{case}{budget}\n'), r'^(?:yes|no) \d+ (\d+)$')

    def whole(self, position, limit, floor, slots):
        layer = f' limit={limit}' if limit else ''
        card = f'{position}{layer} floor={floor} slots={slots} budget='
        pattern = r'^card 1: .*?, bytes (\d+), plays (\d+)$.*^ +solved \w+, move \d+, plays (\d+)$'
        (length, checked, solved), seconds = measured(lambda budget: ([self.cards], f'{card}{budget}\n'), pattern)
        return (solved, length, checked), seconds


def same(what, mine, theirs):
    if mine != theirs:
        sys.exit(f'{what}: the counts differ, {mine} and {theirs}, so the two did not do the same work')


def rate(plays, seconds):
    return f'{plays / seconds / 1e6:.1f}'


def main():
    baseline, programs, path, slots = sys.argv[1:]
    bench = Bench(baseline, programs)
    model = next((line.split(':')[1].strip() for line in open('/proc/cpuinfo') if line.startswith('model name')), platform.machine())
    print(f'{model}, {os.cpu_count()} cores; {slots} slots; millions of plays a second of the processor\n')
    print('| card | plays | baseline | search | ratio | whole card, baseline s | `cards` s | ratio |')
    print('|---|---|---|---|---|---|---|---|')
    for name, position, limit, floor in cards_of(path):
        (plays,), plain = bench.plain(position, limit, floor, slots, False)
        (found,), ours = bench.search(position, limit, floor, slots)
        same(name, found, plays)
        theirs, slow = bench.plain(position, limit, floor, slots, True)
        mine, whole = bench.whole(position, limit, floor, slots)
        same(name, mine, theirs)
        print(f'| {name} | {plays:,} | {rate(plays, plain)} | {rate(plays, ours)} | {plain / ours:.2f} '
              f'| {slow:.2f} | {whole:.2f} | {slow / whole:.2f} |', flush=True)
    name, position, limit, floor = next(card for card in cards_of(path) if card[0] == TABLES)
    print(f'\n{name}: nanoseconds a play as the table grows\n\n| slots | plays | baseline | search |\n|---|---|---|---|')
    for power in range(10, 23, 2):
        (plays,), plain = bench.plain(position, limit, floor, 2**power, False)
        (found,), ours = bench.search(position, limit, floor, 2**power)
        same(f'2^{power} slots', found, plays)
        print(f'| 2^{power} | {plays:,} | {plain / plays * 1e9:.0f} | {ours / plays * 1e9:.0f} |', flush=True)


main()
