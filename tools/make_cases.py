#!/usr/bin/env python3
"""Writes random cases in the format of README.md: make_cases.py SEED N [--graphs] [--proofs]

The cases of a seed are always the same. With --graphs there are no Go positions; with --proofs, questions that write and
check proof files stand among the others.
"""
import random
import sys

import reference

LAYERS = ['limit', 'limit limit', 'limit repeat limit', 'repeat limit', 'repeat limit', 'repeat limit', 'limit repeat', 'limit repeat']
GO_LAYERS = ['', '', '', 'repeat', 'limit', 'repeat limit']


def random_graph(rng):
    """Mostly a good graph; one in twenty-five has a fault somewhere."""
    size = rng.choice([rng.randint(1, 4), rng.randint(3, 8), rng.randint(6, 14), rng.randint(10, 24)])
    ends = rng.uniform(0.1, 0.35)
    near = rng.random() < 0.5
    target = lambda place: (place + rng.randint(-2, 3)) % size if near else rng.randrange(size)
    nodes = []
    for place in range(size):
        turn = rng.randint(0, 1)
        if place and rng.random() < ends:
            nodes.append([turn, rng.choice([0, 0, 1, 2, 2])])
        else:
            most = rng.choice([2, 2, 3, 4])
            nodes.append([turn, 255] + [target(place) for _ in range(rng.randint(1, most))])
    if rng.random() < 0.04:
        fault = rng.choice(['empty', 'long', 'turn', 'score', 'none', 'many', 'target', 'end'])
        node = rng.choice(nodes)
        if fault == 'empty':
            nodes = []
        elif fault == 'long':
            nodes = [rng.choice(nodes) for _ in range(65)]
        elif fault == 'turn':
            node[0] = 2
        elif fault == 'score':
            node[1] = rng.choice([3, 254])
        elif fault == 'none':
            node[1:] = [255]
        elif fault == 'many':
            node[1:] = [255, 0, 0, 0, 0, 0]
        elif fault == 'target':
            node[1:] = [255, size]
        else:
            node[1:] = [1, 0]
    return 'graph:' + ';'.join(','.join(map(str, node)) for node in nodes)


def random_go(rng):
    """A small board, mostly with few empty points; may be refused, and may be over."""
    size = rng.choice([3, 3, 3, 4])
    empty = rng.uniform(0.4, 0.9) if size == 3 else rng.uniform(0.35, 0.5)
    stones = ''.join('.' if rng.random() < empty else rng.choice('BW') for _ in range(size * size))
    text = 'G%d:%s:%s' % (size, rng.choice('BW'), stones)
    if rng.random() < 0.03:
        place = rng.randrange(len(text))
        text = rng.choice([text[:place], text[:place] + 'x' + text[place + 1:], text + '.'])
    return text


def random_layers(rng, kinds):
    limit = lambda: 'limit=%d' % rng.choice([rng.randint(0, 5), rng.randint(3, 9), rng.randint(6, 14), rng.randint(8, 20), 200])
    return [limit() if layer == 'limit' else layer for layer in rng.choice(kinds).split()]


def random_line(rng, game):
    """Mostly a legal line, and one move in fifty is any number."""
    line, state = [], game.start()
    while rng.random() < 0.55:
        v = game.view(state)
        if rng.random() < 0.02:
            return line + [rng.randint(0, 5)]
        if v.moves == 0:
            return line
        line.append(rng.randrange(v.moves))
        state = game.after(state, line[-1])
    return line


def random_budget(rng):
    return rng.choice([rng.randint(0, 12), rng.randint(0, 60), rng.randint(50, 400), 3000, 3000])


def random_proof(rng, session, line, floor):
    """The bytes of a proof, mostly with one byte changed, dropped or added."""
    try:
        state = session.at(line)
        _, data, _ = reference.write(session.game, reference.Table(0), state, floor, 2000, 200)
    except reference.Refused:
        data = bytes(rng.choice([0, 1, 2, 3, 128, 172]) for _ in range(rng.randint(0, 6)))
    way = rng.choice(['as it is', 'changed', 'cut', 'longer', 'stretched'])
    place = rng.randrange(len(data) + 1)
    if way == 'changed':
        data = data[:place] + bytes([rng.choice([0, 1, 2, 7, 128, 255])]) + data[place + 1:]
    elif way == 'cut':
        data = data[:place]
    elif way == 'longer':
        data = data + bytes([rng.choice([0, 1, 128])])
    elif way == 'stretched' and data[place:]:
        data = data[:place] + bytes([data[place] | 128, 0]) + data[place + 1:]
    return data


def random_question(rng, session, proofs):
    line = random_line(rng, session.game)
    where = ','.join(map(str, line)) or '-'
    floor = rng.choice([1, 1, 1, 2, 2, 2, 2, rng.randint(0, 3)])
    call = rng.choice(['solve', 'write', 'check']) if proofs else 'solve'
    if call == 'solve':
        return 'solve=%s/%d/%d' % (where, floor, random_budget(rng))
    if call == 'write':
        return 'write=%s/%d/%d/%d' % (where, floor, random_budget(rng), rng.choice([rng.randint(0, 8), 100]))
    data = random_proof(rng, session, line, rng.randint(1, 2))
    return 'check=%s/%s/%d' % (where, data.hex(), rng.choice([rng.randint(0, 6), 400]))


def random_case(rng, graphs, proofs):
    if graphs or rng.random() < 0.75:
        fields = [random_graph(rng)] + random_layers(rng, LAYERS)
    else:
        fields = [random_go(rng)] + random_layers(rng, GO_LAYERS)
    if rng.random() < 0.9:
        fields.append('slots=%d' % rng.choice([0, 1, 2, 3, rng.randint(4, 12), 101, 101, 1009, 1009]))
    try:
        session = reference.session_of(fields)
    except reference.NotAllowed:
        return fields + ['solve=-/1/0']
    return fields + [random_question(rng, session, proofs) for _ in range(rng.randint(1, 9))]


def main():
    rng = random.Random(int(sys.argv[1]))
    for _ in range(int(sys.argv[2])):
        print(' '.join(random_case(rng, '--graphs' in sys.argv, '--proofs' in sys.argv)))


if __name__ == '__main__':
    main()
