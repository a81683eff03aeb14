#!/usr/bin/env python3
"""A plain reference of the games, the layers, the stores, the search and the proof files.

It is written from the rules alone, without a look at the verified code, in the most direct way: a game gives an immutable
state for each line, and a view of each state; nothing is updated in place. README.md beside it has the format of the cases.

    reference.py < CASES       prints an answer for each question of each case
    reference.py --examples    runs the worked examples
    reference.py --values      as the first, and compares each verdict with the plain value of the game tree, where that is small
"""
import sys
from collections import Counter, namedtuple

MOST, INF = 1_048_575, 1_048_576
BLACK, WHITE = 0, 1
MASK64 = 2**64 - 1

View = namedtuple('View', 'turn moves score a b context level independent')


class NotAllowed(Exception):
    """A position that is refused: number and place."""


# Games. start() is the state of the empty line, after(state, k) that of the line with k appended, view(state) what is told.

class Graph:
    def __init__(self, nodes):
        if not nodes:
            raise NotAllowed(15, 0)
        if len(nodes) > 64:
            raise NotAllowed(15, 64)
        for place, (turn, score, targets) in enumerate(nodes):
            good = turn in (0, 1) and (
                (score == 255 and 1 <= len(targets) <= 4) or (score in (0, 1, 2) and not targets))
            if not good or any(t >= len(nodes) for t in targets[:4]):
                raise NotAllowed(15, place)
        self.nodes = nodes

    def start(self):
        return 0

    def after(self, node, k):
        return self.nodes[node][2][k]

    def view(self, node):
        turn, score, targets = self.nodes[node]
        return View(turn, len(targets), None if score == 255 else score, node, 0, 0, 0, True)


class Go:
    def __init__(self, text):
        self.size = 0
        self.read(text)
        size = self.size
        self.beside = [[q for q, near in ((p - size, p >= size), (p + size, p < size * size - size),
                                          (p - 1, p % size > 0), (p + 1, p % size < size - 1)) if near]
                       for p in range(size * size)]
        self.views = {}
        board, _ = self.first
        for p in range(size * size):
            if board[p] != '.' and not self.liberties(board, p):
                raise NotAllowed(15, p)

    def read(self, text):
        def want(place, allowed):
            if place >= len(text) or text[place] not in allowed:
                raise NotAllowed(14, place)
            return text[place]
        want(0, 'G')
        self.size = int(want(1, '34567'))
        want(2, ':')
        side = BLACK if want(3, 'BW') == 'B' else WHITE
        want(4, ':')
        points = self.size * self.size
        for p in range(points):
            want(5 + p, '.BW')
        if len(text) > 5 + points:
            raise NotAllowed(14, 5 + points)
        self.first = (text[5:], side)

    def group(self, board, point):
        """The stones joined with the one on the point."""
        found, todo = {point}, [point]
        while todo:
            for q in self.beside[todo.pop()]:
                if board[q] == board[point] and q not in found:
                    found.add(q)
                    todo.append(q)
        return found

    def liberties(self, board, point):
        return {q for p in self.group(board, point) for q in self.beside[p] if board[q] == '.'}

    def legal(self, board, side):
        """The points that the side may fill, in order."""
        own, enemy = ('B', 'W') if side == BLACK else ('W', 'B')
        points = []
        for p, stone in enumerate(board):
            if stone == '.':
                filled = board[:p] + own + board[p + 1:]
                takes = any(filled[q] == enemy and not self.liberties(filled, q) for q in self.beside[p])
                if takes or self.liberties(filled, p):
                    points.append(p)
        return points

    def told(self, state):
        """The legal points and the view of a state."""
        if state not in self.views:
            board, side = state
            own = 'BW'[side]
            dead = any(stone == own and not self.liberties(board, p) for p, stone in enumerate(board))
            points = [] if dead else self.legal(board, side)
            score = None if points else (0 if side == BLACK else 2)
            black = sum(1 << p for p, stone in enumerate(board) if stone == 'B')
            white = sum(1 << p for p, stone in enumerate(board) if stone == 'W')
            view = View(side, len(points), score, black, white + (side << 49), 0, board.count('.'), True)
            self.views[state] = points, view
        return self.views[state]

    def start(self):
        return self.first

    def after(self, state, k):
        board, side = state
        p = self.told(state)[0][k]
        return board[:p] + 'BW'[side] + board[p + 1:], 1 - side

    def view(self, state):
        return self.told(state)[1]


class Repeat:
    """A draw where the position words are those of a prefix. The state has the words and levels of the prefixes."""

    def __init__(self, below):
        self.below = below

    def start(self):
        return self.below.start(), ()

    def after(self, state, k):
        below, prefixes = state
        v = self.below.view(below)
        return self.below.after(below, k), prefixes + ((v.a, v.b, v.level),)

    def view(self, state):
        below, prefixes = state
        v = self.below.view(below)
        if v.score is None and any((v.a, v.b) == (a, b) for a, b, _ in prefixes):
            v = v._replace(score=1, moves=0)
        return v._replace(independent=v.independent and all(v.level != level for _, _, level in prefixes))


class Limit:
    """A draw at a fixed length. The state has the length."""

    def __init__(self, below, limit):
        self.below, self.limit = below, min(limit, 96)

    def start(self):
        return self.below.start(), 0

    def after(self, state, k):
        below, length = state
        return self.below.after(below, k), length + 1

    def view(self, state):
        below, length = state
        v = self.below.view(below)
        if v.score is None and length == self.limit:
            v = v._replace(score=1, moves=0)
        if v.independent and v.context < 2**56:
            return v._replace(context=256 * v.context + self.limit - length)
        return v._replace(independent=False)


class TooLarge(Exception):
    """A game tree with more lines than plain minimax is asked to walk."""


def value(game, state, known):
    """The value of a line by plain minimax; `known` remembers the states."""
    if state not in known:
        if len(known) > 20_000:
            raise TooLarge
        v = game.view(state)
        if v.score is not None:
            known[state] = v.score
        else:
            best = max if v.turn == BLACK else min
            known[state] = best(value(game, game.after(state, k), known) for k in range(v.moves))
    return known[state]


# Stores. An entry is a key and a finding: ('verdict', yes, independent, move) or ('open', pn, dn).

class Table:
    """A direct-mapped table; without slots it holds nothing."""

    def __init__(self, slots):
        self.slots = [None] * slots

    def slot(self, key):
        a, b, context, floor = key
        turned = lambda x, n: ((x << n) | (x >> (64 - n))) & MASK64
        return (a ^ turned(b, 21) ^ turned(context, 43) ^ floor) % len(self.slots)

    def probe(self, key):
        if self.slots:
            entry = self.slots[self.slot(key)]
            if entry is not None and entry[0] == key:
                return entry[1]
        return None

    def record(self, key, finding):
        if self.slots:
            self.slots[self.slot(key)] = (key, finding)


# The search.

class OutOfBudget(Exception):
    pass


class Plays:
    """The plays made under a budget."""

    def __init__(self, budget):
        self.count, self.budget = 0, budget

    def one(self):
        if self.count == self.budget:
            raise OutOfBudget
        self.count += 1


def total(numbers):
    return INF if INF in numbers else min(MOST, sum(numbers))


class Search:
    def __init__(self, game, store, floor, plays):
        self.game, self.store, self.floor, self.plays = game, store, floor, plays

    def play(self, state, k):
        self.plays.one()
        return self.game.after(state, k)

    def key(self, v):
        return v.a, v.b, v.context, self.floor

    def holds(self, state, yes, finding=None):
        """Simulation: whether the verdict holds on this path. `finding` is the one in hand, at the first line."""
        v = self.game.view(state)
        if v.score is not None:
            return (v.score >= self.floor) == yes
        if finding is None:
            finding = self.store.probe(self.key(v))
        verdict = finding is not None and finding[0] == 'verdict'
        if verdict and finding[2] and v.independent:
            return finding[1] == yes
        claiming = BLACK if yes else WHITE
        if v.turn == claiming:
            if not (verdict and finding[1] == yes and finding[3] < v.moves):
                return False
            return self.holds(self.play(state, finding[3]), yes)
        for k in range(v.moves):
            if not self.holds(self.play(state, k), yes):
                return False
        return True

    def judged(self, state):
        """The pair of a line at its initial evaluation."""
        settled = lambda yes: (0, INF) if yes else (INF, 0)
        v = self.game.view(state)
        if v.score is not None:
            return settled(v.score >= self.floor)
        finding = self.store.probe(self.key(v))
        if finding is None:
            return 1, 1
        if finding[0] == 'open':
            _, pn, dn = finding
            return (pn, dn) if 1 <= pn <= MOST and 1 <= dn <= MOST else (1, 1)
        _, yes, independent, _ = finding
        if (independent and v.independent) or self.holds(state, yes, finding):
            return settled(yes)
        return 1, 1

    def finding(self, v, pn, dn, pairs):
        if pn == 0:
            move = [p for p, _ in pairs].index(0) if v.turn == BLACK else 255
            return 'verdict', True, v.independent, move
        if dn == 0:
            move = [d for _, d in pairs].index(0) if v.turn == WHITE else 255
            return 'verdict', False, v.independent, move
        return 'open', pn, dn

    def expand(self, state, tp, td):
        """Works on a line under limits; gives its pair and its finding."""
        v = self.game.view(state)
        pairs = [self.judged(self.play(state, k)) for k in range(v.moves)]
        while True:
            pns, dns = [p for p, _ in pairs], [d for _, d in pairs]
            if v.turn == BLACK:
                pn, dn = min(pns), total(dns)
            else:
                pn, dn = total(pns), min(dns)
            if pn >= tp or dn >= td:
                finding = self.finding(v, pn, dn, pairs)
                self.store.record(self.key(v), finding)
                return (pn, dn), finding
            if v.turn == BLACK:
                k = pns.index(pn)
                second = min(pns[:k] + pns[k + 1:], default=INF)
                limits = min(tp, second + 1, INF), INF if td == INF else td - dn + dns[k]
            else:
                k = dns.index(dn)
                second = min(dns[:k] + dns[k + 1:], default=INF)
                limits = INF if tp == INF else tp - pn + pns[k], min(td, second + 1, INF)
            try:
                pairs[k], _ = self.expand(self.play(state, k), *limits)
            except OutOfBudget:
                self.store.record(self.key(v), ('open', pn, dn))
                raise

    def solve(self, state):
        """The verdict and the move."""
        v = self.game.view(state)
        if v.score is not None:
            return v.score >= self.floor, 255
        _, (_, yes, _, move) = self.expand(state, INF, INF)
        return yes, move


# Proof files.

class Refused(Exception):
    """A refused call: its number, and for a check also place, depth and the game's own number."""


def encoded(n):
    out = bytearray()
    while n >= 128:
        out.append(n % 128 + 128)
        n //= 128
    return bytes(out) + bytes([n])


def decoded(data, place):
    """The number that starts at the place, and the place after it; None where it is out of form."""
    n = 0
    for i in range(5):
        if place + i >= len(data):
            return None
        n += (data[place + i] % 128) << (7 * i)
        if data[place + i] < 128:
            shortest = i == 0 or data[place + i] != 0
            return (n, place + i + 1) if n < 2**32 and shortest else None
    return None


def write(game, store, state, floor, budget, room):
    """The proof of the verdict at the line: verdict, bytes and plays."""
    plays = Plays(budget)
    search = Search(game, store, floor, plays)
    out = bytearray()

    def put(n):
        if len(out) + len(encoded(n)) > room:
            raise Refused(8)
        out.extend(encoded(n))

    def walk(state, yes, move):
        v = game.view(state)
        if v.score is not None:
            return
        if v.turn == (BLACK if yes else WHITE):
            if move is None:
                said, move = search.solve(state)
                assert said == yes
            put(move)
            walk(search.play(state, move), yes, None)
        else:
            for k in range(v.moves):
                walk(search.play(state, k), yes, None)

    try:
        yes, move = search.solve(state)
        put(floor)
        put(1 if yes else 0)
        walk(state, yes, move)
    except OutOfBudget:
        raise Refused(7)
    return yes, bytes(out), plays.count


def check(game, state, data, budget):
    """Floor, verdict, length and plays of a proof that is accepted."""
    plays = Plays(budget)
    place = 0

    def read(depth):
        nonlocal place
        got = decoded(data, place)
        if got is None:
            raise Refused(9, place, depth, 0)
        first, (n, place) = place, got
        return n, first

    def pay(depth):
        try:
            plays.one()
        except OutOfBudget:
            raise Refused(7, place, depth, 0)

    def walk(state, depth):
        v = game.view(state)
        if v.score is not None:
            if (v.score >= floor) != yes:
                raise Refused(12, place, depth, 0)
        elif v.turn == (BLACK if yes else WHITE):
            k, first = read(depth)
            if k >= v.moves:
                raise Refused(11, first, depth, 1)
            pay(depth)
            walk(game.after(state, k), depth + 1)
        else:
            for k in range(v.moves):
                pay(depth)
                walk(game.after(state, k), depth + 1)

    floor, first = read(0)
    if floor not in (1, 2):
        raise Refused(10, first, 0, 0)
    said, first = read(0)
    if said not in (0, 1):
        raise Refused(10, first, 0, 0)
    yes = said == 1
    walk(state, 0)
    if place < len(data):
        raise Refused(13, place, 0, 0)
    return floor, yes, place, plays.count


# Cases.

def word(yes):
    return 'yes' if yes else 'no'


def position(text):
    if text.startswith('graph:'):
        nodes = [[int(n) for n in node.split(',')] for node in text[6:].split(';') if node]
        return Graph([(node[0], node[1], node[2:]) for node in nodes])
    return Go(text)


def line_from(text):
    return [] if text == '-' else [int(k) for k in text.split(',')]


class Session:
    """One game and one store; a question first goes to its line from the start."""

    def __init__(self, game, slots):
        self.game, self.store, self.known = game, Table(slots), {}

    def at(self, line):
        state = self.game.start()
        for length, k in enumerate(line):
            v = self.game.view(state)
            if v.score is not None:
                raise Refused(2)
            if k >= v.moves:
                raise Refused(1)
            if length == 96:
                raise Refused(3)
            state = self.game.after(state, k)
        return state

    def solve(self, line, floor, budget):
        state = self.at(line)
        if floor not in (1, 2):
            raise Refused(5)
        plays = Plays(budget)
        try:
            yes, move = Search(self.game, self.store, floor, plays).solve(state)
        except OutOfBudget:
            return f'out-of-budget {plays.count}'
        return f'{word(yes)} {move} {plays.count}'

    def write(self, line, floor, budget, room):
        state = self.at(line)
        if floor not in (1, 2):
            raise Refused(5)
        yes, data, plays = write(self.game, self.store, state, floor, budget, room)
        return f'{word(yes)} {len(data)} {plays} {data.hex()}'

    def check(self, line, data, budget):
        floor, yes, length, plays = check(self.game, self.at(line), data, budget)
        return f'accepted {floor} {word(yes)} {length} {plays}'

    def ask(self, question):
        call, _, rest = question.partition('=')
        try:
            if call == 'check':
                line, data, budget = rest.split('/')
                return self.check(line_from(line), bytes.fromhex(data), int(budget))
            line, *numbers = rest.split('/')
            return getattr(self, call)(line_from(line), *map(int, numbers))
        except Refused as why:
            return 'refused ' + ' '.join(map(str, why.args))

    def compared(self, question, answer):
        """Whether a verdict is the game tree's: 'true' or 'false', or 'open' where there is none or the tree is too large."""
        call, _, rest = question.partition('=')
        said = answer.split()[0]
        line, floor = rest.split('/')[:2]
        if said == 'accepted':
            _, floor, said, *_ = answer.split()
        if said not in ('yes', 'no'):
            return 'open'
        try:
            best = value(self.game, self.at(line_from(line)), self.known)
        except TooLarge:
            self.known = {}
            return 'open'
        return 'true' if said == word(best >= int(floor)) else 'false'


def session_of(fields):
    game, slots = position(fields[0]), 0
    for field in fields[1:]:
        if field == 'repeat':
            game = Repeat(game)
        elif field.startswith('limit='):
            game = Limit(game, int(field[6:]))
        elif field.startswith('slots='):
            slots = int(field[6:])
    return Session(game, slots)


def answers(text, tally=None):
    """The answers to a case, one for each question; a single one where the position is refused. A tally counts true verdicts."""
    fields = text.split()
    try:
        session = session_of(fields)
    except NotAllowed as why:
        return ['refused %d %d' % why.args]
    out = []
    for question in fields:
        if question.startswith(('solve=', 'write=', 'check=')):
            answer = session.ask(question)
            if tally is not None:
                tally[session.compared(question, answer)] += 1
            out.append(answer)
    return out


EXAMPLE = 'graph:1,255,1,2;0,255,3,4;1,255,3;1,255,1;0,2 repeat limit=10 slots=0'
EXAMPLES = [
    (EXAMPLE + ' solve=-/2/1000', ['yes 255 12']),
    (EXAMPLE + ' solve=-/2/11', ['out-of-budget 11']),
    (EXAMPLE + ' solve=0,0/2/1000', ['no 0 1']),
    (EXAMPLE + ' solve=1,0/2/1000', ['yes 255 4']),
    ('graph:0,255,0 limit=0 slots=0 solve=-/1/0', ['yes 255 0']),
    ('graph:0,0 limit=0 slots=0 solve=-/1/0', ['no 255 0']),
    ('G3:B:WB....... slots=0 solve=-/2/1000', ['yes 1 7']),
    ('G3:B:WB....... slots=0 check=-/020101/1 check=-/020107/1', ['accepted 2 yes 3 1', 'refused 11 2 0 1']),
    ('G3:B:WB....... slots=0 check=-/020101/0 check=-/02010100/1 check=-/8000/1', ['refused 7 3 0 0', 'refused 13 3 0 0', 'refused 9 0 0 0']),
    ('G3:B:WB....... slots=0 check=-/03/1 check=-/0202/1 check=-/020100/9', ['refused 10 0 0 0', 'refused 10 1 0 0', 'refused 9 3 2 0']),
    ('graph: slots=0 solve=-/1/0', ['refused 15 0']),
]


def examples():
    tally = Counter()
    wrong = 0
    for case, want in EXAMPLES:
        got = answers(case, tally)
        if got != want:
            wrong += 1
            print(f'{case}\n  wanted {want}\n  got    {got}')
    if encoded(300) != b'\xac\x02' or decoded(b'\xac\x02', 0) != (300, 2):
        wrong += 1
        print('300 is not AC 02')
    print(f'{len(EXAMPLES)} worked examples, {wrong} wrong')
    return wrong + tally['false']


def main():
    sys.setrecursionlimit(10_000)
    if '--examples' in sys.argv:
        sys.exit(1 if examples() else 0)
    tally = Counter() if '--values' in sys.argv else None
    for text in sys.stdin:
        if text.strip() and not text.startswith('#'):
            for answer in answers(text, tally):
                print(answer)
    if tally is not None:
        print(f"verdicts that the game tree confirms: {tally['true']}, denies: {tally['false']}", file=sys.stderr)
        sys.exit(1 if tally['false'] else 0)


if __name__ == '__main__':
    main()
