#!/usr/bin/env python3
"""What `cards` must print for a batch of cards, by the plain reference beside this file.

    cards_reference.py < CARDS > EXPECTED
"""
import re
import sys

from reference import (BLACK, Go, Limit, NotAllowed, OutOfBudget, Plays, Refused, Repeat, Search, Session, Table, check, word, write)

WORDS = {
    1: 'no move of that number', 2: 'the game is over', 3: 'the line has 96 moves', 5: 'the floor is neither 1 nor 2',
    7: 'out of budget', 9: 'a number is cut off, too long, too large or not in its shortest form',
    10: 'the floor is not 1 or 2, or the verdict is not 0 or 1', 11: 'the game refuses a written move',
    12: 'the game ends against the claim', 13: 'bytes are left after the proof', 14: 'the position is out of form',
    15: 'a group has no liberty',
}


class NotCard(Exception):
    pass


def number(text):
    if not re.fullmatch(r'[0-9]+', text) or int(text) >= 2**32:
        return None
    return int(text)


def card_of(fields):
    card = {'floor': 2, 'slots': 65536, 'tablet': 64, 'budget': 50_000_000, 'line': [], 'rules': []}
    seen = set()
    for place, field in enumerate(fields[1:], 2):
        name, equals, text = field.partition('=')
        known = name in ('floor', 'slots', 'tablet', 'budget', 'limit', 'line', 'proof') and equals
        if not known and field != 'repeat':
            raise NotCard(place, 'no such word')
        if name in seen:
            raise NotCard(place, 'a word that stood before')
        seen.add(name)
        if field == 'repeat':
            card['rules'].append('repeat')
        elif name == 'line':
            moves = [number(k) for k in text.split(',')]
            if None in moves:
                raise NotCard(place, 'not move numbers with commas between them')
            card['line'] = moves
        elif name == 'proof':
            if not re.fullmatch(r'([0-9a-fA-F]{2})*', text):
                raise NotCard(place, 'not pairs of hexadecimal digits')
            card['proof'] = bytes.fromhex(text)
        else:
            n = number(text)
            if n is None:
                raise NotCard(place, 'not a number from 0 to 4294967295')
            if name == 'limit':
                card['rules'].append(n)
            else:
                card[name] = n
    return card


def board(game, state):
    while not isinstance(game, Go):
        game, state = game.below, state[0]
    stones, _ = state
    return [f'  {stones[r * game.size:(r + 1) * game.size]}' for r in range(game.size)]


def standing(v):
    if v.score is not None:
        return '  over: ' + ('White has won', 'drawn', 'Black has won')[v.score]
    return f'  {"Black" if v.turn == BLACK else "White"} on turn, moves {v.moves}'


def settled(card, game):
    """The lines of a card that is settled, without the card's name."""
    session = Session(game, card['slots'])
    state = session.at(card['line'])
    lines = board(game, state) + [standing(game.view(state))]
    proof = card.get('proof')
    if proof is None:
        if card['floor'] not in (1, 2):
            raise Refused(5)
        plays = Plays(card['budget'])
        try:
            yes, move = Search(game, session.store, card['floor'], plays).solve(state)
        except OutOfBudget:
            raise Refused(7)
        lines.append(f'  solved {word(yes)}, move {move}, plays {plays.count}')
        _, proof, _ = write(game, session.store, state, card['floor'], card['budget'], 2**32)
    floor, yes, length, plays = check(game, state, proof, card['budget'])
    lines.append(f'  proof {proof.hex()}')
    if AGAIN:
        lines.append(f'  checked again with {card["tablet"]} slots')
    return [f'at least {floor} {word(yes)}, bytes {length}, plays {plays}'] + lines


def refused(name, why):
    values = ''.join(f', {label} {value}' for label, value in zip(('place', 'depth', 'carrying'), why[1:])
                     if label != 'carrying' or value)
    return f'{name}: refused {why[0]}{values}: {WORDS[why[0]]}'


def batch(data):
    cards = printed = 0
    for line in data.split(b'\n'):
        line = line[:-1] if line.endswith(b'\r') else line
        text = line.decode('latin-1')
        fields = [f for f in re.split('[ \t]+', text) if f]
        if not fields or text.startswith('#'):
            continue
        cards += 1
        name = f'card {cards}'
        try:
            card = card_of(fields)
            game = Go(fields[0])
            for rule in card['rules']:
                game = Repeat(game) if rule == 'repeat' else Limit(game, rule)
            first, *more = settled(card, game)
            print(f'{name}: {first}')
            print('\n'.join(more))
            printed += 1
        except NotCard as bad:
            print(f'{name}: not a card, field {bad.args[0]}: {bad.args[1]}')
        except (NotAllowed, Refused) as bad:
            print(refused(name, bad.args))
    print(f'{cards} cards: {printed} printed, {cards - printed} refused')


AGAIN = '--again' in sys.argv
batch(sys.stdin.buffer.read())
