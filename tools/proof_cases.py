#!/usr/bin/env python3
"""Cases about proof files, one after another and not at random: buffers of every length, budgets of every size up to enough,
every proof damaged in every byte, and the edges of number forms. README.md beside this file has the format.

    proof_cases.py > CASES
"""
import reference

GAMES = [
    'G3:B:WB.......',
    'G3:W:WB....... limit=4',
    'G3:B:......... repeat limit=3',
    'graph:1,255,1,2;0,255,3,4;1,255,3;1,255,1;0,2 repeat limit=10',
    'graph:0,255,1,2;1,255,0,3;1,255,0,4;0,1;0,0 repeat limit=6',
]
NUMBERS = ['', '80', '8000', '8080808000', '8080808010', 'ffffffff0f', 'ffffffff1f', '808080808001', 'ac02', '00', '7f']


def cases(game, floor):
    session = reference.session_of(game.split())
    yes, data, plays = reference.write(session.game, reference.Table(0), session.at([]), floor, 10**6, 10**6)
    _, _, _, walked = reference.check(session.game, session.at([]), data, 10**6)
    for size in range(len(data) + 3):
        yield f'{game} write=-/{floor}/1000000/{size}'
    for budget in range(max(0, plays - 12), plays + 2):
        yield f'{game} write=-/{floor}/{budget}/1000'
    for budget in range(max(0, walked - 6), walked + 2):
        yield f'{game} check=-/{data.hex()}/{budget}'
    for place in range(min(len(data), 40)):
        for byte in (0, 1, 2, 3, 7, 63, 128, 255, data[place] ^ 1):
            damaged = data[:place] + bytes([byte]) + data[place + 1:]
            yield f'{game} check=-/{damaged.hex()}/1000000'
    for length in range(len(data)):
        yield f'{game} check=-/{data[:length].hex()}/1000000'
    for more in ('00', '01', '80'):
        yield f'{game} check=-/{data.hex() + more}/1000000'
    for form in NUMBERS:
        yield f'{game} check=-/{form}/9'
        yield f'{game} check=-/02{form}/9'
        yield f'{game} check=-/0201{form}/9'
        yield f'{game} check=-/0100{form}/9'


if __name__ == '__main__':
    for game in GAMES:
        for floor in (1, 2):
            for case in cases(game, floor):
                print(case)
