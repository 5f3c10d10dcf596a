#!/usr/bin/env python3
"""Random scripts for the bench player.   gen.py SEED [LINES] > script

The model runs alongside only so that the next call is mostly a sensible one
(a step where an operation is under way, a begin where none is open, ...).
Each seed has its own temper: how long a turn a process gets, how hot item 0 is,
how many items a transaction touches, how often it aborts, how often a call is
out of place or a line malformed.
"""
import random
import sys

import model

MALFORMED = [
    b'', b' ', b'b', b'b ', b' b 1', b'b  1', b'b 1 ', b'b 1 1', b'B 1', b'b 1\r', b'b\t1',
    b's', b's ', b's  1', b's 1 ', b's 1 0', b'S 1', b's1', b's 1\r', b's -1', b's +1', b's 1.',
    b's 0000000001', b's 1234567890', b's x', b's \xc2\xb9', b's 1\x00', b'\x00', b'\xff 1',
    b'r 1', b'r 1 ', b'r 1 0 ', b'r 1  0', b'r 1 0 0', b'r  1 0', b'r 1 0x0', b'r 1 a', b'R 1 0',
    b'w 1 0', b'w 1 0 ', b'w 1 0 5 ', b'w 1 0 5 6', b'w 1 0  5', b'w 1 0 -5', b'w 1 0 1000000000',
    b'w 1 0 off', b'w 1 0 5\r', b'W 1 0 5', b'w\t1\t0\t5', b'w,1,0,5', b'w 1 0 0x5',
    b'c', b'c ', b'c 1 1', b'cc 1', b'C 1', b'c 1;', b'a', b'a 1 2', b'A 1', b'ab 1', b'd 1', b'f 1',
    b'1', b'1 b', b'k 1', b'x 1', b'begin 1', b'# b 1', b'b 1 # one', b's 1/s 1', b's one',
]


class Temper:
    def __init__(self, rnd):
        pick = rnd.choice
        self.turn = pick([1, 1, 1, 2, 3, 6])             # mean length of a turn
        self.hot = pick([0.0, 0.2, 0.5, 0.8])            # share of calls that go to the hot item
        self.hot_item = rnd.randrange(4)
        self.items = pick([1, 2, 3, 4, 4, 4])            # how many of the items are used
        self.reads = pick([0, 1, 1, 1, 2, 3])            # mean reads a transaction
        self.writes = pick([0, 1, 1, 1, 2, 3])           # mean writes a transaction
        self.readonly = pick([0.0, 0.1, 0.2, 0.5])
        self.abort = pick([0.0, 0.05, 0.1, 0.3])
        self.odd = pick([0.0, 0.01, 0.03, 0.08])         # calls out of place
        self.bad = pick([0.0, 0.0, 0.01, 0.03])          # malformed lines
        self.stall = pick([0.0, 0.0, 0.02, 0.1])         # a process is left standing for a while
        self.eager = pick([0.3, 0.7, 0.95])              # a begin as soon as one may


def number(rnd, n):
    """A number, now and then with leading zeros, never over 9 digits."""
    text = str(n)
    if rnd.random() < 0.03:
        text = text.rjust(rnd.randint(len(text), 9), '0')
    return text


def value(rnd):
    return rnd.choice([0, 1, rnd.randrange(10), rnd.randrange(1000), rnd.randrange(1000),
                       rnd.randrange(10**9), 999999999])


def line_of(rnd, letter, *numbers):
    return ' '.join([letter] + [number(rnd, n) for n in numbers]).encode()


def item(rnd, t):
    if rnd.random() < t.hot:
        return t.hot_item
    return (t.hot_item + rnd.randrange(t.items)) % 4


def odd_call(rnd):
    letter = rnd.choice('brwcas')
    p = rnd.choice([0, 1, 2, 3, 4, 1, 2, 3, 4, 5, 16, 17, 999999999])
    i = rnd.choice([0, 1, 2, 3, 4, 5, 63, 64, 999999999])
    return {'r': ('r', p, i), 'w': ('w', p, i, value(rnd))}.get(letter, (letter, p))


class Plan:
    """What a transaction still means to do."""

    def __init__(self, rnd, t):
        readonly = rnd.random() < t.readonly
        n_r = min(rnd.randrange(2 * t.reads + 1), 5)
        n_w = 0 if readonly else min(rnd.randrange(2 * t.writes + 1), 5)
        self.todo = ['r'] * n_r + ['w'] * n_w
        if rnd.random() < 0.6:                     # else reads first: more in both sets
            rnd.shuffle(self.todo)


def script(seed, lines=None):
    rnd = random.Random(seed)
    t = Temper(rnd)
    lines = lines or rnd.choice([40, 100, 200, 400, 400, 800])
    drive = model.Drive(4, 4, 1000)
    plans = {}
    out = []
    stalled = {}                                   # process -> lines to go
    blind = rnd.random() < 0.05
    spend = rnd.random() < 0.015                   # use up the life first
    who, left = 1, 0

    def emit(*call):
        out.append(line_of(rnd, *call))
        return drive.call(*call)

    if spend:
        while drive.begun < 990:
            p = rnd.randint(1, 4)
            for letter in ('b', rnd.choice('ac'), 's'):
                emit(letter, p)

    target = len(out) + lines
    while len(out) < target:
        if rnd.random() < t.bad:
            out.append(rnd.choice(MALFORMED))
            continue
        if blind or rnd.random() < t.odd:
            call = odd_call(rnd)
            if blind and rnd.random() < 0.6:
                call = ('s', rnd.randint(1, 4))
            emit(*call)
            continue
        if left <= 0:
            free = [p for p in (1, 2, 3, 4) if stalled.get(p, 0) <= len(out)] or [1, 2, 3, 4]
            who = rnd.choice(free)
            left = rnd.randint(1, 2 * t.turn - 1)
            if rnd.random() < t.stall:
                stalled[who] = len(out) + rnd.randint(5, 40)
                left = 0
                continue
        left -= 1
        p = drive.processes[who - 1]
        if p.place is not None:
            if emit('s', who) == ['waiting'] and rnd.random() < 0.8:
                left = 0                           # let another go on
        elif not p.open:
            if rnd.random() < t.eager:
                if emit('b', who) == ['ok']:
                    plans[who] = Plan(rnd, t)
        else:
            plan = plans.setdefault(who, Plan(rnd, t))
            if not plan.todo:
                emit('a' if rnd.random() < t.abort else 'c', who)
            elif rnd.random() < t.abort / 4:
                emit('a', who)
            elif plan.todo.pop(0) == 'r':
                emit('r', who, item(rnd, t))
            else:
                emit('w', who, item(rnd, t), value(rnd))
    end = b'\n' if rnd.random() < 0.8 else b''
    return b'\n'.join(out) + end


if __name__ == '__main__':
    seed = int(sys.argv[1])
    lines = int(sys.argv[2]) if len(sys.argv) > 2 else None
    sys.stdout.buffer.write(script(seed, lines))
