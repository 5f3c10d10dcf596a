#!/usr/bin/env python3
"""Checks of the model itself: the worked histories, refusal 10, the rerun
(reads of every transaction with a commit moment), and a count of what the random
scripts cover.   selftest.py [SEEDS]"""
import collections
import sys

import gen
import model
from model import Drive, Refused


def steps(d, p, n):
    return [' '.join(d.call('s', p)) for _ in range(n)]


def worked():
    # alone, a first read of a free item takes four steps
    d = Drive(4, 4, 1000)
    assert d.call('b', 1) == ['ok'] and d.call('r', 1, 0) == ['going']
    assert steps(d, 1, 4) == ['going', 'going', 'going', 'value off']
    # after K and before W, another's read takes five steps and gives the new value
    d = Drive(4, 4, 1000)
    for c in (('b', 1), ('w', 1, 0, 5), ('c', 1)):
        d.call(*c)
    assert steps(d, 1, 4) == ['going'] * 4 and d.processes[0].place == 'W'
    d.call('b', 2), d.call('r', 2, 0)
    assert steps(d, 2, 5) == ['going'] * 4 + ['value 5']
    # K waits at a count of 1; the reader is forced to abort if it wrote, and commits if it did not
    for wrote in (True, False):
        d = Drive(4, 4, 1000)
        d.call('b', 1), d.call('r', 1, 0)
        steps(d, 1, 4)
        if wrote:
            d.call('w', 1, 1, 7)
        d.call('b', 2), d.call('w', 2, 0, 9), d.call('c', 2)
        assert steps(d, 2, 5) == ['going'] * 3 + ['waiting'] * 2
        d.call('c', 1)
        assert steps(d, 1, 2) == ['going', 'going']
        assert steps(d, 2, 3) == ['going', 'going', 'committed']
        if wrote:
            assert steps(d, 1, 5) == ['going'] * 4 + ['aborted 0']
        else:
            assert steps(d, 1, 1) == ['committed']
    # 10, 8, 9 at their edges
    d = Drive(64, 16, 1)
    assert d.call('b', 16) == ['ok'] and d.call('b', 1) == ['refused', '8']
    assert d.call('w', 16, 63, 1) == ['ok'] and d.call('w', 16, 64, 1) == ['refused', '9']
    for i in range(7):
        assert d.call('w', 16, i, i) == ['ok']
    assert d.call('w', 16, 7, 1) == ['refused', '10'] and d.call('w', 16, 63, 2) == ['ok']
    for i in range(10, 18):
        assert d.call('r', 16, i) == ['going'] and steps(d, 16, 4)[3] == 'value off'
    assert d.call('r', 16, 18) == ['refused', '10'] and d.call('r', 16, 17) == ['value', 'off']
    assert d.call('r', 16, 63) == ['value', '2'] and d.call('w', 16, 17, 2) == ['refused', '10']
    for bad in ((0, 1, 1), (65, 1, 1), (1, 0, 1), (1, 17, 1), (1, 1, 0), (1, 1, 2**56)):
        try:
            Drive(*bad)
            assert False
        except Refused as r:
            assert r.number == 11


class History:
    """Follows the calls of one script and reruns the transactions with a commit moment."""

    def __init__(self):
        self.ops = {}              # process -> [(kind, item, value)]
        self.reading = {}
        self.moments = []          # [(process's ops list, is update)], in order
        self.pending = {}          # read-only: place kept in moments until C has run
        self.forced = 0

    def follow(self, d, call, words):
        letter, p = call[0], call[1]
        if words[0] == 'refused':
            return
        if letter == 'b':
            self.ops[p] = []
        elif letter == 'w':
            self.ops[p].append(('w', call[2], call[3]))
        elif letter == 'r':
            if words[0] == 'value':
                self.ops[p].append(('r', call[2], words[1]))
            else:
                self.reading[p] = call[2]
        elif letter == 'c':
            if d.processes[p - 1].writes == 0:
                self.pending[p] = len(self.moments)
                self.moments.append(None)
        elif letter == 's':
            if words[0] == 'value':
                self.ops[p].append(('r', self.reading[p], words[1]))
            if d.row == 'C':
                self.moments[self.pending.pop(p)] = self.ops[p]
            if d.row == 'K' and words == ['going']:
                self.moments.append(self.ops[p])

    def rerun(self):
        held = {}
        for ops in self.moments:
            if ops is None:
                continue
            noted = {}
            for kind, item, value in ops:
                if kind == 'w':
                    noted[item] = str(value)
                else:
                    assert noted.get(item, held.get(item, 'off')) == value, (ops, held)
            held.update(noted)


def run(script, seen):
    d, h = Drive(4, 4, 1000), History()
    for line in model.lines_of(script[:model.INPUT_LIMIT]):
        try:
            letter, numbers = model.parse(line)
        except Refused:
            seen['refused 12'] += 1
            continue
        before = None
        if letter == 's' and 1 <= numbers[0] <= 4:
            p = d.processes[numbers[0] - 1]
            before = (p.place, p.owner, p.named)
        words = d.call(letter, *numbers)
        h.follow(d, (letter, *numbers), words)
        kind = words[0]
        if kind == 'refused':
            seen['%s refused %s' % (letter, words[1])] += 1
            continue
        if letter != 's':
            seen['%s %s' % (letter, kind)] += 1
            if letter == 'r' and kind == 'value':
                ws = d.find(d.write_set(d.processes[numbers[0] - 1]), numbers[1])
                seen['r at once from %s set' % ('write' if ws else 'read')] += 1
            continue
        p = d.processes[numbers[0] - 1]
        row = d.row
        tag = row + ' ' + kind
        if kind == 'value':
            tag += ' off' if words[1] == 'off' else ' count'
        if kind == 'aborted':
            tag += ' named' if len(words) > 1 else ''
        if row in ('R5', 'L3'):
            q = d.processes[before[1] - 1]
            st = q.status if q.status != 'committed' else (
                'committed ' + ('open' if q.open else 'ended')
                + (' writes' if d.committed_entry(before[1], p.item if row == 'R5' else
                   d.data_set(p)[p.index] if p.place == 'L4' else p.named) else ' reads only'))
            tag += ' [owner %s]' % st
        if row in ('L2', 'L3') and p.named is not None:
            tag += ' FORCES'
        seen[tag] += 1
    h.rerun()
    return h


def pick_storm(upto):
    """The seed up to UPTO whose 500 lines show the most sorts of step and answer,
    then the most forced aborts and updates, with no line feed at the end."""
    best = []
    for seed in range(1, upto + 1):
        s = gen.script(seed, 500)
        if s.endswith(b'\n') or len(model.lines_of(s)) > 500:
            continue
        seen = collections.Counter()
        run(s, seen)
        if not all(seen[k] for k in ('refused 12', 'D2 waiting', 'R2 waiting', 'A2 going', 'b refused 7',
                                     'C committed', 'A3 aborted')) or seen['K waiting'] > 40:
            continue
        last = model.play(s).split()[-2:]
        if b'refused' in last:             # the last line shall be a call that is made
            continue
        best.append((len(seen), seen['A3 aborted named'] + seen['U committed'], seed))
    return sorted(best, reverse=True)


def main():
    if sys.argv[1:2] == ['storm']:
        print(pick_storm(int(sys.argv[2]))[:5])
        return
    if sys.argv[1:2] == ['cover']:
        for name in sys.argv[2:]:
            seen = collections.Counter()
            with open(name, 'rb') as f:
                run(f.read(), seen)
            print(name, dict(sorted(seen.items())))
        return
    worked()
    seeds = int(sys.argv[1]) if len(sys.argv) > 1 else 300
    seen = collections.Counter()
    lines = 0
    for seed in range(1, seeds + 1):
        s = gen.script(seed)
        assert len(s) <= model.INPUT_LIMIT, (seed, len(s))
        lines += len(model.lines_of(s))
        run(s, seen)
    print('%d scripts, %d lines' % (seeds, lines))
    for k in sorted(seen):
        print('%8d  %s' % (seen[k], k))


if __name__ == '__main__':
    main()
