#!/usr/bin/env python3
"""A model of the bench player, written from its rules alone, without a look at the code.

Reads a script on standard input and writes the answers to standard output.
For tests:  d = Drive(items, processes, life);  d.call('w', 1, 0, 5) -> ['ok']
"""
import sys

SET_LIMIT = 8              # a read set and a write set hold at most 8 items each
ENTRIES = 2 * SET_LIMIT    # entries a process: first its read set, then its write set
TOP_ITEM = 63
TOP_OWNER = 16
TOP_COUNT = 16
TOP_SEQ = 2**56 - 1
INPUT_LIMIT = 65536

OFF = None                 # the blank Setting; a count is a plain int

NULL, COMMITTED, ABORTED = 'null', 'committed', 'aborted'


class Refused(Exception):
    """A refusal, with its number in the table."""

    def __init__(self, number):
        super().__init__('refused %d' % number)
        self.number = number


# ---------------------------------------------------------------- the bank

class Cell:
    def __init__(self, value):
        self.value = value
        self.owner = 0
        self.seq = 0
        self.count = 0


class Bank:
    """A record bank: one cell an item."""

    def __init__(self, values, blank=OFF):
        self.cells = [Cell(v) for v in values]
        self.blank = blank

    def has(self, item):
        return 0 <= item < len(self.cells)

    def read_lock(self, item):
        if not self.has(item):
            return (0, 0)
        return (self.cells[item].owner, self.cells[item].seq)

    def read_value(self, item):
        return self.cells[item].value if self.has(item) else self.blank

    def read_count(self, item):
        return self.cells[item].count if self.has(item) else 0

    def write_lock(self, item, lock):
        owner, seq = lock
        if not self.has(item) or owner > TOP_OWNER or seq > TOP_SEQ:
            return False
        self.cells[item].owner = owner
        self.cells[item].seq = seq
        return True

    def write_value(self, item, value):
        if not self.has(item):
            return False
        self.cells[item].value = value
        return True

    def swap_lock(self, item, expected, lock):
        return (self.has(item) and self.read_lock(item) == expected
                and self.write_lock(item, lock))

    def swap_count(self, item, expected, count):
        if not self.has(item) or self.cells[item].count != expected or count > TOP_COUNT:
            return False
        self.cells[item].count = count
        return True

    def all_zero(self, items):
        return all(self.read_count(i) == 0 for i in items[:8])


# ---------------------------------------------------------------- table, process

class Entry:
    def __init__(self):
        self.item = 0
        self.seq = 0
        self.value = OFF


class Process:
    def __init__(self, number):
        self.number = number
        self.began = False        # ever, since set-up
        self.open = False         # a transaction is open
        self.status = NULL
        self.place = None         # the row the next step runs; None: no operation under way
        self.reads = 0            # length of the read set
        self.writes = 0           # length of the write set
        self.remembers = 0        # an owner, from R3 or L1 until R5 or L3
        # what a place carries along
        self.item = 0             # the item of the read under way
        self.index = 0            # how far a set has been walked
        self.m = 0                # the count from R1 or D1
        self.owner = 0            # the owner from R3, L1 or A1
        self.seq = 0              # the sequence number from R3, L1, L3 or A1
        self.by_choice = False    # abort was called
        self.named = None         # the item that forced the abort


# ---------------------------------------------------------------- the drive

class Drive:
    """Bank, table, processes: the store after set-up.  Refusals 11 and 1 of
    set-up come as Refused from the constructor."""

    def __init__(self, items, processes, life, values=None, entries=None):
        entries = ENTRIES * processes if entries is None else entries
        if not (1 <= items <= 64 and 1 <= processes <= 16 and 1 <= life <= TOP_SEQ):
            raise Refused(11)
        if entries < ENTRIES * processes:
            raise Refused(1)
        self.bank = Bank([OFF] * items if values is None else values)
        self.table = [Entry() for _ in range(entries)]
        self.processes = [Process(n) for n in range(1, processes + 1)]
        self.life = life
        self.begun = 0
        self.row = None           # for tests: the row the latest step ran

    # ---- the one way in

    def call(self, letter, *numbers):
        """Make one call; the output words after the line number."""
        calls = {'b': self.begin, 'r': self.read, 'w': self.write,
                 'c': self.try_commit, 'a': self.abort, 's': self.step}
        try:
            return calls[letter](*numbers)
        except Refused as r:
            return ['refused', str(r.number)]

    # ---- the sets

    def base(self, p):
        return ENTRIES * (p.number - 1)

    def read_entry(self, p, i):
        return self.table[self.base(p) + i]

    def write_entry(self, p, i):
        return self.table[self.base(p) + SET_LIMIT + i]

    def read_set(self, p):
        return [self.read_entry(p, i) for i in range(p.reads)]

    def write_set(self, p):
        return [self.write_entry(p, i) for i in range(p.writes)]

    @staticmethod
    def find(entries, item):
        for e in entries:
            if e.item == item:
                return e
        return None

    def data_set(self, p):
        """Item numbers of both sets together, rising."""
        return sorted({e.item for e in self.read_set(p) + self.write_set(p)})

    # ---- the refusal table, each check by its number; each call runs its own in order

    def process(self, number):                                    # 2
        if not 1 <= number <= len(self.processes):
            raise Refused(2)
        return self.processes[number - 1]

    def check_3(self, p):
        if p.open:
            raise Refused(3)

    def check_4(self, p):
        if not p.open:
            raise Refused(4)

    def check_5(self, p):
        if p.place is not None:
            raise Refused(5)

    def check_6(self, p):
        if p.place is None:
            raise Refused(6)

    def check_7(self, p):
        if any(q is not p and q.remembers == p.number for q in self.processes):
            raise Refused(7)

    def check_8(self):
        if self.begun >= self.life:
            raise Refused(8)

    def check_9(self, item):
        if not self.bank.has(item) or item > TOP_ITEM:
            raise Refused(9)

    def check_10(self, new, length):
        if new and length >= SET_LIMIT:
            raise Refused(10)

    # ---- the calls

    def begin(self, number):
        p = self.process(number)
        self.check_3(p)
        self.check_7(p)
        self.check_8()
        self.begun += 1
        p.began = True
        p.open = True
        p.status = NULL
        p.reads = 0
        p.writes = 0
        p.place = None
        p.by_choice = False
        p.named = None
        return ['ok']

    def read(self, number, item):
        p = self.process(number)
        self.check_4(p)
        self.check_5(p)
        self.check_9(item)
        known = self.find(self.write_set(p), item) or self.find(self.read_set(p), item)
        self.check_10(known is None, p.reads)
        if known is not None:
            return value_words(known.value)
        p.item = item
        p.place = 'R1'
        return ['going']

    def write(self, number, item, value):
        p = self.process(number)
        self.check_4(p)
        self.check_5(p)
        self.check_9(item)
        entry = self.find(self.write_set(p), item)
        self.check_10(entry is None, p.writes)
        if entry is None:
            entry = self.write_entry(p, p.writes)
            p.writes += 1
        entry.item = item
        entry.seq = 0
        entry.value = value
        return ['ok']

    def try_commit(self, number):
        p = self.process(number)
        self.check_4(p)
        self.check_5(p)
        p.by_choice = False
        self.start_counting_out(p)
        return ['going']

    def abort(self, number):
        p = self.process(number)
        self.check_4(p)
        self.check_5(p)
        p.by_choice = True
        self.start_counting_out(p)
        return ['going']

    def step(self, number):
        p = self.process(number)
        self.check_4(p)
        self.check_6(p)
        self.row = p.place
        return getattr(self, 'row_' + p.place)(p)

    # ---- where to go next

    def start_counting_out(self, p):
        p.index = 0
        if p.reads > 0:
            p.place = 'D1'
        else:
            self.after_counting_out(p)

    def after_counting_out(self, p):
        if p.by_choice:
            self.start_abort_rows(p)
        elif p.writes == 0:
            p.place = 'C'
        else:
            p.index = 0
            p.place = 'L1'

    def start_abort_rows(self, p):
        p.index = 0
        p.place = 'A1' if self.data_set(p) else 'A3'

    def end_transaction(self, p):
        p.open = False
        p.place = None

    def committed_entry(self, owner, item):
        """The owner's write-set entry of the item, if it has committed and writes it."""
        if not 1 <= owner <= len(self.processes):
            return None
        q = self.processes[owner - 1]
        if not q.began or q.status != COMMITTED:
            return None
        return self.find(self.write_set(q), item)

    # ---- the step table: a read

    def row_R1(self, p):
        p.m = self.bank.read_count(p.item)
        p.place = 'R2'
        return ['going']

    def row_R2(self, p):
        if not self.bank.swap_count(p.item, p.m, p.m + 1):
            p.place = 'R1'
            return ['waiting']
        p.place = 'R3'
        return ['going']

    def row_R3(self, p):
        p.owner, p.seq = self.bank.read_lock(p.item)
        p.remembers = p.owner
        p.place = 'R4'
        return ['going']

    def row_R4(self, p):
        entry = self.read_entry(p, p.reads)     # the next one, not yet of the set
        entry.item = p.item
        entry.seq = p.seq
        entry.value = self.bank.read_value(p.item)
        if p.owner == 0:
            return self.end_read(p)
        p.place = 'R5'
        return ['going']

    def row_R5(self, p):
        theirs = self.committed_entry(p.owner, p.item)
        p.remembers = 0
        if theirs is not None:
            entry = self.read_entry(p, p.reads)
            entry.seq = theirs.seq
            entry.value = theirs.value
        return self.end_read(p)

    def end_read(self, p):
        value = self.read_entry(p, p.reads).value
        p.reads += 1
        p.place = None
        return value_words(value)

    # ---- counting out

    def row_D1(self, p):
        p.m = self.bank.read_count(self.read_entry(p, p.index).item)
        p.place = 'D2'
        return ['going']

    def row_D2(self, p):
        item = self.read_entry(p, p.index).item
        if p.m == 0 or not self.bank.swap_count(item, p.m, p.m - 1):
            p.place = 'D1'
            return ['waiting']
        p.index += 1
        if p.index < p.reads:
            p.place = 'D1'
        else:
            self.after_counting_out(p)
        return ['going']

    # ---- the end of a read-only transaction

    def row_C(self, p):
        p.status = COMMITTED
        self.end_transaction(p)
        return ['committed']

    # ---- locking

    def row_L1(self, p):
        item = self.data_set(p)[p.index]
        p.owner, p.seq = self.bank.read_lock(item)
        p.remembers = p.owner
        p.place = 'L2'
        return ['going']

    def row_L2(self, p):
        item = self.data_set(p)[p.index]
        self.bank.read_value(item)              # nothing hangs on it
        if p.owner != 0:
            p.place = 'L3'
        else:
            self.compare(p, item)
        return ['going']

    def row_L3(self, p):
        item = self.data_set(p)[p.index]
        theirs = self.committed_entry(p.owner, item)
        p.remembers = 0
        if theirs is not None:
            p.seq = theirs.seq
        self.compare(p, item)
        return ['going']

    def compare(self, p, item):
        mine = self.find(self.read_set(p), item)
        if mine is not None and mine.seq != p.seq:
            p.named = item
            self.start_abort_rows(p)
        else:
            p.place = 'L4'

    def row_L4(self, p):
        items = self.data_set(p)
        item = items[p.index]
        if not self.bank.swap_lock(item, (0, p.seq), (p.number, p.seq)):
            p.place = 'L1'
            return ['waiting']
        mine = self.find(self.write_set(p), item)
        if mine is not None:
            mine.seq = p.seq + 1
        p.index += 1
        p.place = 'L1' if p.index < len(items) else 'K'
        return ['going']

    # ---- commit, values, unlocking

    def row_K(self, p):
        if not self.bank.all_zero([e.item for e in self.write_set(p)]):
            return ['waiting']
        p.status = COMMITTED
        p.index = 0
        p.place = 'W'
        return ['going']

    def row_W(self, p):
        entry = self.write_entry(p, p.index)
        self.bank.write_value(entry.item, entry.value)
        p.index += 1
        if p.index == p.writes:
            p.index = 0
            p.place = 'U'
        return ['going']

    def row_U(self, p):
        items = self.data_set(p)
        item = items[p.index]
        entry = self.find(self.write_set(p), item) or self.find(self.read_set(p), item)
        self.bank.write_lock(item, (0, entry.seq))
        p.index += 1
        if p.index < len(items):
            return ['going']
        self.end_transaction(p)
        return ['committed']

    # ---- abort

    def row_A1(self, p):
        p.owner, p.seq = self.bank.read_lock(self.data_set(p)[p.index])
        if p.owner == p.number:
            p.place = 'A2'
        else:
            self.next_abort_item(p)
        return ['going']

    def row_A2(self, p):
        self.bank.write_lock(self.data_set(p)[p.index], (0, p.seq))
        self.next_abort_item(p)
        return ['going']

    def next_abort_item(self, p):
        p.index += 1
        p.place = 'A1' if p.index < len(self.data_set(p)) else 'A3'

    def row_A3(self, p):
        p.status = ABORTED
        self.end_transaction(p)
        return ['aborted'] if p.named is None else ['aborted', str(p.named)]


def value_words(value):
    return ['value', 'off' if value is OFF else str(value)]


# ---------------------------------------------------------------- the player

NUMBERS = {'b': 1, 'r': 2, 'w': 3, 'c': 1, 'a': 1, 's': 1}


def number_of(word):
    """1 to 9 decimal digits, or Refused 12."""
    if not 1 <= len(word) <= 9 or any(c not in b'0123456789' for c in word):
        raise Refused(12)
    return int(word)


def parse(line):
    """A line (bytes, without its line feed) to letter and numbers, or Refused 12."""
    words = line.split(b' ')
    letter = words[0].decode('latin-1')
    if letter not in NUMBERS or len(words) - 1 != NUMBERS[letter]:
        raise Refused(12)
    return letter, [number_of(w) for w in words[1:]]


def lines_of(script):
    lines = script.split(b'\n')
    if lines[-1] == b'':           # an empty rest is no line
        lines.pop()
    return lines


def play(script, drive=None):
    """The player: script bytes to output bytes."""
    drive = drive or Drive(4, 4, 1000)
    out = []
    for n, line in enumerate(lines_of(script[:INPUT_LIMIT]), 1):
        try:
            letter, numbers = parse(line)
            words = drive.call(letter, *numbers)
        except Refused as r:
            words = ['refused', str(r.number)]
        out.append(' '.join([str(n)] + words) + '\n')
    return ''.join(out).encode('ascii')


if __name__ == '__main__':
    sys.stdout.buffer.write(play(sys.stdin.buffer.read(INPUT_LIMIT)))
