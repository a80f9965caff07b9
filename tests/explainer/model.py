"""What the explainer prints of a run, by documents 01 and 02 alone: each rule is taken for itself, over a group's whole table,
and says what it found and what it allows. Among what is broken the lowest entry is told, and there the first in the order.

It shares nothing with the crates or with the lister's model, and carries no state from group to group: what a rule asks of the
run is looked up among the entries that stand before. `moments` says at which byte of the input the text is due.
"""
from functools import cached_property
from itertools import chain

# The names of the kinds, by number from 1.
NAMES = ('total', 'separator', 'middle', 'start', 'last', 'entire', 'skip')

# The kind by the flag's bits: b8 to b5 as a number, then b3 to b1. Between them stands b4.
KINDS = {
    (0, 1): 'total', (0, 7): 'separator', (4, 0): 'middle', (4, 2): 'start', (6, 0): 'last', (6, 3): 'entire', (8, 0): 'skip'}
B4 = 0x08

SPANNED = ('start', 'middle', 'last')
DATA = SPANNED + ('entire',)
FINISHED = ('total', 'separator', 'entire')     # behind these, and before all, the run is free

LONGEST_RECORD = 16777215
LAST_NUMBER = 65535

WHAT = {
    3: 'the first number is out of range',
    5: 'the number is not the next',
    6: 'the entry count is out of range',
    8: 'no entry has this flag',
    9: 'bit b4 went out',
    10: 'this kind may not stand here',
    19: 'a part of no bytes',
    20: 'a separator above 1',
    21: 'the record is too long',
    22: 'the total is not the sum of its parts',
    12: 'the data would pass into the table',
    13: 'the skip count is wrong',
    23: 'the total had room here',
}

BAD = b'bad run file\n'


def within(found, least, most):
    """None where the number found is one of those allowed; else the line that says so. Least above most allows none."""
    if least <= found <= most:
        return None
    return f'found {found}, ' + (f'allowed {least} to {most}' if least <= most else 'none allowed')


# ---- Entries ---------------------------------------------------------------------------------------------------------

class Entry:
    """Entry k of n in a group of this size, as it stands there, with the entries before it: `table` in its group, `run` in the
    groups that were accepted."""

    def __init__(self, image, size, k, n, table, run):
        self.size, self.k, self.n, self.table, self.run = size, k, n, table, run
        self.byte = size - 32 - 4 * k
        self.flag, self.count = image[self.byte], int.from_bytes(image[self.byte + 1:self.byte + 4], 'big')
        self.name, self.warned = KINDS.get((self.flag >> 4, self.flag & 0x07)), self.flag & B4 != 0
        before = self.before_here()
        self.data = before.data + before.holds() if before else 0       # data bytes of the group before this entry

    def holds(self):
        return self.count if self.name in DATA else 0

    def before_here(self):
        """The entry before it in its group."""
        return self.table[self.k - 2] if self.k > 1 else None

    def backwards(self):
        """Every entry before it, the nearest first, with whether it is in the same group."""
        here = ((self.table[i], True) for i in range(self.k - 2, -1, -1))
        return chain(here, ((e, False) for e in reversed(self.run)))

    @cached_property
    def open(self):
        """What is open where it stands."""
        return open_record(self.backwards())


def open_record(backwards):
    """What is open behind these entries: the latest that is no skip, whether it is in the same group, and the bytes of the parts
    back to their start. Nothing is open behind an entry that finished."""
    name, near, parts = None, False, 0
    for e, here in backwards:
        if e.name == 'skip':
            continue
        if e.name not in SPANNED:
            break
        if name is None:
            name, near = e.name, here
        parts += e.count
        if e.name == 'start':
            break
    return name, near, parts


# ---- The rules of an entry: each gives None where it is kept, else the line that tells what was found -----------------------

def flag_known(e):
    return None if e.name else f'found {e.flag}'


def b4_stays(e):
    """Once set it stays. It stayed at every earlier entry, so the nearest speaks for all."""
    before = next((b for b, _ in e.backwards()), None)
    return within(int(e.warned), int(before is not None and before.warned), 1)


def may_stand(e, name):
    """Whether an entry of this name may stand where e stands."""
    behind, near, _ = e.open
    if (name == 'skip') != (e.k == e.n):
        return False                            # "Skip is always the last entry and stands nowhere else"
    if name == 'skip':
        return behind is None or near           # a group does not begin with it where a record is open or its total owed
    if behind is None:
        return name in ('start', 'separator', 'entire')
    if behind == 'last':
        return name == 'total'
    return name in ('middle', 'last') and not near


def kind_permitted(e):
    permitted = [name for name in NAMES if may_stand(e, name)]
    return None if e.name in permitted else f'found {e.name}, permitted {" ".join(permitted) or "none"}'


def part_not_empty(e):
    return within(e.count, 1, LONGEST_RECORD) if e.name in DATA else None


def separator_value(e):
    return within(e.count, 0, 1) if e.name == 'separator' else None


def record_length(e):
    """The parts come to 16,777,215 at most, and to a byte less while the last is still to come. No bytes are not too many."""
    if e.name not in SPANNED or e.count == 0:
        return None
    _, _, parts = e.open
    return within(e.count, 1, LONGEST_RECORD - parts - (e.name != 'last'))


def total_of_parts(e):
    if e.name != 'total':
        return None
    _, _, parts = e.open
    return within(e.count, parts, parts)


def data_below_the_table(e):
    return within(e.data + e.count, 0, e.size - 32 - 4 * e.n) if e.name in DATA else None


def skip_count(e):
    return within(e.count, e.size - e.data, e.size - e.data) if e.name == 'skip' else None


def total_in_time(e):
    """A skip of 44 or more right behind a last would have left a total its four bytes."""
    before = e.before_here()
    return within(e.count, 0, 43) if e.name == 'skip' and before and before.name == 'last' else None


# In the order in which one entry's rules are told: 19 to 22 stand where 11 stood, and 23 comes after 13.
RULES = [
    (8, flag_known), (9, b4_stays), (10, kind_permitted), (19, part_not_empty), (20, separator_value), (21, record_length),
    (22, total_of_parts), (12, data_below_the_table), (13, skip_count), (23, total_in_time)]


# ---- A run -----------------------------------------------------------------------------------------------------------

class Run:
    """The accepted groups of a run: their numbers, and all their entries in a row."""

    def __init__(self, size, first):
        self.size, self.first, self.numbers, self.entries = size, first, [], []

    def is_repeat(self, number):
        return self.numbers[-1:] == [number]

    def number_fault(self, number):
        following = self.numbers[-1] + 1 if self.numbers else self.first
        return within(number, following, following) if following <= LAST_NUMBER else within(number, 1, 0)

    def group_fault(self, image, number, n):
        """None of a group that is accepted, which then belongs to the run, and of a repeat, which does not. Of a refused one: the
        refusal, the place, the byte of the entry (None where there is none) and the line of what was found."""
        if self.is_repeat(number):
            return None
        for refusal, line in ((5, self.number_fault(number)), (6, within(n, 1, (self.size - 32) // 4))):
            if line:
                return refusal, 0, None, line
        table = []
        for k in range(1, n + 1):
            table.append(Entry(image, self.size, k, n, table, self.entries))
        broken = []
        for order, (refusal, rule) in enumerate(RULES):
            for e in table:
                line = rule(e)
                if line:
                    broken.append((e.k, order, refusal, e.byte, line))
        if broken:
            k, _, refusal, byte, line = min(broken)
            return refusal, k, byte, line
        self.numbers.append(number)
        self.entries.extend(table)
        return None

    def end(self):
        behind, _, parts = open_record((e, False) for e in reversed(self.entries))
        return f'end {"free" if behind is None else "owed" if behind == "last" else "inside"} {parts}\n'.encode()


def refusal_text(i, refusal, place, byte, line):
    """The three lines of a refusal at the i-th group of the file."""
    where = f'group {i}' if byte is None else f'group {i} byte {byte}'
    return f'refused {refusal} at {place}\n{where}: {WHAT[refusal]}\n{line}\n'.encode()


# ---- The program -----------------------------------------------------------------------------------------------------

def steps(data):
    """Yields up to which byte the input is asked for, before looking at any of it that far; returns the text, once it is settled,
    and whether the input's end was met for it."""
    def number(at, width=4):
        return int.from_bytes(data[at:at + width], 'big')

    yield 4
    if number(0) != 1:
        return BAD, False
    yield 8
    size = number(4)
    if not 64 <= size <= 4096:
        return BAD, False
    yield 12
    groups = number(8)
    if not 1 <= groups <= 1024:
        return BAD, False
    images = 12 + 4 * groups + 4
    yield images
    if number(images - 4) != groups * size:
        return BAD, False
    first = number(12, 2)
    line = within(first, 1, LAST_NUMBER)
    if line:
        return refusal_text(1, 3, 0, None, line), False
    run = Run(size, first)
    for i in range(groups):
        at = images + i * size
        yield at + size
        fault = run.group_fault(data[at:at + size], number(12 + 4 * i, 2), number(14 + 4 * i, 2))
        if fault:
            return refusal_text(i + 1, *fault), False
    if len(data) > images + groups * size:
        yield images + groups * size + 1
        return BAD, False
    return run.end(), True


def moments(data):
    """The one piece of text, with how many bytes of the input had been taken, and whether the input's end had been met."""
    asked, going = 0, steps(data)
    while True:
        try:
            asked = next(going)
        except StopIteration as settled:
            text, ended = settled.value
            return [(asked, ended, text)]
        if asked > len(data):
            return [(len(data), True, BAD)]


def listing(data):
    """All that the explainer prints of a run."""
    return b''.join(text for _, _, text in moments(data))
