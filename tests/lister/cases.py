#!/usr/bin/env python3
"""The run files of the lister, each with what the documents say is printed of it. `cases.py` writes runs/NAME.run and
runs/NAME.out.

The text beside a case is worked out by hand from document 01 and the change requests, and the model must print the same.
Where it is too long to write out (`MODEL`), the model gives it. The lister gives none.
"""
import os
import sys

HERE = os.path.dirname(os.path.abspath(__file__))
sys.dont_write_bytecode = True
sys.path.insert(0, os.path.dirname(HERE))
from lister import model

MODEL = None
CASES = {}


# ---- How a run is written down ---------------------------------------------------------------------------------------

def number(n, width=4):
    return n.to_bytes(width, 'big')


def entry(flag, count):
    return bytes([flag]) + number(count, 3)


# An entry of each kind with b4 clear; `warned` sets b4.
def total(n): return entry(0x01, n)
def separator(n): return entry(0x07, n)
def middle(n): return entry(0x40, n)
def start(n): return entry(0x42, n)
def last(n): return entry(0x60, n)
def entire(n): return entry(0x63, n)
def skip(n): return entry(0x80, n)
def warned(e): return bytes([e[0] | 0x08]) + e[1:]


def image(entries, size=64, data=0x41, information=0x00):
    """A group: entry 1 nearest to the last 32 bytes, each further one below it, and the rest filled with `data`."""
    table = b''.join(reversed(entries))
    return bytes([data]) * (size - 32 - len(table)) + table + bytes([information]) * 32


def head(pairs, size=64, count=1, groups=None, third=None):
    """The sections before the images. What is not given is as it should be."""
    groups = len(pairs) if groups is None else groups
    third = len(pairs) * size if third is None else third
    return (number(count) + number(size) + number(groups)
            + b''.join(number(a, 2) + number(n, 2) for a, n in pairs) + number(third))


def run(*groups, size=64, first=1):
    """A run of groups, each a list of entries, numbered from `first` on."""
    pairs = [(first + i, len(g)) for i, g in enumerate(groups)]
    return head(pairs, size) + b''.join(image(g, size) for g in groups)


def case(name, data, text):
    """The text is written with its lines indented; each line ends in a newline."""
    assert name not in CASES, name
    CASES[name] = (data, text if text is MODEL else ''.join(l.strip() + '\n' for l in text.strip().split('\n')).encode())


# Groups that many cases use, with the lines they print.
A = [entire(20), separator(0), skip(44)]                # 20 bytes and Separator 1
OPEN = [start(24), skip(40)]                            # begins a record of more than 24 bytes
CLOSE = [last(1), total(25), skip(63)]                  # .. of which one byte was left


# ---- Accepted runs ---------------------------------------------------------------------------------------------------

case('case-a', bytes.fromhex('00 00 00 01 00 00 00 40 00 00 00 01 00 01 00 03 00 00 00 40' + ' 41' * 20
     + ' 80 00 00 2C 07 00 00 00 63 00 00 14' + ' 00' * 32), '''
    group 1 entries 3
    entire 0 20
    separator 20 0
    skip 20 44
    end free 0''')

case('every-name', run(OPEN, [middle(24), skip(40)], [last(1), total(49), separator(1), entire(5), skip(58)]), '''
    group 1 entries 2
    start 0 24
    skip 24 40
    group 2 entries 2
    middle 0 24
    skip 24 40
    group 3 entries 5
    last 0 1
    total 1 49
    separator 1 1
    entire 1 5
    skip 6 58
    end free 0''')

case('every-name-with-b4', run([warned(start(24)), warned(skip(40))], [warned(middle(24)), warned(skip(40))],
     [warned(e) for e in (last(1), total(49), separator(1), entire(5), skip(58))]), '''
    group 1 entries 2
    start 0 24
    skip 24 40
    group 2 entries 2
    middle 0 24
    skip 24 40
    group 3 entries 5
    last 0 1
    total 1 49
    separator 1 1
    entire 1 5
    skip 6 58
    end free 0''')

case('b4-from-the-second-entry', run([entire(3), warned(separator(0)), warned(entire(4)), warned(skip(57))]), '''
    group 1 entries 4
    entire 0 3
    separator 3 0
    entire 3 4
    skip 7 57
    end free 0''')

case('b4-on-the-skip-alone', run([entire(3), warned(skip(61))]), '''
    group 1 entries 2
    entire 0 3
    skip 3 61
    end free 0''')

case('b4-from-the-second-groups-skip-on', run([entire(3), skip(61)], [separator(0), warned(skip(64))],
     [warned(entire(3)), warned(skip(61))]), '''
    group 1 entries 2
    entire 0 3
    skip 3 61
    group 2 entries 2
    separator 0 0
    skip 0 64
    group 3 entries 2
    entire 0 3
    skip 3 61
    end free 0''')

case('b4-through-a-record', run([warned(start(24)), warned(skip(40))], [warned(middle(24)), warned(skip(40))],
     [warned(last(2)), warned(total(50)), warned(skip(62))]), '''
    group 1 entries 2
    start 0 24
    skip 24 40
    group 2 entries 2
    middle 0 24
    skip 24 40
    group 3 entries 3
    last 0 2
    total 2 50
    skip 2 62
    end free 0''')

case('record-over-two-groups', run(OPEN, CLOSE), '''
    group 1 entries 2
    start 0 24
    skip 24 40
    group 2 entries 3
    last 0 1
    total 1 25
    skip 1 63
    end free 0''')

case('record-over-three-groups', run(OPEN, [middle(24), skip(40)], [last(1), total(49), skip(63)]), '''
    group 1 entries 2
    start 0 24
    skip 24 40
    group 2 entries 2
    middle 0 24
    skip 24 40
    group 3 entries 3
    last 0 1
    total 1 49
    skip 1 63
    end free 0''')

case('total-owed-and-paid', run(OPEN, [last(21), skip(43)], [total(45), skip(64)]), '''
    group 1 entries 2
    start 0 24
    skip 24 40
    group 2 entries 2
    last 0 21
    skip 21 43
    group 3 entries 2
    total 0 45
    skip 0 64
    end free 0''')

case('total-owed-skip-40-and-paid', run(OPEN, [last(24), skip(40)], [total(48), skip(64)]), '''
    group 1 entries 2
    start 0 24
    skip 24 40
    group 2 entries 2
    last 0 24
    skip 24 40
    group 3 entries 2
    total 0 48
    skip 0 64
    end free 0''')

case('total-owed-then-more', run(OPEN, [last(21), skip(43)], [total(45), entire(2), start(3), skip(59)]), '''
    group 1 entries 2
    start 0 24
    skip 24 40
    group 2 entries 2
    last 0 21
    skip 21 43
    group 3 entries 4
    total 0 45
    entire 0 2
    start 2 3
    skip 5 59
    end inside 3''')

case('owed-at-the-end', run(OPEN, [last(21), skip(43)]), '''
    group 1 entries 2
    start 0 24
    skip 24 40
    group 2 entries 2
    last 0 21
    skip 21 43
    end owed 45''')

for part, count, parts in [(22, 42, 46), (23, 41, 47), (24, 40, 48)]:
    case(f'owed-at-the-end-skip-{count}', run(OPEN, [last(part), skip(count)]), f'''
    group 1 entries 2
    start 0 24
    skip 24 40
    group 2 entries 2
    last 0 {part}
    skip {part} {count}
    end owed {parts}''')

case('owed-at-the-end-with-b4', run(OPEN, [warned(last(21)), warned(skip(43))]), '''
    group 1 entries 2
    start 0 24
    skip 24 40
    group 2 entries 2
    last 0 21
    skip 21 43
    end owed 45''')

case('owed-at-the-end-size-65', run([start(25), skip(40)], [last(22), skip(43)], size=65), '''
    group 1 entries 2
    start 0 25
    skip 25 40
    group 2 entries 2
    last 0 22
    skip 22 43
    end owed 47''')

case('owed-at-the-end-size-4096', run([start(4056), skip(40)], [last(4053), skip(43)], size=4096), '''
    group 1 entries 2
    start 0 4056
    skip 4056 40
    group 2 entries 2
    last 0 4053
    skip 4053 43
    end owed 8109''')

case('last-of-20-with-total', run(OPEN, [last(20), total(44), skip(44)]), '''
    group 1 entries 2
    start 0 24
    skip 24 40
    group 2 entries 3
    last 0 20
    total 20 44
    skip 20 44
    end free 0''')

case('skip-44-after-a-start-and-a-middle', run([start(20), skip(44)], [middle(20), skip(44)]), '''
    group 1 entries 2
    start 0 20
    skip 20 44
    group 2 entries 2
    middle 0 20
    skip 20 44
    end inside 40''')

case('inside-at-the-end', run(A, OPEN), '''
    group 1 entries 3
    entire 0 20
    separator 20 0
    skip 20 44
    group 2 entries 2
    start 0 24
    skip 24 40
    end inside 24''')

case('inside-after-a-middle', run(OPEN, [middle(10), skip(54)]), '''
    group 1 entries 2
    start 0 24
    skip 24 40
    group 2 entries 2
    middle 0 10
    skip 10 54
    end inside 34''')

case('start-after-a-total', run(OPEN, [last(1), total(25), start(7), skip(56)]), '''
    group 1 entries 2
    start 0 24
    skip 24 40
    group 2 entries 4
    last 0 1
    total 1 25
    start 1 7
    skip 8 56
    end inside 7''')

case('empty-groups', run([skip(64)], [skip(64)], A, [skip(64)]), '''
    group 1 entries 1
    skip 0 64
    group 2 entries 1
    skip 0 64
    group 3 entries 3
    entire 0 20
    separator 20 0
    skip 20 44
    group 4 entries 1
    skip 0 64
    end free 0''')

case('seven-separators', run([separator(0), separator(1)] * 3 + [separator(0), skip(64)]), '''
    group 1 entries 8
    separator 0 0
    separator 0 1
    separator 0 0
    separator 0 1
    separator 0 0
    separator 0 1
    separator 0 0
    skip 0 64
    end free 0''')

case('data-to-the-limit', run([entire(24), skip(40)], [entire(9), entire(1), entire(2), skip(52)], [start(24), skip(40)]), '''
    group 1 entries 2
    entire 0 24
    skip 24 40
    group 2 entries 4
    entire 0 9
    entire 9 1
    entire 10 2
    skip 12 52
    group 3 entries 2
    start 0 24
    skip 24 40
    end inside 24''')

case('gap-and-last-32-bytes-are-not-looked-at', head([(1, 2), (2, 1)])
     + image([entire(3), skip(61)], data=0xFF, information=0xFF) + image([skip(64)], data=0x63, information=0x80), '''
    group 1 entries 2
    entire 0 3
    skip 3 61
    group 2 entries 1
    skip 0 64
    end free 0''')

case('entries-below-the-last-are-gap', head([(1, 2)]) + image([entire(3), skip(61), entry(0xFF, 9), total(7)]), '''
    group 1 entries 2
    entire 0 3
    skip 3 61
    end free 0''')

case('first-number-300', run(A, [skip(64)], first=300), '''
    group 300 entries 3
    entire 0 20
    separator 20 0
    skip 20 44
    group 301 entries 1
    skip 0 64
    end free 0''')

case('size-65', run([entire(25), skip(40)], size=65), '''
    group 1 entries 2
    entire 0 25
    skip 25 40
    end free 0''')

case('size-4096', run([entire(4056), skip(40)], [start(4056), skip(40)], [last(4052), total(8108), skip(44)], size=4096), '''
    group 1 entries 2
    entire 0 4056
    skip 4056 40
    group 2 entries 2
    start 0 4056
    skip 4056 40
    group 3 entries 3
    last 0 4052
    total 4052 8108
    skip 4052 44
    end free 0''')

case('most-entries', run([separator(i % 2) for i in range(1015)] + [skip(4096)], size=4096), MODEL)

case('most-entries-then-one-too-many', head([(1, 1016), (2, 1017)], 4096)
     + image([separator(0)] * 1015 + [skip(4096)], 4096) + image([separator(0)] * 1015 + [skip(4096)], 4096), MODEL)

case('number-65535', run(A, [skip(64)], first=65534), '''
    group 65534 entries 3
    entire 0 20
    separator 20 0
    skip 20 44
    group 65535 entries 1
    skip 0 64
    end free 0''')

case('a-thousand-groups', run(*[A if i % 3 else [entire(1 + i % 24), skip(63 - i % 24)] for i in range(1024)]), MODEL)

case('a-record-over-a-thousand-groups', run(OPEN, *[[middle(24), skip(40)]] * 1022, [last(20), total(24572), skip(44)]), MODEL)


# ---- Repeats: the number of the last accepted group. State and rows stay, contents and entry count are not examined. ----

case('repeat-of-the-first-group', head([(1, 3), (1, 3)]) + image(A) * 2, '''
    group 1 entries 3
    entire 0 20
    separator 20 0
    skip 20 44
    repeat 1
    end free 0''')

case('repeat-in-the-middle', head([(1, 3), (1, 3), (2, 3)]) + image(A) * 3, '''
    group 1 entries 3
    entire 0 20
    separator 20 0
    skip 20 44
    repeat 1
    group 2 entries 3
    entire 0 20
    separator 20 0
    skip 20 44
    end free 0''')

case('repeats-in-a-row', head([(300, 1)] * 4 + [(301, 3)] * 3) + image([skip(64)]) * 4 + image(A) * 3, '''
    group 300 entries 1
    skip 0 64
    repeat 300
    repeat 300
    repeat 300
    group 301 entries 3
    entire 0 20
    separator 20 0
    skip 20 44
    repeat 301
    repeat 301
    end free 0''')

case('repeat-of-65535', head([(65535, 1), (65535, 1)]) + image([skip(64)]) * 2, '''
    group 65535 entries 1
    skip 0 64
    repeat 65535
    end free 0''')

case('repeat-with-other-contents', head([(1, 3), (1, 2), (2, 2)]) + image(A) + image(OPEN) + image([entire(3), skip(61)]), '''
    group 1 entries 3
    entire 0 20
    separator 20 0
    skip 20 44
    repeat 1
    group 2 entries 2
    entire 0 3
    skip 3 61
    end free 0''')

for name, n, contents in [
    ('unknown-flags', 3, b'\xff' * 64), ('a-wrong-skip', 1, image([skip(63)])), ('entry-count-0', 0, image(A)),
    ('entry-count-9', 9, image(A)), ('entry-count-65535', 65535, image(A))]:
    case('repeat-with-' + name, head([(1, 3), (1, n), (2, 1)]) + image(A) + contents + image([skip(64)]), '''
    group 1 entries 3
    entire 0 20
    separator 20 0
    skip 20 44
    repeat 1
    group 2 entries 1
    skip 0 64
    end free 0''')

case('repeat-of-a-start', head([(1, 2), (1, 2), (2, 3)]) + image(OPEN) * 2 + image(CLOSE), '''
    group 1 entries 2
    start 0 24
    skip 24 40
    repeat 1
    group 2 entries 3
    last 0 1
    total 1 25
    skip 1 63
    end free 0''')

for name, again in [('', [middle(24), skip(40)]), ('-with-another-count', [middle(10), skip(54)])]:
    case('repeat-of-a-middle' + name, head([(1, 2), (2, 2), (2, 2), (3, 3)]) + image(OPEN) + image([middle(24), skip(40)]) + image(again)
         + image([last(1), total(49), skip(63)]), '''
    group 1 entries 2
    start 0 24
    skip 24 40
    group 2 entries 2
    middle 0 24
    skip 24 40
    repeat 2
    group 3 entries 3
    last 0 1
    total 1 49
    skip 1 63
    end free 0''')

case('repeat-with-a-total-owed', head([(1, 2), (2, 2), (2, 2), (3, 2)]) + image(OPEN) + image([last(21), skip(43)]) * 2
     + image([total(45), skip(64)]), '''
    group 1 entries 2
    start 0 24
    skip 24 40
    group 2 entries 2
    last 0 21
    skip 21 43
    repeat 2
    group 3 entries 2
    total 0 45
    skip 0 64
    end free 0''')

case('repeat-owed-early', head([(1, 2), (2, 2), (2, 2), (3, 2)]) + image(OPEN) + image([last(21), skip(43)])
     + image([last(20), skip(44)]) + image([total(45), skip(64)]), '''
    group 1 entries 2
    start 0 24
    skip 24 40
    group 2 entries 2
    last 0 21
    skip 21 43
    repeat 2
    group 3 entries 2
    total 0 45
    skip 0 64
    end free 0''')

case('repeat-owed-early-inside', head([(1, 2), (1, 2), (2, 3)]) + image(OPEN) + image([last(20), skip(44)]) + image(CLOSE), '''
    group 1 entries 2
    start 0 24
    skip 24 40
    repeat 1
    group 2 entries 3
    last 0 1
    total 1 25
    skip 1 63
    end free 0''')

case('repeat-then-inside-at-the-end', head([(1, 2), (1, 2)]) + image(OPEN) * 2, '''
    group 1 entries 2
    start 0 24
    skip 24 40
    repeat 1
    end inside 24''')

case('repeat-with-b4-set', head([(1, 2), (1, 2), (2, 1)]) + image([entire(3), skip(61)])
     + image([warned(entire(3)), warned(skip(61))]) + image([skip(64)]), '''
    group 1 entries 2
    entire 0 3
    skip 3 61
    repeat 1
    group 2 entries 1
    skip 0 64
    end free 0''')


# ---- Refusal 3: the first number -------------------------------------------------------------------------------------

case('refused-3', head([(0, 3)]) + image(A), 'refused 3 at 0')
case('refused-3-before-the-images', head([(0, 3), (1, 3)]), 'refused 3 at 0')
case('refused-3-image-short', head([(0, 3)]) + image(A)[:63], 'refused 3 at 0')
case('refused-3-extra-bytes', head([(0, 3)]) + image(A) + b'more', 'refused 3 at 0')
case('refused-3-not-6', head([(0, 0)]), 'refused 3 at 0')


# ---- Refusal 5: neither the next number nor a repeat. The first pair's number starts the run, so a first group cannot break it.

case('refused-5-middle-left-out', head([(7, 1), (9, 1), (10, 1)]) + image([skip(64)]) * 3, '''
    group 7 entries 1
    skip 0 64
    refused 5 at 0''')

case('refused-5-last-lower', head([(7, 1), (8, 1), (7, 1)]) + image([skip(64)]) * 3, '''
    group 7 entries 1
    skip 0 64
    group 8 entries 1
    skip 0 64
    refused 5 at 0''')

case('refused-5-number-0', head([(1, 1), (0, 1)]) + image([skip(64)]) * 2, '''
    group 1 entries 1
    skip 0 64
    refused 5 at 0''')

case('refused-5-equal-middles-exchanged', head([(1, 2), (3, 2), (2, 2), (4, 3)]) + image(OPEN) + image([middle(24), skip(40)]) * 2 + image([last(1), total(73), skip(63)]), '''
    group 1 entries 2
    start 0 24
    skip 24 40
    refused 5 at 0''')

case('refused-5-after-65535-by-0', head([(65535, 1), (0, 1)]) + image([skip(64)]) * 2, '''
    group 65535 entries 1
    skip 0 64
    refused 5 at 0''')

case('refused-5-after-65535-by-1', head([(65535, 1), (1, 1)]) + image([skip(64)]) * 2, '''
    group 65535 entries 1
    skip 0 64
    refused 5 at 0''')

case('refused-5-after-65535-twice', head([(65534, 1), (65535, 1), (65535, 1), (65534, 1)]) + image([skip(64)]) * 4, '''
    group 65534 entries 1
    skip 0 64
    group 65535 entries 1
    skip 0 64
    repeat 65535
    refused 5 at 0''')

case('refused-5-left-out-after-a-repeat', head([(7, 1), (7, 1), (9, 1)]) + image([skip(64)]) * 3, '''
    group 7 entries 1
    skip 0 64
    repeat 7
    refused 5 at 0''')

case('refused-5-not-6', head([(1, 1), (3, 0)]) + image([skip(64)]) * 2, '''
    group 1 entries 1
    skip 0 64
    refused 5 at 0''')


# ---- Refusal 6: the entry count --------------------------------------------------------------------------------------

case('refused-6-first-none', head([(1, 0)]) + image(A), 'refused 6 at 0')
case('refused-6-first-nine', head([(1, 9)]) + image([separator(0)] * 7 + [skip(64)]), 'refused 6 at 0')
case('refused-6-first-65535', head([(1, 65535)]) + image(A), 'refused 6 at 0')
case('refused-6-not-8', head([(1, 9)]) + bytes(64), 'refused 6 at 0')

case('refused-6-middle', head([(1, 3), (2, 0), (3, 3)]) + image(A) * 3, '''
    group 1 entries 3
    entire 0 20
    separator 20 0
    skip 20 44
    refused 6 at 0''')

case('refused-6-last', head([(1, 1), (2, 1), (3, 9)]) + image([skip(64)]) * 3, '''
    group 1 entries 1
    skip 0 64
    group 2 entries 1
    skip 0 64
    refused 6 at 0''')


# ---- Refusal 8: unknown flag -----------------------------------------------------------------------------------------

case('refused-8-first', run([entry(0x43, 20), separator(0), skip(44)]), 'refused 8 at 1')
case('refused-8-middle', run([entire(20), entry(0x00, 0), skip(44)]), 'refused 8 at 2')
case('refused-8-last', run([entire(20), separator(0), entry(0x81, 44)]), 'refused 8 at 3')
case('refused-8-lone', run([entry(0xFF, 64)]), 'refused 8 at 1')
case('refused-8-in-the-last-group', run(A, OPEN, [entry(0x0B, 1), skip(63)]), '''
    group 1 entries 3
    entire 0 20
    separator 20 0
    skip 20 44
    group 2 entries 2
    start 0 24
    skip 24 40
    refused 8 at 1''')
case('refused-8-not-9', run([warned(entire(2)), entry(0x62, 1), skip(61)]), 'refused 8 at 2')
case('refused-8-high-bit', run([entry(0xE3, 20), skip(44)]), 'refused 8 at 1')


# ---- Refusal 9: b4 dropped, at an entry or at a group's edge -----------------------------------------------------------

case('refused-9-middle', run([warned(entire(2)), separator(0), skip(62)]), 'refused 9 at 2')
case('refused-9-last', run([entire(2), warned(separator(0)), skip(62)]), 'refused 9 at 3')
case('refused-9-set-dropped-set', run([warned(separator(0)), separator(0), warned(separator(0)), warned(skip(64))]), 'refused 9 at 2')
case('refused-9-not-10', run([warned(entire(2)), last(1), skip(61)]), 'refused 9 at 2')
for name, table, refusal in [
    ('at-a-groups-edge', [entire(3), skip(61)], 9), ('at-a-groups-edge-set-again', [entire(3), warned(skip(61))], 9),
    ('in-an-empty-group', [skip(64)], 9), ('at-1-not-10', [last(3), warned(skip(61))], 9),
    ('at-1-not-19', [entire(0), warned(skip(64))], 9), ('at-1-but-8', [entry(0x62, 1), warned(skip(63))], 8)]:
    case('refused-9-' + name, run([entire(3), warned(skip(61))], table), f'''
    group 1 entries 2
    entire 0 3
    skip 3 61
    refused {refusal} at 1''')
case('refused-9-at-an-edge-inside', run([warned(start(24)), warned(skip(40))], [middle(24), warned(skip(40))]), '''
    group 1 entries 2
    start 0 24
    skip 24 40
    refused 9 at 1''')
case('refused-9-after-a-repeat-with-b4-clear', head([(1, 2), (1, 2), (2, 1)]) + image([entire(3), warned(skip(61))])
     + image([entire(3), skip(61)]) + image([skip(64)]), '''
    group 1 entries 2
    entire 0 3
    skip 3 61
    repeat 1
    refused 9 at 1''')
case('refused-9-in-the-second-group', run([warned(skip(64))], [warned(entire(2)), skip(62)]), '''
    group 1 entries 1
    skip 0 64
    refused 9 at 2''')


# ---- Refusal 10: entry not allowed here ------------------------------------------------------------------------------

case('refused-10-first-last-while-free', run([last(5), total(5), skip(59)]), 'refused 10 at 1')
case('refused-10-first-middle-while-free', run([middle(5), skip(59)]), 'refused 10 at 1')
case('refused-10-first-total-while-free', run([total(0), skip(64)]), 'refused 10 at 1')
case('refused-10-first-skip-before-the-last', run([skip(64), entire(5), skip(59)]), 'refused 10 at 1')
case('refused-10-middle-skip', run([entire(5), skip(59), skip(59)]), 'refused 10 at 2')
case('refused-10-middle-after-a-start', run([start(5), separator(0), skip(59)]), 'refused 10 at 2')
case('refused-10-middle-second-start', run([start(5), start(5), skip(54)]), 'refused 10 at 2')
case('refused-10-last-entire', run([entire(5), entire(5)]), 'refused 10 at 2')
case('refused-10-last-start', run([entire(5), start(5)]), 'refused 10 at 2')
case('refused-10-last-after-a-start', run([start(5), entire(5)]), 'refused 10 at 2')
case('refused-10-lone-entire', run([entire(5)]), 'refused 10 at 1')

case('refused-10-inside-lone-skip', run(OPEN, [skip(64)]), '''
    group 1 entries 2
    start 0 24
    skip 24 40
    refused 10 at 1''')

case('refused-10-inside-entire', run(OPEN, [entire(1), skip(63)]), '''
    group 1 entries 2
    start 0 24
    skip 24 40
    refused 10 at 1''')

case('refused-10-inside-total', run(OPEN, [total(24), skip(64)]), '''
    group 1 entries 2
    start 0 24
    skip 24 40
    refused 10 at 1''')

case('refused-10-middle-then-last', run(OPEN, [middle(1), last(1), total(26), skip(62)]), '''
    group 1 entries 2
    start 0 24
    skip 24 40
    refused 10 at 2''')

case('refused-10-last-then-entire', run(OPEN, [last(1), entire(1), skip(62)]), '''
    group 1 entries 2
    start 0 24
    skip 24 40
    refused 10 at 2''')

case('refused-10-owed-lone-skip', run(OPEN, [last(21), skip(43)], [skip(64)]), '''
    group 1 entries 2
    start 0 24
    skip 24 40
    group 2 entries 2
    last 0 21
    skip 21 43
    refused 10 at 1''')

case('refused-10-owed-entire', run(OPEN, [last(21), skip(43)], [entire(1), skip(63)]), '''
    group 1 entries 2
    start 0 24
    skip 24 40
    group 2 entries 2
    last 0 21
    skip 21 43
    refused 10 at 1''')

case('refused-10-total-twice', run(OPEN, [last(1), total(25), total(25), skip(63)]), '''
    group 1 entries 2
    start 0 24
    skip 24 40
    refused 10 at 3''')

case('refused-10-last-last', run(OPEN, [last(1)]), '''
    group 1 entries 2
    start 0 24
    skip 24 40
    refused 10 at 1''')

case('refused-10-last-total', run(OPEN, [last(1), total(25)]), '''
    group 1 entries 2
    start 0 24
    skip 24 40
    refused 10 at 2''')

case('refused-10-not-19', run([last(0), total(0), skip(64)]), 'refused 10 at 1')
case('refused-10-not-13', run([entire(5), skip(7), skip(59)]), 'refused 10 at 2')


# ---- Refusals 19 to 22: which count is wrong. A skip has no such rule, so entry n cannot break it. ----------------------

case('refused-19-first-entire-0', run([entire(0), skip(64)]), 'refused 19 at 1')
case('refused-20-first-separator-2', run([separator(2), skip(64)]), 'refused 20 at 1')
case('refused-19-first-start-0', run([start(0), skip(64)]), 'refused 19 at 1')
case('refused-21-not-12', run([start(16777215), skip(64)]), 'refused 21 at 1')
case('refused-20-middle-separator-16777215', run([entire(4), separator(16777215), skip(60)]), 'refused 20 at 2')
case('refused-19-middle-entire-0', run([entire(4), entire(0), skip(60)]), 'refused 19 at 2')

case('refused-19-middle-0', run(OPEN, [middle(0), skip(64)]), '''
    group 1 entries 2
    start 0 24
    skip 24 40
    refused 19 at 1''')

case('refused-19-last-0', run(OPEN, [last(0), total(24), skip(64)]), '''
    group 1 entries 2
    start 0 24
    skip 24 40
    refused 19 at 1''')

case('refused-21-sum-of-a-middle', run(OPEN, [middle(16777191), skip(64)]), '''
    group 1 entries 2
    start 0 24
    skip 24 40
    refused 21 at 1''')

case('refused-21-sum-of-a-last', run(OPEN, [last(16777192), skip(64)]), '''
    group 1 entries 2
    start 0 24
    skip 24 40
    refused 21 at 1''')

case('refused-22-total-one-too-small', run(OPEN, [last(1), total(24), skip(63)]), '''
    group 1 entries 2
    start 0 24
    skip 24 40
    refused 22 at 2''')

case('refused-22-total-one-too-large', run(OPEN, [last(1), total(26), skip(63)]), '''
    group 1 entries 2
    start 0 24
    skip 24 40
    refused 22 at 2''')

case('refused-22-owed-total-differs', run(OPEN, [last(21), skip(43)], [total(21), skip(64)]), '''
    group 1 entries 2
    start 0 24
    skip 24 40
    group 2 entries 2
    last 0 21
    skip 21 43
    refused 22 at 1''')

case('refused-22-owed-total-of-0', run(OPEN, [last(21), skip(43)], [total(0), skip(64)]), '''
    group 1 entries 2
    start 0 24
    skip 24 40
    group 2 entries 2
    last 0 21
    skip 21 43
    refused 22 at 1''')


# ---- Refusal 12: data would pass L − 32 − 4n. Only kinds 3 to 6 can, so not entry n. ----------------------------------

case('refused-12-first-one-too-many', run([entire(25), skip(39)]), 'refused 12 at 1')
case('refused-12-first-by-a-later-entry', run([entire(21), separator(0), skip(43)]), 'refused 12 at 1')
case('refused-12-first-entire-16777215', run([entire(16777215), skip(64)]), 'refused 12 at 1')
case('refused-12-first-start-16777214', run([start(16777214), skip(64)]), 'refused 12 at 1')
case('refused-12-middle', run([entire(10), entire(7), entire(1), skip(46)]), 'refused 12 at 2')
case('refused-12-last-part', run([entire(10), separator(0), entire(7), skip(47)]), 'refused 12 at 3')

case('refused-12-sum-of-a-middle-just-kept', run(OPEN, [middle(16777190), skip(64)]), '''
    group 1 entries 2
    start 0 24
    skip 24 40
    refused 12 at 1''')

case('refused-12-sum-of-a-last-just-kept', run(OPEN, [last(16777191), skip(64)]), '''
    group 1 entries 2
    start 0 24
    skip 24 40
    refused 12 at 1''')


# ---- Refusal 13: skip count wrong. A skip stands at entry n alone. ----------------------------------------------------

case('refused-13-lone', run([skip(63)]), 'refused 13 at 1')
case('refused-13-second', run([entire(20), skip(45)]), 'refused 13 at 2')
case('refused-13-total-counted-as-data', run(OPEN, [last(1), total(25), skip(38)]), '''
    group 1 entries 2
    start 0 24
    skip 24 40
    refused 13 at 3''')
case('refused-13-own-bytes-forgotten', run([entire(20), separator(0), skip(12)]), 'refused 13 at 3')
case('refused-13-zero', run([entire(1), separator(0), separator(0), skip(0)]), 'refused 13 at 4')
case('refused-13-at-byte-0', run([separator(0)] * 7 + [skip(63)]), 'refused 13 at 8')
case('refused-13-in-the-last-group', run(A, [entire(20), skip(43)]), '''
    group 1 entries 3
    entire 0 20
    separator 20 0
    skip 20 44
    refused 13 at 2''')


# ---- Refusal 23: total owed too early. A last is always entry 1 and a skip always the last entry, so it is told at 2. ------

for name, table in [
    ('skip-44', [last(20), skip(44)]), ('skip-45', [last(19), skip(45)]), ('last-of-one', [last(1), skip(63)]),
    ('with-b4', [warned(last(20)), warned(skip(44))]), ('b4-on-the-skip', [last(20), warned(skip(44))])]:
    case('refused-23-' + name, run(OPEN, table), '''
    group 1 entries 2
    start 0 24
    skip 24 40
    refused 23 at 2''')

case('refused-23-though-paid', run(OPEN, [last(20), skip(44)], [total(44), skip(64)]), '''
    group 1 entries 2
    start 0 24
    skip 24 40
    refused 23 at 2''')

case('refused-23-after-a-middle', run(OPEN, [middle(24), skip(40)], [last(20), skip(44)]), '''
    group 1 entries 2
    start 0 24
    skip 24 40
    group 2 entries 2
    middle 0 24
    skip 24 40
    refused 23 at 2''')

case('refused-23-second-record', run(OPEN, [last(21), skip(43)], [total(45), start(20), skip(44)], [last(20), skip(44)]), '''
    group 1 entries 2
    start 0 24
    skip 24 40
    group 2 entries 2
    last 0 21
    skip 21 43
    group 3 entries 3
    total 0 45
    start 0 20
    skip 20 44
    refused 23 at 2''')

case('refused-23-after-a-repeat', head([(1, 2), (1, 2), (2, 2)]) + image(OPEN) * 2 + image([last(20), skip(44)]), '''
    group 1 entries 2
    start 0 24
    skip 24 40
    repeat 1
    refused 23 at 2''')

case('refused-23-size-65', run([start(25), skip(40)], [last(21), skip(44)], size=65), '''
    group 1 entries 2
    start 0 25
    skip 25 40
    refused 23 at 2''')

case('refused-23-size-4096', run([start(4056), skip(40)], [last(4052), skip(44)], size=4096), '''
    group 1 entries 2
    start 0 4056
    skip 4056 40
    refused 23 at 2''')

# What comes before 23: rules of entry 1, and at entry 2 those of 8, 9, 10 and 13. 13 tells a wrong count of 44 or more too.
for name, table, refusal in [
    ('8-not-23', [last(20), entry(0x81, 44)], '8 at 2'), ('9-not-23', [warned(last(20)), skip(44)], '9 at 2'),
    ('10-not-23', [last(20), skip(44), skip(44)], '10 at 2'), ('12-not-23', [last(25), skip(44)], '12 at 1'),
    ('13-not-23', [last(20), skip(45)], '13 at 2'), ('13-of-43', [last(20), skip(43)], '13 at 2'),
    ('13-of-44', [last(21), skip(44)], '13 at 2'), ('19-not-23', [last(0), skip(64)], '19 at 1')]:
    case('refused-' + name, run(OPEN, table), f'''
    group 1 entries 2
    start 0 24
    skip 24 40
    refused {refusal}''')


# ---- The first entry that breaks a rule, and nothing after it ---------------------------------------------------------

case('first-broken-entry-is-told', run([entire(1), separator(2), entry(0x43, 0), skip(1)]), 'refused 20 at 2')
case('refused-and-images-missing', head([(1, 1), (2, 1)]) + image([skip(63)]), 'refused 13 at 1')
case('refused-and-extra-bytes', run([skip(63)]) + b'more', 'refused 13 at 1')
case('refused-and-lawful-groups-after', run([skip(63)], [skip(64)]), 'refused 13 at 1')
case('refused-and-the-same-number-after', head([(1, 1), (1, 1)]) + image([skip(63)]) + image([skip(64)]), 'refused 13 at 1')
case('refused-and-a-repeat-after', head([(1, 1), (2, 1), (1, 1)]) + image([skip(64)]) + image([skip(63)]) + image([skip(64)]), '''
    group 1 entries 1
    skip 0 64
    refused 13 at 1''')
case('refused-after-a-repeat', head([(1, 1), (1, 1), (2, 1)]) + image([skip(64)]) * 2 + image([skip(63)]), '''
    group 1 entries 1
    skip 0 64
    repeat 1
    refused 13 at 1''')
case('refused-after-a-thousand-repeats', head([(1, 1)] * 1023 + [(2, 1)]) + image([skip(64)]) * 1023 + image([skip(63)]), '''
    group 1 entries 1
    skip 0 64
    ''' + 'repeat 1\n' * 1022 + 'refused 13 at 1')


# ---- Bad run files ---------------------------------------------------------------------------------------------------

case('bad-empty', b'', 'bad run file')
case('bad-first-count-short', b'\x00\x00\x00', 'bad run file')
case('bad-first-count-0', head([(1, 3)], count=0) + image(A), 'bad run file')
case('bad-first-count-2', head([(1, 3)], count=2) + image(A), 'bad run file')
case('bad-first-count-turned', head([(1, 3)], count=0x01000000) + image(A), 'bad run file')
case('bad-first-count-alone', number(2), 'bad run file')
case('bad-size-missing', number(1), 'bad run file')
case('bad-size-short', number(1) + number(64)[:3], 'bad run file')
case('bad-size-63', head([(1, 1)], 63) + image([skip(63)], 63), 'bad run file')
case('bad-size-4097', head([(1, 1)], 4097) + image([skip(4097)], 4097), 'bad run file')
case('bad-size-126632', number(1) + number(126632), 'bad run file')
case('bad-size-0', number(1) + number(0), 'bad run file')
case('bad-size-with-a-high-byte', number(1) + number(0x80000040), 'bad run file')
case('bad-groups-missing', number(1) + number(64), 'bad run file')
case('bad-groups-short', number(1) + number(64) + b'\x00\x00', 'bad run file')
case('bad-groups-0', head([], groups=0), 'bad run file')
case('bad-groups-1025', run(*[[skip(64)]] * 1025), 'bad run file')
case('bad-groups-65537', number(1) + number(64) + number(65537), 'bad run file')
case('bad-pairs-missing', head([])[:8] + number(1), 'bad run file')
case('bad-pairs-short', head([(1, 3), (2, 3)])[:19], 'bad run file')
case('bad-third-count-missing', head([(1, 3)])[:16], 'bad run file')
case('bad-third-count-short', head([(1, 3)])[:19], 'bad run file')
case('bad-third-count-one-less', head([(1, 3)], third=63) + image(A), 'bad run file')
case('bad-third-count-one-more', head([(1, 3)], third=65) + image(A), 'bad run file')
case('bad-third-count-of-one-group', head([(1, 3), (2, 3)], third=64) + image(A) * 2, 'bad run file')
case('bad-third-count-0', head([(1, 3)], third=0), 'bad run file')
case('bad-third-count-and-first-number-0', head([(0, 3)], third=65) + image(A), 'bad run file')
case('bad-images-missing', head([(1, 3)]), 'bad run file')
case('bad-first-image-short', run(A)[:-1], 'bad run file')

case('bad-second-image-missing', run(A, A)[:-64], '''
    group 1 entries 3
    entire 0 20
    separator 20 0
    skip 20 44
    bad run file''')

case('bad-second-image-short', run(A, OPEN)[:-1], '''
    group 1 entries 3
    entire 0 20
    separator 20 0
    skip 20 44
    bad run file''')

case('bad-image-short-not-6', head([(1, 0)]) + image(A)[:40], 'bad run file')

case('bad-image-short-not-5', head([(1, 3), (9, 3)]) + image(A) + image(A)[:63], '''
    group 1 entries 3
    entire 0 20
    separator 20 0
    skip 20 44
    bad run file''')

case('bad-image-short-not-a-repeat', head([(1, 3), (1, 3)]) + image(A) + image(A)[:63], '''
    group 1 entries 3
    entire 0 20
    separator 20 0
    skip 20 44
    bad run file''')

case('bad-image-short-not-8', head([(1, 1)]) + bytes(63), 'bad run file')

case('bad-one-extra-byte', run(A) + b'\x00', '''
    group 1 entries 3
    entire 0 20
    separator 20 0
    skip 20 44
    bad run file''')

case('bad-one-extra-byte-after-a-repeat', head([(1, 3), (1, 3)]) + image(A) * 2 + b'\x00', '''
    group 1 entries 3
    entire 0 20
    separator 20 0
    skip 20 44
    repeat 1
    bad run file''')

case('bad-extra-group', run(A, OPEN) + image(CLOSE), '''
    group 1 entries 3
    entire 0 20
    separator 20 0
    skip 20 44
    group 2 entries 2
    start 0 24
    skip 24 40
    bad run file''')

case('bad-extra-byte-after-a-thousand-groups', run(*[[skip(64)]] * 1024) + b'\x00', MODEL)


# ---- Writing them ----------------------------------------------------------------------------------------------------

def main():
    runs = os.path.join(HERE, 'runs')
    os.makedirs(runs, exist_ok=True)
    for name in os.listdir(runs):
        os.remove(os.path.join(runs, name))
    wrong, by_hand = 0, 0
    for name, (data, text) in CASES.items():
        by_model = model.listing(data)
        if text is MODEL:
            text = by_model
        else:
            by_hand += 1
        if text != by_model:
            wrong += 1
            print(f'{name}: by hand {text!r}, the model {by_model!r}')
        with open(os.path.join(runs, name + '.run'), 'wb') as f:
            f.write(data)
        with open(os.path.join(runs, name + '.out'), 'wb') as f:
            f.write(text)
    print(f'{len(CASES)} run files, {by_hand} worked out by hand, {wrong} of them not as the model says')
    sys.exit(1 if wrong else 0)


if __name__ == '__main__':
    main()
