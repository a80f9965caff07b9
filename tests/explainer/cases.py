#!/usr/bin/env python3
"""What the explainer prints of the lister's run files. `cases.py` writes runs/NAME.out for each tests/lister/runs/NAME.run.

The model gives them. Those of BY_HAND were worked out from document 01 and the change requests before the model had been asked,
and the model must print the same: each refusal, each form of what was found, and each set of permitted kinds. The explainer gives
none. No run file leaves a middle no byte at all: 1,024 groups of 4,096 bytes hold a record of some four million bytes, and
the parts would have to come to 16,777,214.
"""
import os
import sys

HERE = os.path.dirname(os.path.abspath(__file__))
sys.dont_write_bytecode = True
sys.path.insert(0, os.path.dirname(HERE))
from explainer import model

INPUTS = os.path.join(os.path.dirname(HERE), 'lister', 'runs')
RUNS = os.path.join(HERE, 'runs')
BY_HAND = {}


def case(name, text):
    """The text is written with its lines indented; each line ends in a newline."""
    assert name not in BY_HAND, name
    BY_HAND[name] = ''.join(l.strip() + '\n' for l in text.strip().split('\n')).encode()


def names(folder, ending):
    """The files of a folder with this ending, without it."""
    return sorted(f[:-len(ending)] for f in os.listdir(folder) if f.endswith(ending))


def read(folder, name):
    with open(os.path.join(folder, name), 'rb') as f:
        return f.read()


# ---- No refusal: one line, as the lister's last ------------------------------------------------------------------------

case('case-a', 'end free 0')
case('a-record-over-a-thousand-groups', 'end free 0')
case('inside-after-a-middle', 'end inside 34')
case('owed-at-the-end', 'end owed 45')
case('repeat-then-inside-at-the-end', 'end inside 24')
case('bad-empty', 'bad run file')
case('bad-second-image-short', 'bad run file')
case('bad-one-extra-byte', 'bad run file')


# ---- Refusals without an entry -----------------------------------------------------------------------------------------

case('refused-3', '''
    refused 3 at 0
    group 1: the first number is out of range
    found 0, allowed 1 to 65535''')

# Numbers 7, 9, 10.
case('refused-5-middle-left-out', '''
    refused 5 at 0
    group 2: the number is not the next
    found 9, allowed 8 to 8''')

# Numbers 7, 7, 9.
case('refused-5-left-out-after-a-repeat', '''
    refused 5 at 0
    group 3: the number is not the next
    found 9, allowed 8 to 8''')

# After group 65,535 no number is the next.
case('refused-5-after-65535-by-0', '''
    refused 5 at 0
    group 2: the number is not the next
    found 0, none allowed''')

case('refused-5-after-65535-twice', '''
    refused 5 at 0
    group 4: the number is not the next
    found 65534, none allowed''')

# 32 + 4 · 8 = 64.
case('refused-6-first-none', '''
    refused 6 at 0
    group 1: the entry count is out of range
    found 0, allowed 1 to 8''')

# 32 + 4 · 1,016 = 4,096.
case('most-entries-then-one-too-many', '''
    refused 6 at 0
    group 2: the entry count is out of range
    found 1017, allowed 1 to 1016''')


# ---- Refusals at an entry. With L = 64 entry 1 stands at byte 28, entry 2 at 24, entry 3 at 20, entry 8 at 0. ---------------

# Flag 81.
case('refused-8-last', '''
    refused 8 at 3
    group 1 byte 20: no entry has this flag
    found 129''')

# Flag 00.
case('refused-8-middle', '''
    refused 8 at 2
    group 1 byte 24: no entry has this flag
    found 0''')

case('refused-9-last', '''
    refused 9 at 3
    group 1 byte 20: bit b4 went out
    found 0, allowed 1 to 1''')

# Group 1, its repeat, and then group 2 with b4 clear.
case('refused-9-after-a-repeat-with-b4-clear', '''
    refused 9 at 1
    group 3 byte 28: bit b4 went out
    found 0, allowed 1 to 1''')

# Free, before the last entry and at it.
case('refused-10-first-last-while-free', '''
    refused 10 at 1
    group 1 byte 28: this kind may not stand here
    found last, permitted separator start entire''')

case('refused-10-first-middle-while-free', '''
    refused 10 at 1
    group 1 byte 28: this kind may not stand here
    found middle, permitted separator start entire''')

case('refused-10-middle-skip', '''
    refused 10 at 2
    group 1 byte 24: this kind may not stand here
    found skip, permitted separator start entire''')

case('refused-10-last-start', '''
    refused 10 at 2
    group 1 byte 24: this kind may not stand here
    found start, permitted skip''')

case('refused-10-lone-entire', '''
    refused 10 at 1
    group 1 byte 28: this kind may not stand here
    found entire, permitted skip''')

# Inside, before the last entry and at it.
case('refused-10-inside-entire', '''
    refused 10 at 1
    group 2 byte 28: this kind may not stand here
    found entire, permitted middle last''')

case('refused-10-inside-lone-skip', '''
    refused 10 at 1
    group 2 byte 28: this kind may not stand here
    found skip, permitted none''')

case('refused-10-last-last', '''
    refused 10 at 1
    group 2 byte 28: this kind may not stand here
    found last, permitted none''')

# Owed, before the last entry and at it.
case('refused-10-owed-entire', '''
    refused 10 at 1
    group 3 byte 28: this kind may not stand here
    found entire, permitted total''')

case('refused-10-owed-lone-skip', '''
    refused 10 at 1
    group 3 byte 28: this kind may not stand here
    found skip, permitted none''')

# After a last, before the last entry and at it.
case('refused-10-last-then-entire', '''
    refused 10 at 2
    group 2 byte 24: this kind may not stand here
    found entire, permitted total''')

case('refused-10-last-total', '''
    refused 10 at 2
    group 2 byte 24: this kind may not stand here
    found total, permitted skip''')

# After a start or middle, before the last entry and at it.
case('refused-10-middle-after-a-start', '''
    refused 10 at 2
    group 1 byte 24: this kind may not stand here
    found separator, permitted none''')

case('refused-10-middle-then-last', '''
    refused 10 at 2
    group 2 byte 24: this kind may not stand here
    found last, permitted none''')

case('refused-10-last-after-a-start', '''
    refused 10 at 2
    group 1 byte 24: this kind may not stand here
    found entire, permitted skip''')

case('refused-19-middle-0', '''
    refused 19 at 1
    group 2 byte 28: a part of no bytes
    found 0, allowed 1 to 16777215''')

case('refused-20-middle-separator-16777215', '''
    refused 20 at 2
    group 1 byte 24: a separator above 1
    found 16777215, allowed 0 to 1''')

# A start leaves a byte for the last; 24 bytes went before the middle and the last.
case('refused-21-not-12', '''
    refused 21 at 1
    group 1 byte 28: the record is too long
    found 16777215, allowed 1 to 16777214''')

case('refused-21-sum-of-a-middle', '''
    refused 21 at 1
    group 2 byte 28: the record is too long
    found 16777191, allowed 1 to 16777190''')

case('refused-21-sum-of-a-last', '''
    refused 21 at 1
    group 2 byte 28: the record is too long
    found 16777192, allowed 1 to 16777191''')

case('refused-22-total-one-too-small', '''
    refused 22 at 2
    group 2 byte 24: the total is not the sum of its parts
    found 24, allowed 25 to 25''')

# Parts of 24 and 21.
case('refused-22-owed-total-differs', '''
    refused 22 at 1
    group 3 byte 28: the total is not the sum of its parts
    found 21, allowed 45 to 45''')

# Four entries leave 16 bytes; 10 and 7 are one more.
case('refused-12-middle', '''
    refused 12 at 2
    group 1 byte 24: the data would pass into the table
    found 17, allowed 0 to 16''')

# The data of an earlier group is not counted.
case('refused-12-sum-of-a-last-just-kept', '''
    refused 12 at 1
    group 2 byte 28: the data would pass into the table
    found 16777191, allowed 0 to 24''')

case('refused-13-second', '''
    refused 13 at 2
    group 1 byte 24: the skip count is wrong
    found 45, allowed 44 to 44''')

case('refused-13-total-counted-as-data', '''
    refused 13 at 3
    group 2 byte 20: the skip count is wrong
    found 38, allowed 63 to 63''')

case('refused-13-at-byte-0', '''
    refused 13 at 8
    group 1 byte 0: the skip count is wrong
    found 63, allowed 64 to 64''')

# Repeats stand in the file and are counted.
case('refused-after-a-thousand-repeats', '''
    refused 13 at 1
    group 1024 byte 28: the skip count is wrong
    found 63, allowed 64 to 64''')

case('refused-23-after-a-repeat', '''
    refused 23 at 2
    group 3 byte 24: the total had room here
    found 44, allowed 0 to 43''')

# 4,096 − 40 = 4,056.
case('refused-23-size-4096', '''
    refused 23 at 2
    group 2 byte 4056: the total had room here
    found 44, allowed 0 to 43''')


# ---- Writing them ----------------------------------------------------------------------------------------------------

def main():
    os.makedirs(RUNS, exist_ok=True)
    for name in os.listdir(RUNS):
        os.remove(os.path.join(RUNS, name))
    inputs, wrong = names(INPUTS, '.run'), 0
    for name in sorted(BY_HAND.keys() - set(inputs)):
        wrong += 1
        print(f'{name}: there is no such run file')
    for name in inputs:
        by_model = model.listing(read(INPUTS, name + '.run'))
        text = BY_HAND.get(name, by_model)
        if text != by_model:
            wrong += 1
            print(f'{name}: by hand {text!r}, the model {by_model!r}')
        with open(os.path.join(RUNS, name + '.out'), 'wb') as f:
            f.write(text)
    print(f'{len(inputs)} run files, {len(BY_HAND)} worked out by hand, {wrong} of them not as the model says')
    sys.exit(1 if wrong else 0)


if __name__ == '__main__':
    main()
