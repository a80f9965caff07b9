"""What the lister prints of a run, by document 01 and the change requests alone: one function for each rule, in their words.

It shares nothing with the crates, and is what `hold` compares the lister with. `moments` says at which byte of the input
each piece of text is due.
"""

# "The group": flag, bit b4 = 0, of each kind; with b4 = 1 it is 8 more.
FLAGS = {
    0x01: 'total', 0x07: 'separator', 0x40: 'middle', 0x42: 'start', 0x60: 'last', 0x63: 'entire', 0x80: 'skip',
}
B4 = 0x08

# "Counts of kinds 3 to 6": the kinds that carry data.
PARTS = ('middle', 'start', 'last', 'entire')

LONGEST_RECORD = 16777215
LAST_NUMBER = 65535

BAD = b'bad run file\n'


class BadRun(Exception):
    """A section out of range, short input or extra bytes."""


class Refusal(Exception):
    def __init__(self, number, place):
        self.number, self.place = number, place


# ---- One entry -------------------------------------------------------------------------------------------------------

def known(flag):
    """8: "No other flag is valid." """
    return flag in FLAGS or (flag & B4 and flag - B4 in FLAGS)


def kind_of(flag):
    return FLAGS[flag] if flag in FLAGS else FLAGS[flag - B4]


def b4_kept(before, flag):
    """9: once an entry has it set, "all following entries of this and all following groups" have it. """
    return not before or bool(flag & B4)


# "Which entry may follow".
FOLLOWS = {
    'free': ('start', 'separator', 'entire', 'skip'),
    'after start or middle': ('skip',),
    'inside': ('middle', 'last'),
    'after last': ('total', 'skip'),
    'owed': ('total',),
}


def follow_kept(stand, kind, k, n):
    """10: the kind may follow, and "Skip is always the last entry and stands nowhere else". """
    return kind in FOLLOWS[stand] and (kind == 'skip') == (k == n)


def count_refusal(kind, total, count):
    """Which count is wrong: "19 zero part, 20 separator above 1, 21 record too long, 22 total differs"; 0 if none is."""
    if kind in PARTS and count == 0:
        return 19
    if kind == 'separator' and count > 1:
        return 20
    most = {'start': LONGEST_RECORD - 1, 'middle': LONGEST_RECORD - 1 - total, 'last': LONGEST_RECORD - total}
    if kind in most and count > most[kind]:
        return 21
    return 22 if kind == 'total' and count != total else 0


def room_kept(kind, offset, count, size, n):
    """12: "data would pass L − 32 − 4n". """
    return kind not in PARTS or offset + count <= size - 32 - 4 * n


def skip_kept(kind, offset, count, size):
    """13: the skip's count is "L less all data bytes before it". """
    return kind != 'skip' or count == size - offset


def owed_kept(stand, kind, count):
    """23: no "group of two entries, last then skip, whose skip count is 44 or more". A last is always entry 1."""
    return not (stand == 'after last' and kind == 'skip' and count >= 44)


def stand_after(stand, kind):
    if kind in ('total', 'separator', 'entire'):
        return 'free'
    if kind in ('start', 'middle'):
        return 'after start or middle'
    if kind == 'last':
        return 'after last'
    return stand


def sum_after(total, kind, count):
    """The parts so far of the record that is open."""
    if kind == 'start':
        return count
    if kind in ('middle', 'last'):
        return total + count
    return total if kind == 'skip' else 0


def entry_at(image, size, k):
    """ "Entry k (k from 1) is the four bytes from L − 32 − 4k": its flag and its count. """
    at = size - 32 - 4 * k
    return image[at], int.from_bytes(image[at + 1:at + 4], 'big')


# ---- One group -------------------------------------------------------------------------------------------------------

def leave(stand):
    """How a group leaves the run."""
    return {'after start or middle': 'inside', 'after last': 'owed'}.get(stand, stand)


class Reader:
    """ "A reader starts with L and the first number." """

    def __init__(self, size, first):
        if not 64 <= size <= 126632:
            raise Refusal(2, 0)
        if not 1 <= first <= LAST_NUMBER:
            raise Refusal(3, 0)
        self.size, self.next, self.phase, self.sum, self.b4 = size, first, 'free', 0, False
        self.last = None

    def repeats(self, number):
        """ "A group with the number of the last accepted group of this run"; before any was accepted there is none. """
        return self.last is not None and number == self.last

    def read(self, image, number, n):
        """The rows of a group that is accepted, None of a repeat; a repeat and a refusal leave the state."""
        if self.repeats(number):
            return None
        if number != self.next or number > LAST_NUMBER:
            raise Refusal(5, 0)
        if n < 1 or 32 + 4 * n > self.size:
            raise Refusal(6, 0)
        stand, b4, total, offset, rows = self.phase, self.b4, self.sum, 0, []
        for k in range(1, n + 1):
            flag, count = entry_at(image, self.size, k)
            if not known(flag):
                raise Refusal(8, k)
            kind = kind_of(flag)
            if not b4_kept(b4, flag):
                raise Refusal(9, k)
            if not follow_kept(stand, kind, k, n):
                raise Refusal(10, k)
            wrong = count_refusal(kind, total, count)
            if wrong:
                raise Refusal(wrong, k)
            if not room_kept(kind, offset, count, self.size, n):
                raise Refusal(12, k)
            if not skip_kept(kind, offset, count, self.size):
                raise Refusal(13, k)
            if not owed_kept(stand, kind, count):
                raise Refusal(23, k)
            rows.append((kind, offset, count))
            stand, b4, total = stand_after(stand, kind), bool(flag & B4), sum_after(total, kind, count)
            offset += count if kind in PARTS else 0
        self.last, self.next, self.phase, self.sum, self.b4 = number, number + 1, leave(stand), total, b4
        return rows


# ---- The bench program -----------------------------------------------------------------------------------------------

class Source:
    """The input, with how much of it was taken and whether its end was met."""

    def __init__(self, data):
        self.data, self.taken, self.ended = data, 0, False

    def take(self, n):
        """n bytes; short input is a bad run file."""
        if self.taken + n > len(self.data):
            self.taken, self.ended = len(self.data), True
            raise BadRun
        self.taken += n
        return self.data[self.taken - n:self.taken]

    def number(self):
        """ "All numbers are most significant byte first." """
        return int.from_bytes(self.take(4), 'big')

    def at_end(self):
        if self.taken == len(self.data):
            self.ended = True
            return True
        self.taken += 1
        return False


def sections(source):
    """The sections before the images: L, and the pairs of group number and entry count."""
    if source.number() != 1:
        raise BadRun
    size = source.number()
    if not 64 <= size <= 4096:
        raise BadRun
    groups = source.number()
    if not 1 <= groups <= 1024:
        raise BadRun
    pairs = source.take(4 * groups)
    if source.number() != groups * size:
        raise BadRun
    at = range(0, 4 * groups, 4)
    return size, [(int.from_bytes(pairs[i:i + 2], 'big'), int.from_bytes(pairs[i + 2:i + 4], 'big')) for i in at]


def group_text(number, n, rows):
    """ "The lister prints `repeat` and the number" of a group that has no rows to show, being a repeat. """
    if rows is None:
        return f'repeat {number}\n'.encode()
    lines = [f'group {number} entries {n}'] + [f'{kind} {offset} {count}' for kind, offset, count in rows]
    return ''.join(line + '\n' for line in lines).encode()


def texts(source):
    """Each piece of text, as it falls due."""
    try:
        size, pairs = sections(source)
        reader = Reader(size, pairs[0][0])
        for number, n in pairs:
            image = source.take(size)
            yield group_text(number, n, reader.read(image, number, n))
        if not source.at_end():
            raise BadRun
        yield f'end {reader.phase} {reader.sum}\n'.encode()
    except Refusal as r:
        yield f'refused {r.number} at {r.place}\n'.encode()
    except BadRun:
        yield BAD


def moments(data):
    """Each piece of text with how many bytes of the input had been taken, and whether the input's end had been met."""
    source = Source(data)
    return [(source.taken, source.ended, text) for text in texts(source)]


def listing(data):
    """All that the lister prints of a run."""
    return b''.join(text for _, _, text in moments(data))
