"""Random run files, for `hold` of the lister and of the explainer. The same numbers drawn give the same files.

A third of the files are lawful, a third lawful and then spoilt somewhere, the rest made of entries at random and of noise. In
some of the lawful ones groups are repeated, before any is spoilt. In some of the spoilt ones a total is put off, with room for it
or without.
"""
from lister.cases import head, image, entry

FLAGS = [0x01, 0x07, 0x40, 0x42, 0x60, 0x63, 0x80]


def some_size(r):
    return r.choice([64, 64, 64, 65, 72, 100, 128, r.randint(64, 400), r.randint(64, 4096), 4096])


def some_groups(r):
    return r.choice([1, 1, 2, 2, 3, 4, 5, 8, r.randint(1, 40)])


def some_first(r):
    return r.choice([1, 1, 2, 300, 65535, 65534, 65530, r.randint(1, 65535)])


def lawful_entries(r, size, phase, total):
    """The entries of one lawful group, and how it leaves the run. Data never passes what the entries leave."""
    room = (size - 32) // 4 - 1                     # entries beside the skip, were there no data
    most = r.randint(0, min(room, r.choice([2, 4, 8, room])))
    limit = size - 32 - 4 * (most + 1)
    entries, offset = [], 0

    def part(flag, n):
        nonlocal offset
        offset += n
        entries.append((flag, n))

    while len(entries) < most:
        left = limit - offset
        if phase == 'inside':
            if left < 1:
                return None
            n, middle = r.choice([left, r.randint(1, left)]), r.random() < 0.4
            if not middle and most == 1:
                n = left - r.randint(0, 3)          # so much that a total has no room and is owed
            total += n
            part(0x40 if middle else 0x60, n)
            if middle:
                break
            phase = 'owed'
        elif phase == 'owed':
            entries.append((0x01, total))
            phase, total = 'free', 0
        elif left < 1 or r.random() < 0.3:
            entries.append((0x07, r.randint(0, 1)))
        elif r.random() < 0.2:
            total = r.choice([left, r.randint(1, left)])
            part(0x42, total)
            phase = 'inside'
            break
        else:
            part(0x63, r.choice([left, r.randint(1, left), 1]))
    entries.append((0x80, size - offset))
    return entries, phase, total


def lawful_run(r):
    """A lawful run: its size, its pairs and its groups' entries, b4 set from some entry of the run on, or from none."""
    size, phase, total, groups = some_size(r), 'free', 0, []
    for _ in range(some_groups(r)):
        began = phase
        while True:
            made = lawful_entries(r, size, phase, total)
            if made and (began == 'free' or len(made[0]) > 1):
                break
        entries, phase, total = made
        groups.append(entries)
    whole = sum(map(len, groups))
    left = r.choice([whole, whole, r.randint(0, whole)])
    for i, g in enumerate(groups):
        groups[i] = [(f | 0x08 if k >= left else f, n) for k, (f, n) in enumerate(g)]
        left = max(0, left - len(g))
    first = min(some_first(r), 65536 - len(groups)) if r.random() < 0.9 else some_first(r)
    return size, [((first + i) % 65536, len(g)) for i, g in enumerate(groups)], groups


def repeated(r, pairs, groups):
    """Groups handed in once more, some with another entry count, the contents of another group, or none that are known."""
    for _ in range(r.choice([1, 1, 2, 5])):
        i = r.randrange(len(pairs))
        number, n = pairs[i]
        again = r.choice([groups[i], groups[i], r.choice(groups), [(0xFF, 0)]])
        pairs = pairs[:i + 1] + [(number, r.choice([n, n, len(again), 0, 9, 65535]))] + pairs[i + 1:]
        groups = groups[:i + 1] + [again] + groups[i + 1:]
    return pairs, groups


def put_off(r, size, pairs, groups):
    """One group that begins with a last holds nothing else but a skip, whose count is on either side of 44 and now and then told
    wrongly, or its b4 the other way. None where no group begins so."""
    lasts = [i for i, g in enumerate(groups) if g[0][0] & ~0x08 == 0x60]
    if not lasts:
        return None
    i = r.choice(lasts)
    flag, count = groups[i][0][0], r.choice([40, 43, 44, 44, 44, 45, r.randint(40, size - 1)])
    b4, more = r.choice([flag, flag, flag, flag ^ 0x08]) & 0x08, r.choice([0, 0, 0, 0, -1, 1])
    alone = [(flag, size - count), (0x80 | b4, count + more)]
    return pairs[:i] + [(pairs[i][0], 2)] + pairs[i + 1:], groups[:i] + [alone] + groups[i + 1:]


def written(r, size, pairs, groups):
    fill = r.choice([0x00, 0x41, 0xFF, 0x80, 0x63])
    images = [image([entry(f, n) for f, n in g], size, fill, r.choice([0x00, 0xFF, 0x80])) for g in groups]
    return head(pairs, size) + b''.join(images)


def some_count(r, size):
    return r.choice([0, 1, 2, size, size - 32, size - 40, r.randint(0, size), 16777214, 16777215, 16777191, 256, 65536])


def spoilt_entries(r, size, pairs, groups):
    """One entry or pair changed, or b4 in a whole group."""
    i = r.randrange(len(groups))
    g = list(groups[i])
    k = r.randrange(len(g))
    flag, n = g[k]
    how = r.randrange(9)
    if how == 0:
        g[k] = (r.choice(FLAGS) | r.choice([0, 8]), n)
    elif how == 1:
        g[k] = (r.randrange(256), n)
    elif how == 2:
        g[k] = (flag, r.choice([some_count(r, size), 16777215]))
    elif how == 3:
        g[k] = (flag, max(0, min(16777215, n + r.choice([-1, 1]))))
    elif how == 4:
        g[k] = (flag ^ 0x08, n)
    elif how == 5 and len(g) > 1:
        j = r.randrange(len(g))
        g[k], g[j] = g[j], g[k]
    elif how == 6:
        g = g[:k] + g[k + 1:] if len(g) > 1 else g
    elif how == 7:
        g = [(f ^ 0x08, c) for f, c in g]
    else:
        a, c = pairs[i]
        numbers, counts = [a - 1, a + 1, a + 256, 0], [0, c - 1, c + 1, 9, 1017, 65535]
        spoilt = r.choice([(r.choice(numbers) % 65536, c), (a, r.choice(counts) % 65536)])
        pairs = pairs[:i] + [spoilt] + pairs[i + 1:]
    return pairs, groups[:i] + [g] + groups[i + 1:]


def spoilt_bytes(r, data):
    """The file cut, lengthened, or with a byte changed, the first sections above all."""
    how = r.randrange(5)
    if how == 0:
        return data[:r.randrange(len(data))]
    if how == 1:
        return data[:r.randrange(min(len(data), 30))]
    if how == 2:
        return data + r.randbytes(r.choice([1, 1, 3, 64]))
    at = r.randrange(min(len(data), 24)) if how == 3 else r.randrange(len(data))
    return data[:at] + bytes([r.choice([0, 1, data[at] ^ 1 << r.randrange(8), r.randrange(256)])]) + data[at + 1:]


def noise(r):
    """Sound sections with entries at random, or noise from the first byte on."""
    if r.random() < 0.2:
        return r.randbytes(r.randrange(200))
    size = some_size(r)
    groups = []
    for _ in range(some_groups(r)):
        most = (size - 32) // 4
        n = r.randint(1, min(most, 8))
        groups.append([(r.choice(FLAGS) | r.choice([0, 0, 0, 8]), some_count(r, size)) for _ in range(n - 1)] + [(0x80, r.choice([size, size - 1, some_count(r, size)]))])
    first = some_first(r)
    return written(r, size, [((first + i) % 65536, len(g)) for i, g in enumerate(groups)], groups)


def some_file(r, i):
    size, pairs, groups = lawful_run(r)
    if r.random() < 0.3:
        pairs, groups = repeated(r, pairs, groups)
    if i % 3 == 0:
        return written(r, size, pairs, groups)
    if i % 3 == 1:
        put = put_off(r, size, pairs, groups) if r.random() < 0.5 else None
        pairs, groups = put or (pairs, groups)
        for _ in range(r.choice([0, 0, 1] if put else [1, 1, 2])):
            pairs, groups = spoilt_entries(r, size, pairs, groups)
        return written(r, size, [(a, n) for a, n in pairs], groups)
    return noise(r) if r.random() < 0.5 else spoilt_bytes(r, written(r, size, pairs, groups))
