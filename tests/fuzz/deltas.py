"""Deltas of a base read plainly, and made from a seed: svndiff version 0 in full, and bytes that are none.

`read` is a reader over the whole bytes; `made` makes bytes of a base, mostly with something wrong. No code is shared
with the program's. Run alone it reads its own deltas: `tests/fuzz/deltas.py SEEDS [FIRST]`.
"""
import sys
from random import Random

WINDOW, TEXT = 102400, 1048576
TOO_LONG, BAD_WINDOW = 8, 44


class Refused(Exception):
    """Bytes are refused: the number, and the text of the windows before."""

    def __init__(self, number, text):
        super().__init__(number)
        self.number, self.text = number, text


class Bytes:
    """Bytes, from the front."""

    def __init__(self, data):
        self.data, self.at = data, 0

    def left(self):
        return len(self.data) - self.at

    def take(self, size):
        if size > self.left():
            raise EOFError
        self.at += size
        return self.data[self.at - size:self.at]

    def number(self):
        """A number in groups of seven bits, the most significant first."""
        value = 0
        for _ in range(10):
            byte = self.take(1)[0]
            value = value << 7 | byte & 127
            if value >= 1 << 64:
                raise ValueError
            if byte < 128:
                return value
        raise ValueError


def instructions(code):
    """The instructions in bytes: the kind, the length and the place of each."""
    part = Bytes(code)
    while part.left():
        first = part.take(1)[0]
        kind, length = first >> 6, first & 63
        if kind == 3:
            raise ValueError
        if length == 0:
            length = part.number()
        yield kind, length, part.number() if kind < 2 else 0


def applied(source, code, fresh, target):
    """What a window's instructions make of its view and its new data."""
    made, used = bytearray(), 0
    for kind, length, place in instructions(code):
        if length == 0 or length > target - len(made):
            raise ValueError
        if kind == 0:
            if place + length > len(source):
                raise ValueError
            made += source[place:place + length]
        elif kind == 1:
            if place >= len(made):
                raise ValueError
            for _ in range(length):
                made.append(made[place])
                place += 1
        else:
            if length > len(fresh) - used:
                raise ValueError
            made += fresh[used:used + length]
            used += length
    if len(made) != target or used != len(fresh):
        raise ValueError
    return bytes(made)


def is_view(base, last, offset, size):
    """Whether a view that has a byte lies in the base, and neither end stands before the last one's."""
    return offset + size <= len(base) and offset >= last[0] and offset + size >= last[1]


def judged(code, sizes, source_size):
    """Whether a front of a window's instructions, or of its new data, is wrong by itself."""
    target, size, fresh = sizes
    made = used = 0
    part = Bytes(code)
    while part.left():
        first = part.take(1)[0]
        kind, length = first >> 6, first & 63
        if kind == 3:
            raise ValueError
        try:
            if length == 0:
                length = part.number()
            place = part.number() if kind < 2 else 0
        except EOFError:
            if len(code) == size:
                raise ValueError from None
            return
        if length == 0 or length > target - made:
            raise ValueError
        if kind == 0 and place + length > source_size or kind == 1 and place >= made or kind == 2 and length > fresh - used:
            raise ValueError
        made, used = made + length, used + (length if kind == 2 else 0)
    if len(code) == size and (made != target or used != fresh):
        raise ValueError


def front(data, base):
    """The text that the first windows of bytes make of a base, and whether the bytes end between windows; `Refused` where no
    bytes behind them make it a delta."""
    part, text, last = Bytes(data), bytearray(), (0, 0)
    if not data.startswith(b'SVN\0'):
        if not b'SVN\0'.startswith(data):
            raise Refused(BAD_WINDOW, b'')
        return b'', False
    part.take(4)
    while part.left():
        try:
            offset, seen, target, size, fresh = (part.number() for _ in range(5))
            if max(seen, target, fresh) > WINDOW or target > TEXT - len(text):
                raise Refused(TOO_LONG, bytes(text))
            if seen:
                if not is_view(base, last, offset, seen):
                    raise ValueError
                last = offset, offset + seen
            judged(part.data[part.at:part.at + size], (target, size, fresh), seen)
            code, new = part.take(size), part.take(fresh)
            text += applied(base[offset:offset + seen], code, new, target)
        except EOFError:
            return bytes(text), False
        except ValueError:
            raise Refused(BAD_WINDOW, bytes(text)) from None
    return bytes(text), True


def read(data, base):
    """The text that bytes make of a base; `Refused` where they make none."""
    text, is_between = front(data, base)
    if not is_between:
        raise Refused(BAD_WINDOW, text)
    return text


def spelled(random, value, size=0):
    """A number, at times with zero groups in front."""
    groups = [value & 127]
    while value >> 7:
        value >>= 7
        groups.append(128 | value & 127)
    groups += [128] * max(size - len(groups), random.choice([0] * 9 + [1, 3]))
    return bytes(reversed(groups))[-11:]


def instruction(random, kind, length, place):
    """The bytes of an instruction."""
    if 0 < length < 64 and random.random() < 0.8:
        front = bytes([kind << 6 | length])
    else:
        front = bytes([kind << 6]) + spelled(random, length)
    return front if kind == 2 else front + spelled(random, place)


def some(random, size):
    return bytes(random.choice(b'abcd') for _ in range(size))


def window(random, base, last):
    """A window that is right over the base, and the ends of its view; mostly."""
    offset = random.randrange(last[0], len(base) + 1)
    end = random.randrange(max(offset, last[1]), len(base) + 1) if max(offset, last[1]) <= len(base) else offset
    source, code, fresh, made = end - offset, b'', b'', 0
    for _ in range(random.choice([0, 1, 2, 3, 6])):
        kind = random.choice([k for k in (0, 1, 2) if k == 2 or (source if k == 0 else made)])
        place = random.randrange(source if kind == 0 else made) if kind < 2 else 0
        length = random.choice([1, 2, 5, 63, 64, 70])
        if kind == 0:
            length = min(length, source - place)
        if kind == 2:
            fresh += some(random, length)
        code += instruction(random, kind, length, place)
        made += length
    head = [offset, source, made, len(code), len(fresh)]
    if random.random() < 0.1:
        head[random.randrange(5)] = random.choice([0, 1, 63, 64, WINDOW, WINDOW + 1, 1 << 63, (1 << 64) - 1, len(base)])
    if random.random() < 0.05:
        head[0], last = random.randrange(len(base) + 2), (0, 0)
    return b''.join(spelled(random, it) for it in head) + code + fresh, (offset, end) if source else last


def harmed(random, data):
    """Bytes with one lost, more or another, or all behind it lost."""
    at = random.randrange(len(data))
    byte = bytes([random.choice([0, 1, 5, 63, 64, 65, 127, 128, 129, 192, 255, random.randrange(256)])])
    return random.choice([data[:at], data[:at] + byte + data[at + 1:], data[:at] + byte + data[at:], data[:at] + data[at + 1:]])


def delta_of(random, base):
    """The bytes of a delta of a base, at times with something wrong."""
    data, last = b'SVN\0', (0, 0)
    for _ in range(random.choice([0, 1, 2, 4])):
        more, last = window(random, base, last)
        data += more
    return harmed(random, data) if random.random() < 0.4 else data


def right_delta_of(random, base):
    """The bytes of one that is read."""
    while True:
        data = delta_of(random, base)
        try:
            read(data, base)
            return data
        except Refused:
            pass


def made(random):
    """A base, and the bytes of a delta of it, at times with something wrong."""
    base = some(random, random.choice([0, 1, 10, 70, 300]))
    return base, delta_of(random, base)


def cut(random, data):
    """The same bytes in pieces."""
    found = []
    while data:
        size = random.choice([1, 1, 2, 5, 17, 1 << 20])
        found.append(data[:size])
        data = data[size:]
    return found


def told(random):
    """A base, bytes, and what these come to: a number and a text."""
    base, data = made(random)
    try:
        return base, data, 0, read(data, base)
    except Refused as refused:
        return base, data, refused.number, refused.text


if __name__ == '__main__':
    COUNT, FIRST = int(sys.argv[1]), int(sys.argv[2]) if len(sys.argv) > 2 else 0
    TALLY = {}
    for seed in range(FIRST, FIRST + COUNT):
        answer = told(Random(seed))
        TALLY[answer[2]] = TALLY.get(answer[2], 0) + 1
    print(TALLY)
