"""Windows made from a seed: texts in any spelling that a reader takes, and bytes that are none."""
from made import some
from told import loose_chunks, padded


def number(random):
    """A number that doesn't fit, mostly."""
    return padded(random, random.choice([0, 1, 2, 5, 63, 64, 102400, 102401, 2 ** 63, 2 ** 64 - 1, random.randrange(70)]))


def loose_window(random):
    """A window whose parts needn't fit each other."""
    text = some(random, random.choice([1, 5, 70]))
    code = b''.join(random.choice([bytes([random.randrange(256)]), bytes([128 | min(len(text), 63)]), b'\x80' + number(random)])
                    for _ in range(random.choice([0, 1, 1, 2])))
    head = [padded(random, random.choice([0, 0, 7])), padded(random, random.choice([0] * 8 + [1])), padded(random, len(text)),
            padded(random, len(code)), padded(random, len(text))]
    if random.random() < 0.4:
        head[random.randrange(5)] = number(random)
    return b''.join(head) + code + text


def harmed(random, data):
    """Bytes with one lost, more or another, or all behind it lost."""
    at = random.randrange(len(data))
    byte = bytes([random.choice([0, 1, 5, 64, 127, 128, 129, 134, 192, 255, random.randrange(256)])])
    return random.choice([data[:at], data[:at] + byte + data[at + 1:], data[:at] + byte + data[at + 1:], data[:at] + byte + data[at:],
                          data[:at] + data[at + 1:]])


def made(random):
    """The bytes of a text's windows, mostly with something wrong."""
    data, way = b''.join(loose_chunks(random)(some(random, random.choice([1, 2, 9, 70, 300])))), random.random()
    if way < 0.4:
        return harmed(random, data)
    if way < 0.75:
        data = data if way < 0.6 else b'SVN\0'
        return data + b''.join(loose_window(random) for _ in range(random.choice([1, 1, 2])))
    return data


def cut(random, data):
    """The same bytes in chunks, at times one by one."""
    size = random.choice([1, 1, 3, 1 << 20])
    return [data[at:at + size] for at in range(0, len(data), size)] if random.random() < 0.8 else cut_anyhow(random, data)


def cut_anyhow(random, data):
    found = []
    while data:
        size = random.choice([0, 1, 2, 5, 17])
        found.append(data[:size])
        data = data[size:]
    return found
