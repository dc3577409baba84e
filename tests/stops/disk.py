"""A folder's three files, and what a stop of the machine may leave of them behind some calls that calls.so told."""
import itertools
import os
import subprocess

HERE = os.path.dirname(os.path.realpath(__file__))
FILES = 'journal', 'gate', 'slots'


def content(folder):
    """A folder's files."""
    found = {}
    for name in FILES:
        try:
            with open(f'{folder}/{name}', 'rb') as file:
                found[name] = file.read()
        except FileNotFoundError:
            found[name] = b''
    return found


def put(folder, files):
    """Makes the folder hold these files; one that is None isn't there."""
    os.makedirs(folder, exist_ok=True)
    for name in FILES:
        if files[name] is not None:
            with open(f'{folder}/{name}', 'wb') as file:
                file.write(files[name])
        elif os.path.exists(f'{folder}/{name}'):
            os.remove(f'{folder}/{name}')


def changed(file, call, part=None, fill=None):
    """A file behind a call, or behind a write of which only so many bytes came and the rest is filled."""
    name, _, at, digits = call
    if name == 'cut':
        return file[:int(at)].ljust(int(at), b'\0')
    bytes_, at = bytes.fromhex(digits), int(at)
    if part is not None:
        bytes_ = bytes_[:part] + bytes([fill]) * (len(bytes_) - part)
    return file[:at].ljust(at, b'\0') + bytes_ + file[at + len(bytes_):]


def states(start, calls):
    """What one file may hold after these calls: what a sync has seen is there, of the rest some."""
    synced, rest = start, []
    for call in calls:
        if call[0] == 'sync':
            for it in rest:
                synced = changed(synced, it)
            rest = []
        else:
            rest.append(call)
    found = [synced]
    for number, call in enumerate(rest):
        front = synced
        for it in rest[:number]:
            front = changed(front, it)
        found.append(changed(front, call))
        if call[0] == 'write' and call[3]:
            half = len(call[3]) // 4
            found += [changed(front, call, *it) for it in ((0, 0), (0, 1), (0, 255), (half, 0))]
    return list(dict.fromkeys(found))


def images(start, calls):
    """What the folder may hold after these calls."""
    each = [states(start[name] or b'', [it for it in calls if it[1] == name]) for name in FILES]
    return [dict(zip(FILES, it)) for it in itertools.product(*each)]


def some_image(random, start, calls):
    """One of these."""
    return {name: random.choice(states(start[name] or b'', [it for it in calls if it[1] == name])) for name in FILES}


def is_second(image):
    """Whether it is of the second version, whose gates and sums are in `slots`."""
    slots, gate = image['slots'], image['gate']
    return bool(len(slots) >= 26 and slots[0] == 1 or not gate and slots and slots[0] != 1)


def without_sums(image):
    """An image of the second version in the first: its gates and lengths in `gate`, and no `slots`."""
    slots = image['slots']
    return image | {'gate': b''.join(slots[at:at + 9] for at in range(0, len(slots), 25)), 'slots': None}


def entries(image):
    """How many entries stand: the open gates before the first closed one, in the file that has them."""
    gates = image['slots'][::25] if is_second(image) else image['gate'][::9]
    return next((number for number, gate in enumerate(gates) if gate != 1), len(gates))


def library_in(room):
    """calls.so, built in a folder, or None where there is no C compiler."""
    library = f'{room}/calls.so'
    try:
        subprocess.run(['cc', '-O1', '-shared', '-fPIC', '-o', library, f'{HERE}/calls.c', '-ldl'], check=True)
    except (OSError, subprocess.CalledProcessError):
        return None
    return library
