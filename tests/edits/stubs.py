"""Empties the functions of a crate's copy that an edit doesn't change, so that a check takes them by their contracts."""

import os
import re

from edit import FUNCTION, path_of

# what is made of one function's body, and no other proof names
MADE = re.compile(r"\.proofs\.([\w.+]+)\.(?:Answers|Code|Goals|Invariants|Lts|Proof|Reads|Tie)\b")
CYCLE = re.compile(r"\s*#\[cycle\((\w+)\)\]$")
ANSWERS = """use Rattle.{path}.Goals as goal

pub unreachable-requires : goal.unreachable-requires
unreachable-requires c = ?
"""


def opening_of(lines, first):
    """The line with the brace that opens the body of the function at a line. None where it is only declared, or stands on one line."""
    within = lines[first][: len(lines[first]) - len(lines[first].lstrip())]
    for n in range(first, len(lines)):
        line = lines[n]
        # (what stands further to the left ends the trait or impl)
        if n > first and (FUNCTION.match(line) or line.strip() and not line.startswith(within)):
            return None
        # what stands as far to the right as the `fn` is its signature, or behind it
        if re.match(rf"{within}\S", line) and line.endswith(("{", "}", ";")):
            return n if line.endswith(("{", "{}")) else None
    return None


def functions_in(lines):
    """The functions of a text that `rt fmt` has laid out: the lines of each one's `fn`, its opening and its closing brace."""
    found, last = [], -1
    for first, line in enumerate(lines):
        opens = opening_of(lines, first) if first > last and FUNCTION.match(line) else None
        if opens is not None:
            closing = line[: len(line) - len(line.lstrip())] + "}"
            last = opens if lines[opens].endswith("{}") else lines.index(closing, opens)
            found.append((first, opens, last))
    return found


def attributes_above(lines, first):
    """The lines of a function's attributes that say how it is proved, and the cycle that it is in, if they name one."""
    top = first
    while top > 0 and lines[top - 1].strip() and not lines[top - 1].endswith(("{", "}", ";")):
        top -= 1
    found, cycle, is_within = [], None, False
    for n in range(top, first):
        named = CYCLE.match(lines[n])
        cycle = named[1] if named else cycle
        is_within = is_within or lines[n].strip().startswith("#[tactic(")
        if named or is_within:
            found.append(n)
        is_within = is_within and not lines[n].endswith(")]")
    return found, cycle


def texts_in(folder):
    texts = {}
    for at, _, names in sorted(os.walk(f"{folder}/src")):
        for name in sorted(names):
            if name.endswith(".rt"):
                with open(f"{at}/{name}", encoding="utf-8") as it:
                    texts[os.path.relpath(f"{at}/{name}", folder)] = it.read().split("\n")
    return texts


def named_elsewhere(folder):
    """The paths of the functions of which a proof file names what is made of their bodies, and isn't their own."""
    found = set()
    for at, _, names in os.walk(f"{folder}/proofs"):
        own = ".".join(os.path.relpath(at, f"{folder}/proofs").split(os.sep))
        for name in names:
            with open(f"{at}/{name}", encoding="utf-8") as it:
                found.update(path.replace(".", "::") for path in MADE.findall(it.read()) if path != own)
    return found


def stub(folder, crate, places):
    """Gives each function of the copy in folder the body `unreachable!()`, with a hole for the proof of it, but for those
    at these places and those that are proved together with one of them. Each line keeps its number."""
    texts, kept = texts_in(folder), {(file, first) for file, _, _, first, _ in places}
    found = [(file, *lines, *attributes_above(texts[file], lines[0])) for file in texts for lines in functions_in(texts[file])]
    cycles = {cycle for file, first, _, _, _, cycle in found if (file, first + 1) in kept} - {None}
    named = named_elsewhere(folder)
    stubs = []
    for file, first, opens, last, attributes, cycle in found:
        # (a path is read off the text as it was)
        path = path_of(folder, (file, "", FUNCTION.match(texts[file][first])[1], first + 1, last + 1))
        if (file, first + 1) not in kept and cycle not in cycles and path not in named:
            stubs.append((path, cycle, file, opens, last, attributes))
    for _, _, file, opens, last, attributes in stubs:
        lines = texts[file]
        lines[opens] = re.sub(r"\{\}?$", "{ unreachable!() }", lines[opens])
        for n in [*range(opens + 1, last + 1), *attributes]:
            lines[n] = ""
    for file, lines in texts.items():
        with open(f"{folder}/{file}", "w", encoding="utf-8") as it:
            it.write("\n".join(lines))
    for path, cycle, *_ in stubs:
        leave_a_hole(folder, crate, path.split("::"), cycle)


def leave_a_hole(folder, crate, path, cycle):
    """Puts a hole in the place of what is written of a function's proof. The proof of a cycle is of no function more."""
    proofs = os.path.join(folder, "proofs", *path)
    own_cycle = os.path.join(os.path.dirname(proofs), f"+{path[-1]}")
    cycles = [at for at, _, _ in os.walk(f"{folder}/proofs") if cycle and os.path.basename(at) == f"+{cycle}"]
    for at in [proofs, own_cycle, *cycles]:
        for name in ("Answers", "Invariants", "Proof"):
            if os.path.isfile(f"{at}/{name}.antt"):
                os.remove(f"{at}/{name}.antt")
    os.makedirs(proofs, exist_ok=True)
    with open(f"{proofs}/Answers.antt", "w", encoding="utf-8") as it:
        it.write(ANSWERS.format(path=".".join([crate, "proofs", *path])))
