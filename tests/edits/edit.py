"""What tests/edits/run and tests/edits/gate both need: an edit, the function that it lies in, and the prover's lines."""

import os
import re

FUNCTION = re.compile(r"^\s*(?:pub(?:\([a-z]+\))?\s+)?(?:const\s+)?(?:unsafe\s+)?fn\s+(\w+)")
IMPL = re.compile(r"^impl\b.*?(\w+)(?:<[^{]*>)?\s*(?:where\b.*)?\{?\s*$")
# what an error says where a proof file only names what the edit took away
BY_NAME = r"has no field|is not in scope|has no `|was not admitted|can't be named|cannot be named"


class Edit:
    """One edit: the changed texts by file, the functions that it changes with their paths, and the one where it is one."""

    def __init__(self, path, folder):
        self.name = os.path.basename(path)[: -len(".edit")]
        self.pairs, self.why, self.function, self.places = [], None, None, []
        file = old = None
        with open(path, encoding="utf-8") as it:
            for line in it.read().split("\n"):
                if line.startswith("file: "):
                    file = line[len("file: ") :].strip()
                elif line.startswith("old: "):
                    old = line[len("old: ") :]
                elif line.startswith("new:") and file and old:
                    new = line[len("new:") :]
                    self.pairs.append((file, old, new[1:] if new.startswith(" ") else new))
                    old = None
                elif line.startswith("more:") and self.pairs:
                    file_of, taken, new = self.pairs[-1]
                    self.pairs[-1] = file_of, taken, f"{new}\n{line[len('more: ') :]}"
        texts = {}
        if not self.apply(folder, texts) or not self.pairs:
            self.why = self.why or "it has no pair of old and new"
            return
        places = {place_in(folder, file, old) for file, old, _ in self.pairs if in_file(folder, file, old)}
        self.places = [(it, path_of(folder, it)) for it in sorted(places - {None})]
        if len(places) == 1 and self.places:
            self.function = self.places[0][0]

    def apply(self, folder, texts):
        """Puts the changed texts into texts, over what is there. Says in `why` where that can't be."""
        for file, old, new in self.pairs:
            if file not in texts:
                try:
                    with open(f"{folder}/{file}", encoding="utf-8") as it:
                        texts[file] = it.read()
                except OSError:
                    self.why = f"there is no file {file}"
                    return False
            found = texts[file].count(old)
            if found != 1:
                self.why = f"an old text stands {found} times in {file}"
                return False
            texts[file] = texts[file].replace(old, new)
        return True


def in_file(folder, file, old):
    with open(f"{folder}/{file}", encoding="utf-8") as it:
        return old in it.read()


def place_in(folder, file, old):
    """The function that a text stands in: its file, the type that it is of, its name, its first and its last line."""
    with open(f"{folder}/{file}", encoding="utf-8") as it:
        text = it.read()
    lines = text.split("\n")
    at = text[: text.index(old)].count("\n")
    starts = [n for n, line in enumerate(lines) if FUNCTION.match(line)]
    before = [n for n in starts if n <= at]
    if not file.startswith("src/") or not before:
        return None
    first = before[-1]
    last = min([n for n in starts if n > at], default=len(lines))
    impls = [it for it in map(IMPL.match, lines[: first + 1]) if it]
    is_method = lines[first].startswith(" ")
    return file, impls[-1][1] if is_method and impls else "", FUNCTION.match(lines[first])[1], first + 1, last


def without_brackets(text):
    """A type without what stands in its angle brackets."""
    left, depth = "", 0
    for at, letter in enumerate(text):
        if letter == "<":
            depth += 1
        elif letter == ">" and text[at - 1] != "-":
            depth -= 1
        elif depth == 0:
            left += letter
    return left.strip()


def owner_of(header):
    """What the prover calls the type, the trait or the type with its trait in an item's text: `impl Input for Fuse` is FuseInput."""
    header = " ".join(header.split())
    trait = re.match(r"(?:pub(?:\([a-z]+\))? )?trait (\w+)", header)
    if trait:
        return trait[1]
    names = [it.split("::")[-1].split()[-1] for it in without_brackets(header[len("impl") :]).split(" where ")[0].split(" for ")]
    if len(names) == 1 or names[0] == "Drop":
        return names[-1]
    of_trait = header.split(" for ")[0].rpartition(names[0])[2]
    # (a type parameter of the impl has no part in the name)
    parameters = re.findall(r"[<,] ?(\w+)(?=[:,>])", header.partition(names[0])[0])
    return names[1] + names[0] + "".join(it for it in re.findall(r"\w+", of_trait) if it not in parameters)


def module_of(file):
    return [it for it in re.sub(r"^src/|(/?(lib|main|mod))?\.rt$", "", file).split("/") if it]


def declaring(folder, file, name):
    """The file that declares a type: this one where it does, or where none does."""
    declares = re.compile(rf"^(?:pub(?:\([a-z]+\))? )?(?:struct|enum) {name}\b", re.M)
    files = [file]
    for at, _, names in sorted(os.walk(f"{folder}/src")):
        files += [os.path.relpath(f"{at}/{it}", folder) for it in sorted(names) if it.endswith(".rt")]
    for one in files:
        with open(f"{folder}/{one}", encoding="utf-8") as it:
            if declares.search(it.read()):
                return one
    return file


def path_of(folder, function):
    """A function's path below its crate, as the prover names it: its module, its type, its name. A type's own methods are
    named by the module that declares it, whichever file they stand in."""
    file, _, name, first, _ = function
    with open(f"{folder}/{file}", encoding="utf-8") as it:
        lines = it.read().split("\n")[: first - 1]
    begun = [n for n, line in enumerate(lines) if re.match(r"(?:unsafe )?impl\b|(?:pub(?:\([a-z]+\))? )?trait\b", line)]
    if not begun or "}" in lines[begun[-1] :]:
        return "::".join([*module_of(file), name])
    header = "\n".join(lines[begun[-1] :]).partition("{")[0]
    owner = owner_of(header)
    is_own = header.startswith("impl") and " for " not in without_brackets(" ".join(header.split()))
    return "::".join([*module_of(declaring(folder, file, owner) if is_own else file), owner, name])


def is_of(edit, line):
    """Whether a line of the prover tells an error of a function that an edit changes: in its text, or in its proof."""
    at = re.match(r"(?:note: )?(?:\./)?(\S+?):(\d+):\d+: (.*)", line)
    if not at:
        return False
    where, number, said = at[1], int(at[2]), at[3]
    if any(where == file and first <= number <= last for (file, _, _, first, last), _ in edit.places):
        return "not proved" in said or "found no proof" in said or said.startswith("error")
    parts = [it.lstrip("+") for it in where.split("/")]
    return parts[0] == "proofs" and said.startswith("error") and "::".join(parts[1:-1]) in [path for _, path in edit.places]


def is_judged(status, lines):
    return status != 0 and any(it.startswith("logic=not-proved") for it in lines)


def is_unread(lines, texts):
    """Whether an edited text could not be read, so that no contract was tried."""
    for line in lines:
        at = re.match(r"(?:\./)?(\S+?):\d+:\d+: error: (?:(`[^`]*`): )?(.*)", line)
        if at and (at[1] in texts or at[1].startswith(("src/", "specs/"))) and (not at[2] or re.search(BY_NAME, re.sub(r"`[^`]*`", "", at[3]))):
            return True
    return False


def errors(lines):
    return [it for it in lines if re.match(r"(?:note: )?\S+?:\d+:\d+: ", it) and (": error" in it or "not proved" in it or "found no proof" in it)]


def batches_of(edits):
    """Edits of different functions together, each edit once."""
    batches = []
    for edit in edits:
        room = next((it for it in batches if edit.function[:3] not in [other.function[:3] for other in it]), None)
        if room is None:
            batches.append([edit])
        else:
            room.append(edit)
    return batches
