"""What the program `cut_checks` must print, computed without it.

Document 01's `cut`, `cut_all` and `cut_for_search` in plain lists: the order of the refusals, the blocks by its ranges, the words that a position's walk
meets, the route in Python's doubles, the tokens. The walk goes by the steps of the areas, which models/books.py has; where the
book is built by calls alone, the cut is done once more with a plain dictionary of its words, and both must agree. Nothing here comes
from the Rattle code but the form of the lines that are printed: the cases, which say what is cut in which areas, are the program's
input, crates/cut_checks/stdin.

From the repository's root, to write the file that the gate compares with:

    python3 models/cuts.py > crates/cut_checks/stdout

and to see that the file is what this script says:

    python3 models/cuts.py | diff - crates/cut_checks/stdout
"""

import struct

from books import ABSENT_MEANS, MINUS_INFINITY, Book, Refused, cases, commands_of, decoded, lengths, logarithm, shown, store

# ---- document 01's classes of characters; the last three ranges of Han are note 9's of document 02

HAN = [
    (0x4E00, 0x9FFF), (0x3400, 0x4DBF), (0xF900, 0xFAFF), (0x20000, 0x2A6DF), (0x2A700, 0x2B73F), (0x2B740, 0x2B81F),
    (0x2B820, 0x2CEAF), (0x2CEB0, 0x2EBEF), (0x2F800, 0x2FA1F), (0x30000, 0x3134F), (0x31350, 0x323AF), (0x2EBF0, 0x2EE5F),
]  # fmt: skip
LETTERS_AND_DIGITS = "abcdefghijklmnopqrstuvwxyzABCDEFGHIJKLMNOPQRSTUVWXYZ0123456789"


def is_han(c):
    return any(first <= ord(c) <= last for first, last in HAN)


def in_class_of_cut(c):
    return is_han(c) or c in LETTERS_AND_DIGITS or c in "+#&._%-"


def blocks(sentence, in_class):
    """(start, end, of the class) for each maximal run."""
    start = 0
    for i in range(1, len(sentence) + 1):
        if i == len(sentence) or in_class(sentence[i]) != in_class(sentence[start]):
            yield start, i, in_class(sentence[start])
            start = i


# ---- the words that start at a position of a block, with their stored logarithms, ends rising


def double(stored):
    return float("-inf") if stored == MINUS_INFINITY else float(stored)


class Areas:
    """A book as its areas: a walk steps through them, and tests the word number of each step that it finds."""

    def __init__(self, book):
        self.book = book
        self.log_total = double(logarithm(book.head[3]))

    def words(self, block, at):
        book, place = self.book, None
        for end in range(at + 1, len(block) + 1):
            c = ord(block[end - 1])
            if not book.bits_set(place, c):
                return
            place = book.step(place, c)
            if place is None:
                return
            record = book.record_at(place)
            if record is not None:
                yield end, double(book.logarithms[record])


class Words:
    """A book built by calls, as its words with their frequencies."""

    def __init__(self, dictionary):
        fields = [line.split(" ") for line in dictionary.split("\n") if line]
        self.frequencies = {word: int(given[0]) if given else ABSENT_MEANS for word, *given in fields}
        self.log_total = double(logarithm(sum(self.frequencies.values())))

    def words(self, block, at):
        for end in range(at + 1, len(block) + 1):
            if block[at:end] in self.frequencies:
                yield end, double(logarithm(self.frequencies[block[at:end]]))


# ---- the tokens of a block, as (start, end) within it


def edges_of(walks, block, room):
    edges, count = [], 0
    for at in range(len(block)):
        here = []
        for edge in walks.words(block, at):
            if count == room:
                raise Refused(10)
            count += 1
            here.append(edge)
        edges.append(here)
    return edges


def route_of(edges, log_total):
    """The end of the best step from each position."""
    n = len(edges)
    scores, ends = [0.0] * (n + 1), [n] * (n + 1)
    for at in reversed(range(n)):
        best = None
        for end, log in edges[at] or [(at + 1, 0.0)]:
            score = (log - log_total) + scores[end]
            if best is None or score > best[0] or (score == best[0] and end > best[1]):
                best = score, end
        scores[at], ends[at] = best
    return ends


def along_route(block, ends):
    """Steps of one ASCII letter or digit join."""

    def is_letter(i):
        return i < len(block) and ends[i] == i + 1 and block[i] in LETTERS_AND_DIGITS

    at = 0
    while at < len(block):
        end = ends[at]
        if is_letter(at):
            while is_letter(end):
                end += 1
        yield at, end
        at = end


def singly(block):
    """Each character, CR LF as one."""
    at = 0
    while at < len(block):
        end = at + (2 if block[at : at + 2] == "\r\n" else 1)
        yield at, end
        at = end


def in_runs(block):
    """Maximal runs of ASCII letters, digits, + # and LF; each other character."""
    at = 0
    while at < len(block):
        end = at + 1
        if block[at] in LETTERS_AND_DIGITS + "+#\n":
            while end < len(block) and block[end] in LETTERS_AND_DIGITS + "+#\n":
                end += 1
        yield at, end
        at = end


def tokens_of_cut(walks, block, in_class, room):
    if not in_class:
        return singly(block)
    return along_route(block, route_of(edges_of(walks, block, room), walks.log_total))


def parts_of(token):
    """The pieces before, between and after . _ and -, as (start, end) within the token; none where there is no such sign."""
    signs = [i for i, c in enumerate(token) if c in "._-"]
    for start, end in zip([0] + [i + 1 for i in signs], signs + [len(token)]) if signs else []:
        part = token[start:end]
        if len(part.encode()) >= 2 and any(c in LETTERS_AND_DIGITS and not c.isdigit() for c in part):
            yield start, end


def tokens_of_search(walks, block, in_class, room):
    """Each token of `cut`, with what search finds in it before it."""
    if not in_class:
        yield from singly(block)
        return
    edges = edges_of(walks, block, room)
    for x, y in along_route(block, route_of(edges, walks.log_total)):
        yield from ((x + start, x + end) for start, end in parts_of(block[x:y]))
        for size in (2, 3):
            if y - x > size:
                yield from ((at, at + size) for at in range(x, y - size + 1) if at + size in [end for end, _ in edges[at]])
        yield x, y


def tokens_of_cut_all(walks, block, in_class):
    if not in_class:
        return in_runs(block)
    return ((at, end) for at in range(len(block)) for end, _ in walks.words(block, at))


# ---- a cut


# The numbers of a token: start and end in characters, in bytes, and in UTF-16 code units (note 6 of document 02).
TOKEN_WIDTH = 6


def units(text):
    """UTF-16 code units: two for a character from U+10000 on, one for any other."""
    return sum(1 if ord(c) < 0x10000 else 2 for c in text)


def test(book, work, area, sentence):
    """1, 2, 3, 9, 8 for the head, in this order; the sentence's characters."""
    book.test_sizes()
    if len(area) % TOKEN_WIDTH != 0:
        raise Refused(1)
    if len(sentence) > 16777215:
        raise Refused(2)
    characters = decoded(sentence)
    if characters is None:
        raise Refused(3)
    if work < len(characters) + 1:
        raise Refused(9)
    book.test_head()
    return characters


def write(area, count, sentence, start, end):
    at = count * TOKEN_WIDTH
    if at == len(area):
        raise Refused(11)
    before, token = sentence[:start], sentence[start:end]
    bytes_before, units_before = len(before.encode()), units(before)
    area[at : at + TOKEN_WIDTH] = [
        start, end, bytes_before, bytes_before + len(token.encode()), units_before, units_before + units(token),
    ]  # fmt: skip


def tokens_of(kind, walks, block, in_class, room):
    if kind == ALL:
        return tokens_of_cut_all(walks, block, in_class)
    return (tokens_of_search if kind == SEARCH else tokens_of_cut)(walks, block, in_class, room)


def cut(walks, sentence, kind, room, area):
    """The number, and how many tokens stand in the area."""
    count = 0
    try:
        for start, end, in_class in blocks(sentence, is_han if kind == ALL else in_class_of_cut):
            for x, y in tokens_of(kind, walks, sentence[start:end], in_class, room):
                write(area, count, sentence, start + x, start + y)
                count += 1
    except Refused as refused:
        return refused.number, count
    return 0, count


# ---- commands


CUT, SEARCH, ALL = "cut", "search", "all"


def arguments(command):
    """Which cut it is, the lengths of the work, edge and token slices, and the sentence."""
    name, _, rest = command.partition(b" ")
    fields = rest.split(b" ", {b"cut": 3, b"find": 3, b"slices": 9, b"all": 3}[name])
    numbers, sentence = [int(n) for n in fields[:-1]], fields[-1]
    if name in (b"cut", b"find"):
        return CUT if name == b"cut" else SEARCH, numbers[:1] * 6, numbers[1:2] * 2, numbers[2], sentence
    if name == b"slices":
        return CUT, numbers[:6], numbers[6:8], numbers[8], sentence
    return ALL, numbers[:2], [0], numbers[2], sentence


def answer(book, words, command):
    kind, work, edges, tokens, sentence = arguments(command)
    area = [7] * tokens
    kept = ""
    try:
        characters = test(book, min(work), area, sentence)
        number, count = cut(Areas(book), characters, kind, min(edges), area)
        if words is not None:
            again = [7] * tokens
            assert (number, count) == cut(words, characters, kind, min(edges), again) and area == again, command
    except Refused as refused:
        number, count = refused.number, 0
        kept = "; work unchanged" if kind == ALL else "; work and edges unchanged"
    places = "".join((" | " if i % TOKEN_WIDTH == 0 else " ") + str(x) for i, x in enumerate(area))
    return f"{number}, tokens {count}{places}{kept}"


def change(book, command):
    """A store of one value into a part of an area."""
    name, *numbers = command.split(" ")
    start, end, value = map(int, numbers)
    if name == "floats":
        value = struct.unpack(">d", value.to_bytes(8, "big"))[0]
    store(book, name, start, end, value)


def play(heading, sizes, dictionary, stores, commands):
    roots, slots, records, logarithms = sizes
    yield f"{heading} (root {roots}, slots {slots}, records {records} {logarithms})"
    book = Book(sizes)
    try:
        yield f"prepare: {book.prepare()}"
    except Refused as refused:
        yield f"prepare: {refused.number}"
    loaded = book.load(dictionary.encode())
    yield f"load {shown(dictionary.encode())}: {loaded}; head {' '.join(map(str, book.head))}"
    plain = Words(dictionary) if not stores else None
    if stores:
        yield "stored " + ";".join(stores)
    for one in stores:
        change(book, one)
    for command in commands:
        if command.startswith(b"head "):
            book.head = [int(n) for n in command.split(b" ")[1:]]
            plain = None
            yield f"{command.decode()}: stored"
        else:
            yield f"{shown(command)}: {answer(book, plain, command)}"


TITLE = "What is done: the number, the tokens written | the token area, a bar before each token's numbers"

if __name__ == "__main__":
    print(TITLE)
    for heading, sizes, dictionary, stores, cuts in cases("cut_checks"):
        print()
        stored = stores.decode().split(";") if stores else []
        print("\n".join(play(heading.decode(), lengths(sizes), dictionary.decode(), stored, commands_of(cuts))))
