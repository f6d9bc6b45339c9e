"""What the program `book_checks` must print, computed without it.

A plain model of document 01's book, with the areas as lists of numbers: the trie in its root table and slots, a line that enters, a
word that is added or looked up, and what each call refuses. UTF-8 is Python's own strict codec. Nothing here comes from the Rattle code
but the form of the lines that are printed: the cases, which say what is done to which areas, are the program's input,
crates/book_checks/stdin.

From the repository's root, to write the file that the gate compares with:

    python3 models/books.py > crates/book_checks/stdout

and to see that the file is what this script says:

    python3 models/books.py | diff - crates/book_checks/stdout
"""

import os
import re
from operator import setitem

# ---- document 01's rules of a line, note 7's of document 02 for an absent frequency, and the logarithm

WHITE_SPACE = "\t-\r \x85\xa0\u1680\u2000-\u200a\u2028\u2029\u202f\u205f\u3000"
GREATEST = 4294967295
ABSENT_MEANS = 1
LAST_NODE = 16777215
MINUS_INFINITY = "minus infinity"
# A link is a child below this, and above it a word number plus one; a record is a frequency below it.
HALF = 2**32


def decoded(text):
    """The characters of a text, or None where it is malformed."""
    try:
        return text.decode("utf-8", "strict")
    except UnicodeDecodeError:
        return None


def frequency_of(field):
    digits = field[1:] if field.startswith("+") else field
    if not digits or any(d not in "0123456789" for d in digits) or int(digits) > GREATEST:
        return None
    return int(digits)


def logarithm(n):
    if n == 0:
        return MINUS_INFINITY
    e = n.bit_length() - 1
    m = n * 2 ** (31 - e)
    bits = 0
    for _ in range(24):
        p = m * m
        if p >= 2**63:
            bits, m = bits * 2 + 1, p // 2**32
        else:
            bits, m = bits * 2, p // 2**31
    return e * 2**24 + bits


# ---- the book


class Refused(Exception):
    """A call ends with one of document 01's numbers."""

    def __init__(self, number):
        self.number = number


def hashed(c):
    return c * 0x9E3779B1 % 2**32


def with_bit(x, n):
    return x if x // 2**n % 2 else x + 2**n


class Book:
    def __init__(self, sizes):
        """Areas that nobody has prepared: sevens, and a head of zeros."""
        self.areas = [[7] * n for n in sizes]
        self.roots, self.slots, self.records, self.logarithms = self.areas
        self.head = [0, 0, 0, 0]

    # -- sizes and head

    def slot_count(self):
        return len(self.slots) // 2

    def test_sizes(self):
        roots, slots, records, logarithms = map(len, self.areas)
        if not (1 <= roots <= 65536 and slots in [2 * 2**n for n in range(4, 23)]):
            raise Refused(1)
        if not (1 <= records <= 1048576 and records == logarithms):
            raise Refused(1)

    def test_head(self):
        records, slots, following, total = self.head
        beyond = records > len(self.records) or slots > self.slot_count()
        if beyond or slots * 8 > self.slot_count() * 6 or total > GREATEST or not 1 <= following <= LAST_NODE:
            raise Refused(8)

    # -- cells: a slot is a key and then a link, a root entry is a link

    def key(self, slot):
        return self.slots[2 * slot]

    def set_key(self, slot, key):
        self.slots[2 * slot] = key

    def keys(self):
        return self.slots[::2]

    # -- steps: a place is None (the root node), ("root", i) or ("slot", i)

    def link(self, place):
        kind, i = place
        return self.roots[i] if kind == "root" else self.slots[2 * i + 1]

    def set_link(self, place, link):
        kind, i = place
        if kind == "root":
            self.roots[i] = link
        else:
            self.slots[2 * i + 1] = link

    def set_child(self, place, child):
        self.set_link(place, self.link(place) // HALF * HALF + child)

    def word_number(self, place):
        """-1 where no word ends at the place."""
        return self.link(place) // HALF - 1

    def set_word_number(self, place, n):
        self.set_link(place, (n + 1) % HALF * HALF + self.link(place) % HALF)

    def node(self, place):
        return 0 if place is None else self.link(place) % 2**24

    def bits_set(self, place, c):
        if place is None:
            return True
        kind, i = place
        h = hashed(c)
        if not self.link(place) // 2 ** (24 + h // 2**25 % 8) % 2:
            return False
        return kind == "root" or self.key(i) // 2 ** (48 + h // 2**28) % 2 == 1

    def set_bits(self, place, c):
        if place is None:
            return
        kind, i = place
        h = hashed(c)
        self.set_link(place, with_bit(self.link(place), 24 + h // 2**25 % 8))
        if kind == "slot":
            self.set_key(i, with_bit(self.key(i), 48 + h // 2**28))

    def slots_from(self, key):
        """All slots, from a key's start onward."""
        n = self.slot_count()
        start = key * 0x9E3779B97F4A7C15 % 2**64 // (2**64 // n)
        return [(start + i) % n for i in range(n)]

    def probe(self, key):
        """The slot with the key, or the empty one where it would stand; the second part says which."""
        for at in self.slots_from(key):
            if self.key(at) == 0:
                return at, False
            if self.key(at) % 2**48 == key:
                return at, True
        raise Refused(8)

    def in_root(self, place, c):
        return place is None and c < len(self.roots)

    def step(self, place, c):
        """The place of a child, or None where there is none."""
        if self.in_root(place, c):
            return ("root", c) if self.roots[c] % HALF != 0 else None
        at, found = self.probe(self.node(place) * 2**21 + c + 1)
        return ("slot", at) if found else None

    # -- a word

    def record_of(self, word):
        """The record of a word that is held, or None."""
        place = None
        for c in word:
            if not self.bits_set(place, c):
                return None
            place = self.step(place, c)
            if place is None:
                return None
        return self.record_at(place)

    def record_at(self, place):
        """The record of a word's last step, or None."""
        n = self.word_number(place)
        if n >= self.head[0]:
            raise Refused(8)
        return None if n == -1 else n

    def needed(self, word):
        """How many slots and nodes a new word takes. No bits are tested; a last step that is there already may be damaged."""
        place = None
        for i, c in enumerate(word):
            below = self.step(place, c)
            if below is None:
                nodes = len(word) - i
                return nodes - self.in_root(place, c), nodes
            place = below
        self.record_at(place)
        return 0, 0

    def new_node(self):
        self.head[2] += 1
        return self.head[2] - 1

    def new_step(self, place, c):
        if self.in_root(place, c):
            below = "root", c
        else:
            key = self.node(place) * 2**21 + c + 1
            at = next(i for i in self.slots_from(key) if self.key(i) == 0)
            self.set_key(at, key)
            below = "slot", at
        self.set_link(below, self.new_node())
        return below

    def insert(self, word):
        place, is_new = None, False
        for c in word:
            self.set_bits(place, c)
            below = None if is_new else self.step(place, c)
            is_new = below is None
            place = self.new_step(place, c) if is_new else below
        self.set_word_number(place, self.head[0])

    def frequency(self, record):
        return self.records[record] % HALF

    def enter(self, word, frequency):
        self.test_head()
        record, total = self.record_of(word), self.head[3]
        if record is not None:
            if self.frequency(record) > total:
                raise Refused(8)
            total -= self.frequency(record)
        else:
            slots, nodes = self.needed(word)
        if total + frequency > GREATEST:
            raise Refused(5)
        if record is None:
            if self.head[0] == len(self.records):
                raise Refused(6)
            if (self.head[1] + slots) * 8 > self.slot_count() * 6:
                raise Refused(7)
            if self.keys().count(0) < slots or self.head[2] + nodes > LAST_NODE:
                raise Refused(8)
            self.insert(word)
            record, above = self.head[0], 0
            self.head[0] += 1
            self.head[1] += slots
        else:
            above = self.records[record] // HALF
        self.records[record], self.logarithms[record] = above * HALF + frequency, logarithm(frequency)
        self.head[3] = total + frequency

    # -- the calls

    def prepare(self):
        self.test_sizes()
        for area in self.areas:
            area[:] = [0] * len(area)
        self.head = [0, 0, 1, 0]
        return "0"

    def load_line(self, line):
        text = decoded(line)
        if text is None:
            raise Refused(3)
        fields = re.findall(f"[^{WHITE_SPACE}]+", text)
        if not fields:
            return
        frequency = frequency_of(fields[1]) if len(fields) > 1 else ABSENT_MEANS
        if frequency is None:
            raise Refused(4)
        self.enter([ord(c) for c in fields[0]], frequency)

    def load(self, text):
        try:
            self.test_sizes()
        except Refused:
            return "1, line 0"
        lines = text.split(b"\n")
        if lines[-1] == b"":
            lines.pop()
        for i, line in enumerate(lines):
            try:
                self.load_line(line)
            except Refused as refused:
                return f"{refused.number}, line {i + 1}"
        return f"0, line {len(lines)}"

    def add(self, word, frequency):
        try:
            self.test_sizes()
            characters = decoded(word)
            if characters is None:
                raise Refused(3)
            if characters == "":
                return "0, frequency 0"
            if frequency > GREATEST:
                raise Refused(4)
            self.enter([ord(c) for c in characters], frequency)
        except Refused as refused:
            return f"{refused.number}, frequency 0"
        return f"0, frequency {frequency}"

    def get(self, word):
        self.test_sizes()
        characters = decoded(word)
        if characters is None:
            raise Refused(3)
        if characters == "":
            return "0, absent"
        self.test_head()
        record = self.record_of([ord(c) for c in characters])
        return "0, absent" if record is None else f"0, frequency {self.frequency(record)}"


# ---- scripts

PRIME = 4294967291


def counted(x):
    return PRIME - 1 if x == MINUS_INFINITY else x % PRIME


def sum_of(book):
    total = 1
    for area in book.areas:
        for x in area:
            total = (total * 1000003 + counted(x)) % PRIME
    return total


def store(book, name, start, end, value):
    """A value into the places of a part: `table` and `root` are the root entries' children and word numbers, `keys`, `children` and
    `words` the slots', `frequencies` whole records, `floats` the logarithms. The word number 2^32 - 1 stands for none."""
    count, put = {
        "table": (len(book.roots), lambda i: book.set_child(("root", i), value)),
        "root": (len(book.roots), lambda i: book.set_word_number(("root", i), value)),
        "keys": (book.slot_count(), lambda i: book.set_key(i, value)),
        "children": (book.slot_count(), lambda i: book.set_child(("slot", i), value)),
        "words": (book.slot_count(), lambda i: book.set_word_number(("slot", i), value)),
        "frequencies": (len(book.records), lambda i: setitem(book.records, i, value)),
        "floats": (len(book.logarithms), lambda i: setitem(book.logarithms, i, value)),
    }[name]
    for i in range(start, min(end, count)):
        put(i)


def answer(book, command):
    name, _, rest = command.partition(b" ")
    if name == b"prepare":
        return book.prepare()
    if name == b"load":
        return book.load(rest)
    if name == b"get":
        return book.get(rest)
    if name == b"add":
        word, _, frequency = rest.partition(b" ")
        return book.add(word, int(frequency))
    numbers = [int(n) for n in rest.split(b" ")]
    if name == b"head":
        book.head = numbers
    else:
        store(book, name.decode(), *numbers)
    return "stored"


def shown(command):
    text = decoded(command)
    if text is None:
        return "".join(f"<{b}>" if b >= 0x80 else shown(bytes([b])) for b in command)
    return "".join("/" if c == "\n" else f"<{ord(c)}>" if c < " " else c for c in text)


def play(heading, sizes, commands):
    roots, slots, records, logarithms = sizes
    yield f"{heading} (root {roots}, slots {slots}, records {records} {logarithms})"
    book = Book(sizes)
    after = sum_of(book)
    for command in commands:
        before = after
        try:
            said = answer(book, command)
        except Refused as refused:
            said = str(refused.number)
        after = sum_of(book)
        head = " ".join(map(str, book.head))
        yield f"{shown(command)}: {said}; head {head}; areas {after}, {'unchanged' if before == after else 'changed'}"


# ---- the cases


def cases(program):
    """The cases of a program's input, each in its parts. Paragraphs that begin with # are notes."""
    with open(os.path.join(os.path.dirname(__file__), "..", "crates", program, "stdin"), "rb") as file:
        paragraphs = file.read().split(b"\n\n")
    for paragraph in paragraphs:
        if not paragraph.startswith(b"#"):
            yield re.sub(rb"\\(n|r|[0-9A-F]{2})", unescaped, paragraph.replace(b"\n", b"")).split(b"|")


def unescaped(escape):
    name = escape[1]
    return {b"n": b"\n", b"r": b"\r"}.get(name) or bytes.fromhex(name.decode())


def lengths(sizes):
    return [int(n) for n in re.findall(rb"\d+", sizes)]


def commands_of(script):
    """The commands, each of which ends with a semicolon."""
    return script.split(b";")[:-1]


TITLE = "What is done: the answer; head (records used, slots used, next node, total); sum over the areas"

if __name__ == "__main__":
    print(TITLE)
    for heading, sizes, script in cases("book_checks"):
        print()
        print("\n".join(play(heading.decode(), lengths(sizes), commands_of(script))))
