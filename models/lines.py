"""What the program `cutlines` must print for its input, computed without it.

Document 01's `cutlines` line by line: what a frame is, the one book of the whole run, the areas that are lent, and the form of an
answer. The book is models/books.py's and the cuts are models/cuts.py's; each cut is done once more with a plain
dictionary of the words that the loads brought, and both must agree. Nothing here comes from the Rattle code, nor from the Rust, whose
answers stand in the first part of the file: where the file is what this script says, the two agree.

From the repository's root, to write the file that the gate compares with:

    python3 models/lines.py > target/lines && mv target/lines crates/cutlines/stdout

and to see that the file is what this script says:

    python3 models/lines.py | diff - crates/cutlines/stdout
"""

import os
import re

from books import ABSENT_MEANS, WHITE_SPACE, Book, Refused
from cuts import ALL, CUT, SEARCH, TOKEN_WIDTH, Areas, Words, cut, test

INPUT = os.path.join(os.path.dirname(__file__), "..", "crates", "cutlines", "stdin")
LOAD = "load"
KINDS = {1: LOAD, 2: CUT, 3: ALL, 4: SEARCH}
DIGITS = b"0123456789abcdefABCDEF"
LONGEST = 1024

# The areas that are lent: root entries, slots of two numbers and records; characters and one more, edges and tokens.
SIZES = (256, 2 * 1024, 256, 256)
WORK, EDGES, PLACES = 1025, 1024, 512


def lines_of(text):
    """Nothing after the last LF is no line."""
    lines = text.split(b"\n")
    return lines if lines[-1] else lines[:-1]


def frame_of(line):
    """Kind and bytes, or None where the line is no frame."""
    if any(digit not in DIGITS for digit in line) or len(line) % 2 or not line:
        return None
    kind, *text = bytes.fromhex(line.decode())
    return (KINDS[kind], bytes(text)) if kind in KINDS and len(text) <= LONGEST else None


class Run:
    def __init__(self):
        self.book = Book(SIZES)
        self.book.prepare()
        self.plain = Words("")

    def load(self, text):
        """The number and the line; the lines before a refused one have entered."""
        number, line = map(int, self.book.load(text).split(", line "))
        for entered in lines_of(text)[: line if number == 0 else line - 1]:
            fields = re.findall(f"[^{WHITE_SPACE}]+", entered.decode())
            if fields:
                self.plain.frequencies[fields[0]] = int(fields[1]) if len(fields) > 1 else ABSENT_MEANS
        self.plain = Words("\n".join(f"{word} {frequency}" for word, frequency in self.plain.frequencies.items()))
        return number, line

    def cut(self, kind, sentence):
        """The number, and the tokens that were written."""
        area, again = [7] * (PLACES * TOKEN_WIDTH), [7] * (PLACES * TOKEN_WIDTH)
        try:
            characters = test(self.book, WORK, area, sentence)
        except Refused as refused:
            return refused.number, []
        number, count = cut(Areas(self.book), characters, kind, EDGES, area)
        assert (number, count) == cut(self.plain, characters, kind, EDGES, again) and area == again, sentence
        return number, area[: count * TOKEN_WIDTH]

    def answer(self, line):
        frame = frame_of(line)
        if frame is None:
            return "fe"
        kind, text = frame
        if kind == LOAD:
            number, count = self.load(text)
            return f"{number:02x}{count:04x}"
        number, tokens = self.cut(kind, text)
        return f"{number:02x}{len(tokens) // TOKEN_WIDTH:04x}" + "".join(f"{n:04x}" for n in tokens)


if __name__ == "__main__":
    run = Run()
    with open(INPUT, "rb") as file:
        for line in lines_of(file.read()):
            print(run.answer(line))
