"""What the program `checks` must print, computed without it.

UTF-8 and UTF-16 are asked of Python's own strict codecs, the classes of characters are document 01's ranges written out, lines and
frequencies follow its rules on Python's characters, and the logarithm L is its definition in whole numbers. Nothing here comes from the Rattle code.

From the repository's root, to write the file that the gate compares with:

    python3 models/checks.py > crates/checks/stdout

and to see that the file is what this script says:

    python3 models/checks.py | diff - crates/checks/stdout
"""

import re


def number_of(n, thing):
    return f"{n} {thing}" if n == 1 else f"{n} {thing}s"


def hexadecimal(numbers):
    return " ".join(f"{b:02X}" for b in numbers) or "no bytes"


def range_of(first, last, places):
    return f"{first:0{places}X}" if first == last else f"{first:0{places}X}..{last:0{places}X}"


def maximal_ranges(answers):
    """(first, last, answer) for each maximal range of indices with one answer."""
    first = 0
    for i in range(1, len(answers) + 1):
        if i == len(answers) or answers[i] != answers[first]:
            yield first, i - 1, answers[first]
            first = i


# ---- UTF-8 and UTF-16, by Python's codecs


def decoded(text):
    """The characters of a whole text, or None where it is malformed."""
    try:
        return text.decode("utf-8", "strict")
    except UnicodeDecodeError:
        return None


def character_at(text, at):
    """What stands at a position: (scalar value, bytes), "malformed" or "end"."""
    if at >= len(text):
        return "end"
    for width in range(1, 5):
        part = text[at : at + width]
        if len(part) == width and decoded(part):
            return ord(decoded(part)), width
    return "malformed"


def shown(character):
    if isinstance(character, str):
        return character
    value, width = character
    units = len(chr(value).encode("utf-16-le", "strict")) // 2
    return f"char U+{value:04X}, {number_of(width, 'byte')}, {number_of(units, 'unit')}"


def read(text):
    """How many bytes the first character of a text takes, as words."""
    character = character_at(text, 0)
    return character if isinstance(character, str) else number_of(character[1], "byte")


def accepted(which, answers):
    """The bytes with which a character is read."""
    ranges = maximal_ranges(answers)
    return "".join(f" {which} {range_of(a, b, 2)}, {answer}" for a, b, answer in ranges if answer != "malformed")


def encodings():
    yield "RFC 3629: lead byte and second byte, over all pairs, with 80 80 after them"
    rows = [tuple(read(bytes([lead, second, 0x80, 0x80])) for second in range(256)) for lead in range(256)]
    for first, last, row in maximal_ranges(rows):
        after = f" {row[0]}" if len(set(row)) == 1 else accepted("second", row)
        yield f"lead {range_of(first, last, 2)}:{after}"
    yield ""
    yield "RFC 3629: third and fourth byte x"
    yield "E1 80 x 80:" + accepted("third", [read(bytes([0xE1, 0x80, x, 0x80])) for x in range(256)])
    yield "F1 80 x 80:" + accepted("third", [read(bytes([0xF1, 0x80, x, 0x80])) for x in range(256)])
    yield "F1 80 80 x:" + accepted("fourth", [read(bytes([0xF1, 0x80, 0x80, x])) for x in range(256)])


def first_character(text):
    return f"{hexadecimal(text)}: {shown(character_at(text, 0))}"


BOUNDARIES = [
    "00", "7F", "80",
    "C0 80", "C1 BF", "C2 80", "DF BF",
    "E0 9F BF", "E0 A0 80", "ED 9F BF", "ED A0 80", "ED BF BF", "EE 80 80", "EF BF BF",
    "F0 8F BF BF", "F0 90 80 80", "F4 8F BF BF", "F4 90 80 80", "F5 80 80 80",
    "FE", "FF",
]  # fmt: skip


def boundaries():
    yield "First and last characters, and their neighbours"
    for text in BOUNDARIES:
        yield first_character(bytes.fromhex(text))


def truncations():
    yield "Characters cut short, by themselves, before 41 and before C3"
    for text in "é", "你", "😀":
        whole = text.encode("utf-8")
        for cut in range(len(whole)):
            for after in b"", b"\x41", b"\xc3":
                yield first_character(whole[:cut] + after)
        yield first_character(whole)


def positions():
    yield "Positions within a text, at its end and beyond"
    for text, at in ("", 0), ("", 1), ("é", 0), ("é", 1), ("é", 2), ("é", 3), ("é", 2**64 - 1):
        whole = text.encode("utf-8")
        yield f"{hexadecimal(whole)} at {at}: {shown(character_at(whole, at))}"


def counts():
    yield "Characters of whole texts"
    whole = "aé你😀b".encode("utf-8")
    for text in b"", whole, b"\xff" + whole, whole[:6] + b"\x80" + whole[6:], whole + b"\xe4":
        characters = decoded(text)
        answer = "malformed" if characters is None else number_of(len(characters), "character")
        yield f"{hexadecimal(text)}: {answer}"


# ---- classes of characters: document 01's ranges; the last three of Han are note 9's of document 02


def numbers(*ranges):
    """The numbers of some ranges, each given by its first and its last; one number alone is its own range."""
    each = [r if isinstance(r, tuple) else (r, r) for r in ranges]
    return {c for first, last in each for c in range(first, last + 1)}


def signs(text):
    return {ord(c) for c in text}


WHITE_SPACE = numbers(
    (0x0009, 0x000D), 0x0020, 0x0085, 0x00A0, 0x1680, (0x2000, 0x200A), 0x2028, 0x2029, 0x202F, 0x205F, 0x3000
)
HAN_MAIN_BLOCK = numbers((0x4E00, 0x9FFF))
HAN_EXTENSIONS = numbers(
    (0x3400, 0x4DBF),
    (0xF900, 0xFAFF),
    (0x20000, 0x2A6DF),
    (0x2A700, 0x2B73F),
    (0x2B740, 0x2B81F),
    (0x2B820, 0x2CEAF),
    (0x2CEB0, 0x2EBEF),
    (0x2F800, 0x2FA1F),
    (0x30000, 0x3134F),
    (0x31350, 0x323AF),
    (0x2EBF0, 0x2EE5F),
)
HAN = HAN_MAIN_BLOCK | HAN_EXTENSIONS
LETTERS_AND_DIGITS = signs("0123456789ABCDEFGHIJKLMNOPQRSTUVWXYZabcdefghijklmnopqrstuvwxyz")

CLASSES = {
    "White_Space": WHITE_SPACE,
    "Han, main block": HAN_MAIN_BLOCK,
    "Han, extensions": HAN_EXTENSIONS,
    "Han": HAN,
    "class of cut": HAN | LETTERS_AND_DIGITS | signs("+#&._%-"),
    "class of cut_all": HAN,
    "ASCII letters and digits": LETTERS_AND_DIGITS,
    "connectors": signs("._-"),
    "joining outside Han in cut_all": LETTERS_AND_DIGITS | signs("+#\n"),
}


def classes():
    yield "Classes of characters, over all numbers from 0 to 110000"
    for name, members in CLASSES.items():
        ranges = maximal_ranges([c in members for c in range(0x110001)])
        yield f"{name}:" + "".join(f" {range_of(a, b, 4)}" for a, b, inside in ranges if inside)


# ---- frequencies and lines: document 01's rules, on characters; that an absent frequency means 1 is note 7's of document 02

WHITE_SPACE_TEXT = "".join(chr(c) for c in sorted(WHITE_SPACE))


def frequency_of(field):
    """The frequency that a field of characters says, or None."""
    digits = field[1:] if field.startswith("+") else field
    if not digits or any(d not in "0123456789" for d in digits) or int(digits) > 4294967295:
        return None
    return int(digits)


FREQUENCIES = [
    "0", "7", "+7", "+0", "0000000000000000000007", "4294967295", "+04294967295",
    "", "+", "++7", "-0", "7a", "a7", "7.", "/7", ":7", "4294967296", "18446744073709551616", "9" * 32, "\uFF11",
]  # fmt: skip


def frequencies():
    yield "Frequencies"
    for field in FREQUENCIES:
        said = frequency_of(field)
        yield f"{hexadecimal(field.encode())}: {'refused' if said is None else said}"


def line_of(line):
    text = decoded(line)
    if text is None:
        return "malformed"
    fields = re.findall(f"[^{WHITE_SPACE_TEXT}]+", text)
    if not fields:
        return "blank"
    said = frequency_of(fields[1]) if len(fields) > 1 else 1
    if said is None:
        return "no frequency"
    start = len(text[: text.index(fields[0])].encode())
    return f"word from {start} to {start + len(fields[0].encode())}, frequency {said}"


LINES = [
    "甲 5".encode(), "甲".encode(), "甲\u3000\r".encode(), "甲 0".encode(), " \t甲  5\t n x".encode(), "\u3000甲\u30005\u3000".encode(),
    "a\x85+7".encode(), "a\u200B5".encode(), b"a 5\r", b"\x00 1", b"", " \t\r\xA0".encode(), b"a +", b"a x", "a \uFF11".encode(),
    b"a 5 \xFF", b"\xE7\x94 5", b"a x \xC3",
]  # fmt: skip

TEXT = b"a 1\nb\r\n\nc"


def dictionary_lines():
    yield "Lines of a dictionary"
    for line in LINES:
        yield f"{hexadecimal(line)}: {line_of(line)}"
    for text, start in [(TEXT, 0), (TEXT, 4), (TEXT, 7), (TEXT, 8), (b"", 0)]:
        end = (text + b"\n").index(b"\n", start)
        yield f"{hexadecimal(text)} from {start}: line to {end}"


# ---- the logarithm L: document 01's definition


def logarithm(n):
    if n == 0:
        return "minus infinity"
    e = n.bit_length() - 1
    m = n * 2 ** (31 - e)
    bits = 0
    for _ in range(24):
        p = m * m
        if p >= 2**63:
            bits, m = bits * 2 + 1, p // 2**32
        else:
            bits, m = bits * 2, p // 2**31
    return e * 2**24 + bits


LOGARITHMS_OF = [
    0, 1, 2, 3, 4, 5, 7, 64, 128, 256, 1000, 65535, 65536, 16777215, 16777216,
    2147483647, 2147483648, 4294967294, 4294967295,
]  # fmt: skip


def logarithms():
    yield "Logarithm L"
    for n in LOGARITHMS_OF:
        yield f"{n}: {logarithm(n)}"


def looked_up():
    yield "Logarithm L, looked up"
    for n in 0, 1, 2, 3, 1000, 1023, 1024, 1025, 4294967295:
        yield f"{n}: {logarithm(n)}"
    yield "from 0 up as worked out: 3000 numbers"


GROUPS = [
    encodings, boundaries, truncations, positions, counts, classes, frequencies, dictionary_lines, logarithms, looked_up,
]  # fmt: skip
if __name__ == "__main__":
    print("\n\n".join("\n".join(group()) for group in GROUPS))
