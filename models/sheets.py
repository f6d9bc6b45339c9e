"""What the program `fillzero` must write for its input, computed without it; and that input.

Document 02, note 7: a space and 0 right after each word that has no second field; malformed lines as they came. The sheet has each kind
of line. Each line that is written must mean by the rule of today what the sheet's line meant by the old one. Nothing here comes from the
Rattle code.

From the repository's root, to write the two files that the gate takes:

    python3 models/sheets.py --sheet > crates/fillzero/stdin && python3 models/sheets.py > crates/fillzero/stdout

and to see that they are what this script says:

    python3 models/sheets.py --sheet | cmp - crates/fillzero/stdin && python3 models/sheets.py | cmp - crates/fillzero/stdout
"""

import re
import sys

from books import WHITE_SPACE

SPACES = [c for c in map(chr, range(0x3001)) if re.fullmatch(f"[{WHITE_SPACE}]", c)]
CR, LF, WIDE = "\r", "\n", "\u3000"

# A word and no second field, with and without white space before and behind it; what looks like white space and is none stays a part of
# the word (U+001C, 180E, 200B, FEFF), and so do signs and digits.
BARE = ["甲", "打开", "a", "5", "+", "甲" + WIDE + CR, "\t甲", " \t甲 \t", WIDE + "甲" + WIDE, "甲" + CR, "𠮷", "\0", "甲\x01", "é", "\U0010FFFF"]
BARE += ["甲" + sign for sign in "\x1c\u180e\u200b\ufeff"] + ["\ufeff甲", "甲\u200b5"]
BARE += [f"甲{space}" for space in SPACES if space != LF] + [f"{space}甲" for space in SPACES if space != LF] + ["长" * 300]

# A word with a second field, good or bad, and with more behind it.
OTHER = ["甲 5", "甲 0", "甲 1", "甲\t+7", "甲  5\t n x", "甲" + WIDE + "5" + WIDE, "甲 x", "甲 +", "甲 -1", "甲 4294967296", "甲 乙", "甲 5" + CR, " 甲 5"]
OTHER += [f"甲{space}5" for space in SPACES if space != LF]

# Blank lines, and lines that are not UTF-8: cut short, overlong, a surrogate, above U+10FFFF; beside a word, alone, behind white space.
BLANK = ["", CR, " ", "\t" + WIDE + CR]
MALFORMED = [b"\xff", b"\x80", b"\xe7\x94", b"\xe7\x94\xb2\xe7\x94", b"\xc0\x80", b"\xed\xa0\x80", b"\xf4\x90\x80\x80", b"\x85", b"\xa0"]
MALFORMED += [b"\xe7\x94\xb2 \xff", b"\xe7\x94\xb2 5 \xff", b" \xfe\r", b"a\xc3"]

LINES = [line.encode() for line in BARE + OTHER + BLANK] + MALFORMED + ["乙".encode(), b"", "丙".encode() + b"\r", "丁 3".encode(), "戊".encode()]


def fields_of(line):
    """A line's fields, each with where it ends in the text; None where the line is not UTF-8."""
    try:
        text = line.decode()
    except UnicodeDecodeError:
        return None
    return [(found.group(), len(text[: found.end()].encode())) for found in re.finditer(f"[^{WHITE_SPACE}]+", text)]


def filled(line):
    fields = fields_of(line)
    if fields is None or len(fields) != 1:
        return line
    end = fields[0][1]
    return line[:end] + b" 0" + line[end:]


def meaning(line, absent):
    """What a load makes of a line, if an absent frequency counts so much."""
    fields = fields_of(line)
    if fields is None:
        return "malformed"
    if not fields:
        return "blank"
    second = fields[1][0] if len(fields) > 1 else str(absent)
    digits = second[1:] if second.startswith("+") else second
    if not re.fullmatch("[0-9]+", digits) or int(digits) > 4294967295:
        return "no frequency"
    return fields[0][0], int(digits)


def main():
    sheet = b"\n".join(LINES)
    if sys.argv[1:] == ["--sheet"]:
        sys.stdout.buffer.write(sheet)
        return
    out = [filled(line) for line in LINES]
    assert [meaning(line, 1) for line in out] == [meaning(line, 0) for line in LINES]
    assert [filled(line) for line in out] == out
    sys.stdout.buffer.write(b"\n".join(out))


main()
