"""The file that holds the entries of the table of logarithms, computed without it: document 01's L of 1 to 1,024.

From the repository's root, to write the file:

    python3 models/logs.py > crates/logs/src/entries.rt

and to see that the file is what this script says:

    python3 models/logs.py | diff - crates/logs/src/entries.rt
"""

import textwrap

from checks import logarithm

print("//! The entries of the table: L of 1, of 2, and so on to L of 1,024, as models/logs.py prints them from document 01's definition.")
print("//! That they were made so no one needs to believe: what they are is proved, where `logs::table` answers with them.")
print("pub const ENTRIES: [u32; 1024] = [")
entries = ", ".join(str(logarithm(n)) for n in range(1, 1025)) + ","
# as `rt fmt` lays them out
print(textwrap.fill(entries, width=100, initial_indent="    ", subsequent_indent="    "))
print("];")
