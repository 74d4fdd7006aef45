"""Tasks over the characters of Unicode, as Python's module unicodedata has them."""
import collections
import unicodedata

# Some blocks: the first and the last character of each.
BLOCKS = [
    (0x0, 0x7F, "Basic Latin"),
    (0x80, 0xFF, "Latin-1 Supplement"),
    (0x300, 0x36F, "Combining Diacritical Marks"),
    (0x370, 0x3FF, "Greek and Coptic"),
    (0x400, 0x4FF, "Cyrillic"),
    (0x590, 0x5FF, "Hebrew"),
    (0x2000, 0x206F, "General Punctuation"),
    (0x20A0, 0x20CF, "Currency Symbols"),
    (0x4E00, 0x9FFF, "CJK Unified Ideographs"),
    (0x1F600, 0x1F64F, "Emoticons"),
]
TEXT = 'Grüße,\r\n"Ωμέγα" или Привет: שלום,\n東京 – 5 €, no ½\t😀 e\u0301 é Å A\u030a'


def blocks_of_letters(desk):
    """In which block each character of a text is."""
    codes = sorted({ord(letter) for letter in TEXT})
    desk.write("letters.csv", ["code", "letter"], *([code, chr(code)] for code in codes))
    desk.write("blocks.csv", ["begin", "end", "block"], *BLOCKS)
    command = r"""./radixjoin --left letters.csv --left-types int,text \
        --right blocks.csv --right-types int,int,text \
        --join "LEFT JOIN ON L.code BETWEEN R.begin AND R.end" --order left"""
    wanted = [["code", "letter", "begin", "end", "block"]]
    for code in codes:
        found = [block for block in BLOCKS if code in range(block[0], block[1] + 1)]
        wanted += [[code, chr(code), *block] for block in found or [["", "", ""]]]
    desk.gives(command, wanted)


def capitals_of_letters(desk):
    """Each letter with its capital letter, which is another row of the same file."""
    rows = []
    for code in range(0x41, 0x250):
        capital = chr(code).upper()
        rows.append([code, chr(code), ord(capital) if len(capital) == 1 and capital != chr(code) else None])
    desk.write("letters.csv", ["code", "letter", "capital"], *rows)
    command = r"""./radixjoin --left letters.csv --left-types int,text,int \
        --right letters.csv --right-types int,text,int \
        --join "JOIN ON L.capital = R.code" --repeated _of_capital"""
    capitals = {code: capital for code, _, capital in rows}
    wanted = [[*row, row[2], chr(row[2]), capitals[row[2]]] for row in rows if row[2] in capitals]
    desk.gives(command, [["code", "letter", "capital", "code_of_capital", "letter_of_capital", "capital_of_capital"], *wanted])


def names_of_counted_letters(desk):
    """How often each character is in a text, with its name: also a comma, a quote and line ends, and é in both spellings."""
    counts = collections.Counter(TEXT)
    names = [[chr(code), unicodedata.name(chr(code))] for code in range(0x20, 0x600) if unicodedata.name(chr(code), "")]
    desk.write("counts.csv", ["letter", "times"], *counts.items())
    desk.write("names.csv", ["letter", "name"], *names)
    command = r"""./radixjoin --left counts.csv --left-types text,int --right names.csv --right-types text,text \
        --join "LEFT JOIN USING (letter)" --order left"""
    known = dict(names)
    desk.gives(command, [["letter", "times", "name"], *([letter, times, known.get(letter)] for letter, times in counts.items())])


TASKS = (blocks_of_letters, capitals_of_letters, names_of_counted_letters)
