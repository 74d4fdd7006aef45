"""Types by name: the bytes and the fault lines as docs/user/specification.md has them, typed here; by one and by four workers, read
strictly and not, in files of no record, of one and of many; and random lists by name beside the lists by position that they stand
for."""
import itertools
import pathlib
import random

import harness

MARK = b"\xef\xbb\xbf"
ONE = b"z\n1\n"
FILE = b"id,Full Name,price\n7,ann,1.50\n8,bob,\n"
ROWS = b"id,Full Name,price,z\n7,ann,1.50,1\n8,bob,,1\n"


def joined(folder, content, types, side="left", workers=1, options=()):
    """Runs a CROSS JOIN of a file with a table of one cell."""
    (folder / "file.csv").write_bytes(content)
    (folder / "one.csv").write_bytes(ONE)
    words = ["--left", "file.csv", "--left-types", types, "--right", "one.csv", "--right-types", "int"]
    if side == "right":
        words = ["--left", "one.csv", "--left-types", "int", "--right", "file.csv", "--right-types", types]
    return harness.run([harness.program("radixjoin"), *words, "--join", "CROSS JOIN", "--workers", str(workers), *options], folder)


# A file, a list, and what is written where it is the left one.
READ = [
    (FILE, 'id=int,"Full Name"=text,price=num(9,2)', ROWS),
    (FILE, 'price=num:9:2,"Full Name"=text,ID=int', ROWS),
    (FILE, "id=int,price=num(3,2),*=text", ROWS),
    (FILE, "*=text,price=num:18:2", ROWS),
    (FILE, '*=text,"price"=num:3:2,"id"=int', ROWS),
    (FILE, "*=text", ROWS),
    (FILE, "int,text,num:9:2", ROWS),
    (MARK + FILE, 'id=int,"Full Name"=text,PRICE=num(9,2)', ROWS),
    (FILE, "id=int,*=text,price=num:9:3", b"id,Full Name,price,z\n7,ann,1.500,1\n8,bob,,1\n"),
    (b'"a,b","c""d",E=f\n1,2,3\n', '"a,b"=int,"c""d"=num:2:1,"E=f"=text', b'"a,b","c""d",E=f,z\n1,2.0,3,1\n'),
    (b"_a,left,B2\n1,2,3\n", "_a=num:1:0,left=num:2:1,b2=num:3:2", b"_a,left,B2,z\n1,2.0,3.00,1\n"),
    (b"id,name\n", "name=text,id=int", b"id,name,z\n"),
    (b"int\n1\n", "int=num:2:1", b"int,z\n1.0,1\n"),
    ("\u00e4\n1\n".encode(), '"\u00e4"=num:2:1', "\u00e4,z\n1.0,1\n".encode()),
]

# A file, a list, and the line behind the program's name.
FAULTS = [
    (FILE, "id=int,nam=text,*=text", 'E27 TypeName SIDE "nam"'),
    (FILE, 'id=int,"full name"=text,*=text', 'E27 TypeName SIDE "full name"'),
    (FILE, 'id=int,"ID"=int,*=text', 'E27 TypeName SIDE "ID"'),
    (FILE, "id=int,Id=int,*=text", 'E27 TypeName SIDE "Id"'),
    (FILE, '"id"=int,*=text,ID=int,nam=int', 'E27 TypeName SIDE "ID"'),
    (FILE, "nam=int,id=int,id=int", 'E27 TypeName SIDE "nam"'),
    (FILE, '"*"=text', 'E27 TypeName SIDE "*"'),
    (FILE, '"a,b=c"=text,*=int', 'E27 TypeName SIDE "a,b=c"'),
    (b"id\n", "nam=int", 'E27 TypeName SIDE "nam"'),
    # A column without a type, behind a name that is at fault.
    (FILE, "id=int,price=text", "E4 TypeCount SIDE"),
    (FILE, "id=int,nam=text", 'E27 TypeName SIDE "nam"'),
    (FILE, "id=int", "E4 TypeCount SIDE"),
    # The header's own faults, and no header, come first.
    (b"id,,x\n1,2,3\n", "nam=int", "E2 BadName SIDE column 2"),
    (b"id,ID\n1,2\n", "nam=int", "E3 RepeatedName SIDE column 2"),
    (b"id,ID\n1,2\n", "id=int,*=text", "E3 RepeatedName SIDE column 2"),
    (b"", "nam=int", "E1 NoHeader SIDE"),
    (b"\n\n", "*=int", "E1 NoHeader SIDE"),
    (b",".join(b"c%d" % at for at in range(257)) + b"\n", "nam=int", "E9 TooManyColumns SIDE"),
    # Faults of rows come last.
    (b"id,b\nx,1\n", "nam=int,*=text", 'E27 TypeName SIDE "nam"'),
    (b"id,b\n1,2,3\n", "id=int", "E4 TypeCount SIDE"),
    (b"id,b\nx,1\n", "b=text,id=int", "E6 BadInteger SIDE row 1 column 1"),
    (b"id,b\nx,1\n", "b=int,*=text,id=num:1:0", "E6 BadInteger SIDE row 1 column 1"),
]

# Lists of another form.
BAD = [
    "id=int,text", "int,id=text", "*=int,*=text", "*=int,int", "=int", '""=int', '"id=int', "id=", "id", "*", "*=", "id=int,", ",id=int", "id=int,,b=int",
    "1d=int", "i d=int", "id =int", "id= int", "id=Int", "i-d=int", '"id"x=int', 'x"id"=int', '"i"d"=int', "id=int=int", "id=num:9", "num:9:", "num::2",
    "num:9:2:1", "num:09:2", "num:9:02", "num:19:0", "num:4:5", "num:0:0", "num:9,2", "num(9:2)", "num(9,2", "num:9:2)", "Num:9:2", "num:9: 2", "num:100:2",
    "*x=int", "'id'=int", "id=int;b=int", "",
]


def check_texts(tally, folder):
    """Each list at each side, by one worker and by four, read strictly and not."""
    for (text, types, wanted), workers, options in itertools.product(READ, (1, 4), ([], ["--strict"])):
        tally.check(f"{types} {workers} {options}", harness.differences(joined(folder, text, types, workers=workers, options=options), wanted))
    for (text, types, line), side, workers, options in itertools.product(FAULTS, ("left", "right"), (1, 4), ([], ["--strict"])):
        if text == b"\n\n" and options:
            continue
        wanted = f"radixjoin: {line.replace('SIDE', side)}\n".encode()
        ran = joined(folder, text, types, side, workers, options)
        tally.check(f"{types} {side} {workers} {options}", harness.differences(ran, b"", wanted, 3))
    for types, side in itertools.product(BAD, ("left", "right")):
        ran = joined(folder, FILE, types, side)
        tally.check(f"{types!r}", harness.differences(ran, b"", f"radixjoin: bad type list {side}\n".encode(), 2))


def check_order(tally, folder):
    """An unlawful null text comes first; the left file's fault before the right one's and before the clause's; and a name under
    `--strict` comes before what stands below the header, and behind a header that breaks the grammar."""
    ran = joined(folder, FILE, "nam=int", options=["--null=1"])
    tally.check("E10 first", harness.differences(ran, b"", b"radixjoin: E10 BadNull\n", 3))
    (folder / "left.csv").write_bytes(b"a\n1\n")
    (folder / "right.csv").write_bytes(b"b\nx\n")
    words = ["--left", "left.csv", "--right", "right.csv", "--join", "no clause"]
    for left, right, line in (
        ("x=int", "y=int", b'E27 TypeName left "x"'),
        ("*=int", "y=int", b'E27 TypeName right "y"'),
        ("a=int", "*=int", b"E6 BadInteger right row 1 column 1"),
    ):
        ran = harness.run([harness.program("radixjoin"), *words, "--left-types", left, "--right-types", right], folder)
        tally.check("the left file first", harness.differences(ran, b"", b"radixjoin: " + line + b"\n", 3))
    for text, line in (
        (b'id,b\n1,"x', b'E27 TypeName left "nam"'),
        (b'id,b"\n1,x\n', b"E23 BareQuote left row 0 column 2"),
    ):
        ran = joined(folder, text, "nam=int,*=text", options=["--strict"])
        tally.check("a name and the grammar", harness.differences(ran, b"", b"radixjoin: " + line + b"\n", 3))


def check_parts(tally, folder):
    """A file of more than a megabyte, which four workers read in parts."""
    text = b"b,c\n" + b"".join(b"%d,a text that makes the row longer\n" % row for row in range(60_000))
    wanted = joined(folder, text, "int,text")
    for types, workers in itertools.product(("c=text,b=int", "*=text,B=int", "*=int,c=text"), (1, 4)):
        ran = joined(folder, text, types, workers=workers)
        tally.check(f"{types} {workers}", harness.differences(ran, wanted.stdout))


def written(name, source):
    """A name as a list may write it."""
    if name.isascii() and name.replace("_", "a").isalnum() and not name[0].isdigit() and source.random() < 0.6:
        return source.choice([name, name.upper(), name.swapcase()])
    return '"' + name.replace('"', '""') + '"'


def check_random(tally, folder):
    """Random headers and types: a list by name and the list by position that it stands for give the same bytes."""
    source = random.Random(92)
    kinds = ["int", "text", "num(4,1)", "num:4:1", "num:18:3"]
    for turn in range(150):
        names = source.sample(["id", "Name", "a b", 'c"d', "e,f", "_x", "g=h", "left", "9z", "\u00fc", "Z1", "*", "int", "'"], source.randrange(1, 9))
        types = [source.choice(kinds) for _ in names]
        rest = source.choice(types + [None])
        entries = [f"{written(name, source)}={kind}" for name, kind in zip(names, types) if kind != rest or source.random() < 0.3]
        source.shuffle(entries)
        if rest is not None:
            entries.insert(source.randrange(len(entries) + 1), f"*={rest}")
        head = ",".join('"' + name.replace('"', '""') + '"' for name in names)
        rows = [",".join(source.choice(["1", "2", "-3", ""]) for _ in names) or '""' for _ in range(source.randrange(6))]
        text = "\n".join([head, *rows, ""]).encode()
        wanted, ran = joined(folder, text, ",".join(types)), joined(folder, text, ",".join(entries))
        tally.check(f"{entries} for {types}", harness.differences(ran, wanted.stdout, wanted.stderr, wanted.status))


def run_all(tally):
    """All of it, in a folder of its own."""
    for check in (check_texts, check_order, check_parts, check_random):
        with harness.folder() as name:
            check(tally, pathlib.Path(name))
