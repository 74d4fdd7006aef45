"""Tasks over what spreadsheets, databases and other programs export: semicolons, decimal commas, umlauts, tabs, bars, compressed files."""
import csv
import gzip

CUSTOMERS = """Kunden-Nr;Firma;Straße;PLZ;Ort;Rabatt %
0042;"Müller & Söhne; Haustechnik";Königstraße 1;01067;Dresden;2,50
0007;Größe GmbH;"Gasse ""Am Bach"" 3";80331;München;
;ohne Nummer;;;;0,00
0815;Übel AG;Weg 5;01067;Dresden;12,00
"""
ORDERS = """Bestell-Nr;Kunden-Nr;Datum;Betrag
1;0042;31.01.2025;1.234,50
2;0042;01.02.2025;-12,30
3;42;02.02.2025;0,99
4;;03.02.2025;7,00
5;0815;04.02.2025;1.000.000,00
6;0007;05.02.2025;25
7;0007;05.02.2025;1.250
"""
TOWNS = "PLZ;Ort\r\n1067;Dresden\r\n80331;München\r\n4103;Leipzig\r\n"
CONVERT = """
    iconv -f WINDOWS-1252 -t UTF-8 kunden.csv | python3 from_sheet.py > customers.csv
    iconv -f WINDOWS-1252 -t UTF-8 bestellungen.csv | python3 from_sheet.py > orders.csv
"""


def sheet(text):
    """The rows of a sheet without its header, read by Python with its separator."""
    return list(csv.reader(text.splitlines(), delimiter=";"))[1:]


def write_sheets(desk):
    """Makes the files as a spreadsheet of a German office writes them."""
    desk.needs("iconv")
    desk.recipe("from_sheet.py")
    desk.text("kunden.csv", CUSTOMERS.replace("\n", "\r\n"), "cp1252")
    desk.text("bestellungen.csv", ORDERS.replace("\n", "\r\n"), "cp1252")


def orders_of_a_german_sheet(desk):
    """Each order with its customer: names such as Kunden-Nr, umlauts, amounts such as 1.234,50 and days such as 31.01.2025."""
    write_sheets(desk)
    command = f"""{CONVERT}
        ./radixjoin --left orders.csv --left-types 'Betrag=num(9,2),*=text' \\
            --right customers.csv --right-types '"Rabatt %"=num(4,2),*=text' \\
            --join 'LEFT JOIN USING ("Kunden-Nr")' --order left"""
    customers = {row[0]: row[1:] for row in sheet(CUSTOMERS) if row[0]}
    wanted = [["Kunden-Nr", "Bestell-Nr", "Datum", "Betrag", "Firma", "Straße", "PLZ", "Ort", "Rabatt %"]]
    for number, customer, day, amount in sheet(ORDERS):
        day = "-".join(reversed(day.split(".")))
        amount = f"{float(amount.replace('.', '').replace(',', '.')):.2f}"
        *rest, discount = customers.get(customer, [""] * 5)
        wanted.append([customer, number, day, amount, *rest, discount.replace(",", ".")])
    desk.gives(command, wanted)


def large_orders_of_a_town(desk):
    """The customers of Dresden with their orders from 10 euros on, by a condition on columns whose names have signs."""
    write_sheets(desk)
    command = f"""{CONVERT}
        ./radixjoin --left customers.csv --left-types '"Rabatt %"=num(4,2),*=text' \\
            --right orders.csv --right-types 'Betrag=num(9,2),*=text' --columns left --rows matched-left \\
            --join "JOIN ON L.\\"Kunden-Nr\\" = R.\\"Kunden-Nr\\" AND Ort = 'Dresden' AND Betrag >= 10" """
    desk.bash(CONVERT)
    query = """SELECT * FROM C WHERE Ort = 'Dresden' AND EXISTS
        (SELECT 1 FROM B WHERE B."Kunden-Nr" = C."Kunden-Nr" AND Betrag >= 10) ORDER BY rowid"""
    customers = '"Kunden-Nr" TEXT, Firma TEXT, "Straße" TEXT, PLZ TEXT, Ort TEXT, "Rabatt %" TEXT'
    orders = '"Bestell-Nr" TEXT, "Kunden-Nr" TEXT, Datum TEXT, Betrag REAL'
    desk.gives(command, desk.sqlite(query, C=("customers.csv", customers), B=("orders.csv", orders)))


def postal_codes_without_zeros(desk):
    """Each customer with the name of his town, though one sheet has lost the zeros that postal codes begin with."""
    write_sheets(desk)
    desk.text("orte.csv", TOWNS, "cp1252")
    command = f"""{CONVERT}
        iconv -f WINDOWS-1252 -t UTF-8 orte.csv | python3 from_sheet.py > towns.csv
        ./radixjoin --left customers.csv --left-types 'PLZ=int,*=text' \\
            --right towns.csv --right-types int,text --join "LEFT JOIN USING (PLZ)" --order left \\
            --repeated _neu"""
    towns = {int(row[0]): row[1] for row in sheet(TOWNS)}
    wanted = [["PLZ", "Kunden-Nr", "Firma", "Straße", "Ort", "Rabatt %", "Ort_neu"]]
    for number, name, street, code, town, discount in sheet(CUSTOMERS):
        code = int(code) if code else None
        wanted.append([code, number, name, street, town, discount.replace(",", "."), towns.get(code)])
    desk.gives(command, wanted)


def write_unconverted(desk):
    """Makes the same files as a spreadsheet writes them in UTF-8, with a byte order mark; nothing converts them."""
    desk.text("kunden.csv", CUSTOMERS.replace("\n", "\r\n"), "utf-8-sig")
    desk.text("bestellungen.csv", ORDERS.replace("\n", "\r\n"), "utf-8-sig")


def orders_of_a_german_sheet_as_they_are(desk):
    """Each order with its customer, by semicolons in and out: amounts such as 1.234,50 are texts, and stay as they are."""
    write_unconverted(desk)
    command = r"""./radixjoin bestellungen.csv kunden.csv 'LEFT JOIN USING ("Kunden-Nr")' --order left \
        --types '"Kunden-Nr"=text' -d ';' --output verbunden.csv && cat verbunden.csv"""
    customers = {row[0]: row[1:] for row in sheet(CUSTOMERS) if row[0]}
    wanted = [["Kunden-Nr", "Bestell-Nr", "Datum", "Betrag", "Firma", "Straße", "PLZ", "Ort", "Rabatt %"]]
    wanted += [[customer, number, day, amount, *customers.get(customer, [""] * 5)] for number, customer, day, amount in sheet(ORDERS)]
    desk.gives(command, wanted, delimiter=";")


def towns_of_a_tsv_file(desk):
    """Each customer of a sheet with semicolons with his town of a file with tabs, by commas out; decimal commas are in quotes then."""
    write_unconverted(desk)
    desk.text("orte.tsv", TOWNS.replace(";", "\t").replace("Leipzig", '"Leip\tzig"'))
    command = r"""./radixjoin kunden.csv orte.tsv 'FULL JOIN USING (PLZ)' --types PLZ=int --repeated _neu \
        --left-delimiter ';' --right-delimiter tab"""
    towns = {int(row[0]): row[1] for row in sheet(TOWNS)}
    customers = [[int(row[3]) if row[3] else None, *row[:3], *row[4:]] for row in sheet(CUSTOMERS)]
    wanted = [["PLZ", "Kunden-Nr", "Firma", "Straße", "Ort", "Rabatt %", "Ort_neu"]]
    wanted += [[*row, towns[row[0]]] for row in customers if row[0] in towns] + [[*row, ""] for row in customers if row[0] not in towns]
    wanted += [[code, "", "", "", "", "", town.replace("Leipzig", "Leip\tzig")] for code, town in towns.items() if code not in [row[0] for row in customers]]
    desk.gives(command, wanted)


def feeds_with_bars(desk):
    """Two feeds of a supplier with bars and without quotes, of which one has a double quote for inches: bars out, too."""
    articles = [["a1", "nut, 5 mm", "0.20"], ["a2", "bolt; long", "1.5"], ["b7", 'saw 12" wide', "12"], ["d4", "", "3"]]
    stock = [["a2", "7"], ["b7", ""], ["c3", "1"], ["a1", "12"]]
    for name, lines in (("articles.txt", [["sku", "name", "price"], *articles]), ("stock.txt", [["sku", "pieces"], *stock])):
        desk.text(name, "".join("|".join(line) + "\n" for line in lines))
    command = r"""./radixjoin articles.txt stock.txt 'FULL JOIN USING (sku)' -d '|' --lenient \
        --types 'price=num(9,2),pieces=int'"""
    pieces, prices = dict(stock), {sku: f"{float(price):.2f}" for sku, _, price in articles}
    wanted = [[sku, name, prices[sku], pieces[sku]] for sku, name, _ in articles if sku in pieces]
    wanted += [[sku, name, prices[sku], ""] for sku, name, _ in articles if sku not in pieces]
    wanted += [[sku, "", "", count] for sku, count in stock if sku not in prices]
    desk.gives(command, [["sku", "name", "price", "pieces"], *wanted], delimiter="|")


def names_in_other_spellings(desk):
    """Guests by name in two lists that differ in capital letters, blanks, and ß or ss."""
    guests = [["Jürgen  Groß", "2"], ["MÜLLER, Ann", "1"], ["bob", "3"], ["", "9"]]
    rooms = [[" jürgen GROSS", "12"], ["Müller, Ann", "7"], ["Bob", "8"], ["bob ", "9"], ["Eve", "1"]]
    desk.write("guests.csv", ["guest", "nights"], *guests)
    desk.write("rooms.csv", ["name", "room"], *rooms)
    desk.recipe("add_key.py")
    command = r"""./radixjoin --left <(python3 add_key.py guest < guests.csv) --left-types text,int,text \
        --right <(python3 add_key.py name < rooms.csv) --right-types text,int,text \
        --join "FULL JOIN USING (key)" """

    def key(name):
        return " ".join(name.split()).replace("ß", "ss").upper()

    pairs = [[one, other] for one in guests for other in rooms if one[0] and key(one[0]) == key(other[0])]
    wanted = [[one, other] for one, other in pairs]
    wanted += [[one, ["", ""]] for one in guests if one not in [pair[0] for pair in pairs]]
    wanted += [[["", ""], other] for other in rooms if other not in [pair[1] for pair in pairs]]
    rows = [[(key(one[0]) or key(other[0])).lower(), *one, *other] for one, other in wanted]
    desk.gives(command, [["key", "guest", "nights", "name", "room"], *rows])


def dump_of_a_database(desk):
    """Tables as a database dumps them: tabs, no quotes, and \\N for NULL; an empty text stays one."""
    people = ["id\tname\tboss\n", '1\tann "the boss"\t\\N\n', "2\tbob, jr\t1\n", "3\t\t\\N\n", "\\N\tghost\t7\n"]
    desks = ["person\troom\n", "2\t\\N\n", "1\tb 7\n", "\\N\tc 1\n", "9\t\n"]
    desk.text("people.tsv", "".join(people))
    desk.text("desks.tsv", "".join(desks))
    desk.recipe("from_tsv.py")
    command = r"""
        python3 from_tsv.py $'\t' < people.tsv > people.csv
        python3 from_tsv.py $'\t' < desks.tsv > desks.csv
        ./radixjoin --left people.csv --left-types int,text,int --right desks.csv --right-types int,text \
            --join "FULL JOIN ON L.id = R.person" --null '\N'"""
    left, right = ([line.rstrip("\n").split("\t") for line in lines[1:]] for lines in (people, desks))
    pairs = [[*one, *other] for one in left for other in right if one[0] == other[0] != r"\N"]
    wanted = pairs + [[*one, r"\N", r"\N"] for one in left if one not in [pair[:3] for pair in pairs]]
    wanted += [[r"\N"] * 3 + other for other in right if other not in [pair[3:] for pair in pairs]]
    desk.gives(command, [["id", "name", "boss", "person", "room"], *wanted])


def compressed_exports(desk):
    """Two compressed files joined into a compressed one; neither is ever a plain file."""
    desk.needs("gzip")
    songs = [["1", "Blue, in Green", "17"], ["2", "So What", "17"], ["3", "Naima", "21"], ["4", "Song\nin two lines", None]]
    albums = [["21", "Giant Steps"], ["17", 'Kind of "Blue"']]
    for name, lines in (("songs.csv", [["song", "title", "album"], *songs]), ("albums.csv", [["album", "name"], *albums])):
        desk.write(name, *lines)
        (desk.folder / f"{name}.gz").write_bytes(gzip.compress((desk.folder / name).read_bytes()))
        (desk.folder / name).unlink()
    command = r"""
        gzip -dc songs.csv.gz | ./radixjoin --left - --left-types int,text,int \
            --right <(gzip -dc albums.csv.gz) --right-types int,text \
            --join "LEFT JOIN USING (album)" --order left | gzip > joined.csv.gz
        gzip -dc joined.csv.gz"""
    names = dict(albums)
    desk.gives(command, [["album", "song", "title", "name"], *([album, song, title, names.get(album)] for song, title, album in songs)])


TASKS = (
    orders_of_a_german_sheet,
    large_orders_of_a_town,
    postal_codes_without_zeros,
    orders_of_a_german_sheet_as_they_are,
    towns_of_a_tsv_file,
    feeds_with_bars,
    names_in_other_spellings,
    dump_of_a_database,
    compressed_exports,
)
