"""Tasks over a shop: its customers, orders and payments, what they share, and who leads whom."""
import decimal

CUSTOMERS = [
    ["7", "Ann Lee", "York"],
    ["8", 'Bob "the b" Ray', "Oslo"],
    ["9", "Cy, junior", None],
    [None, "no number yet", "Rome"],
    ["007", "double", "Bonn"],
    ["12", "Dora", "Lima"],
]
ORDERS = [
    ["1", "7", "12.50", "paid", "2024-12-31"],
    ["2", "8", "0.05", "open", "2025-01-01"],
    ["3", "7", "-3", "late", "2025-06-30"],
    ["4", None, "9.9", "open", "2025-02-01"],
    ["5", "99", "1000000.00", "late", None],
    ["6", "9", None, "paid", "2026-01-01"],
    ["7", "8", "7", None, "2025-12-31"],
]
CUSTOMER_COLUMNS = ["id", "name", "town"]
ORDER_COLUMNS = ["number", "customer", "amount", "state", "day"]
# The same columns for sqlite3. An amount is text there, so that its digits stay.
FOR_SQLITE = {
    "C": ("customers.csv", "id INTEGER, name TEXT, town TEXT"),
    "O": ("orders.csv", "number INTEGER, customer INTEGER, amount TEXT, state TEXT, day TEXT"),
}


def write_shop(desk):
    """Makes the files of customers and orders."""
    desk.write("customers.csv", CUSTOMER_COLUMNS, *CUSTOMERS)
    desk.write("orders.csv", ORDER_COLUMNS, *ORDERS)


def money(cell):
    """An amount with two digits after the point."""
    return None if cell is None else decimal.Decimal(cell).quantize(decimal.Decimal("0.01"))


def orders_with_customers(desk):
    """Each order with the names of its customer number, in the order of the orders; numbers are missing, twice, and 007."""
    write_shop(desk)
    command = r"""./radixjoin --left orders.csv --left-types 'int,int,num(9,2),text,text' \
        --right customers.csv --right-types int,text,text \
        --join "LEFT JOIN ON L.customer = R.id" --order left"""
    wanted = [[*ORDER_COLUMNS, *CUSTOMER_COLUMNS]]
    for number, customer, amount, state, day in ORDERS:
        found = [[int(key), *rest] for key, *rest in CUSTOMERS if key and customer and int(key) == int(customer)]
        wanted += [[number, customer, money(amount), state, day, *who] for who in found or [[None] * 3]]
    desk.gives(command, wanted)


def customers_to_remind(desk):
    """The open and late orders of less than one euro, with their customers."""
    write_shop(desk)
    command = r"""./radixjoin --left customers.csv --left-types int,text,text \
        --right orders.csv --right-types 'int,int,num(9,2),text,text' \
        --join "JOIN ON L.id = R.customer AND R.state IN ('open', 'late') AND R.amount < 1" """
    query = """SELECT C.*, number, customer, printf('%.2f', amount) amount, state, day FROM C JOIN O ON C.id = O.customer
        WHERE state IN ('open', 'late') AND CAST(amount AS REAL) < 1 ORDER BY C.rowid, O.rowid"""
    desk.gives(command, desk.sqlite(query, **FOR_SQLITE))


def customers_without_orders_in_2025(desk):
    """The customers that ordered nothing in 2025, also those who ordered in another year."""
    write_shop(desk)
    command = r"""./radixjoin --left customers.csv --left-types int,text,text \
        --right orders.csv --right-types 'int,int,num(9,2),text,text' --rows lone-left --columns left \
        --join "LEFT JOIN ON L.id = R.customer AND R.day BETWEEN '2025-01-01' AND '2025-12-31'" """
    query = "SELECT * FROM C WHERE NOT EXISTS (SELECT 1 FROM O WHERE O.customer = C.id AND strftime('%Y', day) = '2025') ORDER BY rowid"
    desk.gives(command, desk.sqlite(query, **FOR_SQLITE))


def customers_with_orders(desk):
    """The customers that ordered something, each once however often."""
    write_shop(desk)
    command = r"""./radixjoin --left customers.csv --left-types 'id=int,*=text' \
        --right orders.csv --right-types 'customer=int,*=text' \
        --join "JOIN ON L.id = R.customer" --rows matched-left --columns left"""
    ordered = {int(order[1]) for order in ORDERS if order[1]}
    wanted = [[int(key), *rest] for key, *rest in CUSTOMERS if key and int(key) in ordered]
    desk.gives(command, [CUSTOMER_COLUMNS, *wanted])


def items_of_orders_with_customers(desk):
    """The items of each order with its customer's name: three tables, by two joins of which the second reads the first."""
    write_shop(desk)
    items = [["1", "nut", "3"], ["1", "bolt", "2"], ["3", "saw", "1"], ["5", "nut", "10"], ["8", "lost", "1"], ["2", "nut", None]]
    desk.write("items.csv", ["number", "item", "pieces"], *items)
    command = r"""
        ./radixjoin --left items.csv --left-types int,text,int \
            --right orders.csv --right-types 'int,int,num(9,2),text,text' --join "LEFT JOIN USING (number)" |
        ./radixjoin --left - --left-types 'number=int,pieces=int,customer=int,*=text' \
            --right customers.csv --right-types int,text,text --join "LEFT JOIN ON L.customer = R.id" --order left"""
    query = """SELECT I.number, item, pieces, customer, printf(iif(amount IS NULL, '', '%.2f'), amount) amount, state, day, C.*
        FROM I LEFT JOIN O ON I.number = O.number LEFT JOIN C ON customer = id ORDER BY O.rowid IS NULL, I.rowid, C.rowid"""
    desk.gives(command, desk.sqlite(query, I=("items.csv", "number INTEGER, item TEXT, pieces INTEGER"), **FOR_SQLITE))


def payments_and_invoices(desk):
    """Which invoices are paid, unpaid or paid wrongly: number and amount have to agree, where 9.9 is 9.90 and 9.9000."""
    invoices = [["A-1", "9.9"], ["A-2", "100.00"], ["A-3", "5"], ["A-4", None], ["A-2", "100"]]
    payments = [["A-1", "9.9000", "ann"], ["A-2", "100.0000", "bob"], ["A-3", "5.0001", "cy"], ["A-4", None, "dora"]]
    desk.write("invoices.csv", ["invoice", "amount"], *invoices)
    desk.write("payments.csv", ["invoice", "amount", "payer"], *payments)
    command = r"""./radixjoin --left invoices.csv --left-types 'text,num(9,2)' \
        --right payments.csv --right-types 'text,num(12,4),text' \
        --join "FULL JOIN USING (invoice, amount)" """

    def exact(cell):
        return None if cell is None else decimal.Decimal(cell).quantize(decimal.Decimal("0.0001"))

    paid = [[*one[:1], exact(one[1]), other[2]] for one in invoices for other in payments if one[1] and (one[0], exact(one[1])) == (other[0], exact(other[1]))]
    unpaid = [[key, exact(amount), None] for key, amount in invoices if [key, exact(amount)] not in [row[:2] for row in paid]]
    odd = [[key, exact(amount), payer] for key, amount, payer in payments if [key, exact(amount)] not in [row[:2] for row in paid]]
    desk.gives(command, [["invoice", "amount", "payer"], *paid, *unpaid, *odd])


def articles_that_share_a_tag(desk):
    """Each two articles that have a tag in common, with the tag: many to many."""
    tags = [[article, tag] for article, words in enumerate(["red big", "big old", "", "red old new", "new"]) for tag in words.split() or [None]]
    desk.write("tags.csv", ["article", "tag"], *tags)
    command = r"""./radixjoin --left tags.csv --left-types int,text --right tags.csv --right-types int,text \
        --join "JOIN ON L.tag = R.tag AND L.article < R.article" --repeated 2"""
    wanted = [[*one, *other] for one in tags for other in tags if one[1] and one[1] == other[1] and one[0] < other[0]]
    desk.gives(command, [["article", "tag", "article2", "tag2"], *wanted])


def people_with_leaders(desk):
    """Each person of a list with the name of the one who leads him, who is in the same list."""
    people = [["1", "ann", None], ["2", "bob", "1"], ["3", "cy", "2"], ["4", "dora", "1"], ["5", "eve", "77"]]
    desk.write("people.csv", ["id", "name", "leader"], *people)
    command = r"""./radixjoin --left people.csv --left-types int,text,int \
        --right people.csv --right-types int,text,int \
        --join "LEFT JOIN ON L.leader = R.id" --order left --repeated _of_leader"""
    query = """SELECT L.*, R.id id_of_leader, R.name name_of_leader, R.leader leader_of_leader
        FROM L LEFT JOIN R ON L.leader = R.id ORDER BY L.rowid"""
    columns = ("people.csv", "id INTEGER, name TEXT, leader INTEGER")
    desk.gives(command, desk.sqlite(query, L=columns, R=columns))


TASKS = (
    orders_with_customers,
    customers_to_remind,
    customers_without_orders_in_2025,
    customers_with_orders,
    items_of_orders_with_customers,
    payments_and_invoices,
    articles_that_share_a_tag,
    people_with_leaders,
)
