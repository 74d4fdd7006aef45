"""Tasks over two exports of one table, an older and a newer one, and over checks of a file before it is used."""

OLD = [["a1", "nut", "0.20"], ["a2", "bolt", "1.5"], ["b7", "saw, large", "12"], ["c3", "file", None], ["f6", "rope", "4"], ["d4", "glue", "3.00"]]
NEW = [["d4", "glue", None], ["a2", "bolt", "1.50"], ["b7", "saw, large", "12.50"], ["c3", "file", "2"], ["e5", "tape", "1"], ["a1", "nut", "0.2"]]
COLUMNS = ["sku", "name", "price"]
FOR_SQLITE = {"old": ("old.csv", "sku TEXT, name TEXT, price TEXT"), "new": ("new.csv", "sku TEXT, name TEXT, price TEXT")}
ORDERS = [["1", "7"], ["2", "8"], ["3", None], ["4", "7"], ["5", "9"], ["6", "7"]]
CUSTOMERS = [["7", "ann"], ["8", "bob"], ["7", "ann again"], [None, "nobody"], ["5", "eve"]]


def write_lists(desk):
    """Makes both price lists."""
    desk.write("old.csv", COLUMNS, *OLD)
    desk.write("new.csv", COLUMNS, *NEW)


def prices_that_changed(desk):
    """The articles whose price isn't what it was, also where it came or went: 1.5 and 1.50 are one price."""
    write_lists(desk)
    command = r"""./radixjoin --left old.csv --left-types 'text,text,num(9,2)' \
        --right new.csv --right-types 'text,text,num(9,2)' --repeated _new \
        --join "JOIN ON L.sku = R.sku AND (L.price = R.price) IS NOT TRUE
            AND (L.price IS NOT NULL OR R.price IS NOT NULL)" """
    old, new = ({sku: (name, price and f"{float(price):.2f}") for sku, name, price in rows} for rows in (OLD, NEW))
    wanted = [[sku, *row, sku, *new[sku]] for sku, row in old.items() if sku in new and row[1] != new[sku][1]]
    desk.gives(command, [[*COLUMNS, "sku_new", "name_new", "price_new"], *wanted])


def articles_that_came_and_went(desk):
    """The articles of only one of both lists, those that went first."""
    write_lists(desk)
    command = r"""./radixjoin --left old.csv --left-types text,text,text \
        --right new.csv --right-types text,text,text \
        --join "FULL JOIN USING (sku)" --rows lone-left,lone-right --repeated _new"""
    query = """SELECT sku, name, price, NULL name_new, NULL price_new FROM old WHERE sku NOT IN (SELECT sku FROM new)
        UNION ALL SELECT sku, NULL, NULL, name, price FROM new WHERE sku NOT IN (SELECT sku FROM old)"""
    desk.gives(command, desk.sqlite(query, **FOR_SQLITE))


def write_orders(desk):
    """Makes the files of orders and customers, among which one has the number of another."""
    desk.write("orders.csv", ["order", "id"], *ORDERS)
    desk.write("customers.csv", ["id", "name"], *CUSTOMERS)


JOIN_ORDERS = r"""./radixjoin --left orders.csv --left-types int,int \
        --right customers.csv --right-types int,text --join "LEFT JOIN USING (id)" """


def orders_joined_only_once(desk):
    """A file of orders with names, which stays as it was if a customer's number is there twice."""
    write_orders(desk)
    desk.text("joined.csv", "of yesterday\n")
    refused = f"{JOIN_ORDERS} --order left --expect many-to-one --output joined.csv"
    desk.gives(refused, [], 7, "radixjoin: E30 NotAsExpected\n")
    desk.gives("cat joined.csv", [["of yesterday"]])
    customers = [row for at, row in enumerate(CUSTOMERS) if row[0] not in [other[0] for other in CUSTOMERS[:at]]]
    desk.write("customers.csv", ["id", "name"], *customers)
    names = dict(customers)
    desk.gives(f"{refused} && cat joined.csv", [["id", "order", "name"], *([key, order, key and names.get(key)] for order, key in ORDERS)])


def keys_of_both_files(desk):
    """How well the numbers of both files fit: how many rows match, lack a number, or have one that is there twice."""
    write_orders(desk)
    pairs = [[one, other] for one in ORDERS for other in CUSTOMERS if one[1] and one[1] == other[0]]
    lone = [len([row for row in rows if row not in [pair[side] for pair in pairs]]) for side, rows in enumerate((ORDERS, CUSTOMERS))]
    keys = [[row[1] for row in ORDERS], [row[0] for row in CUSTOMERS]]
    repeated = [len({key for key in of_side if key and of_side.count(key) > 1}) for of_side in keys]
    largest = max(keys[0], key=lambda key: keys[0].count(key) * keys[1].count(key) if key else 0)
    report = (
        f"rows left {len(ORDERS)} right {len(CUSTOMERS)}\n"
        f"pairs {len(pairs)} lone-left {lone[0]} lone-right {lone[1]}\n"
        f"null-keys left {keys[0].count(None)} right {keys[1].count(None)}\n"
        f"repeated-keys left {repeated[0]} right {repeated[1]}\n"
        f'largest-key left {keys[0].count(largest)} right {keys[1].count(largest)}, "id" = "{largest}"\n'
    )
    desk.gives(f"{JOIN_ORDERS} --report > joined.csv", [], told=report)
    desk.gives(f"{JOIN_ORDERS} --count", [[f"pairs {len(pairs)} lone-left {lone[0]} lone-right 0"]])


TASKS = (prices_that_changed, articles_that_came_and_went, orders_joined_only_once, keys_of_both_files)
