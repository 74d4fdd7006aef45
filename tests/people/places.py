"""Tasks over countries and time zones, and over ranges: of addresses, of weights and of days."""
import decimal
import ipaddress

from .desk import file_or

ZONES = """# made up in the form of zone.tab
AD\t+4230+00131\tEurope/Andorra
AQ\t-7750+16636\tAntarctica/McMurdo\tNew Zealand time
AQ\t-6617+11031\tAntarctica/Casey\tCasey
CI\t+0519-00402\tAfrica/Abidjan
XX\t+0000+00000\tNowhere/Else
"""
COUNTRIES = """# made up in the form of iso3166.tab
AD\tAndorra
AQ\tAntarctica
BV\tBouvet Island
CI\tCôte d'Ivoire
VC\tSt Vincent, "the" island
"""
# What a user types to make CSV of both files: they have comments, no header, and tabs.
CONVERT = r"""
    (printf 'code\tzone\n'; grep -v '^#' zone.tab | cut -f 1,3) | python3 from_tsv.py $'\t' > zones.csv
    (printf 'code\tcountry\n'; grep -v '^#' iso3166.tab) | python3 from_tsv.py $'\t' > countries.csv
"""
NETWORKS = {"192.0.2.0/25": "lab", "192.0.2.128/26": "office", "198.51.100.0/24": "guests", "203.0.113.8/29": "servers", "10.0.0.0/8": "intern"}
VISITS = ["192.0.2.0", "192.0.2.127", "192.0.2.128", "192.0.2.192", "9.255.255.255", "10.0.0.0", "10.255.255.255", "203.0.113.15", "203.0.113.16", "", "192.0.2.5"]


def zones_and_countries(desk):
    """Makes both files, and gives their rows."""
    texts = {"zone.tab": file_or("/usr/share/zoneinfo/zone.tab", ZONES), "iso3166.tab": file_or("/usr/share/zoneinfo/iso3166.tab", COUNTRIES)}
    for name, text in texts.items():
        desk.text(name, text)
    desk.recipe("from_tsv.py")
    rows = [[line.split("\t") for line in text.splitlines() if not line.startswith("#")] for text in texts.values()]
    return [[row[0], row[2]] for row in rows[0]], rows[1]


def zones_with_countries(desk):
    """Each time zone with its country's name, in the order of zone.tab."""
    zones, countries = zones_and_countries(desk)
    command = f"""{CONVERT}
        ./radixjoin --left zones.csv --left-types text,text \\
            --right countries.csv --right-types text,text --join "LEFT JOIN USING (code)" --order left"""
    names = dict(countries)
    desk.gives(command, [["code", "zone", "country"], *([code, zone, names.get(code)] for code, zone in zones)])


def zones_with_countries_by_tabs(desk):
    """The same from both files as they are, but for their comments and a header: tabs are named, and nothing else converts them."""
    zones, countries = zones_and_countries(desk)
    command = r"""./radixjoin <(printf 'code\tzone\n'; grep -v '^#' zone.tab | cut -f 1,3) \
        <(printf 'code\tcountry\n'; grep -v '^#' iso3166.tab) 'LEFT JOIN USING (code)' --order left --lenient --terse \
        --left-delimiter tab --right-delimiter tab"""
    names = dict(countries)
    desk.gives(command, [["code", "zone", "country"], *([code, zone, names.get(code)] for code, zone in zones)])


def countries_without_zone(desk):
    """The countries that no time zone belongs to."""
    zones, countries = zones_and_countries(desk)
    command = f"""{CONVERT}
        ./radixjoin --left countries.csv --left-types text,text \\
            --right zones.csv --right-types text,text \\
            --join "LEFT JOIN USING (code)" --rows lone-left --columns left"""
    with_zone = {code for code, _ in zones}
    desk.gives(command, [["code", "country"], *(row for row in countries if row[0] not in with_zone)])


def zones_of_one_country(desk):
    """The time zones whose country has another one."""
    zones_and_countries(desk)
    command = f"""{CONVERT}
        ./radixjoin --left zones.csv --left-types text,text --right zones.csv --right-types text,text \\
            --join "JOIN ON L.code = R.code AND L.zone <> R.zone" --rows matched-left --columns left"""
    desk.bash(CONVERT)
    query = "SELECT * FROM Z WHERE (SELECT count(*) FROM Z other WHERE other.code = Z.code) > 1 ORDER BY rowid"
    desk.gives(command, desk.sqlite(query, Z=("zones.csv", "code TEXT, zone TEXT")))


def ranges_of_addresses():
    """The networks as ranges of numbers."""
    for network, place in NETWORKS.items():
        network = ipaddress.ip_network(network)
        yield [int(network.network_address), int(network.broadcast_address), place]


def places_of_visits(desk):
    """From which network each visit came, by ranges of addresses that are numbers."""
    desk.write("visits.csv", ["visit", "address", "ip"], *([at, visit, int(ipaddress.ip_address(visit)) if visit else None] for at, visit in enumerate(VISITS)))
    desk.write("ranges.csv", ["low", "high", "place"], *ranges_of_addresses())
    command = r"""./radixjoin --left visits.csv --left-types int,text,int \
        --right ranges.csv --right-types int,int,text \
        --join "LEFT JOIN ON L.ip >= R.low AND L.ip <= R.high" --order left"""
    wanted = [["visit", "address", "ip", "low", "high", "place"]]
    for at, visit in enumerate(VISITS):
        address = ipaddress.ip_address(visit) if visit else None
        inside = [ipaddress.ip_network(network) for network in NETWORKS if address and address in ipaddress.ip_network(network)]
        found = [[int(network[0]), int(network[-1]), NETWORKS[str(network)]] for network in inside] or [["", "", ""]]
        wanted += [[at, visit, int(address) if address else "", *range_] for range_ in found]
    desk.gives(command, wanted)


def ranges_that_overlap(desk):
    """How many pairs of ranges overlap in a list that shouldn't have any, and which."""
    ranges = [*ranges_of_addresses(), [3221225984, 3221225985, "twice"], [0, 4294967295, "world"]]
    desk.write("ranges.csv", ["low", "high", "place"], *ranges)
    command = r"""./radixjoin --left ranges.csv --left-types int,int,text \
        --right ranges.csv --right-types int,int,text \
        --join "JOIN ON L.low <= R.high AND R.low <= L.high AND L.place < R.place" """
    both = [[*one, *other] for one in ranges for other in ranges if max(one[0], other[0]) <= min(one[1], other[1]) and one[2] < other[2]]
    desk.gives(f"{command} --count", [[f"pairs {len(both)} lone-left 0 lone-right 0"]])
    desk.gives(command, [["low", "high", "place"] * 2, *both])


def parcels_with_tariffs(desk):
    """The price of each parcel by its weight; the heaviest tariff has no upper bound, which is an empty field."""
    parcels = [["1", "0.5"], ["2", "2.000"], ["3", "1.999"], ["4", "31.5"], ["5", None], ["6", "1000"], ["7", "10"]]
    tariffs = [["0", "2", "3.99"], ["2", "10", "6.5"], ["10", "31.5", "16.49"], ["31.5", None, "99"]]
    desk.write("parcels.csv", ["parcel", "weight"], *parcels)
    desk.write("tariffs.csv", ["above", "below", "price"], *tariffs)
    command = r"""./radixjoin --left parcels.csv --left-types 'int,num(7,3)' \
        --right tariffs.csv --right-types 'num(4,1),num(4,1),num(5,2)' \
        --join "LEFT JOIN ON L.weight >= R.above AND (L.weight < R.below OR R.below IS NULL)" \
        --order left"""

    def exact(cell, step):
        return "" if cell is None else decimal.Decimal(cell).quantize(decimal.Decimal(step))

    wanted = [["parcel", "weight", "above", "below", "price"]]
    for parcel, weight in parcels:
        found = [row for row in tariffs if weight and float(row[0]) <= float(weight) < float(row[1] or "inf")]
        for above, below, price in found or [[None] * 3]:
            wanted.append([parcel, exact(weight, "0.001"), exact(above, "0.1"), exact(below, "0.1"), exact(price, "0.01")])
    desk.gives(command, wanted)


def prices_of_the_day(desk):
    """The price that held when something was ordered; days are text such as 2025-03-01."""
    orders = [["1", "nut", "2025-01-31"], ["2", "nut", "2025-02-01"], ["3", "bolt", "2024-12-31"], ["4", "saw", "2025-02-01"], ["5", "nut", None]]
    prices = [["nut", "2024-01-01", "2025-02-01", "0.20"], ["nut", "2025-02-01", "9999-12-31", "0.25"], ["bolt", "2025-01-01", "9999-12-31", "1.50"]]
    desk.write("orders.csv", ["number", "item", "day"], *orders)
    desk.write("prices.csv", ["item", "since", "until", "price"], *prices)
    command = r"""./radixjoin --left orders.csv --left-types int,text,text \
        --right prices.csv --right-types 'text,text,text,num(9,2)' \
        --join "LEFT JOIN ON L.item = R.item AND L.day >= R.since AND L.day < R.until" --order left \
        --repeated qualify"""
    query = """SELECT L.*, R.item "R.item", since, until, price FROM L LEFT JOIN R
        ON L.item = R.item AND date(day) BETWEEN date(since) AND date(until, '-1 day') ORDER BY L.rowid, R.rowid"""
    tables = {"L": ("orders.csv", "number INTEGER, item TEXT, day TEXT"), "R": ("prices.csv", "item TEXT, since TEXT, until TEXT, price TEXT")}
    desk.gives(command, desk.sqlite(query, **tables))


TASKS = (
    zones_with_countries,
    zones_with_countries_by_tabs,
    countries_without_zone,
    zones_of_one_country,
    places_of_visits,
    ranges_that_overlap,
    parcels_with_tariffs,
    prices_of_the_day,
)
