"""Tasks over what a machine has: its packages, its services, its users."""
import re

from .desk import file_or

STATUS = """Package: adduser
Status: install ok installed
Maintainer: Adduser Developers <adduser@example.org>
Installed-Size: 686
Version: 3.134
Depends: passwd, debconf (>= 1.0) | debconf-2.0

Package: passwd
Status: install ok installed
Maintainer: Bálint Réczey, Shadow <shadow@example.org>
Source: shadow (1:4.13)
Version: 1:4.13

Package: login
Status: install ok installed
Source: shadow
Installed-Size: 900
Version: 1:4.13
Pre-Depends: libc6:any (>= 2.36)
Depends: passwd
"""
SERVICES = """# Network services
domain 53/tcp # names
domain 53/udp
http 80/tcp www
ntp 123/udp
sctp-only 9/sctp
chat 194/chat
"""
PROTOCOLS = """# Internet protocols
ip 0 IP
tcp 6 TCP
udp 17 UDP
sctp 132 SCTP
"""
PASSWD = """root:x:0:0:root:/root:/bin/bash
ann:x:1000:1000:Ann Lee,,,:/home/ann:/bin/bash
bob:x:1001:100:Bob "the b" Ray:/home/bob:/bin/sh
lost:x:1002:4711::/nowhere:/usr/sbin/nologin
"""
GROUP = """root:x:0:
users:x:100:ann,bob
ann:x:1000:
staff:x:1000:bob
"""


def paragraphs():
    """The fields of each package that is installed, as dpkg keeps them."""
    text = file_or("/var/lib/dpkg/status", STATUS)
    found = [dict(re.findall(r"^([\w-]+): (.*)$", paragraph, re.MULTILINE)) for paragraph in text.split("\n\n")]
    return [fields for fields in found if fields.get("Status") == "install ok installed"]


def packages():
    """The packages: name, version, source, size, maintainer."""
    for fields in paragraphs():
        source = fields.get("Source", fields["Package"]).split()[0]
        yield [fields["Package"], fields["Version"], source, fields.get("Installed-Size"), fields.get("Maintainer")]


def needs():
    """What packages need: a package and the name of another one. Of alternatives each is a row of its own."""
    for fields in paragraphs():
        for need in re.split("[,|]", fields.get("Depends", "")):
            if need.strip():
                yield [fields["Package"], re.split("[ :(]", need.strip())[0]]


def write_packages(desk):
    """Makes the files of both tables."""
    desk.write("packages.csv", ["package", "version", "source", "size", "maintainer"], *packages())
    desk.write("needs.csv", ["package", "needs"], *needs())


def needs_that_are_not_met(desk):
    """What a package depends on that is no installed package."""
    write_packages(desk)
    installed = {package[0] for package in packages()}
    command = r"""./radixjoin --left needs.csv --left-types text,text \
        --right packages.csv --right-types text,text,text,int,text \
        --join "LEFT JOIN ON L.needs = R.package" --rows lone-left --columns left"""
    desk.gives(command, [["package", "needs"], *(need for need in needs() if need[1] not in installed)])


def packages_that_others_need(desk):
    """The packages that another one depends on, each once, with all their columns."""
    write_packages(desk)
    command = r"""./radixjoin --left packages.csv --left-types text,text,text,int,text \
        --right needs.csv --right-types text,text \
        --join "JOIN ON L.package = R.needs" --rows matched-left --columns left"""
    query = "SELECT * FROM L WHERE package IN (SELECT needs FROM R) ORDER BY rowid"
    tables = {"L": ("packages.csv", "package TEXT, version TEXT, source TEXT, size INTEGER, maintainer TEXT"), "R": ("needs.csv", "package TEXT, needs TEXT")}
    desk.gives(command, desk.sqlite(query, **tables))


def packages_of_one_source(desk):
    """Each two packages that were built from one source, once."""
    desk.write("sources.csv", ["package", "source"], *([package[0], package[2]] for package in packages()))
    command = r"""./radixjoin --left sources.csv --left-types text,text \
        --right sources.csv --right-types text,text \
        --join "JOIN ON L.source = R.source AND L.package < R.package" --repeated _2"""
    query = "SELECT L.*, R.package package_2, R.source source_2 FROM L JOIN R ON L.source = R.source AND L.package < R.package ORDER BY L.rowid, R.rowid"
    desk.gives(command, desk.sqlite(query, L=("sources.csv", "package TEXT, source TEXT"), R=("sources.csv", "package TEXT, source TEXT")))


def services():
    """The services: name, port, protocol, further names. None comes twice."""
    text = file_or("/etc/services", SERVICES)
    found = re.findall(r"^([\w.+-]+)[ \t]+(\d+)/(\w+)[ \t]*([^#\n]*?)[ \t]*(?:#.*)?$", text, re.MULTILINE)
    return [list(row) for row in {row[:3]: row for row in found}.values()]


def services_with_protocols(desk):
    """Each service with the number of its protocol, in the order of /etc/services."""
    found = [service[:3] for service in services()]
    protocols = re.findall(r"^([\w.+-]+)[ \t]+(\d+)", file_or("/etc/protocols", PROTOCOLS), re.MULTILINE)
    desk.write("services.csv", ["name", "port", "protocol"], *found)
    desk.write("protocols.csv", ["protocol", "number"], *protocols)
    command = r"""./radixjoin --left services.csv --left-types text,int,text \
        --right protocols.csv --right-types text,int \
        --join "LEFT JOIN USING (protocol)" --order left"""
    numbers = {name: [number for other, number in protocols if other == name] for name, _ in protocols}
    wanted = [[protocol, name, port, number] for name, port, protocol in found for number in numbers.get(protocol, [""])]
    desk.gives(command, [["protocol", "name", "port", "number"], *wanted])


def services_of_tcp_and_udp(desk):
    """Which services have a port by tcp, by udp or by both; a name may have several ports."""
    tcp, udp = ([[name, port, names] for name, port, protocol, names in services() if protocol == kind] for kind in ("tcp", "udp"))
    desk.write("tcp.csv", ["name", "port", "tcp_names"], *tcp)
    desk.write("udp.csv", ["name", "port", "udp_names"], *udp)
    command = r"""./radixjoin --left tcp.csv --left-types text,int,text \
        --right udp.csv --right-types text,int,text --join "FULL JOIN USING (name, port)" """
    by_tcp, by_udp = ({(name, port): names for name, port, names in rows} for rows in (tcp, udp))
    both = [[*key, names, by_udp[key]] for key, names in by_tcp.items() if key in by_udp]
    tcp_only = [[*key, names, ""] for key, names in by_tcp.items() if key not in by_udp]
    udp_only = [[*key, "", names] for key, names in by_udp.items() if key not in by_tcp]
    desk.gives(command, [["name", "port", "tcp_names", "udp_names"], *both, *tcp_only, *udp_only])


def users_with_groups(desk):
    """Each user with the groups of his number, from files without a header whose separator is a colon."""
    desk.text("passwd", PASSWD)
    desk.text("group", GROUP)
    desk.recipe("from_tsv.py")
    command = r"""
        (echo user:password:uid:gid:name:home:shell; cat passwd) | python3 from_tsv.py : > users.csv
        (echo group:password:gid:members; cat group) | python3 from_tsv.py : > groups.csv
        ./radixjoin --left users.csv --left-types text,text,int,int,text,text,text \
            --right groups.csv --right-types text,text,int,text \
            --join "LEFT JOIN USING (gid)" --order left --repeated _of_group"""
    desk.gives(command, groups_of_users())


def groups_of_users():
    """Each user with the groups of his number, the header first."""
    users, groups = ([line.split(":") for line in text.splitlines()] for text in (PASSWD, GROUP))
    wanted = [["gid", "user", "password", "uid", "name", "home", "shell", "group", "password_of_group", "members"]]
    for name, password, number, group_number, *rest in users:
        found = [[group, secret, members] for group, secret, other, members in groups if other == group_number]
        wanted += [[group_number, name, password, number, *rest, *group] for group in found or [["", "", ""]]]
    return wanted


def users_with_groups_by_colons(desk):
    """The same from these files as they are: the colon is named, and double quotes within a name stand for themselves."""
    desk.text("passwd", PASSWD)
    desk.text("group", GROUP)
    command = r"""
        ./radixjoin --left <(echo user:password:uid:gid:name:home:shell; cat passwd) --left-types text,text,int,int,text,text,text \
            --right <(echo group:password:gid:members; cat group) --right-types text,text,int,text \
            --join "LEFT JOIN USING (gid)" --order left --repeated _of_group --delimiter : --out-delimiter ,"""
    desk.gives(command, groups_of_users())


TASKS = (
    needs_that_are_not_met,
    packages_that_others_need,
    packages_of_one_source,
    services_with_protocols,
    services_of_tcp_and_udp,
    users_with_groups,
    users_with_groups_by_colons,
)
