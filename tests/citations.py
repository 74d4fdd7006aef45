"""Checks that what the documents cite exists: links and their anchors, paths and lines, the names of calls, definitions and tests and the
files that they are said to stand in, options and crates; that numbers which several places tell are the same, those of limits and
sizes as the sources have them; that types of one name are told apart; and that lines and cells of tables fit a screen."""
import re
import subprocess
import sys

import harness

# Where a path may begin: what stands in `crates/`, and what an earlier path of the line names, may be left out.
PLACES = ("", "crates/", "crates/*/", "crates/*/must-fail/", "crates/*/proofs/", "docs/user/", "docs/dev/", "tests/", "tests/oracle/", "bench/", "tools/", "examples/")
SUFFIXES = ("antt", "rt", "py", "toml", "md", "c", "rs", "sh", "edit", "txt", "tried", "fish", "bash", "1")
# Pages whose code is what a user types, and no name of the repository's.
FOR_USERS = ("docs/user/errors.md", "docs/user/recipes.md", "README.md", "CHANGELOG.md", "docs/user/python.md", "docs/user/options.md")
# Words in code letters that stand for a text, a place or a thing outside the repository.
OTHERS = {"NAME", "CRATE", "FOLDER", "PREFIX"}
# Options in the documents that are none of this repository: those of `rt`, and those that stand for any.
OTHER_OPTIONS = {"limit", "name", "only", "test", "minutes"}
# A number as documents write it.
NUMBER = r"2\^\d+(?: - 1)?|\d[\d,]*"
# The constant that each limit of docs/user/specification.md stands in.
CONSTANTS = {
    "rows of a table": ("rj_csv_io/src/read_rows.rt", r"MAX_ROWS: u64 = (\w+);"),
    "columns of a table": ("rj_columns/src/builder.rt", r"MAX_COLUMNS: usize = (\w+);"),
    "a header name": ("rj_columns/src/names.rt", r"MAX_NAME: usize = (\w+);"),
    "a NULL text": ("rj_csv_io/src/null_text.rt", r"MAX_NULL: usize = (\w+);"),
    "NULL texts of a side": ("rj_line/src/nulls.rt", r"MOST_NULLS: usize = (\w+);"),
    "a clause": ("rj_condition/src/parsing.rt", r"LONGEST: usize = (\w+);"),
    "nesting": ("rj_condition/src/nesting.rt", r"MOST: usize = (\w+);"),
    "senders of a ledger": ("arrivals/src/line.rt", r'"senders", 1, (\w+)'),
    "rows of a block": ("rj_line/src/options.rt", r'name: "block",\s+letter: None,\s+takes: Takes::Number\(1, (\w+)\)'),
    "partitions of an exchange": ("rj_exchange/src/boxes/open.rt", r"partitions ≤ (\w+)"),
    "lanes": ("rj_exchange/src/boxes/open.rt", r"lanes ≤ (\w+)"),
    "parcels of a queue": ("rj_exchange/src/boxes/open.rt", r"capacity ≤ (\w+)"),
    "workers, outboxes, stripes": ("rj_exchange/src/boxes/open.rt", r"outboxes ≤ (\w+)"),
    "seats": ("rj_exchange/src/halt/calls.rt", r"seats ≤ (\w+)"),
    "tickets": ("rj_workers/src/sharing.rt", r"MOST_DRAWN: u64 = 1 << (\w+);"),
}
# The limits that pages for users tell, and what follows the number there.
TOLD = {
    "rows of a table": "rows",
    "columns of a table": "columns|names",
    "a header name": "bytes",
    "a NULL text": "bytes|printable",
    "a clause": "bytes",
    "nesting": "deep|parentheses",
}
# Sizes that pages tell: the page, what stands there with the number, what the number counts, and the constant that has it.
FIGURES = (
    ("docs/dev/architecture.md", rf"nor do fewer than ({NUMBER}) rows", 1, "rj_csv_io/src/write_in_parts.rt", "LEAST_ROWS"),
    ("docs/dev/architecture.md", rf"list of texts of up to ({NUMBER}) rows", 1, "rj_csv_io/src/range.rt", "TEXT_ROWS"),
    ("docs/dev/architecture.md", rf"Output is made in blocks of up to ({NUMBER}) rows", 1, "rj_csv_io/src/block.rt", "BLOCK_ROWS"),
    ("docs/dev/architecture.md", rf"Keys are hashed in blocks of up to ({NUMBER}) rows", 1, "rj_radix/src/routing.rt", "BLOCK"),
    ("docs/dev/architecture.md", rf"Keys are hashed in blocks of up to ({NUMBER}) rows", 1, "rj_hashjoin/src/hashing.rt", "BLOCK"),
    ("docs/dev/decisions.md", rf"A part has at least ({NUMBER}) KiB", 1 << 10, "rj_csv_io/src/read_parts.rt", "LEAST_PART"),
    ("docs/dev/decisions.md", rf"a share of the written rows at least ({NUMBER}) rows", 1, "rj_csv_io/src/write_in_parts.rt", "LEAST_ROWS"),
    ("docs/dev/decisions.md", rf"Rows are written in blocks of ({NUMBER}) rows", 1, "rj_csv_io/src/block.rt", "BLOCK_ROWS"),
    ("docs/dev/decisions.md", rf"no more than ({NUMBER}) GiB at once", 1 << 30, "rj_csv_io/src/range.rt", "MOST_ROOM"),
    ("docs/dev/decisions.md", rf"list of texts of up to ({NUMBER}) rows", 1, "rj_csv_io/src/range.rt", "TEXT_ROWS"),
    ("docs/dev/decisions.md", rf"line feeds of the file's first ({NUMBER}) KiB", 1 << 10, "rj_csv_io/src/header.rt", "SAMPLE"),
    ("docs/dev/decisions.md", rf"Rows are hashed in blocks of ({NUMBER}),", 1, "rj_radix/src/routing.rt", "BLOCK"),
    ("docs/dev/decisions.md", rf"Rows are hashed in blocks of ({NUMBER}),", 1, "rj_hashjoin/src/hashing.rt", "BLOCK"),
    ("docs/dev/decisions.md", rf"sleeps, ({NUMBER}) to (?:{NUMBER}) microseconds", 1, "rj_workers/src/pause.rt", "SHORTEST"),
    ("docs/dev/decisions.md", rf"sleeps, (?:{NUMBER}) to ({NUMBER}) microseconds", 1, "rj_workers/src/pause.rt", "LONGEST"),
    ("docs/dev/decisions.md", rf"`shards` reads ({NUMBER}) MiB at a time", 1 << 20, "shards/src/dividing.rt", "BLOCK"),
    ("docs/user/specification.md", rf"A and B are at most ({NUMBER}) and places", 1, "shards/src/dividing.rt", "MOST"),
    ("docs/user/specification.md", rf"NAME is left out if it has more than ({NUMBER}) bytes", 1, "rj_files/src/draft.rt", "LONGEST"),
    ("docs/user/specification.md", rf"of more than ({NUMBER}) bytes the first ones", 1, "rj_line/src/shown.rt", "MOST"),
    ("docs/user/specification.md", rf"another text of 1 to ({NUMBER}) bytes", 1, "rj_line/src/choice.rt", "LONGEST_SUFFIX"),
    ("docs/user/specification.md", rf"would have more than ({NUMBER}) bytes before it is like no other", 1, "rj_engine/src/naming.rt", "MAX_NAME"),
)
# The columns of a line and the words of a table's cell that a page may have.
MOST_COLUMNS, MOST_WORDS = 100, 25
# How many decisions docs/dev/decisions.md may have.
MOST_DECISIONS = 60
# What is said of memory, wherever it is said.
MEMORY = r"about\s+(\w+)\s+times\s+the\s+size\s+of\s+(?:the|its)\s+two\s+(?:files|parts)"


def tracked():
    """The files of the repository, those that are not yet added too, but none that is left out of it."""
    words = ["git", "ls-files", "--cached", "--others", "--exclude-standard"]
    names = subprocess.run(words, cwd=harness.ROOT, capture_output=True, check=True).stdout.decode().splitlines()
    return [name for name in names if (harness.ROOT / name).is_file()]


def anchor_of(heading):
    """The anchor of a heading, as web pages of repositories make it."""
    return re.sub(r"[^\w\- ]", "", heading.lower()).replace(" ", "-")


def link_faults(page, text):
    """The links of a page that lead nowhere."""
    for target in re.findall(r"\]\(([^)#\s]*(?:#[^)\s]*)?)\)", text):
        path, _, anchor = target.partition("#")
        file = (harness.ROOT / page).parent / path if path else harness.ROOT / page
        if re.match(r"\w+:", target):
            continue
        if not file.exists():
            yield f"the link to {target} leads nowhere"
        elif anchor and anchor not in [anchor_of(heading) for heading in re.findall(r"^#+ (.*)$", file.read_text(), re.MULTILINE)]:
            yield f"{path} has no heading {anchor}"


def is_path(token):
    """Whether a text in code letters is a path of the repository."""
    token = re.sub(r":\d+$", "", token)
    if not re.fullmatch(r"[\w.*\-/]+", token) or token.startswith("/"):
        return False
    return token.rpartition(".")[2] in SUFFIXES if "." in token else "/" in token


def path_faults(page, text, files):
    """The paths of a page that name nothing. `Name.antt` after `crate/specs/Other.antt` stands in the same folder."""
    for line in text.splitlines():
        before = []
        for token in filter(is_path, re.findall(r"`([^`\n]+)`", line)):
            if token.split("/")[-1].split(".")[0] in OTHERS or any(word in OTHERS for word in token.split("/")):
                continue
            token, _, at = token.partition(":")
            wanted = [place + token for place in (*PLACES, *before, f"{page.rpartition('/')[0]}/")]
            before.append(token.rpartition("/")[0] + "/")
            before.append("crates/" + before[-1])
            before.append(re.sub(r"/\w+/$", "/", before[0]))
            if not any(is_there(name.rstrip("/"), files) for name in wanted):
                yield f"there is no {token}"
            elif at and not any(name in files and int(at) <= len((harness.ROOT / name).read_text().splitlines()) for name in wanted):
                yield f"{token} has no line {at}"


def is_there(wanted, files):
    """Whether a path, where `*` stands for any name, is a file or folder of the repository."""
    pattern = re.compile(re.escape(wanted.removeprefix("./")).replace(r"\*", "[^/]*") + "(/.*)?")
    return wanted in ("", ".") or any(pattern.fullmatch(name) for name in files)


def names_in(token):
    """The names in a text in code letters: words of small and capital letters and `_`, where it is a name, a path of names or a call."""
    if not re.fullmatch(r"(?:\w+(?:<[^>]*>)?::)*(?:\w+|\{[\w, ]+\})(?:\([^)]*\)|<[^>]*>)?", token):
        return []
    return [name for name in re.findall(r"[A-Za-z_]\w*", re.sub(r"\(.*|<[^>]*>", "", token)) if name not in OTHERS]


def known_words(files):
    """Every word of the sources, definitions, proofs, tests and tools."""
    words = set()
    for name in files:
        if name.endswith((".rt", ".antt", ".py", ".toml", ".c", ".rs", ".sh", ".edit", "crates.txt", "HANDLES")) or name.startswith("tools/"):
            words |= set(re.findall(r"[A-Za-z_]\w*", (harness.ROOT / name).read_text(errors="replace")))
            words |= set(re.findall(r"[A-Za-z_]\w*", name))
    return words


def name_faults(text, words):
    """The names of a page that stand nowhere in the repository."""
    for token in re.findall(r"`([^`\n]+)`", text):
        if not is_path(token):
            yield from (f"nothing is called {name}" for name in names_in(token) if name not in words)


def definition_faults(text):
    """Of the table of definitions: those that stand in none of the files beside them."""
    for names, places in re.findall(r"^\| [^|]* \| (`[^|]*) \| (`[^|]*\.antt`[^|]*) \|$", text, re.MULTILINE):
        files = re.findall(r"`([^`]+)`", places)
        folder = files[0].rpartition("/")[0]
        found = [harness.ROOT / "crates" / (file if "/" in file else f"{folder}/{file}") for file in files]
        texts = "\n".join(file.read_text() for file in found if file.exists())
        for name in re.findall(r"`([^`]+)`", names):
            if not re.search(rf"^(?:[a-z]+ )+{re.escape(name)}\b", texts, re.MULTILINE):
                yield f"{name} is defined in none of {', '.join(files)}"


def listed_crates():
    """What each crate of crates.txt stands on, by its name."""
    lines = [line.partition("#")[0] for line in (harness.ROOT / "crates.txt").read_text().splitlines()]
    return {line.split()[0].rstrip(":"): set(line.partition(":")[2].split()) for line in lines if line.strip()}


def crate_faults(text):
    """Where the list of crates differs from crates.txt: which there are, and what they use where that is told. An entry ends with what
    its crate uses."""
    listed, told = listed_crates(), set()
    entries = re.findall(r"^- (.*(?:\n  .*)*)", text.partition("\n## The way of the data")[0], re.MULTILINE)
    for entry in (" ".join(lines.split()) for lines in entries):
        names, _, rest = entry.partition(": ")
        row = re.findall(r"`(\w+)`", names)
        told.update(row)
        below = rest.rpartition(" Uses ")[2] if " Uses " in rest else ""
        wanted, found = set().union(*(listed.get(name, set()) for name in row)), set(re.findall(r"`(\w+)`", below))
        is_right = found == wanted and (found or below == "std alone.")
        if not is_right and below != "the libraries that they test.":
            yield f"{', '.join(row)}: uses {', '.join(sorted(wanted)) or 'std alone'}, and {', '.join(sorted(found)) or 'nothing'} is told"
    yield from (f"{name} is told, and crates.txt hasn't it" for name in sorted(told - set(listed)))
    yield from (f"crates.txt has {name}, which isn't told" for name in sorted(set(listed) - told))


def unnamed_faults(files):
    """The crates that a crate stands on by crates.txt, and that none of its sources, definitions and proofs names; those of tests
    aside."""
    for crate, below in listed_crates().items():
        if crate.startswith("rj_tests_"):
            continue
        own = [name for name in files if re.match(rf"crates/{crate}/(?:src|specs|proofs)/", name)]
        words = set(re.findall(r"\w+", "\n".join((harness.ROOT / name).read_text() for name in own)))
        yield from (f"{crate} stands on {name}, and doesn't name it" for name in sorted(below - words))


def place_faults(text):
    """Of `name`, `name` in `FILE`: the names that stand nowhere in the file. A file is in `crates/`, or one of the crate named last."""
    crates, crate, text = harness.ROOT / "crates", "", " ".join(text.split())
    for found in re.finditer(r"((?:`\w+`(?:, with |, | and )?)+) in `([\w/]+\.(?:antt|rt))`|`(rj_\w+)", text):
        names, file, named = found.groups()
        crate = named or (file.split("/")[0] if (crates / file).exists() else crate)
        if names:
            path = crates / file if (crates / file).exists() else crates / crate / file
            known = set(re.findall(r"\w+", path.read_text())) if path.exists() else set()
            wanted = [name for name in re.findall(r"`(\w+)`", names) if not name.startswith("rj_")]
            yield from (f"{name} doesn't stand in {path.relative_to(harness.ROOT)}" for name in wanted if name not in known)


def known_options(files):
    """The options of the programs, the tests and the tools."""
    options = set(OTHER_OPTIONS)
    for name in files:
        text = (harness.ROOT / name).read_text(errors="replace") if not name.startswith(("docs/", "man/")) else ""
        if re.fullmatch(r"crates/\w+/src/(?:.*/)?(?:main|line|options)\.rt", name):
            options |= set(re.findall(r'"([a-z][a-z0-9-]*)"', text)) | {"help", "version"}
        elif name.endswith(".py") or name == "test" or name.startswith(("tools/", "cluster/", "bench/")):
            options |= set(re.findall(r"--([a-z][a-z0-9-]*)", text))
    return options


def option_faults(text, options):
    """The options of a page that no program has."""
    for token in re.findall(r"`([^`\n]+)`", text):
        yield from (f"no program has --{name}" for name in re.findall(r"(?<!\S)--([a-z][a-z0-9-]*)", token) if name not in options)


def number_of(text):
    """The value of a number such as `65,536`, `65_536` or `2^31 - 1`."""
    power = re.fullmatch(r"2\^(\d+)( - 1)?", text)
    return 2 ** int(power[1]) - (1 if power[2] else 0) if power else int(re.sub(r"[,_]", "", text))


def limit_of(thing):
    """The limit of a thing that the sources have, or none."""
    file, pattern = CONSTANTS[thing]
    found = re.search(pattern, (harness.ROOT / "crates" / file).read_text())
    return number_of(f"2^{found[1]}" if "<<" in pattern else found[1]) if found else None


def limit_faults(text):
    """Where the table of limits differs from the constants in the sources."""
    rows = dict(re.findall(r"^\| ([^|]+) \| ([^|]*\d[^|]*) \|$", text.partition("\n## Limits\n")[2].partition("\n## ")[0], re.MULTILINE))
    yield from (f"no constant is known of the limit of {thing}" for thing in sorted(set(rows) - set(CONSTANTS)))
    for thing, (file, _) in CONSTANTS.items():
        told = re.findall(NUMBER, rows.get(thing, ""))
        if not told or number_of(told[-1]) != limit_of(thing):
            yield f"{thing}: {rows.get(thing, 'nothing')} is told, and {file} has {limit_of(thing)}"


def untold_limits(page):
    """The limits that a page for users doesn't tell, or not as the sources have them."""
    text = (harness.ROOT / page).read_text()
    for thing, words in TOLD.items():
        told = [number_of(number) for number in re.findall(rf"({NUMBER})\s+(?:{words})\b", text)]
        if limit_of(thing) not in told:
            yield f"{thing}: {limit_of(thing)} isn't told"


def value_of(file, constant):
    """The value of a constant of the sources, such as `16384`, `65_536` or `8 << 20`."""
    found = re.search(rf"\b{constant}: \w+ = (\w+)(?: << (\d+))?;", (harness.ROOT / "crates" / file).read_text())
    return number_of(found[1]) << int(found[2] or 0)


def figure_faults(page):
    """Where a page tells another size than the sources have."""
    text = " ".join((harness.ROOT / page).read_text().split())
    for _, pattern, unit, file, constant in (figure for figure in FIGURES if figure[0] == page):
        told = [number_of(number) * unit for number in re.findall(pattern, text)]
        if set(told) != {value_of(file, constant)}:
            yield f"{told or 'nothing'} is told, and {constant} of {file} is {value_of(file, constant)}"


def declared_types(files):
    """The files of each type and definition of a type, by its name, within `crates/`; those of tests aside."""
    found = {}
    for name in files:
        is_source = re.fullmatch(r"crates/(?!rj_tests_)\w+/src/.*\.rt", name)
        if is_source or re.fullmatch(r"crates/(?!rj_tests_)\w+/specs/.*\.antt", name):
            kinds = r"(?:pub(?:\([^)]*\))? )?(?:struct|enum|trait)" if is_source else r" *(?:pub )?(?:data|record)"
            for known in re.findall(rf"^{kinds} (\w+)", (harness.ROOT / name).read_text(), re.MULTILINE):
                found.setdefault(known, set()).add(name.removeprefix("crates/"))
    return found


def type_faults(text, files):
    """Where the table of types of one name differs from the sources: which there are, and in which crates; files, where a crate has
    two."""
    told = {}
    section = text.partition("\n### Types of one name\n")[2].partition("\n## ")[0]
    for name, places in re.findall(r"^\| `(\w+)` \| ([^|]*) \| [^|]+ \|$", section, re.MULTILINE):
        told.setdefault(name, []).extend(re.findall(r"`([^`]+)`", places))
    shared = {name: places for name, places in declared_types(files).items() if len(places) > 1}
    yield from (f"{name} is one type, and is told as several" for name in sorted(set(told) - set(shared)))
    for name, places in sorted(shared.items()):
        crates = [place.split("/")[0] for place in places]
        wanted = {place if crates.count(place.split("/")[0]) > 1 else place.split("/")[0] for place in places}
        found = sorted(told.get(name, []))
        if found != sorted(wanted):
            yield f"{name}: it stands in {', '.join(sorted(wanted))}, and {', '.join(found) or 'nothing'} is told"


def library_faults(text):
    """Where the libraries that a page tells to be trusted differ from those that crates.txt names beside the repository's own crates."""
    listed = listed_crates()
    wanted = set().union(*listed.values()) - set(listed)
    told = set(re.findall(r"`(\w+)`", re.search(r"statements of the kit's crates \(([^)]*)\)", text)[1]))
    yield from (f"{name} isn't told" for name in sorted(wanted - told))
    yield from (f"crates.txt has no {name}" for name in sorted(told - wanted))


def endings_of(program, source, definitions):
    """The lines that a program's source tells, each up to the first thing that it names, with their exit statuses."""
    lines = re.findall(rf'Failure::(\w+)(?:\([^)]*\))? => [^"]*"{program}: ([^"]*)"', (harness.ROOT / "crates" / source).read_text())
    statuses = dict(re.findall(r"^exit_of \(?failure\.(\w+).* = (\d)$", (harness.ROOT / "crates" / definitions).read_text(), re.MULTILINE))
    return {(line, statuses.get(name)) for name, line in lines}


def ending_faults(text):
    """Where the table of what `merges` tells, and by which exit status it ends, differs from its source and its definition. One of
    these lines no command line is long enough for."""
    table = text.partition("| Line, after `merges: ` |")[2].partition("\n\n")[0]
    told = set()
    for tokens, status in re.findall(r"^\| (`.*`) \| (\d) \|", table, re.MULTILINE):
        told |= {(re.split(r" (?:FILE|left L)\b", token)[0], status) for token in re.findall(r"`([^`]+)`", tokens)}
    found = endings_of("merges", "merges/src/failure.rt", "merges/specs/Failures.antt")
    yield from (f"merges tells {line!r} and ends by {status}, which isn't told" for line, status in sorted(found - told))
    yield from (f"merges doesn't tell {line!r} and end by {status}" for line, status in sorted(told - found))


def number_faults(text):
    """The numbers of decisions that stand twice; decisions without a number, or more of them than a reader can take."""
    entries = re.findall(r"^- (.*)", text, re.MULTILINE)
    numbers = [found[1] for found in (re.match(r"\*\*(\d+)\*\* ", entry) for entry in entries) if found]
    yield from (f"{number} stands twice" for number in sorted(set(numbers), key=int) if numbers.count(number) > 1)
    yield from (f"it has no number: {entry}" for entry in entries if not re.match(r"\*\*\d+\*\* ", entry))
    if len(entries) > MOST_DECISIONS:
        yield f"{len(entries)} are more than {MOST_DECISIONS}"


def agreement_faults(what, pattern, pages):
    """Where pages tell different things of one thing, or nothing."""
    told = {page: set(re.findall(pattern, (harness.ROOT / page).read_text())) for page in pages}
    yield from (f"{page} tells nothing of {what}" for page, found in told.items() if not found)
    if len(set().union(*told.values())) > 1:
        yield f"{what}: {', '.join(f'{page} tells {sorted(found)}' for page, found in told.items())}"


def layout_faults(text):
    """The lines of a page that are too long, and the cells of its tables that have too many words."""
    for number, line in enumerate(text.splitlines(), 1):
        if len(line) > MOST_COLUMNS:
            yield f"line {number} has {len(line)} columns"
        words = max(len(cell.split()) for cell in re.split(r"(?<!\\)\|", line)) if line.startswith("|") else 0
        if words > MOST_WORDS:
            yield f"a cell of line {number} has {words} words"


def index_faults(text):
    """Where docs/dev/index.md isn't what `tools/index` prints."""
    ran = subprocess.run([sys.executable, harness.ROOT / "tools" / "index"], capture_output=True, check=False)
    wanted = ran.stdout.decode().splitlines()
    if ran.returncode:
        yield ran.stderr.decode().strip()
    elif wanted != text.splitlines():
        yield "it isn't what tools/index prints: tools/index > docs/dev/index.md"


def check_agreement(tally, files):
    """What several places tell of one thing."""
    names = ("user/specification", "dev/architecture", "dev/changing", "dev/theorem", "dev/decisions", "dev/index")
    docs = {name.partition("/")[2]: (harness.ROOT / "docs" / f"{name}.md").read_text() for name in names}
    tally.check("docs/user/specification.md: definitions", list(definition_faults(docs["specification"])))
    tally.check("docs/user/specification.md: limits", list(limit_faults(docs["specification"])))
    tally.check("docs/user/specification.md: what merges tells", list(ending_faults(docs["specification"])))
    tally.check("docs/dev/architecture.md: crates", list(crate_faults(docs["architecture"])))
    tally.check("crates.txt: crates that none names", list(unnamed_faults(files)))
    tally.check("docs/dev/architecture.md: types of one name", list(type_faults(docs["architecture"], files)))
    tally.check("docs/dev/changing.md: files of names", list(place_faults(docs["changing"])))
    tally.check("docs/dev/theorem.md: libraries", list(library_faults(docs["theorem"])))
    tally.check("docs/dev/index.md: what tools/index prints", list(index_faults(docs["index"])))
    tally.check("docs/dev/decisions.md: numbers", list(number_faults(docs["decisions"])))
    pages = ("README.md", "CONTRIBUTING.md", "docs/dev/theorem.md")
    tally.check("the kit", list(agreement_faults("the kit", r"rattle-kit-\w+", pages)))
    tally.check("the kit's logic", list(agreement_faults("the kit", r"rattle-kit-\w+ logic \w+", pages[1:])))
    pages = ("README.md", "docs/user/options.md", "docs/user/errors.md", "docs/user/cluster.md", "man/radixjoin.1")
    tally.check("memory", list(agreement_faults("memory", MEMORY, pages)))
    for page in ("docs/user/options.md", "docs/user/errors.md", "man/radixjoin.1"):
        tally.check(f"{page}: limits", list(untold_limits(page)))
    for page in sorted({figure[0] for figure in FIGURES}):
        tally.check(f"{page}: sizes", list(figure_faults(page)))


def run_all(tally):
    """The links, paths, names and options of every document, and what several of them tell."""
    files = tracked()
    words, options = known_words(files), known_options(files)
    for page in sorted(name for name in files if name.endswith(".md")):
        text = (harness.ROOT / page).read_text()
        prose = re.sub(r"^ {4}.*$|^```(?:.|\n)*?^```$", "", text, flags=re.MULTILINE)
        tally.check(f"{page}: links", list(link_faults(page, prose)))
        if page not in FOR_USERS[:2]:
            tally.check(f"{page}: paths", list(path_faults(page, prose, files)))
        if page not in FOR_USERS:
            tally.check(f"{page}: names", list(name_faults(prose, words)))
        tally.check(f"{page}: options", list(option_faults(prose, options)))
        tally.check(f"{page}: lines", list(layout_faults(text)))
        crates = set(re.findall(r"\brj_\w+", text)) - set(listed_crates())
        tally.check(f"{page}: crates", [f"there is no crate {name}" for name in sorted(crates)])
    check_agreement(tally, files)
