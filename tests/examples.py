"""Runs the worked examples of examples.toml and arrivals.toml over the built programs."""
import itertools
import pathlib
import re
import tomllib

import harness


def spelled(text):
    """A text of the table of examples, with its pieces repeated and its names written out."""
    if isinstance(text, list):
        text = "".join(piece if isinstance(piece, str) else piece[0] * piece[1] for piece in text)
    return re.sub(r"\{columns (\d+)\}", lambda found: ",".join(f"c{i + 1}" for i in range(int(found[1]))), text)


def bytes_of(file):
    """The bytes of a file of the table."""
    return bytes.fromhex(file["bytes"]) if "bytes" in file else spelled(file["text"]).encode()


def words_of(case, files, folder):
    """The words that a case runs its program with; writes its files into the folder."""
    for name, text in case.get("files", {}).items():
        (folder / name).write_bytes(spelled(text).encode())
    if "words" in case:
        return [spelled(word) for word in case["words"]]
    words, places = [], []
    for side in ("left", "right"):
        if side in case:
            file = files[case[side]]
            (folder / f"{side}.csv").write_bytes(bytes_of(file))
            places.append(f"{side}.csv")
            words += [f"--{side}", f"{side}.csv", f"--{side}-types", spelled(file.get("types", ""))]
    if case.get("short"):
        return [*places, spelled(case["join"]), *case.get("options", [])]
    return [*words, "--join", spelled(case["join"]), *case.get("options", [])]


def faults_of(case, files):
    """Runs one case, and says what isn't as wanted."""
    with harness.folder() as name:
        folder = pathlib.Path(name)
        words = [harness.program(case.get("program", "radixjoin")), *words_of(case, files, folder)]
        ran = harness.run(words, folder, spelled(case.get("stdin", "")).encode(), case.get("output", "read"))
    faults = []
    wanted = {"status": case.get("status", 0)}
    for stream in ("stdout", "stderr"):
        wanted[stream] = spelled(case.get(stream, "")).encode()
        if f"{stream}_holds" in case:
            wanted[stream] = None
            if case[f"{stream}_holds"].encode() not in getattr(ran, stream):
                faults.append(f"{stream} doesn't hold {case[f'{stream}_holds']!r}: {harness.shorten(getattr(ran, stream))}")
    return faults + harness.differences(ran, **wanted)


def sweep_partitions(case, files, tally):
    """Runs a case that names no number of partitions with each one: what it prints is the same."""
    options = case.get("options", [])
    if "words" in case or any(word.startswith(("--bits1", "--stats", "--help")) for word in options):
        return
    for bits in range(11):
        swept = {**case, "options": [*options, f"--bits1={bits}"]}
        tally.check(f"{case['name']}, --bits1={bits}", faults_of(swept, files))


def sweep_bits_and_hashes(case, files, tally):
    """Runs a case that names no partitions with each pair of bits from 0 to 3 and both hashes: what it prints is the same."""
    options = case.get("options", [])
    named = ("--bits1", "--bits2", "--hash", "--stats", "--help")
    if "words" in case or any(word.startswith(named) for word in options):
        return
    for bits1, bits2, name in itertools.product(range(4), range(4), ("plain", "mixed")):
        words = [f"--bits1={bits1}", f"--bits2={bits2}", f"--hash={name}"]
        tally.check(f"{case['name']}, {' '.join(words)}", faults_of({**case, "options": [*options, *words]}, files))


# How a join is done: each number of workers, block size, number of lanes and queue capacity stands beside most others.
WAYS = [
    {"workers": workers, "block": block, "lanes": lanes, "capacity": capacity}
    for workers, block, lanes, capacity in [
        (1, 1, 1, 1),
        (1, 1024, 3, 64),
        (2, 1, 4, 64),
        (2, 1024, 2, 1),
        (2, 1, 1, 1),
        (3, 1, 3, 1),
        (3, 1024, 4, 64),
        (64, 1, 2, 64),
        (64, 1024, 1, 64),
        (64, 1, 4, 1),
    ]
]


def sweep_ways(case, files, tally):
    """Runs a case that says nothing of workers with each of several ways: what it prints is the same."""
    options = case.get("options", [])
    named = ("-w", *(f"--{name}" for name in (*WAYS[0], "retries", "piece", "help")))
    if "words" in case or any(word.startswith(named) for word in options):
        return
    for way in WAYS:
        words = [f"--{name}={number}" for name, number in way.items()]
        tally.check(f"{case['name']}, {' '.join(words)}", faults_of({**case, "options": [*options, *words]}, files))


# Other delimiters, each with the words that name it.
DELIMITERS = {";": ["--delimiter=;"], "\t": ["-d", "tab"], "|": ["--left-delimiter=|", "--right-delimiter=|", "--out-delimiter=|"]}


def has_only_separators(case, files):
    """Whether a case's files are all that has commas of a text: its clause, types and options have none between quotes, and nothing that it
    prints shows a cell or a name on standard error."""
    words = [spelled(case["join"]), *(spelled(files[case[side]].get("types", "")) for side in ("left", "right") if side in case)]
    is_quoted = any(re.search(r"""(["'])(?:(?!\1).)*[,;\t|]""", word) for word in words)
    is_given = any(re.search(r'[";\t|]', spelled(word)) for word in case.get("options", []))
    return not is_quoted and not is_given and '"' not in spelled(case.get("stderr", "")) and not {"stdin", "stdout_holds", "stderr_holds"} & set(case)


def sweep_delimiters(case, files, tally):
    """Runs a case that names no delimiter with another one in the place of each comma of its files, and commas in the place of that one: what
    it prints is the same, with these exchanged, too."""
    if "words" in case or any(re.match("--(help|.*delimiter)|-d", word) for word in map(spelled, case.get("options", []))) or not has_only_separators(case, files):
        return
    for sign, words in DELIMITERS.items():
        exchange = str.maketrans(f",{sign}", f"{sign},")
        of_bytes = bytes.maketrans(b"," + sign.encode(), sign.encode() + b",")
        changed = {case[side]: {**files[case[side]], "bytes": bytes_of(files[case[side]]).translate(of_bytes).hex()} for side in ("left", "right") if side in case}
        swept = {**case, "options": [*case.get("options", []), *words], "stdout": spelled(case.get("stdout", "")).translate(exchange)}
        tally.check(f"{case['name']}, {' '.join(words)}", faults_of(swept, changed))


def run_all(tally):
    """Runs every case of both tables, those of joins for each number of partitions, by both hashes, by several workers and by other
    delimiters too."""
    for table in ("examples.toml", "arrivals.toml"):
        with open(harness.ROOT / "tests" / table, "rb") as text:
            found = tomllib.load(text)
        for case in found["case"]:
            files = found.get("file", {})
            tally.check(f"{table}: {case['name']}", faults_of(case, files))
            if "join" in case:
                sweep_partitions(case, files, tally)
                sweep_bits_and_hashes(case, files, tally)
                sweep_ways(case, files, tally)
                sweep_delimiters(case, files, tally)
