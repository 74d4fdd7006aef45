"""The words of both command lines: "The order" and "Errors and statuses" of docs/user/specification.md.

Options are long ones, used at most once but for those of a side's null texts; `--name value` and `--name=value` mean the same, and a value that begins
with `-` is given by `=` (but `-` alone is a value). `-o`, `-w`, `-d` and `-q` are letters of four of them. In the short form three words are no
options."""
import math
import re

from .faults import BadLine, Fault, Help
from . import joining, ledger, reading, selecting

# What an option takes: any text that has to be given, any text, any text at each use, a number of a range, or nothing.
TEXT, NEEDED_TEXT, TEXTS, FLAG = "text", "needed text", "texts", "flag"

# The kinds of rows that can be written.
KINDS = ("pairs", "lone-left", "lone-right", "matched-left")

# What stands for a kind of rows with the left columns.
LOOKED_FOR = {"anti": "lone-left", "semi": "matched-left"}

# What may be expected of the matches of each row.
EXPECTED = tuple(word for once in ("one-to-one", "many-to-one", "one-to-many") for word in (once, f"{once},matched")) + ("matched",)

# The options with which rows aren't counted.
CHOOSING = {"rows", "anti", "semi", "columns", "select", "order"}

# The most bytes that are added to a repeated name at once.
LONGEST_SUFFIX = 16

# How many null texts a side has at most.
MOST_NULLS = 4


class Number:
    """A whole number from `least` to `most`."""

    def __init__(self, least, most, default=None):
        self.least = least
        self.most = most
        self.default = default


class Word:
    """One of a few words."""

    def __init__(self, words, default):
        self.words = words
        self.default = default


class WordOrNone(Word):
    """One of a few words, or nothing, for which the first of them stands."""


# What has no option in the short form, in the order of the words.
PLACES = ("left", "right", "join")

# The options of which one letter is enough.
LETTERS = {"o": "output", "w": "workers", "d": "delimiter", "q": "quiet"}

OPTIONS_OF = {
    "radixjoin": {
        "left": NEEDED_TEXT,
        "right": NEEDED_TEXT,
        "left-types": NEEDED_TEXT,
        "right-types": NEEDED_TEXT,
        "join": NEEDED_TEXT,
        "types": TEXT,
        "null": TEXT,
        "left-null": TEXTS,
        "right-null": TEXTS,
        "out-null": TEXT,
        "delimiter": TEXT,
        "left-delimiter": TEXT,
        "right-delimiter": TEXT,
        "out-delimiter": TEXT,
        "strict": WordOrNone(("on", "full"), None),
        "bits1": Number(0, 10, 4),
        "bits2": Number(0, 10, 0),
        "hash": Word(("plain", "mixed"), "plain"),
        "workers": Number(1, 64, 1),
        "block": Number(1, 65536, 1024),
        "lanes": Number(1, 4, 1),
        "capacity": Number(1, 4096, 64),
        "retries": Number(0, 3, 1),
        "piece": Number(1, 1_048_576, 65_536),
        "stats": FLAG,
        "explain": FLAG,
        "output": TEXT,
        "order": Word(("pairs", "left"), "pairs"),
        "rows": TEXT,
        "repeated": TEXT,
        "expect": Word(EXPECTED, None),
        "max-rows": Number(0, 4_294_967_295, math.inf),
        "count": FLAG,
        "report": FLAG,
        "progress": FLAG,
        "columns": Word(("all", "left", "right"), "all"),
        "anti": FLAG,
        "semi": FLAG,
        "select": TEXT,
        "quiet": FLAG,
        "unnamed": FLAG,
    },
    "arrivals": {"partition": Number(0, 1023), "senders": Number(1, 128), "block": Number(1, 65536), "gaps": FLAG},
}


# The options of the short form, without its three words.
SHORT = {name: TEXT if takes == NEEDED_TEXT else takes for name, takes in OPTIONS_OF["radixjoin"].items() if name not in PLACES}
SHORT.update({"lenient": FLAG, "terse": FLAG})


def is_short(words):
    """Whether a line of radixjoin is of the short form."""
    return not any(re.match(r"--(left|right|join)(=|$)", word) for word in words)


def explains(words):
    """Whether a line of radixjoin asks for explanations by being of the short form."""
    words = [word.decode(errors="replace") for word in words]
    return is_short(words) and not {"--terse", "--quiet", "-q"} & {*words}


def number(value, of):
    """The number that a value spells: digits, and a sign may stand first."""
    if not re.fullmatch(r"[+-]?[0-9]+", value):
        raise BadLine
    found = reading.integer(value.encode())
    if not of.least <= found <= of.most:
        raise BadLine
    return found


def put(found, options, name, value):
    """Takes one use of an option."""
    if options[name] == TEXTS:
        found.setdefault(name, []).append(value)
        return
    if name in found:
        raise BadLine
    if isinstance(options[name], Word) and value not in options[name].words:
        raise BadLine
    found[name] = number(value, options[name]) if isinstance(options[name], Number) else value


def end_waiting(found, options, waiting):
    """An option that waits for its value gets none."""
    if not isinstance(options[waiting], WordOrNone):
        raise BadLine
    put(found, options, waiting, options[waiting].words[0])


def take_option(found, options, word, waiting):
    """Reads a word `--name` or `--name=value`; the option that now waits for its value, or None."""
    name, has_value, value = word[2:].partition("=")
    if waiting is not None:
        end_waiting(found, options, waiting)
    if name in ("help", "version") and not has_value:
        raise Help
    if name not in options or (options[name] == FLAG and has_value):
        raise BadLine
    if options[name] == FLAG:
        put(found, options, name, "")
        return None
    if not has_value:
        return name
    put(found, options, name, value)
    return None


def take_letter(found, options, word, waiting):
    """Reads a word `-o` or `-oVALUE`; the option that now waits for its value, or None."""
    if waiting is not None:
        end_waiting(found, options, waiting)
    name, value = LETTERS[word[1]], word[2:]
    if options[name] == FLAG:
        if value:
            raise BadLine
        put(found, options, name, "")
        return None
    if not value:
        return name
    put(found, options, name, value[1:] if value.startswith("=") else value)
    return None


def put_place(found, places, word):
    """Takes a word that is no option."""
    if not places:
        raise BadLine
    found[places.pop(0)] = word


def read_words(program, words):
    """The value of each option that was given, by its name, and of each word that is none."""
    options, found, waiting, places = OPTIONS_OF[program], {}, None, []
    try:
        words = [word.decode() for word in words]
    except UnicodeDecodeError:
        raise BadLine(f"{program}: an argument is not text") from None
    if program == "radixjoin" and is_short(words):
        options, places = SHORT, [*PLACES]
    is_of_short = options is SHORT
    if "--explain=all" in words:
        # (such a line has the flag with its word)
        options = {**options, "explain": Word(("all",), None)}
    for at, word in enumerate(words):
        if word == "--":
            # No word after it is an option.
            for behind in words[at + 1 :]:
                if waiting is not None:
                    end_waiting(found, options, waiting)
                    waiting = None
                put_place(found, places, behind)
            break
        if word.startswith("--"):
            waiting = take_option(found, options, word, waiting)
        elif program == "radixjoin" and word[:1] == "-" and word[1:2] in {*LETTERS}:
            waiting = take_letter(found, options, word, waiting)
        elif word.startswith(("-h", "-V")) and waiting is None:
            raise Help
        elif word.startswith("-") and word != "-":
            raise BadLine
        elif waiting is None:
            put_place(found, places, word)
        else:
            put(found, options, waiting, word)
            waiting = None
    needed = {name for name, takes in options.items() if takes == NEEDED_TEXT or (isinstance(takes, Number) and takes.default is None)}
    if waiting is not None:
        end_waiting(found, options, waiting)
    if places or not needed <= set(found):
        raise BadLine
    return {**found, "is short": is_of_short}


class Request:
    """What the words ask of radixjoin."""

    def __init__(self, found):
        options = OPTIONS_OF["radixjoin"]
        bad = lambda text: BadLine(f"radixjoin: {text}")
        # (lists by name aren't known here, and one for both tables can be no other)
        if "types" in found:
            raise bad("bad type list of both")
        # (a list that isn't given, of the short form, leaves each column undeclared)
        self.left_types = reading.type_list(found["left-types"], "left", bad) if "left-types" in found else None
        self.right_types = reading.type_list(found["right-types"], "right", bad) if "right-types" in found else None
        self.left = found["left"]
        self.right = found["right"]
        self.clause = found["join"].encode()
        null = found.get("null", "")
        self.nulls = {side: self.nulls_of(found, side, null, bad) for side in ("left", "right")}
        self.out_null = found.get("out-null", null).encode()
        self.delimiters = {of: self.delimiter_of(found, of) for of in ("left", "right", "out")}
        self.is_short = found["is short"]
        self.strict = found.get("strict", "on" if found["is short"] and "lenient" not in found else None)
        self.bits1 = found.get("bits1", options["bits1"].default)
        self.hash = found.get("hash", options["hash"].default)
        self.piece = found.get("piece", options["piece"].default)
        self.tells_pieces = "piece" in found
        self.stats = "stats" in found
        self.order = found.get("order", options["order"].default)
        self.is_quiet, given = "quiet" in found, {*found}
        found = self.looked_for(found, bad)
        if "select" in found and {"columns", "repeated"} & given:
            raise bad("--select excludes --columns and --repeated")
        self.columns = found.get("columns", options["columns"].default)
        self.rows = self.rows_of(found, bad)
        self.selected = selecting.entries(found["select"]) if "select" in found else None
        if "select" in found and self.selected is None:
            raise bad("bad list of columns")
        if "matched-left" in self.rows and (self.columns != "left" or self.selected):
            raise bad("--rows matched-left needs --columns left")
        self.expect = found.get("expect")
        self.most_rows = found.get("max-rows", options["max-rows"].default)
        self.counts = "count" in found
        self.report = "report" in found
        self.repeated = found.get("repeated", "qualify" if found["is short"] else "keep")
        if self.repeated not in ("keep", "qualify") and not 1 <= len(self.repeated.encode()) <= LONGEST_SUFFIX:
            raise bad("bad suffix of repeated names")
        if self.is_quiet and {"explain", "progress"} & given:
            raise bad("--quiet excludes --explain and --progress")
        if self.counts and CHOOSING & given:
            raise bad("--count excludes --rows, --anti, --semi, --columns, --select and --order")

    @staticmethod
    def delimiter_of(found, of):
        """The delimiter of a side's file, or of the result."""
        delimiter = reading.delimiter_named(found.get(f"{of}-delimiter", found.get("delimiter", ",")))
        if delimiter is None:
            raise Fault(34, "BadDelimiter")
        return delimiter

    @staticmethod
    def looked_for(found, bad):
        """The values of the options, with those for which `--anti` or `--semi` stands."""
        words = [word for word in LOOKED_FOR if word in found]
        if len(words) == 2 or (words and {"rows", "columns"} & set(found)):
            raise bad("--anti and --semi exclude each other, --rows and --columns")
        return {**found, "rows": LOOKED_FOR[words[0]], "columns": "left"} if words else found

    @staticmethod
    def rows_of(found, bad):
        """The kinds of rows that are asked for."""
        rows = found.get("rows", "pairs,lone-left,lone-right").split(",")
        if not set(rows) <= {*KINDS} or len(rows) != len({*rows}) or {"pairs", "matched-left"} <= {*rows}:
            raise bad("bad list of rows")
        return rows

    @staticmethod
    def nulls_of(found, side, null, bad):
        """The null texts of a side's file."""
        texts = found.get(f"{side}-null", [null])
        if len(texts) > MOST_NULLS:
            raise bad(f"more than four null texts {side}")
        return [text.encode() for text in texts]

    def all_nulls(self):
        """Each text that stands for null, of both files and of the result."""
        return [*self.nulls["left"], *self.nulls["right"], self.out_null]


class Ended:
    """How a run has to end; None for a text that is the library clap's own."""

    def __init__(self, status, stdout=b"", stderr=b""):
        self.status = status
        self.stdout = stdout
        self.stderr = stderr


def ended(program, words, files, stdin=b""):
    """How a run has to end: `files` holds the bytes of each file that there is."""
    try:
        found = read_words(program, words)
        if program == "arrivals":
            script = ledger.Script(found["partition"], found["senders"], found["block"], "gaps" in found)
            text, is_readable = script.replay(stdin)
            return Ended(0 if is_readable else 3, text)
        return joined(Request(found), {**files, "-": stdin})
    except Help:
        return Ended(0, None)
    except BadLine as fault:
        return Ended(fault.status, b"", None if fault.line is None else f"{fault.line}\n".encode())
    except Fault as fault:
        return Ended(fault.status, b"", f"{program}: {fault}\n".encode())


def joined(request, files):
    """How a run of radixjoin has to end. The file `-` is standard input."""
    if request.left == request.right == "-":
        raise BadLine("radixjoin: only one of --left and --right can be standard input")
    for side in ("left", "right"):
        name = getattr(request, side)
        if name not in files:
            raise Fault(19, "ReadDevice", f"{side} {'standard input' if name == '-' else name}" if request.is_short else side)
    text, statistics, report, note = joining.run(files[request.left], files[request.right], request)
    return Ended(0, text, (statistics if request.stats else b"") + (report if request.report else b"") + (b"" if request.is_quiet else note))
