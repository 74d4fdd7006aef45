"""Compares the options of the programs' help with what the programs accept, and with the man pages, the completions and the
documents."""
import os
import pathlib
import re
import shutil
import subprocess

import harness

PROGRAMS = ("radixjoin", "arrivals", "shards", "merges")
SECONDS = 20
# What stands in the place of options, and has a help of its own.
MODES = {"suggest-types"}
# Where each program names its options, and what it names there beside them.
SOURCES = {"radixjoin": "rj_line/src/options.rt", "arrivals": "arrivals/src/line.rt", "shards": "shards/src/options.rt", "merges": "merges/src/line.rt"}
NO_OPTIONS = {*PROGRAMS, "files"}
# A value that no option with words or with limits can have.
BEYOND = "9223372036854775807"
# Limits up to this one are those of a file's bytes, which help leaves out.
MOST_BYTES = 2**62


class Option:
    """An option: whether it takes a value, its text in help, the words that it may take, and the numbers of its limits and default;
    of a flag the word that may stand behind it and =.
    The words are those that the program itself tells, where it refuses a value."""

    def __init__(self, takes_value, text, refusal):
        self.takes_value = takes_value
        self.text = text
        self.refusal = refusal
        words = re.search(r"\[possible values: ([^\]]*)\]", refusal)
        self.words = words[1].split(", ") if words else []
        # (what help and the pages tell of them: a word may be two with a comma between)
        self.told = list(dict.fromkeys(part for word in self.words for part in word.split(",")))
        # (the word that a flag may have behind =)
        self.own_word = next(iter(re.findall(r"^\[=(\w+)\]", text)), None)
        limits = re.search(r"\b(\d[\d,]*) to (\d[\d,]*)", text)
        default = re.search(r"\[default: ([\w,-]+)\]", text)
        self.limits = [number.replace(",", "") for number in limits.groups()] if limits else []
        self.numbers = self.limits + (default[1].split(",") if default else [])


def help_of(program):
    """What a program prints by --help."""
    return harness.run([harness.program(program), "--help"], harness.ROOT).stdout.decode()


def refusal_of(program, name):
    """What a program prints of an option that is given a value that it can't have."""
    return harness.run([harness.program(program), f"--{name}={BEYOND}"], harness.ROOT).stderr.decode()


def options_of(program):
    """The options of a program's own help, by their names, in order."""
    found = re.findall(r"^ {1,8}(?:-\w, )?--([\w-]+)( \[?<[^>]+>\]?)?(.*)$", help_of(program), re.MULTILINE)
    return {name: Option(bool(value), text, refusal_of(program, name)) for name, value, text in found}


def help_faults(program, options):
    """Where a program's help differs from what the program accepts, and its lines that are too long."""
    yield from (f"a line of {len(line)} columns: {line}" for line in help_of(program).splitlines() if len(line) > 99)
    source = (harness.ROOT / "crates" / SOURCES[program]).read_text()
    named = set(re.findall(r'(?:\bname: |\(\s*alloc,\s+)"([\w-]+)"', source)) - NO_OPTIONS
    yield from difference(named | {"help", "version"}, options)
    for name, option in options.items():
        is_flag = name in ("help", "version") or f"unexpected value '{BEYOND}' for '--{name}'" in option.refusal
        if option.takes_value == is_flag:
            yield f"--{name}: help and program differ in whether it takes a value"
        if f"unexpected argument '--{name}'" in option.refusal:
            yield f"--{name}: the program doesn't know it"
        yield from (f"--{name}: help doesn't tell {word}" for word in option.told if not re.search(rf"\b{word}\b", option.text))
        limits = re.search(rf"{BEYOND} is not in (\d+)\.\.=(\d+)", option.refusal)
        if limits and int(limits[2]) != MOST_BYTES and list(limits.groups()) != option.limits:
            yield f"--{name}: the limits are {limits[1]} to {limits[2]}"


def difference(names, options):
    """How the names of a place differ from the options of help."""
    lacking, unknown = sorted(set(options) - set(names)), sorted(set(names) - set(options) - MODES)
    return [f"lacks --{name}" for name in lacking] + [f"has --{name}, which help hasn't" for name in unknown]


def manual_entries(program):
    """The entries of a program's man page that begin with an option, by its name: each the lines to the next entry."""
    text = (harness.ROOT / "man" / f"{program}.1").read_text()
    entries = re.findall(r"^\.It (?:Fl \w , )?Fl Fl ([\w-]+)(.*(?:\n(?!\.It |\.El).*)*)", text, re.MULTILINE)
    return dict(entries)


def manual_faults(program, options):
    """Where the man page differs from help: options, values, words, limits and defaults."""
    entries = manual_entries(program)
    faults = difference(entries, options)
    if list(entries) != list(options):
        faults.append("help and page differ in the order of the options")
    for name, option in options.items():
        entry = entries.get(name, "")
        if (option.takes_value or bool(option.own_word)) != (" Ar " in entry.split("\n")[0] or " Cm " in entry.split("\n")[0]):
            faults.append(f"--{name}: help and page differ in whether it takes a value")
        own = [option.own_word] if option.own_word else []
        missing = [word for word in option.told + option.numbers + own if not re.search(rf"\b{word}\b", entry.replace(",", ""))]
        faults += [f"--{name}: the page doesn't tell {word}" for word in missing]
    synopsis = (harness.ROOT / "man" / f"{program}.1").read_text().split(".Sh DESCRIPTION")[0]
    return faults + [f"--{name} is not in the synopsis" for name in options if not re.search(rf"Fl Fl {name}\b(?!-)", synopsis)]


def told_by(words, **how):
    """What a command prints, as lines."""
    ran = subprocess.run(words, capture_output=True, timeout=SECONDS, stdin=subprocess.DEVNULL, **how)
    return (ran.stdout + ran.stderr).decode().splitlines()


def completed_by_bash(program, words, folder):
    """What bash completes the last of the words to."""
    script = f'source "$0"; COMP_WORDS=({program} "$@"); COMP_CWORD=$#; _{program}; printf "%s\\n" "${{COMPREPLY[@]}}"'
    return told_by(["bash", "-c", script, harness.ROOT / "completions" / f"{program}.bash", *words], cwd=folder)


def completed_by_fish(program, words, folder):
    """What fish completes the last of the words to."""
    source = f"source {harness.ROOT / 'completions' / f'{program}.fish'}; complete -C '{program} {' '.join(words)}'"
    how = {"cwd": folder, "env": {**os.environ, "HOME": str(folder), "XDG_CONFIG_HOME": str(folder / ".config")}}
    return [line.split("\t")[0] for line in told_by(["fish", "--no-config", "-c", source], **how)]


def rules_of_zsh(program, folder):
    """The rules that zsh's completion of a program gives to _arguments, one a line."""
    script = '_arguments() { print -rl -- "$@" }; source "$1"'
    return told_by(["zsh", "-f", "-c", script, "zsh", harness.ROOT / "completions" / f"_{program}"], cwd=folder)


def zsh_faults(program, options, folder):
    """Where zsh's completion differs from help."""
    rules = rules_of_zsh(program, folder)
    found = {}
    for rule in rules:
        parts = re.fullmatch(r"(?:\(.*?\))?\*?--([\w-]+)(=?-?)\[.*?\](.*)", rule)
        if parts:
            found[parts[1]] = (parts[2], parts[3])
    faults = difference(found, options)
    for name, option in options.items():
        equals, action = found.get(name, ("", ""))
        if option.takes_value != (equals == "=") or bool(option.own_word) != (equals == "=-"):
            faults.append(f"--{name}: help and completion differ in whether it takes a value")
        faults += [f"--{name} doesn't complete {word}" for word in [*option.words, option.own_word or ""] if word not in action]
        faults += [f"--{name} doesn't tell {number}" for number in option.numbers[:2] if not re.search(rf"\b{number}\b", action)]
    return faults + [f"--{name} doesn't complete files" for name in ("left", "right") if name in options and "_files" not in found[name][1]]


def shell_faults(complete, program, options, folder):
    """Where the completion of bash or fish, called by `complete`, differs from help."""
    faults = difference([word[2:].rstrip("=") for word in complete(program, ["--"], folder) if word.startswith("--")], options)
    for name, option in options.items():
        for word in option.words:
            if word not in [got.split("=")[-1] for got in complete(program, [f"--{name}", word[:1]], folder)]:
                faults.append(f"--{name} doesn't complete {word}")
    for name in {"left", "right"} & set(options):
        if "left.csv" not in complete(program, [f"--{name}", "le"], folder):
            faults.append(f"--{name} doesn't complete files")
    return faults


def check_completions(program, options, tally):
    """The completions of each shell, where it is installed."""
    with harness.folder() as place:
        folder = pathlib.Path(place)
        (folder / "left.csv").write_text("a\n")
        checks = {
            "bash": lambda: shell_faults(completed_by_bash, program, options, folder),
            "fish": lambda: shell_faults(completed_by_fish, program, options, folder),
            "zsh": lambda: zsh_faults(program, options, folder),
        }
        for shell, faults in checks.items():
            if shutil.which(shell):
                tally.check(f"{shell}'s completion of {program}", faults())
            else:
                print(f"skipped: completion of {program}: {shell} is not installed")


def bash_details(folder):
    """What bash completes in places of its own: after `=`, an option that was given, and a value that isn't completed."""
    yield "after --left=", ["left.csv"], completed_by_bash("radixjoin", ["--left", "=", "le"], folder)
    yield "right after --left=", ["left.csv"], completed_by_bash("radixjoin", ["--left", "="], folder)
    yield "an option that was given", ["--left-types", "--left-delimiter", "--left-null"], completed_by_bash("radixjoin", ["--left", "left.csv", "--lef"], folder)
    yield "a delimiter", ["tab"], completed_by_bash("radixjoin", ["-d", "t"], folder)
    yield "one that may be given again", ["--left-null"], completed_by_bash("radixjoin", ["--left-null", "a", "--left-n"], folder)
    yield "the word of --explain, behind =", ["all"], completed_by_bash("radixjoin", ["--explain", "=", "a"], folder)
    yield "right after --explain=", ["all"], completed_by_bash("radixjoin", ["--explain", "="], folder)
    yield "a file behind --explain", ["left.csv"], completed_by_bash("radixjoin", ["--explain", "le"], folder)
    yield "a file that is a word by itself", ["left.csv"], completed_by_bash("radixjoin", ["--count", "le"], folder)
    yield "a file for -o", ["left.csv"], completed_by_bash("radixjoin", ["-o", "le"], folder)
    yield "a clause", [""], completed_by_bash("radixjoin", ["--join", ""], folder)
    yield "a list of types", [""], completed_by_bash("radixjoin", ["--left-types", ""], folder)
    yield "a file with a list of types", ["@left.csv"], completed_by_bash("radixjoin", ["--left-types", "@le"], folder)
    yield "suggested types, first", ["--suggest-types"], completed_by_bash("radixjoin", ["--su"], folder)
    yield "suggested types, later", [""], completed_by_bash("radixjoin", ["--stats", "--su"], folder)
    yield "options of suggested types", ["--keys-only"], completed_by_bash("radixjoin", ["--suggest-types", "left.csv", "--k"], folder)
    yield "of which types are suggested", ["left.csv"], completed_by_bash("radixjoin", ["--suggest-types", "le"], folder)


def check_bash_details(tally):
    """Each detail in a folder with one file."""
    with harness.folder() as place:
        folder = pathlib.Path(place)
        (folder / "left.csv").write_text("a\n")
        for name, wanted, got in bash_details(folder):
            tally.check(f"bash's completion: {name}", [] if got == wanted else [f"{got}, and not {wanted}"])


def check_lint(tally):
    """mandoc has nothing to say of the man pages, but that pages which they name may not be installed."""
    if not shutil.which("mandoc"):
        print("skipped: lint of the man pages: mandoc is not installed")
        return
    for program in PROGRAMS:
        told = told_by(["mandoc", "-Tlint", harness.ROOT / "man" / f"{program}.1"])
        tally.check(f"mandoc's lint of {program}.1", [line for line in told if "referenced manual not found" not in line])


def row_faults(text, options):
    """The limits, defaults and words of help that a table's row of an option lacks."""
    for name, row in re.findall(r"^\| `--([\w-]+) [^|]*\|(.*)$", text, re.MULTILINE):
        known = options[name].numbers + options[name].told if name in options else []
        yield from (f"--{name}: the row doesn't tell {word}" for word in known if not re.search(rf"\b{word}\b", row.replace(",", "")))


def section_faults(text, program, options):
    """The limits and defaults of help that the specification's section of a program lacks."""
    found = [part for part in text.split("\n## ") if re.match(rf"The programs? .*`{program}`", part.split("\n")[0])]
    for name, option in options.items():
        numbers = [number for number in option.numbers if not re.search(rf"\b{number}\b", "".join(found).replace(",", ""))]
        yield from (f"--{name}: the section doesn't tell {number}" for number in numbers)


def index_faults(program, options):
    """How the options of a program in docs/dev/index.md differ from those of help."""
    index = (harness.ROOT / "docs" / "dev" / "index.md").read_text()
    section = index.partition(f"\n## Options of `{program}`\n")[2].partition("\n## ")[0]
    return difference(re.findall(r"^- `--([\w-]+)`", section, re.MULTILINE), set(options) - {"help", "version"})


def document_faults(options):
    """Which options the tables of docs/user/options.md and the specification lack."""
    page = (harness.ROOT / "docs" / "user" / "options.md").read_text()
    specification = (harness.ROOT / "docs" / "user" / "specification.md").read_text()
    joins = options["radixjoin"]
    table = [name for line in page.splitlines() if line.startswith("| `--") for name in re.findall(r"--([\w-]+)", line.split("|")[1])]
    yield "docs/user/options.md, options", difference(table, set(joins) - {"help", "version"}) + list(row_faults(page, joins))
    yield "docs/user/specification.md, options", list(row_faults(specification, joins))
    for program in PROGRAMS[1:]:
        yield f"docs/user/specification.md, {program}", list(section_faults(specification, program, options[program]))
    for program in PROGRAMS:
        yield f"docs/dev/index.md, options of {program}", index_faults(program, options[program])
    for name in sorted({name for program in PROGRAMS for name in options[program]}):
        yield f"docs/user/specification.md, --{name}", [] if re.search(rf"--{name}\b(?!-)", specification) else ["it isn't told"]


def types_faults():
    """Where help and the man page's synopsis name other options of suggested types than the help of these."""
    own = harness.run([harness.program("radixjoin"), "--suggest-types", "--help"], harness.ROOT).stdout.decode()
    named = set(re.findall(r"--([\w-]+)", own)) - {"help", "left-types"}
    told = {"help": help_of("radixjoin"), "the synopsis": (harness.ROOT / "man" / "radixjoin.1").read_text().replace("Fl Fl ", "--").replace(".Nm", "\n")}
    for place, text in told.items():
        usage = re.search(r"--suggest-types.*(?:\n.+)*", text)[0]
        yield from (f"{place}: {fault}" for fault in difference(re.findall(r"--([\w-]+)", usage), named))


def version_faults(program):
    """Whether the version that a program prints is the newest of CHANGELOG.md."""
    ran = harness.run([harness.program(program), "--version"], harness.ROOT)
    newest = re.search(r"^## ([\w.]+)", (harness.ROOT / "CHANGELOG.md").read_text(), re.MULTILINE)[1]
    return harness.differences(ran, f"{program} {newest}\n".encode())


def run_all(tally):
    """Compares man pages, completions and documents with what help tells."""
    options = {program: options_of(program) for program in PROGRAMS}
    for program in PROGRAMS:
        tally.check(f"help of {program}", list(help_faults(program, options[program])) if len(options[program]) > 2 else ["it tells hardly any options"])
        tally.check(f"man page of {program}", manual_faults(program, options[program]))
        check_completions(program, options[program], tally)
        tally.check(f"version of {program}", version_faults(program))
    tally.check("options of suggested types", list(types_faults()))
    check_bash_details(tally)
    check_lint(tally)
    for name, faults in document_faults(options):
        tally.check(name, faults)
