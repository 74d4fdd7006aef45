"""Runs the examples of the pages for users: README.md, docs/user/options.md, docs/user/errors.md, docs/user/recipes.md and the man pages.

An example has one of two forms. A block ```sh can be pasted: a shell gets it as it stands, and the block ```text behind it is
what it prints, nothing where there is none. Man pages have sessions: lines `$ COMMAND`, each with what it prints below it, where a
line `> ..` goes on with the command. In both a line `..` of what is printed stands for any lines.

The examples of one section go on in one folder, which has the examples of the repository, and find the built programs on the
PATH. A section's line `Needs: a, b.` names the tools that it runs beside those that any system has; where one isn't installed
the section is skipped, which is told.
"""
import contextlib
import glob
import os
import pathlib
import re
import shutil
import subprocess

import harness

# The pages whose examples can be pasted, so that no prompt stands before a command.
PAGES = ("README.md", "docs/user/options.md", "docs/user/errors.md", "docs/user/recipes.md")
MANUALS = ("man/radixjoin.1", "man/arrivals.1", "man/shards.1", "man/merges.1")
PROGRAMS = ("radixjoin", "arrivals", "shards", "merges")
SECONDS = 60
NOBODY = 65534
# What stands before the status of a command among what a session prints.
MARK = "\x01"


class Section:
    """A section of a page: its title, the tools that it needs, and its commands, each with the lines that it prints."""

    def __init__(self, page, title):
        self.page = page
        self.title = title
        self.needs = []
        self.commands = []
        self.text = []


def sections_of(page):
    """The sections of a page."""
    found, kind, block = [Section(page, "its head")], None, []
    in_session = False
    for line in (harness.ROOT / page).read_text().splitlines():
        found[-1].text.append(line)
        if line.startswith("```"):
            add_block(found[-1].commands, kind, block)
            kind, block = (line[3:], []) if kind is None else (None, [])
        elif kind is not None:
            block.append(line)
        else:
            begin_section(found, page, line)
            inside = line[4:] if line.startswith("    ") else line if page in MANUALS and not line.startswith(".") else None
            in_session = inside is not None and (in_session or inside.startswith("$ "))
            if in_session:
                add_line(found[-1].commands, inside.replace(r"\e", "\\") if page in MANUALS else inside)
    return found


def begin_section(found, page, line):
    """Begins a section at a line that is its title, and takes what it needs from a line that names it."""
    if line.startswith("## ") or line.startswith(".Sh "):
        found.append(Section(page, line.split(" ", 1)[1]))
    needs = re.fullmatch(r"Needs: (.*)\.", line)
    if needs:
        found[-1].needs = re.findall(r"[\w-]+", needs[1])


def add_block(commands, kind, lines):
    """Adds a block that has ended to the commands: a command, or what the last one prints."""
    if kind == "sh":
        commands.append(("\n".join(lines), []))
    elif kind == "text" and commands:
        commands[-1][1].extend(lines)


def add_line(commands, line):
    """Adds a line of a session to the commands."""
    if line.startswith("$ "):
        commands.append((line[2:], []))
    elif line.startswith("> ") and not commands[-1][1]:
        commands[-1] = (f"{commands[-1][0]}\n{line[2:]}", [])
    else:
        commands[-1][1].append(line)


def is_printed(wanted, got):
    """Whether the lines are those wanted, where `..` stands for any lines."""
    pattern = "".join(r"(?:.*\n)*" if line == ".." else re.escape(line) + r"\n" for line in wanted)
    return re.fullmatch(pattern, "".join(f"{line}\n" for line in got)) is not None


def script_of(commands):
    """A script that runs the commands in turn, each seeing the status of the one before, with a mark and the status after each."""
    lines = ["exec 2>&1", "status=0"]
    for command, _ in commands:
        lines += ["(exit $status)", command, "status=$?", f"printf '\\n%b%d\\n' '\\{ord(MARK):04o}' $status"]
    return "\n".join(lines) + "\n"


def printed_by(commands, folder, environment):
    """Runs commands in a folder, and gives the lines that each prints; none for those that the shell doesn't come to."""
    ran = subprocess.run(["bash"], cwd=folder, input=script_of(commands).encode(), capture_output=True, env=environment, timeout=SECONDS)
    printed = re.split(rf"\n{MARK}\d+\n", ran.stdout.decode(errors="replace"))
    texts = [printed[at].removesuffix("\n") if at < len(printed) else "" for at in range(len(commands))]
    return [text.split("\n") if text else [] for text in texts]


def faults_of(section, folder, environment):
    """Runs the commands of a section, and says which doesn't print what the page has."""
    pairs = zip(section.commands, printed_by(section.commands, folder, environment))
    return [
        f"$ {command}: {harness.shorten(got)}, and not {harness.shorten(wanted)}"
        for (command, wanted), got in pairs
        if not is_printed(wanted, got)
    ]


def server_commands():
    """The folder of PostgreSQL's commands that make a server, or none."""
    found = [os.path.dirname(shutil.which("initdb") or ""), *sorted(glob.glob("/usr/lib/postgresql/*/bin"))]
    return next((folder for folder in found if folder and os.path.exists(f"{folder}/pg_ctl")), None)


def lacking(needs):
    """The tools of a list that aren't installed; psql needs the commands that make a server too."""
    missing = [tool for tool in needs if shutil.which(tool) is None]
    return missing or (["a PostgreSQL server"] if "psql" in needs and server_commands() is None else [])


@contextlib.contextmanager
def server(folder):
    """A PostgreSQL server of its own in a folder, while the block runs; gives what psql needs to reach it."""
    commands = server_commands()
    data = folder / "server"
    data.mkdir()
    how = {"cwd": data, "stdout": subprocess.DEVNULL, "check": True}
    if os.geteuid() == 0:
        folder.chmod(0o755)
        os.chown(data, NOBODY, NOBODY)
        how |= {"user": NOBODY, "group": NOBODY, "extra_groups": []}
    subprocess.run([f"{commands}/initdb", "-D", data / "data", "-U", "tester", "-A", "trust", "-N"], **how)
    options = f"-c listen_addresses='' -c unix_socket_directories='{data}' -c fsync=off"
    subprocess.run([f"{commands}/pg_ctl", "-D", data / "data", "-w", "-l", data / "log", "-o", options, "start"], **how)
    try:
        yield {"PGHOST": str(data), "PGUSER": "tester", "PGDATABASE": "postgres"}
    finally:
        subprocess.run([f"{commands}/pg_ctl", "-D", data / "data", "-w", "-m", "immediate", "stop"], **how)


@contextlib.contextmanager
def place_for(section):
    """A new folder for a section's commands while the block runs, with the examples and the built programs, and the environment that
    they run in; a server of PostgreSQL too, where the section needs it."""
    with harness.folder() as place, contextlib.ExitStack() as stack:
        folder = pathlib.Path(place)
        shutil.copytree(harness.ROOT / "examples", folder / "work" / "examples")
        (folder / "bin").mkdir()
        for program in PROGRAMS:
            for link in (folder / "bin" / program, folder / "work" / program):
                link.symlink_to(harness.program(program))
        environment = {**os.environ, "PATH": f"{folder / 'bin'}:{os.environ['PATH']}", "LC_ALL": "C.UTF-8"}
        if "psql" in section.needs:
            environment |= stack.enter_context(server(folder))
        yield folder / "work", environment


def is_skipped(section, name):
    """Whether a tool that a section needs isn't installed, which is told."""
    missing = lacking(section.needs)
    if missing:
        print(f"skipped: {name}: not installed: {', '.join(missing)}")
    return bool(missing)


def check_section(section, tally):
    """Runs a section's examples in a new folder, or tells that they are skipped."""
    name = f"{section.page}, {section.title}"
    if not is_skipped(section, name):
        with place_for(section) as (folder, environment):
            tally.check(name, faults_of(section, folder, environment))


def check_cheat_sheet(tally):
    """Runs each line of README's cheat sheet behind the block above it, as a shell gets them, and counts the rows."""
    section = next(section for section in sections_of("README.md") if section.title == "Cheat sheet")
    lines = re.findall(r"^\| [^|]+ \| `(.*)` \| (\d+|E\d+) \|$", "\n".join(section.text), re.MULTILINE)
    tally.check("README.md, lines of the cheat sheet", [] if len(lines) >= 8 else [f"it has {len(lines)}"])
    with place_for(section) as (folder, environment):
        for line, wanted in lines:
            got = printed_by([*section.commands, (line, [])], folder, environment)[-1]
            is_right = f"radixjoin: {wanted} " in "".join(got[:1]) if wanted.startswith("E") else len(got) - 1 == int(wanted)
            tally.check(f"README.md, {line}", [] if is_right else [f"{harness.shorten(got)}, and not {wanted}"])


def check_clauses(tally):
    """Runs each clause of the table of clauses over the two files of examples/, and counts the rows."""
    page = (harness.ROOT / "docs" / "user" / "options.md").read_text()
    for clause, wanted in re.findall(r"^\| `(.*?JOIN.*?)` \|.*\| (\d+) \|$", page, re.MULTILINE):
        words = ["--left", "people.csv", "--left-types", "int,text,int", "--right", "cities.csv", "--right-types", "int,text", "--join", clause]
        ran = harness.run([harness.program("radixjoin"), *words], harness.ROOT / "examples")
        rows = ran.stdout.count(b"\n") - 1
        tally.check(f"docs/user/options.md, {clause}", harness.differences(ran, None) + ([] if rows == int(wanted) else [f"{rows} rows, and not {wanted}"]))


def check_pasted(tally):
    """What can be pasted has no prompts, and each of its blocks is a command or what one prints, so that none is left out."""
    for page in PAGES:
        lines = (harness.ROOT / page).read_text().splitlines()
        faults = [f"a prompt stands in {line}" for line in lines if re.match(r" *[$>] ", line)]
        faults += [f"no test runs the block {line}" for line in lines if line.startswith("```") and line not in ("```sh", "```text", "```")]
        tally.check(f"{page}, blocks", faults)


def check_faults_are_told(tally):
    """docs/user/errors.md has a section for each fault of the table in docs/user/specification.md, and shows its line."""
    specification = (harness.ROOT / "docs" / "user" / "specification.md").read_text()
    sections = sections_of("docs/user/errors.md")
    for line, status in re.findall(r"^\| `radixjoin: (.*?)` \|.*\| (\d) \|$", specification, re.MULTILINE):
        name = re.split(r" (?:(?:lone-)?SIDE|byte N|row R|column C)", line)[0]
        text = "\n".join(line for section in sections if section.title == name for line in section.text)
        faults = [f"it has no section '## {name}'"] if not text else []
        # Of too many rows no example can be run.
        if text and f"radixjoin: {name}" not in text and name != "E8 TooManyRows":
            faults.append(f"no line 'radixjoin: {name}' is shown")
        if text and f"Status {status}." not in text:
            faults.append(f"it doesn't say 'Status {status}.'")
        tally.check(f"docs/user/errors.md, {name}", faults)


def run_all(tally):
    """The examples of every page, the cheat sheet, the table of clauses, and that the page on faults has each fault."""
    for page in (*PAGES, *MANUALS):
        for section in sections_of(page):
            if section.commands:
                check_section(section, tally)
    check_cheat_sheet(tally)
    check_clauses(tally)
    check_pasted(tally)
    check_faults_are_told(tally)
