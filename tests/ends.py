"""The ends of the programs: the rows of ends.toml, and those that files, streams and users make."""
import os
import pathlib
import shutil
import subprocess
import threading
import time
import tomllib

import examples
import harness

SECONDS = 20
NOBODY = 65534
WORDS = ["--left-types", "int,text", "--right-types", "int,text", "--join", "JOIN USING (id)"]
PEOPLE = b"id,name\n1,ann\n2,bob\n3,cy\n"
CITIES = b"id,city\n4,rome\n2,oslo\n5,lima\n"
JOINED = b"id,name,city\n2,bob,oslo\n"
ARRIVALS = ["--partition", "0", "--senders", "1", "--block", "2"]
MERGES = ["left.csv", "right.csv"]


def run(name, words, folder, **how):
    """Runs a program on words, which may be bytes; `how` is that of subprocess.run."""
    return run_command([harness.program(name), *words], folder, **how)


def run_command(words, folder, **how):
    """Runs any command in a folder."""
    how = {"stdout": subprocess.PIPE, "stderr": subprocess.PIPE, "stdin": subprocess.DEVNULL, "timeout": SECONDS, **how}
    if "input" in how:
        del how["stdin"]
    try:
        ran = subprocess.run(words, cwd=folder, **how)
    except (OSError, subprocess.TimeoutExpired) as fault:
        return harness.Ran(None, b"", str(fault).encode())
    return harness.Ran(ran.returncode, ran.stdout or b"", ran.stderr or b"")


def two_files(folder):
    """The two files of the plainest join, and the words that join them."""
    (folder / "left.csv").write_bytes(PEOPLE)
    (folder / "right.csv").write_bytes(CITIES)
    return ["--left", "left.csv", "--right", "right.csv", *WORDS]


def words_that_are_no_text(folder):
    """A word that isn't UTF-8 ends each program by a line of its own, wherever it stands."""
    joining = [os.fsencode(word) for word in two_files(folder)]
    replaying = [os.fsencode(word) for word in ARRIVALS]
    dividing = [*joining, b"--side=left", b"--parts=2", b"--out=parts"]
    merging = [os.fsencode(word) for word in MERGES]
    for name, words in (("radixjoin", joining), ("arrivals", replaying), ("shards", dividing), ("merges", merging)):
        line = f"{name}: an argument is not text\n".encode()
        for place in (0, 1, len(words)):
            ran = run(name, [*words[:place], b"x\xffy", *words[place:]], folder)
            yield f"{name}: word {place} is no text", harness.differences(ran, b"", line, 2)
        ran = run(name, [b"--help", b"\xc3"], folder)
        yield f"{name}: help beside a word that is no text", harness.differences(ran, b"", line, 2)


def help_of_each_option(folder):
    """Help tells every option, on standard output alone."""
    options = {
        "radixjoin": ["left", "right", "left-types", "right-types", "types", "join", "null", "left-null", "right-null", "out-null", "delimiter", "left-delimiter", "right-delimiter", "out-delimiter", "unnamed", "strict", "lenient", "bits1", "bits2", "hash", "workers", "block", "lanes", "capacity", "retries", "piece", "stats", "explain", "terse", "output", "order", "rows", "columns", "select", "anti", "semi", "repeated", "expect", "max-rows", "count", "report", "progress", "quiet", "help", "version"],
        "arrivals": ["partition", "senders", "block", "gaps", "help", "version"],
        "shards": ["side", "left", "right", "left-types", "right-types", "join", "null", "left-null", "right-null", "strict", "parts", "from", "to", "out", "cuts", "explain", "help", "version"],
        "merges": ["null", "order", "from", "to", "copies", "help", "version"],
    }
    for name, told in options.items():
        for word in ("--help", "-h"):
            ran = run(name, [word], folder)
            lacking = [f"no --{option}" for option in told if f"--{option}".encode() not in ran.stdout]
            yield f"{name} {word}", lacking + harness.differences(ran, None)


def version_of_each_program(folder):
    """The version is the program's name and number, on standard output alone, whatever follows it."""
    for name in ("radixjoin", "arrivals", "shards", "merges"):
        for words in (["--version"], ["-V"], ["--version", "nonsense"]):
            ran = run(name, words, folder)
            yield f"{name} {' '.join(words)}", harness.differences(ran, f"{name} 1.0.0\n".encode())


def numbers_of_arrivals(folder):
    """Each option of `arrivals` below, at and past each of its limits."""
    ranges = {"partition": (0, 1023), "senders": (1, 128), "block": (1, 65536)}
    for option, (least, most) in ranges.items():
        for number in (least - 1, least, most, most + 1, 2**32, 2**64):
            words = [f"--{name}={number if name == option else bounds[0]}" for name, bounds in ranges.items()]
            senders = number if option == "senders" else 1
            lines = [f"sender {sender} waiting 0 rows\n" for sender in range(senders)] if senders <= 128 else []
            printed = "".join([*lines, "incomplete\n"]).encode()
            ran = run("arrivals", words, folder)
            wanted = (printed, b"", 0) if least <= number <= most else (b"", None, 2)
            faults = harness.differences(ran, *wanted)
            if wanted[2] == 2 and f"--{option}".encode() not in ran.stderr:
                faults.append(f"standard error doesn't tell --{option}: {ran.stderr!r}")
            yield f"arrivals --{option}={number}", faults


def longest_blocks(folder):
    """A block of as many rows as there may be is accepted, and one of a row more refused."""
    rows = [str(row) for row in range(65536)]
    script = " ".join(["0 0 0 rows", *rows, "7"]) + "\n" + " ".join(["0 0 0 rows", *rows]) + "\n0 0 1 close\n"
    printed = "refused bad-length\naccepted 1\naccepted 1\n" + " ".join(["sender 0 complete rows", *rows]) + "\ncomplete\n"
    ran = run("arrivals", ["--partition=0", "--senders=1", "--block=65536"], folder, input=script.encode())
    yield "a block of 65,536 rows", harness.differences(ran, printed.encode())
    script = "127 1023 0 close\n128 1023 0 close\n127 1024 0 close\n"
    printed = "accepted 1\nrefused unknown-sender\nrefused wrong-partition\n"
    printed += "".join(f"sender {sender} waiting 0 rows\n" for sender in range(127)) + "sender 127 complete rows\nincomplete\n"
    ran = run("arrivals", ["--partition=1023", "--senders=128", "--block=1"], folder, input=script.encode())
    yield "128 senders", harness.differences(ran, printed.encode())


def scripts_that_cannot_be_read(folder):
    """A standard input that is a folder, or closed, is E19."""
    wanted = (b"", b"arrivals: E19 ReadDevice\n", 6)
    opened = os.open(folder, os.O_RDONLY)
    yield "a folder as a script", harness.differences(run("arrivals", ARRIVALS, folder, stdin=opened), *wanted)
    os.close(opened)
    with open(folder / "write_only", "wb") as file:
        yield "a script open for writing", harness.differences(run("arrivals", ARRIVALS, folder, stdin=file), *wanted)
    ran = run("arrivals", ARRIVALS, folder, preexec_fn=lambda: os.close(0))
    yield "a closed standard input", harness.differences(ran, *wanted)


def closed_standard_error(folder):
    """The status tells a fault where its line can't be told, and rows are written where the statistics can't."""
    words = two_files(folder)
    for name, stderr in (("full", "/dev/full"), ("closed", None)):
        how = {"stderr": open(stderr, "wb")} if stderr else {"preexec_fn": lambda: os.close(2)}
        ran = run("radixjoin", [*words[:-1], "nonsense"], folder, **how)
        yield f"a fault beside a {name} standard error", harness.differences(ran, b"", None, 4)
        ran = run("radixjoin", [*words, "--stats"], folder, **how)
        yield f"statistics to a {name} standard error", harness.differences(ran, JOINED, None, 0)
        if stderr:
            how["stderr"].close()


def output_that_nobody_reads(folder):
    """A pipe whose reader has gone is a writer that failed; of what `radixjoin` writes nothing is printed then, as of `| head`."""
    joined = ["joined.csv"]
    (folder / joined[0]).write_text("left_place,a,right_place\n0,x,5\n")
    for name, words in (("radixjoin", two_files(folder)), ("radixjoin", ["--suggest-types", *joined]), ("arrivals", ARRIVALS), ("merges", joined)):
        reader, writer = os.pipe()
        os.close(reader)
        ran = run(name, words, folder, stdout=writer)
        os.close(writer)
        yield f"{name}: a pipe without a reader", harness.differences(ran, b"", b"" if name == "radixjoin" else f"{name}: E20 WriteDevice\n".encode(), 6)


def run_with_permissions(name, words, folder):
    """Runs a program on words as a user whom the permissions of files bind."""
    how = {}
    if os.geteuid() == 0:
        # Nobody has to reach the program, so it is copied beside the files.
        folder.chmod(0o755)
        how = {"user": NOBODY, "group": NOBODY, "extra_groups": []}
    program = folder / "program"
    shutil.copy(harness.program(name), program)
    return run_command([program, *words], folder, **how)


def files_without_permission(folder):
    """A file that this user may not read can't be opened: E19, the left one first."""
    words = two_files(folder)
    for side, others in (("left", 0o644), ("right", 0o644), ("left", 0)):
        other = "right" if side == "left" else "left"
        (folder / f"{side}.csv").chmod(0)
        (folder / f"{other}.csv").chmod(others)
        ran = run_with_permissions("radixjoin", words, folder)
        told = f"radixjoin: E19 ReadDevice {side}\n".encode()
        yield f"the {side} file without permission, the other {others:o}", harness.differences(ran, b"", told, 6)


def files_that_cannot_be_read(folder):
    """What can't be opened or read, on either side or both: E19, the left one first."""
    words = two_files(folder)
    bad = ["missing", ".", "", "left.csv/", "/proc/self/mem", "missing/left.csv", "n" * 300]
    for name in bad:
        for side, place in (("left", 1), ("right", 3)):
            ran = run("radixjoin", [*words[:place], name, *words[place + 1 :]], folder)
            told = f"radixjoin: E19 ReadDevice {side}\n".encode()
            yield f"{name!r} as the {side} file", harness.differences(ran, b"", told, 6)
        ran = run("radixjoin", ["--left", name, "--right", "missing", *WORDS], folder)
        yield f"{name!r} beside a missing right file", harness.differences(ran, b"", b"radixjoin: E19 ReadDevice left\n", 6)


def streams_as_files(folder):
    """Standard input, a process substitution and a device as files."""
    words = two_files(folder)
    ran = run("radixjoin", ["--left", "/dev/stdin", *words[2:]], folder, input=PEOPLE)
    yield "/dev/stdin as the left file", harness.differences(ran, JOINED)
    ran = run("radixjoin", ["--left", "/dev/stdin", "--right", "/dev/stdin", *WORDS], folder, input=PEOPLE)
    yield "/dev/stdin as both files", harness.differences(ran, b"", b"radixjoin: E1 NoHeader right\n", 3)
    ran = run("radixjoin", ["--left", "/dev/null", *words[2:]], folder)
    yield "/dev/null as the left file", harness.differences(ran, b"", b"radixjoin: E1 NoHeader left\n", 3)
    line = 'exec "$0" --left <(cat left.csv) --right <(sleep 0.2; cat right.csv) "$@"'
    ran = run_command(["bash", "-c", line, harness.program("radixjoin"), *WORDS], folder)
    yield "process substitutions", harness.differences(ran, JOINED)


def is_open_for_reading(pipe):
    """Whether somebody has a named pipe open for reading."""
    try:
        os.close(os.open(pipe, os.O_WRONLY | os.O_NONBLOCK))
        return True
    except OSError:
        return False


def feed_in_turn(folder, early):
    """Fills two named pipes one after the other, as a maker of both does; notes whether the right one was opened early."""
    with open(folder / "left.pipe", "wb", buffering=0) as left:
        for byte in PEOPLE:
            left.write(bytes([byte]))
            time.sleep(0.01)
        early.append(is_open_for_reading(folder / "right.pipe"))
    with open(folder / "right.pipe", "wb", buffering=0) as right:
        right.write(CITIES)


def named_pipes(folder):
    """The left file is read to its end before the right one is opened."""
    early = []
    for name in ("left.pipe", "right.pipe"):
        os.mkfifo(folder / name)
    feeder = threading.Thread(target=feed_in_turn, args=(folder, early), daemon=True)
    feeder.start()
    ran = run("radixjoin", ["--left", "left.pipe", "--right", "right.pipe", *WORDS], folder)
    feeder.join(1)
    faults = ["the right file was opened before the left one was read"] if early != [False] else []
    yield "two named pipes made one after the other", faults + harness.differences(ran, JOINED)


PARTS = [
    words_that_are_no_text,
    help_of_each_option,
    version_of_each_program,
    numbers_of_arrivals,
    longest_blocks,
    scripts_that_cannot_be_read,
    closed_standard_error,
    output_that_nobody_reads,
    files_without_permission,
    files_that_cannot_be_read,
    streams_as_files,
    named_pipes,
]


def run_all(tally):
    """The rows of ends.toml, and each part in a folder of its own."""
    with open(harness.ROOT / "tests" / "ends.toml", "rb") as text:
        found = tomllib.load(text)
    for case in found["case"]:
        tally.check(f"ends.toml: {case['name']}", examples.faults_of(case, found["file"]))
    for part in PARTS:
        with harness.folder() as name:
            for label, faults in part(pathlib.Path(name)):
                tally.check(label, faults)
