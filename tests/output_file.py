"""The file of `--output`: it has the whole result, or what it had before, and nothing is left beside it."""
import os
import pathlib
import signal
import stat
import subprocess
import threading
import time

import ends
import harness
import refused_allocations

JOINED, NOBODY, WORDS, run, two_files = ends.JOINED, ends.NOBODY, ends.WORDS, ends.run, ends.two_files
BEFORE = b"what stood there before\n"
COUNTED = b"pairs 1 lone-left 0 lone-right 0\n"
UNWRITTEN = b"radixjoin: E20 WriteDevice\n"
NAME = "out.csv"
ROWS = 60_000


def names_in(folder):
    return {it.name for it in folder.iterdir()}


def content(file):
    """The bytes of a file, or None where there is none."""
    return file.read_bytes() if file.exists() else None


class Written:
    """A folder for one result, in which another file may stand at its place."""

    def __init__(self, folder, before=BEFORE):
        self.folder = folder
        self.file = folder / NAME
        self.before = before
        self.file.unlink(missing_ok=True)
        if before is not None:
            self.file.write_bytes(before)
        self.names = names_in(folder)

    def faults(self, ran, wanted=JOINED, stderr=b"", status=0):
        """What isn't as wanted: how it ended, what the file has, and what stands beside it."""
        has, names = (wanted, self.names | {NAME}) if status == 0 else (self.before, self.names)
        found = harness.differences(ran, b"", stderr, status)
        if content(self.file) != has:
            found.append(f"the file has {harness.shorten(content(self.file))}")
        return found + [f"{name} was left behind" for name in sorted(names_in(self.folder) - names)]


def files(folder):
    """The result stands in the file and not on standard output, whatever stood there."""
    words = two_files(folder)
    for label, before in (("a new file", None), ("in place of a shorter file", b"x"), ("in place of a longer file", BEFORE * 1000)):
        written = Written(folder, before)
        yield label, written.faults(run("radixjoin", [*words, "--output", NAME], folder))
    written = Written(folder)
    yield "by =", written.faults(run("radixjoin", [*words, f"--output={NAME}", "--workers=4"], folder))
    written = Written(folder)
    statistics = b"partition 0 left 3 right 3\npairs 1 lone-left 0 lone-right 0\n"
    yield "with statistics", written.faults(run("radixjoin", [*words, "--output", NAME, "--stats", "--bits1=0"], folder), stderr=statistics)
    written = Written(folder)
    yield "by its whole name", written.faults(run("radixjoin", [*words, "--output", folder / NAME], folder))
    ran = run("radixjoin", [*words, "--output", "-"], folder)
    yield "- is standard output", harness.differences(ran, JOINED) + ([] if not (folder / "-").exists() else ["a file - was made"])
    ran = run("radixjoin", [*words, "--output", "./-"], folder)
    yield "./- is a file", harness.differences(ran, b"") + ([] if content(folder / "-") == JOINED else ["no file - was made"])


def counts(folder):
    """With `--count` the line of the counts stands in the file, whole or not at all, and nothing on standard output."""
    words = [*two_files(folder), "--count", "--output", NAME]
    for before in (None, BEFORE):
        for options in ([], ["--explain"]):
            written = Written(folder, before)
            yield f"counted {options}, {'a file' if before else 'nothing'} there", written.faults(run("radixjoin", [*words, *options], folder), COUNTED)
    written = Written(folder)
    ran = harness.run([harness.program("radixjoin"), *words, "--explain"], folder, output="full")
    yield "counted, and standard output is full", written.faults(ran, COUNTED)
    written = Written(folder)
    ran = ends.run_command(["sh", "-c", 'exec "$@" >> left.csv', "sh", harness.program("radixjoin"), *words], folder)
    yield "counted, and standard output is an input, to which nothing is written", written.faults(ran, COUNTED)
    written = Written(folder)
    ran = run("radixjoin", [*words, "--max-rows=0"], folder)
    yield "counted, and not as expected", written.faults(ran, stderr=b"radixjoin: E30 NotAsExpected\n", status=7)
    ran = run("radixjoin", [*words[:-1], "-"], folder)
    yield "counted to -", harness.differences(ran, COUNTED)
    ran = run("radixjoin", [*words[:-1], "/dev/full", "--explain"], folder)
    yield "counted to a full device", harness.differences(ran, b"", UNWRITTEN + b"  /dev/full: No space left on device\n", 6)


def modes(folder):
    """A new file gets the mode that the umask leaves, and otherwise the mode of the file that stood there stays."""
    words = two_files(folder)
    for mask, before in ((0o022, None), (0o077, None), (0o002, None), (0o022, 0o600), (0o022, 0o444), (0o077, 0o664)):
        written = Written(folder, None if before is None else BEFORE)
        if before is not None:
            written.file.chmod(before)
        ran = ends.run_command(["sh", "-c", f'umask {mask:o}; exec "$@"', "sh", harness.program("radixjoin"), *words, "--output", NAME], folder)
        mode = stat.S_IMODE(written.file.stat().st_mode) if written.file.exists() else None
        kept = 0o666 & ~mask if before is None else before
        yield f"umask {mask:o} over {before}", written.faults(ran) + ([] if mode == kept else [f"mode {mode}"])


def owners(folder):
    """The owner and the group of the file that stood there stay, as far as whoever runs the program may set them; rights of its group go to no other one."""
    if os.getuid() != 0:
        print("output_file: owners are left out, since only root gives files away")
        return
    words = two_files(folder)
    folder.chmod(0o777)
    copy = folder / "program"
    copy.write_bytes(harness.program("radixjoin").read_bytes())
    copy.chmod(0o755)
    someone = NOBODY - 1
    for label, user, groups, before, wanted in (
        ("root", 0, [], 0o640, (someone, someone, 0o640)),
        ("one of the group", NOBODY, [someone], 0o640, (NOBODY, someone, 0o640)),
        ("a stranger", NOBODY, [], 0o640, (NOBODY, NOBODY, 0o600)),
        ("a stranger, of a file that all read", NOBODY, [], 0o664, (NOBODY, NOBODY, 0o644)),
        ("a stranger, of a file that all write", NOBODY, [], 0o666, (NOBODY, NOBODY, 0o666)),
    ):
        written = Written(folder)
        os.chown(written.file, someone, someone)
        written.file.chmod(before)
        ran = ends.run_command([copy, *words, "--output", NAME], folder, user=user, group=user, extra_groups=groups)
        found = written.file.stat()
        held = (found.st_uid, found.st_gid, stat.S_IMODE(found.st_mode))
        yield f"written by {label}", written.faults(ran) + ([] if held == wanted else [f"owner, group and mode {held}"])


def links(folder):
    """Symbolic links are followed, and stay; another name of the file that stood there keeps what it had."""
    words = two_files(folder)
    (folder / "real").mkdir()
    for label, link, leads_to in (
        ("a link", "link", "real/out.csv"),
        ("a link by a whole name", "whole", str(folder / "real" / NAME)),
        ("a link to a link", "second", "link"),
        ("a link out of its folder", "real/back", "../real/out.csv"),
    ):
        os.symlink(leads_to, folder / link)
        for before in (BEFORE, None):
            written = Written(folder / "real", before)
            ran = run("radixjoin", [*words, "--output", link], folder)
            kept = [] if (folder / link).is_symlink() else ["the link is gone"]
            yield f"{label}, {'a file' if before else 'nothing'} there", written.faults(ran) + kept
    for number in range(1, 40):
        os.symlink(f"chain-{number - 1}" if number > 1 else f"real/{NAME}", folder / f"chain-{number}")
    for number in (6, 20, 39):
        written = Written(folder / "real")
        yield f"a chain of {number} links", written.faults(run("radixjoin", [*words, "--output", f"chain-{number}"], folder))
    os.symlink("round", folder / "round")
    yield "a link to itself", harness.differences(run("radixjoin", [*words, "--output", "round"], folder), b"", UNWRITTEN, 6)
    written = Written(folder)
    os.link(written.file, folder / "other.csv")
    written.names.add("other.csv")
    ran = run("radixjoin", [*words, "--output", NAME], folder)
    yield "a second name", written.faults(ran) + ([] if content(folder / "other.csv") == BEFORE else ["the second name has another content"])


def names(folder):
    """A file that stands beside the result is never taken for it, and a name may be as long as the system lets it."""
    words = two_files(folder)
    for number in (0, 1):
        (folder / f".{NAME}.radixjoin-{number}").write_bytes(BEFORE)
    written = Written(folder)
    ran = run("radixjoin", [*words, "--output", NAME], folder)
    kept = [name for name in sorted(written.names) if name.startswith(".") and content(folder / name) != BEFORE]
    yield "names that are there", written.faults(ran) + [f"{name} has another content" for name in kept]
    for label, names_there, status in (("one name is free", 999, 0), ("no name is free", 1000, 6)):
        for number in range(names_there):
            (folder / f".{NAME}.radixjoin-{number}").write_bytes(BEFORE)
        written = Written(folder)
        ran = run("radixjoin", [*words, "--output", NAME], folder)
        yield label, written.faults(ran, stderr=UNWRITTEN if status else b"", status=status)
    for length in (200, 201, 255):
        name = "x" * length
        ran = run("radixjoin", [*words, "--output", name], folder)
        left = [it for it in names_in(folder) if "radixjoin" in it and it not in written.names]
        yield f"a name of {length} bytes", harness.differences(ran, b"") + left + ([] if content(folder / name) == JOINED else ["no such file was made"])
    yield "a name of 256 bytes", harness.differences(run("radixjoin", [*words, "--output", "x" * 256], folder), b"", UNWRITTEN, 6)


def special_files(folder):
    """Pipes and devices take the bytes as they come; a folder and a device without room are E20."""
    words = two_files(folder)
    known = names_in(folder)
    yield "a device", harness.differences(run("radixjoin", [*words, "--output", "/dev/null"], folder), b"")
    yield "a device without room", harness.differences(run("radixjoin", [*words, "--output", "/dev/full"], folder), b"", UNWRITTEN, 6)
    yield "a folder", harness.differences(run("radixjoin", [*words, "--output", "."], folder), b"", UNWRITTEN, 6)
    for output in ("/dev/stdout", "/dev/fd/1"):
        yield output, harness.differences(run("radixjoin", [*words, "--output", output], folder), JOINED)
    os.mkfifo(folder / "pipe")
    got = []
    reader = threading.Thread(target=lambda: got.append((folder / "pipe").read_bytes()))
    reader.start()
    ran = run("radixjoin", [*words, "--output", "pipe"], folder)
    reader.join(ends.SECONDS)
    yield "a pipe", harness.differences(ran, b"") + ([] if got == [JOINED] else [f"the pipe gave {got}"])
    yield "what is left", [f"{name} was left behind" for name in sorted(names_in(folder) - known - {"pipe"})]


def faults_of_a_join(folder):
    """Behind each fault the file is as it was."""
    words = two_files(folder)
    (folder / "bad.csv").write_bytes(b"id,name\n1,ann\nx,bob\n")
    cases = [
        ("a table", ["--left", "bad.csv", *words[2:]], b"radixjoin: E6 BadInteger left row 2 column 1\n", 3),
        ("a missing table", ["--left", "missing", *words[2:]], b"radixjoin: E19 ReadDevice left\n", 6),
        ("the clause", [*words[:-1], "JOIN USING (nothing)"], b"radixjoin: E13 UnknownColumn\n", 4),
        ("a null text", [*words, "--null=a,b"], b"radixjoin: E10 BadNull\n", 3),
        ("the command line", [*words[:5], "int;text", *words[6:]], b"radixjoin: bad type list left\n", 2),
    ]
    for label, asked, told, status in cases:
        for before in (BEFORE, None):
            written = Written(folder, before)
            yield f"a fault of {label}", written.faults(run("radixjoin", [*asked, "--output", NAME], folder), stderr=told, status=status)


def outputs_that_are_inputs(folder):
    """A file that is one of the tables is refused before anything is read, by whatever name; another one never is."""
    words = two_files(folder)
    os.symlink("right.csv", folder / "symbolic.csv")
    os.link(folder / "left.csv", folder / "link.csv")
    kept = {name: content(folder / name) for name in ("left.csv", "right.csv")}
    for output, side in (("left.csv", "left"), ("./right.csv", "right"), ("symbolic.csv", "right"), ("link.csv", "left")):
        for asked in (words, [*words[:-1], "nonsense"], [*words, "--count"]):
            known = names_in(folder)
            ran = run("radixjoin", [*asked, "--output", output], folder)
            changed = [f"{name} changed" for name in kept if content(folder / name) != kept[name]]
            found = harness.differences(ran, b"", f"radixjoin: E29 OutputIsInput {side}\n".encode(), 6)
            yield f"{output} is an input", found + changed + sorted(names_in(folder) - known)
    written = Written(folder)
    ran = ends.run_command(["sh", "-c", 'exec "$@" >> left.csv', "sh", harness.program("radixjoin"), *words, "--output", NAME], folder)
    yield "standard output is an input, to which nothing is written", written.faults(ran)


def other_devices(folder):
    """A file that has the output's number on another device isn't the output."""
    words = two_files(folder)
    library = folder / "other_device.so"
    subprocess.run(["gcc", "-O2", "-shared", "-fPIC", "-o", library, harness.ROOT / "tests" / "other_device.c", "-ldl"], check=True)
    for name, side in (("left.csv", "left"), ("right.csv", "right")):
        os.link(folder / name, folder / f"{side}-link")
        asked = [*words, "--output", f"{side}-link"]
        told = f"radixjoin: E29 OutputIsInput {side}\n".encode()
        yield f"{name} on the output's device", harness.differences(run("radixjoin", asked, folder), b"", told, 6)
        environment = {**os.environ, "LD_PRELOAD": str(library), "OTHER_DEVICE": name}
        ran = run("radixjoin", asked, folder, env=environment)
        yield f"{name} on another device", harness.differences(ran, b"") + ([] if content(folder / f"{side}-link") == JOINED else ["no result"])


def refused_calls(folder):
    """Where the file can't be written, brought to the disk or renamed, what stood there stays, and nothing is left."""
    words = two_files(folder)
    library = folder / "refused_rename.so"
    subprocess.run(["gcc", "-O2", "-shared", "-fPIC", "-o", library, harness.ROOT / "tests" / "refused_rename.c", "-ldl"], check=True)
    for call in ("rename", "fsync", "write"):
        for before, options in ((BEFORE, []), (None, []), (BEFORE, ["--count"])):
            written = Written(folder, before)
            environment = {**os.environ, "LD_PRELOAD": str(library), "REFUSED": call}
            ran = run("radixjoin", [*words, *options, "--output", NAME], folder, env=environment)
            yield f"{call} is refused {options}, {'a file' if before else 'nothing'} there", written.faults(ran, stderr=UNWRITTEN, status=6)


def refused_memory(folder):
    """Where an allocation is refused the file has the whole result or what stood there, and nothing is left beside it."""
    words = two_files(folder)
    library = refused_allocations.library(folder)
    for number in range(1, refused_allocations.MOST):
        written, report = Written(folder), folder / "report"
        environment = {**os.environ, "LD_PRELOAD": str(library), "REFUSE_ALLOCATION": str(number), "REFUSE_REPORT": str(report)}
        ran = run("radixjoin", [*words, "--output", NAME], folder, env=environment)
        was_refused = report.exists()
        report.unlink(missing_ok=True)
        status = ran.status if was_refused else 0
        told = b"" if status == 0 else b"radixjoin: E18 Memory\n"
        yield f"allocation {number} is refused", written.faults(ran, stderr=told, status=0 if status == 0 else 5)
        if not was_refused:
            return
    yield "allocations end", ["they don't"]


def folders_without_permission(folder):
    """Where no file can be made beside the result it is told before anything is read."""
    words = two_files(folder)
    ran = run("radixjoin", ["--left", "missing", *words[2:], "--output", "missing/out.csv"], folder)
    yield "no such folder", harness.differences(ran, b"", UNWRITTEN, 6)
    for output, told in (("missing/out.csv", b"  the folder missing: No such file or directory\n"), ("x" * 256, b"  " + b"x" * 256 + b": File name too long\n")):
        ran = run("radixjoin", [*words, "--explain", "--output", output], folder)
        yield f"{output[:20]}, explained", harness.differences(ran, b"", UNWRITTEN + told, 6)
    folder.chmod(0o755)
    (folder / "closed").mkdir()
    written = Written(folder / "closed")
    (folder / "closed").chmod(0o555)
    if os.getuid() != 0:
        yield "no permission", written.faults(run("radixjoin", [*words, "--output", f"closed/{NAME}"], folder), stderr=UNWRITTEN, status=6)
        return
    copy = folder / "program"
    copy.write_bytes(harness.program("radixjoin").read_bytes())
    copy.chmod(0o755)
    ran = ends.run_command([copy, *words, "--output", f"closed/{NAME}", "--explain"], folder, user=NOBODY, group=NOBODY, extra_groups=[])
    yield "no permission", written.faults(ran, stderr=UNWRITTEN + b"  the folder closed: Permission denied\n", status=6)


def large(folder):
    """The words of a join of many rows, and its result."""
    rows = [b"%d,a text that makes the row longer %d\n" % (at, at * 7) for at in range(ROWS)]
    (folder / "left.csv").write_bytes(b"id,name\n" + b"".join(rows))
    (folder / "right.csv").write_bytes(b"id,city\n" + b"".join(b"%d,%d\n" % (at, at + 1) for at in range(ROWS)))
    words = ["--left", "left.csv", "--right", "right.csv", *WORDS]
    return words, run("radixjoin", words, folder).stdout


def full_disks(folder):
    """On a disk without room for the result what stood there stays, and with room the result is whole."""
    words, joined = large(folder)
    for share, fits in ((0.02, False), (0.5, False), (0.9, False), (2, True)):
        size = max(4, int(len(joined) * share / 1024))
        place = folder / f"disk-{size}"
        with harness.disk(place, size) as is_mounted:
            if not is_mounted:
                print("output_file: full disks are left out, since no small file system can be mounted")
                return
            written = Written(place, b"x")
            ran = run("radixjoin", [*words, "--output", place / NAME], folder)
            yield f"a disk of {size} KiB", written.faults(ran, joined, b"" if fits else UNWRITTEN, 0 if fits else 6)


def killed(folder):
    """Killed at any moment, it has left the whole result or what stood there; the next run isn't hindered."""
    words, joined = large(folder)
    command = [harness.program("radixjoin"), *words, "--output", NAME]
    start = time.monotonic()
    subprocess.run(command, cwd=folder, check=True)
    whole = time.monotonic() - start
    ended, cut_off = 0, 0
    for step in range(60):
        written = Written(folder)
        process = subprocess.Popen(command, cwd=folder, stdout=subprocess.DEVNULL, stderr=subprocess.DEVNULL)
        time.sleep(whole * step / 50)
        process.send_signal(signal.SIGKILL)
        process.wait()
        found = content(written.file)
        ended += found == joined
        cut_off += found == BEFORE
        beside = [name for name in names_in(folder) - written.names if not name.startswith(f".{NAME}.radixjoin-")]
        yield f"killed after {step}/50 of its time", ([] if found in (BEFORE, joined) else [f"the file has {harness.shorten(found)}"]) + beside
    yield "killed before its end", [] if cut_off else ["each run had ended"]
    written = Written(folder)
    yield "the run after it", written.faults(ends.run_command(command, folder), joined)


def run_all(tally):
    for cases in (
        files,
        counts,
        modes,
        owners,
        links,
        names,
        special_files,
        faults_of_a_join,
        outputs_that_are_inputs,
        other_devices,
        refused_calls,
        refused_memory,
        folders_without_permission,
        full_disks,
        killed,
    ):
        with harness.folder() as name:
            for label, faults in cases(pathlib.Path(name)):
                tally.check(f"output_file: {label}", faults)
