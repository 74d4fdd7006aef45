"""Devices that fail, are broken off by signals, and move few bytes, under the built programs: the right bytes or the
fault of the device, and never other bytes with status 0."""
import errno
import os
import pathlib
import resource
import subprocess

import harness

# Past this many calls a run without a failure is not to be expected any more.
MOST = 5_000
FILES = {"left.csv": b"id,name\n1,ann\n2,bob\n3,cy\n", "right.csv": b"id,city\n4,rome\n2,oslo\n5,lima\n"}
WORDS = ["--left", "left.csv", "--right", "right.csv", "--left-types", "int,text", "--right-types", "int,text", "--join", "JOIN USING (id)", "--stats", "--bits1=0"]
JOINED = b"id,name,city\n2,bob,oslo\n"
STATISTICS = b"partition 0 left 3 right 3\npairs 1 lone-left 0 lone-right 0\n"
ARRIVALS = ["--partition", "0", "--senders", "1", "--block", "4"]
SCRIPT = b"0 0 1 rows 5 7\n0 0 0 rows 1 2\n"
REPLAYED = b"held\naccepted 2\nsender 0 waiting 2 rows 1 2 5 7\nincomplete\n"


class Run:
    """A run of a program, and what it prints where no device fails."""

    def __init__(self, name, program, words, files, stdin, stdout, stderr=b""):
        self.name = name
        self.program = program
        self.words = words
        self.files = files
        self.stdin = stdin
        self.stdout = stdout
        self.stderr = stderr


SMALL = Run("a small join", "radixjoin", WORDS, FILES, b"", JOINED, STATISTICS)
REPLAY = Run("a small script", "arrivals", ARRIVALS, {}, SCRIPT, REPLAYED)


def large():
    """A join of 40,000 rows, of some 1.6 MB each way."""
    rows = [(at, b"a text that makes the row longer %d" % (at * 7)) for at in range(40_000)]
    left = b"k,t\n" + b"".join(b"%d,%s\n" % row for row in rows)
    right = b"k,n\n" + b"".join(b"%d,%d\n" % (at, at + 1) for at, _ in rows)
    joined = b"k,t,n\n" + b"".join(b"%d,%s,%d\n" % (at, text, at + 1) for at, text in rows)
    words = ["--left", "left.csv", "--right", "right.csv", "--left-types", "int,text", "--right-types", "int,int", "--join", "JOIN USING (k)"]
    return Run("a large join", "radixjoin", words, {"left.csv": left, "right.csv": right}, b"", joined)


def library(folder):
    """Compiles the library that stands before the devices."""
    made = folder / "devices.so"
    subprocess.run(["gcc", "-O2", "-shared", "-fPIC", "-o", made, harness.ROOT / "tests" / "devices.c", "-ldl"], check=True)
    return made


class Device:
    """Runs programs over a device that fails, in one folder."""

    def __init__(self, folder, run):
        self.folder = folder
        self.library = library(folder)
        self.run = run
        for name, content in run.files.items():
            (folder / name).write_bytes(content)

    def ended(self, **how):
        """How a run ended over such a device, and whether a call of it failed."""
        report = self.folder / "report"
        report.unlink(missing_ok=True)
        settings = {f"DEVICE_{name.upper()}" if name != "device" else "DEVICE": str(value) for name, value in how.items()}
        environment = {**os.environ, "LD_PRELOAD": str(self.library), "DEVICE_REPORT": str(report), **settings}
        ran = harness.run([harness.program(self.run.program), *self.run.words], self.folder, self.run.stdin, environment=environment)
        return ran, report.exists()


def right(run, ran):
    """What of a run isn't as it is where no device fails."""
    return harness.differences(ran, run.stdout, run.stderr)


def failed_write(run, ran):
    """What of a run whose write failed isn't as the rules have it: a beginning of the bytes, E20."""
    faults = harness.differences(ran, None, f"{run.program}: E20 WriteDevice\n".encode(), 6)
    if not run.stdout.startswith(ran.stdout):
        faults.append(f"not a beginning of the bytes: {harness.shorten(ran.stdout)}")
    return faults


def failed_read(run, ran, side):
    """What of a run whose read failed isn't as the rules have it: nothing, E19."""
    return harness.differences(ran, b"", f"{run.program}: E19 ReadDevice{side}\n".encode(), 6)


def swept(tally, run, label, faults_of, **how):
    """Fails the first call, the second, .. until a run comes to no failing call; that one has to be right."""
    with harness.folder() as name:
        device = Device(pathlib.Path(name), run)
        for call in range(1, MOST):
            ran, has_failed = device.ended(fails_at=call, **how)
            if not has_failed:
                tally.check(f"{run.name}, {label}: no call fails", right(run, ran))
                return call - 1
            tally.check(f"{run.name}, {label}: call {call} fails", faults_of(ran, call))
    tally.check(f"{run.name}, {label}", [f"{MOST} calls, and no end"])
    return MOST


def failing_writer_sweep(tally):
    """Each write fails in turn, by several errors, in writes of a byte and of many."""
    total = 0
    big = large()
    for run, most in ((SMALL, 1), (SMALL, 1000), (REPLAY, 1), (big, 60_000)):
        for error in (errno.EIO, errno.ENOSPC) if run is not big else (errno.ENOSPC,):
            faults_of = lambda ran, call: failed_write(run, ran)
            total += swept(tally, run, f"writes of {most}, error {error}", faults_of, device="write", most=most, error=error)
    nothing = lambda ran, call: failed_write(SMALL, ran) and right(SMALL, ran)
    total += swept(tally, SMALL, "writes that move nothing", nothing, device="write", most=5, error=0)
    print(f"failing_writer_sweep: {total} writes failed in turn")


def failing_reader_sweep(tally):
    """Each read fails in turn: the left file's first."""
    left_reads = len(FILES["left.csv"]) + 1
    side = lambda call: " left" if call <= left_reads else " right"
    faults_of = lambda ran, call: failed_read(SMALL, ran, side(call))
    total = swept(tally, SMALL, "reads of 1", faults_of, device="read", most=1)
    faults_of = lambda ran, call: failed_read(REPLAY, ran, "")
    total += swept(tally, REPLAY, "reads of 1", faults_of, device="read", most=1)
    big = large()
    left_reads_of_big = -(-len(big.files["left.csv"]) // 60_000) + 1
    faults_of = lambda ran, call: failed_read(big, ran, " left" if call <= left_reads_of_big else " right")
    total += swept(tally, big, "reads of 60,000", faults_of, device="read", most=60_000)
    print(f"failing_reader_sweep: {total} reads failed in turn")


def interrupted_calls(tally):
    """Signals break calls off, in any number, and calls move few bytes: the bytes are right."""
    for run, mosts in ((SMALL, (1, 2, 3, 7, 1 << 30)), (REPLAY, (1, 2, 5, 1 << 30)), (large(), (4096, 65_537, 1 << 30))):
        with harness.folder() as name:
            device = Device(pathlib.Path(name), run)
            for kind in ("read", "write"):
                for most in mosts:
                    for interrupts in (0, 1, 4, 60, 1000):
                        ran, _ = device.ended(device=kind, most=most, interrupts=interrupts)
                        label = f"{run.name}, each {kind} of at most {most} broken off {interrupts} times"
                        tally.check(label, right(run, ran))


def written_to(run, folder, file, most=None):
    """Runs with a file as standard output, that may have `most` bytes."""
    def limited():
        if most is not None:
            resource.setrlimit(resource.RLIMIT_FSIZE, (most, most))

    with open(file, "wb") as stdout:
        # A process that may write no more gets a signal, which ends it unless it is ignored, as it is here.
        how = {"restore_signals": False, "preexec_fn": limited, "stderr": subprocess.PIPE, "stdin": subprocess.DEVNULL}
        ran = subprocess.run([harness.program(run.program), *run.words], cwd=folder, stdout=stdout, timeout=harness.SECONDS, **how)
    return harness.Ran(ran.returncode, pathlib.Path(file).read_bytes(), ran.stderr)


def full_disks(tally):
    """A disk that becomes full in the middle, by a limit and on a small file system."""
    run = large()
    with harness.folder() as name:
        folder = pathlib.Path(name)
        for file, content in run.files.items():
            (folder / file).write_bytes(content)
        for most in (0, 1, 4096, 1_000_000, len(run.stdout) - 1):
            tally.check(f"a file of at most {most} bytes", failed_write(run, written_to(run, folder, folder / "out", most)))
        tally.check("a file of as many bytes as are needed", right(run, written_to(run, folder, folder / "out", len(run.stdout))))
        disk = folder / "disk"
        with harness.disk(disk, 256) as is_mounted:
            if is_mounted:
                tally.check("a disk of 256 KB", failed_write(run, written_to(run, folder, disk / "out")))
            else:
                print("no small file system can be mounted: a full disk is tried by a limit alone")


def run_all(tally):
    """Both sweeps, interrupted calls, and full disks."""
    for part in (failing_writer_sweep, failing_reader_sweep, interrupted_calls, full_disks):
        part(tally)
