"""What a join in shards makes in its scratch folder, and how joined shards are read by ranges: the files and bytes that are there while
each program runs, and nothing at the end; the rows between two places as `merges` writes them of runs of the shards' bytes and of
the whole shards, byte for byte; parts in one file, which are given back; and programs that read such runs by pipes."""
import contextlib
import errno
import os
import pathlib
import random
import subprocess
from unittest import mock

import harness
import shards

from radixjoin import feeding, making, packed, placed

SCRIPT = shards.SCRIPT
MARK = b"\xef\xbb\xbf"
PARTS, RANGES, MERGES = 8, 3, 4
# Tells of each file below a folder its size, the bytes that it takes, and its path, before and after a program runs.
LOOKS = """#!/bin/sh
look() { find "SCRATCH" -path '*/radixjoin-*' -type f -printf '%s %b %P\\n' > "LOG/$$.NAME.$1"; }
look before
"PROGRAM" "$@"
status=$?
look after
exit $status
"""


def programs_that_look(folder, scratch):
    """A folder of the programs, each of which looks at the scratch folder too, and a folder of what they see."""
    log = folder / "log"
    log.mkdir()
    (folder / "programs").mkdir()
    for name in SCRIPT.PROGRAMS:
        text = LOOKS.replace("SCRATCH", str(scratch)).replace("LOG", str(log)).replace("NAME", name).replace("PROGRAM", str(harness.program(name)))
        (folder / "programs" / name).write_text(text)
        (folder / "programs" / name).chmod(0o755)
    return folder / "programs", log


def seen(log, name):
    """What was there while a program of this name ran, in time: lists of the size, the bytes taken and the path of each file."""
    for path in sorted(log.glob(f"*.{name}.*"), key=lambda it: it.stat().st_mtime_ns):
        lines = [line.split(" ", 2) for line in path.read_text().splitlines()]
        yield [(int(size), int(blocks) * 512, place) for size, blocks, place in lines]


def write_tables(folder, rows):
    """Writes two tables that are cut into ranges, and gives the words that join them."""
    for side, name in (("left", "a"), ("right", "b")):
        lines = "".join(f'{at * 7919 % rows},"{at}, {"x" * (at % 30)}"\n' for at in range(rows))
        (folder / f"{side}.csv").write_text(f"k,{name}\n{lines}")
    tables = ["--left", "left.csv", "--right", "right.csv", "--left-types", "int,text", "--right-types", "int,text"]
    return shards.placed_in([*tables, "--join", "FULL JOIN USING (k)"], folder)


def faults_of_files(log, result):
    """How the files that were seen differ from those that a step may have, when one task runs after another."""
    most = {name: max(map(len, seen(log, name))) for name in SCRIPT.PROGRAMS}
    # (the parts of a range that is divided and the files of ranges; a joined shard; a merged range)
    limits = {"shards": PARTS + 2 * RANGES, "radixjoin": 2 * RANGES + 2 * PARTS + 1, "merges": 2 * PARTS + MERGES}
    yield from (f"{most[name]} files while {name} runs" for name in most if most[name] > limits[name])
    for files in seen(log, "merges"):
        yield from (f"{place} while shards are merged" for _, _, place in files if "/left-" in place or "/right-" in place)
    joined = max(sum(size for size, _, place in files if "joined-" in place) for files in seen(log, "merges"))
    if not result < joined < 2 * result:
        yield f"{joined} bytes of joined shards, of a result of {result}"
    taken = [sum(taken for _, taken, place in files if "/left-" in place or "/right-" in place) for files in seen(log, "radixjoin")]
    if can_give_back(log) and taken[-1] > max(taken) / 2:
        yield f"from {max(taken)} to {taken[-1]} bytes of parts while shards are joined"


def can_give_back(folder):
    """Whether a file system gives back the room of some bytes of a file."""
    path = folder / "given_back"
    packed_parts(folder, [b"x" * (1 << 20), b"y"], path)
    before = path.stat().st_blocks
    packed.give_back(str(path), 2, 0)
    return path.stat().st_blocks < before


def run_files(tally):
    """Which files are there, and nothing at the end."""
    with harness.folder() as name:
        folder = pathlib.Path(name)
        scratch = folder / "scratch"
        scratch.mkdir()
        words = write_tables(folder, 40_000)
        wanted = harness.run([harness.program("radixjoin"), *words], folder)
        programs, log = programs_that_look(folder, scratch)
        more = ["--parts", PARTS, "--merges", MERGES, "--scratch", scratch, "--programs", programs]
        ran = shards.joined([*words, *more], folder, RANGES)
        tally.check("shards_scratch: a join", harness.differences(ran, wanted.stdout, wanted.stderr, wanted.status))
        tally.check("shards_scratch: nothing at the end", [it.name for it in scratch.iterdir()])
        tally.check("shards_scratch: files", list(faults_of_files(log, len(wanted.stdout))))


def rows_of(pick, order, count):
    """Rows of a joined table at their places, in order: pairs, lone left and lone right rows, each with a text."""
    texts = ("plain", '"a, b"', '"two\nlines"', '"say ""x"""', "", '"\n\n"')
    lefts = sorted(pick.sample(range(4 * count + 4), count))
    rows, rights = [], range(3 * count + 3)
    for left in lefts:
        partners = sorted(pick.sample(rights, min(len(rights), pick.choice((0, 0, 1, 1, 2, 9)))))
        rows += [((0, left, right), left, right) for right in partners] or [(placed.place_of(str(left), "", order), left, "-")]
    rows += [((2, right, 0), "-", right) for right in pick.sample(rights, pick.randrange(count + 1))]
    return [(place, f"{pick.choice(texts)},{left},{pick.choice(texts)},{right}\n") for place, left, right in sorted(rows, key=lambda row: row[0])]


def write_shards(pick, folder, order):
    """Divides such rows among files, and gives these shards and the places of all rows. Of several rows of one left or right row
    each may stand in another shard: a merge needs no more than that the rows of each rise."""
    rows = rows_of(pick, order, pick.choice((0, 1, 7, 60, 300)))
    count = pick.randrange(1, 6)
    mark = pick.choice(("", "\ufeff"))
    texts = [[f'{mark}"a, ""b""",left_place,"c\nd",right_place\n'] for _ in range(count)]
    for _, text in rows:
        pick.choice(texts).append(text)
    found = []
    for number, lines in enumerate(texts):
        (folder / f"{number}.csv").write_text("".join(lines))
        found.append(placed.Shard(str(folder / f"{number}.csv"), order))
    return found, [place for place, _ in rows]


def merged(folder, order, options, names=(), inputs=()):
    """What `merges` writes of files, or of runs of bytes."""
    words = [str(harness.program("merges")), "--null=-", f"--order={order}", *options, *map(str, names)]
    with open(folder / "merged", "w+b") as output:
        ran = feeding.run_program(words, inputs, stdin=subprocess.DEVNULL, stdout=output)
        output.seek(0)
        return harness.Ran(ran.returncode, output.read(), ran.stderr)


def texts_of_ranges(folder, order, found, cuts):
    """What `merges` writes of the ranges between cuts, each of the runs of the shards' bytes alone."""
    indices = [shard.scanned() for shard in found]
    cut = [[shard.begin, *(shard.find(index, place)[0] for place in cuts), index[1]] for shard, index in zip(found, indices)]
    for number in range(len(cuts) + 1):
        runs = SCRIPT.rows_in_range(cut, number)
        inputs = [("", feeding.bytes_of(found[part].path, [(0, header), (begin, end)])) for part, (header, begin, end) in runs.items()]
        yield merged(folder, order, ["--from=0"] if number else [], inputs=inputs)


def faults_of_rows(shard, order):
    """How the rows of a shard by its index differ from those that one reading of all of it gives."""
    index = shard.scanned()
    rows = list(shard._rows(shard.begin, index[1]))
    for number, (byte, place) in enumerate(rows):
        if shard.find(index, place) != (byte, number) or shard.place_of_row(index, number + 1) != place:
            yield f"row {number + 1} at {place}: {shard.find(index, place)}, {shard.place_of_row(index, number + 1)}"
    if shard.scanned(counts_rows=False) != ([(at, 0, place) for at, _, place in index[0]], index[1]):
        yield f"{order}: where rows aren't counted the index is another one"
    if [begin for begin, _, _ in index[0]][:1] != [shard.begin][: len(rows)]:
        yield f"{order}: the first piece doesn't begin at the first row"
    if shard.find(index, (3, 0, 0)) != (os.path.getsize(shard.path), len(rows)):
        yield f"the end: {shard.find(index, (3, 0, 0))}"
    if sum(size for _, size in placed.sampled(index)) != os.path.getsize(shard.path) - shard.begin:
        yield f"{order}: the samples have other bytes than the rows"


def run_ranges(seed, tally):
    """Random shards: the ranges between random cuts are the whole merge, and those between left rows what `merges` writes of the
    whole shards between these."""
    pick = random.Random(f"radixjoin: ranges of shards {seed}")
    order = pick.choice(("pairs", "left"))
    with harness.folder() as name:
        folder = pathlib.Path(name)
        found, places = write_shards(pick, folder, order)
        names = [shard.path for shard in found]
        whole = merged(folder, order, [], names)
        faults = harness.differences(whole, None) + [it for shard in found for it in faults_of_rows(shard, order)]
        near = [(kind, left + pick.choice((-1, 0, 0, 1)), right) for kind, left, right in places]
        cuts = sorted({place for place in pick.sample(near, min(len(near), pick.randrange(7))) if place[1] >= 0})
        texts = list(texts_of_ranges(folder, order, found, cuts))
        faults += [it for ran in texts for it in harness.differences(ran, None)]
        faults += [] if b"".join(ran.stdout for ran in texts) == whole.stdout else [f"{cuts}: the ranges have other bytes than the whole"]
        lefts = sorted({place[1] for place in cuts} - {0})
        texts = list(texts_of_ranges(folder, order, found, [(0, left, 0) for left in lefts]))
        for ran, start, end in zip(texts, [None, *lefts], [*lefts, None]):
            options = [f"--{option}={left}" for option, left in (("from", start), ("to", end)) if left is not None]
            faults += [f"{options}: {it}" for it in harness.differences(ran, merged(folder, order, options, names).stdout)]
        samples = [it for shard in found for it in placed.sampled(shard.scanned())]
        by_size = placed.cut_places(samples, 4)
        if sorted(set(by_size)) != by_size or len(by_size) > 3 or not set(by_size) <= set(places):
            faults.append(f"cuts by size: {by_size}")
        tally.check(f"shards_scratch: ranges of shards {seed}", faults)


def packed_parts(folder, parts, path, header=2):
    """Writes parts as `shards` does, and puts them into one file."""
    place = folder / "parts"
    place.mkdir()
    for number, part in enumerate(parts):
        pathlib.Path(packed.part_in(str(place), number)).write_bytes(part)
    packed.pack(str(place), len(parts), (7, header), str(path))
    place.rmdir()


def run_packed(tally):
    """Parts in one file: each comes back as it was, one header above those of several ranges; one that was given back is told."""
    big = b"a\n" + b"12345678\n" * 300_000
    for title, header, parts, wanted in (
        ("small parts", 2, [b"a\n", b"a\n1\n", b"a\n2\n3\n"], [b"a\n", b"a\n1\n1\n", b"a\n2\n3\n2\n3\n"]),
        ("a name with a byte order mark", 5, [MARK + b"b\n5\n"], [MARK + MARK + b"b\n5\n5\n"]),
        ("a large part", 2, [big], [big + big[2:]]),
    ):
        with harness.folder() as name:
            folder = pathlib.Path(name)
            paths = [str(folder / f"{number}") for number in range(2)]
            for path in paths:
                packed_parts(folder, parts, path, header)
            faults = [] if packed.told_of(paths[0], len(parts)) == (7, header) else ["another number of rows"]
            for number, text in enumerate(wanted):
                got = b"".join(packed.rows_of_part(paths, len(parts), number))
                faults += [] if got == text else [f"part {number}: {harness.shorten(got)}, and not {harness.shorten(text)}"]
            tally.check(f"shards_scratch: {title}", faults)
    with harness.folder() as name:
        folder = pathlib.Path(name)
        packed_parts(folder, [b"a\n1\n", big, b"a\n2\n"], folder / "0")
        packed.give_back(str(folder / "0"), 3, 1)
        faults = []
        for number in (0, 2):
            got = b"".join(packed.rows_of_part([str(folder / "0")], 3, number))
            faults += [] if len(got) == 4 else [f"part {number} is another one"]
        with open(folder / "0", "r+b") as file:
            file.seek(10)
            file.write(b"\0" * 5)
        with contextlib.suppress(FileNotFoundError):
            list(packed.rows_of_part([str(folder / "0")], 3, 1))
            faults.append("a part that isn't as it was is taken")
        tally.check("shards_scratch: a part that was given back", faults)


def run_fed(tally):
    """Programs that read runs of bytes: all of them, none, or not to the end; and a file that is shorter than it was."""
    with harness.folder() as name:
        folder = pathlib.Path(name)
        text = b"".join(b"%d\n" % number for number in range(400_000))
        (folder / "text").write_bytes(text)
        path, size = str(folder / "text"), len(text)
        inputs = [(path, [(0, 2), (size - 4, size)]), (path, [(0, size)]), (path, []), (path, [(5, 5)])]
        for line, wanted, status in (
            (["cat"], text[:2] + text[-4:] + text, 0),
            (["sh", "-c", 'head -c 1 "$2" >&2; cat "$3" "$4"; exit 3', "sh"], b"", 3),
            (["sh", "-c", "kill -9 $$", "sh"], b"", -9),
        ):
            ran = feeding.run_program(line, fed(inputs), stdin=subprocess.DEVNULL, stdout=subprocess.PIPE) if line != ["cat"] else to_file(folder, line, inputs)
            tally.check(f"shards_scratch: {line} is fed", harness.differences(harness.Ran(ran.returncode, ran.stdout, b""), wanted, b"", status))
        try:
            to_file(folder, ["cat"], [(path, [(0, size + 1)])])
            tally.check("shards_scratch: a file that has lost bytes", ["it is fed"])
        except OSError as error:
            tally.check("shards_scratch: a file that has lost bytes", [] if "has lost bytes" in str(error) else [repr(error)])
        many = [(path, [(number, number + 2)]) for number in range(1_100)]
        ran = to_file(folder, ["cat"], many)
        tally.check("shards_scratch: as many inputs as there can be parts", harness.differences(harness.Ran(ran.returncode, ran.stdout, b""), b"".join(text[number : number + 2] for number in range(1_100))))
        ran = feeding.run_program(["sh", "-c", 'printf %s "$1" | tr -d 0-9', "sh"], fed([(path, [])], "--left="), stdin=subprocess.DEVNULL, stdout=subprocess.PIPE)
        tally.check("shards_scratch: what stands before a name", harness.differences(harness.Ran(ran.returncode, ran.stdout, b""), b"--left=/dev/fd/"))


def fed(inputs, before=""):
    """Inputs that are stretches of files, with a text before the name of each."""
    return [(before, feeding.bytes_of(*it)) for it in inputs]


def to_file(folder, line, inputs):
    """Runs a program on runs of bytes, with what it writes in a file."""
    with open(folder / "written", "w+b") as output:
        ran = feeding.run_program(line, fed(inputs), stdin=subprocess.DEVNULL, stdout=output)
        output.seek(0)
        return subprocess.CompletedProcess(line, ran.returncode, output.read(), ran.stderr)


def run_appended(tally):
    """A file behind others: copied by the system, by it in part, or not by it; and where there is no room for it."""
    copied, text = os.copy_file_range, bytes(range(256)) * 20_000

    def in_part(source, target, most):
        return 0 if os.lseek(source, 0, os.SEEK_CUR) else copied(source, target, min(most, 1_000))

    def refused(*_):
        raise OSError(errno.EXDEV, os.strerror(errno.EXDEV))

    for title, does in (("by the system", copied), ("by the system in part", in_part), ("not by the system", refused)):
        with harness.folder() as name, mock.patch.object(os, "copy_file_range", does):
            folder = pathlib.Path(name)
            (folder / "text").write_bytes(text)
            with open(folder / "whole", "wb") as whole:
                whole.write(b"first")
                for _ in range(3):
                    making.append(str(folder / "text"), whole)
            tally.check(f"shards_scratch: a file is copied {title}", [] if (folder / "whole").read_bytes() == b"first" + text * 3 else ["it is another one"])
    with harness.folder() as name:
        (pathlib.Path(name) / "text").write_bytes(text)
        number = None
        try:
            with open("/dev/full", "wb") as whole:
                making.append(f"{name}/text", whole)
        except OSError as error:
            number = error.errno
        tally.check("shards_scratch: a file is copied to a full device", [] if number == errno.ENOSPC else [f"it ends by {number}"])


def run_all(tally):
    run_packed(tally)
    run_fed(tally)
    run_appended(tally)
    harness.side_by_side(tally, [lambda own, seed=seed: run_ranges(seed, own) for seed in range(120)])
    run_files(tally)
