"""What `arrivals` prints for a script: "The program `arrivals`" of docs/user/specification.md.

The rules are read over the parcels that were kept so far, accepted or held: each is asked of the whole collection."""
import re

CLOSE = None
LINE = re.compile(rb"([0-9]+) ([0-9]+) ([0-9]+) (?:(close)|rows((?: [0-9]+)*))")


def parcel(line):
    """(sender, partition, number, rows or CLOSE) of a line; None where it has another form."""
    found = LINE.fullmatch(line)
    if not found:
        return None
    sender, partition, number = (int(digits.lstrip(b"0") or b"0") for digits in found.groups()[:3])
    rows = CLOSE if found[4] else [int(digits.lstrip(b"0") or b"0") for digits in found[5].split()]
    if max([sender, partition, *(rows or [])]) >= 2**32 or number >= 2**64:
        return None
    return sender, partition, number, rows


def lines(script):
    """The lines of a script that aren't empty; a carriage return goes only before a line feed."""
    *ended, last = script.split(b"\n")
    ended = [line[:-1] if line.endswith(b"\r") else line for line in ended]
    return [line for line in [*ended, last] if line]


def next_of(kept):
    """The least number that no kept parcel has."""
    number = 0
    while number in kept:
        number += 1
    return number


class Script:
    """A replay at one partition; `kept` holds each sender's kept parcels by number."""

    def __init__(self, partition, senders, block, gaps):
        self.partition = partition
        self.senders = senders
        self.block = block
        self.gaps = gaps
        self.kept = [{} for _ in range(senders)]

    def answer(self, sender, partition, number, rows):
        """The first of the nine rules that fits; keeps the parcel where it is accepted or held."""
        if partition != self.partition:
            return "refused wrong-partition"
        if sender >= self.senders:
            return "refused unknown-sender"
        if rows is not CLOSE and not 1 <= len(rows) <= self.block:
            return "refused bad-length"
        kept = self.kept[sender]
        awaited = next_of(kept)
        closes = [at for at, of in kept.items() if of is CLOSE]
        if any(at < awaited for at in closes):
            return "refused after-close"
        if number in kept:
            return "refused repeat"
        if any(at < number for at in closes):
            return "refused beyond-close"
        if rows is CLOSE and any(at > number for at in kept):
            return "refused early-close"
        kept[number] = rows
        if number != awaited:
            return "held"
        return f"accepted {next_of(kept) - awaited}"

    def ending(self, sender):
        """The lines of a sender at the end."""
        kept = self.kept[sender]
        awaited = next_of(kept)
        delivered = [kept[at] for at in range(awaited)]
        is_complete = CLOSE in delivered
        rows = "".join(f" {row}" for of in delivered if of is not CLOSE for row in of)
        state = "complete" if is_complete else f"waiting {awaited}"
        found = [f"sender {sender} {state} rows{rows}"]
        held = [at for at in kept if at > awaited]
        if self.gaps and not is_complete and held:
            found.append(f"sender {sender} gap {awaited} {min(held)}")
        return is_complete, found

    def replay(self, script):
        """All that is printed, and whether each line was readable."""
        printed, is_readable = [], True
        for line in lines(script):
            found = parcel(line)
            is_readable = is_readable and found is not None
            printed.append("unreadable" if found is None else self.answer(*found))
        endings = [self.ending(sender) for sender in range(self.senders)]
        printed += [line for _, found in endings for line in found]
        printed.append("complete" if all(is_complete for is_complete, _ in endings) else "incomplete")
        return "".join(f"{line}\n" for line in printed).encode(), is_readable
