"""The faults that end a run: their lines and statuses."""

# The status of each fault by its number, as the table of docs/user/specification.md has it.
STATUS_OF = {**{n: 3 for n in range(1, 11)}, **{n: 4 for n in range(11, 18)}, 18: 5, 19: 6, 20: 6, **{n: 3 for n in range(21, 29)}, 30: 7, 31: 3, 32: 4, 33: 4, 34: 2, 35: 4}


class Fault(Exception):
    """A fault with its number, and its line without the program's name before it."""

    def __init__(self, number, name, *details):
        super().__init__(" ".join([f"E{number}", name, *map(str, details)]))
        self.status = STATUS_OF[number]


class BadLine(Exception):
    """A fault of the command line, status 2: its whole line, or None where the text is clap's own."""

    def __init__(self, line=None):
        super().__init__(line)
        self.line = line
        self.status = 2


class Help(Exception):
    """The words ask for help."""
