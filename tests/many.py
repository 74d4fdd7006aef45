"""Runs a program many times, by a small program of its own (many.c)."""
import struct
import subprocess

import harness


class Ended(harness.Ran):
    """How a run ended, and the most memory that it held, in KiB."""

    def __init__(self, status, stdout, stderr, memory):
        super().__init__(status, stdout, stderr)
        self.memory = memory


def compiled(folder):
    """Compiles the program that runs others."""
    made = folder / "many"
    subprocess.run(["gcc", "-O2", "-o", made, harness.ROOT / "tests" / "many.c"], check=True)
    return made


def counted(content):
    return struct.pack("=I", len(content)) + content


class Runs:
    """Runs of programs in one folder, one at a time: start one, do something else, and ask how it ended."""

    def __init__(self, runner, folder):
        self.process = subprocess.Popen([runner], cwd=folder, stdin=subprocess.PIPE, stdout=subprocess.PIPE)

    def __enter__(self):
        return self

    def __exit__(self, *_):
        self.process.stdin.close()
        self.process.wait()

    def start(self, words, stdin=b""):
        """Starts a program with these words, as bytes; the first is the program's path."""
        request = struct.pack("=I", len(words)) + b"".join(map(counted, words)) + counted(stdin)
        self.process.stdin.write(request)
        self.process.stdin.flush()

    def take(self, count):
        found = self.process.stdout.read(count)
        if len(found) != count:
            raise RuntimeError("the program that runs others ended")
        return found

    def ended(self):
        """How the program that was started last ended."""
        status, memory, length = struct.unpack("=iII", self.take(12))
        stdout = self.take(length)
        stderr = self.take(struct.unpack("=I", self.take(4))[0])
        return Ended(status, stdout, stderr, memory)

    def run(self, words, stdin=b""):
        self.start(words, stdin)
        return self.ended()
