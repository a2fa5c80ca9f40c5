"""One processor's copy: `l4map run` behind a pipe, and the rows of its snapshots."""

import json
import subprocess

ROWS = ("cuts", "ended", "records")
EMPTY = '{"cuts":[],"ended":[],"records":[],"version":3}'


class DatabaseError(Exception):
    """The program ended, or did not take what came."""


class Database:
    """A run of the program. It has a copy for each processor, and only this processor's is used."""

    def __init__(self, program: str, processors: int, own: int):
        self.own = own
        self.run = subprocess.Popen(
            [program, "run"], stdin=subprocess.PIPE, stdout=subprocess.PIPE, text=True
        )
        self.write("processors %d" % processors)

    def write(self, line: str) -> None:
        """Gives the program a line."""
        self.run.stdin.write(line + "\n")
        self.run.stdin.flush()

    def ask(self, line: str) -> str:
        """The reply to a line that has one line of reply."""
        self.write(line)
        reply = self.run.stdout.readline().rstrip("\n")
        if not reply or reply.startswith("line "):
            raise DatabaseError("%s: %s" % (line, reply or "the program ended"))
        return reply

    def shows(self, space: str, address: str) -> bool:
        """Whether the copy serves this page from any frame."""
        return self.ask("served %d %s %s" % (self.own, space, address)) != "served none"

    def take(self, text: str) -> int:
        """Takes a snapshot into the copy, and tells how many of its operations were new."""
        word, *rest = self.ask("load %d %s" % (self.own, text)).split()
        if word != "taken":
            raise DatabaseError("%s: %s" % (" ".join([word] + rest), text))
        return int(rest[0])

    def snapshot(self) -> str:
        """All that the copy holds, as one line."""
        return self.ask("save %d" % self.own).removeprefix("snapshot ")

    def close(self) -> None:
        """Ends the program, by the end of its input."""
        self.run.stdin.close()
        self.run.wait()


def new_rows(before: str, after: str) -> str:
    """The rows that the later snapshot has and the earlier has not, as a snapshot. What is new in
    the later one stands in such rows, and any rows are a snapshot: each is an operation by itself.
    """
    old, new = json.loads(before), json.loads(after)
    new.update({key: [row for row in new[key] if row not in old[key]] for key in ROWS})
    return json.dumps(new, separators=(",", ":"))


def row_count(snapshot: str) -> int:
    """How many rows a snapshot has."""
    found = json.loads(snapshot)
    return sum(len(found[key]) for key in ROWS)
