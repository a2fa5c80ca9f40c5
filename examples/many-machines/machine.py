#!/usr/bin/env python3
"""One machine: issues commands at its own processor, tells the others, and takes what they tell.

    machine.py NUMBER PORT FOLDER PROGRAM COMMANDS [LAST]

The stream is that of the Redis server at PORT. COMMANDS is a file of script lines for this
processor, and of lines `wait S ADDR`: go on when the copy shows this page. How many of them are
done, and the snapshot, stand in FOLDER/machine-NUMBER.kept; a machine that is started again goes
on from there.
SIGTERM has it take what is left in the stream, save, and end. With LAST it breaks off at the
worst moment: once it has saved that so many commands are done, before it tells the last one.
"""

import os
import signal
import sys
import time

from broker import Broker
from database import EMPTY, Database, new_rows, row_count
from disorder import Disorder

PROCESSORS = 3
SECONDS_BETWEEN_COMMANDS = 0.1
MILLISECONDS_OF_WAITING = 50
SECONDS_OF_LIFE = 60


class Kept:
    """What outlives a machine: how many commands are done, and a snapshot with what they issued."""

    def __init__(self, folder: str, number: int):
        self.folder = folder
        self.path = os.path.join(folder, "machine-%d.kept" % number)

    def read(self) -> tuple[int, str]:
        """What was written last, or where nothing was, the beginning."""
        if not os.path.exists(self.path):
            return 0, EMPTY
        with open(self.path) as file:
            done, snapshot = file.read().splitlines()
        return int(done), snapshot

    def write(self, done: int, snapshot: str) -> None:
        """Replaces what is kept as a whole. It is on the disk when this returns."""
        with open(self.path + ".new", "w") as file:
            file.write("%d\n%s\n" % (done, snapshot))
            file.flush()
            os.fsync(file.fileno())
        os.replace(self.path + ".new", self.path)
        folder = os.open(self.folder, os.O_RDONLY)
        os.fsync(folder)
        os.close(folder)


class Machine:
    """A copy with its commands, its stream and its file."""

    def __init__(
        self, database: Database, broker: Broker, kept: Kept, commands: list[str], last: int
    ):
        self.commands = commands
        self.last = last
        self.database = database
        self.broker = broker
        self.kept = kept
        self.disorder = Disorder(database.own)
        self.nothing_new = 0
        self.stopping = False
        self.has_told_all = False
        self.next_time = time.monotonic()
        self.done, snapshot = kept.read()
        database.take(snapshot)
        if row_count(snapshot):
            broker.publish(snapshot)
        print("ready: commands %d, rows %d" % (self.done, row_count(snapshot)), flush=True)

    def issue(self, line: str) -> None:
        """Does a command, saves, and only then tells the others what it issued."""
        before = self.database.snapshot()
        reply = self.database.ask(line)
        after = self.database.snapshot()
        self.kept.write(self.done + 1, after)
        if self.done + 1 == self.last:
            os._exit(1)
        issued = new_rows(before, after)
        if row_count(issued):
            self.broker.publish(issued)
        print("%s: %s" % (line, reply), flush=True)

    def go_on(self) -> None:
        """Does the next command, if there is one and it is time."""
        if time.monotonic() < self.next_time:
            return
        word, *rest = self.commands[self.done].split()
        if word != "wait":
            self.issue(self.commands[self.done])
        elif not self.database.shows(*rest):
            return
        self.done += 1
        self.next_time = time.monotonic() + SECONDS_BETWEEN_COMMANDS

    def take(self, messages: list) -> None:
        """Takes messages, in the order in which they stand."""
        for message in messages:
            self.nothing_new += self.database.take(message.text) == 0

    def work(self) -> None:
        """Issues and takes until the machine is to stop."""
        while not self.stopping:
            self.take(self.disorder.some(self.broker.read(MILLISECONDS_OF_WAITING)))
            if self.done < len(self.commands):
                self.go_on()
            elif not self.has_told_all:
                self.has_told_all = True
                print("all told", flush=True)

    def finish(self) -> None:
        """Takes what is left in the stream, and saves."""
        while came := self.broker.read(0):
            self.take(self.disorder.some(came))
        self.take(self.disorder.rest([]))
        self.kept.write(self.done, self.database.snapshot())
        took = self.disorder.told()
        print("took %s, %d with nothing new" % (took, self.nothing_new), flush=True)

    def stop(self, *_) -> None:
        """Has the machine stop once it is done with what it does."""
        self.stopping = True


def commands_in(path: str) -> list[str]:
    """The lines of a file that say something."""
    with open(path) as file:
        lines = [line.strip() for line in file]
    return [line for line in lines if line and not line.startswith("#")]


def main() -> None:
    number, port, folder, program, path, *last = sys.argv[1:]
    signal.alarm(SECONDS_OF_LIFE)
    database = Database(program, PROCESSORS, int(number))
    broker = Broker(int(port))
    kept = Kept(folder, int(number))
    machine = Machine(database, broker, kept, commands_in(path), int(last[0]) if last else 0)
    signal.signal(signal.SIGTERM, machine.stop)
    machine.work()
    machine.finish()
    database.close()


if __name__ == "__main__":
    main()
