"""The two commands of Redis that a machine needs, spoken over a socket: XADD and XREAD."""

import socket
from typing import NamedTuple

READ_AT_ONCE = 100
SECONDS_FOR_A_REPLY = 20


class Message(NamedTuple):
    """An entry of the stream: its place there, counted from 0, and what it says."""

    place: int
    text: str


class BrokerError(Exception):
    """The broker refused a command, or went away."""


class Broker:
    """A connection to a Redis server, and how far its stream was read."""

    def __init__(self, port: int, stream: str = "operations"):
        self.socket = socket.create_connection(("127.0.0.1", port), SECONDS_FOR_A_REPLY)
        self.replies = self.socket.makefile("rb")
        self.stream = stream
        self.last_entry = "0"
        self.count = 0

    def publish(self, text: str) -> None:
        """Appends a message to the stream."""
        self.ask("XADD", self.stream, "*", "snapshot", text)

    def read(self, milliseconds: int) -> list[Message]:
        """The messages behind those that were read; waits so long where there is none yet."""
        blocking = ["BLOCK", str(milliseconds)] if milliseconds else []
        where = ["STREAMS", self.stream, self.last_entry]
        found = self.ask("XREAD", "COUNT", str(READ_AT_ONCE), *blocking, *where)
        entries = found[0][1] if found else []
        messages = [
            Message(place, fields[1].decode())
            for place, (_, fields) in enumerate(entries, self.count)
        ]
        if entries:
            self.last_entry = entries[-1][0].decode()
            self.count += len(entries)
        return messages

    def ask(self, *words: str):
        """Sends a command, and answers what the broker replies."""
        encoded = [word.encode() for word in words]
        parts = [b"$%d\r\n%s\r\n" % (len(word), word) for word in encoded]
        self.socket.sendall(b"*%d\r\n" % len(parts) + b"".join(parts))
        return self.reply()

    def reply(self):
        """One reply: a text, a number, a list of replies, or None."""
        line = self.replies.readline()
        if not line.endswith(b"\r\n"):
            raise BrokerError("the broker went away")
        kind, rest = line[:1], line[1:-2]
        if kind == b"-":
            raise BrokerError(rest.decode())
        if kind == b"+":
            return rest
        count = int(rest)
        if kind == b":":
            return count
        if count < 0:
            return None
        if kind == b"*":
            return [self.reply() for _ in range(count)]
        text = self.replies.read(count + 2)
        if len(text) != count + 2:
            raise BrokerError("the broker went away")
        return text[:-2]
