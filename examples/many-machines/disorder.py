"""A broker's worst: messages that are held back, exchanged, and given again."""

import random

from broker import Message

AGAIN = 0.3


class Disorder:
    """Messages that came and are not taken yet, and how they were taken so far."""

    def __init__(self, seed: int):
        self.random = random.Random(seed)
        self.waiting: list[Message] = []
        self.seen: set[int] = set()
        self.taken = 0
        self.again = 0
        self.late = 0

    def some(self, came: list[Message]) -> list[Message]:
        """Some of what came now or before, in any order. Some of these will be given again."""
        self.waiting += came
        self.random.shuffle(self.waiting)
        count = self.random.randint(0, len(self.waiting))
        given = self.waiting[:count]
        repeated = [message for message in given if self.random.random() < AGAIN]
        self.waiting = self.waiting[count:] + repeated
        return self.counted(given)

    def rest(self, came: list[Message]) -> list[Message]:
        """All that is left, in any order."""
        given = self.waiting + came
        self.random.shuffle(given)
        self.waiting = []
        return self.counted(given)

    def counted(self, given: list[Message]) -> list[Message]:
        """The same messages, once they are counted."""
        for message in given:
            is_again = message.place in self.seen
            self.taken += 1
            self.again += is_again
            self.late += not is_again and message.place < max(self.seen, default=0)
            self.seen.add(message.place)
        return given

    def told(self) -> str:
        """How many were taken so far, how many of these again, and how many behind a later one."""
        return "%d messages, %d again, %d late" % (self.taken, self.again, self.late)
