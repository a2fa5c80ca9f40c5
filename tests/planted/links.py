"""Faults that `links` has to report: a capacity that is not handed on."""

from typing import Optional

from driver.links import run_links
from driver.program import Outcome, Program
from planted.changed import Bare
from planted.faults import Fault


class Fixed(Program):
    """The program at a path, which is given this capacity in place of the one that is asked for."""

    def __init__(self, path: str, capacity: str):
        super().__init__(path)
        self.capacity = capacity

    def run(self, arguments: list[str], source: bytes = b"", limit: float = 60,
            added: Optional[dict] = None, **streams) -> Outcome:
        return super().run(arguments[:2] + [self.capacity], source, limit, added, **streams)


def links_faults() -> list[Fault]:
    return [
        Fault("links", "as it is", None, lambda scene: run_links(scene.program, scene.interposer)),
        Fault("links", "links of one message", "a capacity of 2: .* 0 bytes more",
              lambda scene: run_links(Fixed(scene.program.path, "1"), scene.interposer)),
        Fault("links", "links of the most messages", "a capacity of 2: .* 0 bytes more",
              lambda scene: run_links(Fixed(scene.program.path, "1024"), scene.interposer)),
        Fault("links", "bytes that are not counted", "a capacity of 2: .* 0 bytes more",
              lambda scene: run_links(Bare(scene.program.path), scene.interposer)),
    ]
