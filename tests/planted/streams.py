"""Faults that `streams` has to report: streams that fail, and a program that does not say so."""

from driver.program import READ_FAILED, WRITE_FAILED, Outcome
from driver.streams import stream_all
from planted.changed import Asked, Change, Changed, longer, where
from planted.faults import ONE_END, Fault


def in_pieces(asked: Asked, found: Outcome) -> bool:
    """Whether standard output took one byte at a time, and nothing failed."""
    return asked.wants("write_piece") and found.status == 0


def read_failed(asked: Asked, found: Outcome) -> bool:
    return found.status == 3 and asked.wants("read_fail")


def write_failed(asked: Asked, found: Outcome) -> bool:
    return found.status == 3 and asked.wants("write_fail")


def was_interrupted(asked: Asked, found: Outcome) -> bool:
    return found.status == 3 and asked.wants("interrupted")


def took_nothing(asked: Asked, found: Outcome) -> bool:
    return found.status == 3 and asked.wants("write_nothing")


def is_whole(asked: Asked, found: Outcome) -> bool:
    return found.status == 0 and asked.wants("read_fail")


def on_folder(asked: Asked, found: Outcome) -> bool:
    return asked.streams.get("stdin") is not None


def on_full_device(asked: Asked, found: Outcome) -> bool:
    """Whether standard output is the full device, and not a number, as that of a pipe is."""
    return hasattr(asked.streams.get("stdout"), "fileno") and asked.source == b"# nothing\n"


def on_full_device_told(asked: Asked, found: Outcome) -> bool:
    return hasattr(asked.streams.get("stdout"), "fileno") and found.status == 3


def on_closed_pipe(asked: Asked, found: Outcome) -> bool:
    return isinstance(asked.streams.get("stdout"), int) and found.status == 3


# Name, what is told, and the change.
CHANGES = [
    ("what is written behind the first piece is lost", "write_piece': 1}: Outcome.status=0",
     where(in_pieces, output=b"r")),
    ("small pieces are told as a failure", "write_piece': 1}: Outcome.status=3",
     where(in_pieces, status=3, errors=WRITE_FAILED)),
    ("small pieces, and something on the errors", "write_piece': 1}: .*errors=b'slow",
     where(in_pieces, errors=b"slow\n")),
    ("a read that fails is the end of the script", "'read_fail': 1}: Outcome.status=0",
     where(read_failed, status=0, errors=b"")),
    ("a read that fails, told as a write", "'read_fail': 1}: .*write failed",
     where(read_failed, errors=WRITE_FAILED)),
    ("a read that fails, with another status", "'read_fail': 1}: Outcome.status=1",
     where(read_failed, status=1)),
    ("a read that fails, and no front of the whole", "'read_fail': 1}: .*no more",
     longer(read_failed)),
    ("a whole run that is another", "'read_fail': [0-9]*}: Outcome.status=0, .*no more",
     longer(is_whole)),
    ("a write that fails is not told", "'write_fail': 1}: Outcome.status=0",
     where(write_failed, status=0, errors=b"")),
    ("a write that fails, told as a read", "'write_fail': 1}: .*read failed",
     where(write_failed, errors=READ_FAILED)),
    ("a write that fails, and no front of the whole", "'write_fail': 1}: .*no more",
     longer(write_failed)),
    ("a call that is interrupted, and made again", "'interrupted': 1}: Outcome.status=0",
     where(was_interrupted, status=0, errors=b"")),
    ("a stream that takes nothing is not told", "'write_nothing': 1}: Outcome.status=0",
     where(took_nothing, status=0, errors=b"")),
    ("a stream that takes nothing, and an end by a signal", "'write_nothing': 1}: .*status=-6",
     where(took_nothing, status=-6)),
    ("a directory that is read as nothing", "run, a directory as input: Outcome.status=0",
     where(on_folder, status=0, errors=b"")),
    ("a full device that is not told", "a full device: Outcome.status=0",
     where(on_full_device_told, status=0, errors=b"")),
    ("a full device that is told for nothing", "nothing to tell: Outcome.status=3",
     where(on_full_device, status=3, errors=WRITE_FAILED)),
    ("an end by the signal of a pipe", "a pipe that nobody reads: Outcome.status=-13",
     where(on_closed_pipe, status=-13, errors=b"")),
]


def streams_faults() -> list[Fault]:
    as_it_is = Fault("streams", "as it is", None, lambda scene: stream_all(
        scene.program, scene.interposer, [ONE_END], [ONE_END], 1))
    return [as_it_is] + [by_change(*row) for row in CHANGES]


def by_change(name: str, told: str, change: Change) -> Fault:
    """The runs of one script, each of which is changed, and those of the system's failures."""
    return Fault("streams", name, told, lambda scene: stream_all(
        Changed(scene.program.path, change), scene.interposer, [ONE_END], [ONE_END], 1))
