"""Faults that `rows` has to report: wrong programs, and stored scripts that say something else."""

import os
from typing import Optional

from driver.rows import run_all
from driver.scripts import Script, stored
from driver.tally import Tally
from planted.faults import Fault, Scene, script_of, wrapped

LIMIT = 20
SHORT_LIMIT = 0.3

# Name, what is told, the row or example, and the wrong program.
PROGRAMS = [
    ("a reply is changed", "first-path: reply 2: wanted .*, found b'Rights 00010", "first-path",
     '"$program" "$@" | sed s/^rights/Rights/'),
    ("a reply is left out", "first-path: reply 4: wanted b'rights none', found b''", "first-path",
     '"$program" "$@" | sed "\\$d"'),
    ("a reply is written twice", "first-path: reply 2: ", "first-path",
     '"$program" "$@" | sed p'),
    ("the last line feed is missing", "first-path: reply 5: wanted b'', found b'.no more.'",
     "first-path", 'printf %s "$("$program" "$@")"'),
    ("nothing is written", "first-path: reply 1: ", "first-path", '"$program" "$@" >/dev/null'),
    ("another status", "first-path: status wanted 0, found 3", "first-path",
     '"$program" "$@"; exit 3'),
    ("a status that is lost", "faulty_places_too_small: status wanted 1, found 0",
     "faulty_places_too_small", '"$program" "$@"; exit 0'),
    ("an end by a signal", "first-path: status wanted 0, found -11", "first-path",
     '"$program" "$@"; kill -SEGV $$'),
    ("no end", "first-path: .*status wanted 0, found None", "first-path", "exec sleep 20"),
    ("errors where there are none", "first-path: errors wanted b'', found b'warning", "first-path",
     'echo warning >&2; exec "$program" "$@"'),
    ("other errors", "five_processors: errors wanted b'run fault count.*found b'run fault node",
     "threaded_exchange_five_processors",
     '"$program" "$@" 2>/dev/null; status=$?; echo run fault node >&2; exit $status'),
    ("errors among the output", "five_processors: reply 1: .*; errors wanted",
     "threaded_exchange_five_processors", 'exec "$program" "$@" 2>&1'),
    ("arguments that are not looked at", "threaded_exchange: ", "threaded_exchange",
     'exec "$program" run'),
    ("input that is not read to its end", "first-path: reply 2: wanted .*, found b''", "first-path",
     'head -n 6 | "$program" "$@"'),
]

# Name, what is told, the row, and what stands in its files in place of what stood there.
STORED = [
    ("a stored output with another byte", "first_path: reply 2: ", "first_path", {
        ".out": b"records 1.0\nrights 00011:rw-\n"}),
    ("a stored output that is missing", "first_path: reply 1: ", "first_path", {".out": None}),
    ("a stored status", "first_path: status wanted 1, found 0", "first_path", {".status": b"1\n"}),
    ("a stored status that is missing", "too_small: status wanted 0, found 1",
     "faulty_places_too_small", {".status": None}),
    ("stored arguments", "threaded_exchange: ", "threaded_exchange", {".args": b"run\n"}),
    ("stored arguments that are missing", "threaded_exchange: ", "threaded_exchange", {
        ".args": None}),
    ("a stored script", "first_path: ", "first_path", {".l4": b"processors 1\n"}),
]


def rows_faults() -> list[Fault]:
    names = sorted({name for _, _, name, _ in PROGRAMS + STORED})
    as_it_is = Fault("rows", "as it is", None, lambda scene: run_all(
        "rows", scene.program, [script_of(name) for name in names]))
    stored_as_it_is = Fault("rows", "stored as it is", None, lambda scene: run_stored(
        scene, "as it is", "first_path", {}))
    return ([as_it_is, stored_as_it_is]
            + [by_program(*row) for row in PROGRAMS] + [by_file(*row) for row in STORED])


def by_program(name: str, told: str, script: str, text: str) -> Fault:
    """A wrong program that runs one script."""
    limit = SHORT_LIMIT if name == "no end" else LIMIT
    return Fault("rows", name, told, lambda scene: run_all(
        "rows", wrapped(scene, "rows " + name, text), [script_of(script)], limit))


def by_file(name: str, told: str, script: str, changed: dict[str, Optional[bytes]]) -> Fault:
    """A row of which some files say something else."""
    return Fault("rows", name, told, lambda scene: run_stored(scene, name, script, changed))


def run_stored(scene: Scene, name: str, script: str, changed: dict) -> Tally:
    """Stores the row in a folder of its own, with what is changed, and runs what is read there."""
    folder = os.path.join(scene.folder, name.replace(" ", "-"))
    os.mkdir(folder)
    for ending, content in {**files_of(script_of(script)), **changed}.items():
        if content is not None:
            with open(os.path.join(folder, script + ending), "wb") as file:
                file.write(content)
    return run_all("rows", scene.program, list(stored(folder)), LIMIT)


def files_of(script: Script) -> dict[str, bytes]:
    """The files of a row, by their endings."""
    return {
        ".l4": script.source,
        ".out": script.output,
        ".status": b"%d\n" % script.status,
        ".args": " ".join(script.arguments).encode(),
    }
