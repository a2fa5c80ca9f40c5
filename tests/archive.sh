#!/usr/bin/env bash
# Proves the library for C and builds its archive, over the libraries that stand proved in
# crates/*/out/rlib, as `rt ci` leaves them: nothing below it is proved again. `rt lib` would do so,
# since it takes no library that `rt ci` proved. Use: tests/archive.sh FILE, where FILE is the
# archive to be written.
set -euo pipefail
cd "$(dirname "$0")/.."
top=$PWD
archive=$(realpath -m -- "$1")
kit=$(dirname "$(rt doc)")

# The libraries that crates.txt names for a crate.
libraries_of() {
    sed -nE "s/^$1( [^:]*)?://p" crates.txt
}

# All that a crate stands on in this workspace, itself left out, each once.
below() {
    local name
    for name in $(libraries_of "$1"); do
        [[ -d crates/$name ]] || continue
        echo "$name"
        below "$name"
    done | sort -u
}

words=(--crate-name mapdb_c src/lib.rt --extern "std=$kit/rlibs/std.rlib")
for name in $(libraries_of mapdb_c); do
    rlib=$kit/rlibs/$name.rlib
    [[ ! -d crates/$name ]] || rlib=$top/crates/$name/out/rlib/$name.rlib
    words+=(--extern "$name=$rlib")
done
words+=(-L "dependency=$kit/rlibs")
for name in $(below mapdb_c); do
    words+=(-L "dependency=$top/crates/$name/out/rlib")
done
words+=(--antt-project "$kit/rattle/logic/antt-project.json" --logic-built "$kit/logic_built")
words+=(--jobs "${RT_JOBS:-1}" --links mapdb_c= --crate-type staticlib)
words+=(--toolchain "$kit/toolchain" --backend llvm -o "$archive")

log=$(mktemp)
trap 'rm -f "$log"' EXIT
cd crates/mapdb_c
if ! "$kit/bin/rattle" build "${words[@]}" >"$log" 2>&1; then
    tail -n 20 "$log"
    exit 1
fi
