#!/usr/bin/env bash
# Runs the examples that are more than a script: copies on several machines
# (examples/many-machines), and the check of a kernel's log (examples/checking); and the commands
# that texts show; and whether all files name one version. The program is L4MAP, or
# crates/l4map/out/l4map. The last line is `N passed, M failed`; the status is 0 only where none
# failed.
set -uo pipefail
top=$(CDPATH= cd -- "$(dirname -- "$0")/.." && pwd)
L4MAP=$(realpath -m -- "${L4MAP:-$top/crates/l4map/out/l4map}")
export L4MAP PYTHONDONTWRITEBYTECODE=1
checking=$top/examples/checking
machines=$top/examples/many-machines

if ! [[ -x $L4MAP ]]; then
    echo "$L4MAP is not there: ./l4map builds it, and L4MAP names another"
    echo "0 passed, 1 failed"
    exit 1
fi
folder=$(mktemp -d)
trap 'rm -rf "$folder"' EXIT
passed=0
failed=0

# Counts a test by its status, and shows what it told where it failed.
count() {
    if [[ $2 -eq 0 ]]; then
        passed=$((passed + 1))
    else
        failed=$((failed + 1))
        echo "failed: $1"
        cat "$folder/told"
    fi
}

# What the command behind -- writes, and its status behind that, are these lines.
expect() {
    local name=$1 lines=()
    shift
    while [[ $1 != -- ]]; do
        lines+=("$1")
        shift
    done
    shift
    "$@" >"$folder/found" 2>&1
    echo "status $?" >>"$folder/found"
    printf '%s\n' "${lines[@]}" | diff - "$folder/found" >"$folder/told"
    count "$name" $?
}

# The output that the README shows, and one that was written, without their numbers.
is_shown() {
    sed -n '/many-machines\/run.sh$/,/^$/{s/^    //p}' "$machines/README.md" |
        sed '1,2d;s/[0-9]\+/N/g' >"$folder/shown"
    sed '1d;s/[0-9]\+/N/g' "$1" | diff "$folder/shown" - >"$folder/told"
}

many_machines() {
    "$machines/run.sh" >"$folder/told" 2>&1
    local status=$?
    cp "$folder/told" "$folder/machines"
    if [[ $status -eq 77 ]]; then
        cat "$folder/told"
        return
    fi
    count "many-machines/run.sh" "$status"
    is_shown "$folder/machines"
    count "many-machines: the output is of the form that README.md shows" $?
}

log_checking() {
    "$checking/toy_kernel.py" --bug | diff "$checking/kernel.log" - >"$folder/told"
    count "checking: the toy kernel writes the stored log" $?
    "$checking/toy_kernel.py" >"$folder/good.log"
    expect "checking: the planted fault" \
        "line 38: served 1 2 80000" "kernel:   served 00010:rw-" "database: served 00010:r--" \
        "processor 1 was last changed by line 34: deliver 1 1" "status 1" \
        -- "$checking/first_difference.py" "$checking/kernel.log"
    expect "checking: without the fault" \
        "no difference: 27 answers compared, 5 of them show less" "status 0" \
        -- "$checking/first_difference.py" "$folder/good.log"
    expect "checking: a page that shows less" \
        "line 13: served 1 1 40000" "kernel:   served none" "database: served 00010:rw-" \
        "processor 1 was last changed by line 11: deliver 0 1" "status 1" \
        -- "$checking/first_difference.py" --exact "$folder/good.log"
    sed '26s/unmap/unmpa/' "$folder/good.log" >"$folder/faulty.log"
    expect "checking: a line that is none" \
        "the log is no script: line 26 fault unknown" "status 2" \
        -- "$checking/first_difference.py" "$folder/faulty.log"
    sed '27s/1/2/' "$folder/good.log" >"$folder/count.log"
    expect "checking: another count" \
        "line 26: unmap 0 1 40000/12:-w- flush" "kernel:   revocations 2" \
        "database: revocations 1" \
        "processor 0 was last changed by line 4: map 0 0 11000/12:rw- 0 1 41000/12" "status 1" \
        -- "$checking/first_difference.py" "$folder/count.log"
    sed 's/^#=/  #=/' "$checking/kernel.log" >"$folder/indented.log"
    expect "checking: answers behind blanks" \
        "line 38: served 1 2 80000" "kernel:   served 00010:rw-" "database: served 00010:r--" \
        "processor 1 was last changed by line 34: deliver 1 1" "status 1" \
        -- "$checking/first_difference.py" "$folder/indented.log"
    expect "checking: a program that answers nothing" \
        "the replay has 0 replies to 27 lines" "status 2" \
        -- env L4MAP="$(type -P true)" "$checking/first_difference.py" "$folder/good.log"
    expect "checking: a folder in place of the program" \
        "[Errno 13] Permission denied: '$folder'" "status 2" \
        -- env L4MAP="$folder" "$checking/first_difference.py" "$folder/good.log"
}

# The version, as each file that has it names it: a line for each.
versions() {
    sed -n 's/^pub const VERSION: &str = "\([^ "]*\).*/\1/p' "$top/crates/mapdb_program/src/help.rt"
    sed -n 's/^#define MAPDB_VERSION "\(.*\)"$/\1/p' "$top/include/mapdb.h"
    sed -n 's/^Version: //p' "$top/mapdb.pc.in"
    sed -n 's/^Version: //p' "$top/mapdb-heap.pc.in"
    sed -n 's/^version = "\(.*\)"$/\1/p' "$top/bindings/rust/Cargo.toml"
    sed -n 's/^\.TH L4MAP .* "l4map \([^"]*\)".*/\1/p' "$top/docs/l4map.1"
}

# Six files name the version, all of them the same.
one_version() {
    versions >"$folder/told"
    [[ $(wc -l <"$folder/told") -eq 6 && $(sort -u "$folder/told" | wc -l) -eq 1 ]]
    count "six files name one version" $?
}

# Each command that a text shows writes what the text shows.
shown() {
    "$top/tests/shown.py" "$top/$1" "$L4MAP" >"$folder/told" 2>&1
    count "$1: what its commands write" $?
}

many_machines
log_checking
shown README.md
shown docs/CHECKING.md
shown docs/PICTURES.md
shown docs/SCRIPT.md
shown examples/many-machines/README.md
one_version
echo "$passed passed, $failed failed"
[[ $failed -eq 0 ]]
