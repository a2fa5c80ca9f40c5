#!/bin/sh
# Builds the archive, compiles the header, the examples and the tests with all warnings as errors,
# and runs them: as C99, C17 and C++17 (the header also as C++98), under the address and
# undefined-behaviour sanitizers, under valgrind where it is there, from installations where make is
# there, and by scripts against l4map. It needs gcc, g++ and nm; what is left out since something
# else is not there is told as skipped. The last line is 'N passed, M failed'.
# Use: tests/c/run.sh, anywhere; with an archive that is built: ARCHIVE=FILE tests/c/run.sh; with
# more random scripts: RANDOM_SCRIPTS=10000 tests/c/run.sh
set -u
top=$(CDPATH= cd -- "$(dirname -- "$0")/../.." && pwd)
# The caller's names are of the caller's folder.
[ -z "${ARCHIVE:-}" ] || ARCHIVE=$(realpath -m -- "$ARCHIVE")
tool=$(realpath -m -- "${L4MAP:-$top/crates/l4map/out/l4map}")
cd "$top" || exit 2
build=$(mktemp -d)
trap 'rm -rf "$build"' EXIT
trap 'exit 130' INT
trap 'exit 143' TERM
passed=0
failed=0

# Tries a command, and tells of one that fails.
try() {
    name=$1
    shift
    if "$@" >"$build/log" 2>&1; then
        passed=$((passed + 1))
    else
        failed=$((failed + 1))
        echo "failed: $name"
        tail -n 20 "$build/log"
    fi
}

done_with() {
    echo "$passed passed, $failed failed"
    [ "$failed" -eq 0 ]
    exit
}

skipped() {
    echo "skipped: $1, since $2 is not there"
}

has() {
    command -v "$1" >/dev/null 2>&1
}

# The crate for Rust is of the edition of 2024, which older ones do not know.
has_cargo() {
    has cargo && cargo --version 2>/dev/null |
        awk '{ split($2, part, "."); good = part[1] > 1 || part[2] >= 85 } END { exit !good }'
}

if [ -z "${ARCHIVE:-}" ]; then
    ARCHIVE=$top/crates/mapdb_c/out/libmapdb_c.a
    # It tells by itself how far it is.
    if ! ./prove mapdb_c; then
        failed=1
        done_with
    fi
fi
# It gets a name and a place that make, cargo and a linker look for.
cp -- "$ARCHIVE" "$build/libmapdb_c.a" || exit 2
ARCHIVE=$build/libmapdb_c.a

# What the archive wants of its surroundings is what the header says, and no more.
wanted() {
    nm "$ARCHIVE" | awk '$1 == "U" { print $2 }' | sort -u >"$build/wanted"
    nm "$ARCHIVE" | awk 'NF == 3 && $2 != "U" { print $3 }' | sort -u >"$build/there"
    comm -23 "$build/wanted" "$build/there" |
        grep -vxE 'memcpy|memmove|memset|rattle_(alloc|realloc|dealloc)'
}
# Each call of the header is in the archive, and each export of the archive is in the header.
declared() {
    grep -oE 'mapdb_[a-z_]+\(' include/mapdb.h | tr -d '(' | grep -vx mapdb_status_name |
        sort -u >"$build/declared"
    nm "$ARCHIVE" | awk '$2 == "T" { print $3 }' | grep '^mapdb_' | sort -u >"$build/exported"
    diff "$build/declared" "$build/exported"
}
no_more_wanted() { ! wanted | grep .; }
try "what the archive wants" no_more_wanted
try "the header's calls are those of the archive" declared

warnings="-Wall -Wextra -Wpedantic -Wshadow -Werror"
c_files="c/mapdb_heap.c examples/c/smallest.c examples/c/two_processors.c tests/c/calls.c
    tests/c/queries.c tests/c/counting_heap.c tests/c/memory.c tests/c/orders.c tests/c/script.c
    tests/c/stack.c bench/c/calls.c"
for compiler in gcc clang; do
    has $compiler || { skipped "warnings of $compiler" $compiler; continue; }
    for file in $c_files; do
        for standard in c99 c17; do
            try "$compiler $standard $file" $compiler -std=$standard $warnings -Wstrict-prototypes \
                -Wconversion -Wno-sign-conversion -O2 -Iinclude -fsyntax-only "$file"
        done
        try "$compiler c++17 $file" $compiler -x c++ -std=c++17 $warnings -O2 -Iinclude \
            -fsyntax-only "$file"
    done
    echo '#include "mapdb.h"' >"$build/header.c"
    try "$compiler freestanding header" $compiler -std=c99 -ffreestanding $warnings -Iinclude \
        -fsyntax-only "$build/header.c"
    try "$compiler header in C++98" $compiler -x c++ -std=c++98 $warnings -Iinclude \
        -fsyntax-only "$build/header.c"
done

# The same programs in C and in C++, plain and under the sanitizers.
compiled() {
    out=$1
    shift
    try "builds $out" "$@" -Iinclude -pthread -o "$build/$out" "$ARCHIVE"
}
# What README shows of the smallest example.
smallest_says() {
    [ "$("$1")" = "frame 0x10, rights 6" ]
}
sanitized="-g -O1 -fsanitize=address,undefined -fno-sanitize-recover=all"
for way in plain sanitized; do
    if [ $way = plain ]; then flags=-O2; else flags=$sanitized; fi
    # The flags are words.
    # shellcheck disable=SC2086
    {
        compiled smallest_$way gcc $flags examples/c/smallest.c c/mapdb_heap.c
        compiled two_processors_$way gcc $flags examples/c/two_processors.c c/mapdb_heap.c
        compiled calls_$way gcc $flags tests/c/calls.c tests/c/counting_heap.c
        compiled queries_$way gcc $flags tests/c/queries.c tests/c/counting_heap.c
        compiled memory_$way gcc $flags tests/c/memory.c tests/c/counting_heap.c
        compiled orders_$way gcc $flags tests/c/orders.c c/mapdb_heap.c
        compiled script_$way gcc $flags tests/c/script.c c/mapdb_heap.c
        compiled heap_cpp_$way g++ -x c++ $flags examples/c/smallest.c c/mapdb_heap.c -x none
        try "the heap, $way" gcc $flags -Iinclude -c -o "$build/heap_$way.o" tests/c/counting_heap.c
        for part in calls queries; do
            compiled "${part}_cpp_$way" g++ -std=c++17 $flags -x c++ "tests/c/$part.c" \
                -x none "$build/heap_$way.o"
        done
    }
    try "smallest, $way" smallest_says "$build/smallest_$way"
    try "the heap in C++, $way" smallest_says "$build/heap_cpp_$way"
    for turn in 1 2 3 4 5; do
        try "two processors, $way, turn $turn" "$build/two_processors_$way"
    done
    try "calls, $way" "$build/calls_$way"
    try "queries, $way" "$build/queries_$way"
    try "memory, $way" "$build/memory_$way"
    try "orders, $way" "$build/orders_$way"
    try "calls in C++, $way" "$build/calls_cpp_$way"
    try "queries in C++, $way" "$build/queries_cpp_$way"
done

# How much of a stack calls touch, where nothing but the library's code is between.
compiled stack gcc -O2 tests/c/stack.c c/mapdb_heap.c
try "calls keep within the stack that is said" "$build/stack"

# What calls cost is measured: that it ends well is asked, and no cost is.
compiled costs gcc -O2 bench/c/calls.c c/mapdb_heap.c
try "calls are timed" "$build/costs"

# A program with no C library at all.
freestanding() {
    gcc -std=c17 -O2 $warnings -ffreestanding -fno-builtin -fno-stack-protector -nostdlib -static \
        -Iinclude -o "$build/freestanding" tests/c/freestanding.c "$ARCHIVE" &&
        "$build/freestanding"
}
try "freestanding" freestanding

# What is installed says where it is, though another folder was named before, and is enough to build
# and run a program.
installed() {
    for folder in first second; do
        there=$build/$folder
        make -s -o "$ARCHIVE" ARCHIVE="$ARCHIVE" BUILT="$build/made" DESTDIR= PREFIX="$there" \
            install || return 1
        for part in mapdb mapdb-heap; do
            grep -qx "prefix=$there" "$there/lib/pkgconfig/$part.pc" || return 1
        done
        gcc -O2 -I"$there/include" examples/c/smallest.c -L"$there/lib" -lmapdb_c -lmapdb_heap \
            -o "$build/installed_$folder" && "$build/installed_$folder" || return 1
    done
}
# What pkg-config says of an installation is what a compiler needs.
found_by_package() {
    words=$(PKG_CONFIG_PATH=$build/second/lib/pkgconfig pkg-config --cflags --libs mapdb-heap) &&
        # They are words.
        # shellcheck disable=SC2086
        gcc -O2 examples/c/smallest.c $words -o "$build/packaged" &&
        smallest_says "$build/packaged"
}
if has make; then
    try "installations" installed
    if has pkg-config; then
        try "an installation that pkg-config finds" found_by_package
    else
        skipped "what pkg-config says of an installation" pkg-config
    fi
else
    skipped "installations" make
fi

if ! has valgrind; then
    skipped "all runs under it" valgrind
else
    for program in smallest_plain two_processors_plain calls_plain queries_plain memory_plain \
        orders_plain; do
        try "$program under valgrind" valgrind -q --leak-check=full \
            --errors-for-leak-kinds=all --error-exitcode=9 "$build/$program"
    done
fi

# Scripts: the stored replies of the examples, and where l4map is built its replies to each script
# of tests/c/scripts.
replies() {
    "$build/script_sanitized" <"$1" >"$build/replies" && diff "$2" "$build/replies"
}
for script in examples/*.l4; do
    case $script in */threads.l4) continue ;; esac
    grep -q '^tree' "$script" && continue
    try "$script" replies "$script" "${script%.l4}.out"
done
[ -x "$tool" ] || skipped "comparisons with l4map" "$tool"
for script in tests/c/scripts/*.l4; do
    try "$script" replies "$script" "${script%.l4}.out"
    if [ -x "$tool" ]; then
        "$tool" run <"$script" >"$build/tool"
        try "$script as l4map runs it" replies "$script" "$build/tool"
    fi
done

if ! has python3; then
    skipped "random scripts" python3
elif [ -x "$tool" ]; then
    try "random scripts as l4map runs them" python3 tests/c/compare.py \
        --driver "$build/script_plain" --program "$tool" --count "${RANDOM_SCRIPTS:-1000}"
fi

if ! has_cargo; then
    skipped "the crate for Rust" "a cargo of 1.85 or later"
else
    rust() (
        cd bindings/rust &&
            MAPDB_ARCHIVE=$(dirname "$ARCHIVE") CARGO_TARGET_DIR=$build/rust \
                cargo test --offline -q
    )
    try "the crate for Rust" rust
fi

done_with
