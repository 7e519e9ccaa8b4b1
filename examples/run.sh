#!/bin/sh
# Links both examples with the static library and compares what they print with unit.txt. Then feeds the library random
# and damaged sheets in buffers of exact size, under whatever finds a wrong access here.
# WALDIMU_ARCHIVE names the library, if it is built already. A step whose tool is missing says so in one line.
set -eu
cd "$(dirname "$0")"
WALDIMU_ARCHIVE=${WALDIMU_ARCHIVE-$(./archive.sh)}
made=../target/examples
mkdir -p "$made"

skip() {
    echo "examples: skipped, $1"
    exit 0
}

has() {
    command -v "$1" >/dev/null 2>&1
}

# compiles SOURCE to NAME among what is made, with further options behind them
compile() {
    source=$1 name=$2
    shift 2
    cc -std=c99 -D_DEFAULT_SOURCE -pedantic -Wall -Wextra -Werror -I../include "$@" -o "$made/$name" "$source" "$WALDIMU_ARCHIVE"
}

prints_as_stored() {
    "$made/$1" >"$made/$1.txt"
    diff unit.txt "$made/$1.txt"
    echo "$2: prints what unit.txt has"
}

[ -n "$WALDIMU_ARCHIVE" ] || skip "there is no static library"
has cc || skip "there is no cc here to link with"

compile unit.c unit-c -O2
prints_as_stored unit-c "example in C"
if has rustc; then
    rustc --edition 2024 -D warnings -O -o "$made/unit-rs" unit.rs -C link-arg="$WALDIMU_ARCHIVE"
    prints_as_stored unit-rs "example in Rust"
else
    echo "example in Rust: skipped, there is no rustc here"
fi

echo "memory, between pages that fault:"
compile memory.c memory -O2
"$made/memory" 40000 1 fence
if compile memory.c memory-sanitized -g -O1 -fsanitize=address,undefined -fno-sanitize-recover=all 2>"$made/sanitizer.txt"; then
    echo "memory, with sanitizers:"
    ASAN_OPTIONS=detect_leaks=0 "$made/memory-sanitized" 5000 2 heap
else
    echo "memory, with sanitizers: skipped, cc has none here"
fi
if has valgrind; then
    echo "memory, under valgrind:"
    valgrind -q --error-exitcode=9 "$made/memory" 3000 3 heap
else
    echo "memory, under valgrind: skipped, it is not here"
fi
