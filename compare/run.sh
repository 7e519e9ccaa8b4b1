#!/bin/sh
# A bounded comparison: luck's own Rust, the reading of documents 01 and 02 and, where
# FLOWLIST names the program, the Rattle side. Ends with the first difference.
# `run.sh library` lets the static library answer too: the one that
# WALDIMU_ARCHIVE names, or else one that is built first.
#   run.sh [library] [LUCK]
# LUCK or else LUCK_SRC names the folder that holds luck's crates/; without one
# luck is looked for beside the repository (luck-src.sh).
set -eu
here=$(cd "$(dirname "$0")" && pwd)
part=
if [ "${1:-}" = library ]; then
    part=library
    shift
fi

skip() {
    echo "compare: skipped, $1"
    exit 0
}

command -v cargo >/dev/null 2>&1 || skip "there is no cargo here"
LUCK_SRC=$("$here/luck-src.sh" "$@")
[ -n "$LUCK_SRC" ] || exit 0
export LUCK_SRC
cd "$here"

if [ "$part" = library ]; then
    WALDIMU_ARCHIVE=${WALDIMU_ARCHIVE-$(../examples/archive.sh)}
    [ -n "$WALDIMU_ARCHIVE" ] || skip "there is no static library"
    export WALDIMU_ARCHIVE
    cargo build --release --offline --quiet --target-dir target/library
    compare=target/library/release/compare
    $compare short --length 3
    $compare short --length 3 --uses 2
    $compare scopes
    $compare pairs --pairs 200000 --seed 3
    if command -v cc >/dev/null 2>&1; then
        cc -Wall -Werror -I../include -o target/stack stack.c "$WALDIMU_ARCHIVE" -lpthread
        echo "bytes of stack:"
        target/stack
    fi
    exit 0
fi

cargo build --release --offline --quiet --target-dir target
compare=target/release/compare

$compare pieces
$compare scopes
$compare stored ../crates/replay/data
$compare short --length 4
$compare short --length 3 --uses 2
$compare pairs --pairs 50000 --seed 1
$compare wrong --pairs 20000 --seed 1 >target/wrong.txt || { cat target/wrong.txt; exit 1; }
echo "sides with a known fault: each found"
for program in luac5.2 luac5.3; do
    $compare luac $program --pairs 1000 --seed 1
done
for example in ../examples/*/; do
    $compare print <"$example"sheet.bin >target/printed.txt
    sed -n 's/^= //p' "$example"sheet.txt | cmp -s - target/printed.txt || {
        echo "luck prints other lines for ${example}sheet.bin"
        exit 1
    }
    name=$(basename "$example")
    $compare columns <"$example"sheet.bin | sed '/^finding/d' | cmp -s - "../docs/pictures/$name.columns" || {
        echo "docs/pictures/$name.columns holds other columns than luck's"
        exit 1
    }
done
echo "examples: lines and columns are luck's"
if command -v python3 >/dev/null 2>&1; then
    for piece in pieces/*.txt; do
        $compare words "$piece" >target/piece.bin
        python3 sheet.py <"$piece" | cmp -s - target/piece.bin || {
            echo "sheet.py and compare differ on $piece"
            exit 1
        }
    done
    echo "sheet.py: every piece gives the same words"
fi
if [ -n "${FLOWLIST:-}" ]; then
    $compare short --length 2 --flowlist "$FLOWLIST"
    $compare pairs --pairs 10000 --seed 2 --flowlist "$FLOWLIST"
fi
