#!/bin/sh
# Builds the export side, tests it, and checks the example's script with the program that comes of it.
# WALDIMU_ARCHIVE names the static library, if it is built already. What is missing here is said in one line.
set -eu
cd "$(dirname "$0")"
tests=target/tests.txt
program=target/release/waldimu
CARGO_TARGET_DIR=$PWD/target
export CARGO_TARGET_DIR

skip() {
    echo "export: skipped, $1"
    exit 0
}

command -v cargo >/dev/null 2>&1 || skip "there is no cargo here"
command -v cc >/dev/null 2>&1 || skip "there is no cc here to link with"
WALDIMU_ARCHIVE=${WALDIMU_ARCHIVE-$(../examples/archive.sh)}
[ -n "$WALDIMU_ARCHIVE" ] || skip "there is no static library"
export WALDIMU_ARCHIVE
mkdir -p target
room=$(mktemp -d)
trap 'rm -rf "$room"' EXIT

echo "export: building the program waldimu"
cargo build --release --offline --quiet

echo "export: testing, which takes half a minute"
cargo test --offline --no-fail-fast -- --show-output >"$tests" 2>&1 || {
    cat "$tests"
    exit 1
}
# What the tests say of other tools, which are there or not.
awk '/^(lua|luck|scripts with damaged)/ && !said[$0]++' "$tests"
awk '/^test result: ok/ { passed += $4 } END { print "export: " passed " tests passed" }' "$tests"

# The example's findings by the repository's own command, also by a link to it, and where cargo is told to put programs
# elsewhere; and the example's sheet beside the one that was written by hand. The link stands outside the checkout, since
# `rt ci` refuses any in it.
status=0
ln -s "$PWD/../waldimu" "$room/waldimu"
CARGO_TARGET_DIR=$room/elsewhere "$room/waldimu" check ../examples/governor/script.lua || status=$?
[ "$status" -eq 1 ] || {
    echo "export: status $status where findings give 1"
    exit 1
}
[ ! -e "$room/elsewhere" ] || {
    echo "export: ./waldimu builds where it does not look for the program"
    exit 1
}
"$program" sheet ../examples/governor/script.lua | cmp - ../examples/governor/sheet.bin
echo "export: the example's sheet is the stored one"
