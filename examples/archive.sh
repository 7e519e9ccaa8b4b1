#!/bin/sh
# Builds the static library and prints its path. Where this machine cannot, prints no path and says why on standard error.
# `rt lib` builds only what is proved: it takes over what a check proved before of the same files, here or in another copy on this
# machine, and proves the rest, which takes minutes where nothing is proved yet.
set -eu
cd "$(dirname "$0")/.."

none() {
    echo "static library: skipped, $1" >&2
    exit 0
}

command -v rt >/dev/null 2>&1 || none "there is no rt here to build it"
[ "$(uname -m)" = x86_64 ] || none "it links into x86-64 programs only"
examples/proving.sh waldimu >&2
echo "$PWD/crates/waldimu/out/libwaldimu.a"
