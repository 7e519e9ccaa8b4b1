#!/bin/sh
# Prints the folder that holds luck's crates/: the one that an argument names, or else LUCK_SRC. Where neither does, it looks
# beside the repository and says on standard error what it takes; where nothing is there, it prints no folder and says that.
#   luck-src.sh [LUCK]
set -eu
top=$(cd "$(dirname "$0")/.." && pwd)

holds_luck() {
    [ -r "$1/crates/luck_linter/src/cfg.rs" ]
}

named=${1:-${LUCK_SRC:-}}
if [ -n "$named" ]; then
    holds_luck "$named" || {
        echo "compare: luck's crates/ are not in $named" >&2
        exit 1
    }
    cd "$named" && pwd
    exit 0
fi
for place in ../luck ../shared/docs/src; do
    if holds_luck "$top/$place"; then
        echo "compare: luck's files are taken from $place, beside the repository" >&2
        cd "$top/$place" && pwd
        exit 0
    fi
done
echo "compare: skipped, luck's files are not at hand: LUCK_SRC names no place, and neither ../luck nor ../shared/docs/src has them" >&2
