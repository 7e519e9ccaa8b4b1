#!/bin/sh
# Proves and builds the named crates and all that they need, and says which one is at work and how many there are.
#     proving.sh NAME ..
# What is built of NAME stands in crates/NAME/out: libNAME.a of a static library, NAME of a program.
set -eu
cd "$(dirname "$0")/.."
said=$(mktemp)
trap 'rm -f "$said" "$said".*' EXIT
trap 'exit 1' HUP INT TERM

# The crates that the named one needs, in the order in which rt takes them, and itself last.
order() {
    awk -v name="$1" '
        /^[a-z]/ { sub(/#.*/, ""); split($0, part, ":"); split(part[1], word, " "); uses[word[1]] = part[2] }
        function take(name,   list, count, at) {
            if ((name in taken) || !(name in uses)) return
            taken[name] = 1
            count = split(uses[name], list, " ")
            for (at = 1; at <= count; at++) take(list[at])
            print name
        }
        END { take(name) }' crates.txt
}

for name; do
    # A program is run once too, on what is stored beside it: rt builds it for that.
    verb=lib input=/dev/null
    if [ -f "crates/$name/src/main.rt" ]; then
        verb=run
        [ ! -f "crates/$name/stdin" ] || input=$PWD/crates/$name/stdin
    fi
    order "$name" >"$said.order"
    total=$(grep -c . "$said.order") || :
    echo "rt $verb in crates/$name: $total crates. From nothing that takes minutes; each is named as its proof begins."
    # The status of rt is lost behind a pipe, so it is written down.
    {
        status=0
        (cd "crates/$name" && rt "$verb" <"$input" 2>&1) || status=$?
        echo "$status" >"$said.status"
    } | while IFS= read -r line || [ -n "$line" ]; do
        printf '%s\n' "$line" >>"$said"
        case $line in
        'rt: chose --jobs '*' for '*)
            crate=${line##* for }
            echo "  $(grep -nx "$crate" "$said.order" | cut -d: -f1) of $total: $crate"
            ;;
        esac
    done
    if [ "$(cat "$said.status")" -ne 0 ]; then
        cat "$said"
        exit 1
    fi
    echo "  $name is proved and built"
done
