#!/bin/sh
# Counts instructions of check, begin, go, answer and wait in both engines, by valgrind's callgrind: a list of calls with those that are
# measured behind it, less the list without, and divided by how many they are. Writes a table in Markdown.
set -eu
cd "$(dirname "$0")"
# Callgrind counts a repeated string instruction once for each byte, so the C library is told to copy without them.
threshold=1000000000
export GLIBC_TUNABLES="glibc.cpu.x86_rep_movsb_threshold=$threshold:glibc.cpu.x86_rep_stosb_threshold=$threshold"
counted() {
    valgrind --tool=callgrind --callgrind-out-file=/dev/null build/compare once "$@" 2>&1 | sed -n 's/^.*Collected : //p'
}
echo "| form | call | calls measured | independent, instructions | proved, instructions | proved / independent |"
echo "|---|---|---|---|---|---|"
build/compare counts | while read -r form call count; do
    for engine in independent proved; do
        whole=$(counted $engine "$form" "$call" whole)
        less=$(counted $engine "$form" "$call" less)
        echo $(((whole - less) / count))
    done | {
        read -r independent
        read -r proved
        ratio=$(awk -v a="$independent" -v b="$proved" 'BEGIN { printf "%.1f", b / a }')
        echo "| $form | $call | $count | $independent | $proved | $ratio |"
    }
done
