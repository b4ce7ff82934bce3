#!/bin/sh
# Plants each mistake of planted/ in a copy of the sources, builds it, and runs what its edit says: a difference must be told each time.
# An edit is a file with lines run: (the program's arguments), file:, old: and new:, as of a must-fail edit.
set -eu
cd "$(dirname "$0")"
./build.sh library
failed=0
for edit in planted/*.edit; do
    name=$(basename "$edit" .edit)
    copy=build/planted
    rm -rf "$copy"
    mkdir -p "$copy/src"
    cp src/*.rs "$copy/src"
    field() { sed -n "s/^$1: //p" "$edit"; }
    target="$copy/$(field file)"
    field old > build/old
    field new > build/new
    if ! awk -v old=build/old -v new=build/new '
        BEGIN { getline old < old; getline new < new }
        { at = index($0, old); if (at) { count++; $0 = substr($0, 1, at - 1) new substr($0, at + length(old)) } print }
        END { exit count != 1 }' "$target" > build/edited; then
        echo "BAD EDIT $name: its old text does not stand exactly once"
        failed=1
        continue
    fi
    cp build/edited "$target"
    # The example's bytes are read from where they lie.
    sed -i 's|include_bytes!("../../crates/|include_bytes!("../../../../crates/|g' "$copy/src/speed.rs"
    ./build.sh program "$copy/src/main.rs" build/planted/compare > build/planted/log 2>&1 || { cat build/planted/log; echo "BAD EDIT $name: it does not compile"; failed=1; continue; }
    # shellcheck disable=SC2046
    build/planted/compare $(field run) > build/planted/out && status=0 || status=$?
    if [ $status = 1 ] && grep -q '^difference' build/planted/out; then
        echo "caught $name: $(grep -A1 '^difference' build/planted/out | tail -n 1 | cut -c 1-150)"
    else
        echo "MISSED $name: status $status"
        failed=1
    fi
done
exit $failed
