#!/bin/sh
# Builds build/compare: the proved engine as a static library, by rt, and this program, by rustc.
#
#     build.sh                      both
#     build.sh library              the library alone
#     build.sh program [MAIN OUT]   the program alone
#
# TEYUMBI_LIBRARY=FILE takes that archive as the library, and rt is not asked.
set -eu
cd "$(dirname "$0")"
here=$PWD
mkdir -p build

library() {
    if [ -n "${TEYUMBI_LIBRARY:-}" ]; then
        cp "$TEYUMBI_LIBRARY" build/libboundary.a
    else
        (cd ../crates/boundary && rt lib)
        cp ../crates/boundary/out/libboundary.a build/
    fi
}

program() {
    rustc -O --edition 2024 --crate-name compare "$1" -o "$2" -L "native=$here/build" -l static=boundary
}

case "${1:-all}" in
    library) library ;;
    program) program "${2:-src/main.rs}" "${3:-build/compare}" ;;
    *)
        library
        program src/main.rs build/compare
        ;;
esac
