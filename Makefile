# make run        builds the proved program and runs its main job on the example that ships with it
# make test       proves everything, tries the must-fail edits, runs every program and test
# make compare    builds the proved engine as a static library, and compares it with one in plain Rust (needs rustc)
# make c-example  builds the same library, and runs examples/door.c, which plays the door from C (needs a C compiler)

run:
	cd crates/door && rt run -- run data/close.par data/door.sheet data/closes.script

test:
	.ci/run

compare:
	compare/build.sh
	compare/build/compare

c-example:
	cd crates/boundary && rt lib
	mkdir -p out
	$(CC) -std=c99 -Wall -Wextra -pedantic -O2 -Iinclude -o out/door examples/door.c crates/boundary/out/libboundary.a
	out/door crates/door/data/close.par crates/door/data/door.sheet

# Of these only `compare` is also the name of a folder.
.PHONY: run test compare c-example
