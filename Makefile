# make run: the main job on sample input.  make test: the whole gate.
CASES ?= 2000000
SEED ?= 1

.PHONY: run test library programs host compare bench header pages controller

run: host
	host/target/release/sonde --batch examples/sheets/good

test:
	tools/gate $(CASES) $(SEED)

# the proved code as a static library
library:
	cd crates/exports && rt lib
	mkdir -p target/staticlib
	cp crates/exports/out/libexports.a target/staticlib/

# the two proved programs, each run once on the list that it is kept with
programs:
	mkdir -p target/bin
	for name in replay sequences; do (cd crates/$$name && rt run <stdin >/dev/null) && cp crates/$$name/out/$$name target/bin/ || exit 1; done

host: library
	cargo build --release --offline --quiet --manifest-path host/Cargo.toml

# as many cases a leaf as are asked for, with a progress line: make compare CASES=10000000
compare: host
	host/target/release/compare --cases $(CASES) --seed $(SEED)

bench: host
	host/target/release/bench

# the C header as C and C++, and held against the library's source
header: host
	tools/header_test
	host/target/release/header

# what the pages count, link and draw, from the sources
pages:
	cargo build --release --offline --quiet --manifest-path host/Cargo.toml --package pages
	host/target/release/pages

# the C controller, plainly and with guard bytes under the sanitizers
controller: library
	tools/controller_test
