# `make run` prints the sample; `make test` passes everything, and its last line is rt's 'N passed, 0 failed'.
.PHONY: run test format rust soak bench beside requires

sources := $(shell find crates -path '*/out' -prune -o \( -name '*.rt' -o -name '*.antt' \) -print) crates.txt

# the program on document 01's example P2
run: target/bin/show
	@target/bin/show < crates/show/stdin

# a plain `rt ci`, which also refuses a file that is not in rt's layout, then the Rust tests
test:
	@tools/gate.sh

# puts every file in rt's layout
format:
	@for crate in crates/*/; do (cd $$crate && rt fmt) || exit; done

# the compiled library and the printing program against plain sets
rust: target/staticlib/libcapi.a target/bin/show
	cd rust && cargo test --offline --release

# the C interface, proved with all that it rests on
target/staticlib/libcapi.a: $(sources)
	@mkdir -p $(@D)
	cd crates/capi_c && rt lib
	cp crates/capi_c/out/libcapi_c.a $@

# the printing program, proved with all that it rests on; what rt says of it is told only if it fails
target/bin/show: $(sources)
	@mkdir -p $(@D)
	@cd crates/show && rt run < stdin > /dev/null 2> ../../$@.log || { cat ../../$@.log; exit 1; }
	@cp crates/show/out/show $@

# the Rust tests for longer, with more and larger cases
soak: target/staticlib/libcapi.a target/bin/show
	cd rust && LOES_ROUNDS=20 cargo test --offline --release

# the library beside the same algorithms in plain Rust and beside what else one would use
bench: target/staticlib/libcapi.a
	cd rust && cargo bench --offline

# every call but prefix and split beside another build of the library with the same interface, in one program: make beside BEFORE=.../libcapi.a
beside: target/staticlib/libcapi.a
	mkdir -p target/beside
	$(CC) -shared -o target/beside/before.so -Wl,--whole-archive $(BEFORE) -Wl,--no-whole-archive,-Bsymbolic,-z,notext
	$(CC) -shared -o target/beside/now.so -Wl,--whole-archive $< -Wl,--no-whole-archive,-Bsymbolic,-z,notext
	$(CC) -O2 -Iinclude -o target/beside/beside rust/benches/beside.c -ldl
	target/beside/beside $${LOES_REPS:-9} target/beside/before.so target/beside/now.so

# what each inner function asks of its callers, also by the types that it takes; no call is among them
requires:
	@awk -f tools/requires.awk crates/*/src/*.rt crates/*/src/*.rt | uniq
