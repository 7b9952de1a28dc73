# make        proves the engine, and puts the programs corefun and tulakkez into target/bin
# make test   runs every test; the last line is 'N passed, 0 failed'
#
# Needed are the Rattle kit (rt) and cargo; nothing is fetched.
.PHONY: all test clean
.NOTPARALLEL:

proved := $(shell find crates -name out -prune -o -type f -print) crates.txt
tool := $(shell find tools/tulakkez bindings/rust tests/second -name target -prune -o -type f -print)

all: target/bin/corefun target/bin/tulakkez

target/bin/corefun: $(proved)
	bash -c '. tests/building.sh && program'
	touch $@

target/staticlib/libexports.a: $(proved)
	bash -c '. tests/building.sh && library'
	touch $@

target/bin/tulakkez: target/staticlib/libexports.a $(tool)
	cargo build --quiet --release --offline --manifest-path tools/tulakkez/Cargo.toml
	mkdir -p target/bin
	cp tools/tulakkez/target/release/tulakkez $@

test: all
	bash tests/run

clean:
	rm -rf target crates/*/out
	for crate in bindings/rust tests/engine tests/second tests/tulakkez tests/tulakkez/cut tools/tulakkez; do rm -rf $$crate/target; done
