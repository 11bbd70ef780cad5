# `make help` lists what can be made.
.PHONY: run test help install clean host fitting bench soak fuzz peers
# Checks in one tree wait for one another.
.NOTPARALLEL:

# Says what is missing before anything is begun: $(call needs,COMMAND,WHAT FOR)
needs = @command -v $(1) > /dev/null || { echo "$(1) is not on the path: $(2)" >&2; exit 2; }

run:
	$(call needs,rt,Rattle's toolchain proves and compiles the crates)
	$(call needs,cargo,Rust builds the text form in tools/fitting)
	@echo "The first run proves every crate that the two programs stand on: about 10 minutes on two cores, later ones seconds."
	@tools/prove close_book counter
	@$(MAKE) --no-print-directory fitting
	target/bin/close_book < examples/p1.book
	target/bin/counter < crates/counter/stdin
	target/fitting/release/fitting close examples/lamps.fit
	target/fitting/release/fitting ask examples/lamps.fit

help:
	@echo "make                  proves the two programs and runs them on the samples"
	@echo "make test             the gate: proves and tries everything (docs/PORT.md says how long it takes)"
	@echo "make fitting          the text form for people: target/fitting/release/fitting"
	@echo "make host             the C hosts over the exported calls: target/host/"
	@echo "make install PREFIX=  programs, text form, library and header (PREFIX is /usr/local if not given)"
	@echo "make bench            the proved library beside plain Rust"
	@echo "make soak MINUTES=    the proved library against the model, from SEED= on"
	@echo "make fuzz MINUTES=    arbitrary bytes to the exported calls and the programs"
	@echo "make peers FILES=     rapper and serdi beside the calls for N-Triples; installs them"
	@echo "make clean            removes target/: what rt keeps of its proofs is in crates/*/out"

test:
	.ci/run

PREFIX ?= /usr/local

install: target/staticlib/libtrackvesper.a fitting
	@tools/prove close_book counter
	install -d "$(DESTDIR)$(PREFIX)/bin" "$(DESTDIR)$(PREFIX)/lib" "$(DESTDIR)$(PREFIX)/include"
	install -m 755 target/bin/close_book target/bin/counter target/fitting/release/fitting "$(DESTDIR)$(PREFIX)/bin"
	install -m 644 target/staticlib/libtrackvesper.a "$(DESTDIR)$(PREFIX)/lib"
	install -m 644 examples/trackvesper.h "$(DESTDIR)$(PREFIX)/include"

clean:
	rm -rf target

# The static library is proved once, and again only where a crate has changed.
target/staticlib/lib%.a: crates.txt $(shell find crates -name out -prune -o \( -name '*.rt' -o -name '*.antt' \) -print)
	$(call needs,rt,Rattle's toolchain proves and compiles the crates)
	@tools/prove $*_c
	(cd crates/$*_c && rt lib) > target/log/staticlib.log 2>&1 || { cat target/log/staticlib.log; exit 1; }
	mkdir -p target/staticlib
	cp crates/$*_c/out/lib$*_c.a $@

# The hosts over the exported calls, in C and in C++.
host: target/staticlib/libtrackvesper.a
	$(call needs,cc,a C compiler builds the hosts)
	$(call needs,c++,a C++ compiler builds one of the hosts)
	mkdir -p target/host
	cc -std=c11 -Wall -Wextra -Werror -O2 -o target/host/close_book examples/close_book.c target/staticlib/libtrackvesper.a
	cc -std=c11 -Wall -Wextra -Werror -O2 -o target/host/triples examples/triples.c target/staticlib/libtrackvesper.a
	c++ -std=c++11 -Wall -Wextra -Werror -O2 -o target/host/close_book_cpp examples/close_book.cpp target/staticlib/libtrackvesper.a

# The text form for people, over the proved library: target/fitting/release/fitting (tools/fitting/README.md).
fitting: target/staticlib/libtrackvesper.a
	$(call needs,cargo,Rust builds the text form in tools/fitting)
	cd tools/fitting && CARGO_TARGET_DIR=../../target/fitting cargo build --release --offline --quiet

# The proved library against the model for MINUTES, from seed SEED on.
MINUTES ?= 10
SEED ?= 1000000

soak: target/staticlib/libtrackvesper.a
	cd trial && CARGO_TARGET_DIR=../target/trial cargo run --release --offline --quiet --package against --bin soak -- $(MINUTES) $(SEED)

# Arbitrary bytes to the exported calls and the programs, for MINUTES (fuzz/README.md).
fuzz:
	fuzz/run $(MINUTES)

# rapper and serdi beside the proved calls, on FILES plain files; installs them (tools/peers/README.md).
FILES ?= 200

peers: target/staticlib/libtrackvesper.a
	tools/peers/run $(FILES)

# Closing, running, reading, compiling and makers' lists beside plain Rust (docs/BENCHMARKS.md).
bench: host
	cd trial && CARGO_TARGET_DIR=../target/trial cargo run --release --offline --quiet --package against --bin bench
