# The side of C and Rust. The proofs themselves are checked by rt (see README.md); `make lib` asks it for the archive that all else here links.
# `make` alone builds the planner's program.

# Minutes that `make compare` runs for, and the seed of its inputs.
MINUTES ?= 10
SEED ?= 1

# Damaged files that `make damage` gives the program.
FILES ?= 100000

# Where `make install` puts program, header and archive; DESTDIR goes before it.
PREFIX ?= /usr/local

LIB := target/staticlib/libsplicereel_c.a
CARGO := cargo
RUST := --offline --release --manifest-path rust/Cargo.toml
TIMED := --offline --profile timed --manifest-path rust/Cargo.toml
CFLAGS := -std=c11 -O2 -Wall -Wextra -Wpedantic -Werror

.PHONY: splicereel help lib install installed picture rust compare damage county bench instructions against stack examples

# The program, at the root of the repository.
splicereel: $(LIB)
	$(CARGO) build $(RUST) --quiet --package splicereel-program
	cp rust/target/release/splicereel $@

help:
	@echo "make               the program: ./splicereel --help"
	@echo "make install       program, header and archive with a pkg-config file into PREFIX=$(PREFIX)"
	@echo "make picture       docs/osterbeck.svg and docs/osterbeck-reach.svg, which README.md shows"
	@echo "make lib           prove the calls and write the archive for C and Rust"
	@echo "make rust          the archive, then build and test everything under rust/"
	@echo "make compare       archive and twin side by side for MINUTES=$(MINUTES), SEED=$(SEED)"
	@echo "make county        the same with a town of 10 nodes at most, so that a county's memory serves: proved, then compared"
	@echo "make damage        FILES=$(FILES) damaged files given to the program, SEED=$(SEED)"
	@echo "make bench         times of archive and twin, as Markdown tables"
	@echo "make instructions  instructions for a call of archive and twin (needs valgrind)"
	@echo "make against       OLD=an earlier archive and this one, instructions and times of each call (needs valgrind)"
	@echo "make stack         bytes of stack that each call takes, about a town and about a county"
	@echo "make examples      build and run the short C and Rust programs, compare what they print"

lib:
	@command -v rt > /dev/null || { echo "make: the Rattle kit (rt) is needed to prove the calls and write the archive" >&2; exit 1; }
	cd crates/splicereel_c && rt lib
	mkdir -p $(dir $(LIB))
	cp crates/splicereel_c/out/libsplicereel_c.a $(LIB)
	@echo "archive: $(LIB)"
	@echo "header:  include/splicereel.h"

# The archive is proved where it is missing; `make lib` proves it anew after a change of the crates.
$(LIB):
	$(MAKE) lib

picture: splicereel
	./splicereel draw towns/osterbeck.md Station School 2 > docs/osterbeck.svg
	./splicereel draw --reach towns/osterbeck.md School 2 3500 > docs/osterbeck-reach.svg
	cp docs/osterbeck.svg tests/splicereel/draw-osterbeck.out
	cp docs/osterbeck-reach.svg tests/splicereel/draw-reach-osterbeck.out

VERSION = $(shell sed -n 's/^.define SPLICEREEL_VERSION "\(.*\)"$$/\1/p' include/splicereel.h)
INTO = $(DESTDIR)$(abspath $(PREFIX))

install: splicereel
	install -d $(INTO)/bin $(INTO)/include $(INTO)/lib/pkgconfig
	install -m 755 splicereel $(INTO)/bin/splicereel
	install -m 644 include/splicereel.h $(INTO)/include/splicereel.h
	install -m 644 $(LIB) $(INTO)/lib/libsplicereel_c.a
	sed 's|@PREFIX@|$(abspath $(PREFIX))|; s|@VERSION@|$(VERSION)|' include/splicereel.pc.in > $(INTO)/lib/pkgconfig/splicereel.pc

# What was installed serves: the short C program is built by its pkg-config file alone.
installed:
	rm -rf target/installed
	$(MAKE) install PREFIX=target/installed
	export PKG_CONFIG_PATH=$(abspath target/installed/lib/pkgconfig) && test "$$(pkg-config --modversion splicereel)" = "$(VERSION)" && \
	  $(CC) $(CFLAGS) examples/short.c $$(pkg-config --cflags --libs splicereel) -o target/installed/short
	for tolerance in 3 4; do target/installed/short towns/block-town.txt 0 2 $$tolerance; done | diff examples/short.out -
	target/installed/bin/splicereel --version | grep -qx "splicereel $(VERSION)"
	@echo "what make install wrote serves"

rust: lib
	$(CARGO) build $(RUST)
	$(CARGO) test $(RUST) --quiet -- --show-output

compare: $(LIB)
	$(CARGO) run $(RUST) --package splicereel-compare -- $(MINUTES) $(SEED)

damage: $(LIB)
	FILES=$(FILES) SEED=$(SEED) $(CARGO) test $(RUST) --package splicereel-program --test damage -- --nocapture

county:
	tests/county $(MINUTES) $(SEED)

bench: $(LIB)
	$(CARGO) run $(TIMED) --package splicereel-bench

instructions: $(LIB)
	rust/bench/instructions

# Without OLD nothing is proved first: what is missing is said at once.
against: $(if $(OLD),$(LIB))
	rust/bench/against "$(OLD)"

# Asked about the largest town of tests/, about that of edition 03, and about the largest county.
stack: $(LIB)
	mkdir -p target/examples
	$(CARGO) build $(RUST) --quiet --package splicereel-towns
	$(CC) -std=gnu11 -O2 -Wall -Wextra -Werror -Iinclude rust/bench/stack.c $(LIB) -o target/examples/stack
	target/examples/stack tests/routes/thousand-grid.in
	rust/target/release/town-gen grid 1 1000 3 > target/examples/town.txt
	target/examples/stack target/examples/town.txt
	rust/target/release/town-gen grid 1 8000 3 > target/examples/county.txt
	target/examples/stack target/examples/county.txt

# Those named short are asked about Block town, within tolerance 3 and within 4, and must print the same; a damaged text gets the refusal's words. Those
# named refused show the refused line of that text and find Block town in order. Those named reach list what is in reach there, within two greatest lengths each.
# Those named moved move Westerby to edition 03 and back; Block town, of edition 01, has no move.
examples: $(LIB)
	mkdir -p target/examples
	$(CARGO) build $(RUST) --package splicereel --examples
	for program in short refused reach moved; do \
	  $(CC) $(CFLAGS) -Iinclude examples/$$program.c $(LIB) -o target/examples/$$program-c || exit 1; \
	  cp rust/target/release/examples/$$program target/examples/$$program-rust || exit 1; \
	done
	for program in short-c short-rust; do \
	  for tolerance in 3 4; do target/examples/$$program towns/block-town.txt 0 2 $$tolerance; done \
	    | diff examples/short.out - || exit 1; \
	  target/examples/$$program tests/levels/refusal-2-middle-0.in 0 1 2 2>&1 > /dev/null \
	    | grep -qx '\(Error: \)\?line 7: the check of a frame is wrong' || exit 1; \
	  echo "$$program prints what it must"; \
	done
	for program in refused-c refused-rust; do \
	  for text in tests/levels/refusal-2-middle-0.in towns/block-town.txt; do target/examples/$$program $$text; echo "exit status $$?"; done \
	    | diff examples/refused.out - || exit 1; \
	  echo "$$program prints what it must"; \
	done
	for program in reach-c reach-rust; do \
	  for within in "3 1500" "3 1499" "4 600" "4 0"; do target/examples/$$program towns/block-town.txt 0 $$within; done \
	    | diff examples/reach.out - || exit 1; \
	  target/examples/$$program towns/block-town.txt 3 4 0 2>&1 > /dev/null \
	    | grep -qx '\(Error: \)\?there is no such node' || exit 1; \
	  echo "$$program prints what it must"; \
	done
	for program in moved-c moved-rust; do \
	  target/examples/$$program towns/westerby.txt | diff examples/moved.out - || exit 1; \
	  target/examples/$$program towns/block-town.txt 2>&1 > /dev/null \
	    | grep -qx '\(Error: \)\?a network of this edition has no move that way' || exit 1; \
	  echo "$$program prints what it must"; \
	done
