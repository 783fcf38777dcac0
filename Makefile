# make demo: prove and build the programs, and judge the shipped morning. make test: the gate. The others are for a day's work.
PREFIX ?= /usr/local
to = $(DESTDIR)$(abspath $(PREFIX))

.PHONY: demo test check lib programs install bench stack believed

demo: programs
	cd examples/misspelt && ../../target/bin/judge

test:
	bash .ci/run

# the gate without must-fail edits: what didn't change isn't proved again
check:
	bash .ci/run quick

# the static library for C and Rust, with include/tteokbiran.h
lib:
	cd crates/tteokbiran && rt lib
	rm -rf target/lib && mkdir -p target/lib
	cp crates/tteokbiran/out/libtteokbiran.a target/lib

# each program is proved, built and run once, in its crate's folder, where there are no files for it
programs:
	mkdir -p target/bin
	for name in judge translate forecast events; do \
	    (cd crates/$$name && rt run) >target/$$name.log 2>&1 || { cat target/$$name.log; exit 1; }; \
	    cp crates/$$name/out/$$name target/bin || exit 1; \
	done

# header, library, pkg-config file and programs, below PREFIX
install: lib programs
	install -d $(to)/include $(to)/lib/pkgconfig $(to)/bin
	install -m 644 include/tteokbiran.h $(to)/include
	install -m 644 target/lib/libtteokbiran.a $(to)/lib
	sed 's|@PREFIX@|$(abspath $(PREFIX))|' include/tteokbiran.pc.in >$(to)/lib/pkgconfig/tteokbiran.pc
	install -m 755 target/bin/judge target/bin/translate target/bin/forecast target/bin/events $(to)/bin

# the proved library against the second judge, in one run on the same inputs
bench: lib
	cd second && cargo build --release --offline && target/release/bench

# how much stack each exported function takes on the examples
stack: lib
	gcc -std=c11 -O2 -Wall -Wextra -Werror -Iinclude rip/stack.c target/lib/libtteokbiran.a -o target/stack
	target/stack examples/*/

# how many lines of definitions a reader has to believe
believed:
	@bash .ci/believed
