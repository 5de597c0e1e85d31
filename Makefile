# `make run` does the main job, `make test` passes the tests; both set up what they need.
#
#   bench     the bench program on an image from standard input
#   all       prove the library and write target/staticlib/libv850.a
#   compare   the library beside the second program; CASES=N SEED=S for more or other cases
#   walks     the second program's walks, their output against the stored one of the crates *_walk
#   example   the example host and the one in README.md, and a host of what install leaves; their output against the stored one
#   teeth     the comparison and the walks with each seeded fault; prints docs/FAULTS-FOUND.md
#   speed     ns and instructions a step
#   install   library, header and v850.pc under PREFIX
export LC_ALL := C

PREFIX ?= /usr/local
WARN := -Wall -Wextra -Wpedantic -Wconversion -Werror
X86 := tests/tools/x86
SUB := $(MAKE) --no-print-directory

# LIBRARY=FILE takes a ready archive with the same entries in the place of ours.
ifneq ($(LIBRARY),)
override LIBRARY := $(abspath $(LIBRARY))
library:
	@test -f $(LIBRARY)
else
LIBRARY := $(CURDIR)/target/staticlib/libv850.a
# The crate that C links is v850_c; the archive keeps the library's name.
library:
	@cd crates/v850_c && rt lib >&2
	@install -D -m 644 crates/v850_c/out/libv850_c.a $(LIBRARY)
endif

.PHONY: all library setup header compare walks example readme installed teeth speed bench install clean run test

all: library

setup:
	@$(X86) setup

# The header by itself, as C and, where there is a compiler for it, as C++.
header:
	@cc -std=c11 $(WARN) -fsyntax-only -x c include/v850.h
	@if command -v c++ >/dev/null; then c++ -std=c++17 $(WARN) -fsyntax-only -x c++ include/v850.h; \
		else echo "include/v850.h: not tried as C++17, as there is no c++"; fi

compare: setup library
	@$(SUB) -C tests/compare run LIBRARY=$(LIBRARY)

# What no C code can call is compared by way of stored output: `rt ci` holds the proved programs to it, this the second program.
walks:
	@$(SUB) -C tests/walks run

example: setup header library readme installed
	@mkdir -p target/example
	@$(X86) cc -std=c11 -O2 $(WARN) -Iinclude -static -o target/example/host examples/host.c $(LIBRARY)
	@$(X86) run target/example/host >target/example/host.out
	@diff examples/host.expected target/example/host.out
	@for words in "x" "examples/host.c zz 16" "examples/host.c 200 -1" "examples/host.c FFFF 2" "examples 200 16"; do \
		$(X86) run target/example/host $$words >target/example/refused.out 2>&1; \
		[ $$? -eq 2 ] || { echo "examples/host does not refuse: $$words"; exit 1; }; done
	@echo "examples/host: as expected"

# The program in README.md does what README.md says: what it prints stands there as a line of its own.
readme: setup library
	@mkdir -p target/example
	@sed -n '/^```c$$/,/^```$$/{/^```/!p;}' README.md >target/example/readme.c
	@$(X86) cc -std=c11 -O2 $(WARN) -Iinclude -static -o target/example/readme target/example/readme.c $(LIBRARY)
	@$(X86) run target/example/readme >target/example/readme.out
	@grep -qxF "    $$(cat target/example/readme.out)" README.md
	@echo "README.md: as it says"

# What install leaves is all that a host needs: the example once more, by way of v850.pc where there is a pkg-config.
installed: setup library
	@rm -rf target/example/usr
	@$(SUB) install LIBRARY=$(LIBRARY) DESTDIR= PREFIX=target/example/usr >/dev/null
	@flags="-Itarget/example/usr/include -Ltarget/example/usr/lib -lv850"; \
		if command -v pkg-config >/dev/null; then \
			flags=$$(PKG_CONFIG_PATH=target/example/usr/lib/pkgconfig pkg-config --cflags --libs v850) || exit 1; fi; \
		$(X86) cc -std=c11 -O2 $(WARN) -static -o target/example/installed examples/host.c $$flags
	@$(X86) run target/example/installed | diff examples/host.expected -
	@echo "make install: enough for a host"

teeth: setup library
	@$(SUB) -C tests/compare teeth LIBRARY=$(LIBRARY)

speed: setup library
	@$(SUB) -C tests/speed run LIBRARY=$(LIBRARY)

# The program of document 01: an image on standard input, one line on standard output.
bench:
	@tools/run bench

install: library
	install -d $(DESTDIR)$(PREFIX)/lib/pkgconfig $(DESTDIR)$(PREFIX)/include
	install -m 644 $(LIBRARY) $(DESTDIR)$(PREFIX)/lib/libv850.a
	install -m 644 include/v850.h $(DESTDIR)$(PREFIX)/include/v850.h
	sed 's|@PREFIX@|$(PREFIX)|' v850.pc.in >$(DESTDIR)$(PREFIX)/lib/pkgconfig/v850.pc

clean:
	rm -rf target crates/*/out

# The main job: the bench program on document 01's sample.
run:
	@tools/run bench <crates/bench/stdin

# The gate: the second program's own test, the comparison with itself and with the library, the walks; then every crate is
# proved, every must-fail edit refused, every program run. The last line is rt's.
test:
	@$(X86) setup native
	@$(SUB) header
	@$(SUB) -s -C tests/second test
	@$(SUB) -C tests/compare self
	@$(SUB) compare walks example
	@tools/gate
