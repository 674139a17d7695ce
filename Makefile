# make lib     puts the engine's library into build/lib/liblavutremo.a, for include/lavutremo.h, and tables as text and
#              printing into build/lib/liblavutremo_host.a, for host/lavutremo_host.h
# make host    builds the C programs of host/: build/tables, build/serve, build/fetch, build/graph and build/ask
# make demo    builds the C program host/demo.c, and runs it
# make test    runs all tests; its last line is 'N passed, M failed'
# make install, make uninstall   the libraries, their headers, the programs and their manual pages below PREFIX, /usr/local
#              if it is not given; DESTDIR stands before it
# make stack   prints how much stack each call needs
# make twins   counts the instructions of calls with and without what is hidden (TWINS_COUNT)
# make fuzz    compares the engine with the reference on many questions, tables, negotiations, messages and replies, and
#              on lists of calls for two runs (SEED, RANDOM_COUNT, DAMAGED_COUNT, TABLES_COUNT, NEGOTIATIONS_COUNT,
#              TAKES_COUNT, HONEST_COUNT, ADVERSARIAL_COUNT, TWO_RUNS_COUNT)
# make beside  the same, and lends each request to BEFORE too, a liblavutremo.a of before: where every name is listed,
#              answers and bytes must be the same
# make bench   times the engine beside the reference
# make count   counts the instructions of every row of the benchmark, and the bytes that it copies
# make reading writes docs/READING.md, the definitions that the promises rest on
# make picture writes docs/case-i.dot and docs/case-i.svg, the graph of marked case (i)
# make dist    proves and builds the engine, and writes dist/
# make clean   removes what the others made

MAKEFLAGS += --no-print-directory
CFLAGS = -std=c11 -O2 -Wall -Wextra -pedantic -Werror -Iinclude
SEED = 1
TWINS_COUNT = 12
RANDOM_COUNT = 2000000
DAMAGED_COUNT = 2000000
TABLES_COUNT = 1000000
NEGOTIATIONS_COUNT = 1000000
TAKES_COUNT = 1000000
HONEST_COUNT = 100000
ADVERSARIAL_COUNT = 50000
TWO_RUNS_COUNT = 100000
FUZZ_COUNTS = $(RANDOM_COUNT) $(DAMAGED_COUNT) $(TABLES_COUNT) $(NEGOTIATIONS_COUNT) $(TAKES_COUNT) $(HONEST_COUNT) \
	$(ADVERSARIAL_COUNT) $(TWO_RUNS_COUNT)

# PROVED is the library that is proved and built here. ENGINE is what C programs get: dist/'s library while the sources
# are the same as those that it was proved from, else PROVED; the tests set it to PROVED. LIB is a copy, made when ENGINE
# has other bytes, so that programs follow the bytes and not the time of a file.
PROVED = target/staticlib/libengine.a
SAME := $(shell tools/dist same && echo same)
ENGINE = $(if $(SAME),dist/liblavutremo.a,$(PROVED))
LIB = build/lib/liblavutremo.a
SHARED = build/lib/liblavutremo.so.2
HOST_LIB = build/lib/liblavutremo_host.a
MEASURE = target/staticlib/libmeasure.a
CRATES := crates.txt $(shell find crates -name out -prune -o -print)
REFERENCE := $(wildcard reference/Cargo.*) $(shell find reference/src)
CALLS := $(wildcard calls/Cargo.* calls/build.rs calls/src/*.rs)
FUZZ := $(wildcard fuzz/Cargo.* fuzz/src/*.rs)
BENCH := $(wildcard bench/Cargo.* bench/src/*.rs bench/data/*/*)
READING := $(wildcard reading/Cargo.* reading/src/*.rs)

export CARGO_TARGET_DIR = $(CURDIR)/build/cargo
export LAVUTREMO_LIB = $(CURDIR)/target/staticlib

# The parts of the C programs: tables and their printing, one end of a negotiation, arguments and files, a connection.
HOUSE_PARTS = host/print.c host/read.c host/text.c host/house.c
END_PARTS = $(HOUSE_PARTS) host/end.c
FILE_PARTS = host/arguments.c host/output.c
LINK_PARTS = $(END_PARTS) $(FILE_PARTS) host/negotiate.c host/link.c host/printout.c host/log.c host/digest.c host/transfer.c
HEADERS := include/lavutremo.h $(wildcard host/*.h)

# Where make install puts things.
PREFIX = /usr/local
DESTDIR =
BINDIR = $(PREFIX)/bin
LIBDIR = $(PREFIX)/lib
INCLUDEDIR = $(PREFIX)/include
MANDIR = $(PREFIX)/share/man
PROGRAM_PREFIX = lavutremo-
PROGRAMS = tables serve fetch graph ask
VERSION := $(shell sed -n 's/.*define LAVUTREMO_VERSION "\(.*\)".*/\1/p' include/lavutremo.h)

.PHONY: lib host demo stack twins test fuzz beside bench count reading picture dist install uninstall clean FORCE rt gcc \
	g++ cargo libmd valgrind graphviz pkg-config man

lib: $(LIB) $(HOST_LIB)

host: $(PROGRAMS:%=build/%)

demo: build/demo
	@build/demo

stack: build/stack
	@build/stack

twins: build/twins | valgrind
	@tests/twins $(TWINS_COUNT)

test:
	@exec tests/run

fuzz: build/fuzz
	build/fuzz $(SEED) $(FUZZ_COUNTS)

beside: build/fuzz build/before.so
	LAVUTREMO_BEFORE=build/before.so build/fuzz $(SEED) $(FUZZ_COUNTS)

bench: build/bench
	@build/bench

count: build/bench build/replay build/copied
	@build/bench count

reading: build/reading
	@build/reading

picture: build/case-i.negotiation build/graph | graphviz
	build/graph -o dot examples/studio.txt build/case-i.negotiation >docs/case-i.dot
	dot -Tsvg docs/case-i.dot >docs/case-i.svg

dist: | rt
	@tools/prove engine
	tools/dist write

install: $(LIB) $(SHARED) $(HOST_LIB) host
	install -d $(DESTDIR)$(BINDIR) $(DESTDIR)$(LIBDIR)/pkgconfig $(DESTDIR)$(INCLUDEDIR) $(DESTDIR)$(MANDIR)/man1
	install -m 644 include/lavutremo.h host/lavutremo_host.h $(DESTDIR)$(INCLUDEDIR)
	install -m 644 $(LIB) $(HOST_LIB) $(DESTDIR)$(LIBDIR)
	install -m 755 $(SHARED) $(DESTDIR)$(LIBDIR)
	ln -sf $(notdir $(SHARED)) $(DESTDIR)$(LIBDIR)/liblavutremo.so
	for p in lavutremo lavutremo_host; do \
		sed 's|@INCLUDEDIR@|$(INCLUDEDIR)|; s|@LIBDIR@|$(LIBDIR)|; s|@VERSION@|$(VERSION)|' package/$$p.pc.in \
			>$(DESTDIR)$(LIBDIR)/pkgconfig/$$p.pc || exit 1; \
	done
	for p in $(PROGRAMS); do \
		install -m 755 build/$$p $(DESTDIR)$(BINDIR)/$(PROGRAM_PREFIX)$$p && \
		install -m 644 package/$$p.1 $(DESTDIR)$(MANDIR)/man1/$(PROGRAM_PREFIX)$$p.1 || exit 1; \
	done

uninstall:
	rm -f $(addprefix $(DESTDIR)$(INCLUDEDIR)/,lavutremo.h lavutremo_host.h)
	rm -f $(addprefix $(DESTDIR)$(LIBDIR)/pkgconfig/,lavutremo.pc lavutremo_host.pc)
	rm -f $(addprefix $(DESTDIR)$(LIBDIR)/,$(notdir $(LIB) $(HOST_LIB) $(SHARED)) liblavutremo.so)
	rm -f $(PROGRAMS:%=$(DESTDIR)$(BINDIR)/$(PROGRAM_PREFIX)%) $(PROGRAMS:%=$(DESTDIR)$(MANDIR)/man1/$(PROGRAM_PREFIX)%.1)

clean:
	rm -rf build target crates/*/out reference/target calls/target fuzz/target bench/target reading/target

$(PROVED) $(MEASURE): target/staticlib/lib%.a: $(CRATES) | rt
	@tools/prove $*
	@touch $@

$(LIB): $(ENGINE) FORCE
	@cmp -s $(ENGINE) $@ || { mkdir -p build/lib && cp $(ENGINE) $@; }

# The library's code is position independent: -z text fails if it is not.
$(SHARED): $(LIB) package/lavutremo.map | gcc
	gcc -shared -Wl,-soname,$(notdir $@) -Wl,--version-script=package/lavutremo.map -Wl,-z,defs,-z,text,-z,relro,-z,now \
		-Wl,--whole-archive $(LIB) -Wl,--no-whole-archive -o $@

# The host library, for host/lavutremo_host.h: one object whose own names are hidden.
$(HOST_LIB): $(HOUSE_PARTS) host/library.c $(HEADERS) | gcc
	@mkdir -p build/lib
	gcc $(CFLAGS) -fPIC -r -o build/lib/host.o $(filter %.c,$^)
	objcopy --wildcard --keep-global-symbol='lavutremo_*' build/lib/host.o
	@rm -f $@
	ar rcsD $@ build/lib/host.o

# Each part is compiled once, for all programs that have it.
objects = $(patsubst host/%.c,build/host/%.o,$(1))

build/demo: $(call objects,$(END_PARTS))
build/tables build/ask: $(call objects,$(HOUSE_PARTS) $(FILE_PARTS))
build/graph: $(call objects,$(HOUSE_PARTS) $(FILE_PARTS) host/dot.c)
build/serve: $(call objects,$(LINK_PARTS) host/source.c)
build/fetch: $(call objects,$(LINK_PARTS))
build/serve build/fetch: LIBRARIES = -lmd
$(call objects,$(filter-out $(END_PARTS) $(FILE_PARTS),$(LINK_PARTS)) host/source.c host/serve.c host/fetch.c): | libmd

build/host/%.o: host/%.c $(HEADERS) | gcc
	@mkdir -p build/host
	gcc $(CFLAGS) -c -o $@ $<

build/demo $(PROGRAMS:%=build/%): build/%: build/host/%.o $(LIB) | gcc
	gcc $(CFLAGS) -o $@ $(filter %.o,$^) $(LIB) $(LIBRARIES)

# The same with AddressSanitizer and UndefinedBehaviorSanitizer, for the tests.
SANITIZE = -g -fsanitize=address,undefined -fno-sanitize-recover=all

build/sanitized/tables build/sanitized/ask: $(HOUSE_PARTS) $(FILE_PARTS)
build/sanitized/graph: $(HOUSE_PARTS) $(FILE_PARTS) host/dot.c
build/sanitized/serve: $(LINK_PARTS) host/source.c
build/sanitized/fetch: $(LINK_PARTS)
build/sanitized/serve build/sanitized/fetch: LIBRARIES = -lmd
build/sanitized/serve build/sanitized/fetch: | libmd

$(PROGRAMS:%=build/sanitized/%): build/sanitized/%: host/%.c $(HEADERS) $(LIB) | gcc
	@mkdir -p build/sanitized
	gcc $(CFLAGS) $(SANITIZE) -o $@ $(filter %.c,$^) $(LIB) $(LIBRARIES)

build/sanitized/strange: tests/strange.c $(END_PARTS) $(HEADERS) $(LIB) | gcc
	@mkdir -p build/sanitized
	gcc $(CFLAGS) $(SANITIZE) -Ihost -o $@ $(filter %.c,$^) $(LIB)

build/socket-pair: examples/negotiate.c

build/question build/two-ends build/socket-pair: build/%: examples/%.c include/lavutremo.h $(LIB) | gcc
	gcc $(CFLAGS) -o $@ $(filter %.c,$^) $(LIB)

# The negotiation of marked case (i) as it ended, stored by the mediator.
build/case-i.negotiation: build/two-ends build/tables examples/studio.txt examples/house.txt
	build/tables records examples/studio.txt build/studio
	build/tables records examples/house.txt build/house
	build/two-ends build/studio build/house 3 1 $@

build/refusals: tests/refusals.c include/lavutremo.h $(LIB) | gcc
	@mkdir -p build
	gcc $(CFLAGS) -o $@ tests/refusals.c $(LIB)

build/replies: tests/replies.c $(HOUSE_PARTS) $(HEADERS) $(LIB) | gcc
	@mkdir -p build
	gcc $(CFLAGS) -Ihost -o $@ tests/replies.c $(HOUSE_PARTS) $(LIB)

build/stack: tests/stack.c $(END_PARTS) $(HEADERS) $(LIB) | gcc
	@mkdir -p build
	gcc $(CFLAGS) -Ihost -pthread -o $@ tests/stack.c $(END_PARTS) $(LIB)

build/hostile: tests/hostile.c host/link.c $(HEADERS) | gcc
	@mkdir -p build
	gcc $(CFLAGS) -Ihost -o $@ tests/hostile.c host/link.c

build/twins: tests/twins.c $(END_PARTS) $(HEADERS) $(LIB) | gcc
	@mkdir -p build
	gcc $(CFLAGS) -g -Ihost -o $@ tests/twins.c $(END_PARTS) $(LIB)

build/forkless.so: tests/forkless.c | gcc
	@mkdir -p build
	gcc $(CFLAGS) -shared -fPIC -o $@ $< -ldl

build/fuzz: $(REFERENCE) $(CALLS) $(FUZZ) $(PROVED) | cargo
	cargo build --quiet --release --locked --manifest-path fuzz/Cargo.toml
	@cp $(CARGO_TARGET_DIR)/release/fuzz $@

# Its functions call each other, and not those of the same name in the program that opens it.
build/before.so: FORCE | gcc
	@test -f '$(BEFORE)' || { echo 'BEFORE=FILE is missing: a liblavutremo.a of before' >&2; exit 1; }
	@mkdir -p build
	gcc -shared -Wl,-Bsymbolic -Wl,--whole-archive $(BEFORE) -Wl,--no-whole-archive -o $@

build/bench: $(REFERENCE) $(CALLS) $(BENCH) $(PROVED) $(MEASURE) | cargo
	cargo build --quiet --release --locked --manifest-path bench/Cargo.toml
	@cp $(CARGO_TARGET_DIR)/release/bench $@

# Bound when it starts: the search for a function at its first call would count.
build/replay: bench/replay.c include/lavutremo.h $(LIB) | gcc valgrind
	@mkdir -p build
	gcc $(CFLAGS) -pthread -Wl,-z,now -o $@ bench/replay.c $(LIB)

build/copied: bench/replay.c include/lavutremo.h $(LIB) | gcc
	@mkdir -p build
	gcc $(CFLAGS) -DCOPIED -pthread -Wl,--wrap=memcpy -o $@ bench/replay.c $(LIB)

build/reading: $(READING) | cargo
	cargo build --quiet --release --locked --manifest-path reading/Cargo.toml
	@cp $(CARGO_TARGET_DIR)/release/reading $@

rt:
	@command -v rt >/dev/null || { echo 'rt is missing: install the Rattle kit and put rt on the PATH' \
		'$(if $(SAME),,(the sources are not those of dist/ and have to be proved))' >&2; exit 1; }

# What a command needs besides: installed where that may be done, else named.
libmd: | gcc
	@tools/need libmd-dev sh -c 'echo "#include <sha2.h>" | gcc -E -'

graphviz:
	@tools/need graphviz command -v dot

pkg-config:
	@tools/need pkg-config command -v pkg-config

man:
	@tools/need man-db command -v man

valgrind:
	@tools/need valgrind command -v valgrind

gcc g++:
	@command -v $@ >/dev/null || { echo '$@ is missing: install it, as by apt-get install gcc g++' >&2; exit 1; }

cargo:
	@command -v cargo >/dev/null || { echo 'cargo is missing: install Rust, as from https://rustup.rs' >&2; exit 1; }
