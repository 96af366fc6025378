# `make help` lists what there is to do.
ARCHIVE := build/libfiddlequill.a
INCLUDE := include
PREFIX ?= /usr/local
DESTDIR ?=
SITE ?= examples/site
SEED ?= $(shell od -An -N4 -tu4 /dev/urandom | tr -d ' ')
CFLAGS := -std=c11 -Wall -Wextra -Wpedantic -Werror -O2
CPPFLAGS := -I$(INCLUDE) -Ihost
HEADER := $(INCLUDE)/fiddlequill.h
VERSION := $(shell sed -n 's/^.define FIDDLEQUILL_VERSION "\(.*\)"/\1/p' $(HEADER))
SANITIZE := -fno-sanitize-recover=all -g
RATTLE := $(wildcard crates/*/src/*.rt crates/*/specs/*.antt crates/*/proofs/*.antt) \
	$(shell find crates -name Proof.antt) crates.txt

# The archive holds x86-64 code. On another machine the C programs are compiled for x86-64 as well and run in an emulator, and address checks,
# which an emulator has no room for, are left to x86-64, as are half of the second program's inputs. DECISIONS says why.
ifeq ($(shell uname -m),x86_64)
EMULATOR :=
INPUTS := 200000
SANITIZE += -fsanitize=address,undefined
else
CROSS := x86_64-linux-gnu
EMULATOR := qemu-x86_64 -L /usr/$(CROSS)
INPUTS := 100000
SANITIZE += -fsanitize=undefined
ifeq ($(origin CC),default)
CC := $(CROSS)-gcc
endif
endif

# A program that this machine can start: the program itself, or a script that starts it in the emulator.
start = $(if $(EMULATOR),@printf '#!/bin/sh\nexec $(EMULATOR) "$$0.x86-64" "$$@"\n' >$(1) && chmod +x $(1))

# A program that rt made, for this machine to start: $(call take,its name,the file that starts it).
define take
cp crates/$(1)/out/$(1) $(2)$(if $(EMULATOR),.x86-64)
$(call start,$(2))
endef

define link
@mkdir -p $(@D)
$(CC) $(LDFLAGS) $(1) $^ $(LDLIBS) -o $@$(if $(EMULATOR),.x86-64)
$(call start,$@)
endef

# Baselines are measured at their best: clang -O3 where there is a clang. BENCH_ARCHIVE=file measures an archive that was made for this machine.
# BENCH_BEFORE=file measures an older archive as well, in the same run; BENCH_BEFORE_MADE tells how that one was made.
BENCH_ARCHIVE ?= $(ARCHIVE)
BENCH_MADE ?= as it was built
BENCH_BEFORE ?=
BENCH_BEFORE_MADE ?= as it was built
BENCH_BEFORE_CALLS := judge site count grant
BENCH_EMULATED := $(if $(EMULATOR),$(if $(filter $(ARCHIVE),$(BENCH_ARCHIVE)),-emulated))
BENCH_KIND := $(BENCH_EMULATED)$(if $(BENCH_BEFORE),-before)
BENCH_CC := $(if $(BENCH_EMULATED),$(CC),$(shell command -v clang >/dev/null 2>&1 && echo clang || echo cc))
BENCH_CFLAGS := -std=c11 -Wall -Wextra -Wpedantic -Werror -O3
BENCH_MACHINE := $(shell uname -sm)$(shell lscpu 2>/dev/null | sed -n 's/^Model name: */, /p')

SECOND := definition inputs tally hand second files
ASKED := definition inputs questions asked files
SANITIZED_USERS := build/sanitized/records build/sanitized/desk build/sanitized/slider
MEMCHECK := valgrind -q --error-exitcode=9 --leak-check=full
MEMCHECKED := $(addprefix build/memcheck/,records desk slider asked questions sheet)
BENCH := bench report workload plan fp doubling remainder files
PROGRAMS := build/second build/asked build/stack build/halfway build/records build/desk build/slider \
	build/bench$(BENCH_KIND)

.PHONY: help kit tools taken test lib install sheet host header-check host-test soak sanitize memcheck valgrind bench bench-instructions clean always

help:
	@echo 'make test                 prove, try the mistakes, run the host programs; last line: N passed, 0 failed'
	@echo 'make sheet [SITE=folder]  print the sheet of a site (default: $(SITE))'
	@echo 'make lib                  header and static library into build/'
	@echo 'make install PREFIX=dir   header, library and pkg-config file'
	@echo 'make host-test            the C programs alone'
	@echo 'make soak [SEED=number]   five million inputs against the second program'
	@echo 'make sanitize             the C programs under address and undefined-behaviour checks'
	@echo 'make memcheck             the C and the proved programs under valgrind, which sees into the machine code of the library'
	@echo 'make bench                speed beside the published method; bench-instructions counts instructions'

test:
	.ci/run

kit:
	@command -v rt >/dev/null || { echo 'make: the Rattle kit is not here: no command rt on the PATH' >&2; exit 1; }

# The compiler and the emulator that a machine other than x86-64 needs for the C programs.
tools:
	@host/tools.sh $(if $(EMULATOR),$(CROSS)-gcc $(firstword $(EMULATOR)))

# ---- the library

lib: $(ARCHIVE) build/include/fiddlequill.h

$(ARCHIVE): $(RATTLE) | kit
	@mkdir -p build
	@echo 'proving and building the archive; build/lib.log says how far it is'
	@cd crates/fiddlequill_c && rt lib >../../build/lib.log 2>&1 || { cat ../../build/lib.log >&2; exit 1; }
	cp crates/fiddlequill_c/out/libfiddlequill_c.a $@

build/include/fiddlequill.h: $(HEADER)
	@mkdir -p build/include
	cp $< $@

build/fiddlequill.pc: Makefile $(HEADER)
	@mkdir -p build
	printf 'prefix=%s\nlibdir=$${prefix}/lib\nincludedir=$${prefix}/include\n\nName: fiddlequill\nDescription: proved judge for lobby displays\nVersion: $(VERSION)\nLibs: -L$${libdir} -lfiddlequill\nCflags: -I$${includedir}\n' '$(PREFIX)' >$@

install: lib
	@rm -f build/fiddlequill.pc
	@$(MAKE) --no-print-directory build/fiddlequill.pc
	install -d $(DESTDIR)$(PREFIX)/include $(DESTDIR)$(PREFIX)/lib/pkgconfig
	install -m 644 build/include/fiddlequill.h $(DESTDIR)$(PREFIX)/include/
	install -m 644 $(ARCHIVE) $(DESTDIR)$(PREFIX)/lib/
	install -m 644 build/fiddlequill.pc $(DESTDIR)$(PREFIX)/lib/pkgconfig/

# ---- the sheet

# A site is a folder with tasks.bin and slots.bin, or with tasks.csv and slots.csv. Standard output has the sheet alone. The folder's name
# goes by the environment, whatever characters it has.
sheet: export SHEET_SITE = $(SITE)
sheet:
	@$(MAKE) -s build/sheet build/records >&2
	@host/sheet.sh build/sheet build/records "$$SHEET_SITE" build/sheet-site

# A proved program, for this machine to start. It is run once where it was built, on no files, and what it prints there goes into the log.
build/sheet build/questions: build/%: $(RATTLE) | kit tools
	@mkdir -p build
	@rm -f crates/$*/out/$*
	@(cd crates/$* && rt run </dev/null >../../build/$*.log 2>&1) || test -x crates/$*/out/$* || { cat build/$*.log >&2; exit 1; }
	$(call take,$*,$@)

# What the gate's proving left: the same programs, which needn't be proved and built again.
taken: | tools
	@mkdir -p build
	$(call take,sheet,build/sheet)
	$(call take,questions,build/questions)

# ---- the C programs

host: $(PROGRAMS) header-check

# The programs here are C; the header must do for C++ as well.
header-check: $(HEADER)
	$(CXX) -Wall -Wextra -Wpedantic -Werror -I$(INCLUDE) -fsyntax-only host/header.cpp

# An example's tables made into records beside the programs, and what the desk says of them, and the slider for each line of the example's
# slides, compared with what they must say: $(call example,its name,the programs' folder).
define example
rm -rf $(2)/$(1) && cp -R examples/$(1) $(2)/$(1)
$(2)/records make $(2)/$(1)
$(2)/desk $(2)/$(1) >$(2)/$(1)/desk.out
diff examples/$(1)/desk.expected $(2)/$(1)/desk.out
while read -r slide; do $(2)/slider $(2)/$(1) $$slide || exit 1; done <examples/$(1)/slides >$(2)/$(1)/slider.out
diff examples/$(1)/slider.expected $(2)/$(1)/slider.out
endef

host-test: host build/sheet build/questions
	host/records-test.sh build/records
	$(call example,site,build)
	$(call example,board,build)
	host/sheet-test.sh build/sheet build/records build/halfway build/site
	host/sheet.sh build/sheet build/records examples/board build/board-sheet >build/board/sheet.out
	diff examples/board/sheet.expected build/board/sheet.out
	examples/desk-test.sh build/desk build/records build/site
	examples/slider-test.sh build/slider build/records build/site
	build/stack
	rm -rf build/asked-room && mkdir build/asked-room
	build/asked '$(CURDIR)/build/questions' build/asked-room
	host/complaints-test.sh build build/questions
	host/halves.sh build/second $(INPUTS) 20260

soak: build/second
	build/second 5000000 $(SEED)

sanitize: build/questions build/sanitized/second build/sanitized/asked $(SANITIZED_USERS)
	host/records-test.sh build/sanitized/records
	$(call example,site,build/sanitized)
	$(call example,board,build/sanitized)
	examples/desk-test.sh build/sanitized/desk build/sanitized/records build/sanitized/site
	examples/slider-test.sh build/sanitized/slider build/sanitized/records build/sanitized/site
	rm -rf build/sanitized/asked-room && mkdir build/sanitized/asked-room
	build/sanitized/asked '$(CURDIR)/build/questions' build/sanitized/asked-room
	build/sanitized/second 20000

memcheck: valgrind $(MEMCHECKED) build/memcheck/second
	$(call example,site,build/memcheck)
	$(call example,board,build/memcheck)
	host/sheet.sh build/memcheck/sheet build/memcheck/records examples/board build/memcheck/room >build/memcheck/sheet.out
	diff examples/board/sheet.expected build/memcheck/sheet.out
	rm -rf build/memcheck/asked-room && mkdir build/memcheck/asked-room
	build/memcheck/asked '$(CURDIR)/build/memcheck/questions' build/memcheck/asked-room
	$(MEMCHECK) build/memcheck/second 20000

valgrind:
	@test -z '$(EMULATOR)' || { echo 'make memcheck: the library is x86-64 code, and valgrind takes that on x86-64 alone' >&2; exit 1; }
	@command -v valgrind >/dev/null || { echo 'make memcheck: no command valgrind on the PATH' >&2; exit 1; }

bench: build/bench$(BENCH_KIND)
	@test -z '$(BENCH_EMULATED)' || { echo 'make bench: this machine runs the archive in an emulator, and times there say nothing; BENCH_ARCHIVE=file measures one for this machine' >&2; exit 1; }
	BENCH_MACHINE='$(BENCH_MACHINE)' BENCH_MADE='$(BENCH_MADE)' BENCH_BEFORE_MADE='$(BENCH_BEFORE_MADE)' $< bench

bench-instructions: build/bench$(BENCH_KIND)
	@test -z '$(BENCH_EMULATED)' || { echo 'make bench-instructions: an emulator has other instructions; BENCH_ARCHIVE=file counts those of an archive for this machine' >&2; exit 1; }
	bench/instructions.sh $<

clean:
	rm -rf build crates/*/out

build/second: $(SECOND:%=build/host/%.o) $(ARCHIVE)
	$(call link,)

build/asked: $(ASKED:%=build/host/%.o)
	$(call link,)

build/stack: build/host/stack.o build/host/files.o $(ARCHIVE)
	$(call link,-pthread)

build/halfway: build/host/halfway.o build/host/files.o
	$(call link,)

build/records build/desk build/slider: build/%: build/host/%.o build/host/files.o $(ARCHIVE)
	$(call link,)

# This and the next are made anew each time: another archive may be meant by now, and an older one at that.
build/bench$(BENCH_KIND): $(BENCH:%=build/bench-objects$(BENCH_KIND)/%.o) $(BENCH_ARCHIVE) $(if $(BENCH_BEFORE),build/before.a) always
	$(BENCH_CC) $(LDFLAGS) $(filter-out always,$^) $(LDLIBS) -o $@

build/before.a: $(BENCH_BEFORE) always
	@mkdir -p $(@D)
	objcopy $(foreach call,$(BENCH_BEFORE_CALLS),--redefine-sym fiddlequill_$(call)=before_$(call)) \
		$(BENCH_BEFORE_CALLS:%=--keep-global-symbol=before_%) $< $@

build/sanitized/second: $(SECOND:%=build/sanitized/%.o) $(ARCHIVE)
	$(call link,$(SANITIZE))

build/sanitized/asked: $(ASKED:%=build/sanitized/%.o)
	$(call link,$(SANITIZE))

$(SANITIZED_USERS): build/sanitized/%: build/sanitized/%.o build/sanitized/files.o $(ARCHIVE)
	$(call link,$(SANITIZE))

# Its guards can't even be read.
build/memcheck/second: $(patsubst %,build/host/%.o,$(filter-out second,$(SECOND))) build/memcheck/second.o $(ARCHIVE)
	$(call link,)

build/memcheck/second.o: second.c $(HEADER) $(wildcard host/*.h) | tools
	@mkdir -p $(@D)
	$(CC) $(CFLAGS) -DMEMCHECK $(CPPFLAGS) -c $< -o $@

# A script that starts a program under valgrind.
$(MEMCHECKED): build/memcheck/%: build/%
	@mkdir -p $(@D)
	@printf '#!/bin/sh\nexec $(MEMCHECK) "%s" "$$@"\n' '$(CURDIR)/$<' >$@ && chmod +x $@

# The definition adds up cells by the billion; let the compiler take several at once.
build/host/definition.o build/sanitized/definition.o: CFLAGS += -O3

vpath %.c host examples bench

build/host/%.o: %.c $(HEADER) $(wildcard host/*.h) | tools
	@mkdir -p $(@D)
	$(CC) $(CFLAGS) $(CPPFLAGS) -c $< -o $@

build/sanitized/%.o: %.c $(HEADER) $(wildcard host/*.h) | tools
	@mkdir -p $(@D)
	$(CC) $(CFLAGS) $(SANITIZE) $(CPPFLAGS) -c $< -o $@

build/bench-objects$(BENCH_KIND)/%.o: %.c $(HEADER) $(wildcard host/*.h bench/*.h)
	@mkdir -p $(@D)
	$(BENCH_CC) $(BENCH_CFLAGS) $(CPPFLAGS) $(if $(BENCH_BEFORE),-DBENCH_BEFORE) -DBENCH_FLAGS='"$(BENCH_CFLAGS)"' -c $< -o $@
