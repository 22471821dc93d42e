# make: builds what a user takes away and shows it at work. make test: all the set-up and every test. make help: the targets.
.DEFAULT_GOAL := all
SHELL := /bin/bash
# One thing after the other, also under -j and in `make clean all`: tools/plan.sh itself proves crates side by side.
.NOTPARALLEL:
CALLS ?= 1000000
SEED ?= 1
ROUNDS ?= 400
PREFIX ?= /usr/local
# The names that the crate `programs` is a program under.
PROGRAMS := trace trace-261 home-trace snapshot snapshot-261 home-snapshot layers sheet repair
BINS := $(PROGRAMS:%=build/bin/%)
NATIVE := build/native/libvdp.a build/native/libvdp.so
# What compiles a module for a machine.
COMPILE := tools/native-module.sh tools/target.sh tools/toolchain.sh

.PHONY: all build together desk native install cartridge peers test compare homecalls memcheck damaged bench bus fuzz gears setup setup-rust setup-bus setup-c setup-cartridge prove clean help FORCE

all: build ## build the programs in build/bin and the libraries for this machine and for x86-64, and show what to try
	@sh tools/built.sh

build: together $(BINS) build/libvdp.a $(NATIVE) build/bin/desk ## prove and build them, and no more

desk: $(NATIVE) build/bin/desk ## the authors' desk, build/bin/desk, with the library that it goes by (docs/DESK.md)
	@echo "build/bin/desk is the authors' desk, over build/native/libvdp.so: docs/DESK.md tells of it, and build/bin/desk --help"

build/bin/desk: desk/desk | setup
	@mkdir -p build/bin
	@cp desk/desk $@

# A file is made again where a source of it, or the toolchain, has changed. The crate of the programs is proved by a plan, which leaves its LLVM module
# (tools/modules.sh); where that stays as it was nothing is compiled again.
PROVE := OF="programs face_c" bash tools/prove.sh
build/modules/programs: $(shell sh tools/sources.sh programs) build/toolchain tools/modules.sh | setup
	@$(PROVE) programs programs
	@touch $@

build/modules/programs.ll: build/modules/programs
	@[ -e $@ ] || $(PROVE) programs programs

$(BINS) &: build/modules/programs.ll tools/native-program.sh tools/program.c $(COMPILE)
	@TARGET= sh tools/native-program.sh $< $(BINS)
	@echo "$(BINS) compiled for this machine"

build/modules/face_c.ll build/libvdp.a &: $(shell sh tools/sources.sh face_c) build/toolchain tools/modules.sh | setup
	@$(PROVE) library face_c
	@cp crates/face_c/out/libface_c.a build/libvdp.a

# From nothing the library is proved with the programs, by one plan; later each by itself, where it has changed.
together: build/toolchain | setup
	@[ -e build/modules/programs ] || [ -e build/modules/face_c.ll ] || { $(PROVE) both face_c programs && cp crates/face_c/out/libface_c.a build/libvdp.a && touch build/modules/programs; }

build/toolchain: FORCE | setup
	@[ "$$(rt version)" = "$$(cat $@ 2> /dev/null)" ] || rt version > $@

native: $(if $(TARGET),build/cross/$(TARGET)/libvdp.a,$(NATIVE)) ## the library for this machine, build/native/libvdp.a and libvdp.so; TARGET= for another: aarch64, x86_64, riscv64 or armv7, as it is for Linux, with -none for bare metal

$(NATIVE) &: build/modules/face_c.ll include/vdp.h tools/native-lib.sh $(COMPILE)
	@TARGET= sh tools/native-lib.sh $< build/native
	@echo "build/native/libvdp.a and libvdp.so compiled for this machine"

build/cross/%/libvdp.a: build/modules/face_c.ll include/vdp.h tools/native-lib.sh tools/calls.awk tools/short.awk tools/memory.c $(COMPILE)
	@TARGET=$* sh tools/native-lib.sh $< build/cross/$*
	@echo "build/cross/$*/libvdp.a compiled for $*"

.PHONY: page setup-page
page: build/desk.html ## the desk as a page: build/desk.html, one file that opens in a browser (docs/PAGE.md)
	@echo "build/desk.html is the desk as a page: open it in a browser (docs/PAGE.md)"

# The same module once more, as WebAssembly.
build/native/vdp.wasm: build/modules/face_c.ll tools/wasm-module.sh tools/short.awk tools/toolchain.sh
	@mkdir -p build/native
	@sh tools/wasm-module.sh build/modules/face_c.ll $@

build/desk.html: build/native/vdp.wasm build/native/libvdp.so $(wildcard page/* desk/*) include/vdp.h docs/scripts/split-old.desk
	@python3 page/build.py build/native/vdp.wasm $@

install: ## put the library with its header, the programs, the desk and their pages under PREFIX=/usr/local
	@if command -v rt > /dev/null || [ ! -e build/native/libvdp.so ]; then $(MAKE) --no-print-directory build; fi
	@sh tools/install.sh "$(DESTDIR)$(PREFIX)"

cartridge: setup-cartridge build/native/libvdp.a ## build/cartridge: a player of cartridges of either machine, of the library and a Z80 core, and five cartridges (examples/cartridge, docs/CARTRIDGE.md)
	@sh examples/cartridge/build.sh build/native/libvdp.a

peers: build cartridge ## play our cartridges here, in MAME and in mednafen, where these are installed, and print what each shows (docs/HANDBOOK.md)
	@python3 peers/run.py

test: ## all the set-up, every proof and every test; the last line is their sum
	@bash tests/run.sh

compare: gears setup-rust build ## hold every call beside the published Rust: CALLS=1000000 SEED=1, GEARS= the folder of its vdp.rs
	@sh oracle/build.sh compare
	@sh tools/cross.sh run build/oracle/compare rows $(SEED)
	@sh tools/cross.sh run build/oracle/compare $(CALLS) $(SEED)

homecalls: setup-rust native ## hold every call of the home machine beside its rules written a second time: CALLS=1000000 SEED=1
	@HERE_LIB=build/native/libvdp.a sh oracle/build.sh docks-here
	@build/oracle/here/docks $(CALLS) $(SEED)
	@build/oracle/here/docks pixels 300 $(SEED)

memcheck: gears setup-rust native ## hold 10,000 calls beside the Rust under valgrind, with each buffer in memory of its own
	@sh oracle/memcheck.sh 10000 $(SEED)

damaged: gears setup-rust native ## show that the comparisons catch copies of the library, and of the home machine's second writing, with a slip in each
	@sh oracle/damaged.sh
	@sh oracle/slips.sh

bench: gears setup-rust build ## time passes of 261 steps, ours and the published Rust's, and count their instructions: ROUNDS=400 SEED=1
	@sh bench/run.sh $(ROUNDS) $(SEED)

bus: gears setup-bus native ## count the bytes of video memory that a pass loads, ours and the published Rust's, and the least: SEED=1
	@sh bench/bus.sh $(SEED)

fuzz: setup-c $(NATIVE) ## every call with hostile arguments, each buffer beside memory that may not be touched: CALLS=1000000 SEED=1
	@cc -std=gnu99 -O2 -Iinclude tests/fuzz.c build/native/libvdp.a -o build/fuzz
	@build/fuzz $(CALLS) $(SEED)

gears: # the published Rust is there
	@sh tools/gears.sh

prove: setup ## prove every crate that has changed
	@bash tools/prove.sh all

setup: ## install what this machine lacks to build (nothing where all is there)
	@sh tools/setup.sh

setup-rust: # what this machine lacks to test, to compare and to measure
	@sh tools/setup.sh rust

setup-c: # a C compiler
	@sh tools/setup.sh c

setup-bus: # and to count turns of the bus
	@sh tools/setup.sh bus

setup-cartridge: # and to play cartridges
	@sh tools/setup.sh cartridge

setup-page: # and to try the page in a browser
	@sh tools/setup.sh page

clean: ## remove what was built
	rm -rf build target crates/*/out

help: ## this list
	@awk -F ':.*## ' '/^[a-z]+:.*## / { printf "make %-9s %s\n", $$1, $$2 }' Makefile
