# Proves and builds what crates.txt lists: each crate as soon as those that it stands on are proved, and again after a
# change of its sources, of a crate below it or of the kit. `make help` lists the targets.
SHELL := bash
.SHELLFLAGS := -euo pipefail -c
.DELETE_ON_ERROR:
.SECONDARY:
MAKEFLAGS += --no-builtin-rules
export LC_ALL := C
.DEFAULT_GOAL := program
PREFIX = $(HOME)/.local
SECONDS_TO_FUZZ = 120
MACHINE := $(shell uname -m)
PROVER := tools/prover.py
# Where proved libraries are: `rt ci` refuses sources elsewhere, and a library has some.
P := crates/dnorm/out/rlib
ifneq (,$(filter-out help install lint check,$(or $(MAKECMDGOALS),program)))
$(if $(shell mkdir -p build 2> /dev/null && test -w build && echo yes),,$(error it writes into build/, and cannot))
endif
ifneq (,$(filter-out help install page test fuzz lint check clean,$(MAKECMDGOALS) $(if $(MAKECMDGOALS),,program)))
KIT := $(shell tools/kit.py 2> build/kit.said || true)
# With CHECKED=1, crates are taken from where `rt ci` or `rt check` has proved them. Functions of make do not export it.
$(shell CHECKED=$(CHECKED) $(PROVER) rules > build/crates.mk)
include build/crates.mk
# As many crates at once as there are processors, and 3 GB of memory for each.
ROOM := $(shell awk '/^MemAvailable/ { print int($$2 / 3000000) + 1 }' /proc/meminfo 2> /dev/null || echo 1)
ifeq (,$(findstring j,$(firstword -$(MAKEFLAGS))))
MAKEFLAGS += -j$(shell n=$$(nproc); echo $$((n < $(ROOM) ? n : $(ROOM))))
endif
endif
TARGET = --toolchain "$(KIT)/toolchain" --cpu x86-64
AR = "$(KIT)/toolchain/bin/llvm-ar"

help: ## prints these lines
	@sed -nE 's/^([a-z%.-]+):.*## (.*)/  make \1\t\2/p' Makefile | expand -t 28

program: build/dnorm ## proves the program, and builds it for every x86-64 processor: build/dnorm
static: build/static/dnorm ## links the program as a release has it, with the C library in it; needs gcc and libc6-dev
library: build/libdnorm.so.3 ## proves the library for C, and builds it: build/libdnorm.a, build/libdnorm.so.3
laws: $P/dn_laws.proved $P/dn_answers.proved ## proves the laws, on which the program does not stand
aarch64: build/aarch64/dnorm build/aarch64/libdnorm.so.3 ## proves and builds both for ARM; needs gcc-aarch64-linux-gnu
wasm: build/dnorm.wasm.gz ## makes the module, over libraries that are proved for WebAssembly; needs binaryen
page: build/dnorm.html ## makes the page of the module, or of the released one; needs no kit
c-file: build/libdnorm.c ## makes the library as one C file, of the archive of the module
%.proved: $P/%.proved ; ## proves the crate of this name, and those below it

kit:
	@cat build/kit.said >&2; exit 125

$P/%.proved:
	$(PROVER) build $* --statements -o "$(CURDIR)/$P/$*.rlib"
	touch $@
build/dnorm.o:
	$(PROVER) build dnorm $(TARGET) -o "$(CURDIR)/$@"
build/dn_c.a:
	$(PROVER) build dn_c $(TARGET) --incremental "$(CURDIR)/crates/dn_c/out/library" -o "$(CURDIR)/$@"
build/dnorm: build/dnorm.o
	"$(KIT)/bin/rattle-link" --target x86_64-unknown-linux-gnu --toolchain "$(KIT)/toolchain" -o $@ $< "$(KIT)"/c/{libos_c,liblibc_c}.a > /dev/null
build/static/dnorm: build/dnorm.o
	mkdir -p build/static
	gcc -static -Wl,--build-id=none,--cref,-Map=$@.map -o $@ $< "$(KIT)"/c/{libos_c,liblibc_c}.a
	strip --strip-all --remove-section=.comment $@
build/libdnorm.a build/libdnorm.so.3 &: build/dn_c.a c/link c/free.c c/dnorm.map
	c/link build cc objcopy $(AR) $< "$(KIT)/c/liblibc_c.a" --

# The kit has the C functions for x86-64 alone, so c/runtime-aarch64.c has them for ARM.
build/aarch64/%.o build/aarch64/%.a: TARGET = --toolchain "$(KIT)/toolchain" --target aarch64-unknown-linux-gnu
build/aarch64/dnorm.o: build/dnorm.o
	mkdir -p build/aarch64
	$(PROVER) build dnorm $(TARGET) -o "$(CURDIR)/$@"
build/aarch64/dn_c.a: build/dn_c.a
	mkdir -p build/aarch64
	$(PROVER) build dn_c $(TARGET) --incremental "$(CURDIR)/crates/dn_c/out/library" -o "$(CURDIR)/$@"
build/aarch64/runtime.o build/aarch64/heap.o: c/runtime-aarch64.c
	mkdir -p build/aarch64
	aarch64-linux-gnu-gcc -std=c11 -O2 -fPIC -Wall -Wextra -Werror $(if $(findstring heap,$@),-DONLY_HEAP) -c -o $@ $<
build/aarch64/dnorm: build/aarch64/dnorm.o build/aarch64/runtime.o
	aarch64-linux-gnu-gcc -static -Wl,--build-id=none -o $@ $^
	aarch64-linux-gnu-strip --strip-all --remove-section=.comment $@
build/aarch64/libdnorm.a build/aarch64/libdnorm.so.3 &: build/aarch64/dn_c.a build/aarch64/heap.o c/link c/free.c c/dnorm.map
	c/link build/aarch64 aarch64-linux-gnu-gcc aarch64-linux-gnu-objcopy $(AR) $< -- build/aarch64/heap.o

build/dnorm.wasm.gz: build/dn_c.a web/heap.c tools/wasm
	tools/wasm $(REBUILD)
build/libdnorm.c: build/dnorm.wasm.gz $(filter-out %__pycache__,$(wildcard c/file/*))
	c/file/make $@
build/dnorm.html: $(wildcard web/*.js web/*.mjs web/*.html build/dnorm.wasm.gz) web/make-page released/dnorm.wasm.gz \
		python/src/dnorm/hints.json crates/dn_command/src/help.rt
	web/make-page

check: ## the merge gate: proofs, must-fail edits, and all tests
	./check
lint: ## looks for faults that need no run, in scripts, pages and proofs
	tools/lint
test: page ## the tests of what is built, or of the released files: pytest, with TESTS=WORDS for it
	python=$$(for it in python3 /usr/bin/python3; do $$it -c 'import pytest, xdist, hypothesis' 2> /dev/null && echo $$it && break; done) \
		|| { echo 'make: no python3 has pytest, pytest-xdist and hypothesis: tools/setup installs them' >&2; exit 127; }; \
	$$python -m pytest -n auto --dist=loadgroup -rfEs $(TESTS)
install: ## installs the program, the library and the commands below PREFIX, by default ~/.local
	bin/install $(PREFIX)
fuzz: ## fuzzes the library by libFuzzer, for 120 s or SECONDS_TO_FUZZ; needs clang and libclang-rt-14-dev
	c/put build/prefix
	mkdir -p build/fuzz/corpus
	for it in examples/*.* examples/refused/*; do { printf 'dnorm%s' 123; cat $$it; } > build/fuzz/corpus/$${it##*/}; done
	clang -g -O1 -std=c11 -fsanitize=fuzzer,address,undefined -fno-sanitize-recover=all -Wl,--wrap=malloc,--wrap=realloc \
		-I build/prefix/include -o build/fuzz/run c/tests/fuzz.c $(firstword $(wildcard build/libdnorm.c) released/c/libdnorm.c)
	build/fuzz/run -max_total_time=$(SECONDS_TO_FUZZ) -max_len=600 -print_final_stats=1 build/fuzz/corpus
release: ## writes a release into dist/, and what a clone runs into released/
	packaging/release
clean: ## removes what was built, and keeps what was proved
	rm -rf build
.PHONY: help program static library laws aarch64 wasm page c-file kit check lint test fuzz install release clean
