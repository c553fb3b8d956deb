# run: the request list of the tables in DIR      list: the records of the table in DIR      (an example's, where DIR isn't given)
# why NAME=.. BLOCK=..: why a block of those tables isn't coming
# show: what a sample message holds      cases: the worked cases, a line each      test: the whole gate
# bench: library and reference side by side      soak N=..: that many generated inputs compared
# install PREFIX=.. DESTDIR=..: header, library and pkg-config file      uninstall: takes them away
# LIB=..: a library that is there already, instead of proving and building this one
.PHONY: run why list show cases test bench soak install uninstall
SHELL := bash
.SHELLFLAGS := -eu -o pipefail -c

BUILT := target/staticlib/libbep.a
LIB := $(BUILT)
DIR ?= crates/wanted/data

# What the toolchain says of its progress, and its verdict.
PROGRESS := grep --line-buffered -E '^(rt:|logic=)'

# Proves a program and what it uses, and compiles it.
target/bin/%: $(wildcard crates/*/src/*.rt)
	@echo "proving $* and what it uses, some minutes the first time"
	@tools/program $* 2>&1 | $(PROGRESS)

run: target/bin/wanted
	@cd $(DIR) && $(CURDIR)/target/bin/wanted

# The name reaches the program as it is, whatever a shell would make of it.
why: export NAME = b
why: export BLOCK = 1
why: target/bin/why
	@cd $(DIR) && $(CURDIR)/target/bin/why "$$NAME" "$$BLOCK"

list: DIR = crates/listing/data
list: target/bin/listing
	@cd $(DIR) && $(CURDIR)/target/bin/listing

show: $(LIB)
	@cd host && cargo run --quiet --release --offline --example make_sample ../target/sample.bin
	@cc -std=c99 -Wall -Wextra -Werror -Ihost/include host/examples/show.c $(LIB) -o target/show
	@target/show target/sample.bin

CASES := cases edition_cases feed_cases table_cases queue_cases want_cases settings_cases
cases: $(addprefix target/bin/,$(CASES))
	@for program in $(CASES); do target/bin/$$program; done

test:
	@.ci/run

bench: $(LIB)
	@cd host && cargo bench --quiet --offline

N ?= 1000000
soak: $(LIB)
	@cd host && SOAK=$(N) cargo test --quiet --release --offline -- generated lists --nocapture

# Only the library that is built here has a rule: another one is taken as it is.
$(BUILT): $(wildcard crates/*/src/*.rt)
	@echo "proving the library, some minutes the first time"
	@tools/library 2>&1 | $(PROGRESS)

PREFIX ?= /usr/local
VERSION = $(shell sed -n 's/^version = "\(.*\)"$$/\1/p' host/Cargo.toml)
HEADER = $(DESTDIR)$(PREFIX)/include/fordtrumpet.h
ARCHIVE = $(DESTDIR)$(PREFIX)/lib/libbep.a
PC = $(DESTDIR)$(PREFIX)/lib/pkgconfig/fordtrumpet.pc

install: $(LIB)
	@mkdir -p '$(dir $(HEADER))' '$(dir $(PC))'
	@install -m 644 host/include/fordtrumpet.h '$(HEADER)'
	@install -m 644 '$(LIB)' '$(ARCHIVE)'
	@sed 's|@PREFIX@|$(abspath $(PREFIX))|; s|@VERSION@|$(VERSION)|' host/fordtrumpet.pc.in >'$(PC)'
	@chmod 644 '$(PC)'

uninstall:
	@rm -f '$(HEADER)' '$(ARCHIVE)' '$(PC)'
