# The project's commands. `make` alone lists them.
SHELL = bash
.SHELLFLAGS = -o pipefail -c
RT ?= rt
CC ?= cc
override RT := $(or $(shell found=$$(command -v "$(RT)") && readlink -f "$$found"),$(RT))
export RT CC
TIME ?= 600
CASES ?= 3000
PREFIX ?= /usr/local
DESTDIR ?=
LIBRARY = target/staticlib/libbursztok.a
SHARED = target/shared
# The library links into x86-64 programs only. On another machine host/ asks a bridge that has it linked and runs under an emulator.
BRIDGE = $(shell tools/x86-64 here || echo target/staticlib/bridge)
SOURCES = $(shell find crates -name out -prune -o \( -name '*.rt' -o -name '*.antt' \) -print)
VERSION = $(shell sed -n 's/^.define BURSZTOK_VERSION "\(.*\)"$$/\1/p' include/bursztok.h)
CARGO = cd host && cargo
RUN = $(CARGO) run --quiet --release --offline --bin
TOOLS = host/target/release

.PHONY: help test check lib library shared desk demo host-test planted example stack bench soak vectors install clean cargo toolchain

help: ## lists the targets
	@sed -n 's/^\([a-z-]*\):.*## /\1|/p' Makefile | awk -F'|' '{ printf "make %-10s %s\n", $$1, $$2 }'

test: ## proves every crate and tries the library; the last line is 'N passed, 0 failed'
	@tools/test

check: toolchain ## proves what has changed since the last check
	@"$(RT)" all check | tools/progress

lib: library ## makes target/staticlib/libbursztok.a; its header is include/bursztok.h
	@echo "$(LIBRARY) is made; link with: cc -I include PROGRAM.c $(LIBRARY)"

library: toolchain $(LIBRARY) $(BRIDGE)

$(LIBRARY): crates.txt $(SOURCES)
	@echo "proving what has changed and building $(LIBRARY) (some minutes the first time)"
	@tools/library $(LIBRARY)

target/staticlib/bridge: $(LIBRARY) host/bindings/bridge.c include/bursztok.h
	@tools/x86-64 compile $@ host/bindings/bridge.c $(LIBRARY)

shared: library ## makes target/shared/libbursztok.so, which exports the calls only
	@tools/shared $(LIBRARY) $(SHARED)
	@echo "link with: cc -I include PROGRAM.c -L $(SHARED) -lbursztok"

desk: cargo library ## builds the desk's tool, and the second program that makes test keys and files for it
	@$(CARGO) build --release --offline --bin bursztok --bin bursztok-second
	@echo "the desk's tool is $(TOOLS)/bursztok, the second program $(TOOLS)/bursztok-second"

demo: cargo library ## signs a sheet on one side and checks it on the other, and shows damaged records refused
	@$(RUN) bursztok -- demo

host-test: cargo library ## the tests of host/, the planted faults, and CASES random cases of the library against the second program
	@$(CARGO) test --quiet --offline
	@$(RUN) bursztok-compare -- --cases $(CASES)

planted: cargo library ## plants the faults of host/planted in host/ one by one; a test must catch each (some minutes)
	@tools/planted

example: library ## compiles and runs examples/sheet.c
	@tools/x86-64 compile target/sheet examples/sheet.c $(LIBRARY)
	@tools/x86-64 run target/sheet

stack: library ## the stack that each call takes, beside the header's figures
	@tools/x86-64 compile target/stack tools/stack.c $(LIBRARY)
	@tools/x86-64 run target/stack

bench: cargo library ## calls a second beside the second program; instructions by callgrind beside their bars (on x86-64)
	@tools/x86-64 here || { echo "not an x86-64 machine: the library runs under an emulator here, and what is measured would say nothing"; exit 1; }
	@$(RUN) bursztok-bench
	@tools/programs target/bin ring_bench choices_bench
	@$(RUN) bursztok-bench -- --bars ../target/bin

soak: cargo library ## random cases of the library against the second program for TIME seconds
	@$(RUN) bursztok-compare -- --seconds $(TIME)

vectors: cargo ## writes the second program's vectors, which the program replay runs
	@$(RUN) bursztok-vectors -- ../crates/replay/data/vectors.bin

install: desk ## copies archive, header, pkg-config file, tool, man page and completion to DESTDIR PREFIX (and the shared library, once made)
	@install -d "$(DESTDIR)$(PREFIX)"/{bin,include,lib/pkgconfig,share/man/man1,share/bash-completion/completions}
	@install -m 644 $(LIBRARY) "$(DESTDIR)$(PREFIX)/lib"
	@install -m 644 include/bursztok.h "$(DESTDIR)$(PREFIX)/include"
	@sed -e 's|@PREFIX@|$(PREFIX)|' -e 's|@VERSION@|$(VERSION)|' tools/bursztok.pc.in >"$(DESTDIR)$(PREFIX)/lib/pkgconfig/bursztok.pc"
	@install -m 755 $(TOOLS)/bursztok "$(DESTDIR)$(PREFIX)/bin"
	@install -m 644 docs/bursztok.1 "$(DESTDIR)$(PREFIX)/share/man/man1"
	@$(TOOLS)/bursztok completion bash >"$(DESTDIR)$(PREFIX)/share/bash-completion/completions/bursztok"
	@[ ! -e $(SHARED) ] || cp -P $(SHARED)/* "$(DESTDIR)$(PREFIX)/lib"
	@echo "installed in $(DESTDIR)$(PREFIX): pkg-config --cflags --libs bursztok"

clean: ## removes all that was made, what is proved too
	@rm -rf target host/target crates/*/out

cargo:
	@command -v cargo >/dev/null || { echo "cargo is not found: what is in host/ is Rust"; exit 1; }

toolchain:
	@[ -f "$(RT)" ] && [ -x "$(RT)" ] || { echo "rt is not found: the Rattle toolchain is needed (put its bin/ on PATH, or run make RT=its/rt)"; exit 1; }
