# Wodzerim. `make` alone prints the lines below that begin with two signs. What is built stands in build/, which is never committed.
.PHONY: help test run lib hub install uninstall examples compare bench fmt toolchain native clean
.DEFAULT_GOAL := help
.NOTPARALLEL:

RT ?= rt
export RT PREFIX DESTDIR PROCESSOR

## make run        builds the hub program and opens the sample record, as a new user would
## make lib        builds build/libwodzerim.a, for C and Rust programs to link
## make hub        builds build/hub, the program that opens a sealed record
## make install    installs what lib and hub have built: headers, archive, pkg-config file, program, man page
## make uninstall  takes it away again
## make examples   builds the examples in C and Rust over the archive and runs them
## make compare    compares the archive and the program with the Rust
## make bench      measures speed and instructions beside the Rust's
## make test       all that CI runs; its last line is 'N passed, 0 failed'
## make fmt        lays out the files of crates/
## make clean      removes what is built: build/, and what rt keeps in crates/*/out
##
## PROCESSOR=x86_64 or aarch64 builds and installs for that processor (default: this machine's; the Rattle kit runs on x86-64 and compiles for both)
## PREFIX=/usr/local and DESTDIR= say where it is installed
## RT=/path/to/rt names the Rattle toolchain's command where it is not on the path
help:
	@sed -n 's/^## \{0,1\}//p' Makefile

test: native toolchain
	@sh scripts/test.sh

run: native hub
	./build/hub < examples/record.bin

lib: toolchain
	@sh scripts/lib.sh

hub: toolchain
	@sh scripts/hub.sh

install:
	@sh scripts/install.sh install

uninstall:
	@sh scripts/install.sh uninstall

examples: native lib
	@examples/run.sh

compare: native lib hub
	@compare/run.sh all build/hub crates/vectors/stdin

bench: native lib
	@compare/run.sh bench
	@compare/run.sh instructions
	@compare/run.sh instructions

fmt: toolchain
	@for crate in crates/*/src; do (cd "$$crate/.." && "$(RT)" fmt) || exit 1; done

toolchain:
	@command -v "$(RT)" >/dev/null || { echo "make: the Rattle toolchain's command '$(RT)' is not on the path. With it, '$(RT) doc' names the guide to read first; RT=/path/to/rt names it elsewhere." >&2; exit 1; }

# These targets run what they build.
native:
	@[ -z "$(PROCESSOR)" ] || [ "$(PROCESSOR)" = "$$(uname -m)" ] || { echo "make: this target runs what it builds, and this machine is $$(uname -m), not '$(PROCESSOR)'" >&2; exit 1; }

clean:
	rm -rf build target crates/*/out
