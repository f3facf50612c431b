# make: the program at build/chelbugan and the library that it calls, build/libchelbugan.a. library: the library alone.
# install: the headers, the library (to LIBDIR), a pkg-config file, and the program with its manual and completions, to PREFIX,
# below DESTDIR; uninstall removes the same. A folder's name may have spaces. clean: removes what was built; the proofs in
# crates/*/out/ stay.
# demo: judge the sections and bodies of examples/ by the program and run some of them, then answer the requests of
# examples/requests.txt by computing the definitions.
# test: what can be tested without proving anything: the pages, the plain checker, the program, the archive from outside.
# check: run the gate. compare: the library against the plain checker on COUNT requests. floats: its float operations against
# the processor's own on PAIRS pairs each. valgrind: the library under it.
# counts: instructions of the benchmark's inputs, beside those of the last landing.
# bench: times, to docs/BENCH.md and docs/EMBEDDING.md. figures: code, stack and sums of both machines' archives, to docs/EMBEDDING.md.
# The library needs the Rattle toolchain's rt, all else cargo, on x86-64 or Arm. With CHELBUGAN_LIB_DIR, a folder with a
# libchelbugan.a that is there, nothing is proved and rt is not needed.
.PHONY: all library cargo install install-program uninstall clean demo test check compare floats valgrind counts bench figures

REQUESTS := examples/requests.txt
SEED := 1
COUNT := 1000000
PAIRS := 10000000
PREFIX := /usr/local
LIBDIR := $(PREFIX)/lib
DESTDIR :=

# cargo's build scripts run in another folder.
ifneq ($(CHELBUGAN_LIB_DIR),)
export CHELBUGAN_LIB_DIR := $(abspath $(CHELBUGAN_LIB_DIR))
endif
ARCHIVE := $(if $(CHELBUGAN_LIB_DIR),$(CHELBUGAN_LIB_DIR),build)/libchelbugan.a
HEADER := include/chelbugan.h
HEADERS := $(HEADER) include/chelbugan_host.h
VERSION := $(shell sed -n 's/^.define CHELBUGAN_VERSION_TEXT "\(.*\)"/\1/p' $(HEADER))
# Between quotes in each line of the shell: a name with spaces is one word there, but several for make's own functions.
INTO := $(DESTDIR)$(PREFIX)
LIB := $(DESTDIR)$(LIBDIR)
SHARE := $(INTO)/share
TEST = CHELBUGAN_LIB_DIR=$(abspath $(dir $(ARCHIVE))) cargo test --release --quiet --manifest-path

all: library cargo
	@cargo build --release --quiet --manifest-path host/Cargo.toml
	@mkdir -p build
	@cp host/target/release/chelbugan build/chelbugan
	@echo 'build/chelbugan is built'

library:
	@$(if $(CHELBUGAN_LIB_DIR),true,host/build-library build)

cargo:
	@command -v cargo >/dev/null || { echo 'make: cargo is not on PATH. It is the build tool of Rust: install Rust 1.95 or later (https://rustup.rs).' >&2; \
	    echo 'make: the library alone needs no cargo: make library. Nothing was removed.' >&2; exit 1; }

# pkg-config splits what Libs and Cflags come to into words, as a shell does.
define PKG_CONFIG
prefix=$(PREFIX)
libdir=$(subst $(PREFIX)/,$${prefix}/,$(LIBDIR))
includedir=$${prefix}/include

Name: chelbugan
Description: Says yes or no to a WebAssembly add-on before the add-on may run
Version: $(VERSION)
Libs: -L"$${libdir}" -lchelbugan
Cflags: -I"$${includedir}"
endef
export PKG_CONFIG

install:
	@[ -f "$(ARCHIVE)" ] || { echo 'make: there is no $(ARCHIVE) to install: make, or make library, builds it' >&2; exit 1; }
	@install -d "$(INTO)/include" "$(LIB)/pkgconfig"
	@install -m 644 $(HEADERS) "$(INTO)/include"
	@install -m 644 "$(ARCHIVE)" "$(LIB)/libchelbugan.a"
	@printf '%s\n' "$$PKG_CONFIG" >"$(LIB)/pkgconfig/chelbugan.pc"
	@chmod 644 "$(LIB)/pkgconfig/chelbugan.pc"
	@if [ -f build/chelbugan ]; then $(MAKE) --silent install-program; fi
	@echo 'chelbugan $(VERSION) is installed in $(INTO)'

install-program:
	@install -d "$(INTO)/bin" "$(SHARE)/man/man1" "$(SHARE)/bash-completion/completions" "$(SHARE)/zsh/site-functions" \
	    "$(SHARE)/fish/vendor_completions.d"
	@install -m 755 build/chelbugan "$(INTO)/bin/chelbugan"
	@install -m 644 host/share/chelbugan.1 "$(SHARE)/man/man1/chelbugan.1"
	@install -m 644 host/share/chelbugan.bash "$(SHARE)/bash-completion/completions/chelbugan"
	@install -m 644 host/share/_chelbugan "$(SHARE)/zsh/site-functions/_chelbugan"
	@install -m 644 host/share/chelbugan.fish "$(SHARE)/fish/vendor_completions.d/chelbugan.fish"

uninstall:
	@cd "$(INTO)" && rm -f $(HEADERS) bin/chelbugan share/man/man1/chelbugan.1 share/bash-completion/completions/chelbugan \
	    share/zsh/site-functions/_chelbugan share/fish/vendor_completions.d/chelbugan.fish
	@rm -f "$(LIB)/libchelbugan.a" "$(LIB)/pkgconfig/chelbugan.pc"

clean:
	@rm -rf build host/target tests/plain/target tests/definitions/target tests/host/target bench/target
	@echo 'what was built is removed; the proofs stay in crates/*/out/ (remove those too to prove from nothing)'

demo: all
	@examples/demo
	@echo 'Requests in lines, answered by computing the definitions:'
	@answers=$$(cargo run --release --quiet --manifest-path tests/definitions/Cargo.toml -- . < $(REQUESTS)) && \
	printf '%s\n' "$$answers" | sed 's/^/    /' | paste -d '\n' $(REQUESTS) -

# The archive that is there is tested as it is: cargo is told its folder, so that no build script begins to prove.
test: cargo
	@[ -f $(ARCHIVE) ] || { echo 'make: there is no $(ARCHIVE) to test: make library proves and builds it, or CHELBUGAN_LIB_DIR names' >&2; \
	    echo 'make: a folder that has a libchelbugan.a. make test itself proves nothing.' >&2; exit 1; }
	@$(if $(CHELBUGAN_LIB_DIR),,[ -z "$$(find crates crates.txt -name out -prune -o -type f -newer $(ARCHIVE) -print | head -n 1)" ] || \
	    echo 'make: files of crates/ are newer than $(ARCHIVE); what is tested is the archive as it was built')
	@echo '== what the pages name' && tests/pages/check
	@echo '== plain checker' && $(TEST) tests/plain/Cargo.toml
	@echo '== the program' && $(TEST) host/Cargo.toml
	@echo '== the archive from outside' && $(TEST) tests/host/Cargo.toml
	@echo '== the benchmark' && $(TEST) bench/Cargo.toml
	@echo 'every test passed with $(ARCHIVE); nothing was proved (make check does that)'

check:
	.ci/run

compare: library cargo
	@cargo run --release --quiet --manifest-path tests/host/Cargo.toml -- compare $(SEED) $(COUNT)

floats: library cargo
	@cargo run --release --quiet --manifest-path tests/host/Cargo.toml -- floats $(SEED) $(PAIRS)

valgrind: library cargo
	@tests/host/valgrind

bench: library cargo
	@cd bench && cargo run --release --quiet

counts: library cargo
	@bench/counts

figures: cargo
	@bench/figures
