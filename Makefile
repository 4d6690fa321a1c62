# `make try DECK=..` judges a deck with nothing proved. `make` proves and builds chanv and runs it,
# `make test` runs every proof and every test, and `make audit` shows that the proofs mean
# something: it proves everything again, and tries mutants, which the prover has to refuse.
# `make lib` builds the library for C. `make install PREFIX=/usr/local` copies what these two built
# to where users expect it, the libraries to LIBDIR, and builds nothing; `make uninstall` removes it.
# `make table` prints the contracts. `make rustc` needs no kit: from the same sources plain rustc
# builds program and library in out/not_proved, with nothing proved, and `make install-rustc` copies
# them. `make static`, `make deb` and `make wheel` pack what is proved, `make static-rustc` and its like
# what isn't, and `make dist` its sources. `make hercules` builds the module for the emulator over one
# of the two libraries. `make coq` needs no kit either: it proves the laws again in Coq, and builds a
# second verifier, which is proved there.

VERSION = 1.0.0

# How many processors a proof may use; each takes up to 1.5 GB of memory.
JOBS ?= $(shell nproc)

# The kit with which all was proved last, as `rt version` names it.
KIT = rattle-kit-13f logic dac8208d650f15bf

# The libraries under chanv. `rt run` in chanv finds them built, and leaves out its quick pass over
# all sources.
LIBRARIES = ccw_core ckd_core chan_areas chan_walk chan_needs chan_why chan_args chan_deck chan_find chan_run

# The deck that `make try` explains the verdict on.
DECK ?= examples/changes-argument.deck

.PHONY: run libraries $(LIBRARIES) test audit proofs mutants unit_tests lib link install uninstall share
.PHONY: try rustc install-rustc static static-rustc dist deb deb-rustc wheel wheel-rustc fuzz coq table hercules
.PHONY: can_prove can_link can_test can_coq can_rustc can_deb

run: libraries
	cd crates/chanv && rt run --jobs $(JOBS) < stdin
	crates/chanv/out/chanv why examples/changes-itself.deck || test $$? -eq 1

# What is missing is named at once, and not after a quarter of an hour.
can_prove can_link can_test can_coq can_rustc can_deb:
	@KIT='$(KIT)' CC='$(CC)' CROSS='$(CROSS)' tests/tools $(@:can_%=%)

# One at a time: while rt is at work on a crate, it lets nobody else at those that it stands on.
libraries: can_prove $(LIBRARIES)

$(LIBRARIES):
	cd crates/$@ && rt lib --jobs $(JOBS)

# Each is built after those that it stands on. In a small crate, such as chanv itself, more jobs would
# read the same libraries once more each.
chan_areas: ccw_core
chan_walk: chan_areas ckd_core
chan_needs chan_why chan_find: chan_walk
chan_args: ccw_core ckd_core
chan_deck: chan_needs chan_why
chan_run: chan_args chan_find chan_deck
ccw_core ckd_core chan_areas chan_args chan_find run: private JOBS = 1

# Explains the verdict on a deck, with nothing proved: it compiles the sources as they are. The status
# of a *no* is 1, and so is that of `rt` if nothing compiles, so that the verdict has to be there.
try: can_prove
	@exec < "$(DECK)" && cd crates/chanv && said=$$(rt try -- why); status=$$?; \
	  test -z "$$said" || printf '%s\n' "$$said"; \
	  case "$$status $$said" in "0 yes"* | "1 no "*) ;; \
	  *) echo "make try: no verdict: rt try ended with status $$status" >&2; exit 1 ;; esac

# Builds program and library by plain rustc, with nothing proved. Rust's crates are Debian's, or
# come from crates.io; rustc/README.md says more. TARGET names another machine as rustc names it, and
# CROSS begins the names of its C compiler and its binutils, which leave out the version of an ARM.
TARGET =
CROSS = $(addsuffix -,$(patsubst armv7-%,arm-%,$(subst -unknown,,$(TARGET))))
NOT_PROVED = out/not_proved$(addprefix /,$(TARGET))
PROFILE = release
BY_CARGO = out/rustc/target/$(addsuffix /,$(TARGET))$(PROFILE)
ifneq ($(TARGET),)
CC = $(CROSS)gcc
export CARGO_TARGET_$(shell echo $(TARGET) | tr a-z- A-Z_)_LINKER = $(CC)
endif

rustc: can_rustc
	rustc/strip.py out/rustc
	cd out/rustc && cargo build --quiet --profile $(PROFILE) -p chanv -p chanv_c \
	  $(addprefix --target ,$(TARGET))
	$(MAKE) --no-print-directory link OUT=$(NOT_PROVED) \
	  PARTS="$(BY_RUSTC) $(BY_CARGO)/libchanv_c.a"
	cp $(BY_CARGO)/chanv-rustc $(NOT_PROVED)/chanv
	@echo "chanv and its library are in $(NOT_PROVED), and nothing of them is proved"

# One program that needs no shared library, by plain rustc, and what `make` proved, linked by the
# system's linker, because the kit's links no C library in.
static-rustc: PROFILE = static
static-rustc: can_rustc
	rustc/strip.py out/rustc
	cd out/rustc && cargo rustc --quiet --profile $(PROFILE) -p chanv --bin chanv-rustc \
	  $(addprefix --target ,$(TARGET)) -- -C target-feature=+crt-static
	mkdir -p $(NOT_PROVED)
	cp $(BY_CARGO)/chanv-rustc $(NOT_PROVED)/chanv-static
	@echo "$(NOT_PROVED)/chanv-static needs no shared library, and nothing of it is proved"

static: can_link
	@test -f $(PROGRAM).o || { echo "make static: no $(PROGRAM).o; run make first" >&2; exit 1; }
	mkdir -p $(OUT)
	$(CC) -static -s -o $(OUT)/chanv-static $(PROGRAM).o \
	  "$$(dirname "$$(rt doc)")/c/libos_c.a" "$$(dirname "$$(rt doc)")/c/liblibc_c.a"
	@echo "$(OUT)/chanv-static needs no shared library"

# Packs what `make install` installs, as sources with Rust's crates. In the folder of the archive
# `make` builds it by cargo and a C compiler alone, as the README there says.
DIST = out/chanv-$(VERSION)-not-proved.tar.gz
dist:
	mkdir -p out
	rustc/dist.py $(VERSION) $(DIST)
	@echo "$(DIST) is packed, and nothing of it is proved"

# Proves the laws again in Coq, over definitions translated from specs/, and judges a deck by the
# verifier that is proved there; coq/README.md says more.
coq: can_coq
	$(MAKE) --no-print-directory -C coq
	out/coq/chanv-coq verify $(DECK) || test $$? -eq 1

# The module for Hercules, over the library in out/ or out/not_proved; hercules/README.md says more.
hercules:
	@$(MAKE) --no-print-directory -s -C hercules all programs

# Prints each public function with the clauses of its contract and its mutants.
table:
	@tests/proof_table.py

test: can_test libraries
	tests/run --all --jobs $(JOBS)

# In a fresh checkout `make` and `make lib` then find everything built.
audit: can_test
	tests/audit.py

# libFuzzer, so many seconds over each of decks, images and calls.
SECONDS = 60
fuzz:
	tests/fuzz.py --seconds $(SECONDS)

mutants: run lib
	tests/mutants.py --built

# The kit's gate: the first half of an audit.
proofs: can_test
	tests/audit.py --proofs

# The program of the unit tests, which tests/refused_memory.py runs too.
unit_tests: libraries
	cd crates/unit_tests && rt test --jobs $(JOBS)

# The library for C with the kit's runtime and the C file, as one object that shows nothing but
# chanv's calls, in an archive and a shared library, each of which links by itself.
lib: can_link
	cd crates/chanv_c && rt lib --jobs $(JOBS)
	$(MAKE) --no-print-directory link

# The header and the C file of the library, and the parts that it is linked from besides.
HEADER = crates/chanv_c/include/chanv.h
C_FILE = c/chanv.c
PARTS = --whole-archive crates/chanv_c/out/libchanv_c.a --no-whole-archive \
  "$$(dirname "$$(rt doc)")/c/liblibc_c.a"

PROGRAM = crates/chanv/out/chanv
BUILDS = make and make lib
BESIDES =
PC_FILE = docs/chanv.pc.in

# What the pages link to outside docs/, and the decks and programs that they name. README makes
# examples/dump.deck.
SHOWN = $(filter-out %/dump.deck,$(wildcard examples/*.* examples/*/*.*)) \
  hercules/Makefile $(wildcard hercules/*.*) \
  bench/README.md coq/README.md python/README.md rustc/README.md

share:
	install -D -m 644 docs/chanv.1 "$(TO)/share/man/man1/chanv.1"
	install -D -m 644 docs/chanv.bash "$(TO)/share/bash-completion/completions/chanv"
	install -d "$(TO)/share/chanv/python/chanv"
	install -m 644 python/chanv/*.py python/chanv/py.typed "$(TO)/share/chanv/python/chanv"
	install -d "$(TO)/share/doc/chanv/docs"
	install -m 644 README.md CHANGELOG.md "$(TO)/share/doc/chanv"
	install -m 644 docs/*.md docs/*.svg "$(TO)/share/doc/chanv/docs"
	@for shown in $(SHOWN); do \
	  install -D -m 644 "$$shown" "$(TO)/share/doc/chanv/$$shown" || exit 1; done
	chmod 755 "$(TO)/share/doc/chanv/hercules/fetch.sh"

# Installs what `make rustc` built under the same names, so that the proved library can take its
# place; the program, the library's version and chanv.pc say that it isn't proved.
install-rustc:
	@$(MAKE) --no-print-directory -f $(firstword $(MAKEFILE_LIST)) install OUT=$(NOT_PROVED) \
	  PROGRAM=$(NOT_PROVED)/chanv BUILDS="make rustc" BESIDES=", not proved"

# Debian's packages of what `make install` copies, or with MARK and INSTALL of what
# `make install-rustc` does: their version then says so. CHANGELOG tells their date.
INSTALL = install
MARK =
PACKAGES = $(OUT)/deb
TO_PACK = $(abspath $(PACKAGES))/chanv
deb: can_deb
	rm -rf $(PACKAGES)
	mkdir -p $(TO_PACK)
	cp -R debian $(TO_PACK)
	$(MAKE) --no-print-directory -s $(INSTALL) DESTDIR=$(TO_PACK)/stage PREFIX=/usr \
	  LIBDIR=/usr/lib/$$(dpkg-architecture -qDEB_HOST_MULTIARCH)
	@printf '%s\n' 'chanv ($(VERSION)$(MARK)) unstable; urgency=medium' '' \
	  '  * CHANGELOG.md says what is new.' '' \
	  " -- $$(sed -n 's/^Maintainer: //p' debian/control)  $$(date -R -r CHANGELOG.md)" \
	  > $(TO_PACK)/debian/changelog
	cd $(TO_PACK) && dpkg-buildpackage -b -us -uc > ../log 2>&1 || { tail ../log >&2; exit 1; }
	@echo "$(PACKAGES) has the packages"

deb-rustc:
	@$(MAKE) --no-print-directory deb OUT=$(NOT_PROVED) INSTALL=install-rustc MARK='~not.proved'

# The Python package with the library in it, as a wheel for machines of this kind, or of TARGET's.
PLATFORM = linux_$(patsubst armv7,armv7l,$(firstword $(subst -, ,$(TARGET)) $(shell uname -m)))
WHEELS = $(OUT)
wheel:
	@test -f $(OUT)/libchanv.so.$(VERSION) || \
	  { echo "make wheel: no $(OUT)/libchanv.so.$(VERSION); run make lib first" >&2; exit 1; }
	@mkdir -p $(WHEELS)
	@wheel=$$(python3 -B python/backend/building.py $(WHEELS) $(OUT)/libchanv.so.$(VERSION) \
	  $(PLATFORM) $(MARK)) && echo "$(WHEELS)/$$wheel is for pip"

wheel-rustc:
	@$(MAKE) --no-print-directory wheel OUT=$(NOT_PROVED) MARK='+not.proved'

include $(dir $(firstword $(MAKEFILE_LIST)))install.mk
