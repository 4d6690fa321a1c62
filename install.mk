# How the library for C is linked, and where what is built is installed; what `make dist` packs reads
# this too.

PREFIX ?= /usr/local
LIBDIR ?= $(PREFIX)/lib

# Where the library goes. HEADER and C_FILE belong to it, and PARTS are what else it is linked from.
OUT = out

# By itself for the gate, which has proved and built the library of Rattle by then.
link:
	mkdir -p $(OUT)
	cp $(HEADER) $(OUT)/chanv.h
	$(CC) -std=c99 -O2 -fPIC $(CFLAGS) -I$(OUT) -c -o $(OUT)/chanv_c.o $(C_FILE)
	$(CROSS)ld -r -o $(OUT)/chanv.o $(OUT)/chanv_c.o $(PARTS)
	$(CROSS)objcopy --wildcard --keep-global-symbol='chanv_*' $(BITCODE) $(OUT)/chanv.o
	rm -f $(OUT)/libchanv.*
	$(CROSS)ar rcs $(OUT)/libchanv.a $(OUT)/chanv.o
	$(CC) -shared $(HARDENED) -Wl,-soname,$(SONAME) -o $(OUT)/libchanv.so.$(VERSION) $(OUT)/chanv.o

# What Rust's own library has for LLVM, at which `ar` fails.
BITCODE = --remove-section=.llvmbc --remove-section=.llvmcmd

# The Rust part by plain rustc. Its groups of sections are dissolved: if a program has a group of the
# same name, the linker would drop the library's. What Rust's own library has for debuggers is
# dropped.
BY_RUSTC = --strip-debug --force-group-allocation

# Each symbol is bound when the library is loaded, so that its tables can be read-only then, and the
# stack of the program stays one from which nothing runs.
HARDENED = -Wl,-z,defs -Wl,-z,relro,-z,now -Wl,-z,noexecstack

# The name by which programs ask for the shared library: structs, codes and calls stay as long as the
# first number does.
SONAME = libchanv.so.$(firstword $(subst ., ,$(VERSION)))

BUILT = $(PROGRAM) $(OUT)/libchanv.a $(OUT)/libchanv.so.$(VERSION) $(OUT)/chanv.h
TO = $(DESTDIR)$(PREFIX)
TO_LIB = $(DESTDIR)$(LIBDIR)

# PROGRAM is the program, BUILDS what builds it and the library, BESIDES what chanv.pc says of the
# library besides, and PC_FILE what becomes chanv.pc. `make share` copies what no machine compiles.
install:
	@for built in $(BUILT); do test -f $$built || \
	  { echo "make install: no $$built; run $(BUILDS) first" >&2; exit 1; }; done
	@$(MAKE) --no-print-directory -f $(firstword $(MAKEFILE_LIST)) share
	install -D $(PROGRAM) "$(TO)/bin/chanv"
	install -D -m 644 $(OUT)/chanv.h "$(TO)/include/chanv.h"
	install -D -m 644 $(OUT)/libchanv.a "$(TO_LIB)/libchanv.a"
	install -D -m 644 $(OUT)/libchanv.so.$(VERSION) "$(TO_LIB)/libchanv.so.$(VERSION)"
	ln -sf libchanv.so.$(VERSION) "$(TO_LIB)/$(SONAME)"
	ln -sf $(SONAME) "$(TO_LIB)/libchanv.so"
	install -d "$(TO_LIB)/pkgconfig"
	sed -e 's|@PREFIX@|$(PREFIX)|; s|@VERSION@|$(VERSION)|' \
	  -e 's|@LIBDIR@|$(subst $(PREFIX)/,$${prefix}/,$(LIBDIR))|; /^Desc/s|$$|$(BESIDES)|' \
	  $(PC_FILE) > "$(TO_LIB)/pkgconfig/chanv.pc"
	chmod 644 "$(TO_LIB)/pkgconfig/chanv.pc"
	@test -n "$(DESTDIR)" || \
	  echo "make install: run ldconfig as root, so that programs find the library"

uninstall:
	rm -f "$(TO)/bin/chanv" "$(TO)/share/man/man1/chanv.1" "$(TO)/include/chanv.h" \
	  "$(TO)/share/bash-completion/completions/chanv" "$(TO_LIB)/libchanv.a" \
	  "$(TO_LIB)/libchanv.so" "$(TO_LIB)/$(SONAME)" "$(TO_LIB)/libchanv.so.$(VERSION)" \
	  "$(TO_LIB)/pkgconfig/chanv.pc"
	rm -rf "$(TO)/share/doc/chanv" "$(TO)/share/chanv"
