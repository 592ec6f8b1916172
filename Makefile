# The library for C and C++, for those who use it rather than change it.
#
#   make            build/libmerqyduk.a. rt proves the crates that it stands on first: minutes, half a minute where it has kept them in crates/*/out/
#   make install    the headers, the library and merqyduk.pc under PREFIX, which is /usr/local if not given; DESTDIR goes before it
#   make uninstall  removes these four files
#   make test       host/test.sh: the library, the headers and the examples
#   make clean      removes build/. What is proved stays in crates/*/out/
#
# The gate is not this but rt ci.

PREFIX = /usr/local
INCLUDEDIR = $(PREFIX)/include
LIBDIR = $(PREFIX)/lib
DESTDIR =
RT = rt

include_to = $(DESTDIR)$(INCLUDEDIR)
lib_to = $(DESTDIR)$(LIBDIR)
# As merqyduk.pc has them: from its own prefix on, where they stand below it.
pc_include = $(patsubst $(PREFIX)/%,$${prefix}/%,$(INCLUDEDIR))
pc_lib = $(patsubst $(PREFIX)/%,$${prefix}/%,$(LIBDIR))
library = build/libmerqyduk.a
# What rt makes of the crate host_c.
made = crates/host_c/out/libhost_c.a
version = $(shell sed -n 's/.*MERQYDUK_VERSION_STRING "\(.*\)"/\1/p' include/merqyduk.h)
sources = crates.txt $(shell find crates \( -name must-fail -o -path 'crates/*/out' \) -prune -o -type f \( -name '*.rt' -o -name '*.antt' \) -print)

.DELETE_ON_ERROR:
.PHONY: all install uninstall test clean

all: $(library)

$(library): $(sources)
	@command -v $(RT) >/dev/null || { echo 'make: $(RT) is not installed; it proves and compiles the library' >&2; exit 1; }
	@mkdir -p build
	@echo 'proving and compiling the library; build/lib.log takes what rt says' >&2
	@rm -f $(made)
	@(cd crates/host_c && $(RT) lib) 2>&1 | tee build/lib.log | awk '/^rt: / && !/begins with what/ { print; fflush() }' >&2
	@[ -f $(made) ] || { grep -E 'error|not proved' build/lib.log | cut -c 1-300 | head -n 20 >&2; echo 'make: the library was not built; build/lib.log has what rt says' >&2; exit 1; }
	cp $(made) $@

install: $(library)
	@case '$(PREFIX)' in /*) ;; *) echo 'make: PREFIX is a path from the root on, not $(PREFIX)' >&2; exit 1 ;; esac
	install -d '$(include_to)' '$(lib_to)/pkgconfig'
	install -m 644 include/merqyduk.h include/merqyduk.hpp '$(include_to)'
	install -m 644 $(library) '$(lib_to)'
	sed 's|@PREFIX@|$(PREFIX)|; s|@INCLUDEDIR@|$(pc_include)|; s|@LIBDIR@|$(pc_lib)|; s|@VERSION@|$(version)|' host/merqyduk.pc.in >'$(lib_to)/pkgconfig/merqyduk.pc'

uninstall:
	rm -f '$(include_to)/merqyduk.h' '$(include_to)/merqyduk.hpp' '$(lib_to)/libmerqyduk.a' '$(lib_to)/pkgconfig/merqyduk.pc'

test: $(library)
	host/test.sh

clean:
	rm -rf build
