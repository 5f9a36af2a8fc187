# The library for C: the kit proves it and writes the archive, and this installs it with its header. GNU make.
#
#   make library                        target/library/libnegwafir.a
#   make install PREFIX=/some/where     lib/libnegwafir.a, include/negwafir.h and lib/pkgconfig/negwafir.pc under it
#   make uninstall PREFIX=/some/where
#
# DESTDIR, put before PREFIX, is where a package is put together. The archive is for x86-64, also where it is made on Arm.
VERSION := 5.1.0
PREFIX ?= /usr/local

# make takes a space for the end of a name, and the shell a sign such as & for its own.
ifneq ($(words [$(PREFIX)] [$(DESTDIR)]),2)
$(error PREFIX and DESTDIR may hold no space)
endif
ifeq ($(PREFIX),)
$(error PREFIX is empty)
endif
ifeq ($(wildcard crates.txt),)
$(error run it in the folder of the project: make -C FOLDER)
endif

library := target/library/libnegwafir.a
there := $(DESTDIR)$(abspath $(PREFIX))
archive := $(there)/lib/libnegwafir.a
header := $(there)/include/negwafir.h
config := $(there)/lib/pkgconfig/negwafir.pc

# With the folders, which are newer where a file was taken away; but not what the kit makes, nor the folders in which it does.
sources := $(shell find crates crates.txt -maxdepth 0; find crates -mindepth 2 -name out -prune -o -print)

.PHONY: library install uninstall
.DELETE_ON_ERROR:

library: $(library)

# What changes while the kit proves is newer than the mark that was set before, and is proved the next time.
$(library): $(sources)
	@command -v rt >/dev/null || { echo "make: there is no rt on the PATH; put the bin folder of the Rattle kit on it" >&2; exit 1; }
	@mkdir -p $(@D) && touch $(@D)/began
	@echo "make: proving and building the library, seconds, or some minutes on first use .." >&2
	@tools/prove make lib exports_c || { echo "make: the library is not proved; what rt lib said is above" >&2; exit 1; }
	@cp crates/exports_c/out/libexports_c.a $@ && touch -r $(@D)/began $@

install: $(library)
	install -D -m 644 $(library) '$(archive)'
	install -D -m 644 include/negwafir.h '$(header)'
	install -D -m 644 include/negwafir.pc.in '$(config)'
	sed -i -e 's|@PREFIX@|$(abspath $(PREFIX))|' -e 's|@VERSION@|$(VERSION)|' '$(config)'

uninstall:
	rm -f '$(archive)' '$(header)' '$(config)'
