# What is installed: the library for C with its header, pkg-config file and manual page, and the programs with theirs. The scripts do
# the work; they prove and build what is older than its sources. `make install PREFIX=/usr DESTDIR=/tmp/stage` is for packages.
PREFIX = /usr/local
prefix := $(abspath $(PREFIX))
root = $(DESTDIR)$(prefix)
version := $(shell sed -n 's/^.define RADVOINIS_VERSION "\(.*\)"/\1/p' include/radvoinis.h)
programs = listing draw histories
pages1 = $(programs:%=radvoinis-%.1)

all:
	bash scripts/ready.sh

# The samples and the suites. The gate, which also proves everything from nothing, is .ci/run.
check: all
	bash examples/run.sh --check
	bash tests/run.sh

install: all
	install -d $(root)/bin $(root)/include $(root)/lib/pkgconfig $(root)/share/man/man1 $(root)/share/man/man3
	for p in $(programs); do install -m 755 target/bin/$$p $(root)/bin/radvoinis-$$p || exit; done
	install -m 644 include/radvoinis.h $(root)/include
	install -m 644 target/lib/libradvoinis.a $(root)/lib
	sed 's|@PREFIX@|$(prefix)|; s|@VERSION@|$(version)|' c/radvoinis.pc.in >$(root)/lib/pkgconfig/radvoinis.pc
	install -m 644 $(pages1:%=man/%) $(root)/share/man/man1
	install -m 644 man/radvoinis.3 $(root)/share/man/man3

uninstall:
	rm -f $(programs:%=$(root)/bin/radvoinis-%) $(root)/include/radvoinis.h $(root)/lib/libradvoinis.a
	rm -f $(root)/lib/pkgconfig/radvoinis.pc $(pages1:%=$(root)/share/man/man1/%) $(root)/share/man/man3/radvoinis.3

.PHONY: all check install uninstall
