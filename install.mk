# make install: headers, archive, pkg-config file, manual page, examples and licence where C programmers look. make uninstall takes them away.
#     make install PREFIX=/usr/local LIBDIR=/usr/local/lib64 DESTDIR=/tmp/stage ETHNL_LIB=archive
# The archive is built if it is missing or older than the crates, unless ETHNL_LIB names another.
PREFIX ?= /usr/local
INCLUDEDIR ?= $(PREFIX)/include
LIBDIR ?= $(PREFIX)/lib
DATADIR ?= $(PREFIX)/share
MANDIR ?= $(DATADIR)/man
DOCDIR ?= $(DATADIR)/doc/ethnl
DESTDIR ?=
ETHNL_BUILT = target/staticlib/libethnl.a
ETHNL_LIB ?= $(ETHNL_BUILT)

ETHNL_VERSION := $(shell awk '/^.define ETHNL_VERSION_(MAJOR|MINOR|PATCH) / { printf "%s%s", dot, $$3; dot = "." }' include/ethnl.h)
ETHNL_HEADERS = include/ethnl.h include/ethnl_box.h
ETHNL_EXAMPLES = $(addprefix examples/,box.c box.h daemon.c same.c quay.box)
# Each function has the page under its own name too.
ETHNL_PAGES := $(shell sed -n 's/^[a-z0-9_]* \(ethnl_[a-z_]*\)[^a-z_].*/\1.3/p' include/ethnl.h)
ETHNL_INSTALLED = $(addprefix $(INCLUDEDIR)/,$(notdir $(ETHNL_HEADERS))) $(LIBDIR)/libethnl.a $(LIBDIR)/pkgconfig/ethnl.pc \
	$(addprefix $(MANDIR)/man3/,ethnl.3 $(ETHNL_PAGES)) $(addprefix $(DOCDIR)/,$(ETHNL_EXAMPLES) LICENSE)

.PHONY: install uninstall

$(ETHNL_BUILT): $(shell find crates crates.txt -type f -not -path '*/must-fail/*' -not -path '*/out/*')
	@echo "proving and building the library: about 5 minutes on two cores, the first time"
	@tools/archive

install: $(ETHNL_LIB)
	install -d $(addprefix $(DESTDIR),$(INCLUDEDIR) $(LIBDIR)/pkgconfig $(MANDIR)/man3 $(DOCDIR)/examples)
	install -m 644 $(ETHNL_HEADERS) $(DESTDIR)$(INCLUDEDIR)
	install -m 644 $(ETHNL_LIB) $(DESTDIR)$(LIBDIR)/libethnl.a
	sed -e 's|@PREFIX@|$(PREFIX)|' -e 's|@INCLUDEDIR@|$(INCLUDEDIR)|' -e 's|@LIBDIR@|$(LIBDIR)|' \
		-e 's|@VERSION@|$(ETHNL_VERSION)|' include/ethnl.pc.in >$(DESTDIR)$(LIBDIR)/pkgconfig/ethnl.pc
	awk -v version=$(ETHNL_VERSION) -f include/ethnl.3.awk include/ethnl.h >$(DESTDIR)$(MANDIR)/man3/ethnl.3
	for page in $(ETHNL_PAGES); do echo .so man3/ethnl.3 >$(DESTDIR)$(MANDIR)/man3/$$page || exit; done
	install -m 644 $(ETHNL_EXAMPLES) $(DESTDIR)$(DOCDIR)/examples
	install -m 644 LICENSE $(DESTDIR)$(DOCDIR)
	chmod 644 $(addprefix $(DESTDIR),$(ETHNL_INSTALLED))

uninstall:
	rm -f $(addprefix $(DESTDIR),$(ETHNL_INSTALLED))
	rmdir $(DESTDIR)$(DOCDIR)/examples $(DESTDIR)$(DOCDIR) 2>/dev/null || true
