# Builds the desk's library for C, Rust and Python, and installs it with the command `office`.
#
#   make                             the static and the shared library, target/staticlib/libdesk.a and target/lib/libdesk.so
#   make shared                      the same; the shared library is made of the static one
#   make programs                    the programs that read registers by themselves: allotment, clean and work in target/bin
#   make install PREFIX=/usr/local   header files, libraries, pkg-config file, man pages, Python packages, and the commands
#   make uninstall PREFIX=/usr/local takes away what install has put there
#   make check-install               tries an installation in a folder of its own
#
# The static library and the programs are built by the Rattle kit, which proves every crate below them: many minutes from nothing.
# Each is built again only if a source of these crates is newer. For packages DESTDIR is put before every path; BINDIR, LIBDIR,
# INCLUDEDIR and MANDIR can be given too.

# No rule for other languages is tried on the sources, which takes time.
MAKEFLAGS += --no-builtin-rules
.SUFFIXES:

PREFIX ?= /usr/local
DESTDIR ?=
BINDIR ?= $(PREFIX)/bin
LIBDIR ?= $(PREFIX)/lib
INCLUDEDIR ?= $(PREFIX)/include
MANDIR ?= $(PREFIX)/share/man
RT ?= rt
CC ?= cc
INSTALL ?= install

# The version is the header's; tests hold whatever else names it to that.
VERSION := $(shell sed -nE 's/^.define DESK_VERSION "(.*)"$$/\1/p' include/desk.h)
MAJOR := $(firstword $(subst ., ,$(VERSION)))

STATIC := target/staticlib/libdesk.a
SHARED := target/lib/libdesk.so.$(MAJOR)
PROGRAMS := target/bin/allotment target/bin/clean target/bin/work

# The crates that one stands on, itself among them: in crates.txt a crate stands below those that it names. Its kind may follow a name.
below = $(shell awk -F: -v top=$(1) '{ split($$1, word, " "); name[NR] = word[1]; below[NR] = $$2 } \
    END { wanted[top]; for (i = NR; i > 0; i--) if (name[i] in wanted) { \
        print name[i]; n = split(below[i], part, " "); for (j = 1; j <= n; j++) wanted[part[j]] } }' crates.txt)
# Their files, and the folders too: one that has lost a file is newer than before.
sources = $(shell find $(wildcard $(foreach part,src specs proofs,$(patsubst %,crates/%/$(part),$(call below,$(1))))))

# What is put into the folder of the Python packages, which is all ours.
OURS = $(LIBDIR)/pinnaclebalm
PACKAGES = $(shell find python/desk python/office -type f ! -name '*.pyc')

# Each function of the header has the man page desk(3) under its own name too. A bracket alone would end make's own.
BRACKET := (
FUNCTIONS = $(sort $(shell grep -oE 'desk_[a-z_]+[$(BRACKET)]' include/desk.h | tr -d '$(BRACKET)'))

.PHONY: all shared programs install uninstall check-install
all: $(STATIC) shared
shared: $(SHARED) target/lib/libdesk.so
programs: $(PROGRAMS)

# Builds what the kit makes of a crate, by a command of the kit in the crate's folder, and puts the file that this leaves in out/ in its
# place: `rt ci` clears out/, and whoever uses the file meanwhile has the old one or the new one. It is as old as the start of its
# building, so that what was changed meanwhile is noticed.
define built
@command -v $(RT) >/dev/null || { \
    echo "$@ is missing or older than its sources, and the command \`$(RT)\` of the Rattle kit," \
        "which proves and builds it, is not here." >&2; \
    if [ -e $@ ]; then echo "To take it as it is: touch $@" >&2; fi; exit 1; }
@mkdir -p $(@D) && touch $@.began
cd crates/$(1) && $(RT) $(2)
@cp crates/$(1)/out/$(@F) $@.new && touch -r $@.began $@.new && mv -f $@.new $@ && rm -f $@.began
endef

$(STATIC): $(call sources,desk)
	$(call built,desk,lib)

# The kit builds a program only to run it; on no input each of them writes a line and ends with 0.
define program
target/bin/$(1): $$(call sources,$(1))
	$$(call built,$(1),run </dev/null >/dev/null)
endef
# The folders are gone through only if a program is asked for.
ifneq ($(filter programs target/bin/%,$(MAKECMDGOALS)),)
$(foreach name,$(notdir $(PROGRAMS)),$(eval $(call program,$(name))))
endif

# The archive is position independent, and needs memcpy, memmove and memset at the most. Only the header's functions are exported. The
# file is put in place whole, so that a program that loads it meanwhile has the old one or the new one.
$(SHARED): $(STATIC)
	@mkdir -p $(@D)
	@echo '{ global: desk_*; local: *; };' >target/lib/desk.map
	$(CC) $(LDFLAGS) -shared -Wl,-soname,libdesk.so.$(MAJOR) -Wl,--version-script=target/lib/desk.map -Wl,-z,defs -Wl,-z,relro \
	    -Wl,-z,now -o $@.new -Wl,--whole-archive $(STATIC) -Wl,--no-whole-archive
	@mv -f $@.new $@

# No symbolic link: `rt ci` takes none anywhere in the checkout.
target/lib/libdesk.so: $(SHARED)
	@cp $< $@.new
	@mv -f $@.new $@

# Puts a command in place that starts `office` with some first words.
define launcher
sed -e 's|@LIB@|$(shell realpath -m --relative-to=$(BINDIR) $(LIBDIR))|' -e 's|@WORDS@|$(2)|g' launcher.in >$(DESTDIR)$(BINDIR)/$(1)
	chmod 755 $(DESTDIR)$(BINDIR)/$(1)
endef

install: $(STATIC) $(SHARED)
	$(INSTALL) -d $(DESTDIR)$(BINDIR) $(DESTDIR)$(LIBDIR)/pkgconfig $(DESTDIR)$(INCLUDEDIR) $(DESTDIR)$(MANDIR)/man1 $(DESTDIR)$(MANDIR)/man3
	$(INSTALL) -m 644 include/desk.h include/desk_refusals.h $(DESTDIR)$(INCLUDEDIR)
	$(INSTALL) -m 644 $(STATIC) $(DESTDIR)$(LIBDIR)/libdesk.a
	$(INSTALL) -m 755 $(SHARED) $(DESTDIR)$(LIBDIR)/libdesk.so.$(VERSION)
	ln -sf libdesk.so.$(VERSION) $(DESTDIR)$(LIBDIR)/libdesk.so.$(MAJOR)
	ln -sf libdesk.so.$(MAJOR) $(DESTDIR)$(LIBDIR)/libdesk.so
	sed -e 's|@PREFIX@|$(PREFIX)|' -e 's|@LIBDIR@|$(LIBDIR:$(PREFIX)/%=$${prefix}/%)|' -e 's|@INCLUDEDIR@|$(INCLUDEDIR:$(PREFIX)/%=$${prefix}/%)|' \
	    -e 's|@VERSION@|$(VERSION)|' desk.pc.in >$(DESTDIR)$(LIBDIR)/pkgconfig/desk.pc
	chmod 644 $(DESTDIR)$(LIBDIR)/pkgconfig/desk.pc
	$(INSTALL) -m 644 man/office.1 man/allotment.1 $(DESTDIR)$(MANDIR)/man1
	$(INSTALL) -m 644 man/desk.3 $(DESTDIR)$(MANDIR)/man3
	for function in $(FUNCTIONS); do echo '.so man3/desk.3' >$(DESTDIR)$(MANDIR)/man3/$$function.3 && chmod 644 $(DESTDIR)$(MANDIR)/man3/$$function.3 || exit 1; done
	rm -rf $(DESTDIR)$(OURS)
	for file in $(PACKAGES); do $(INSTALL) -D -m 644 $$file $(DESTDIR)$(OURS)/$$file || exit 1; done
	$(INSTALL) -m 644 include/desk_refusals.h $(DESTDIR)$(OURS)/python/desk
	$(INSTALL) -m 755 office $(DESTDIR)$(OURS)
	$(call launcher,office,)
	$(call launcher,allotment, allot)
	@[ -n "$(DESTDIR)" ] || echo "Where programs do not find libdesk.so.$(MAJOR), run \`ldconfig\` once."

uninstall:
	rm -f $(DESTDIR)$(BINDIR)/office $(DESTDIR)$(BINDIR)/allotment
	rm -f $(DESTDIR)$(INCLUDEDIR)/desk.h $(DESTDIR)$(INCLUDEDIR)/desk_refusals.h
	rm -f $(addprefix $(DESTDIR)$(LIBDIR)/,libdesk.a libdesk.so libdesk.so.$(MAJOR) libdesk.so.$(VERSION) pkgconfig/desk.pc)
	rm -f $(DESTDIR)$(MANDIR)/man1/office.1 $(DESTDIR)$(MANDIR)/man1/allotment.1
	rm -f $(addprefix $(DESTDIR)$(MANDIR)/man3/,desk.3 $(FUNCTIONS:=.3))
	rm -rf $(DESTDIR)$(OURS)

check-install:
	bash .ci/install
