# make: proves the core, and builds the static library and qstore.
# make install: what make built, the header, the pkg-config file and the manual page, below PREFIX. It builds nothing, so it needs neither rt nor cargo. make uninstall removes them.
# DESTDIR is put before each path, for packages.
PREFIX ?= /usr/local
prefix := $(abspath $(PREFIX))
bindir ?= $(prefix)/bin
libdir ?= $(prefix)/lib
includedir ?= $(prefix)/include
mandir ?= $(prefix)/share/man
INSTALL ?= install

# make parts lists of paths at spaces.
refuse_space = $(if $(filter-out 1,$(words [$($(1))])),$(error $(1) is '$($(1))': a path with a space is not supported))
$(foreach name,PREFIX DESTDIR prefix bindir libdir includedir mandir,$(call refuse_space,$(name)))

archive := crates/qcow2_c/out/libqcow2_c.a
qstore := tool/target/release/qstore
version := $(shell sed -n 's/^version = "\(.*\)"/\1/p' tool/Cargo.toml | head -n 1)
sources := crates.txt $(shell find crates -name out -prune -o \( -name '*.rt' -o -name '*.antt' \) -print)
installed := $(libdir)/libqcow2_c.a $(includedir)/qcow2_core.h $(libdir)/pkgconfig/qcow2_core.pc $(bindir)/qstore $(mandir)/man1/qstore.1

all: $(archive) $(qstore)

# The first time it proves every crate below, which takes long. rt ci removes the archive again.
$(archive): $(sources)
	@command -v rt >/dev/null || { echo "the command 'rt' of the Rattle kit is not on the PATH" >&2; exit 1; }
	cd crates/qcow2_c && rt lib

# cargo knows what has changed.
$(qstore): $(archive) FORCE
	@command -v cargo >/dev/null || { echo "the command 'cargo' is not on the PATH" >&2; exit 1; }
	cd tool && cargo build --release --offline

install: built
	$(INSTALL) -d $(addprefix $(DESTDIR),$(sort $(dir $(installed))))
	$(INSTALL) -m 644 $(archive) $(DESTDIR)$(libdir)/libqcow2_c.a
	$(INSTALL) -m 644 include/qcow2_core.h $(DESTDIR)$(includedir)/qcow2_core.h
	$(call install_output,sed -e 's|@prefix@|$(prefix)|; s|@libdir@|$(libdir)|; s|@includedir@|$(includedir)|; s|@version@|$(version)|' include/qcow2_core.pc.in,$(libdir)/pkgconfig/qcow2_core.pc)
	$(INSTALL) -m 755 $(qstore) $(DESTDIR)$(bindir)/qstore
	$(call install_output,$(qstore) --man,$(mandir)/man1/qstore.1)

# What a command writes, readable for all whatever the umask is.
install_output = made=$$(mktemp) && trap 'rm -f "$$made"' EXIT && $(1) >"$$made" && $(INSTALL) -m 644 "$$made" $(DESTDIR)$(2)

built:
	@for file in $(archive) $(qstore); do [ -f "$$file" ] || { echo "$$file is missing: run make first" >&2; exit 1; }; done

uninstall:
	rm -f $(addprefix $(DESTDIR),$(installed))

FORCE:

.PHONY: all install built uninstall FORCE
