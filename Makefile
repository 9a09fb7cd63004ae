# Builds the command and the library, installs them with what belongs to them, and packs them.
#
#   make
#   make install PREFIX=/usr DESTDIR=/tmp/image
#   make uninstall PREFIX=/usr
#   make dist      target/dist/qewaris-VERSION-x86_64.tar.gz, for those without the Rattle kit
#   make deb       target/deb/qewaris_VERSION_amd64.deb and libqewaris-dev_VERSION_amd64.deb
#   make check     the gate

PREFIX ?= /usr/local
DESTDIR ?=
BINDIR ?= $(PREFIX)/bin
LIBDIR ?= $(PREFIX)/lib
INCLUDEDIR ?= $(PREFIX)/include
MANDIR ?= $(PREFIX)/share/man
BASHDIR ?= $(PREFIX)/share/bash-completion/completions
ZSHDIR ?= $(PREFIX)/share/zsh/site-functions
FISHDIR ?= $(PREFIX)/share/fish/vendor_completions.d

# The archive that the command was linked with, and the shared library that is made of it.
ARCHIVE = $(or $(QEWARIS_LIB_DIR),target/staticlib)/libqewaris.a
SHARED = target/package/libqewaris.so.2
COMMAND = rust/target/release/qewaris

# What the file for pkg-config says: paths behind its own prefix, which is another one where the files can be put anywhere.
PC_PREFIX = $(PREFIX)
VERSION = $(shell sed -n 's/^version = "\(.*\)"/\1/p' rust/command/Cargo.toml)

.PHONY: all install uninstall dist deb check

all:
	./qewaris --version
	mkdir -p target/package
	packaging/shared "$(ARCHIVE)" "$(SHARED)"

install: all
	install -d "$(DESTDIR)$(BINDIR)" "$(DESTDIR)$(LIBDIR)/pkgconfig" "$(DESTDIR)$(INCLUDEDIR)" "$(DESTDIR)$(MANDIR)/man1"
	install -d "$(DESTDIR)$(BASHDIR)" "$(DESTDIR)$(ZSHDIR)" "$(DESTDIR)$(FISHDIR)"
	install -m 755 -s "$(COMMAND)" "$(DESTDIR)$(BINDIR)/qewaris"
	install -m 644 "$(ARCHIVE)" "$(DESTDIR)$(LIBDIR)/libqewaris.a"
	strip --strip-debug --enable-deterministic-archives "$(DESTDIR)$(LIBDIR)/libqewaris.a"
	install -m 644 "$(SHARED)" "$(DESTDIR)$(LIBDIR)/libqewaris.so.2"
	ln -sf libqewaris.so.2 "$(DESTDIR)$(LIBDIR)/libqewaris.so"
	sed -e 's|@LIBDIR@|$(LIBDIR)|; s|@INCLUDEDIR@|$(INCLUDEDIR)|' -e 's|=$(PREFIX)/|=$${prefix}/|' \
	    -e 's|@PREFIX@|$(PC_PREFIX)|; s|@VERSION@|$(VERSION)|' packaging/qewaris.pc.in >"$(DESTDIR)$(LIBDIR)/pkgconfig/qewaris.pc"
	chmod 644 "$(DESTDIR)$(LIBDIR)/pkgconfig/qewaris.pc"
	install -m 644 include/qewaris.h "$(DESTDIR)$(INCLUDEDIR)/qewaris.h"
	install -m 644 man/qewaris.1 "$(DESTDIR)$(MANDIR)/man1/qewaris.1"
	install -m 644 completion/qewaris.bash "$(DESTDIR)$(BASHDIR)/qewaris"
	install -m 644 completion/qewaris.zsh "$(DESTDIR)$(ZSHDIR)/_qewaris"
	install -m 644 completion/qewaris.fish "$(DESTDIR)$(FISHDIR)/qewaris.fish"

uninstall:
	rm -f "$(DESTDIR)$(BINDIR)/qewaris" "$(DESTDIR)$(INCLUDEDIR)/qewaris.h" "$(DESTDIR)$(MANDIR)/man1/qewaris.1"
	rm -f "$(DESTDIR)$(LIBDIR)/libqewaris.a" "$(DESTDIR)$(LIBDIR)/libqewaris.so.2" "$(DESTDIR)$(LIBDIR)/libqewaris.so"
	rm -f "$(DESTDIR)$(LIBDIR)/pkgconfig/qewaris.pc" "$(DESTDIR)$(BASHDIR)/qewaris"
	rm -f "$(DESTDIR)$(ZSHDIR)/_qewaris" "$(DESTDIR)$(FISHDIR)/qewaris.fish"

dist: all
	packaging/dist

deb: all
	packaging/deb

check:
	bash .ci/run
