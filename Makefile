# Builds and installs sno_rewrite with its library, sno, and their manual pages and completions. `make help` says more.

PREFIX ?= /usr/local
DESTDIR ?=
BINDIR ?= $(PREFIX)/bin
LIBDIR ?= $(PREFIX)/lib
INCLUDEDIR ?= $(PREFIX)/include
DATADIR ?= $(PREFIX)/share
MANDIR ?= $(DATADIR)/man
INSTALL ?= install
INSTALL_PROGRAM = $(INSTALL) -m 755
INSTALL_DATA = $(INSTALL) -m 644

PROGRAM ?= crates/sno_rewrite_main/out/sno_rewrite_main
SNO ?= crates/sno/out/sno
LIBRARY_DIR ?= embed/out
DEB_DIR ?= embed/out
DIST_DIR ?= dist

VERSION := $(shell cat VERSION)
MAJOR = $(firstword $(subst ., ,$(VERSION)))
PAGE = $(MANDIR)/man1/sno_rewrite.1
SNO_PAGE = $(MANDIR)/man1/sno.1
BASH_COMPLETION = $(DATADIR)/bash-completion/completions/sno_rewrite
ZSH_COMPLETION = $(DATADIR)/zsh/site-functions/_sno_rewrite
FISH_COMPLETION = $(DATADIR)/fish/vendor_completions.d/sno_rewrite.fish
SNO_BASH_COMPLETION = $(DATADIR)/bash-completion/completions/sno
SNO_ZSH_COMPLETION = $(DATADIR)/zsh/site-functions/_sno
SNO_FISH_COMPLETION = $(DATADIR)/fish/vendor_completions.d/sno.fish
SERVICE_PAGE = $(MANDIR)/man1/nomyake-service.1
SERVICE_BASH_COMPLETION = $(DATADIR)/bash-completion/completions/nomyake-service
SERVICE_ZSH_COMPLETION = $(DATADIR)/zsh/site-functions/_nomyake-service
SERVICE_FISH_COMPLETION = $(DATADIR)/fish/vendor_completions.d/nomyake-service.fish
PLAY_PAGE = $(MANDIR)/man1/nomyake-play.1
PLAY_BASH_COMPLETION = $(DATADIR)/bash-completion/completions/nomyake-play
PLAY_ZSH_COMPLETION = $(DATADIR)/zsh/site-functions/_nomyake-play
PLAY_FISH_COMPLETION = $(DATADIR)/fish/vendor_completions.d/nomyake-play.fish
UNIT_DIR = $(PREFIX)/lib/systemd/system
UNITS = $(wildcard share/systemd/*)
# `nomyake-service` looks for the package in ../share/nomyake/python, from its own folder on.
PACKAGE_DIR = $(PREFIX)/share/nomyake/python/sno_rewrite
PACKAGE = embed/python/src/sno_rewrite
# `sno edit --with` looks for them in ../share/nomyake, from the folder of the program on.
READY_DIR = $(PREFIX)/share/nomyake
READY = $(wildcard share/*.sno)
HEADER = $(INCLUDEDIR)/sno_rewrite.h
CPP_HEADER = $(INCLUDEDIR)/sno_rewrite.hpp
ARCHIVE = $(LIBDIR)/libsno_rewrite.a
SHARED = $(LIBDIR)/libsno_rewrite.so.$(VERSION)
SONAME = $(LIBDIR)/libsno_rewrite.so.$(MAJOR)
LINK = $(LIBDIR)/libsno_rewrite.so
PKG_CONFIG_FILE = $(LIBDIR)/pkgconfig/sno_rewrite.pc
CMAKE_DIR = $(LIBDIR)/cmake/sno_rewrite
CMAKE_CONFIG = $(CMAKE_DIR)/sno_rewrite-config.cmake
CMAKE_VERSION = $(CMAKE_DIR)/sno_rewrite-config-version.cmake
# CMake finds the headers from the folder of its own files, so the whole can be moved.
CMAKE_INCLUDE = $(shell realpath -ms --relative-to="$(CMAKE_DIR)" "$(INCLUDEDIR)")
for_cmake = sed 's|@VERSION@|$(VERSION)|g; s|@MAJOR@|$(MAJOR)|g; s|@INCLUDE@|$(CMAKE_INCLUDE)|g'

# What is below PREFIX is named by it, so that pkg-config can move the whole.
below_prefix = $(patsubst $(PREFIX)/%,$${prefix}/%,$(1))

define PKG_CONFIG_TEXT
prefix=$(PREFIX)
libdir=$(call below_prefix,$(LIBDIR))
includedir=$(call below_prefix,$(INCLUDEDIR))

Name: sno_rewrite
Description: Rewrites named texts by SNOBOL4 pattern statements
Version: $(VERSION)
Libs: -L$${libdir} -lsno_rewrite
Cflags: -I$${includedir}
endef
export PKG_CONFIG_TEXT

.PHONY: all program library install install-program install-sno install-service install-library deb dist uninstall check help \
    need-program need-library

all: program library

program:
	@echo "make: proving and building the programs by tools/prove program and tools/prove sno; the first time takes long"
	tools/prove program
	tools/prove sno

library:
	@echo "make: proving and building the library by tools/prove library and embed/build; the first time takes long"
	tools/prove library
	embed/build $(LIBRARY_DIR)

# Installing builds nothing: it may run as root.
need-program:
	@test -x "$(PROGRAM)" || { echo "make: $(PROGRAM) isn't there; run tools/prove program first" >&2; exit 1; }

need-library:
	@for file in libsno_rewrite.a libsno_rewrite.so; do \
	    test -f "$(LIBRARY_DIR)/$$file" || { \
	        echo "make: $(LIBRARY_DIR)/$$file isn't there; run tools/prove library and embed/build first" >&2; exit 1; }; \
	done

install: install-program
	@if test -f "$(LIBRARY_DIR)/libsno_rewrite.a" || test -f "$(LIBRARY_DIR)/libsno_rewrite.so"; then \
	    $(MAKE) --no-print-directory install-library; \
	else \
	    echo "make: the library isn't built, so it isn't installed; tools/prove library and embed/build make it"; \
	fi

install-program: need-program
	$(INSTALL) -d "$(DESTDIR)$(BINDIR)" "$(DESTDIR)$(dir $(PAGE))" "$(DESTDIR)$(dir $(BASH_COMPLETION))" \
	    "$(DESTDIR)$(dir $(ZSH_COMPLETION))" "$(DESTDIR)$(dir $(FISH_COMPLETION))"
	$(INSTALL_PROGRAM) "$(PROGRAM)" "$(DESTDIR)$(BINDIR)/sno_rewrite"
	sed 's/@VERSION@/$(VERSION)/' docs/man/sno_rewrite.1 > "$(DESTDIR)$(PAGE)"
	chmod 644 "$(DESTDIR)$(PAGE)"
	@if test -x "$(SNO)"; then \
	    $(MAKE) --no-print-directory install-sno; \
	else \
	    echo "make: sno isn't built, so it isn't installed; tools/prove sno makes it"; \
	fi
	$(INSTALL_DATA) completions/sno_rewrite.bash "$(DESTDIR)$(BASH_COMPLETION)"
	$(INSTALL_DATA) completions/_sno_rewrite "$(DESTDIR)$(ZSH_COMPLETION)"
	$(INSTALL_DATA) completions/sno_rewrite.fish "$(DESTDIR)$(FISH_COMPLETION)"

install-sno:
	$(INSTALL) -d "$(DESTDIR)$(BINDIR)" "$(DESTDIR)$(dir $(SNO_PAGE))" "$(DESTDIR)$(dir $(SNO_BASH_COMPLETION))" \
	    "$(DESTDIR)$(dir $(SNO_ZSH_COMPLETION))" "$(DESTDIR)$(dir $(SNO_FISH_COMPLETION))" "$(DESTDIR)$(READY_DIR)"
	$(INSTALL_PROGRAM) "$(SNO)" "$(DESTDIR)$(BINDIR)/sno"
	sed 's/@VERSION@/$(VERSION)/' docs/man/sno.1 > "$(DESTDIR)$(SNO_PAGE)"
	chmod 644 "$(DESTDIR)$(SNO_PAGE)"
	$(INSTALL_DATA) completions/sno.bash "$(DESTDIR)$(SNO_BASH_COMPLETION)"
	$(INSTALL_DATA) completions/_sno "$(DESTDIR)$(SNO_ZSH_COMPLETION)"
	$(INSTALL_DATA) completions/sno.fish "$(DESTDIR)$(SNO_FISH_COMPLETION)"
	$(INSTALL_DATA) $(READY) "$(DESTDIR)$(READY_DIR)"
	$(MAKE) --no-print-directory install-service

# The service is Python, so nothing has to be built. It needs sno, and Debian's python3-aiohttp where it runs.
install-service:
	$(INSTALL) -d "$(DESTDIR)$(BINDIR)" "$(DESTDIR)$(dir $(SERVICE_PAGE))" "$(DESTDIR)$(dir $(SERVICE_BASH_COMPLETION))" \
	    "$(DESTDIR)$(dir $(SERVICE_ZSH_COMPLETION))" "$(DESTDIR)$(dir $(SERVICE_FISH_COMPLETION))" "$(DESTDIR)$(PACKAGE_DIR)/service" \
	    "$(DESTDIR)$(PACKAGE_DIR)/service/page" "$(DESTDIR)$(UNIT_DIR)"
	$(INSTALL_PROGRAM) embed/python/nomyake-service "$(DESTDIR)$(BINDIR)/nomyake-service"
	$(INSTALL_PROGRAM) embed/python/nomyake-play "$(DESTDIR)$(BINDIR)/nomyake-play"
	$(INSTALL_DATA) $(wildcard $(PACKAGE)/*.py) $(PACKAGE)/py.typed "$(DESTDIR)$(PACKAGE_DIR)"
	$(INSTALL_DATA) $(foreach kind,py html css js json,$(wildcard $(PACKAGE)/service/*.$(kind))) "$(DESTDIR)$(PACKAGE_DIR)/service"
	$(INSTALL_DATA) $(wildcard $(PACKAGE)/service/page/*.js) "$(DESTDIR)$(PACKAGE_DIR)/service/page"
	sed 's/@VERSION@/$(VERSION)/' docs/man/nomyake-service.1 > "$(DESTDIR)$(SERVICE_PAGE)"
	sed 's/@VERSION@/$(VERSION)/' docs/man/nomyake-play.1 > "$(DESTDIR)$(PLAY_PAGE)"
	chmod 644 "$(DESTDIR)$(SERVICE_PAGE)" "$(DESTDIR)$(PLAY_PAGE)"
	$(INSTALL_DATA) completions/nomyake-service.bash "$(DESTDIR)$(SERVICE_BASH_COMPLETION)"
	$(INSTALL_DATA) completions/_nomyake-service "$(DESTDIR)$(SERVICE_ZSH_COMPLETION)"
	$(INSTALL_DATA) completions/nomyake-service.fish "$(DESTDIR)$(SERVICE_FISH_COMPLETION)"
	$(INSTALL_DATA) completions/nomyake-play.bash "$(DESTDIR)$(PLAY_BASH_COMPLETION)"
	$(INSTALL_DATA) completions/_nomyake-play "$(DESTDIR)$(PLAY_ZSH_COMPLETION)"
	$(INSTALL_DATA) completions/nomyake-play.fish "$(DESTDIR)$(PLAY_FISH_COMPLETION)"
	for unit in $(notdir $(UNITS)); do \
	    sed 's|@BINDIR@|$(BINDIR)|' share/systemd/$$unit > "$(DESTDIR)$(UNIT_DIR)/$$unit" && \
	    chmod 644 "$(DESTDIR)$(UNIT_DIR)/$$unit" || exit 1; \
	done

install-library: need-library
	$(INSTALL) -d "$(DESTDIR)$(INCLUDEDIR)" "$(DESTDIR)$(LIBDIR)" "$(DESTDIR)$(dir $(PKG_CONFIG_FILE))" \
	    "$(DESTDIR)$(CMAKE_DIR)"
	$(INSTALL_DATA) embed/sno_rewrite.h "$(DESTDIR)$(HEADER)"
	$(INSTALL_DATA) embed/sno_rewrite.hpp "$(DESTDIR)$(CPP_HEADER)"
	$(INSTALL_DATA) "$(LIBRARY_DIR)/libsno_rewrite.a" "$(DESTDIR)$(ARCHIVE)"
	$(INSTALL_DATA) "$(LIBRARY_DIR)/libsno_rewrite.so" "$(DESTDIR)$(SHARED)"
	ln -sf libsno_rewrite.so.$(VERSION) "$(DESTDIR)$(SONAME)"
	ln -sf libsno_rewrite.so.$(MAJOR) "$(DESTDIR)$(LINK)"
	printf '%s\n' "$$PKG_CONFIG_TEXT" > "$(DESTDIR)$(PKG_CONFIG_FILE)"
	$(for_cmake) embed/cmake/config.cmake.in > "$(DESTDIR)$(CMAKE_CONFIG)"
	$(for_cmake) embed/cmake/version.cmake.in > "$(DESTDIR)$(CMAKE_VERSION)"
	chmod 644 "$(DESTDIR)$(PKG_CONFIG_FILE)" "$(DESTDIR)$(CMAKE_CONFIG)" "$(DESTDIR)$(CMAKE_VERSION)"

# A package for Debian, of what `make install` puts into an empty folder.
deb: need-program need-library
	embed/deb "$(abspath $(PROGRAM))" "$(abspath $(SNO))" "$(abspath $(LIBRARY_DIR))" "$(DEB_DIR)"

# The archive of a release, with the sums of its files.
dist: need-program need-library
	tools/dist "$(abspath $(PROGRAM))" "$(abspath $(SNO))" "$(abspath $(LIBRARY_DIR))" "$(DIST_DIR)"

uninstall:
	rm -f "$(DESTDIR)$(BINDIR)/sno_rewrite" "$(DESTDIR)$(BINDIR)/sno" "$(DESTDIR)$(PAGE)" "$(DESTDIR)$(SNO_PAGE)" "$(DESTDIR)$(BASH_COMPLETION)" \
	    "$(DESTDIR)$(ZSH_COMPLETION)" "$(DESTDIR)$(FISH_COMPLETION)" "$(DESTDIR)$(SNO_BASH_COMPLETION)" \
	    "$(DESTDIR)$(SNO_ZSH_COMPLETION)" "$(DESTDIR)$(SNO_FISH_COMPLETION)" "$(DESTDIR)$(HEADER)" "$(DESTDIR)$(ARCHIVE)" \
	    "$(DESTDIR)$(CPP_HEADER)" "$(DESTDIR)$(SHARED)" "$(DESTDIR)$(SONAME)" "$(DESTDIR)$(LINK)" \
	    "$(DESTDIR)$(PKG_CONFIG_FILE)" "$(DESTDIR)$(CMAKE_CONFIG)" "$(DESTDIR)$(CMAKE_VERSION)"
	rm -f $(patsubst share/%,"$(DESTDIR)$(READY_DIR)/%",$(READY))
	rm -f "$(DESTDIR)$(BINDIR)/nomyake-service" "$(DESTDIR)$(SERVICE_PAGE)" "$(DESTDIR)$(SERVICE_BASH_COMPLETION)" \
	    "$(DESTDIR)$(SERVICE_ZSH_COMPLETION)" "$(DESTDIR)$(SERVICE_FISH_COMPLETION)"
	rm -f "$(DESTDIR)$(BINDIR)/nomyake-play" "$(DESTDIR)$(PLAY_PAGE)" "$(DESTDIR)$(PLAY_BASH_COMPLETION)" \
	    "$(DESTDIR)$(PLAY_ZSH_COMPLETION)" "$(DESTDIR)$(PLAY_FISH_COMPLETION)"
	rm -f $(patsubst share/systemd/%,"$(DESTDIR)$(UNIT_DIR)/%",$(UNITS))
	rm -rf "$(DESTDIR)$(PACKAGE_DIR)"
	@rmdir "$(DESTDIR)$(CMAKE_DIR)" "$(DESTDIR)$(dir $(PACKAGE_DIR))" "$(DESTDIR)$(READY_DIR)" 2> /dev/null || true

check: need-program
	examples/run "$(abspath $(PROGRAM))"
	tests/schema "$(abspath $(PROGRAM))"
	tests/installed "$(abspath $(PROGRAM))"

help:
	@echo "make                  proves and builds the programs and the library"
	@echo "make program          the programs alone, by tools/prove program and tools/prove sno"
	@echo "make library          the library alone, by tools/prove library and embed/build"
	@echo "make install          installs the program, and sno and the library if they are built"
	@echo "make install-program  the program, its manual page and its completions; sno if it is built"
	@echo "make install-sno      sno, its manual page, its completions, the definitions that are ready, and the service"
	@echo "make install-service  the service for many clients, its page, completions and units; install-sno does it too"
	@echo "make install-library  the headers, the static and the shared library, and the files for pkg-config and CMake"
	@echo "make deb              a package for Debian of all that make install installs, in DEB_DIR"
	@echo "make dist             an archive of the same files with their sums, for a release, in DIST_DIR"
	@echo "make uninstall        removes all of that again"
	@echo "make check            runs the examples and the tests of the schema and of the installed files"
	@echo
	@echo "Variables: PREFIX=$(PREFIX), DESTDIR, BINDIR, LIBDIR, INCLUDEDIR, DATADIR, MANDIR, INSTALL,"
	@echo "PROGRAM=$(PROGRAM), SNO=$(SNO),"
	@echo "LIBRARY_DIR=$(LIBRARY_DIR), DEB_DIR=$(DEB_DIR), DIST_DIR=$(DIST_DIR)"
