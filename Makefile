# Builds and installs the library for programs in C and the command `asmap` (GNU make). `make help` lists the targets.
PREFIX ?= /usr/local
DESTDIR ?=
bindir = $(PREFIX)/bin
libdir = $(PREFIX)/lib
includedir = $(PREFIX)/include
datadir = $(PREFIX)/share
mandir = $(datadir)/man
pkgconfigdir = $(libdir)/pkgconfig
INSTALL ?= install

# It goes into lists of words, and into the pkg-config file.
ifneq ($(words $(PREFIX)) $(filter /%,$(PREFIX)),1 $(PREFIX))
$(error PREFIX must be an absolute path without spaces)
endif

# The archive: that of CORBASTRIGO_LIB_DIR, or rt's.
ifdef CORBASTRIGO_LIB_DIR
archive := $(CORBASTRIGO_LIB_DIR)/libcorbastrigo.a
else
archive := target/staticlib/libcorbastrigo.a
endif
header := include/corbastrigo.h
command := target/rust/release/asmap
made := target/share

# What is installed of each: its mode, where it is here, and where it goes.
library_files := \
    644:$(header):$(includedir)/corbastrigo.h \
    644:$(archive):$(libdir)/libcorbastrigo.a \
    644:$(made)/corbastrigo.pc:$(pkgconfigdir)/corbastrigo.pc
command_files := \
    755:$(command):$(bindir)/asmap \
    644:$(made)/asmap.1:$(mandir)/man1/asmap.1 \
    644:$(made)/asmap.bash:$(datadir)/bash-completion/completions/asmap \
    644:$(made)/asmap.zsh:$(datadir)/zsh/site-functions/_asmap \
    644:$(made)/asmap.fish:$(datadir)/fish/vendor_completions.d/asmap.fish

# put MODE:FROM:TO...: installs the files and says where.
define put
set -e; for file in $(1); do \
    mode=$${file%%:*}; rest=$${file#*:}; from=$${rest%%:*}; to='$(DESTDIR)'$${rest#*:}; \
    $(INSTALL) -d "$${to%/*}"; \
    $(INSTALL) -m "$$mode" "$$from" "$$to"; \
    echo "installed $$to"; \
done
endef

# take MODE:FROM:TO...: removes the files that are there. Folders stay: others may count on them.
define take
set -e; for file in $(1); do \
    to='$(DESTDIR)'$${file##*:}; \
    [ ! -e "$$to" ] || { rm -f "$$to"; echo "removed $$to"; }; \
done
endef

.PHONY: all archive command check help install install-command install-library same uninstall $(made)/corbastrigo.pc
.SILENT:
.DELETE_ON_ERROR:

all: archive

help:
	echo 'make                   prove the library and write target/staticlib/libcorbastrigo.a (needs rt; minutes, the first time)'
	echo 'make command           build the command asmap over it (needs cargo)'
	echo 'make check             test the library as a program in C meets it, and its installation'
	echo 'make same              build the archive again from nothing in another folder: both must have the same bytes'
	echo 'make install-library   header, archive and pkg-config file'
	echo 'make install-command   asmap, its manual page and its completions'
	echo 'make install           both'
	echo 'make uninstall         remove what install puts there'
	echo
	echo 'PREFIX=$(PREFIX) is where things are installed, DESTDIR a folder to put in front of that, for packages.'
	echo 'CORBASTRIGO_LIB_DIR names the folder of a libcorbastrigo.a that stands ready: it is taken, and rt is not run.'

# Both are built where they are missing or older than their sources; build.sh knows how, for run.sh too.
archive:
	. ./build.sh && build_library

command: archive
	. ./build.sh && build_command

# The folders are written below the prefix where they lie below it, so that pkg-config can be told of another prefix.
below = $(patsubst $(PREFIX)/%,$${prefix}/%,$(1))

$(made)/corbastrigo.pc: corbastrigo.pc.in $(header) | $(made)
	version=$$(sed -n 's/^.define CORBASTRIGO_VERSION "\(.*\)"$$/\1/p' $(header)); \
	sed -e 's|@prefix@|$(PREFIX)|' -e 's|@includedir@|$(call below,$(includedir))|' -e 's|@libdir@|$(call below,$(libdir))|' \
	    -e "s|@version@|$$version|" corbastrigo.pc.in > $@

$(made)/asmap.1: command | $(made)
	$(command) man > $@

$(made)/asmap.bash $(made)/asmap.zsh $(made)/asmap.fish: $(made)/asmap.%: command | $(made)
	$(command) completions $* > $@

$(made):
	mkdir -p $@

check: archive
	CORBASTRIGO_LIB_DIR='$(abspath $(dir $(archive)))' sh -c 'ctest/edge.sh && ctest/run.sh && { ctest/install.sh || [ $$? = 77 ]; }'

same: archive
	CORBASTRIGO_LIB_DIR='$(abspath $(dir $(archive)))' ctest/same.sh

install: install-library install-command

install-library: archive $(made)/corbastrigo.pc
	$(call put,$(library_files))

install-command: command $(made)/asmap.1 $(made)/asmap.bash $(made)/asmap.zsh $(made)/asmap.fish
	$(call put,$(command_files))

uninstall:
	$(call take,$(library_files) $(command_files))
