# Builds what a host links and installs it with the headers, the manual pages and the tool. Everything is made in BUILD, nothing beside the
# sources.
#
#     make                                        the libraries
#     make tool                                   the tool rcm, with cargo
#     make install PREFIX=/usr/local DESTDIR=     what is built; DESTDIR is put before every path, for packages
#     make uninstall PREFIX=/usr/local DESTDIR=   takes away what install puts there
#
# LIB names the proved archive. Where it is the one below and missing, packaging/archive proves and builds it, which takes about ten
# minutes on two processors. TOOL names the tool, which is installed if it is there. Paths have no blanks and none of REFUSED below, as the
# shell, sed and the files that are filled would read them as something else.

PROVED = target/staticlib/librcm.a
LIB = $(PROVED)
TOOL = rust/target/release/rcm
BUILD = target/install
PREFIX = /usr/local
DESTDIR =
BINDIR = $(PREFIX)/bin
INCLUDEDIR = $(PREFIX)/include
LIBDIR = $(PREFIX)/lib
SHAREDIR = $(PREFIX)/share
CFLAGS = -O2 -Wall -Wextra -Wpedantic
PYTHON = python3

# A path is refused before anything is done. What is installed or taken away is named from the root; DESTDIR may be empty.
NOTHING :=
SPACE := $(NOTHING) $(NOTHING)
TAB := $(NOTHING)	$(NOTHING)
define NEWLINE


endef
HASH := \#
REFUSED := ' " ` & | ; < > ( ) [ ] * ? $$ \ % $(HASH)
FOLDERS = PREFIX BINDIR INCLUDEDIR LIBDIR SHAREDIR
has_blank = $(findstring $(SPACE),$($(1)))$(findstring $(TAB),$($(1)))$(findstring $(NEWLINE),$($(1)))
has_refused = $(strip $(foreach character,$(REFUSED),$(findstring $(character),$($(1)))))
refuse_characters = $(if $(call has_blank,$(1))$(call has_refused,$(1)), \
    $(error $(1)=$($(1)): expected a path without blanks and without any of $(REFUSED)))
refuse_relative = $(if $(filter install uninstall,$(MAKECMDGOALS)),$(if $(filter /%,$($(1))),, \
    $(error $(1)=$($(1)): expected a path from the root)))
$(foreach name,LIB BUILD,$(if $($(name)),,$(error $(name)=: expected a path)))
$(foreach name,LIB TOOL BUILD DESTDIR $(FOLDERS),$(call refuse_characters,$(name)))
$(foreach name,$(FOLDERS) $(if $(DESTDIR),DESTDIR),$(call refuse_relative,$(name)))

# The header says the version. SOVERSION is raised when a host must be built anew for a newer library.
version_part = $(shell sed -n 's/^.define RCM_VERSION_$(1) \([0-9]*\)$$/\1/p' include/rcm.h)
MAJOR := $(call version_part,MAJOR)
MINOR := $(call version_part,MINOR)
VERSION := $(MAJOR).$(MINOR).$(call version_part,PATCH)
SOVERSION = 0
SHARED = librcm.so.$(VERSION)

# The folder of this PREFIX in which Python looks for modules; empty where there is no Python. One for PREFIX=/usr also looks into
# /usr/local, which is not this PREFIX.
PYTHONDIR := $(shell $(PYTHON) -c 'import site, sys; \
    prefix = sys.argv[1].rstrip("/"); \
    own = [path for path in site.getsitepackages() if path.startswith(prefix + "/") and not path.startswith(prefix + "/local/")]; \
    print(own[0] if own else "%s/lib/python%d.%d/site-packages" % (prefix, *sys.version_info[:2]))' '$(PREFIX)' 2>/dev/null)
$(call refuse_characters,PYTHONDIR)$(if $(PYTHONDIR),$(call refuse_relative,PYTHONDIR))

CALLS = rcm_check rcm_open rcm_go rcm_test rcm_object
HEADERS = rcm.h rcm_text.h
ARCHIVES = librcm.a librcm_text.a
PACKAGES = rcm.pc rcm-text.pc
CMAKE_FILES = rcm-config.cmake rcm-config-version.cmake
LINKS = librcm.so.$(SOVERSION) librcm.so
PYTHON_FILES = __init__.py numbers.def
DOCUMENTS = LICENSE CHANGELOG.md
COMPLETIONS = bash-completion/completions/rcm zsh/site-functions/_rcm fish/vendor_completions.d/rcm.fish

INSTALLED = $(BINDIR)/rcm $(HEADERS:%=$(INCLUDEDIR)/%) $(ARCHIVES:%=$(LIBDIR)/%) $(LIBDIR)/$(SHARED) $(LINKS:%=$(LIBDIR)/%) \
    $(PACKAGES:%=$(LIBDIR)/pkgconfig/%) $(CMAKE_FILES:%=$(LIBDIR)/cmake/rcm/%) $(SHAREDIR)/man/man1/rcm.1 $(SHAREDIR)/man/man3/rcm.3 \
    $(CALLS:%=$(SHAREDIR)/man/man3/%.3) $(COMPLETIONS:%=$(SHAREDIR)/%) $(DOCUMENTS:%=$(SHAREDIR)/doc/rcm/%) \
    $(if $(PYTHONDIR),$(PYTHON_FILES:%=$(PYTHONDIR)/rcm/%))
INSTALLED_FOLDERS = $(patsubst %/,%,$(sort $(dir $(INSTALLED))))
OWN_FOLDERS = $(LIBDIR)/cmake/rcm $(SHAREDIR)/doc/rcm $(if $(PYTHONDIR),$(PYTHONDIR)/rcm/__pycache__ $(PYTHONDIR)/rcm)

.PHONY: all tool install uninstall FORCE
all: $(BUILD)/$(SHARED) $(BUILD)/librcm_text.a

ifeq ($(LIB),$(PROVED))
$(LIB):
	@command -v rt >/dev/null || { echo "make: expected $(LIB), or LIB=path/librcm.a; found none, and no rt that builds it" >&2; exit 1; }
	@echo "$(LIB) is missing: rt proves and builds it, about ten minutes on two processors"
	packaging/archive $@
else
$(LIB):
	@echo "make: LIB=$(LIB): there is no such file" >&2; exit 1
endif

$(BUILD):
	@mkdir -p $@

# The archive as it is, newer only where its bytes are, so that a build with another LIB takes nothing from this one.
$(BUILD)/librcm.a: $(LIB) FORCE | $(BUILD)
	@found=$$(nm -g --defined-only $< 2>/dev/null); for name in $(CALLS); do echo "$$found" | grep -qx ".* T $$name" || \
	    { echo "make: LIB=$<: expected an archive with the functions $(CALLS); found no $$name" >&2; exit 1; }; done
	@cmp -s $< $@ || { echo "$@: the proved library, from $<"; cp -f $< $@; }

# Position-dependent objects (-z text) and names that nothing defines (-z defs) are refused.
$(BUILD)/$(SHARED): $(BUILD)/librcm.a c/rcm.exports include/rcm.h
	@echo "$@: the shared library of the same objects"
	@$(CC) -shared -o $@ -Wl,-soname,librcm.so.$(SOVERSION) -Wl,-z,defs -Wl,-z,text -Wl,--version-script=c/rcm.exports \
	    -Wl,--whole-archive $(BUILD)/librcm.a -Wl,--no-whole-archive

$(BUILD)/librcm_text.a: c/rcm_text.c c/numbers.def include/rcm_text.h | $(BUILD)
	@echo "$@: the texts of refusals and stops"
	@$(CC) -std=c11 $(CFLAGS) -fPIC -Iinclude -c c/rcm_text.c -o $(BUILD)/rcm_text.o
	@rm -f $@ && $(AR) rcs $@ $(BUILD)/rcm_text.o

tool: $(BUILD)/librcm.a
	RCM_LIB_DIR='$(abspath $(BUILD))' cargo build --release --offline --features librcm --manifest-path rust/Cargo.toml --bin rcm

# Puts the file $(1) as $(2) with this install's paths and version. A new file takes its place, with a mode that no umask changes.
fill = $(put) /dev/null $(2) && sed -e 's|@PREFIX@|$(PREFIX)|g' -e 's|@LIBDIR@|$(LIBDIR)|g' -e 's|@INCLUDEDIR@|$(INCLUDEDIR)|g' \
    -e 's|@VERSION@|$(VERSION)|g' -e 's|@SOVERSION@|$(SOVERSION)|g' -e 's|@MAJOR@|$(MAJOR)|g' -e 's|@MINOR@|$(MINOR)|g' $(1) >$(2)
put = install -m 644

# A tool that was asked for by name must be there; the usual one may be missing. All folders are made before the first file is put, so that
# a place that cannot be written to is refused while nothing has changed. BUILD is only read: whoever installs need not own it.
install: all
	@test -f '$(TOOL)' || test '$(origin TOOL)' = file || { echo "make: TOOL=$(TOOL): there is no such file" >&2; exit 1; }
	@umask 022; for folder in $(INSTALLED_FOLDERS:%='$(DESTDIR)%'); do mkdir -p "$$folder" && test -w "$$folder" || \
	    { echo "make: $$folder: expected a folder that can be written to" >&2; exit 1; }; done
	@for name in $(HEADERS); do $(put) include/$$name '$(DESTDIR)$(INCLUDEDIR)'/$$name || exit; done
	@for name in $(ARCHIVES); do $(put) $(BUILD)/$$name '$(DESTDIR)$(LIBDIR)'/$$name || exit; done
	@install -m 755 $(BUILD)/$(SHARED) '$(DESTDIR)$(LIBDIR)/$(SHARED)'
	@for name in $(LINKS); do ln -sfn $(SHARED) '$(DESTDIR)$(LIBDIR)'/$$name || exit; done
	@for name in $(PACKAGES); do $(call fill,packaging/$$name.in,'$(DESTDIR)$(LIBDIR)/pkgconfig'/$$name) || exit; done
	@for name in $(CMAKE_FILES); do $(call fill,packaging/$$name.in,'$(DESTDIR)$(LIBDIR)/cmake/rcm'/$$name) || exit; done
	@$(put) man/rcm.1 '$(DESTDIR)$(SHAREDIR)/man/man1/rcm.1'
	@$(put) man/rcm.3 '$(DESTDIR)$(SHAREDIR)/man/man3/rcm.3'
	@for name in $(CALLS); do ln -sfn rcm.3 '$(DESTDIR)$(SHAREDIR)/man/man3'/$$name.3 || exit; done
	@$(put) completions/rcm.bash '$(DESTDIR)$(SHAREDIR)/bash-completion/completions/rcm'
	@$(put) completions/rcm.zsh '$(DESTDIR)$(SHAREDIR)/zsh/site-functions/_rcm'
	@$(put) completions/rcm.fish '$(DESTDIR)$(SHAREDIR)/fish/vendor_completions.d/rcm.fish'
	@for name in $(DOCUMENTS); do $(put) $$name '$(DESTDIR)$(SHAREDIR)/doc/rcm'/$$name || exit; done
	@if test -f '$(TOOL)'; then install -m 755 '$(TOOL)' '$(DESTDIR)$(BINDIR)/rcm'; \
	    else echo "the tool rcm is not installed: $(TOOL) is missing, make tool builds it"; \
	    test ! -f '$(DESTDIR)$(BINDIR)/rcm' || echo "the tool of an earlier install stays: $(DESTDIR)$(BINDIR)/rcm"; fi
ifneq ($(PYTHONDIR),)
	@for name in $(PYTHON_FILES); do $(call fill,python/rcm/$$name,'$(DESTDIR)$(PYTHONDIR)/rcm'/$$name) || exit; done
else
	@echo "the Python module is not installed: there is no $(PYTHON)"
endif
	@echo "installed rcm $(VERSION) under $(DESTDIR)$(PREFIX)"

# Also takes the shared libraries of earlier versions with the same soname, which an upgrade leaves.
uninstall:
	@rm -f $(INSTALLED:%='$(DESTDIR)%') '$(DESTDIR)$(LIBDIR)'/librcm.so.$(SOVERSION).*
	@$(if $(PYTHONDIR),rm -f '$(DESTDIR)$(PYTHONDIR)/rcm/__pycache__'/__init__.*.pyc)
	@rmdir $(OWN_FOLDERS:%='$(DESTDIR)%') 2>/dev/null || true
	@echo "took rcm $(VERSION) away from $(DESTDIR)$(PREFIX)"
