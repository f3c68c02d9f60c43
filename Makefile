# Builds, installs and packs Plumanchor.
#
#     make                                  proves and builds whatever has changed (with rt and cargo)
#     make install PREFIX=.. DESTDIR=..     copies what is built; PREFIX is /usr/local if not given
#     make uninstall PREFIX=.. DESTDIR=..   removes what was copied there
#     make dist                             packs what is built, for machines without the toolchain: build/plumanchor-*.tar.gz
#     make library                          the shared library alone: build/library/libplumanchor.so

SHELL := bash
.SHELLFLAGS := -euo pipefail -c
.DELETE_ON_ERROR:
.PHONY: all install uninstall dist library stage built

PREFIX ?= /usr/local
DESTDIR ?=

version := $(shell sed -n 's/^version = "\(.*\)"$$/\1/p' Cargo.toml)
soname := libplumanchor.so.$(firstword $(subst ., ,$(version)))
machine := $(shell uname -m)-$(shell uname -s | tr '[:upper:]' '[:lower:]')
packed := plumanchor-$(version)-$(machine)

program := crates/plumanchor/out/plumanchor
static := target/staticlib/libplumanchor.a
tool := build/release/plumanchor-tool
shared := build/library/libplumanchor.so.$(version)
staged := build/stage
target := $(DESTDIR)$(PREFIX)

ifeq ($(filter /%,$(firstword $(PREFIX))),)
$(error PREFIX is to begin with '/', and not '$(PREFIX)')
endif

need_rt := command -v rt >/dev/null || { echo "make: no 'rt': the Rattle toolchain proves and builds the program; a machine without it takes \
  what 'make dist' packed on another" >&2; exit 1; }

# The list of files installed, which is itself one of them.
list := share/plumanchor/installed

all:
	@$(need_rt)
	install/program
	install/archive
	cargo build --release --offline -p plumanchor-tool
	$(MAKE) --no-print-directory library

# Only what is missing is built here. What is older than its source is not installed.
$(program):
	@$(need_rt)
	install/program

$(static):
	@$(need_rt)
	install/archive

built: $(program) $(static)
	@for made in $^; do newer=$$(find crates.txt crates/*/{src,specs,proofs} -newer $$made -print -quit 2>/dev/null || true); \
	  [[ -z $$newer ]] || { echo "make: $$made is older than $$newer: 'make' proves and builds it" >&2; exit 1; }; done
	@cargo build --quiet --release --offline -p plumanchor-tool

# Only plumanchor_* is to be seen from outside, and nothing may be missing. Its other names are of the same file here, since rt ci refuses
# a repository with links, in build/ too.
$(shared): $(static) install/exports.map Makefile
	@mkdir -p $(@D)
	$(CC) -shared -o $@ -Wl,-soname,$(soname) -Wl,--version-script=install/exports.map -Wl,-z,defs -Wl,-z,relro -Wl,-z,now \
	  -Wl,--whole-archive $(static) -Wl,--no-whole-archive
	ln -f $@ $(@D)/$(soname)
	ln -f $@ $(@D)/libplumanchor.so

library: $(shared)

# What the tool writes of itself, if it has the commands for it: the command's words, and the file below share/.
written := $(if $(wildcard tools/src/commands/manual.rs),manual:man/man1/plumanchor.1) \
  $(if $(wildcard tools/src/commands/completion.rs),completion-bash:bash-completion/completions/plumanchor \
  completion-zsh:zsh/site-functions/_plumanchor completion-fish:fish/vendor_completions.d/plumanchor.fish)

# Links that belong to what is installed: what follows makes them in a folder.
links := lib/$(soname) lib/libplumanchor.so
link = ln -sf libplumanchor.so.$(version) $(1)/lib/$(soname); ln -sf $(soname) $(1)/lib/libplumanchor.so

# All that is installed, as it is below PREFIX, but for the links.
stage: built $(shared)
	@rm -rf $(staged)
	@install -D -m 755 install/plumanchor $(staged)/bin/plumanchor
	@install -D -m 755 $(program) $(staged)/libexec/plumanchor/solve
	@install -D -m 755 $(tool) $(staged)/libexec/plumanchor/tool
	@install -D -m 644 $(static) $(staged)/lib/libplumanchor.a
	@install -D -m 755 $(shared) $(staged)/lib/libplumanchor.so.$(version)
	@install -D -m 644 include/plumanchor.h $(staged)/include/plumanchor.h
	@install -D -m 644 bindings/python/plumanchor.py $(staged)/share/plumanchor/python/plumanchor.py
	@install -d $(staged)/lib/pkgconfig $(staged)/share/plumanchor $(staged)/share/doc/plumanchor
	@sed 's/@VERSION@/$(version)/' install/plumanchor.pc > $(staged)/lib/pkgconfig/plumanchor.pc
	@for text in $(written); do file=$(staged)/share/$${text#*:}; words=$${text%%:*}; mkdir -p "$${file%/*}"; \
	  $(tool) $${words//-/ } > "$$file"; done
	@install -m 644 README.md CHANGELOG.md $(staged)/share/doc/plumanchor
	@install/told $(version) > $(staged)/share/doc/plumanchor/BUILD
	@{ find $(staged) -type f -printf '%P\n'; printf '%s\n' $(links) $(list); } | LC_ALL=C sort > build/installed
	@install -m 644 build/installed $(staged)/$(list)
	@chmod -R u=rwX,go=rX $(staged)

# File by file, so that folders that are there stay as they are. What only an earlier installation had goes.
install: stage
	@mkdir -p '$(target)'
	@! [[ -e '$(target)/$(list)' ]] || LC_ALL=C comm -23 '$(target)/$(list)' $(staged)/$(list) | (cd '$(target)' && xargs -r rm -f)
	@cd $(staged) && find . -type f -printf '%P\n' | while read -r file; do mkdir -p '$(target)'/"$${file%/*}"; \
	  cp --preserve=mode,timestamps --remove-destination "$$file" '$(target)'/"$$file"; done
	@$(call link,'$(target)')
	@echo "installed in $(target)"

# Folders go that are empty then.
uninstall:
	@[[ -e '$(target)/$(list)' ]] || { echo "make: Plumanchor isn't installed in $(target)" >&2; exit 1; }
	@cd '$(target)' && files=$$(cat $(list)) && for file in $$files; do rm -f "$$file"; done && \
	  for file in $$files; do ! [[ -d $${file%/*} ]] || rmdir -p --ignore-fail-on-non-empty "$${file%/*}"; done
	@echo "uninstalled from $(target)"

dist: stage
	@copy=$$(mktemp -d); trap 'rm -rf "$$copy"' EXIT; cp -a $(staged)/. "$$copy"; $(call link,"$$copy"); \
	  cp $(staged)/share/doc/plumanchor/BUILD "$$copy"/BUILD; \
	  tar --sort=name --owner=0 --group=0 --numeric-owner --mtime=@0 --transform 's,^\.,$(packed),' -C "$$copy" -cf - . \
	  | gzip -9n > build/$(packed).tar.gz
	@echo "build/$(packed).tar.gz"; cat $(staged)/share/doc/plumanchor/BUILD
