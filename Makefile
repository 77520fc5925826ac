# Installs the programs of dist/, the tools, manual pages and completions; makes a release of them.
#   make install [PREFIX=/usr/local] [DESTDIR=]
#   make uninstall [PREFIX=/usr/local] [DESTDIR=]
#   make dist [OUT=.]    the tar file of a release, and its checksum
#   make deb [OUT=.]     the same as a package for Debian
# All of them copy one tree, which `make` alone makes in $(BUILD).
SHELL = /bin/bash
.SHELLFLAGS = -euo pipefail -c
.ONESHELL:
.SILENT:
.PHONY: tree install uninstall dist deb

PREFIX = /usr/local
OUT = .
BUILD = build
VERSION := $(shell sed -nE 's/^\#\# ([0-9.]+).*/\1/p' CHANGELOG.md | head -n 1)
NAME = nfs3canon-$(VERSION)-linux-x86_64
TREE = $(BUILD)/$(NAME)
ROOT = $(DESTDIR)$(PREFIX)
PROGRAMS = nfs3canon nfs3mask nfs3streams
TOOLS = $(basename $(notdir $(wildcard tools/man/*.1)))

tree:
	umask 022
	rm -rf "$(TREE)" && mkdir -p "$(TREE)"
	put() { install -D -m "$${3:-644}" "$$1" "$(TREE)/$$2"; }
	page() { sed -E "$$names" "$$1" | put /dev/stdin "share/man/man1/$$2.1"; }
	names=$$(sed "s/TOOLS/$$(tr ' ' '|' <<<'$(TOOLS)')/" dev/installed-page.sed)
	for name in $(PROGRAMS); do
	  xz -dc "dist/$$name.xz" | put /dev/stdin "libexec/nfs3canon/$$name" 755
	  sed 's/@VERSION@/$(VERSION)/' dev/launcher.sh | put /dev/stdin "bin/$$name" 755
	  page "man/$$name.1" "$$name"
	  put "completions/$$name.bash" "share/bash-completion/completions/$$name"
	  put "completions/_$$name" "share/zsh/site-functions/_$$name"
	  put "completions/$$name.fish" "share/fish/vendor_completions.d/$$name.fish"
	done
	for tool in $(TOOLS); do
	  name=nfs3-$${tool//_/-}
	  put "tools/$$tool" "share/nfs3canon/tools/$$tool" 755
	  page "tools/man/$$tool.1" "$$name"
	  ln -s "../share/nfs3canon/tools/$$tool" "$(TREE)/bin/$$name"
	  ln -s nfs3canon "$(TREE)/share/bash-completion/completions/$$name"
	  ln -s nfs3canon.fish "$(TREE)/share/fish/vendor_completions.d/$$name.fish"
	done
	for name in writing recordings; do put "dev/$$name.sh" "libexec/nfs3canon/$$name.sh"; done
	find tools/nfs3tools -name '*.py' -o -name '*.css' -o -name '*.js' | while read -r file; do put "$$file" "share/nfs3canon/$$file"; done
	for file in CHANGELOG.md LICENSE-* docs/schemas/*.json; do put "$$file" "share/nfs3canon/$$file"; done

install: tree
	mkdir -p "$(ROOT)" && cp -a --no-preserve=ownership "$(TREE)/." "$(ROOT)"

uninstall: tree
	rm -rf "$(ROOT)/share/nfs3canon" "$(ROOT)/libexec/nfs3canon"
	(cd "$(TREE)" && find . ! -type d) | while read -r file; do rm -f "$(ROOT)/$$file"; done
	(cd "$(TREE)" && find . -mindepth 1 -depth -type d) | while read -r folder; do
	  rmdir "$(ROOT)/$$folder" 2>/dev/null || :
	done

dist: tree
	tar -C "$(BUILD)" --sort=name --owner=0 --group=0 --numeric-owner --mtime=@0 -c "$(NAME)" | xz -T1 >"$(OUT)/$(NAME).tar.xz"
	cd "$(OUT)" && sha256sum "$(NAME).tar.xz" >"$(NAME).tar.xz.sha256"

deb: tree
	umask 022
	root="$(BUILD)/deb" && rm -rf "$$root" && mkdir -p "$$root/DEBIAN" "$$root/usr/share/doc/nfs3canon"
	cp -a "$(TREE)/." "$$root/usr"
	gzip -n "$$root"/usr/share/man/man1/*.1
	mv "$$root/usr/share/zsh/site-functions" "$$root/usr/share/zsh/vendor-completions"
	cat LICENSE-MIT LICENSE-APACHE >"$$root/usr/share/doc/nfs3canon/copyright"
	gzip -nc CHANGELOG.md >"$$root/usr/share/doc/nfs3canon/changelog.gz"
	sed "s/@VERSION@/$(VERSION)/; s/@KILOBYTES@/$$(du -sk "$$root/usr" | cut -f 1)/" dev/debian-control >"$$root/DEBIAN/control"
	printf '#!/bin/sh\nset -e\nfind /usr/share/nfs3canon/tools -type d -name __pycache__ -prune -exec rm -rf {} +\n' >"$$root/DEBIAN/prerm"
	chmod 755 "$$root/DEBIAN/prerm"
	SOURCE_DATE_EPOCH=0 dpkg-deb --root-owner-group -Zxz --build "$$root" "$(OUT)/nfs3canon_$(VERSION)_amd64.deb"
