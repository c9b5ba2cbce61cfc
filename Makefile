# Installs the programs uca and ucasort with their manuals, the rules and bash's completions, and the library for C:
# make install PREFIX=.. (DESTDIR is respected). `make install-program` and `make install-library` install one of them.
# `make install-table TABLE=FILE` checks a table and installs it as the one that ucasort uses.
PREFIX ?= /usr/local
INSTALL ?= install

.PHONY: install install-program install-library install-table
install: install-program install-library

install-library:
	$(MAKE) -C bindings/c install PREFIX=$(PREFIX) DESTDIR=$(DESTDIR)

install-program:
	./uca --prove
	$(INSTALL) -d $(DESTDIR)$(PREFIX)/bin $(DESTDIR)$(PREFIX)/share/man/man1 $(DESTDIR)$(PREFIX)/share/uca/rules \
		$(DESTDIR)$(PREFIX)/share/bash-completion/completions $(DESTDIR)$(PREFIX)/share/doc/uca
	$(INSTALL) -m 755 crates/uca/out/uca $(DESTDIR)$(PREFIX)/bin/uca
	$(INSTALL) -m 755 ucasort $(DESTDIR)$(PREFIX)/bin/ucasort
	$(INSTALL) -m 644 tools/ucasort-keys.pl tools/ucasort-rules.pl $(DESTDIR)$(PREFIX)/share/uca
	$(INSTALL) -m 644 man/uca.1 man/ucasort.1 $(DESTDIR)$(PREFIX)/share/man/man1
	$(INSTALL) -m 644 rules/*.rules $(DESTDIR)$(PREFIX)/share/uca/rules
	$(INSTALL) -m 644 docs/LICENSE-UNICODE.txt $(DESTDIR)$(PREFIX)/share/doc/uca/LICENSE-UNICODE.txt
	$(INSTALL) -m 644 completions/uca.bash $(DESTDIR)$(PREFIX)/share/bash-completion/completions/uca
	$(INSTALL) -m 644 completions/ucasort.bash $(DESTDIR)$(PREFIX)/share/bash-completion/completions/ucasort

install-table:
	tools/install-table '$(TABLE)' '$(DESTDIR)$(PREFIX)/share/uca'
