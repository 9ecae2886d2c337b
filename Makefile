# Installs the program, and starts what tries it. The program that ships needs no building.
#
#     make                  says whether the program in dist/ is of these sources
#     make build            proves each crate and builds the program of these sources; needs the Rattle toolchain
#     make install          puts program, documents, manual page and completions below PREFIX, with DESTDIR in front of it
#     make uninstall        takes them away
#     make test             tries the program in dist/ on rows, examples and messages
#     make check            the gate: proves, tests and builds everything; needs the Rattle toolchain

PREFIX = /usr/local
DESTDIR =
SHIPPED = dist/princess-x86_64-linux
SHARE = $(DESTDIR)$(PREFIX)/share
PAGES = $(notdir $(wildcard docs/*.md docs/*.svg))

.PHONY: all build install uninstall test check

all:
	@[ "$$(sed -n 's/^program: //p' dist/MADE)" = "$$(sha256sum $(SHIPPED) | cut -d' ' -f1)" ] || \
	    { echo "$(SHIPPED) is not the program that dist/MADE names" >&2; exit 1; }
	@[ "$$(sed -n 's/^sources: //p' dist/MADE)" = "$$(dist/sum)" ] || \
	    { echo "$(SHIPPED) is not of these sources, by the sums of dist/MADE; make build builds the program of these sources" >&2; exit 1; }
	@echo "$(SHIPPED) is of these sources, by the sums of dist/MADE"

build:
	cd crates/princess_cli && rt run -- --version </dev/null
	@echo "built: crates/princess_cli/out/princess_cli"

install: all
	install -d "$(DESTDIR)$(PREFIX)/bin" "$(SHARE)/doc/princess" "$(SHARE)/man/man1" "$(SHARE)/bash-completion/completions" \
	    "$(SHARE)/zsh/site-functions" "$(SHARE)/fish/vendor_completions.d"
	install -m 755 $(SHIPPED) "$(DESTDIR)$(PREFIX)/bin/princess"
	install -m 644 $(addprefix docs/,$(PAGES)) dist/MADE "$(SHARE)/doc/princess"
	install -m 644 share/princess.1 "$(SHARE)/man/man1/princess.1"
	install -m 644 share/completions/princess.bash "$(SHARE)/bash-completion/completions/princess"
	install -m 644 share/completions/_princess "$(SHARE)/zsh/site-functions/_princess"
	install -m 644 share/completions/princess.fish "$(SHARE)/fish/vendor_completions.d/princess.fish"

uninstall:
	rm -f "$(DESTDIR)$(PREFIX)/bin/princess" "$(SHARE)/man/man1/princess.1" "$(SHARE)/bash-completion/completions/princess" \
	    "$(SHARE)/zsh/site-functions/_princess" "$(SHARE)/fish/vendor_completions.d/princess.fish"
	rm -rf "$(SHARE)/doc/princess"

test:
	bench/quick

check:
	.ci/run
